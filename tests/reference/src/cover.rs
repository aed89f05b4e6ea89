//! Counts of what lists of calls met, and what they never met.

use crate::beside;
use crate::events::{Events, EVENTS};
use crate::fills::{Fills, FILLS};
use crate::held::{self, HeldAnswer, HeldCall, SETTLE_KIND};
use crate::list_loads::{Loads, LOADS};
use crate::list_services::{Services, SERVICES};
use crate::lists::{self, Given, Record, OPEN_KIND, OPEN_LIMIT_KIND};
use crate::parts::*;
use crate::settle::{self, Settled};
use crate::settles::{Log, Settles};
use crate::summary::{fmt_counts, kind_name};
use std::collections::{BTreeMap, BTreeSet};
use std::fmt::{self, Display, Formatter};

/// What a settle can find, and what it can come to.
const SETTLES: [&str; 13] = [
    "a quiet store",
    "an open service",
    "a grant on its way",
    "an order on its way",
    "an answer on its way",
    "an eject on its way",
    "two messages in a return queue",
    "two messages in a down queue",
    "an unserved operation",
    "two completions on one word",
    "eight completions on one word",
    "as many steps as the bound",
    "more than 100 steps",
];

/// The answers that each kind of call must have met; on lists that begin
/// with an opening nothing else is possible, short of 2^32 begins.
const ANSWERS: [(u8, &[&str]); 10] = [
    (OPEN_KIND, &["opened", "refused 5"]),
    (OPEN_LIMIT_KIND, &["opened", "refused 5", "refused 18"]),
    (1, &["done", "wait", "refused 6", "refused 7", "refused 8", "refused 14"]),
    (2, &["done", "wait", "refused 6", "refused 7", "refused 8", "refused 14"]),
    (3, &["done", "wait", "refused 6", "refused 7", "refused 8", "refused 14"]),
    (4, &["done", "wait", "refused 6", "refused 7", "refused 8", "refused 14"]),
    (5, &["step", "refused 6", "refused 9", "refused 10", "refused 11", "refused 14"]),
    (6, &["step", "refused 6", "refused 9", "refused 14"]),
    (7, &["done", "step", "refused 6", "refused 9", "refused 14"]),
    (SETTLE_KIND, &["settled", "refused 14"]),
];

#[derive(Default)]
pub struct Cover {
    pub calls: usize,
    pub lists: usize,
    shown: usize,
    longest_list: usize,
    this_list: usize,
    answers: BTreeMap<(u8, String), usize>,
    /// Settles by the count of completions.
    completions: BTreeMap<usize, usize>,
    settles: BTreeMap<&'static str, usize>,
    /// By their orders.
    pub by_orders: Settles,
    highest_place: u32,
    longest: u32,
    steps: usize,
    /// Calls on their own, and the steps inside settles.
    events: Events,
    inside: Events,
    /// Both.
    pub fills: Fills,
    /// Lists to which the rule before W3 gives other bytes, at all and in the
    /// answer to a call; and whether it does to the list so far.
    pub other_bytes: [usize; 2],
    other_so_far: [bool; 2],
    pub loads: Loads,
    /// The same for the machine before W5, at all.
    pub other_before_w5: usize,
    other_before_w5_so_far: bool,
    pub services: Services,
    /// The same for the machine before W6, of lists with L above 1.
    pub other_before_w6: usize,
    other_before_w6_so_far: bool,
    /// Of lists with L = 1: there must be none.
    pub other_at_one: usize,
    shapes: BTreeSet<(u8, u8, u8)>,
}

/// The counts over the records of whole lists.
pub fn cover(records: &[Record]) -> Cover {
    let mut cover = Cover::default();
    let [mut store, mut former, mut before_w5, mut before_w6] = [(); 4].map(|_| lists::blank());
    for &record in records {
        let before = store.clone();
        let bounds = [&store, &former, &before_w5].map(held::bound_bytes);
        let given = lists::run(&mut store, record);
        let formerly = lists::run_under(&mut former, record, Rule::FillsNewest);
        let without_w5 = beside::wrong_run(&mut before_w5, record, beside::BEFORE_W5);
        let bound_w6 = held::bound_bytes_under(&before_w6, Rule::BeforeW6);
        let without_w6 = lists::run_under(&mut before_w6, record, Rule::BeforeW6);
        cover.see(record, &given, &before, &store);
        let bytes = lists::answer_bytes(record, &given, bounds[0]);
        cover.compare(record, bytes == lists::answer_bytes(record, &formerly, bounds[1]));
        cover.compare_w5(bytes == lists::answer_bytes(record, &without_w5, bounds[2]));
        let same = bytes == lists::answer_bytes(record, &without_w6, bound_w6);
        cover.compare_w6(same, store.limit);
    }
    cover
}

impl Cover {
    fn see(&mut self, record: Record, given: &Given, before: &Store, after: &Store) {
        match record {
            Record::Show => self.shown += 1,
            Record::Open { n, c, m } | Record::OpenLimit { n, c, m, .. } => {
                self.this_list = 0;
                self.fills.open();
                self.loads.clear();
                (self.other_so_far, self.other_before_w5_so_far) = ([false; 2], false);
                self.other_before_w6_so_far = false;
                let kind = record.bytes()[0];
                self.answer(kind, given);
                if *given == Given::Opened {
                    self.services.open(kind, after);
                    self.lists += 1;
                    self.shapes.insert((n, c, m));
                }
            }
            Record::Call(call) => {
                self.calls += 1;
                self.this_list += 1;
                self.highest_place = self.highest_place.max(after.completed);
                self.longest_list = self.longest_list.max(self.this_list);
                self.answer(call.kind(), given);
                self.see_call(call, given, before, after);
            }
        }
    }

    /// Whether the rule before W3 gives the same bytes to a record.
    fn compare(&mut self, record: Record, same: bool) {
        for (i, counts) in [true, record != Record::Show].into_iter().enumerate() {
            if counts && !same && !self.other_so_far[i] {
                self.other_so_far[i] = true;
                self.other_bytes[i] += 1;
            }
        }
    }

    /// Whether the machine before W5 does.
    fn compare_w5(&mut self, same: bool) {
        if !same && !self.other_before_w5_so_far {
            self.other_before_w5_so_far = true;
            self.other_before_w5 += 1;
        }
    }

    /// Whether the machine before W6 does, in a list with this L.
    fn compare_w6(&mut self, same: bool, limit: u8) {
        if !same && !self.other_before_w6_so_far {
            self.other_before_w6_so_far = true;
            match limit {
                1 => self.other_at_one += 1,
                _ => self.other_before_w6 += 1,
            }
        }
    }

    fn answer(&mut self, kind: u8, given: &Given) {
        let name = match given {
            Given::Opened => "opened".to_string(),
            Given::Answer(HeldAnswer::Machine(Answer::Done { .. })) => "done".to_string(),
            Given::Answer(HeldAnswer::Machine(Answer::Wait)) => "wait".to_string(),
            Given::Answer(HeldAnswer::Machine(Answer::Step)) => "step".to_string(),
            Given::Answer(HeldAnswer::Settled(_)) => "settled".to_string(),
            Given::Answer(HeldAnswer::Refused(number)) => format!("refused {number}"),
            Given::Answer(HeldAnswer::Picture(_)) | Given::Store(_) => "other".to_string(),
        };
        *self.answers.entry((kind, name)).or_default() += 1;
    }

    fn see_call(&mut self, call: HeldCall, given: &Given, before: &Store, after: &Store) {
        if let (HeldCall::Machine(call), Given::Answer(answer)) = (call, given) {
            self.loads.see(call, answer, before);
            self.services.see(call, answer, before, after);
        }
        match (call, given) {
            (HeldCall::Machine(call), Given::Answer(HeldAnswer::Machine(_))) => {
                self.events.see(call, before, after);
                self.fills.see(call, before, after);
            }
            (HeldCall::Settle, Given::Answer(HeldAnswer::Settled(settled))) => {
                self.see_settle(before, settled);
                self.services.see_settle(before);
                self.loads.clear();
            }
            _ => {}
        }
    }

    fn see_settle(&mut self, before: &Store, settled: &Settled) {
        *self.completions.entry(settled.completions.len()).or_default() += 1;
        self.longest = self.longest.max(settled.steps);
        self.steps += settled.steps as usize;
        let most = most_on_one_word(before, settled);
        let bound = settle::bound(before);
        let found =
            [most >= 2, most >= 8, bound > 0 && settled.steps == bound, settled.steps > 100];
        let met = found_by_settle(before).into_iter().chain(found);
        for (name, _) in SETTLES.iter().zip(met).filter(|(_, met)| *met) {
            *self.settles.entry(name).or_default() += 1;
        }
        self.by_orders.see(&Log::of(before));
        self.see_steps(before);
    }

    /// The steps of a settle that is not refused.
    fn see_steps(&mut self, before: &Store) {
        let mut now = before.clone();
        while let Some(step) = settle::next_step(&now) {
            let after = crate::machine::call(&now, step).expect("settle was not refused").0;
            self.inside.see(step, &now, &after);
            self.fills.see(step, &now, &after);
            self.services.see_step(&after);
            now = after;
        }
    }

    /// What was never met; empty if the lists cover all.
    pub fn never_met(&self) -> Vec<String> {
        let mut never = Vec::new();
        for (kind, names) in ANSWERS {
            let missing =
                names.iter().filter(|n| !self.answers.contains_key(&(kind, n.to_string())));
            never.extend(missing.map(|name| format!("{} {name}", kind_name(kind))));
        }
        let counts = (0..=LANES).filter(|count| !self.completions.contains_key(count));
        never.extend(counts.map(|count| format!("settle with {count} completions")));
        let found = SETTLES.iter().filter(|name| !self.settles.contains_key(*name));
        never.extend(found.map(|name| format!("settle: {name}")));
        let orders = self.by_orders.never_met().into_iter();
        never.extend(orders.map(|name| format!("settle: {name}")));
        never.extend(self.events.never_met().into_iter().map(str::to_string));
        let orders = (0..LANES).filter(|&count| self.events.orders[count] == 0);
        never.extend(orders.map(|count| format!("serve with {count} orders")));
        let orders = (0..LANES).filter(|&count| self.inside.orders[count] == 0);
        never.extend(orders.map(|count| format!("serve with {count} orders inside settle")));
        let fills = FILLS.iter().filter(|name| !self.fills.counts.contains_key(*name));
        never.extend(fills.map(|name| name.to_string()));
        if self.other_bytes.contains(&0) {
            never.push("the rule before W3 gives other bytes".to_string());
        }
        let loads = LOADS.iter().filter(|name| !self.loads.counts.contains_key(*name));
        never.extend(loads.map(|name| name.to_string()));
        if self.other_before_w5 == 0 {
            never.push("the machine before W5 gives other bytes".to_string());
        }
        never.extend(self.services.never_met());
        if self.other_before_w6 == 0 {
            never.push("the machine before W6 gives other bytes".to_string());
        }
        if self.highest_place <= u32::from(u8::MAX) {
            never.push(format!("places: only up to {}", self.highest_place));
        }
        if self.shapes.len() < crate::list_maker::SHAPES {
            never.push(format!("shapes: only {}", self.shapes.len()));
        }
        never
    }

    /// Answers that no list from an opening can have.
    pub fn impossible(&self) -> Vec<String> {
        let known = |kind: u8, name: &str| {
            ANSWERS.iter().any(|(k, names)| *k == kind && names.contains(&name))
        };
        let odd = self.answers.keys().filter(|(kind, name)| !known(*kind, name));
        let odd = odd.map(|(kind, name)| format!("{} {name}", kind_name(*kind)));
        let at_one = (self.other_at_one > 0).then(|| "L = 1 shows another than before".to_string());
        odd.chain(at_one).collect()
    }
}

/// The first nine of `SETTLES`, of the store before.
fn found_by_settle(s: &Store) -> [bool; 9] {
    let lanes = &s.lanes[..usize::from(s.n)];
    let down = |test: fn(DownKind) -> bool| {
        let messages = |l: &Lane| l.down.places[..usize::from(l.down.length)].to_vec();
        lanes.iter().flat_map(messages).any(|message| test(message.kind))
    };
    let returns = |test: fn(ReturnKind) -> bool| {
        let messages = |l: &Lane| l.returns.places[..usize::from(l.returns.length)].to_vec();
        lanes.iter().flat_map(messages).any(|message| test(message.kind))
    };
    [
        s.quiet(),
        s.open_services() > 0,
        down(|kind| !kind.is_order()),
        down(DownKind::is_order),
        returns(ReturnKind::is_answer),
        returns(|kind| !kind.is_answer()),
        lanes.iter().any(|lane| lane.returns.length == 2),
        lanes.iter().any(|lane| lane.down.length == 2),
        lanes.iter().any(Lane::unserved),
    ]
}

/// How many completions of a settle are of the same word.
fn most_on_one_word(before: &Store, settled: &Settled) -> usize {
    let mut counts = [0; 256];
    for done in &settled.completions {
        let waiting = before.lanes[usize::from(done.lane)].waiting.expect("a waiting operation");
        counts[usize::from(waiting.word)] += 1;
    }
    counts.into_iter().max().unwrap_or(0)
}

impl Display for Cover {
    fn fmt(&self, f: &mut Formatter) -> fmt::Result {
        writeln!(f, "calls {}", self.calls)?;
        writeln!(
            f,
            "lists {} of {} shapes, longest list {} calls, stores shown {}",
            self.lists,
            self.shapes.len(),
            self.longest_list,
            self.shown
        )?;
        self.fmt_answers(f)?;
        let parts: Vec<String> =
            self.completions.iter().map(|(count, n)| format!("{count}: {n}")).collect();
        writeln!(f, "settles by the count of completions: {}", parts.join(", "))?;
        writeln!(f, "highest place {}", self.highest_place)?;
        writeln!(f, "steps inside settles {}, longest settle {} steps", self.steps, self.longest)?;
        writeln!(f, "settles that met")?;
        fmt_counts(f, &SETTLES, &self.settles)?;
        write!(f, "{}", self.by_orders)?;
        writeln!(f, "events (calls, steps inside settles):")?;
        self.fmt_events(f)?;
        writeln!(f, "serves with 0 to 7 orders: {:?}", self.events.orders)?;
        writeln!(f, "serves with 0 to 7 orders inside settles: {:?}", self.inside.orders)?;
        writeln!(f, "fills of two lines or more:")?;
        fmt_counts(f, &FILLS, &self.fills.counts)?;
        let [lists, in_answers] = self.other_bytes;
        writeln!(f, "lists to which the rule before W3 gives other bytes: {lists}")?;
        writeln!(f, "of these in the answer to a call: {in_answers}")?;
        self.fmt_services(f)
    }
}

impl Cover {
    /// Loads beside a wait, services and the limit.
    fn fmt_services(&self, f: &mut Formatter) -> fmt::Result {
        for name in LOADS {
            writeln!(f, "{name}: {}", self.loads.counts.get(name).unwrap_or(&0))?;
        }
        let lists = self.other_before_w5;
        writeln!(f, "lists to which the machine before W5 gives other bytes: {lists}")?;
        for name in SERVICES {
            writeln!(f, "{name}: {}", self.services.counts.get(name).unwrap_or(&0))?;
        }
        let (returns, down) = self.services.longest;
        writeln!(f, "longest return queue {returns}, longest down queue {down}")?;
        writeln!(f, "n with L: {} of 56", self.services.limits.len())?;
        let lists = self.other_before_w6;
        writeln!(
            f,
            "lists with L above 1 to which the machine before W6 gives other bytes: {lists}"
        )
    }

    /// A line for each kind of call.
    fn fmt_answers(&self, f: &mut Formatter) -> fmt::Result {
        for (kind, _) in ANSWERS {
            let of_kind = self.answers.iter().filter(|((k, _), _)| *k == kind);
            let parts: Vec<String> = of_kind.map(|((_, name), n)| format!("{name} {n}")).collect();
            writeln!(f, "{}: {}", kind_name(kind), parts.join(", "))?;
        }
        Ok(())
    }

    /// A line for each event.
    fn fmt_events(&self, f: &mut Formatter) -> fmt::Result {
        for name in EVENTS {
            writeln!(f, "  {name}: {}, {}", self.events.of(name), self.inside.of(name))?;
        }
        Ok(())
    }
}

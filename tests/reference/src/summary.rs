//! Counts of what tapes and cases met, for print.

use crate::beside;
use crate::conditions::{self, REASONS, UNEXPECTED_REASONS};
use crate::events::{Events, BESIDE, EVENTS};
use crate::held::{HeldAnswer, HeldCall, PICTURE_KIND, SETTLE_KIND};
use crate::orders;
use crate::parts::*;
use crate::pictures;
use crate::places;
use crate::service_faults;
use crate::services;
use crate::settle;
use crate::settles::Settles;
use crate::situations;
use crate::stores::{Case, SOURCES};
use crate::tape::{self, Event, Outcome, Record};
use std::collections::{BTreeMap, BTreeSet};
use std::fmt::{self, Display, Formatter};

const KINDS: [&str; 9] =
    ["open", "load", "store", "exchange", "add", "serve", "return", "deliver", "open with L"];

/// Numbers that a tape can give if the machine lets it.
const TAPE_NUMBERS: [u8; 17] = [1, 2, 3, 4, 5, 6, 7, 8, 9, 10, 11, 12, 13, 14, 16, 17, 18];

/// Counts over tapes.
#[derive(Default)]
pub struct Tapes {
    pub tapes: usize,
    pub too_long: usize,
    pub lines: usize,
    pub refused: BTreeMap<u8, usize>,
    pub events: Events,
    pub shapes: BTreeSet<(u8, u8, u8)>,
    pub highest_place: u32,
    /// Those with a load done beside a wait.
    pub beside: usize,
    /// Records of kind 08, by what they gave; accepted ones by L.
    pub limit_opens: BTreeMap<String, usize>,
    /// Serves refused by 10, by why.
    pub busy: BTreeMap<&'static str, usize>,
    /// Records after which so many services are open.
    pub open_services: BTreeMap<usize, usize>,
    pub longest_queue: u8,
    bytes: usize,
    empty: usize,
    kinds: BTreeMap<&'static str, usize>,
    answers: BTreeMap<&'static str, usize>,
}

impl Tapes {
    pub fn add(&mut self, bytes: &[u8]) {
        self.tapes += 1;
        self.bytes += bytes.len();
        self.empty += usize::from(bytes.is_empty());
        let before = self.events.of(BESIDE);
        if let Err(number) = tape::replay(bytes, &mut |event| self.see(event)) {
            self.too_long += 1;
            *self.refused.entry(number).or_default() += 1;
        }
        self.beside += usize::from(self.events.of(BESIDE) > before);
    }

    fn see(&mut self, event: &Event) {
        self.lines += 1;
        let kind = KINDS.get(usize::from(event.kind)).unwrap_or(&"unknown");
        *self.kinds.entry(kind).or_default() += 1;
        let answer = match event.outcome {
            Outcome::Open => "open",
            Outcome::Answer(Answer::Done(done)) => {
                self.highest_place = self.highest_place.max(done.place);
                "done"
            }
            Outcome::Answer(Answer::Wait) => "wait",
            Outcome::Answer(Answer::Step) => "step",
            Outcome::Refused(number) => {
                *self.refused.entry(number).or_default() += 1;
                "refused"
            }
        };
        *self.answers.entry(answer).or_default() += 1;
        self.see_services(event);
        match (event.record, event.outcome, event.before, event.after) {
            (_, Outcome::Open, _, Some(s)) => {
                self.shapes.insert((s.n, s.c, s.m));
            }
            (Some(Record::Call(call)), Outcome::Answer(_), Some(before), Some(after)) => {
                self.events.see(call, before, after);
            }
            _ => {}
        }
    }
}

/// Why 10 refuses a serve.
pub const BUSY: [&str; 3] = ["the block alone", "L alone", "both"];

/// Of a store in which 10 refuses a serve of lane k.
pub fn busy_for(s: &Store, k: u8) -> &'static str {
    let waiting = s.lanes[usize::from(k)].waiting.expect("an unserved operation");
    let in_service = s.slot_of(waiting.block()).is_some();
    match (in_service, s.open_services() >= usize::from(s.limit)) {
        (true, false) => BUSY[0],
        (false, _) => BUSY[1],
        (true, true) => BUSY[2],
    }
}

impl Tapes {
    /// W6's: openings of kind 08, services open at once, 10, long queues.
    fn see_services(&mut self, event: &Event) {
        let opened = match (event.kind, event.outcome, event.after) {
            (0x08, Outcome::Open, Some(s)) => Some(format!("open with L {}", s.limit)),
            (0x08, Outcome::Refused(number), _) => Some(format!("refused {number}")),
            _ => None,
        };
        opened.into_iter().for_each(|name| *self.limit_opens.entry(name).or_default() += 1);
        if let (Some(Record::Call(Call::Serve(k))), Outcome::Refused(10), Some(s)) =
            (event.record, event.outcome, event.before)
        {
            *self.busy.entry(busy_for(s, k)).or_default() += 1;
        }
        if let Some(s) = event.after {
            *self.open_services.entry(s.open_services()).or_default() += 1;
            self.longest_queue = self.longest_queue.max(longest_queue(s));
        }
    }
}

/// The length of the longest queue.
pub fn longest_queue(s: &Store) -> u8 {
    service_faults::lengths(s).into_iter().max().unwrap_or(0)
}

fn pairs<K: Display>(map: &BTreeMap<K, usize>) -> String {
    let parts: Vec<String> = map.iter().map(|(key, count)| format!("{key} {count}")).collect();
    parts.join(", ")
}

impl Display for Tapes {
    fn fmt(&self, f: &mut Formatter) -> fmt::Result {
        writeln!(
            f,
            "tapes {} (empty {}, too long {}), bytes {}",
            self.tapes, self.empty, self.too_long, self.bytes
        )?;
        writeln!(f, "records read (lines before `end`) {}", self.lines)?;
        writeln!(f, "kinds: {}", pairs(&self.kinds))?;
        writeln!(f, "answers: {}", pairs(&self.answers))?;
        writeln!(f, "highest place {}", self.highest_place)?;
        writeln!(f, "tapes with a load done beside a wait {}", self.beside)?;
        writeln!(f, "kind 08: {}", pairs(&self.limit_opens))?;
        writeln!(f, "10 for: {}", pairs(&self.busy))?;
        writeln!(f, "records by services open after: {}", pairs(&self.open_services))?;
        writeln!(f, "longest queue {}", self.longest_queue)?;
        writeln!(f, "refusals: {}", pairs(&self.refused))?;
        let never = TAPE_NUMBERS.iter().filter(|number| !self.refused.contains_key(number));
        let never: Vec<String> = never.map(u8::to_string).collect();
        writeln!(f, "refusals never met: {}", never.join(", "))?;
        writeln!(f, "events:")?;
        for name in EVENTS {
            writeln!(f, "  {name}: {}", self.events.of(name))?;
        }
        writeln!(f, "serves with 0 to 7 orders: {:?}", self.events.orders)?;
        let distinct = |part: fn(&(u8, u8, u8)) -> u8| {
            self.shapes.iter().map(part).collect::<BTreeSet<u8>>().len()
        };
        let (n, c, m) = (distinct(|s| s.0), distinct(|s| s.1), distinct(|s| s.2));
        writeln!(f, "shapes opened {}; n {n} of 7, c {c} of 8, m {m} of 64", self.shapes.len())
    }
}

/// Counts over held cases.
#[derive(Default)]
pub struct Cases {
    pub cases: usize,
    /// By call kind and answer; a refusal by its number.
    pub given: BTreeMap<(u8, String), usize>,
    /// By call kind, number given, and another that held too.
    pub passed_over: BTreeMap<(u8, u8, u8), usize>,
    /// By reason of 14: all, and as the only reason.
    pub reasons: BTreeMap<&'static str, (usize, usize)>,
    /// By reason of 16, where 16 was given: all, and as the only reason.
    pub unexpected_reasons: BTreeMap<&'static str, (usize, usize)>,
    /// By damage: all, and not corrupt after all.
    pub damages: BTreeMap<&'static str, (usize, usize)>,
    pub situations: BTreeMap<&'static str, usize>,
    pub places: BTreeMap<&'static str, usize>,
    pub pictures: BTreeMap<&'static str, usize>,
    pub orders: BTreeMap<&'static str, usize>,
    /// Begins on lanes that wait.
    pub beside: BTreeMap<&'static str, usize>,
    /// Services, the limit and long queues.
    pub services: BTreeMap<&'static str, usize>,
    /// Settles that were not refused, by the count of completions.
    pub settled: BTreeMap<usize, usize>,
    /// The same, by their orders.
    pub by_orders: Settles,
    /// Refused settles, by the reason of 14 and of 16.
    pub settle_reasons: BTreeMap<&'static str, usize>,
    /// Settles refused after steps, and of these after a completion.
    pub undone: (usize, usize),
    longest: u32,
    sources: BTreeMap<&'static str, usize>,
}

impl Cases {
    pub fn add(&mut self, case: &Case, answer: &HeldAnswer) {
        self.cases += 1;
        *self.sources.entry(case.source).or_default() += 1;
        self.add_answer(case, answer);
        for situation in situations::met(&case.store, case.call, answer) {
            *self.situations.entry(situation).or_default() += 1;
        }
        for name in places::met(&case.store, case.call, answer) {
            *self.places.entry(name).or_default() += 1;
        }
        for name in pictures::met(&case.store, answer) {
            *self.pictures.entry(name).or_default() += 1;
        }
        for name in orders::met(&case.store, case.call, answer) {
            *self.orders.entry(name).or_default() += 1;
        }
        for name in beside::met(&case.store, case.call, answer) {
            *self.beside.entry(name).or_default() += 1;
        }
        for name in services::met(&case.store, case.call, answer) {
            *self.services.entry(name).or_default() += 1;
        }
        self.by_orders.add(&case.store, answer);
        let reasons = conditions::corrupt_reasons(&case.store);
        add_reasons(&mut self.reasons, &reasons);
        self.add_damages(case, reasons.is_empty());
    }

    fn add_answer(&mut self, case: &Case, answer: &HeldAnswer) {
        let name = match answer {
            HeldAnswer::Machine(Answer::Done { .. }) => "done".to_string(),
            HeldAnswer::Machine(Answer::Wait) => "wait".to_string(),
            HeldAnswer::Machine(Answer::Step) => "step".to_string(),
            HeldAnswer::Picture(_) => "picture".to_string(),
            HeldAnswer::Settled(given) => {
                self.longest = self.longest.max(given.steps);
                *self.settled.entry(given.completions.len()).or_default() += 1;
                "settled".to_string()
            }
            &HeldAnswer::Refused(number) => {
                self.add_refusal(case, number);
                number.to_string()
            }
        };
        *self.given.entry((case.call.kind(), name)).or_default() += 1;
    }

    fn add_damages(&mut self, case: &Case, sound: bool) {
        for damage in &case.damages {
            let counts = self.damages.entry(damage).or_default();
            counts.0 += 1;
            counts.1 += usize::from(sound);
        }
    }

    fn add_refusal(&mut self, case: &Case, number: u8) {
        if number == 16 {
            let reasons = conditions::unexpected_reasons(&case.store, case.call);
            add_reasons(&mut self.unexpected_reasons, &reasons);
        }
        if case.call == HeldCall::Settle {
            self.add_refused_settle(&case.store, number);
        }
        for also in conditions::all(&case.store, case.call) {
            if also != number {
                let key = (case.call.kind(), number, also);
                *self.passed_over.entry(key).or_default() += 1;
            }
        }
    }

    fn add_refused_settle(&mut self, store: &Store, number: u8) {
        let reasons = match number {
            14 => conditions::corrupt_reasons(store),
            16 => conditions::unexpected_reasons(store, HeldCall::Settle),
            _ => Vec::new(),
        };
        for reason in reasons {
            *self.settle_reasons.entry(reason).or_default() += 1;
        }
        if number != 14 {
            let (steps, completions) = settle::before_refusal(store);
            self.undone.0 += usize::from(steps > 0);
            self.undone.1 += usize::from(completions > 0);
        }
    }

    /// How often a call of the kind was refused with the number.
    pub fn refused(&self, kind: u8, number: u8) -> usize {
        *self.given.get(&(kind, number.to_string())).unwrap_or(&0)
    }
}

/// Counts reasons: all, and as the only one.
fn add_reasons(counts: &mut BTreeMap<&'static str, (usize, usize)>, reasons: &[&'static str]) {
    for reason in reasons {
        let entry = counts.entry(reason).or_default();
        entry.0 += 1;
        entry.1 += usize::from(reasons.len() == 1);
    }
}

pub const HELD_KINDS: [u8; 9] = [1, 2, 3, 4, 5, 6, 7, PICTURE_KIND, SETTLE_KIND];

pub fn kind_name(kind: u8) -> &'static str {
    match kind {
        PICTURE_KIND => "picture",
        SETTLE_KIND => "settle",
        _ => KINDS.get(usize::from(kind)).unwrap_or(&"unknown"),
    }
}

impl Display for Cases {
    fn fmt(&self, f: &mut Formatter) -> fmt::Result {
        writeln!(f, "cases {}", self.cases)?;
        fmt_counts(f, &SOURCES, &self.sources)?;
        self.fmt_refused(f)?;
        writeln!(f, "places:")?;
        fmt_counts(f, &places::NAMES, &self.places)?;
        writeln!(f, "pictures, not refused:")?;
        fmt_counts(f, &pictures::NAMES, &self.pictures)?;
        writeln!(f, "use orders, of completions and settles:")?;
        fmt_counts(f, &orders::NAMES, &self.orders)?;
        writeln!(f, "begins on lanes that wait:")?;
        fmt_counts(f, &beside::NAMES, &self.beside)?;
        writeln!(f, "services, the limit and long queues:")?;
        fmt_counts(f, &services::names(), &self.services)?;
        for kind in HELD_KINDS {
            writeln!(f, "{}:{}", kind_name(kind), self.answers_of(kind))?;
        }
        self.fmt_details(f)
    }
}

/// A line for each name: how often it was met.
pub fn fmt_counts(
    f: &mut Formatter,
    names: &[&str],
    counts: &BTreeMap<&'static str, usize>,
) -> fmt::Result {
    for name in names {
        writeln!(f, "  {name}: {}", counts.get(name).unwrap_or(&0))?;
    }
    Ok(())
}

/// A line for each name: all, and those of a narrower sense.
fn fmt_pairs(
    f: &mut Formatter,
    names: &[&str],
    counts: &BTreeMap<&'static str, (usize, usize)>,
) -> fmt::Result {
    for name in names {
        let (all, alone) = counts.get(name).copied().unwrap_or_default();
        writeln!(f, "  {name}: {all}, {alone}")?;
    }
    Ok(())
}

impl Cases {
    /// A line for each number, over all kinds of call.
    fn fmt_refused(&self, f: &mut Formatter) -> fmt::Result {
        for number in conditions::ORDER {
            let total: usize = HELD_KINDS.iter().map(|&kind| self.refused(kind, number)).sum();
            writeln!(f, "refused {number} in all: {total}")?;
        }
        Ok(())
    }

    /// What the calls of a kind were answered, and how often.
    fn answers_of(&self, kind: u8) -> String {
        let answer = |name: &&str| {
            let count = self.given.get(&(kind, name.to_string()))?;
            Some(format!(" {name} {count}"))
        };
        let refusal = |number: &u8| format!(" refused-{number} {}", self.refused(kind, *number));
        let answers = ["done", "wait", "step", "picture", "settled"].iter().filter_map(answer);
        answers.chain(conditions::applicable(kind).iter().map(refusal)).collect()
    }

    /// A line for each kind of call: the numbers passed over.
    fn fmt_passed_over(&self, f: &mut Formatter) -> fmt::Result {
        for kind in HELD_KINDS {
            let of_kind = self.passed_over.iter().filter(|((k, _, _), _)| *k == kind);
            let parts: Vec<String> = of_kind
                .map(|((_, given, also), count)| format!("{given}<{also} {count}"))
                .collect();
            writeln!(f, "  {}: {}", kind_name(kind), parts.join(", "))?;
        }
        Ok(())
    }

    fn fmt_details(&self, f: &mut Formatter) -> fmt::Result {
        writeln!(f, "number given before another that held too:")?;
        self.fmt_passed_over(f)?;
        writeln!(f, "settled, by the count of completions: {}", pairs(&self.settled))?;
        writeln!(f, "longest settle: {} steps", self.longest)?;
        write!(f, "{}", self.by_orders)?;
        let (steps, completions) = self.undone;
        writeln!(f, "settles refused after steps: {steps}, after completions: {completions}")?;
        writeln!(f, "reasons of 14 and 16 in refused settles:")?;
        fmt_counts(f, &REASONS, &self.settle_reasons)?;
        fmt_counts(f, &UNEXPECTED_REASONS, &self.settle_reasons)?;
        writeln!(f, "situations, not refused:")?;
        fmt_counts(f, &situations::NAMES, &self.situations)?;
        writeln!(f, "reasons of 14 (stores, stores with no other reason):")?;
        fmt_pairs(f, &REASONS, &self.reasons)?;
        writeln!(f, "reasons of 16 where given (cases, cases with no other reason):")?;
        fmt_pairs(f, &UNEXPECTED_REASONS, &self.unexpected_reasons)?;
        writeln!(f, "damage (stores, of these not corrupt):")?;
        let damages: Vec<&str> = self.damages.keys().copied().collect();
        fmt_pairs(f, &damages, &self.damages)
    }
}

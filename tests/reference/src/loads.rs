//! Counts of what made begins on lanes that wait meet, and of the wrong machines
//! that they tell.

use crate::beside::{self, Beside, WRONG};
use crate::held::{self, HeldAnswer, HeldCall};
use crate::parts::*;
use crate::summary::{fmt_counts, kind_name};
use std::collections::BTreeMap;
use std::fmt::{self, Display, Formatter};

type Test = fn(&Beside) -> bool;

/// Loads that are done.
pub const DONE: [(&str, Test); 17] = [
    ("done, of the block waited for, EXCLUDE unserved", |it| excludes(it) && !it.waiting.served),
    ("done, of the block waited for, EXCLUDE served", |it| excludes(it) && it.waiting.served),
    ("done, of the block waited for, the grant queued", |it| excludes(it) && it.granted()),
    ("done, of another block, what waits unserved", |it| !it.same_block() && !it.waiting.served),
    ("done, of another block, what waits served", |it| !it.same_block() && it.waiting.served),
    ("done, of the word that its own store, exchange or add waits to change", |it| it.own_word()),
    ("done, beside a load that waits", |it| it.waiting.op.is_load()),
    ("done, in a PRIVATE line", |it| it.private() == Some(true)),
    ("done, in a shared line", |it| it.private() == Some(false)),
    ("done, in a line that is not the newest", |it| !is_newest(it)),
    ("done, the block also in a lower line that is not valid", |it| lower_invalid(it)),
    ("done, the block also in a second valid line", |it| second_valid(it)),
    ("done, all lines valid and the return queue full", |it| {
        it.all_valid() && it.lane.returns.is_full()
    }),
    ("done, one place left", |it| it.store.begun() + 1 == u64::from(LAST_PLACE)),
    ("done, other lanes wait too", |it| it.store.waiting() > 1),
    ("done, a service open", |it| it.store.open_services() > 0),
    ("done, messages in the lane's queues", |it| {
        !it.lane.returns.is_empty() && !it.lane.down.is_empty()
    }),
];

/// What is refused by 8.
pub const BUSY: [(&str, Test); 21] = [
    ("refused 8, a load that misses, a line free", |it| it.load_misses() && !it.all_valid()),
    ("refused 8, a load that misses, all lines valid", |it| it.load_misses() && it.all_valid()),
    ("refused 8, a load that misses, where 12 would be next", |it| it.load_misses() && full(it)),
    ("refused 8, a load that misses the block waited for", |it| {
        it.load_misses() && it.same_block()
    }),
    ("refused 8, a load that misses, no place left", |it| it.load_misses() && it.none_left()),
    ("refused 8, a load that misses, what waits unserved", |it| {
        it.load_misses() && !it.waiting.served
    }),
    ("refused 8, a load that misses, what waits served", |it| {
        it.load_misses() && it.waiting.served
    }),
    ("refused 8, a store that hits PRIVATE", |it| stores(it) && it.private() == Some(true)),
    ("refused 8, an exchange that hits PRIVATE", |it| exchanges(it) && it.private() == Some(true)),
    ("refused 8, an add that hits PRIVATE", |it| adds(it) && it.private() == Some(true)),
    ("refused 8, a store that hits a shared line", |it| stores(it) && it.private() == Some(false)),
    ("refused 8, an exchange that hits a shared line", |it| {
        exchanges(it) && it.private() == Some(false)
    }),
    ("refused 8, an add that hits a shared line", |it| adds(it) && it.private() == Some(false)),
    ("refused 8, a store that misses", |it| stores(it) && it.found.is_none()),
    ("refused 8, an exchange that misses", |it| exchanges(it) && it.found.is_none()),
    ("refused 8, an add that misses", |it| adds(it) && it.found.is_none()),
    ("refused 8, a store that misses, where 12 would be next", |it| stores(it) && full(it)),
    ("refused 8, an exchange that misses, where 12 would be next", |it| exchanges(it) && full(it)),
    ("refused 8, an add that misses, where 12 would be next", |it| adds(it) && full(it)),
    ("refused 8, a store, exchange or add, no place left", |it| !it.op.is_load() && it.none_left()),
    ("refused 8, of the word that waits", |it| it.word == it.waiting.word),
];

/// Refused by another number: whether it is a load.
pub const OTHERS: [(&str, u8, bool); 7] = [
    ("refused 17, a load that hits", 17, true),
    ("refused 7, a load", 7, true),
    ("refused 7, a store, exchange or add", 7, false),
    ("refused 6, a load", 6, true),
    ("refused 6, a store, exchange or add", 6, false),
    ("refused 14, a load", 14, true),
    ("refused 14, a store, exchange or add", 14, false),
];

fn excludes(it: &Beside) -> bool {
    it.same_block() && it.waiting.command == Command::Exclude
}

fn stores(it: &Beside) -> bool {
    matches!(it.op, Op::Store(_))
}

fn exchanges(it: &Beside) -> bool {
    matches!(it.op, Op::Exchange(_))
}

fn adds(it: &Beside) -> bool {
    matches!(it.op, Op::Add(_))
}

/// Without 8 it would be refused by 12.
fn full(it: &Beside) -> bool {
    it.is_full() && !it.none_left()
}

fn is_newest(it: &Beside) -> bool {
    let last = usize::from(it.store.c) - 1;
    Some(usize::from(it.lane.order[last])) == it.found
}

fn lower_invalid(it: &Beside) -> bool {
    let lower = &it.lane.lines[..it.found.unwrap_or(0)];
    lower.iter().any(|line| !line.valid && line.block == it.word / 4)
}

fn second_valid(it: &Beside) -> bool {
    let lines = it.lane.lines[..usize::from(it.store.c)].iter();
    lines.filter(|line| line.valid && line.block == it.word / 4).count() > 1
}

/// All that the begins must meet, in the order of print.
pub fn names() -> Vec<&'static str> {
    let tests = DONE.iter().chain(&BUSY).map(|(name, _)| *name);
    tests.chain(OTHERS.iter().map(|(name, _, _)| *name)).collect()
}

/// Those of the names that a begin meets.
pub fn met(s: &Store, call: Call, answer: &HeldAnswer) -> Vec<&'static str> {
    let load = matches!(call, Call::Begin { op: Op::Load, .. });
    let tests: &[(&str, Test)] = match answer {
        HeldAnswer::Machine(Answer::Done(_)) => &DONE,
        HeldAnswer::Refused(8) => &BUSY,
        _ => &[],
    };
    let it = Beside::of(s, HeldCall::Machine(call));
    let holds = |test: Test| it.as_ref().map_or(false, test);
    let tests = tests.iter().filter(|(_, test)| holds(*test)).map(|(name, _)| *name);
    let other = |number: u8, of_loads| *answer == HeldAnswer::Refused(number) && load == of_loads;
    let others = OTHERS.iter().filter(|(_, number, of_loads)| other(*number, *of_loads));
    tests.chain(others.map(|(name, _, _)| *name)).collect()
}

#[derive(Default)]
pub struct Loads {
    pub begins: usize,
    /// By operation and answer.
    pub given: BTreeMap<(u8, String), usize>,
    pub met: BTreeMap<&'static str, usize>,
    /// The wrong machines that give other bytes.
    pub told: BTreeMap<&'static str, usize>,
}

impl Loads {
    /// Fails for a begin that waits, or that another number refuses.
    pub fn add(&mut self, s: &Store, call: Call) -> Result<(), String> {
        self.begins += 1;
        let held = HeldCall::Machine(call);
        let answer = held::run(s, held).answer;
        let name = match answer {
            HeldAnswer::Machine(Answer::Done(_)) if call.kind() == 1 => "done".to_string(),
            HeldAnswer::Refused(number) if [6, 7, 8, 14, 17].contains(&number) => {
                format!("refused-{number}")
            }
            answer => return Err(format!("{call:?} gives {answer:?}")),
        };
        *self.given.entry((call.kind(), name)).or_default() += 1;
        for name in met(s, call, &answer) {
            *self.met.entry(name).or_default() += 1;
        }
        for name in beside::told(s, held) {
            *self.told.entry(name).or_default() += 1;
        }
        Ok(())
    }

    /// What was never met, wrong machines that no begin tells too.
    pub fn never_met(&self) -> Vec<&'static str> {
        let met = names().into_iter().filter(|name| !self.met.contains_key(name));
        let told = WRONG.iter().map(|(name, _)| *name);
        met.chain(told.filter(|name| !self.told.contains_key(name))).collect()
    }
}

impl Display for Loads {
    fn fmt(&self, f: &mut Formatter) -> fmt::Result {
        writeln!(f, "begins on lanes that wait {}", self.begins)?;
        for kind in 1..=4 {
            let of_kind = self.given.iter().filter(|((k, _), _)| *k == kind);
            let parts: Vec<String> = of_kind.map(|((_, name), n)| format!(" {name} {n}")).collect();
            writeln!(f, "{}:{}", kind_name(kind), parts.concat())?;
        }
        writeln!(f, "met:")?;
        fmt_counts(f, &names(), &self.met)?;
        writeln!(f, "wrong machines:")?;
        for (name, _) in WRONG {
            writeln!(f, "  {name} gives other bytes: {}", self.told.get(name).unwrap_or(&0))?;
        }
        Ok(())
    }
}

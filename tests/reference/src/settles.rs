//! What settles meet of W8: which orders their own serves send, and which were queued
//! before.

use crate::exact::Letters;
use crate::held::{self, HeldAnswer};
use crate::machine;
use crate::parts::*;
use crate::settle;
use crate::summary::fmt_counts;
use crate::tellers;
use std::collections::BTreeMap;
use std::fmt::{self, Display, Formatter};

type Test = fn(&Log) -> bool;

pub const SETTLES: [(&str, Test); 13] = [
    ("O 0", |log| log.orders() == 0),
    ("O 0 with an operation unserved", |log| log.orders() == 0 && log.letters.unserved > 0),
    ("O 0 with orders queued before", |log| log.orders() == 0 && log.letters.queued > 0),
    ("O above 0", |log| log.orders() > 0),
    ("O above 0 with orders queued before", |log| log.orders() > 0 && log.letters.queued > 0),
    ("O of UPDATEs alone", |log| log.updates() > 0 && log.purges() == 0),
    ("O of PURGEs alone", |log| log.purges() > 0 && log.updates() == 0),
    ("O of UPDATEs and PURGEs", |log| log.updates() > 0 && log.purges() > 0),
    ("O of two serves or more", |log| log.sending().count() > 1),
    ("O above 0 with a serve that sends none", |log| {
        log.orders() > 0 && log.serves().count() > log.sending().count()
    }),
    ("O above 7", |log| log.orders() > 7),
    ("O of (n - 1) × U, above 0", |log| {
        log.orders() > 0 && log.orders() == log.letters.most_orders()
    }),
    ("each of R, G, Q, S, U and O above 0", |log| log.orders() > 0 && log.letters.all()),
];

pub fn names() -> Vec<&'static str> {
    SETTLES.iter().map(|(name, _)| *name).collect()
}

/// A step of a settle.
pub struct Step {
    pub serves: bool,
    /// What it put into down queues.
    pub joined: Vec<DownKind>,
    /// It took an answer.
    pub answer: bool,
}

impl Step {
    fn of(s: &mut Store, call: Call) -> Step {
        let lengths = s.lanes.iter().map(|lane| lane.down.length).collect::<Vec<u8>>();
        let head = s.lanes[usize::from(call.lane())].returns.head();
        let answer = head.map_or(false, |message| message.kind.is_answer());
        machine::step(s, call, Rule::LoadFillsOldest).expect("settle is not refused");
        let behind = |(lane, &from): (&Lane, &u8)| {
            let joined = lane.down.messages().get(usize::from(from)..).unwrap_or(&[]);
            joined.iter().map(|message| message.kind).collect::<Vec<_>>()
        };
        let joined = s.lanes.iter().zip(&lengths).flat_map(behind).collect();
        let (serves, returns) = (matches!(call, Call::Serve(_)), matches!(call, Call::Return(_)));
        Step { serves, joined, answer: returns && answer }
    }

    pub fn orders(&self) -> usize {
        self.joined.iter().filter(|kind| kind.is_order()).count()
    }
}

/// A settle that is not refused, step by step.
pub struct Log {
    /// Of the store before.
    pub letters: Letters,
    pub steps: Vec<Step>,
}

impl Log {
    pub fn of(before: &Store) -> Log {
        let letters = Letters::of(&held::encode_store(before)).expect("settle is not refused");
        let (mut now, mut steps) = (before.clone(), Vec::new());
        while let Some(call) = settle::next_step(&now) {
            steps.push(Step::of(&mut now, call));
        }
        Log { letters, steps }
    }

    pub fn serves(&self) -> impl Iterator<Item = &Step> {
        self.steps.iter().filter(|step| step.serves)
    }

    /// The serves that send an order.
    pub fn sending(&self) -> impl Iterator<Item = &Step> {
        self.serves().filter(|step| step.orders() > 0)
    }

    /// Of what its serves put into down queues.
    pub fn sent(&self, test: fn(DownKind) -> bool) -> u32 {
        self.serves().flat_map(|step| &step.joined).filter(|&&kind| test(kind)).count() as u32
    }

    /// O.
    pub fn orders(&self) -> u32 {
        self.sent(DownKind::is_order)
    }

    pub fn updates(&self) -> u32 {
        self.sent(|kind| kind == DownKind::Update)
    }

    pub fn purges(&self) -> u32 {
        self.sent(|kind| kind == DownKind::Purge)
    }
}

/// The log of a settle that was not refused.
pub fn log(before: &Store, answer: &HeldAnswer) -> Option<Log> {
    matches!(answer, HeldAnswer::Settled(_)).then(|| Log::of(before))
}

/// Those of the names that it meets.
pub fn met(log: &Log) -> Vec<&'static str> {
    SETTLES.iter().filter(|(_, test)| test(log)).map(|(name, _)| *name).collect()
}

/// Counts over settles that were not refused.
#[derive(Default)]
pub struct Settles {
    pub met: BTreeMap<&'static str, usize>,
    /// The wrong tellers that give other bytes.
    pub told: BTreeMap<&'static str, usize>,
    pub highest: u32,
}

impl Settles {
    /// A settle of a store, if it was not refused.
    pub fn add(&mut self, before: &Store, answer: &HeldAnswer) {
        if let Some(log) = log(before, answer) {
            self.see(&log);
        }
    }

    pub fn see(&mut self, log: &Log) {
        met(log).into_iter().for_each(|name| *self.met.entry(name).or_default() += 1);
        tellers::told(log).into_iter().for_each(|name| *self.told.entry(name).or_default() += 1);
        self.highest = self.highest.max(log.orders());
    }

    /// What was never met, wrong tellers that no settle tells too.
    pub fn never_met(&self) -> Vec<&'static str> {
        let met = names().into_iter().filter(|name| !self.met.contains_key(name));
        let told = tellers::names().into_iter().filter(|name| !self.told.contains_key(name));
        met.chain(told).collect()
    }
}

impl Display for Settles {
    fn fmt(&self, f: &mut Formatter) -> fmt::Result {
        writeln!(f, "settles by their orders, the highest O {}:", self.highest)?;
        fmt_counts(f, &names(), &self.met)?;
        writeln!(f, "settles that tell a wrong teller:")?;
        fmt_counts(f, &tellers::names(), &self.told)
    }
}

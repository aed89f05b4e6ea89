//! 01's bound on the steps of a settle, computed on the store before, held
//! against the counts that a program answered.

use crate::flat::demand;
use crate::held::{self, HeldAnswer, HeldCall};
use crate::lists::{self, Given, Record};
use crate::parts::*;
use crate::settle;
use std::fmt::{self, Display, Formatter};

/// Settles that were not refused.
#[derive(Default, Clone, Copy, PartialEq, Eq, Debug)]
pub struct Bounded {
    pub settles: usize,
    /// Those with as many steps as the bound, which is not 0.
    pub reached: usize,
}

impl Bounded {
    fn see(&mut self, before: &Store, steps: u32) -> Result<(), String> {
        let bound = settle::bound(before);
        self.settles += 1;
        self.reached += usize::from(bound > 0 && steps == bound);
        demand(steps <= bound, &format!("settled in {steps} steps, more than {bound}"))
    }
}

/// The settles of lists; the stores before them are the reference's.
pub fn of_lists(all: &[(Record, Given)]) -> Result<Bounded, String> {
    let (mut store, mut bounded) = (lists::blank(), Bounded::default());
    for (index, (record, given)) in all.iter().enumerate() {
        if let Given::Answer(HeldAnswer::Settled(settled)) = given {
            let told = bounded.see(&store, settled.steps);
            told.map_err(|text| format!("record {index}: {text}"))?;
        }
        lists::run(&mut store, *record);
    }
    Ok(bounded)
}

/// The settles among held cases.
pub fn of_held(cases: &[u8], answers: &[u8]) -> Result<Bounded, String> {
    let (mut at, mut bounded) = (0, Bounded::default());
    for (index, case) in cases.chunks(held::CASE_BYTES).enumerate() {
        let (store, call) = held::decode_case(case).map_err(|e| format!("case {index}: {e}"))?;
        let given = answers.get(at..at + held::given_length(call));
        let given = given.ok_or(format!("case {index}: the answers end early"))?;
        if call == HeldCall::Settle && given[0] == held::SETTLED_TAG {
            let told = bounded.see(&store, held::number_at(given, 2));
            told.map_err(|text| format!("case {index}: {text}"))?;
        }
        at += given.len();
    }
    demand(at == answers.len(), "bytes after the last answer")?;
    Ok(bounded)
}

impl Display for Bounded {
    fn fmt(&self, f: &mut Formatter) -> fmt::Result {
        let Bounded { settles, reached } = self;
        writeln!(f, "settles within the bound: {settles}, with as many steps: {reached}")
    }
}

//! Demand 3 on lists, values and places, from the calls and their answers
//! alone: nothing of the machine enters here, so it judges the answers of any
//! program.

use crate::flat::{check_quiet, demand, Flat};
use crate::held::{HeldAnswer, HeldCall};
use crate::lists::{Given, Record};
use crate::parts::*;
use crate::settle::Settled;
use std::fmt::{self, Display, Formatter};

/// A begin call that was answered with a wait.
#[derive(Clone, Copy)]
struct Waited {
    op: Op,
    word: u8,
    /// Its completion has not come yet.
    open: bool,
}

/// Counts of what was judged.
#[derive(Default)]
pub struct Judged {
    pub completions: usize,
    pub in_begins: usize,
    pub in_delivers: usize,
    pub in_settles: usize,
    pub quiet_stores: usize,
}

/// Flat memory, the place of the last completion, and each lane's last begin
/// call that waits.
pub struct Judge {
    flat: Flat,
    last_place: u32,
    waited: [Option<Waited>; 256],
    /// The record before was a settle that was not refused, or an opening.
    quiet: bool,
    pub judged: Judged,
}

impl Default for Judge {
    fn default() -> Judge {
        let (flat, waited, judged) = (Flat::new(0), [None; 256], Judged::default());
        Judge { flat, last_place: 0, waited, quiet: false, judged }
    }
}

/// Judges a whole file of lists.
pub fn judge(all: &[(Record, Given)]) -> Result<Judged, String> {
    let mut judge = Judge::default();
    for (index, (record, given)) in all.iter().enumerate() {
        let told = judge.see(*record, given);
        told.map_err(|text| format!("record {index} {record:?}, {given:?}: {text}"))?;
    }
    Ok(judge.judged)
}

impl Judge {
    /// One record and what it gave.
    pub fn see(&mut self, record: Record, given: &Given) -> Result<(), String> {
        let was_quiet = self.quiet;
        self.quiet = false;
        match (record, given) {
            (Record::Open { m, .. } | Record::OpenLimit { m, .. }, Given::Opened) => {
                (self.flat, self.last_place) = (Flat::new(m), 0);
                (self.waited, self.quiet) = ([None; 256], true);
                Ok(())
            }
            (Record::Show, Given::Store(store)) if was_quiet => {
                self.judged.quiet_stores += 1;
                self.quiet = true;
                check_quiet(store, &self.flat)
            }
            (Record::Show, Given::Store(_)) => Ok(()),
            (_, Given::Answer(HeldAnswer::Refused(_))) => Ok(()),
            (Record::Call(call), Given::Answer(answer)) => self.see_answer(call, answer),
            _ => Err("the answer is not one of this record".to_string()),
        }
    }

    fn see_answer(&mut self, call: HeldCall, answer: &HeldAnswer) -> Result<(), String> {
        match (call, answer) {
            (HeldCall::Machine(Call::Begin { lane, op, word }), HeldAnswer::Machine(answer)) => {
                self.see_begin(lane, op, word, *answer)
            }
            (HeldCall::Machine(_), HeldAnswer::Machine(Answer::Step)) => Ok(()),
            (HeldCall::Machine(Call::Deliver(k)), HeldAnswer::Machine(Answer::Done(done))) => {
                self.judged.in_delivers += 1;
                demand(done.lane == k, "another lane's completion")?;
                self.complete(done)
            }
            (HeldCall::Settle, HeldAnswer::Settled(given)) => self.see_settle(given),
            _ => Err("the answer is not one of this call".to_string()),
        }
    }

    fn see_begin(&mut self, lane: u8, op: Op, word: u8, answer: Answer) -> Result<(), String> {
        match answer {
            Answer::Wait => {
                self.waited[usize::from(lane)] = Some(Waited { op, word, open: true });
                Ok(())
            }
            Answer::Done(done) => {
                self.judged.in_begins += 1;
                demand(done.lane == lane, "another lane's completion")?;
                self.feed(op, word, &done)
            }
            Answer::Step => Err("a begin call that is a step".to_string()),
        }
    }

    fn see_settle(&mut self, given: &Settled) -> Result<(), String> {
        for done in &given.completions {
            self.judged.in_settles += 1;
            self.complete(done)?;
        }
        let open = self.waited.iter().flatten().any(|waited| waited.open);
        demand(!open, "settled with an operation that waits")?;
        // A completion takes a deliver; an order takes one, and its answer a return.
        let least = given.completions.len() + 2 * usize::from(given.orders);
        demand(least <= given.steps as usize, &format!("fewer steps than {least}"))?;
        self.quiet = true;
        Ok(())
    }

    /// A completion that carries the lane, of its last begin that waited.
    fn complete(&mut self, done: &Completion) -> Result<(), String> {
        let waited = self.waited[usize::from(done.lane)].as_mut().filter(|waited| waited.open);
        let waited = waited.ok_or(format!("lane {} has no operation that waits", done.lane))?;
        waited.open = false;
        let (op, word) = (waited.op, waited.word);
        self.feed(op, word, done)
    }

    /// A completion in its order: it has the place after the last, and its
    /// operation's value.
    fn feed(&mut self, op: Op, word: u8, done: &Completion) -> Result<(), String> {
        self.judged.completions += 1;
        self.last_place += 1;
        let (place, next) = (done.place, self.last_place);
        demand(place == next, &format!("place {place}, where {next} is next"))?;
        demand(usize::from(word) < self.flat.0.len(), "a word that flat memory has not")?;
        let (flat, value) = (self.flat.feed(op, word), done.value);
        demand(flat == value, &format!("{op:?} of word {word} gave {value}, flat memory {flat}"))
    }
}

impl Display for Judged {
    fn fmt(&self, f: &mut Formatter) -> fmt::Result {
        writeln!(
            f,
            "demand 3 holds: {} completions (begin {}, deliver {}, settle {}) as flat memory, \
             in places 1, 2, 3 .. of each list",
            self.completions, self.in_begins, self.in_delivers, self.in_settles
        )?;
        writeln!(f, "quiet stores shown, with the four properties: {}", self.quiet_stores)
    }
}

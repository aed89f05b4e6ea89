//! What lists meet of loads on lanes that wait.

use crate::beside::Beside;
use crate::held::{HeldAnswer, HeldCall};
use crate::machine;
use crate::parts::*;
use std::collections::BTreeMap;

/// The lines that begin with two dots are of the loads done; the second to fourth
/// of the block waited for.
pub const LOADS: [&str; 7] = [
    "loads done beside a wait",
    ".. of the block waited for, before serve",
    ".. between serve and grant",
    ".. with the grant queued",
    ".. of another block",
    ".. of the word that its own store, exchange or add waits to change",
    "loads refused by 8 after a PURGE took the copy",
];

/// Counts over calls.
#[derive(Default)]
pub struct Loads {
    pub counts: BTreeMap<&'static str, usize>,
    /// The copies that PURGE took since the lane's operation began to wait.
    purged: [Vec<u8>; LANES],
}

impl Loads {
    /// Another list begins, or a settle has left nothing that waits.
    pub fn clear(&mut self) {
        self.purged = Default::default();
    }

    /// A call, refused or not.
    pub fn see(&mut self, call: Call, answer: &HeldAnswer, before: &Store) {
        if let Some(it) = Beside::of(before, HeldCall::Machine(call)) {
            self.see_beside(&it, answer);
        }
        let k = usize::from(call.lane());
        match (call, answer) {
            (Call::Begin { .. }, HeldAnswer::Machine(Answer::Wait)) => self.purged[k].clear(),
            (Call::Deliver(_), HeldAnswer::Machine(Answer::Done(_))) => self.purged[k].clear(),
            (Call::Deliver(_), HeldAnswer::Machine(_)) => self.see_order(k, before),
            _ => {}
        }
    }

    fn see_order(&mut self, k: usize, before: &Store) {
        let lane = &before.lanes[k];
        let order = lane.down.places[0];
        let held = machine::search(lane, before.c, order.block).is_some();
        if order.kind == DownKind::Purge && held && lane.waiting.is_some() {
            self.purged[k].push(order.block);
        }
    }

    fn see_beside(&mut self, it: &Beside, answer: &HeldAnswer) {
        let done = matches!(answer, HeldAnswer::Machine(Answer::Done(_)));
        let same = done && it.same_block();
        let purged = self.purged[usize::from(it.call.lane())].contains(&(it.word / 4));
        let busy = *answer == HeldAnswer::Refused(machine::LANE_BUSY);
        let holds = [
            done,
            same && !it.waiting.served,
            same && it.waiting.served && !it.granted(),
            same && it.granted(),
            done && !it.same_block(),
            done && it.own_word(),
            busy && it.load_misses() && purged,
        ];
        for (name, _) in LOADS.into_iter().zip(holds).filter(|(_, holds)| *holds) {
            *self.counts.entry(name).or_default() += 1;
        }
    }
}

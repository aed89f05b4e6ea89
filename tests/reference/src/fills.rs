//! What becomes of lines that loads fill, over the calls of lists.

use crate::machine;
use crate::parts::*;
use std::collections::BTreeMap;

pub const FILLS: [&str; 3] = [
    "a load's fill given up before it was used again",
    "a load's fill that a later hit made newest",
    "a load's fill that a later bare grant made newest",
];

/// Counts over lanes of two lines or more: one line is oldest and newest at once.
#[derive(Default)]
pub struct Fills {
    pub counts: BTreeMap<&'static str, usize>,
    /// The lines that a load filled and nothing has used since.
    unused: [[bool; LINES]; LANES],
}

impl Fills {
    /// Another list begins.
    pub fn open(&mut self) {
        self.unused = Default::default();
    }

    /// A call that was not refused.
    pub fn see(&mut self, call: Call, before: &Store, after: &Store) {
        let k = usize::from(call.lane());
        let (was, is) = (&before.lanes[k], &after.lanes[k]);
        let completes = after.completed > before.completed;
        match call {
            Call::Begin { word, .. } if completes => {
                self.used(k, before, machine::search(was, before.c, word / 4), FILLS[1]);
            }
            Call::Begin { .. } => self.given_up(k, was, is, before.c > 1),
            Call::Deliver(_) if completes => self.granted(k, before, after),
            Call::Deliver(_) => self.given_up(k, was, is, false),
            Call::Serve(_) | Call::Return(_) => {}
        }
    }

    /// A line of lane k is used; it counts if it was not the newest already.
    fn used(&mut self, k: usize, before: &Store, line: Option<usize>, name: &'static str) {
        let (i, last) = (line.expect("a held line"), usize::from(before.c) - 1);
        let newest = usize::from(before.lanes[k].order[last]) == i;
        if std::mem::take(&mut self.unused[k][i]) && !newest {
            *self.counts.entry(name).or_default() += 1;
        }
    }

    /// The line that is valid no more, if there is one: evicted, or purged.
    fn given_up(&mut self, k: usize, was: &Lane, is: &Lane, counts: bool) {
        let lost = (0..LINES).find(|&i| was.lines[i].valid && !is.lines[i].valid);
        if lost.map_or(false, |i| std::mem::take(&mut self.unused[k][i])) && counts {
            *self.counts.entry(FILLS[0]).or_default() += 1;
        }
    }

    fn granted(&mut self, k: usize, before: &Store, after: &Store) {
        let (was, is) = (&before.lanes[k], &after.lanes[k]);
        let waiting = was.waiting.expect("a served operation");
        match (0..LINES).find(|&i| !was.lines[i].valid && is.lines[i].valid) {
            Some(filled) => self.unused[k][filled] = waiting.op.is_load(),
            None => {
                let held = machine::search(was, before.c, waiting.block());
                self.used(k, before, held, FILLS[2]);
            }
        }
    }
}

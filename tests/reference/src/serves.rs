//! Counts of what made serves meet: orders by W4's byte, commands, and full down
//! queues.

use crate::held;
use crate::machine;
use crate::parts::*;
use crate::serve_byte;
use crate::summary::fmt_counts;
use std::collections::BTreeMap;
use std::fmt::{self, Display, Formatter};

/// Where the full down queue of a serve refused by 12 is.
pub const FULL_PLACES: [&str; 6] = [
    "the first ordered lane's",
    "one's between",
    "the last ordered lane's",
    "the only ordered lane's",
    "several ordered lanes'",
    "the grant's",
];

/// The command and the block's flags, of serves not refused.
pub const ASKED: [&str; 6] = [
    "READ shared, MODIFIED reset, no other lane PRESENT",
    "READ shared, MODIFIED reset, other lanes PRESENT",
    "READ shared, MODIFIED set",
    "READ exclusive",
    "EXCLUDE, the asking lane PRESENT",
    "EXCLUDE, the asking lane not PRESENT",
];

#[derive(Default)]
pub struct Serves {
    pub serves: usize,
    /// Not refused, by the number of orders.
    pub orders: [usize; LANES],
    /// Not refused, by n and the number of orders.
    pub by_n: BTreeMap<(u8, usize), usize>,
    pub asked: BTreeMap<&'static str, usize>,
    /// Refused by 12.
    pub full: BTreeMap<&'static str, usize>,
    /// Not refused though some lane's down queue was full.
    pub passed: usize,
}

impl Serves {
    /// Fails for a serve that is refused other than by 12.
    pub fn add(&mut self, s: &Store, k: u8) -> Result<(), String> {
        self.serves += 1;
        let byte = serve_byte::byte(&held::encode_store(s), k)?;
        let ordered: Vec<usize> = (0..LANES).filter(|j| byte >> j & 1 == 1).collect();
        match machine::call(s, Call::Serve(k)) {
            Ok(_) => self.add_step(s, usize::from(k), ordered.len()),
            Err(machine::FULL) => {
                *self.full.entry(full_place(s, &ordered)).or_default() += 1;
            }
            Err(number) => return Err(format!("a serve refused by {number}")),
        }
        Ok(())
    }

    fn add_step(&mut self, s: &Store, k: usize, orders: usize) {
        self.orders[orders] += 1;
        *self.by_n.entry((s.n, orders)).or_default() += 1;
        *self.asked.entry(asked(s, k)).or_default() += 1;
        let lanes = &s.lanes[..usize::from(s.n)];
        self.passed += usize::from(lanes.iter().any(|lane| lane.down.is_full()));
    }
}

/// One of `ASKED`, of a lane that waits.
fn asked(s: &Store, k: usize) -> &'static str {
    let waiting = s.lanes[k].waiting.expect("an operation");
    let entry = &s.blocks[usize::from(waiting.block())];
    let others = (0..LANES).any(|j| j != k && entry.present[j]);
    let index = match waiting.command {
        Command::ReadShared if entry.modified => 2,
        Command::ReadShared => usize::from(others),
        Command::ReadExclusive => 3,
        Command::Exclude if entry.present[k] => 4,
        Command::Exclude => 5,
    };
    ASKED[index]
}

/// One of `FULL_PLACES`, by the ordered lanes in their order.
fn full_place(s: &Store, ordered: &[usize]) -> &'static str {
    let is_full = |i: &usize| s.lanes[ordered[*i]].down.is_full();
    let full: Vec<usize> = (0..ordered.len()).filter(is_full).collect();
    let index = match (ordered.len(), &full[..]) {
        (0, _) => 5,
        (1, _) => 3,
        (_, [0]) => 0,
        (count, [i]) if i + 1 == count => 2,
        (_, [_]) => 1,
        _ => 4,
    };
    FULL_PLACES[index]
}

impl Display for Serves {
    fn fmt(&self, f: &mut Formatter) -> fmt::Result {
        writeln!(f, "serves {}", self.serves)?;
        writeln!(f, "not refused, with 0 to 7 orders: {:?}", self.orders)?;
        fmt_counts(f, &ASKED, &self.asked)?;
        writeln!(f, "not refused though another lane's down queue was full: {}", self.passed)?;
        let full: usize = self.full.values().sum();
        writeln!(f, "refused 12: {full}, by the down queue that is full:")?;
        fmt_counts(f, &FULL_PLACES, &self.full)?;
        writeln!(f, "refused otherwise: 0")
    }
}

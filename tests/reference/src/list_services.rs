//! What lists meet of services: how many are open at once, 10 for the block and for L,
//! closes in any order, and the longest queues.

use crate::held::HeldAnswer;
use crate::lists::OPEN_LIMIT_KIND;
use crate::parts::*;
use crate::summary::{busy_for, BUSY};
use std::collections::{BTreeMap, BTreeSet};

pub const SERVICES: [&str; 14] = [
    "lists opened by kind 00",
    "lists opened by kind 08 with L = 1",
    "lists opened by kind 08 with L above 1",
    "lists opened with L above n",
    "lists opened with L above m",
    "serves refused 10 for the block alone",
    "serves refused 10 for L alone",
    "serves refused 10 for both",
    "serves that open with two services or more open",
    "serves that open the eighth service",
    "serves that open in a slot below a busy one",
    "closes of the newest service with others open",
    "closes of another than the newest service",
    "settles with two services or more open",
];

/// Counts over calls.
#[derive(Default)]
pub struct Services {
    pub counts: BTreeMap<&'static str, usize>,
    /// The longest return queue and the longest down queue.
    pub longest: (u8, u8),
    /// Every n with every L.
    pub limits: BTreeSet<(u8, u8)>,
    /// The blocks in service, in the order in which their services opened.
    opened: Vec<u8>,
}

impl Services {
    fn count(&mut self, name: &'static str, met: bool) {
        debug_assert!(SERVICES.contains(&name), "{name}");
        if met {
            *self.counts.entry(name).or_default() += 1;
        }
    }

    /// Another list begins.
    pub fn open(&mut self, kind: u8, s: &Store) {
        self.opened.clear();
        self.limits.insert((s.n, s.limit));
        let with_limit = kind == OPEN_LIMIT_KIND;
        self.count(SERVICES[0], !with_limit);
        self.count(SERVICES[1], with_limit && s.limit == 1);
        self.count(SERVICES[2], with_limit && s.limit > 1);
        self.count(SERVICES[3], s.limit > s.n);
        self.count(SERVICES[4], s.limit > s.m);
    }

    /// A call, refused or not.
    pub fn see(&mut self, call: Call, answer: &HeldAnswer, before: &Store, after: &Store) {
        self.see_step(after);
        match (call, answer) {
            (Call::Serve(k), HeldAnswer::Refused(10)) => {
                let why = BUSY.iter().position(|why| *why == busy_for(before, k));
                self.count(SERVICES[5 + why.unwrap_or(0)], true);
            }
            (Call::Serve(_), HeldAnswer::Machine(_)) => self.see_open(before, after),
            (Call::Return(_), HeldAnswer::Machine(_)) => self.see_close(before, after),
            _ => {}
        }
    }

    fn see_open(&mut self, before: &Store, after: &Store) {
        let new =
            (0..SLOTS).find(|&slot| before.slots[slot].is_none() && after.slots[slot].is_some());
        if let Some(slot) = new {
            let open = before.open_services();
            self.opened.extend(after.slots[slot].map(|service| service.block));
            self.count(SERVICES[8], open >= 2);
            self.count(SERVICES[9], open == 7);
            self.count(SERVICES[10], before.slots[slot..].iter().any(Option::is_some));
        }
    }

    fn see_close(&mut self, before: &Store, after: &Store) {
        let closed =
            |block: &u8| before.slot_of(*block).is_some() && after.slot_of(*block).is_none();
        if let Some(at) = self.opened.iter().position(closed) {
            let newest = at + 1 == self.opened.len();
            self.count(SERVICES[11], newest && at > 0);
            self.count(SERVICES[12], !newest);
            self.opened.remove(at);
        }
    }

    /// A settle that is not refused, which leaves no service.
    pub fn see_settle(&mut self, before: &Store) {
        self.count(SERVICES[13], before.open_services() >= 2);
        self.opened.clear();
    }

    /// The store after a step, inside a settle too.
    pub fn see_step(&mut self, after: &Store) {
        for lane in &after.lanes[..usize::from(after.n)] {
            let (returns, down) = self.longest;
            self.longest = (returns.max(lane.returns.length), down.max(lane.down.length));
        }
    }

    /// What was never met.
    pub fn never_met(&self) -> Vec<String> {
        let names = SERVICES.iter().filter(|name| !self.counts.contains_key(*name));
        let mut never: Vec<String> = names.map(|name| name.to_string()).collect();
        if self.limits.len() < 56 {
            never.push(format!("n with L: only {}", self.limits.len()));
        }
        if self.longest.0.min(self.longest.1) < 3 {
            never.push(format!("long queues: only {:?}", self.longest));
        }
        never
    }
}

//! Counts of what calls do, races above all.

use crate::parts::*;
use std::collections::BTreeMap;

pub const EVENTS: [&str; 22] = [
    "evictions, clean",
    "evictions, dirty",
    "EXCLUDE overtaken by PURGE",
    "grants with words delivered to an EXCLUDE",
    "bare grants delivered",
    "orders joined behind a grant",
    "grants delivered with an order behind",
    "return queues grown to two messages",
    "UPDATE on a held block",
    "PURGE on a held PRIVATE block",
    "PURGE on a held block, PRIVATE reset",
    "orders on a block not held (GONE)",
    "services closed by a return",
    "quiet stores come to",
    "begins that hit",
    BESIDE,
    "begins that wait with EXCLUDE",
    "begins that wait with READ shared",
    "begins that wait with READ exclusive",
    "serves of a READ shared",
    "serves of a READ exclusive",
    "serves of an EXCLUDE",
];

/// W5's.
pub const BESIDE: &str = "loads beside a wait that hit";

/// Counts over calls that were not refused.
#[derive(Default)]
pub struct Events {
    counts: BTreeMap<&'static str, usize>,
    /// Serves by the count of their orders.
    pub orders: [usize; 8],
}

impl Events {
    pub fn of(&self, name: &str) -> usize {
        self.counts.get(name).copied().unwrap_or(0)
    }

    pub fn never_met(&self) -> Vec<&'static str> {
        EVENTS.into_iter().filter(|name| self.of(name) == 0).collect()
    }

    fn count(&mut self, name: &'static str, met: bool) {
        debug_assert!(EVENTS.contains(&name), "{name}");
        if met {
            *self.counts.entry(name).or_default() += 1;
        }
    }

    /// A call that was not refused.
    pub fn see(&mut self, call: Call, before: &Store, after: &Store) {
        let k = usize::from(call.lane());
        let (was, is) = (&before.lanes[k], &after.lanes[k]);
        let grown = is.returns.length == 2 && was.returns.length == 1;
        self.count("return queues grown to two messages", grown);
        self.count("quiet stores come to", after.quiet() && !before.quiet());
        match call {
            Call::Begin { .. } if after.completed > before.completed => {
                self.count("begins that hit", true);
                self.count(BESIDE, was.waiting.is_some());
            }
            Call::Begin { .. } => self.see_wait(was, is),
            Call::Serve(_) => self.see_serve(was, before, after),
            Call::Return(_) => {
                let closed = before.open_services() > after.open_services();
                self.count("services closed by a return", closed);
            }
            Call::Deliver(_) => self.see_deliver(was, is),
        }
    }

    fn see_wait(&mut self, was: &Lane, is: &Lane) {
        let evicted = is.returns.length > was.returns.length;
        let last = is.returns.places[usize::from(is.returns.length).saturating_sub(1)].kind;
        self.count("evictions, clean", evicted && last == ReturnKind::Eject);
        self.count("evictions, dirty", evicted && last == ReturnKind::WriteEject);
        let command = is.waiting.map(|w| w.command);
        self.count("begins that wait with EXCLUDE", command == Some(Command::Exclude));
        self.count("begins that wait with READ shared", command == Some(Command::ReadShared));
        let exclusive = command == Some(Command::ReadExclusive);
        self.count("begins that wait with READ exclusive", exclusive);
    }

    fn see_serve(&mut self, was: &Lane, before: &Store, after: &Store) {
        let orders = was.waiting.and_then(|w| after.service_of(w.block())).map_or(0, |v| v.awaited);
        self.orders[usize::from(orders)] += 1;
        let command = was.waiting.map(|w| w.command);
        self.count("serves of a READ shared", command == Some(Command::ReadShared));
        self.count("serves of a READ exclusive", command == Some(Command::ReadExclusive));
        self.count("serves of an EXCLUDE", command == Some(Command::Exclude));
        for (lane, former) in after.lanes.iter().zip(&before.lanes) {
            let grew = lane.down.length > former.down.length && former.down.length > 0;
            let last = lane.down.messages().last().map_or(false, |m| m.kind.is_order());
            let behind = former.down.messages().iter().any(|m| !m.kind.is_order());
            self.count("orders joined behind a grant", grew && behind && last);
        }
    }

    fn see_deliver(&mut self, was: &Lane, is: &Lane) {
        let (head, next) = (was.down.places[0].kind, was.down.places[1].kind);
        if head.is_order() {
            let answer = is.returns.places[usize::from(is.returns.length) - 1];
            let kind = answer.kind;
            self.count("UPDATE on a held block", kind == ReturnKind::Updated);
            self.count("PURGE on a held PRIVATE block", kind == ReturnKind::PurgedWords);
            self.count("PURGE on a held block, PRIVATE reset", kind == ReturnKind::Purged);
            self.count("orders on a block not held (GONE)", kind == ReturnKind::Gone);
            let waits = |w: Waiting| w.command == Command::Exclude && w.block() == answer.block;
            let overtaken = kind == ReturnKind::Purged && is.waiting.map_or(false, waits);
            self.count("EXCLUDE overtaken by PURGE", overtaken);
        } else {
            let exclude = was.waiting.map_or(false, |w| w.command == Command::Exclude);
            let words = head == DownKind::Grant;
            self.count("grants with words delivered to an EXCLUDE", exclude && words);
            self.count("bare grants delivered", !words);
            let behind = was.down.length >= 2 && next.is_order();
            self.count("grants delivered with an order behind", behind);
        }
    }
}

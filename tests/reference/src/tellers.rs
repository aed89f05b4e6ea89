//! Wrong tellers of W8: each settles as the right machine does, and tells another O or
//! another count of steps.

use crate::parts::DownKind;
use crate::settles::{Log, Step};

/// The count of steps and O that a teller gives.
pub type Tell = fn(&Log) -> (u32, u32);

pub const WRONG: [(&str, Tell); 14] = [
    ("O counts the grants of its serves too", |log| {
        with_orders(log, log.orders() + log.sent(is_grant))
    }),
    ("O counts the grants of all its steps instead", |log| {
        with_orders(log, log.steps.iter().map(grants).sum())
    }),
    ("O counts the orders queued before too", |log| {
        with_orders(log, log.orders() + log.letters.queued)
    }),
    ("O counts the answers taken instead", |log| {
        with_orders(log, log.steps.iter().filter(|step| step.answer).count() as u32)
    }),
    ("O counts one for each serve", |log| with_orders(log, log.serves().count() as u32)),
    ("O counts one for each serve that sends", |log| {
        with_orders(log, log.sending().count() as u32)
    }),
    ("O counts UPDATEs alone", |log| with_orders(log, log.updates())),
    ("O counts PURGEs alone", |log| with_orders(log, log.purges())),
    ("O is of the last serve alone", |log| {
        with_orders(log, log.serves().last().map_or(0, Step::orders) as u32)
    }),
    ("O is 0", |log| with_orders(log, 0)),
    ("O is (n - 1) × U", |log| with_orders(log, log.letters.most_orders())),
    ("the count by the equation with n × U", |log| {
        let (n, unserved) = (log.letters.n, log.letters.unserved);
        (right(log).0 + 2 * (n - 1) * unserved, log.orders())
    }),
    ("the count is 01's bound", |log| (log.letters.bound(), log.orders())),
    ("the count without its serves", |log| {
        (right(log).0 - log.serves().count() as u32, log.orders())
    }),
];

/// The steps, each counted, and the orders of its own serves.
pub fn right(log: &Log) -> (u32, u32) {
    with_orders(log, log.orders())
}

fn with_orders(log: &Log, orders: u32) -> (u32, u32) {
    (log.steps.len() as u32, orders)
}

fn is_grant(kind: DownKind) -> bool {
    !kind.is_order()
}

/// Those that a step sends, a return too.
fn grants(step: &Step) -> u32 {
    step.joined.iter().filter(|&&kind| is_grant(kind)).count() as u32
}

pub fn names() -> Vec<&'static str> {
    WRONG.iter().map(|(name, _)| *name).collect()
}

/// The names of the wrong tellers that give a settle other bytes.
pub fn told(log: &Log) -> Vec<&'static str> {
    let right = right(log);
    WRONG.iter().filter(|(_, tell)| tell(log) != right).map(|(name, _)| *name).collect()
}

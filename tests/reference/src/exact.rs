//! W8's equation: a settle that is not refused takes R + G + 2 × Q + S + 2 × U + 2 × O
//! steps. Answers are held to it from bytes alone: the letters are read from the bytes of
//! the store before, the count and O from those of the answer. Nothing of the
//! reference's own settle enters.

use crate::flat::demand;
use crate::held::{self, CASE_BYTES, ORDERS_AT, SETTLED_TAG, SETTLE_KIND, STORE_BYTES};
use crate::lists::{self, Record};
use crate::parts::{LANES, PLACES};
use crate::serve_byte::{given_length, lane, slot, BUSY_TAG, DOWN, MESSAGE_BYTES, PURGE, SLOTS};
use crate::serve_byte::{UNSERVED_TAG, UPDATE, WAITING};
use std::fmt::{self, Display, Formatter};

/// Where the return queue is in the bytes of a lane.
const RETURNS: usize = 160;

/// So many faults are named.
const NAMED: usize = 20;

/// What is counted on the store before.
#[derive(Clone, Copy, PartialEq, Eq, Debug, Default)]
pub struct Letters {
    pub n: u32,
    /// R: messages in return queues.
    pub returns: u32,
    /// G: grants in down queues.
    pub grants: u32,
    /// Q: orders in down queues.
    pub queued: u32,
    /// S: services.
    pub services: u32,
    /// U: unserved operations.
    pub unserved: u32,
}

/// A count of steps from the letters and O.
pub type Equation = fn(&Letters, u32) -> u32;

impl Letters {
    /// Of the bytes of a store. One with another n, or a longer queue, has none.
    pub fn of(store: &[u8]) -> Result<Letters, String> {
        let n = usize::from(store[0]);
        demand((2..=LANES).contains(&n), &format!("settled with n {n}"))?;
        let services = (0..SLOTS).filter(|&i| slot(store, i)[0] == BUSY_TAG).count() as u32;
        let mut letters = Letters { n: n as u32, services, ..Letters::default() };
        (0..n).try_for_each(|j| letters.add(lane(store, j)))?;
        Ok(letters)
    }

    fn add(&mut self, lane: &[u8]) -> Result<(), String> {
        let [returns, down] = [RETURNS, DOWN].map(|at| usize::from(lane[at]));
        let longest = returns.max(down);
        demand(longest <= PLACES, &format!("settled with a queue of {longest}"))?;
        let kinds = lane[DOWN + 1..].chunks(MESSAGE_BYTES).take(down).map(|message| message[0]);
        let queued = kinds.filter(|&kind| kind == UPDATE || kind == PURGE).count();
        self.returns += returns as u32;
        self.queued += queued as u32;
        self.grants += (down - queued) as u32;
        self.unserved += u32::from(lane[WAITING] == UNSERVED_TAG);
        Ok(())
    }

    /// W8's equation.
    pub fn steps(&self, orders: u32) -> u32 {
        let before = self.returns + self.grants + 2 * self.queued + self.services;
        before + 2 * self.unserved + 2 * orders
    }

    /// 01's bound.
    pub fn bound(&self) -> u32 {
        let before = self.returns + self.grants + 2 * self.queued + self.services;
        before + 2 * self.n * self.unserved
    }

    /// O is not above it: a serve sends each lane but its own one order at most.
    pub fn most_orders(&self) -> u32 {
        (self.n - 1) * self.unserved
    }

    /// Whether all are above 0.
    pub fn all(&self) -> bool {
        let Letters { returns, grants, queued, services, unserved, .. } = *self;
        [returns, grants, queued, services, unserved].iter().all(|&letter| letter > 0)
    }
}

/// What a settle told that was not refused.
struct Told {
    steps: u32,
    orders: u32,
    bound: u32,
}

impl Told {
    /// Of all that was given for it: it begins with the answer and ends with the bound.
    fn of(given: &[u8]) -> Told {
        let (steps, orders) = (held::number_at(given, 2), u32::from(given[ORDERS_AT]));
        let bound = u16::from_le_bytes([given[given.len() - 2], given[given.len() - 1]]);
        Told { steps, orders, bound: u32::from(bound) }
    }

    /// What does not hold.
    fn faults(&self, letters: &Letters, equation: Equation) -> Vec<String> {
        let Told { steps, orders, bound } = *self;
        let (due, most) = (equation(letters, orders), letters.most_orders());
        let [right, told] = [letters.bound(), bound];
        let holds = [
            (steps == due, format!("{steps} steps with O {orders}, not {due}")),
            (orders <= most, format!("O {orders}, more than {most}")),
            (steps <= right, format!("{steps} steps, more than the bound {right}")),
            (told == right, format!("bound {told}, not {right}")),
        ];
        let faults = holds.into_iter().filter(|(holds, _)| !holds);
        faults.map(|(_, text)| format!("{text}; {letters:?}")).collect()
    }
}

/// What was held, and what does not hold.
#[derive(Default, Clone, PartialEq, Eq, Debug)]
pub struct Exact {
    /// Not refused.
    pub settles: usize,
    /// With O above 0.
    pub with_orders: usize,
    /// With each of R, G, Q, S, U and O above 0.
    pub with_all: usize,
    pub faults: usize,
    /// The first of them.
    pub named: Vec<String>,
}

impl Exact {
    /// A call and what was given for it; the bytes of the store before.
    fn see(&mut self, kind: u8, given: &[u8], before: &[u8], equation: Equation) -> Vec<String> {
        if (kind, given[0]) != (SETTLE_KIND, SETTLED_TAG) {
            let orders = given[ORDERS_AT];
            let fault = format!("O {orders} in an answer that is not settled");
            return Vec::from_iter((orders != 0).then_some(fault));
        }
        let (told, letters) = match Letters::of(before) {
            Ok(letters) => (Told::of(given), letters),
            Err(fault) => return vec![fault],
        };
        self.settles += 1;
        self.with_orders += usize::from(told.orders > 0);
        self.with_all += usize::from(told.orders > 0 && letters.all());
        told.faults(&letters, equation)
    }

    fn fault(&mut self, text: String) {
        self.faults += 1;
        if self.named.len() < NAMED {
            self.named.push(text);
        }
    }

    /// Fails with the first faults.
    fn verdict(self) -> Result<Exact, String> {
        match self.faults {
            0 => Ok(self),
            faults => Err(format!("{}\nfaults in all: {faults}", self.named.join("\n"))),
        }
    }
}

/// Holds the settles among answered cases to the equation; fails with the first faults.
pub fn of_held(cases: &[u8], answers: &[u8]) -> Result<Exact, String> {
    hold_held(cases, answers, Letters::steps)?.verdict()
}

/// The same with any equation; fails only where bytes lack or are too many.
pub fn hold_held(cases: &[u8], answers: &[u8], equation: Equation) -> Result<Exact, String> {
    let (mut at, mut exact) = (0, Exact::default());
    for (index, case) in cases.chunks(CASE_BYTES).enumerate() {
        let length = given_length(case).map_err(|e| format!("case {index}: {e}"))?;
        let given = answers.get(at..at + length);
        let given = given.ok_or(format!("case {index}: the answers end early"))?;
        let (before, call) = case.split_at(STORE_BYTES);
        for fault in exact.see(call[0], given, before, equation) {
            exact.fault(format!("case {index}: {fault}"));
        }
        at += length;
    }
    demand(at == answers.len(), "bytes after the last answer")?;
    Ok(exact)
}

/// Holds the settles of answered lists to the equation; fails with the first faults.
pub fn of_lists(input: &[u8], answers: &[u8]) -> Result<Exact, String> {
    hold_lists(input, answers, Letters::steps)?.verdict()
}

/// The same with any equation. The store before is the one that the reference comes to
/// by the records so far; a store shown that is another is a fault.
pub fn hold_lists(input: &[u8], answers: &[u8], equation: Equation) -> Result<Exact, String> {
    let (mut store, mut at, mut exact) = (lists::blank(), 0, Exact::default());
    for (index, record) in lists::records(input)?.into_iter().enumerate() {
        let given = answers.get(at..at + record.answer_length());
        let given = given.ok_or(format!("record {index}: the answers end early"))?;
        let settles = record.bytes()[0] == SETTLE_KIND || record == Record::Show;
        let before = settles.then(|| held::encode_store(&store)).unwrap_or_default();
        let faults = match record {
            Record::Show => Vec::from_iter((given != before).then(|| OTHER_STORE.to_string())),
            _ => exact.see(record.bytes()[0], given, &before, equation),
        };
        faults.into_iter().for_each(|fault| exact.fault(format!("record {index}: {fault}")));
        lists::run(&mut store, record);
        at += given.len();
    }
    demand(at == answers.len(), "bytes after the last answer")?;
    Ok(exact)
}

const OTHER_STORE: &str = "the store shown is another than that of the letters";

impl Display for Exact {
    fn fmt(&self, f: &mut Formatter) -> fmt::Result {
        let Exact { settles, with_orders, with_all, .. } = self;
        writeln!(
            f,
            "settles to the exact step: {settles}, with O above 0: {with_orders}, with each of R, \
             G, Q, S, U and O above 0: {with_all}"
        )
    }
}

//! Makes lists that lead to the longest queues: for each n, each L and each of the two
//! queues, one that comes to exactly W7's figure.
//!
//! One lane, the holder, has a copy of n - 1 blocks, one for each other lane. All
//! others ask for one of these, and are served as far as L lets. Each of these
//! services sends the holder an order, so there are the smaller of L and n - 1. The one
//! more is the holder's own. Its begin evicts a line, and the eject stands in its return
//! queue before the answers. Or its grant stands in its down queue before the orders.
//! No call is left that would add to that queue: the holder waits, each lane that is
//! served waits too, and all other serves are refused by 10.

use crate::figure::{self, DOWN, RETURN};
use crate::held::HeldCall;
use crate::lists::{self, Given, Record};
use crate::parts::*;

/// A list and the queue that it makes longest, by its place in `figure::HELD`.
pub struct Longest {
    pub n: u8,
    pub limit: u8,
    pub queue: usize,
    pub records: Vec<Record>,
}

/// All lists: opened by kind 08, and those with L = 1 by kind 00 too.
pub fn all() -> Vec<Longest> {
    let mut all = Vec::new();
    for n in 2..=LANES as u8 {
        for limit in 1..=SLOTS as u8 {
            all.extend([RETURN, DOWN].map(|queue| make(n, limit, queue, true)));
            if limit == 1 {
                all.extend([RETURN, DOWN].map(|queue| make(n, limit, queue, false)));
            }
        }
    }
    all
}

/// The records of all, one list after another.
pub fn records(all: &[Longest]) -> Vec<Record> {
    all.iter().flat_map(|list| list.records.clone()).collect()
}

/// What the reference gives to the records.
pub fn answered(records: &[Record]) -> Vec<(Record, Given)> {
    let mut store = lists::blank();
    records.iter().map(|&record| (record, lists::run(&mut store, record))).collect()
}

impl Longest {
    /// Fails unless the list keeps to the figure, and its queue meets it.
    pub fn check(&self) -> Result<(), String> {
        let (n, limit, what) = (self.n, self.limit, figure::HELD[self.queue]);
        let held = figure::judge(&answered(&self.records))?;
        match held.met[self.queue].contains(&(n, limit)) {
            true => Ok(()),
            false => Err(format!("n {n}, L {limit}: no {what} meets the figure")),
        }
    }
}

fn make(n: u8, limit: u8, queue: usize, with_limit: bool) -> Longest {
    let blocks = n - 1;
    // The lane that has a block for each other; its lines are as many.
    let (holder, c, m) = (limit % n, blocks, blocks + 2);
    // The holder's copies are PRIVATE or shared, the orders PURGE or UPDATE.
    let (own, others) = match limit % 4 {
        0 => (Op::Store(7), Op::Add(7)),
        2 => (Op::Store(7), Op::Load),
        _ => (Op::Load, Op::Add(7)),
    };
    let opening = match with_limit {
        true => Record::OpenLimit { n, c, m, limit },
        false => Record::Open { n, c, m },
    };
    let mut maker = Maker { n, limit, holder, own, others, records: vec![opening] };
    match queue {
        RETURN => maker.longest_return(),
        _ => maker.longest_down(),
    }
    maker.records.extend([Record::Show, Record::Call(HeldCall::Settle), Record::Show]);
    Longest { n, limit, queue, records: maker.records }
}

struct Maker {
    n: u8,
    limit: u8,
    holder: u8,
    /// The holder's operations, and the others'.
    own: Op,
    others: Op,
    records: Vec<Record>,
}

impl Maker {
    fn call(&mut self, call: Call) {
        self.records.push(Record::Call(HeldCall::Machine(call)));
    }

    fn begin(&mut self, lane: u8, op: Op, block: u8) {
        self.call(Call::Begin { lane, op, word: 4 * block + lane % 4 });
    }

    /// All lines of the holder are valid when it begins once more; then its queue gets
    /// an answer for each order. With fewer orders than blocks, 9 refuses the rest.
    fn longest_return(&mut self) {
        let blocks = self.n - 1;
        self.fill(blocks);
        self.begin(self.holder, self.own, blocks);
        self.begin_refused(blocks + 1);
        self.call(Call::Serve(self.holder));
        self.others_ask();
        self.records.push(Record::Show);
        (0..blocks).for_each(|_| self.call(Call::Deliver(self.holder)));
    }

    /// The holder's last block is granted to it, and its grant not delivered. The grant
    /// is bare where it has the block already, with one L in four; then all its lines
    /// are valid.
    fn longest_down(&mut self) {
        let (blocks, bare) = (self.n - 1, self.limit % 4 == 3);
        let op = if bare { Op::Exchange(9) } else { self.own };
        self.fill(if bare { blocks } else { blocks - 1 });
        self.begin(self.holder, op, blocks - 1);
        self.call(Call::Serve(self.holder));
        self.begin_refused(blocks);
        self.others_ask();
    }

    /// The holder gets the first blocks.
    fn fill(&mut self, blocks: u8) {
        for block in 0..blocks {
            self.begin(self.holder, self.own, block);
            self.records.push(Record::Call(HeldCall::Settle));
        }
    }

    /// The holder waits already: 8.
    fn begin_refused(&mut self, block: u8) {
        self.begin(self.holder, self.own, block);
    }

    /// Each other lane begins on a block of its own and is served; 10 where L are open.
    fn others_ask(&mut self) {
        let holder = self.holder;
        for (block, lane) in (0..).zip((0..self.n).filter(|&lane| lane != holder)) {
            self.begin(lane, self.others, block);
            self.call(Call::Serve(lane));
        }
    }
}

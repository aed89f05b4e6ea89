//! Makes lists of calls. List `index` depends on the seed and the index only;
//! 3,584 lists in a row have every shape once, and `CYCLE` of them have each
//! shape in a long list too.

use crate::held::HeldCall;
use crate::lists::{self, Given, Record};
use crate::parts::*;
use crate::rng::Rng;
use crate::walk::{self, Style};

pub const SHAPES: usize = 7 * 8 * 64;

/// One list in so many is long.
const LONG_EVERY: usize = 16;

/// Shapes and lengths repeat after so many lists.
pub const CYCLE: usize = SHAPES * LONG_EVERY;

/// The shape of a list, by its index.
pub fn shape(index: usize) -> (u8, u8, u8) {
    let (n, c, m) = (index % 7, index / 7 % 8, index / 56 % 64);
    (2 + n as u8, 1 + c as u8, 1 + m as u8)
}

/// L of a list, by its index: each n with each L.
pub fn limit(index: usize) -> u8 {
    1 + ((index / 7 + index / 56) % SLOTS) as u8
}

/// The opening of a list; half of those with L = 1 are of kind 00.
pub fn opening(index: usize) -> Record {
    let ((n, c, m), limit) = (shape(index), limit(index));
    match limit == 1 && index / 56 % 2 == 0 {
        true => Record::Open { n, c, m },
        false => Record::OpenLimit { n, c, m, limit },
    }
}

/// The long lists have other shapes in each round of all shapes.
pub fn is_long(index: usize) -> bool {
    (index + index / SHAPES) % LONG_EVERY == 0
}

/// An index of any shape and length, the seed's choice.
pub fn drawn_index(seed: u64, place: usize) -> usize {
    Rng::stream(seed ^ 0x6472_6177, place as u64).below(CYCLE)
}

pub fn make(seed: u64, index: usize) -> Vec<Record> {
    let mut rng = Rng::stream(seed ^ 0x6c69_7374, index as u64);
    let mut beside = Rng::stream(seed ^ 0x6265_7369, index as u64);
    let share = beside.pick(&[0, 10, 25, 50]);
    let (store, records) = (lists::blank(), Vec::new());
    let mut maker = Maker { store, records, rng: rng.clone(), beside, share };
    if rng.chance(2) {
        maker.refused_opening();
    }
    maker.push(opening(index));
    let length = match is_long(index) {
        true => rng.between(400, 1_000),
        false => rng.between(24, 64),
    };
    match rng.weighted(&[4, 4, 2, 4]) {
        _ if maker.is_widest() => maker.several(length),
        0 => maker.mixed(length),
        1 => maker.bursts(length),
        2 => maker.sharing(length),
        _ => maker.several(length),
    }
    if rng.chance(80) {
        maker.call(HeldCall::Settle);
    }
    maker.push(Record::Show);
    maker.records
}

struct Maker {
    store: Store,
    records: Vec<Record>,
    rng: Rng,
    /// Draws the loads on lanes that wait, which follow so many calls in a
    /// hundred.
    beside: Rng,
    share: usize,
}

impl Maker {
    fn push(&mut self, record: Record) -> Given {
        self.records.push(record);
        lists::run(&mut self.store, record)
    }

    /// The call; at times a load on a lane that waits then, or another operation
    /// in its stead, which is refused.
    fn call(&mut self, call: HeldCall) {
        self.push(Record::Call(call));
        if !self.beside.chance(self.share) {
            return;
        }
        let load = walk::load_beside(&self.store, &mut self.beside);
        if let Some(Call::Begin { lane, word, .. }) = load {
            let other = walk::write_op(&mut self.beside);
            let op = if self.beside.chance(90) { Op::Load } else { other };
            self.push(Record::Call(HeldCall::Machine(Call::Begin { lane, op, word })));
        }
    }

    /// Every lane can have a service of its own, of blocks that all lanes have.
    fn is_widest(&self) -> bool {
        [self.store.n, self.store.c, self.store.limit, self.store.m.min(8)] == [8; 4]
    }

    /// Settle; at times the store is shown then.
    fn settle(&mut self) {
        self.call(HeldCall::Settle);
        if self.rng.chance(8) {
            self.push(Record::Show);
        }
    }

    /// An opening that is refused, then calls on the blank store.
    fn refused_opening(&mut self) {
        let shapes = [(1, 1, 1), (9, 1, 1), (2, 0, 1), (2, 9, 1), (2, 1, 0), (2, 1, 65)];
        let (n, c, m) = self.rng.pick(&shapes);
        let (bad, any) = (self.rng.pick(&[0, 9, 9, 255]), self.rng.between(1, SLOTS) as u8);
        let limit = self.rng.pick(&[bad, any]);
        let opening = match self.rng.below(3) {
            0 => Record::Open { n, c, m },
            1 => Record::OpenLimit { n, c, m, limit },
            _ => Record::OpenLimit { n: 8, c: 8, m: 64, limit: bad },
        };
        self.push(opening);
        let fair = Store::fresh(8, 8, 64);
        for _ in 0..3 {
            let call = walk::odd_call(&fair, &mut self.rng);
            self.call(HeldCall::Machine(call));
        }
        self.call(HeldCall::Settle);
    }

    /// Calls of all kinds, with a settle among them now and then.
    fn mixed(&mut self, length: usize) {
        let share = self.rng.pick(&[2, 6, 15]);
        let mut style = self.style();
        for i in 0..length {
            if i % 100 == 99 {
                style = self.style();
            }
            match self.rng.chance(share) {
                true => self.settle(),
                false => self.walk(&style),
            }
        }
    }

    fn style(&mut self) -> Style {
        match self.rng.chance(20) {
            true => Style::sharing(&self.store, &mut self.rng),
            false => Style::random(&self.store, &mut self.rng),
        }
    }

    fn walk(&mut self, style: &Style) {
        let call = walk::next_call(&self.store, style, &mut self.rng);
        self.call(HeldCall::Machine(call));
    }

    fn walk_on(&mut self, calls: usize, style: &Style) {
        (0..calls).for_each(|_| self.walk(style));
    }

    /// Many lanes begin on the same one to three words, some steps are taken,
    /// then settle.
    fn bursts(&mut self, length: usize) {
        let style = self.style();
        let end = self.records.len() + length;
        while self.records.len() < end {
            self.some_begin();
            let any = self.rng.between(1, 24);
            let steps = self.rng.pick(&[0, 0, any]);
            self.walk_on(steps, &style);
            self.settle();
        }
    }

    /// Lanes, in any order, begin on one to three words.
    fn some_begin(&mut self) {
        let words: Vec<u8> = (0..self.rng.between(1, 3)).map(|_| self.word()).collect();
        let share = self.rng.pick(&[40, 80, 100]);
        for lane in self.lanes() {
            if self.rng.chance(share) {
                let (op, word) = (walk::any_op(&mut self.rng), self.rng.pick(&words));
                self.call(HeldCall::Machine(Call::Begin { lane, op, word }));
            }
        }
    }

    /// Lanes load the same blocks until all have them, then each writes one.
    fn sharing(&mut self, length: usize) {
        let end = self.records.len() + length;
        while self.records.len() < end {
            let first = self.rng.byte_below(self.store.m);
            let blocks = self.rng.between(1, usize::from(self.store.c.min(self.store.m))) as u8;
            self.all_load(first, blocks);
            let (op, apart) = (walk::write_op(&mut self.rng), self.rng.chance(60));
            self.all_begin(|lane| (first + if apart { lane % blocks } else { 0 }, op));
            if self.rng.chance(40) {
                let style = self.style();
                let calls = self.rng.between(1, 12);
                self.walk_on(calls, &style);
            }
            self.settle();
        }
    }

    /// Lanes share blocks, then each writes to one of them and all are served in any
    /// order, as far as 10 lets; then steps in any order.
    fn several(&mut self, length: usize) {
        let end = self.records.len() + length;
        while self.records.len() < end {
            let first = self.rng.byte_below(self.store.m);
            let most = usize::from(self.store.c.min(self.store.m));
            let any = self.rng.between(1, most);
            let few = self.rng.chance(50) && !self.is_widest();
            let blocks = if few { any } else { most } as u8;
            self.all_load(first, blocks);
            let op = walk::write_op(&mut self.rng);
            self.all_begin(|lane| (first + lane % blocks, op));
            for lane in self.lanes() {
                self.call(HeldCall::Machine(Call::Serve(lane)));
            }
            self.steps();
            self.settle();
        }
    }

    /// Returns, delivers and serves of lanes that have them, in any order.
    fn steps(&mut self) {
        let style = Style::steps(&self.store);
        let any = self.rng.below(60);
        let calls = self.rng.pick(&[0, any, any]);
        self.walk_on(calls, &style);
    }

    /// All lanes load so many blocks, one after another.
    fn all_load(&mut self, first: u8, blocks: u8) {
        for block in 0..blocks {
            self.all_begin(|_| (first + block, Op::Load));
            self.settle();
        }
    }

    /// Each lane, in any order, begins on a block, counted on past m.
    fn all_begin(&mut self, plan: impl Fn(u8) -> (u8, Op)) {
        for lane in self.lanes() {
            let (block, op) = plan(lane);
            let word = 4 * (block % self.store.m) + self.rng.byte_below(4);
            self.call(HeldCall::Machine(Call::Begin { lane, op, word }));
        }
    }

    /// All lanes, in any order.
    fn lanes(&mut self) -> Vec<u8> {
        let mut lanes: Vec<u8> = (0..self.store.n).collect();
        crate::scramble::permute(&mut lanes, &mut self.rng);
        lanes
    }

    fn word(&mut self) -> u8 {
        4 * self.rng.byte_below(self.store.m) + self.rng.byte_below(4)
    }
}

//! The parts of a store. Arrays have their largest size whatever n, c and m
//! are; entries past n, c, m or a queue's length are no part of the store.

pub const LANES: usize = 8;
pub const LINES: usize = 8;
pub const BLOCKS: usize = 64;

/// Of a queue.
pub const PLACES: usize = 8;

/// Of a queue before W6.
pub const PLACES_BEFORE_W6: usize = 2;

/// Of services; the limit L is at most so many.
pub const SLOTS: usize = 8;

/// Of completions: their places have 32 bits.
pub const LAST_PLACE: u32 = 4_294_967_295;

pub type Words = [u32; 4];

#[derive(Clone, Copy, PartialEq, Eq, Debug, Default)]
pub struct Line {
    pub valid: bool,
    pub private: bool,
    pub block: u8,
    pub words: Words,
}

#[derive(Clone, Copy, PartialEq, Eq, Debug)]
pub enum Command {
    ReadShared,
    ReadExclusive,
    Exclude,
}

#[derive(Clone, Copy, PartialEq, Eq, Debug)]
pub enum Op {
    Load,
    Store(u32),
    Exchange(u32),
    Add(u32),
}

impl Op {
    pub fn is_load(self) -> bool {
        self == Op::Load
    }

    /// The value given and the word left, from the former word.
    pub fn on(self, former: u32) -> (u32, u32) {
        match self {
            Op::Load => (former, former),
            Op::Store(v) => (v, v),
            Op::Exchange(v) => (former, v),
            Op::Add(v) => {
                let sum = (u64::from(former) + u64::from(v)) % 4_294_967_296;
                (former, sum as u32)
            }
        }
    }
}

#[derive(Clone, Copy, PartialEq, Eq, Debug)]
pub struct Waiting {
    pub served: bool,
    pub command: Command,
    pub op: Op,
    pub word: u8,
}

impl Waiting {
    pub fn block(&self) -> u8 {
        self.word / 4
    }
}

#[derive(Clone, Copy, PartialEq, Eq, Debug)]
pub enum ReturnKind {
    Eject,
    WriteEject,
    Updated,
    Purged,
    PurgedWords,
    Gone,
}

impl ReturnKind {
    /// UPDATED, PURGED and GONE answer an order; the ejects do not.
    pub fn is_answer(self) -> bool {
        !matches!(self, ReturnKind::Eject | ReturnKind::WriteEject)
    }

    pub fn has_words(self) -> bool {
        use ReturnKind::*;
        matches!(self, WriteEject | Updated | PurgedWords)
    }
}

#[derive(Clone, Copy, PartialEq, Eq, Debug)]
pub enum DownKind {
    Update,
    Purge,
    Grant,
    BareGrant,
}

impl DownKind {
    pub fn is_order(self) -> bool {
        matches!(self, DownKind::Update | DownKind::Purge)
    }
}

#[derive(Clone, Copy, PartialEq, Eq, Debug)]
pub struct Message<K> {
    pub kind: K,
    pub block: u8,
    pub words: Words,
}

/// First in, first out; the head is place 0.
#[derive(Clone, Copy, PartialEq, Eq, Debug)]
pub struct Queue<K> {
    pub length: u8,
    pub places: [Message<K>; PLACES],
}

impl<K: Copy> Queue<K> {
    pub fn empty(kind: K) -> Self {
        let blank = Message { kind, block: 0, words: [0; 4] };
        Queue { length: 0, places: [blank; PLACES] }
    }

    pub fn is_empty(&self) -> bool {
        self.length == 0
    }

    pub fn is_full(&self) -> bool {
        self.is_full_at(PLACES)
    }

    /// The same for a queue of fewer places.
    pub fn is_full_at(&self, places: usize) -> bool {
        usize::from(self.length) >= places
    }

    /// What is queued, the head first; not more than there are places.
    pub fn messages(&self) -> &[Message<K>] {
        &self.places[..usize::from(self.length).min(PLACES)]
    }

    pub fn head(&self) -> Option<Message<K>> {
        if self.is_empty() {
            None
        } else {
            Some(self.places[0])
        }
    }

    /// Each place gets the next one's; the last keeps what it had.
    pub fn take(&mut self) -> Option<Message<K>> {
        let head = self.head()?;
        self.places.copy_within(1.., 0);
        self.length -= 1;
        Some(head)
    }

    /// False, and nothing done, when the queue is full.
    pub fn push(&mut self, message: Message<K>) -> bool {
        self.push_at(message, PLACES)
    }

    /// The same for a queue of fewer places.
    pub fn push_at(&mut self, message: Message<K>, places: usize) -> bool {
        if self.is_full_at(places) {
            return false;
        }
        self.places[usize::from(self.length)] = message;
        self.length += 1;
        true
    }
}

#[derive(Clone, Copy, PartialEq, Eq, Debug)]
pub struct Lane {
    pub lines: [Line; LINES],
    /// Line numbers, oldest first.
    pub order: [u8; LINES],
    pub returns: Queue<ReturnKind>,
    pub down: Queue<DownKind>,
    pub waiting: Option<Waiting>,
}

impl Lane {
    /// Whether the lane waits for an operation that isn't served yet.
    pub fn unserved(&self) -> bool {
        matches!(self.waiting, Some(Waiting { served: false, .. }))
    }
}

#[derive(Clone, Copy, PartialEq, Eq, Debug, Default)]
pub struct Block {
    pub words: Words,
    pub present: [bool; LANES],
    pub modified: bool,
}

#[derive(Clone, Copy, PartialEq, Eq, Debug)]
pub struct Service {
    pub lane: u8,
    pub block: u8,
    pub command: Command,
    pub awaited: u8,
    pub bare: bool,
}

#[derive(Clone, PartialEq, Eq, Debug)]
pub struct Store {
    pub n: u8,
    pub c: u8,
    pub m: u8,
    /// L: at most so many services.
    pub limit: u8,
    /// Completions since opening.
    pub completed: u32,
    /// A service stays in its slot until it closes.
    pub slots: [Option<Service>; SLOTS],
    pub lanes: [Lane; LANES],
    pub blocks: [Block; BLOCKS],
}

impl Store {
    /// What an opening gives with L = 1, for any n, c, m.
    pub fn fresh(n: u8, c: u8, m: u8) -> Store {
        Store::with_limit(n, c, m, 1)
    }

    /// The same with any L.
    pub fn with_limit(n: u8, c: u8, m: u8, limit: u8) -> Store {
        let lane = Lane {
            lines: [Line::default(); LINES],
            order: [0, 1, 2, 3, 4, 5, 6, 7],
            returns: Queue::empty(ReturnKind::Eject),
            down: Queue::empty(DownKind::Update),
            waiting: None,
        };
        let (lanes, blocks) = ([lane; LANES], [Block::default(); BLOCKS]);
        Store { n, c, m, limit, completed: 0, slots: [None; SLOTS], lanes, blocks }
    }

    /// The open services, by slot.
    pub fn services(&self) -> impl Iterator<Item = &Service> {
        self.slots.iter().flatten()
    }

    /// The count of open services.
    pub fn open_services(&self) -> usize {
        self.services().count()
    }

    /// The slot of the block's service; the lowest-numbered, if there were several.
    pub fn slot_of(&self, block: u8) -> Option<usize> {
        self.slots.iter().position(|slot| slot.map_or(false, |v| v.block == block))
    }

    /// The service of the block.
    pub fn service_of(&self, block: u8) -> Option<Service> {
        self.slot_of(block).and_then(|slot| self.slots[slot])
    }

    /// The count of operations waiting, unserved or served.
    pub fn waiting(&self) -> u32 {
        let lanes = self.lanes.iter().take(usize::from(self.n));
        lanes.filter(|lane| lane.waiting.is_some()).count() as u32
    }

    /// Completions so far plus operations waiting: all that were begun since
    /// opening, each of which needs a place.
    pub fn begun(&self) -> u64 {
        u64::from(self.completed) + u64::from(self.waiting())
    }

    pub fn quiet(&self) -> bool {
        let lanes = &self.lanes[..usize::from(self.n)];
        let idle = |l: &Lane| l.waiting.is_none() && l.returns.is_empty() && l.down.is_empty();
        self.open_services() == 0 && lanes.iter().all(idle)
    }
}

/// Which machine runs: where a line that a grant fills goes in the use order, and
/// how many places and services there are.
#[derive(Clone, Copy, PartialEq, Eq, Debug)]
pub enum Rule {
    /// Document 01's fills, before W3: every fill is a use. Services as W6 has them.
    FillsNewest,
    /// The machine of now. W3's fills: one for a load goes in as the oldest, and is
    /// no use.
    LoadFillsOldest,
    /// The machine before W6, with W3's fills: queues of 2 places, one service at
    /// most, and no tape kind 08.
    BeforeW6,
}

impl Rule {
    /// Whether the operation's fill is a use.
    pub fn fill_is_use(self, op: Op) -> bool {
        self == Rule::FillsNewest || !op.is_load()
    }

    /// The places of a queue.
    pub fn places(self) -> usize {
        match self {
            Rule::BeforeW6 => PLACES_BEFORE_W6,
            _ => PLACES,
        }
    }
}

#[derive(Clone, Copy, PartialEq, Eq, Debug)]
pub enum Call {
    Begin { lane: u8, op: Op, word: u8 },
    Serve(u8),
    Return(u8),
    Deliver(u8),
}

impl Call {
    pub fn lane(self) -> u8 {
        match self {
            Call::Begin { lane, .. } => lane,
            Call::Serve(lane) | Call::Return(lane) | Call::Deliver(lane) => lane,
        }
    }

    /// The kind byte on a tape.
    pub fn kind(self) -> u8 {
        match self {
            Call::Begin { op: Op::Load, .. } => 0x01,
            Call::Begin { op: Op::Store(_), .. } => 0x02,
            Call::Begin { op: Op::Exchange(_), .. } => 0x03,
            Call::Begin { op: Op::Add(_), .. } => 0x04,
            Call::Serve(_) => 0x05,
            Call::Return(_) => 0x06,
            Call::Deliver(_) => 0x07,
        }
    }
}

#[derive(Clone, Copy, PartialEq, Eq, Debug)]
pub enum Answer {
    Done(Completion),
    Wait,
    Step,
}

/// An operation that completed: its lane, the value it gave, and its place
/// among the completions since opening, counted from 1.
#[derive(Clone, Copy, PartialEq, Eq, Debug)]
pub struct Completion {
    pub lane: u8,
    pub value: u32,
    pub place: u32,
}

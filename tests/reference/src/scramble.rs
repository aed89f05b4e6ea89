//! Random parts and random stores that are not corrupt.

use crate::parts::*;
use crate::rng::Rng;

/// Whether messages without words may hold words other than 0 in a made
/// store. The machine never makes such, and never looks at them.
pub const WORDS_IN_WORDLESS: bool = true;

pub fn permute(items: &mut [u8], rng: &mut Rng) {
    for i in (1..items.len()).rev() {
        items.swap(i, rng.below(i + 1));
    }
}

pub fn service(n: u8, m: u8, rng: &mut Rng) -> Service {
    Service {
        lane: rng.byte_below(n),
        block: rng.byte_below(m),
        command: command(rng),
        awaited: rng.byte_below(n),
        bare: rng.chance(50),
    }
}

/// A block that is not in service, if there is one.
pub fn block_not_in_service(s: &Store, rng: &mut Rng) -> Option<u8> {
    let blocks: Vec<u8> = (0..s.m).filter(|&block| s.slot_of(block).is_none()).collect();
    match blocks.is_empty() {
        true => None,
        false => Some(rng.pick(&blocks)),
    }
}

/// A free slot: the lowest, or any.
pub fn free_slot(s: &Store, rng: &mut Rng) -> Option<usize> {
    let free: Vec<usize> = (0..SLOTS).filter(|&slot| s.slots[slot].is_none()).collect();
    let lowest = *free.first()?;
    let any = rng.pick(&free);
    Some(rng.pick(&[lowest, any]))
}

/// A slot with a service, if there is one.
pub fn busy_slot(s: &Store, rng: &mut Rng) -> Option<usize> {
    let busy: Vec<usize> = (0..SLOTS).filter(|&slot| s.slots[slot].is_some()).collect();
    match busy.is_empty() {
        true => None,
        false => Some(rng.pick(&busy)),
    }
}

/// Opens services of blocks not in service, in any slots, until so many are open;
/// fewer where there are too few blocks.
pub fn open_services(s: &mut Store, count: usize, rng: &mut Rng) {
    while s.open_services() < count {
        let (block, slot) = match (block_not_in_service(s, rng), free_slot(s, rng)) {
            (Some(block), Some(slot)) => (block, slot),
            _ => return,
        };
        s.slots[slot] = Some(Service { block, ..service(s.n, s.m, rng) });
    }
}

/// Closes services, any of them, until at most so many are open.
pub fn drop_services(s: &mut Store, count: usize, rng: &mut Rng) {
    while s.open_services() > count {
        if let Some(slot) = busy_slot(s, rng) {
            s.slots[slot] = None;
        }
    }
}

/// No service of the block, and fewer than L.
pub fn make_servable(s: &mut Store, block: u8, rng: &mut Rng) {
    if let Some(slot) = s.slot_of(block) {
        s.slots[slot] = None;
    }
    drop_services(s, usize::from(s.limit) - 1, rng);
}

fn command(rng: &mut Rng) -> Command {
    rng.pick(&[Command::ReadShared, Command::ReadExclusive, Command::Exclude])
}

pub fn waiting(m: u8, rng: &mut Rng) -> Waiting {
    let word = rng.below(4 * usize::from(m)) as u8;
    let op = crate::walk::any_op(rng);
    Waiting { served: rng.chance(50), command: command(rng), op, word }
}

fn message<K>(kind: K, has_words: bool, m: u8, rng: &mut Rng) -> Message<K> {
    let words = match has_words || (WORDS_IN_WORDLESS && rng.chance(10)) {
        true => rng.words(),
        false => [0; 4],
    };
    Message { kind, block: rng.byte_below(m), words }
}

pub fn return_places(m: u8, rng: &mut Rng) -> [Message<ReturnKind>; PLACES] {
    use ReturnKind::*;
    std::array::from_fn(|_| {
        let kind = rng.pick(&[Eject, WriteEject, Updated, Purged, PurgedWords, Gone]);
        message(kind, kind.has_words(), m, rng)
    })
}

pub fn down_places(m: u8, rng: &mut Rng) -> [Message<DownKind>; PLACES] {
    use DownKind::*;
    std::array::from_fn(|_| {
        let kind = rng.pick(&[Update, Purge, Grant, BareGrant]);
        message(kind, kind == Grant, m, rng)
    })
}

/// Short queues, and long ones.
const LENGTHS: [[usize; PLACES + 1]; 6] = [
    [8, 1, 1, 0, 0, 0, 0, 0, 0],
    [1, 1, 1, 0, 0, 0, 0, 0, 0],
    [1, 4, 1, 0, 0, 0, 0, 0, 0],
    [1, 2, 6, 0, 0, 0, 0, 0, 0],
    [2, 1, 1, 1, 1, 1, 1, 1, 1],
    [2, 1, 0, 0, 0, 0, 1, 2, 6],
];

/// Likelihoods, in percent, of one random store.
struct Mood {
    valid: usize,
    private: usize,
    present: usize,
    waiting: usize,
    /// Weights of queue lengths, from 0 on.
    lengths: [usize; PLACES + 1],
}

impl Mood {
    fn random(rng: &mut Rng) -> Mood {
        Mood {
            valid: rng.pick(&[10, 50, 90, 100]),
            private: rng.pick(&[0, 50, 100]),
            present: rng.pick(&[0, 20, 60, 100]),
            waiting: rng.pick(&[20, 60, 95]),
            lengths: rng.pick(&LENGTHS),
        }
    }
}

/// A random store, not corrupt.
pub fn store(rng: &mut Rng) -> Store {
    let (any_c, any_m) = (rng.between(1, 8), rng.between(1, 64));
    let c = rng.pick(&[1, 2, 3, any_c]) as u8;
    let m = rng.pick(&[1, 1, 2, 3, any_m, 64]) as u8;
    filled(Store::fresh(rng.between(2, 8) as u8, c, m), rng)
}

/// A fresh store with random parts, not corrupt.
pub fn filled(mut s: Store, rng: &mut Rng) -> Store {
    let (c, m) = (s.c, s.m);
    let mood = Mood::random(rng);
    let any = rng.between(1, SLOTS) as u8;
    s.limit = rng.pick(&[1, any, any, 8]);
    let any = rng.between(1, usize::from(s.limit));
    let open = rng.pick(&[0, 0, 1, any, usize::from(s.limit)]);
    open_services(&mut s, open, rng);
    let n = usize::from(s.n);
    s.lanes[..n].iter_mut().for_each(|each| *each = lane(c, m, &mood, rng));
    s.blocks[..usize::from(m)].iter_mut().for_each(|each| *each = block(n, &mood, rng));
    s
}

/// Completions so far that leave a place for each operation waiting: those
/// that the store has, any number, or so many that none or few places are left.
pub fn completed(s: &Store, rng: &mut Rng) -> u32 {
    let most = u64::from(LAST_PLACE - s.waiting());
    let (size, any) = (1 << rng.between(0, 32), rng.draw());
    let few = rng.between(1, 16) as u64;
    let counts = [
        u64::from(s.completed),
        rng.pick(&[any % size, any % size, size - 1]),
        most,
        most - rng.pick(&[1, 1, 2, 2, few]),
    ];
    counts[rng.weighted(&[20, 40, 20, 20])].min(most) as u32
}

/// A block that the first n lanes may have.
fn block(n: usize, mood: &Mood, rng: &mut Rng) -> Block {
    let (words, modified, mut present) = (rng.words(), rng.chance(50), [false; LANES]);
    present[..n].iter_mut().for_each(|flag| *flag = rng.chance(mood.present));
    Block { words, present, modified }
}

fn lane(c: u8, m: u8, mood: &Mood, rng: &mut Rng) -> Lane {
    let mut lane = Store::fresh(2, c, m).lanes[0];
    permute(&mut lane.order[..usize::from(c)], rng);
    for line in &mut lane.lines[..usize::from(c)] {
        line.valid = rng.chance(mood.valid);
        line.private = rng.chance(mood.private);
        line.block = rng.byte_below(m);
        line.words = rng.words();
    }
    let length = |rng: &mut Rng| rng.weighted(&mood.lengths) as u8;
    lane.returns = Queue { length: length(rng), places: return_places(m, rng) };
    lane.down = Queue { length: length(rng), places: down_places(m, rng) };
    if rng.chance(mood.waiting) {
        lane.waiting = Some(waiting(m, rng));
    }
    lane
}

/// Fills what is no part of the store with anything: invalid lines' content,
/// entries past n, c and m, and places past a queue's length.
pub fn junk(s: &mut Store, rng: &mut Rng) {
    let (n, c, m) = (usize::from(s.n), usize::from(s.c), usize::from(s.m));
    s.lanes[..n].iter_mut().for_each(|lane| junk_in_lane(lane, c, rng));
    s.lanes[n..].iter_mut().for_each(|lane| *lane = junk_lane(rng));
    s.blocks[m..].iter_mut().for_each(|block| *block = junk_block(rng));
}

/// The same for a lane that the store has.
fn junk_in_lane(lane: &mut Lane, c: usize, rng: &mut Rng) {
    lane.lines[c..].iter_mut().for_each(|line| *line = junk_line(rng));
    lane.order[c..].iter_mut().for_each(|name| *name = rng.byte());
    junk_places(&mut lane.returns, return_places(255, rng));
    junk_places(&mut lane.down, down_places(255, rng));
    for line in lane.lines[..c].iter_mut().filter(|line| !line.valid) {
        *line = Line { valid: false, ..junk_line(rng) };
    }
}

fn junk_block(rng: &mut Rng) -> Block {
    let words = rng.words();
    let present = std::array::from_fn(|_| rng.chance(50));
    Block { words, present, modified: rng.chance(50) }
}

fn junk_places<K: Copy>(queue: &mut Queue<K>, places: [Message<K>; PLACES]) {
    let length = usize::from(queue.length).min(PLACES);
    queue.places[length..].copy_from_slice(&places[length..]);
}

fn junk_line(rng: &mut Rng) -> Line {
    let (valid, private) = (rng.chance(50), rng.chance(50));
    Line { valid, private, block: rng.byte(), words: rng.words() }
}

fn junk_lane(rng: &mut Rng) -> Lane {
    let any = rng.byte();
    let length = |rng: &mut Rng| rng.pick(&[0, 1, 2, 8, 9, any]);
    Lane {
        lines: std::array::from_fn(|_| junk_line(rng)),
        order: std::array::from_fn(|_| rng.byte()),
        returns: Queue { length: length(rng), places: return_places(255, rng) },
        down: Queue { length: length(rng), places: down_places(255, rng) },
        waiting: rng.chance(60).then(|| waiting(64, rng)),
    }
}

//! Makes begins on lanes that wait, loads above all. Begin `index` depends on the
//! seed and the index only; so many in a row as there are roles have each once.

use crate::damage::CORRUPTING;
use crate::parts::*;
use crate::rng::Rng;
use crate::scramble;
use crate::walk;

/// Which operation begins.
#[derive(Clone, Copy, PartialEq, Eq, Debug)]
enum Kind {
    Load,
    Store,
    Exchange,
    Add,
    /// Any of the other three.
    Write,
}

/// What it finds of its block in the lane.
#[derive(Clone, Copy, PartialEq, Eq, Debug)]
enum Finds {
    /// A valid line, with PRIVATE set or reset, or either.
    Private,
    Shared,
    Line,
    /// A line that is not the newest of two or more.
    NotNewest,
    /// The block is also in a lower line that is not valid.
    LowerInvalid,
    /// It is also in a higher line that is valid.
    TwoValid,
    /// All lines are valid, and the return queue is full.
    LineAmongFull,
    /// No line, and one that is not valid.
    Free,
    /// No line, and all are valid.
    NoneFree,
    /// The same, and the return queue is full.
    NoRoom,
    Any,
}

/// How its word stands to the one waited for.
#[derive(Clone, Copy, PartialEq, Eq, Debug)]
enum Of {
    /// The same block, with EXCLUDE.
    Same,
    /// The same word, of a store, exchange or add that waits with EXCLUDE.
    OwnWord,
    Other,
    Any,
}

/// What else there is.
#[derive(Clone, Copy, PartialEq, Eq, Debug)]
enum Also {
    Nothing,
    /// A bare grant of the block waited for is queued.
    Granted,
    WordOutside,
    LaneOutside,
    NoPlace,
    OnePlace,
    Corrupt,
}

/// With whether what waits is served, where it matters.
type Role = (Kind, Finds, Of, Option<bool>, Also);

const UNSERVED: Option<bool> = Some(false);
const SERVED: Option<bool> = Some(true);

pub const ROLES: usize = 40;

/// The last four never come to the lane.
#[rustfmt::skip]
const ROLE: [Role; ROLES] = [
    (Kind::Load, Finds::Shared, Of::Same, UNSERVED, Also::Nothing),
    (Kind::Load, Finds::Shared, Of::Same, SERVED, Also::Nothing),
    (Kind::Load, Finds::Shared, Of::Same, SERVED, Also::Granted),
    (Kind::Load, Finds::Private, Of::Same, None, Also::Nothing),
    (Kind::Load, Finds::Shared, Of::Other, UNSERVED, Also::Nothing),
    (Kind::Load, Finds::Shared, Of::Other, SERVED, Also::Nothing),
    (Kind::Load, Finds::Private, Of::Other, UNSERVED, Also::Nothing),
    (Kind::Load, Finds::Private, Of::Other, SERVED, Also::Nothing),
    (Kind::Load, Finds::Shared, Of::OwnWord, UNSERVED, Also::Nothing),
    (Kind::Load, Finds::Shared, Of::OwnWord, SERVED, Also::Nothing),
    (Kind::Load, Finds::NotNewest, Of::Any, None, Also::Nothing),
    (Kind::Load, Finds::LowerInvalid, Of::Any, None, Also::Nothing),
    (Kind::Load, Finds::TwoValid, Of::Any, None, Also::Nothing),
    (Kind::Load, Finds::LineAmongFull, Of::Any, None, Also::Nothing),
    (Kind::Load, Finds::Line, Of::Any, None, Also::OnePlace),
    (Kind::Load, Finds::Line, Of::Any, None, Also::NoPlace),
    (Kind::Load, Finds::Free, Of::Any, None, Also::Nothing),
    (Kind::Load, Finds::Free, Of::Same, None, Also::Nothing),
    (Kind::Load, Finds::NoneFree, Of::Any, None, Also::Nothing),
    (Kind::Load, Finds::NoRoom, Of::Any, None, Also::Nothing),
    (Kind::Load, Finds::Free, Of::Any, None, Also::NoPlace),
    (Kind::Store, Finds::Private, Of::Any, None, Also::Nothing),
    (Kind::Exchange, Finds::Private, Of::Any, None, Also::Nothing),
    (Kind::Add, Finds::Private, Of::Any, None, Also::Nothing),
    (Kind::Store, Finds::Shared, Of::Any, None, Also::Nothing),
    (Kind::Exchange, Finds::Shared, Of::Any, None, Also::Nothing),
    (Kind::Add, Finds::Shared, Of::Any, None, Also::Nothing),
    (Kind::Store, Finds::Free, Of::Any, None, Also::Nothing),
    (Kind::Exchange, Finds::Free, Of::Any, None, Also::Nothing),
    (Kind::Add, Finds::Free, Of::Any, None, Also::Nothing),
    (Kind::Store, Finds::NoRoom, Of::Any, None, Also::Nothing),
    (Kind::Exchange, Finds::NoRoom, Of::Any, None, Also::Nothing),
    (Kind::Add, Finds::NoRoom, Of::Any, None, Also::Nothing),
    (Kind::Write, Finds::Any, Of::Any, None, Also::NoPlace),
    (Kind::Load, Finds::Any, Of::Any, None, Also::WordOutside),
    (Kind::Write, Finds::Any, Of::Any, None, Also::WordOutside),
    (Kind::Load, Finds::Any, Of::Any, None, Also::LaneOutside),
    (Kind::Write, Finds::Any, Of::Any, None, Also::LaneOutside),
    (Kind::Load, Finds::Any, Of::Any, None, Also::Corrupt),
    (Kind::Write, Finds::Any, Of::Any, None, Also::Corrupt),
];

/// A store and a begin on a lane that waits.
pub fn make(seed: u64, index: usize) -> (Store, Call) {
    let mut rng = Rng::stream(seed ^ 0x6c6f_6164, index as u64);
    of_role(ROLE[index % ROLES], &mut rng)
}

/// The same, of any role that comes to the lane; loads that hit and hits with
/// PRIVATE above all.
pub fn make_any(rng: &mut Rng) -> (Store, Call) {
    let [hit, private, any] = [rng.below(15), rng.between(21, 23), rng.below(ROLES - 4)];
    let role = [hit, private, any][rng.weighted(&[45, 30, 25])];
    of_role(ROLE[role], rng)
}

fn of_role((kind, finds, of, served, also): Role, rng: &mut Rng) -> (Store, Call) {
    let mut s = store(finds, of, also, rng);
    if rng.chance(50) {
        scramble::junk(&mut s, rng);
    }
    let k = rng.byte_below(s.n);
    let waiting = waiting(s.m, of, served, rng);
    let word = word(s.m, &waiting, of, rng);
    let (c, m) = (s.c, s.m);
    let lane = &mut s.lanes[usize::from(k)];
    lane.waiting = Some(waiting);
    find(lane, (c, m), word / 4, finds, rng);
    if of == Of::OwnWord {
        make_change(lane, c);
    }
    if also == Also::Granted {
        grant(lane, waiting.block());
    }
    s.completed = completed(&s, also, rng);
    let begin = Call::Begin { lane: k, op: op(kind, rng), word };
    let call = outside(&mut s, begin, also, rng);
    while also == Also::Corrupt && !(CORRUPTING[rng.below(CORRUPTING.len())].act)(&mut s, rng) {}
    (s, call)
}

/// A random store that has the lines and blocks which a role needs.
fn store(finds: Finds, of: Of, also: Also, rng: &mut Rng) -> Store {
    let two_lines = [Finds::NotNewest, Finds::LowerInvalid, Finds::TwoValid].contains(&finds);
    let two_blocks = of == Of::Other || [Finds::NoneFree, Finds::NoRoom].contains(&finds);
    let (least_c, least_m) = (1 + usize::from(two_lines), 1 + usize::from(two_blocks));
    let most_n = if also == Also::LaneOutside { 7 } else { 8 };
    let most_m = if also == Also::WordOutside { 63 } else { 64 };
    let (any_c, any_m) = (rng.between(least_c, 8), rng.between(least_m, most_m));
    let c = rng.pick(&[least_c, 2, any_c, any_c]);
    let m = rng.pick(&[least_m, 2, 3, any_m, any_m, most_m]);
    scramble::filled(Store::fresh(rng.between(2, most_n) as u8, c as u8, m as u8), rng)
}

/// What waits.
fn waiting(m: u8, of: Of, served: Option<bool>, rng: &mut Rng) -> Waiting {
    let mut waiting = scramble::waiting(m, rng);
    waiting.served = served.unwrap_or(waiting.served);
    if of == Of::Same || of == Of::OwnWord {
        waiting.command = Command::Exclude;
    }
    if of == Of::OwnWord {
        waiting.op = walk::write_op(rng);
    }
    waiting
}

/// What waits changes its word in the line that is found: an add of 1, if it did
/// not.
fn make_change(lane: &mut Lane, c: u8) {
    if let Some(waiting) = &mut lane.waiting {
        let (block, place) = (waiting.block(), usize::from(waiting.word % 4));
        let words = lane.lines[..usize::from(c)].iter().find(|l| l.valid && l.block == block);
        let former = words.map_or(0, |line| line.words[place]);
        if waiting.op.on(former).1 == former {
            waiting.op = Op::Add(1);
        }
    }
}

fn word(m: u8, waiting: &Waiting, of: Of, rng: &mut Rng) -> u8 {
    let any = rng.below(4 * usize::from(m)) as u8;
    match of {
        Of::OwnWord => waiting.word,
        Of::Same => 4 * waiting.block() + any % 4,
        Of::Any => rng.pick(&[any, any, 4 * waiting.block() + any % 4]),
        Of::Other => 4 * other_block(waiting.block(), m, rng) + any % 4,
    }
}

/// Another block, of two or more.
fn other_block(block: u8, m: u8, rng: &mut Rng) -> u8 {
    (block + 1 + rng.byte_below(m - 1)) % m
}

fn op(kind: Kind, rng: &mut Rng) -> Op {
    let v = rng.value();
    match kind {
        Kind::Load => Op::Load,
        Kind::Store => Op::Store(v),
        Kind::Exchange => Op::Exchange(v),
        Kind::Add => Op::Add(v),
        Kind::Write => walk::write_op(rng),
    }
}

/// Lines of the lane in which Search finds the block so.
fn find(lane: &mut Lane, (c, m): (u8, u8), block: u8, finds: Finds, rng: &mut Rng) {
    match finds {
        Finds::Any => {}
        Finds::Free => drop_block(lane, c, block, rng),
        Finds::NoneFree | Finds::NoRoom => fill_others(lane, c, m, block, rng),
        Finds::LineAmongFull => {
            fill_lines(lane, c, m, rng);
            hold(lane, c, block, finds, rng);
        }
        _ => {
            let i = hold(lane, c, block, finds, rng);
            let private = &mut lane.lines[i].private;
            *private = finds == Finds::Private || *private && finds != Finds::Shared;
        }
    }
    if finds == Finds::NoRoom || finds == Finds::LineAmongFull {
        lane.returns = Queue { length: PLACES as u8, places: scramble::return_places(m, rng) };
    }
}

/// The block in a line that Search finds; of two lines or more mostly one that is
/// not the newest.
fn hold(lane: &mut Lane, c: u8, block: u8, finds: Finds, rng: &mut Rng) -> usize {
    let c = usize::from(c);
    let older = c > 1 && (finds == Finds::NotNewest || rng.chance(70));
    let i = match finds {
        Finds::LowerInvalid => rng.between(1, c - 1),
        Finds::TwoValid => rng.below(c - 1),
        _ if older => usize::from(lane.order[rng.below(c - 1)]),
        _ => usize::from(lane.order[c - 1]),
    };
    let full = finds == Finds::LineAmongFull;
    let lower = if full { 0..0 } else { 0..i };
    lane.lines[lower].iter_mut().for_each(|line| line.valid &= line.block != block);
    (lane.lines[i].valid, lane.lines[i].block) = (true, block);
    if finds == Finds::LowerInvalid {
        let line = &mut lane.lines[rng.below(i)];
        (line.valid, line.block) = (false, block);
    }
    if finds == Finds::TwoValid {
        let line = &mut lane.lines[rng.between(i + 1, c - 1)];
        (line.valid, line.block) = (true, block);
    }
    i
}

/// No valid line has the block; a line that has it, or any, is not valid.
fn drop_block(lane: &mut Lane, c: u8, block: u8, rng: &mut Rng) {
    let lines = &mut lane.lines[..usize::from(c)];
    lines.iter_mut().for_each(|line| line.valid &= line.block != block);
    let line = &mut lines[rng.below(usize::from(c))];
    line.valid = false;
    if rng.chance(50) {
        line.block = block;
    }
}

/// All lines are valid.
fn fill_lines(lane: &mut Lane, c: u8, m: u8, rng: &mut Rng) {
    for line in lane.lines[..usize::from(c)].iter_mut().filter(|line| !line.valid) {
        (line.valid, line.block) = (true, rng.byte_below(m));
    }
}

/// All lines are valid, with other blocks.
fn fill_others(lane: &mut Lane, c: u8, m: u8, block: u8, rng: &mut Rng) {
    fill_lines(lane, c, m, rng);
    for line in lane.lines[..usize::from(c)].iter_mut().filter(|line| line.block == block) {
        line.block = other_block(block, m, rng);
    }
}

/// A bare grant at the head of the down queue.
fn grant(lane: &mut Lane, block: u8) {
    lane.down.length = lane.down.length.max(1);
    lane.down.places[0] = Message { kind: DownKind::BareGrant, block, words: [0; 4] };
}

/// No place is left, or one, or at least one.
fn completed(s: &Store, also: Also, rng: &mut Rng) -> u32 {
    let most = LAST_PLACE - s.waiting();
    match also {
        Also::NoPlace => most,
        Also::OnePlace => most - 1,
        _ => scramble::completed(s, rng).min(most - 1),
    }
}

/// The begin, or one of a word or a lane that the store has not. Such a lane waits
/// too, where there is room for it.
fn outside(s: &mut Store, begin: Call, also: Also, rng: &mut Rng) -> Call {
    let (lane, op, word) = match begin {
        Call::Begin { lane, op, word } => (lane, op, word),
        _ => return begin,
    };
    match also {
        Also::WordOutside => {
            let least = 4 * usize::from(s.m);
            let any = rng.between(least, 255);
            Call::Begin { lane, op, word: rng.pick(&[least, least, least + 3, any, 255]) as u8 }
        }
        Also::LaneOutside => {
            s.lanes[usize::from(s.n)].waiting = Some(scramble::waiting(s.m, rng));
            Call::Begin { lane: rng.pick(&[s.n, s.n, s.n, 8, 9, 255]), op, word }
        }
        _ => begin,
    }
}

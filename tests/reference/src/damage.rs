//! Damage to stores: the ways that make a store corrupt, one for each
//! condition, and ways that do not. The store given has n, c, m in range.

use crate::conditions::SUM_REASON;
use crate::parts::*;
use crate::rng::Rng;
use crate::scramble;

pub struct Damage {
    pub name: &'static str,
    /// The reason of `conditions::REASONS`; none if not corrupt.
    pub reason: Option<&'static str>,
    /// False if this store has no place for the damage.
    pub act: fn(&mut Store, &mut Rng) -> bool,
}

// Macros, since Rust 1.63 has no constant function that takes `act`.
macro_rules! bad {
    ($reason:expr, $act:expr) => {
        Damage { name: $reason, reason: Some($reason), act: $act }
    };
}

macro_rules! fair {
    ($name:expr, $act:expr) => {
        Damage { name: $name, reason: None, act: $act }
    };
}

pub const CORRUPTING: [Damage; 30] = [
    bad!("n below 2", |s, r| set(&mut s.n, r.pick(&[0, 1]))),
    bad!("n above 8", |s, r| set(&mut s.n, r.pick(&[9, 10, 16, 128, 255]))),
    bad!("c below 1", |s, _| set(&mut s.c, 0)),
    bad!("c above 8", |s, r| set(&mut s.c, r.pick(&[9, 10, 16, 128, 255]))),
    bad!("m below 1", |s, _| set(&mut s.m, 0)),
    bad!("m above 64", |s, r| set(&mut s.m, r.pick(&[65, 66, 128, 255]))),
    bad!("L below 1", |s, _| set(&mut s.limit, 0)),
    bad!("L above 8", |s, r| set(&mut s.limit, r.pick(&[9, 9, 10, 16, 128, 255]))),
    bad!("block of a valid line", |s, r| {
        let block = from(s.m, r);
        let line = any_line(s, r);
        line.valid = true;
        set(&mut line.block, block)
    }),
    bad!("block of return message 0", |s, r| message_block(s, r, true, 0)),
    bad!("block of return message 1", |s, r| message_block(s, r, true, 1)),
    bad!("block of return message 2 to 6", |s, r| {
        let place = r.between(2, 6);
        message_block(s, r, true, place)
    }),
    bad!("block of return message 7", |s, r| message_block(s, r, true, 7)),
    bad!("block of down message 0", |s, r| message_block(s, r, false, 0)),
    bad!("block of down message 1", |s, r| message_block(s, r, false, 1)),
    bad!("block of down message 2 to 6", |s, r| {
        let place = r.between(2, 6);
        message_block(s, r, false, place)
    }),
    bad!("block of down message 7", |s, r| message_block(s, r, false, 7)),
    bad!("word of an unserved operation", |s, r| waiting_word(s, r, false)),
    bad!("word of a served operation", |s, r| waiting_word(s, r, true)),
    bad!("return queue length", |s, r| set(&mut any_lane(s, r).returns.length, over(r))),
    bad!("down queue length", |s, r| set(&mut any_lane(s, r).down.length, over(r))),
    bad!("use order repeats", order_repeats),
    bad!("use order exceeds", |s, r| {
        let (place, line) = (usize::from(r.byte_below(s.c)), from(s.c, r));
        set(&mut any_lane(s, r).order[place], line)
    }),
    bad!("lane of a service", |s, r| {
        let lane = from(s.n, r);
        set(&mut any_service(s, r).lane, lane)
    }),
    bad!("block of a service", |s, r| {
        let block = from(s.m, r);
        set(&mut any_service(s, r).block, block)
    }),
    bad!("awaited", |s, r| {
        let awaited = from(s.n, r);
        set(&mut any_service(s, r).awaited, awaited)
    }),
    bad!("services exceed L", exceed_limit),
    bad!("two services of one block", repeat_block),
    bad!("PRESENT for lane n or above", |s, r| {
        let n = usize::from(s.n);
        if n == LANES {
            return false;
        }
        any_block(s, r).present[r.between(n, LANES - 1)] = true;
        true
    }),
    bad!(SUM_REASON, |s, r| {
        any_waiting(s, r);
        let least = LAST_PLACE - s.waiting() + 1;
        let any = r.between(least as usize, LAST_PLACE as usize) as u32;
        s.completed = r.pick(&[least, least, any, LAST_PLACE]);
        true
    }),
];

pub const FAIR: [Damage; 22] = [
    fair!("block of an invalid line", |s, r| {
        let block = from(s.m, r);
        let line = any_line(s, r);
        line.valid = false;
        set(&mut line.block, block)
    }),
    fair!("entries past n, c, m and queue lengths", |s, r| {
        scramble::junk(s, r);
        true
    }),
    fair!("awaited 0 in an open service", |s, r| set(&mut any_service(s, r).awaited, 0)),
    fair!("bare grant of a READ", bare_grant_of_read),
    fair!("two valid lines of one block", two_lines),
    fair!("served operation without a service", |s, r| {
        s.slots = [None; SLOTS];
        any_waiting(s, r).served = true;
        true
    }),
    fair!("load that waits with EXCLUDE", |s, r| {
        let waiting = any_waiting(s, r);
        (waiting.op, waiting.command) = (Op::Load, Command::Exclude);
        true
    }),
    fair!("PRIVATE turned", |s, r| turn(&mut any_line(s, r).private)),
    fair!("line made invalid", |s, r| {
        any_line(s, r).valid = false;
        true
    }),
    fair!("PRESENT turned", |s, r| {
        let lane = usize::from(r.byte_below(s.n));
        turn(&mut any_block(s, r).present[lane])
    }),
    fair!("MODIFIED turned", |s, r| turn(&mut any_block(s, r).modified)),
    fair!("return queue filled", |s, r| {
        let places = scramble::return_places(s.m, r);
        any_lane(s, r).returns = Queue { length: PLACES as u8, places };
        true
    }),
    fair!("down queue filled", |s, r| {
        let places = scramble::down_places(s.m, r);
        any_lane(s, r).down = Queue { length: PLACES as u8, places };
        true
    }),
    fair!("use order permuted", |s, r| {
        let c = s.c;
        scramble::permute(&mut any_lane(s, r).order[..usize::from(c)], r);
        true
    }),
    fair!("service of another block", |s, r| {
        let fresh = scramble::block_not_in_service(s, r);
        let block = &mut any_service(s, r).block;
        *block = fresh.unwrap_or(*block);
        true
    }),
    fair!("services dropped", |s, r| {
        let left = r.pick(&[0, 0, 1, s.open_services().saturating_sub(1)]);
        scramble::drop_services(s, left, r);
        true
    }),
    fair!("services of one lane", |s, r| {
        let lane = r.byte_below(s.n);
        any_service(s, r);
        s.slots.iter_mut().flatten().for_each(|service| service.lane = lane);
        true
    }),
    fair!("as many services as L", |s, r| {
        scramble::open_services(s, usize::from(s.limit), r);
        true
    }),
    fair!("another L", |s, r| {
        let limit = r.between(s.open_services().max(1), SLOTS);
        set(&mut s.limit, limit as u8)
    }),
    fair!("services in other slots", |s, r| {
        let mut slots: Vec<u8> = (0..SLOTS as u8).collect();
        scramble::permute(&mut slots, r);
        let before = s.slots;
        s.slots = std::array::from_fn(|slot| before[usize::from(slots[slot])]);
        true
    }),
    fair!("waiting operation dropped", |s, r| {
        any_lane(s, r).waiting = None;
        true
    }),
    fair!("all lines of a lane valid", |s, r| {
        let (c, m) = (usize::from(s.c), s.m);
        let lane = any_lane(s, r);
        for line in lane.lines[..c].iter_mut().filter(|line| !line.valid) {
            (line.valid, line.block) = (true, r.byte_below(m));
        }
        true
    }),
];

fn set(field: &mut u8, value: u8) -> bool {
    *field = value;
    true
}

fn turn(flag: &mut bool) -> bool {
    *flag = !*flag;
    true
}

/// The limit itself, 255, or anything between.
fn from(limit: u8, rng: &mut Rng) -> u8 {
    let any = rng.between(usize::from(limit), 255) as u8;
    rng.pick(&[limit, limit, any, 255])
}

fn over(rng: &mut Rng) -> u8 {
    rng.pick(&[9, 9, 10, 127, 255])
}

fn any_lane<'a>(s: &'a mut Store, rng: &mut Rng) -> &'a mut Lane {
    &mut s.lanes[usize::from(rng.byte_below(s.n))]
}

fn any_line<'a>(s: &'a mut Store, rng: &mut Rng) -> &'a mut Line {
    let line = usize::from(rng.byte_below(s.c));
    &mut any_lane(s, rng).lines[line]
}

fn any_block<'a>(s: &'a mut Store, rng: &mut Rng) -> &'a mut Block {
    &mut s.blocks[usize::from(rng.byte_below(s.m))]
}

/// An open service; opens one if there is none.
pub fn any_service<'a>(s: &'a mut Store, rng: &mut Rng) -> &'a mut Service {
    scramble::open_services(s, 1, rng);
    let slot = scramble::busy_slot(s, rng).expect("an open service");
    s.slots[slot].as_mut().expect("an open service")
}

/// Impossible with one block.
fn exceed_limit(s: &mut Store, rng: &mut Rng) -> bool {
    if s.m < 2 {
        return false;
    }
    let most = SLOTS.min(usize::from(s.m));
    let any = rng.between(2, most);
    let open = rng.pick(&[any, usize::from(s.limit) + 1]).clamp(2, most);
    scramble::open_services(s, open, rng);
    let fewer = s.open_services() - 1;
    let any = rng.between(1, fewer);
    let limit = rng.pick(&[usize::from(s.limit).min(fewer), fewer, any]);
    set(&mut s.limit, limit as u8)
}

/// Two services of one block, not more than L in all.
fn repeat_block(s: &mut Store, rng: &mut Rng) -> bool {
    let of = any_service(s, rng).block;
    if let (Some(slot), true) = (scramble::free_slot(s, rng), rng.chance(60)) {
        s.slots[slot] = Some(Service { block: of, ..scramble::service(s.n, s.m, rng) });
    } else {
        scramble::open_services(s, 2, rng);
        s.slots.iter_mut().flatten().last().expect("an open service").block = of;
        let first = s.slots.iter_mut().flatten().next();
        first.expect("an open service").block = of;
    }
    let open = s.open_services();
    s.limit = s.limit.max(open as u8);
    open > 1
}

/// The waiting operation of some lane; makes one if there is none.
fn any_waiting<'a>(s: &'a mut Store, rng: &mut Rng) -> &'a mut Waiting {
    let fresh = scramble::waiting(s.m, rng);
    any_lane(s, rng).waiting.get_or_insert(fresh)
}

fn message_block(s: &mut Store, rng: &mut Rng, returns: bool, place: usize) -> bool {
    let (m, least) = (s.m, place as u8 + 1);
    let block = from(m, rng);
    let lane = any_lane(s, rng);
    if returns {
        extend(&mut lane.returns, least, scramble::return_places(m, rng));
        set(&mut lane.returns.places[place].block, block)
    } else {
        extend(&mut lane.down, least, scramble::down_places(m, rng));
        set(&mut lane.down.places[place].block, block)
    }
}

/// Lengthens a queue to at least `least`, with the messages given.
fn extend<K: Copy>(queue: &mut Queue<K>, least: u8, messages: [Message<K>; PLACES]) {
    let (has, want) = (usize::from(queue.length), usize::from(least));
    if has < want {
        queue.places[has..want].copy_from_slice(&messages[has..want]);
        queue.length = least;
    }
}

/// Impossible with 64 blocks: every byte is then a word's number.
fn waiting_word(s: &mut Store, rng: &mut Rng, served: bool) -> bool {
    if s.m == 64 {
        return false;
    }
    let word = from(4 * s.m, rng);
    let waiting = any_waiting(s, rng);
    (waiting.served, waiting.word) = (served, word);
    true
}

/// Impossible with one line, whose repeat would exceed.
fn order_repeats(s: &mut Store, rng: &mut Rng) -> bool {
    let c = usize::from(s.c);
    if c < 2 {
        return false;
    }
    let (to, step) = (rng.below(c), rng.between(1, c - 1));
    let order = &mut any_lane(s, rng).order;
    order[to] = order[(to + step) % c];
    true
}

fn bare_grant_of_read(s: &mut Store, rng: &mut Rng) -> bool {
    let (m, c) = (s.m, s.c);
    let lane = any_lane(s, rng);
    let mut waiting = scramble::waiting(m, rng);
    waiting.served = true;
    waiting.command = rng.pick(&[Command::ReadShared, Command::ReadExclusive]);
    let block = waiting.block();
    lane.waiting = Some(waiting);
    let grant = Message { kind: DownKind::BareGrant, block, words: [0; 4] };
    lane.down.places[0] = grant;
    lane.down.length = lane.down.length.max(1);
    if rng.chance(60) {
        let line = &mut lane.lines[usize::from(rng.byte_below(c))];
        (line.valid, line.block) = (true, block);
    }
    true
}

fn two_lines(s: &mut Store, rng: &mut Rng) -> bool {
    let (c, m) = (usize::from(s.c), s.m);
    if c < 2 {
        return false;
    }
    let lane = any_lane(s, rng);
    let (one, step) = (rng.below(c), rng.between(1, c - 1));
    let wanted = lane.waiting.map(|w| w.block());
    let block = wanted.unwrap_or(rng.byte_below(m));
    for i in [one, (one + step) % c] {
        (lane.lines[i].valid, lane.lines[i].block) = (true, block);
    }
    true
}

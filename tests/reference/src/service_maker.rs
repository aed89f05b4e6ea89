//! Makes cases for W6: several services, their slots, the limit and long queues.
//! Case `index` depends on the seed and the index only.

use crate::held::{HeldCall, BUFFER_BYTES};
use crate::parts::*;
use crate::rng::Rng;
use crate::scramble;
use crate::walk;

/// Makes a case of one role.
type Role = fn(&mut Rng) -> (Store, HeldCall);

/// Roles repeat after so many cases.
pub const ROLES: usize = 64;

const ROLE: [Role; ROLES] = [
    |r| returned(2, Rank::Lowest, r),
    |r| returned(2, Rank::Between, r),
    |r| returned(2, Rank::Highest, r),
    |r| returned(1, Rank::Lowest, r),
    |r| returned(1, Rank::Between, r),
    |r| returned(1, Rank::Highest, r),
    |r| returned(1, Rank::LastSlot, r),
    |r| returned(1, Rank::OfEight, r),
    |r| returned(0, Rank::Between, r),
    returned_at_zero_to_full,
    returned_elsewhere,
    returned_for_one_lane,
    |r| returned_to_length(7, r),
    |r| returned_to_length(8, r),
    ejected,
    |r| taken_from_returns(3, 7, r),
    |r| taken_from_returns(8, 8, r),
    |r| busy(true, false, r),
    |r| busy(false, true, r),
    |r| busy(true, true, r),
    busy_of_eight,
    busy_with_returns,
    nothing_unserved,
    |r| served_to_length(8, r),
    |r| served_to_length(7, r),
    |r| served(Serve::ToTheLimit, r),
    |r| served(Serve::AtOnce, r),
    |r| served(Serve::TheEighth, r),
    |r| served(Serve::AboveN, r),
    |r| served(Serve::AboveM, r),
    |r| served(Serve::InGap, r),
    |r| served(Serve::InSlot0, r),
    |r| served(Serve::SameLane, r),
    |r| evicted_to_length(7, r),
    |r| evicted_to_length(8, r),
    |r| delivered(3, 7, 6, r),
    |r| delivered(8, 8, 6, r),
    |r| delivered(1, 8, 7, r),
    |r| delivered(1, 8, 8, r),
    |r| settled(2, r),
    |r| settled(8, r),
    |r| settle_busy(true, false, r),
    |r| settle_busy(true, true, r),
    |r| settle_busy(false, false, r),
    |r| settle_busy(false, true, r),
    settle_stuck,
    |r| settle_of_full_queues(true, r),
    |r| settle_of_full_queues(false, r),
    |r| wrong_limit(0, r),
    |r| wrong_limit(9, r),
    |r| wrong_limit(10, r),
    |r| exceeding(true, r),
    |r| exceeding(false, r),
    |r| (exceeding(true, r).0, HeldCall::Settle),
    |r| repeating(true, r),
    |r| repeating(false, r),
    |r| (repeating(true, r).0, HeldCall::Picture(BUFFER_BYTES as u32)),
    |r| late_slot(Field::Lane, r),
    |r| late_slot(Field::Block, r),
    |r| late_slot(Field::Awaited, r),
    late_message,
    |r| too_long(true, r),
    |r| too_long(false, r),
    fair,
];

pub fn make(seed: u64, index: usize) -> (Store, HeldCall) {
    let mut rng = Rng::stream(seed ^ 0x736c_6f74, index as u64);
    of_role(index % ROLES, &mut rng)
}

/// The same, of any role.
pub fn make_any(rng: &mut Rng) -> (Store, HeldCall) {
    let role = rng.below(ROLES);
    of_role(role, rng)
}

fn of_role(role: usize, rng: &mut Rng) -> (Store, HeldCall) {
    let (mut s, call) = ROLE[role](rng);
    if rng.chance(50) {
        junk(&mut s, rng);
    }
    (s, call)
}

/// What is no part of the store gets anything, and the completions any number; a
/// corrupt store stays so for its own reason alone.
fn junk(s: &mut Store, rng: &mut Rng) {
    scramble::junk(s, rng);
    // One place less: a begin needs one.
    s.completed = scramble::completed(s, rng).saturating_sub(1);
}

/// A random store of so many lanes and blocks or more, with these services in any
/// slots.
fn store(least_n: usize, limit: usize, open: usize, rng: &mut Rng) -> Store {
    let least_m = open.max(2);
    let (n, any_m, any_c) = (rng.between(least_n, 8), rng.between(least_m, 64), rng.between(1, 8));
    let m = rng.pick(&[least_m, (least_m + 1).min(64), any_m, any_m, 64]);
    let c = rng.pick(&[1, 2, any_c]);
    let mut s = scramble::filled(Store::fresh(n as u8, c as u8, m as u8), rng);
    (s.limit, s.slots) = (limit as u8, [None; SLOTS]);
    scramble::open_services(&mut s, open, rng);
    s
}

/// Such a store with at least so many services.
fn several(least_n: usize, least: usize, rng: &mut Rng) -> Store {
    let open = rng.between(least, SLOTS);
    let limit = rng.between(open, SLOTS);
    store(least_n, limit, open, rng)
}

/// Which of the busy slots.
#[derive(Clone, Copy, PartialEq, Eq)]
enum Rank {
    Lowest,
    Between,
    Highest,
    /// Slot 7, with any others.
    LastSlot,
    /// Any of eight.
    OfEight,
}

fn busy_slots(s: &Store) -> Vec<usize> {
    (0..SLOTS).filter(|&slot| s.slots[slot].is_some()).collect()
}

/// The slot of the rank, of three or more that are busy.
fn slot_at(s: &mut Store, rank: Rank, rng: &mut Rng) -> usize {
    let busy = busy_slots(s);
    let last = busy.len() - 1;
    match rank {
        Rank::Lowest => busy[0],
        Rank::Between => busy[rng.between(1, last - 1)],
        Rank::Highest => busy[last],
        Rank::OfEight => rng.pick(&busy),
        Rank::LastSlot => {
            s.slots.swap(7, busy[last]);
            7
        }
    }
}

fn service(s: &mut Store, slot: usize) -> &mut Service {
    s.slots[slot].as_mut().expect("a busy slot")
}

const ANSWERS: [ReturnKind; 4] =
    [ReturnKind::Updated, ReturnKind::Purged, ReturnKind::PurgedWords, ReturnKind::Gone];

fn message_of(kind: ReturnKind, block: u8, rng: &mut Rng) -> Message<ReturnKind> {
    let words = if kind.has_words() { rng.words() } else { [0; 4] };
    Message { kind, block, words }
}

/// An answer for the block at the head of lane k's return queue.
fn answer(s: &mut Store, k: u8, block: u8, rng: &mut Rng) {
    let kind = rng.pick(&ANSWERS);
    let head = message_of(kind, block, rng);
    let queue = &mut s.lanes[usize::from(k)].returns;
    (queue.length, queue.places[0]) = (queue.length.max(1), head);
}

fn call_return(k: u8) -> HeldCall {
    HeldCall::Machine(Call::Return(k))
}

/// An answer to one of several services, which awaits so many.
fn returned(awaited: u8, rank: Rank, rng: &mut Rng) -> (Store, HeldCall) {
    let mut s = match rank {
        Rank::OfEight => store(3, SLOTS, SLOTS, rng),
        _ => several(3, 3, rng),
    };
    let slot = slot_at(&mut s, rank, rng);
    let (k, most) = (rng.byte_below(s.n), s.n - 1);
    s.slots.iter_mut().flatten().for_each(|v| v.awaited = v.awaited.max(1));
    let own = service(&mut s, slot);
    own.awaited = if awaited == 2 { rng.between(2, usize::from(most)) as u8 } else { awaited };
    let (block, lane) = (own.block, usize::from(own.lane));
    s.lanes[lane].down.length = s.lanes[lane].down.length.min(6);
    answer(&mut s, k, block, rng);
    (s, call_return(k))
}

/// An answer for a block not in service, though others await answers.
fn returned_elsewhere(rng: &mut Rng) -> (Store, HeldCall) {
    let open = rng.between(1, 7);
    let limit = rng.between(open, 8);
    let mut s = store(2, limit, open, rng);
    s.m = s.m.max(open as u8 + 1);
    s.slots.iter_mut().flatten().for_each(|v| v.awaited = 1);
    let k = rng.byte_below(s.n);
    let block = scramble::block_not_in_service(&s, rng).expect("more blocks than services");
    answer(&mut s, k, block, rng);
    (s, call_return(k))
}

/// The last answer to a service, and its lane has another service.
fn returned_for_one_lane(rng: &mut Rng) -> (Store, HeldCall) {
    let (mut s, call) = returned(1, Rank::Between, rng);
    let lane = rng.byte_below(s.n);
    s.slots.iter_mut().flatten().for_each(|v| v.lane = lane);
    s.lanes[usize::from(lane)].down.length = rng.byte_below(7);
    (s, call)
}

/// The last answer, and the down queue that the grant joins has so many messages.
fn returned_to_length(length: u8, rng: &mut Rng) -> (Store, HeldCall) {
    let (mut s, call) = returned(1, Rank::Between, rng);
    if let HeldCall::Machine(Call::Return(k)) = call {
        let head = s.lanes[usize::from(k)].returns.places[0];
        let own = s.service_of(head.block).expect("an open service");
        s.lanes[usize::from(own.lane)].down.length = length;
    }
    (s, call)
}

/// An answer to a service that awaits none, whose lane's down queue is full.
fn returned_at_zero_to_full(rng: &mut Rng) -> (Store, HeldCall) {
    let (mut s, call) = returned_to_length(PLACES as u8, rng);
    let head = |k: u8| s.lanes[usize::from(k)].returns.places[0].block;
    let slot = match call {
        HeldCall::Machine(Call::Return(k)) => s.slot_of(head(k)),
        _ => None,
    };
    service(&mut s, slot.expect("an open service")).awaited = 0;
    (s, call)
}

/// An eject of a block in service.
fn ejected(rng: &mut Rng) -> (Store, HeldCall) {
    let (mut s, call) = returned(1, Rank::Between, rng);
    if let HeldCall::Machine(Call::Return(k)) = call {
        let kind = rng.pick(&[ReturnKind::Eject, ReturnKind::WriteEject]);
        s.lanes[usize::from(k)].returns.places[0].kind = kind;
    }
    (s, call)
}

/// A return of a message that has others behind.
fn taken_from_returns(least: usize, most: usize, rng: &mut Rng) -> (Store, HeldCall) {
    let rank = rng.pick(&[Rank::Lowest, Rank::Between]);
    let awaited = rng.pick(&[1, 2]);
    let (mut s, call) = returned(awaited, rank, rng);
    if let HeldCall::Machine(Call::Return(k)) = call {
        s.lanes[usize::from(k)].returns.length = rng.between(least, most) as u8;
    }
    (s, call)
}

/// Lane k has an unserved operation on the block, and its return queue is empty.
fn unserved(s: &mut Store, k: u8, block: u8, rng: &mut Rng) {
    let mut waiting = scramble::waiting(s.m, rng);
    (waiting.served, waiting.word) = (false, 4 * block + waiting.word % 4);
    let lane = &mut s.lanes[usize::from(k)];
    (lane.waiting, lane.returns.length) = (Some(waiting), 0);
}

/// No down queue is full.
fn make_room(s: &mut Store) {
    s.lanes.iter_mut().for_each(|lane| lane.down.length = lane.down.length.min(6));
}

fn call_serve(k: u8) -> HeldCall {
    HeldCall::Machine(Call::Serve(k))
}

/// A serve that 10 refuses: for the block, for L, or both.
fn busy(for_block: bool, for_limit: bool, rng: &mut Rng) -> (Store, HeldCall) {
    let least = usize::from(for_block || for_limit);
    let open = rng.between(least, if for_limit { 8 } else { 7 });
    let limit = if for_limit { open } else { rng.between(open + 1, 8) };
    busy_in(limit, open, for_block, rng)
}

fn busy_in(limit: usize, open: usize, for_block: bool, rng: &mut Rng) -> (Store, HeldCall) {
    let mut s = store(2, limit, open, rng);
    s.m = s.m.max(open as u8 + 1);
    let k = rng.byte_below(s.n);
    let busy = scramble::busy_slot(&s, rng).and_then(|slot| s.slots[slot]).expect("a service");
    let free = scramble::block_not_in_service(&s, rng).expect("more blocks than services");
    unserved(&mut s, k, if for_block { busy.block } else { free }, rng);
    make_room(&mut s);
    (s, call_serve(k))
}

fn busy_of_eight(rng: &mut Rng) -> (Store, HeldCall) {
    busy_in(8, 8, false, rng)
}

/// 10, where 11 would be next.
fn busy_with_returns(rng: &mut Rng) -> (Store, HeldCall) {
    let for_block = rng.chance(50);
    let (mut s, call) = busy(for_block, !for_block, rng);
    if let HeldCall::Machine(Call::Serve(k)) = call {
        s.lanes[usize::from(k)].returns.length = rng.between(1, 8) as u8;
    }
    (s, call)
}

/// 9, with L services open.
fn nothing_unserved(rng: &mut Rng) -> (Store, HeldCall) {
    let (mut s, call) = busy(false, true, rng);
    if let HeldCall::Machine(Call::Serve(k)) = call {
        let waiting = &mut s.lanes[usize::from(k)].waiting;
        *waiting = waiting.map(|w| Waiting { served: true, ..w }).filter(|_| rng.chance(50));
    }
    (s, call)
}

/// How a service opens.
#[derive(Clone, Copy, PartialEq, Eq)]
enum Serve {
    /// With L - 1 open.
    ToTheLimit,
    /// The same, and it closes in the serve.
    AtOnce,
    TheEighth,
    /// With L above n.
    AboveN,
    /// With L above m.
    AboveM,
    /// The lowest free slot has busy ones on both sides.
    InGap,
    /// Slot 0 is free, others are busy.
    InSlot0,
    /// The lane has another service.
    SameLane,
}

/// A store in which such a service can open.
fn servable(how: Serve, rng: &mut Rng) -> Store {
    let any = rng.between(2, 8);
    let (limit, open) = match how {
        Serve::ToTheLimit | Serve::AtOnce => (any, any - 1),
        Serve::TheEighth => (8, 7),
        Serve::AboveN | Serve::AboveM => (any.max(3), rng.below(2)),
        Serve::InGap => (8, rng.between(2, 6)),
        Serve::InSlot0 | Serve::SameLane => (any, rng.between(1, any - 1)),
    };
    let mut s = store(2, limit, open, rng);
    match how {
        Serve::AboveN => make_fewer_lanes(&mut s, rng.between(2, limit - 1) as u8),
        Serve::AboveM => make_fewer_blocks(&mut s, limit as u8 - 1),
        Serve::InGap => open_gap(&mut s, rng),
        Serve::InSlot0 => free_slot_0(&mut s),
        _ => {}
    }
    if s.m as usize <= open {
        s.m = open as u8 + 1;
    }
    s
}

/// At most so many lanes; what names others names lane 0.
fn make_fewer_lanes(s: &mut Store, most: u8) {
    s.n = s.n.min(most);
    let n = s.n;
    for service in s.slots.iter_mut().flatten() {
        (service.lane, service.awaited) = (service.lane % n, service.awaited % n);
    }
    s.blocks.iter_mut().for_each(|block| block.present[usize::from(n)..].fill(false));
}

/// At most so many blocks; what names others names one of these.
fn make_fewer_blocks(s: &mut Store, most: u8) {
    s.m = s.m.min(most);
    let m = s.m;
    s.slots.iter_mut().flatten().for_each(|service| service.block %= m);
    for lane in &mut s.lanes {
        lane.lines.iter_mut().for_each(|line| line.block %= m);
        lane.returns.places.iter_mut().for_each(|message| message.block %= m);
        lane.down.places.iter_mut().for_each(|message| message.block %= m);
        lane.waiting.iter_mut().for_each(|waiting| waiting.word %= 4 * m);
    }
}

/// Slot 0 is busy, the lowest free slot is below another busy one, and a slot above
/// that is free.
fn open_gap(s: &mut Store, rng: &mut Rng) {
    let busy: Vec<Service> = s.services().copied().collect();
    let low = rng.between(1, busy.len() - 1);
    s.slots = [None; SLOTS];
    for (i, service) in busy.into_iter().enumerate() {
        s.slots[if i < low { i } else { i + 1 }] = Some(service);
    }
}

fn free_slot_0(s: &mut Store) {
    let free = s.slots.iter().position(Option::is_none).unwrap_or(0);
    s.slots.swap(0, free);
}

/// A serve that is not refused.
fn served(how: Serve, rng: &mut Rng) -> (Store, HeldCall) {
    let mut s = servable(how, rng);
    let k = rng.byte_below(s.n);
    let block = scramble::block_not_in_service(&s, rng).expect("more blocks than services");
    unserved(&mut s, k, block, rng);
    make_room(&mut s);
    present(&mut s, k, block, how == Serve::AtOnce, rng);
    if how == Serve::SameLane {
        s.slots.iter_mut().flatten().for_each(|service| service.lane = k);
    }
    (s, call_serve(k))
}

/// No lane but k has the block; or at least one has, and MODIFIED is set.
fn present(s: &mut Store, k: u8, block: u8, alone: bool, rng: &mut Rng) {
    let n = usize::from(s.n);
    let other = (usize::from(k) + rng.between(1, n - 1)) % n;
    let entry = &mut s.blocks[usize::from(block)];
    entry.present[..n].iter_mut().for_each(|flag| *flag &= !alone);
    if !alone {
        (entry.present[other], entry.modified) = (true, true);
    }
}

/// A serve whose orders, or grant, join a queue of so many messages.
fn served_to_length(length: u8, rng: &mut Rng) -> (Store, HeldCall) {
    let how = rng.pick(&[Serve::ToTheLimit, Serve::AtOnce]);
    let (mut s, call) = served(how, rng);
    s.lanes.iter_mut().for_each(|lane| lane.down.length = length);
    (s, call)
}

/// A miss with all lines valid, and a return queue of so many messages.
fn evicted_to_length(length: u8, rng: &mut Rng) -> (Store, HeldCall) {
    let mut s = several(2, 1, rng);
    let (k, word) = (rng.byte_below(s.n), rng.below(4 * usize::from(s.m)) as u8);
    let (c, m) = (usize::from(s.c), s.m);
    let lane = &mut s.lanes[usize::from(k)];
    for line in &mut lane.lines[..c] {
        line.valid = true;
        if line.block == word / 4 {
            line.block = (line.block + 1) % m;
        }
    }
    (lane.waiting, lane.returns.length) = (None, length);
    (s, HeldCall::Machine(Call::Begin { lane: k, op: walk::any_op(rng), word }))
}

/// An order, in a down queue of so many messages, for a lane whose return queue has
/// at most, or from 7 on exactly, so many.
fn delivered(least: usize, most: usize, returns: u8, rng: &mut Rng) -> (Store, HeldCall) {
    let mut s = several(2, 1, rng);
    let k = rng.byte_below(s.n);
    let lane = &mut s.lanes[usize::from(k)];
    lane.down.length = rng.between(least, most) as u8;
    lane.down.places[0].kind = rng.pick(&[DownKind::Update, DownKind::Purge]);
    lane.returns.length = match returns {
        0..=6 => lane.returns.length.min(returns),
        _ => returns,
    };
    (s, HeldCall::Machine(Call::Deliver(k)))
}

/// Nothing is on its way and nobody waits.
fn make_idle(s: &mut Store) {
    for lane in &mut s.lanes[..usize::from(s.n)] {
        (lane.waiting, lane.returns.length, lane.down.length) = (None, 0, 0);
    }
}

/// A settle that closes so many services or more, each of a lane of its own.
fn settled(least: usize, rng: &mut Rng) -> (Store, HeldCall) {
    let open = rng.between(least, SLOTS);
    (settling(open, rng), HeldCall::Settle)
}

/// So many services and what closes them; nothing else is on its way, and nobody else
/// waits.
pub(crate) fn settling(open: usize, rng: &mut Rng) -> Store {
    let limit = rng.between(open.max(1), SLOTS);
    let mut s = store(open.max(2), limit, open, rng);
    make_idle(&mut s);
    let mut lanes: Vec<u8> = (0..s.n).collect();
    scramble::permute(&mut lanes, rng);
    for (slot, k) in busy_slots(&s).into_iter().zip(lanes) {
        settle_service(&mut s, slot, k, rng);
    }
    for Service { lane, block, awaited, .. } in s.slots.into_iter().flatten() {
        (0..awaited).for_each(|_| answer_or_order(&mut s, lane, block, rng));
    }
    s
}

/// The service is lane k's; its operation and a line for it are there.
fn settle_service(s: &mut Store, slot: usize, k: u8, rng: &mut Rng) {
    let awaited = rng.between(1, 3.min(usize::from(s.n) - 1));
    let own = service(s, slot);
    (own.lane, own.awaited, own.bare) = (k, awaited as u8, false);
    let (block, command) = (own.block, rng.pick(&[Command::ReadShared, Command::ReadExclusive]));
    own.command = command;
    unserved(s, k, block, rng);
    let c = usize::from(s.c);
    let lane = &mut s.lanes[usize::from(k)];
    lane.waiting = lane.waiting.map(|w| Waiting { served: true, command, ..w });
    lane.lines[..c].iter_mut().for_each(|line| line.valid &= line.block != block);
    lane.lines[rng.below(c)].valid = false;
}

/// An answer for the block in the return queue of a lane other than k, or an order
/// in its down queue.
fn answer_or_order(s: &mut Store, k: u8, block: u8, rng: &mut Rng) {
    let room = |lane: &Lane| lane.returns.length + lane.down.length < PLACES as u8;
    let with_room = |j: &u8| *j != k && room(&s.lanes[usize::from(*j)]);
    let others: Vec<u8> = (0..s.n).filter(with_room).collect();
    let j = usize::from(rng.pick(&others));
    if rng.chance(50) {
        let kind = rng.pick(&[DownKind::Update, DownKind::Purge]);
        s.lanes[j].down.push(Message { kind, block, words: [0; 4] });
    } else {
        let kind = rng.pick(&ANSWERS);
        let message = message_of(kind, block, rng);
        s.lanes[j].returns.push(message);
    }
}

/// A settle that 10 refuses inside, for the block or for L, perhaps after ejects.
/// Where it is for the block, a higher lane could be served.
fn settle_busy(for_block: bool, ejects: bool, rng: &mut Rng) -> (Store, HeldCall) {
    let (mut s, _) = busy(for_block, !for_block, rng);
    make_idle(&mut s);
    let (k, last) = (rng.byte_below(s.n - 1), s.n - 1);
    let busy = scramble::busy_slot(&s, rng).and_then(|slot| s.slots[slot]).expect("a service");
    let free = scramble::block_not_in_service(&s, rng).expect("more blocks than services");
    unserved(&mut s, k, if for_block { busy.block } else { free }, rng);
    unserved(&mut s, last, free, rng);
    if ejects {
        let lane = &mut s.lanes[usize::from(rng.byte_below(s.n))];
        lane.returns.length = rng.between(1, 8) as u8;
        for message in &mut lane.returns.places {
            message.kind = rng.pick(&[ReturnKind::Eject, ReturnKind::WriteEject]);
        }
    }
    (s, HeldCall::Settle)
}

/// Services that nothing will answer.
fn settle_stuck(rng: &mut Rng) -> (Store, HeldCall) {
    let mut s = several(2, 2, rng);
    make_idle(&mut s);
    (s, HeldCall::Settle)
}

/// Every queue is full: ejects, which settle takes, with nothing else on its way; or
/// orders behind them, which have no room.
fn settle_of_full_queues(orders: bool, rng: &mut Rng) -> (Store, HeldCall) {
    let mut s = store(7, 8, 8, rng);
    make_idle(&mut s);
    for lane in &mut s.lanes[..usize::from(s.n)] {
        lane.returns.length = PLACES as u8;
        for message in &mut lane.returns.places {
            message.kind = rng.pick(&[ReturnKind::Eject, ReturnKind::WriteEject]);
        }
        lane.down.places.iter_mut().for_each(|message| message.kind = DownKind::Purge);
        lane.down.length = if orders { PLACES as u8 } else { 0 };
        lane.waiting = orders.then(|| Waiting { served: false, ..scramble::waiting(s.m, rng) });
    }
    if !orders {
        s.slots = [None; SLOTS];
    }
    (s, HeldCall::Settle)
}

/// Any call on a lane of the store, or picture, or settle.
fn any_call(s: &Store, rng: &mut Rng) -> HeldCall {
    let (lane, word) = (rng.byte_below(s.n), rng.below(4 * usize::from(s.m)) as u8);
    let begin = Call::Begin { lane, op: walk::any_op(rng), word };
    let calls = [begin, Call::Serve(lane), Call::Return(lane), Call::Deliver(lane)];
    match rng.below(6) {
        0 => HeldCall::Picture(BUFFER_BYTES as u32),
        1 => HeldCall::Settle,
        i => HeldCall::Machine(calls[i - 2]),
    }
}

/// L is so much, or from 10 on anything.
fn wrong_limit(limit: u8, rng: &mut Rng) -> (Store, HeldCall) {
    let mut s = several(2, 0, rng);
    let call = any_call(&s, rng);
    let any = rng.between(10, 255) as u8;
    s.limit = if limit < 10 { limit } else { rng.pick(&[10, 16, 128, 255, any]) };
    (s, call)
}

/// More services than L, by one or by more.
fn exceeding(by_one: bool, rng: &mut Rng) -> (Store, HeldCall) {
    let mut s = several(2, 3, rng);
    let call = any_call(&s, rng);
    let fewer = s.open_services() - 1;
    s.limit = if by_one { fewer } else { rng.between(1, fewer - 1) } as u8;
    (s, call)
}

/// Two services of one block, in slots far apart or in neighbouring ones.
fn repeating(far: bool, rng: &mut Rng) -> (Store, HeldCall) {
    let mut s = several(2, 2, rng);
    let call = any_call(&s, rng);
    let low = rng.below(3);
    let high = if far { rng.between(low + 4, 7) } else { low + 1 };
    let busy = busy_slots(&s);
    s.slots.swap(low, busy[0]);
    let other = busy_slots(&s).into_iter().find(|&slot| slot != low);
    s.slots.swap(high, other.expect("two services"));
    let block = service(&mut s, low).block;
    service(&mut s, high).block = block;
    (s, call)
}

/// A queue of 9 messages.
fn too_long(returns: bool, rng: &mut Rng) -> (Store, HeldCall) {
    let mut s = several(2, 0, rng);
    let call = any_call(&s, rng);
    let lane = &mut s.lanes[usize::from(rng.byte_below(s.n))];
    match returns {
        true => lane.returns.length = 9,
        false => lane.down.length = 9,
    }
    (s, call)
}

/// A block out of range in a message behind the second.
fn late_message(rng: &mut Rng) -> (Store, HeldCall) {
    let mut s = several(2, 0, rng);
    let call = any_call(&s, rng);
    let m = s.m;
    let lane = &mut s.lanes[usize::from(rng.byte_below(s.n))];
    let (place, block) = (rng.between(2, 7), rng.pick(&[m, m, 255]));
    let length = rng.between(place + 1, 8) as u8;
    match rng.chance(50) {
        true => (lane.returns.length, lane.returns.places[place].block) = (length, block),
        false => (lane.down.length, lane.down.places[place].block) = (length, block),
    }
    (s, call)
}

/// What is out of range.
#[derive(Clone, Copy, PartialEq, Eq)]
enum Field {
    Lane,
    Block,
    Awaited,
}

/// A number out of range in slot L or above.
fn late_slot(field: Field, rng: &mut Rng) -> (Store, HeldCall) {
    let open = rng.between(1, 4);
    let limit = rng.between(open, 6);
    let mut s = store(2, limit, open, rng);
    let call = any_call(&s, rng);
    let (n, m) = (s.n, s.m);
    let late = rng.between(usize::from(s.limit), 7);
    let busy = scramble::busy_slot(&s, rng).expect("an open service");
    s.slots.swap(late, busy);
    let own = service(&mut s, late);
    match field {
        Field::Lane => own.lane = rng.pick(&[n, n, 255]),
        Field::Block => own.block = rng.pick(&[m, m, 255]),
        Field::Awaited => own.awaited = rng.pick(&[n, n, 255]),
    }
    (s, call)
}

/// A store that looks odd and is not corrupt: two services of one lane, awaited 0,
/// L above n or m, eight services, a service in slot L or above.
fn fair(rng: &mut Rng) -> (Store, HeldCall) {
    let how = rng.pick(&[Serve::AboveN, Serve::AboveM, Serve::SameLane]);
    let (mut s, serve) = served(how, rng);
    match rng.below(4) {
        0 => s = several(2, 8, rng),
        1 => s.slots.iter_mut().flatten().for_each(|service| service.awaited = 0),
        2 => {
            let late = rng.between(usize::from(s.limit).min(7), 7);
            scramble::open_services(&mut s, 1, rng);
            let busy = scramble::busy_slot(&s, rng).expect("an open service");
            s.slots.swap(late, busy);
            return (s.clone(), HeldCall::Picture(BUFFER_BYTES as u32));
        }
        _ => return (s, serve),
    }
    let call = any_call(&s, rng);
    (s, call)
}

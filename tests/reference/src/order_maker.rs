//! Makes cases whose completions move a line in its lane's use order: delivered
//! grants, hits, and settles with a grant on its way in every lane.

use crate::held::HeldCall;
use crate::orders::By;
use crate::parts::*;
use crate::rng::Rng;
use crate::scramble;
use crate::walk;

/// What completes: by what, and whether it is a load.
type Kind = (By, bool);

const GRANTS: [Kind; 4] =
    [(By::Fill, true), (By::Fill, false), (By::BareGrant, true), (By::BareGrant, false)];

/// A random store, not corrupt, and a call that is not refused.
pub fn make(rng: &mut Rng) -> (Store, HeldCall) {
    match rng.weighted(&[65, 22, 13]) {
        0 => {
            let kind = GRANTS[rng.weighted(&[23, 6, 21, 17])];
            deliver(kind, rng)
        }
        1 => {
            let load = rng.chance(60);
            hit(load, rng)
        }
        _ => settle(rng),
    }
}

/// A store with three lines or more in each lane.
fn store(least_n: usize, rng: &mut Rng) -> Store {
    let (n, c, any_m) = (rng.between(least_n, 8), rng.between(3, 8), rng.between(2, 64));
    let m = rng.pick(&[2, 3, any_m, 64]);
    scramble::filled(Store::fresh(n as u8, c as u8, m as u8), rng)
}

fn deliver(kind: Kind, rng: &mut Rng) -> (Store, HeldCall) {
    let mut s = store(2, rng);
    let k = rng.byte_below(s.n);
    grant(&mut s, usize::from(k), kind, rng);
    (s, HeldCall::Machine(Call::Deliver(k)))
}

fn hit(load: bool, rng: &mut Rng) -> (Store, HeldCall) {
    let mut s = store(2, rng);
    let (lane, word) = (rng.byte_below(s.n), rng.below(4 * usize::from(s.m)) as u8);
    let op = op(load, rng);
    let line = held_line(&mut s, usize::from(lane), word / 4, rng);
    line.private |= !load;
    s.lanes[usize::from(lane)].waiting = None;
    (s, HeldCall::Machine(Call::Begin { lane, op, word }))
}

/// Nothing but grants is on its way, of all four kinds, and perhaps ejects.
fn settle(rng: &mut Rng) -> (Store, HeldCall) {
    let mut s = store(GRANTS.len(), rng);
    s.slots = [None; SLOTS];
    let mut lanes: Vec<u8> = (0..s.n).collect();
    scramble::permute(&mut lanes, rng);
    for (&k, kind) in lanes.iter().zip(GRANTS.into_iter().cycle()) {
        grant(&mut s, usize::from(k), kind, rng);
        let lane = &mut s.lanes[usize::from(k)];
        (lane.down.length, lane.returns.length) = (1, rng.pick(&[0, 0, 1, 2]));
        for message in &mut lane.returns.places {
            message.kind = rng.pick(&[ReturnKind::Eject, ReturnKind::WriteEject]);
        }
    }
    (s, HeldCall::Settle)
}

fn op(load: bool, rng: &mut Rng) -> Op {
    match load {
        true => Op::Load,
        false => walk::write_op(rng),
    }
}

/// A grant of the kind at the head of lane k's down queue, its operation, and
/// lines that it fits.
fn grant(s: &mut Store, k: usize, (by, load): Kind, rng: &mut Rng) {
    let waiting = Waiting { served: true, op: op(load, rng), ..scramble::waiting(s.m, rng) };
    let (kind, words) = match by {
        By::Fill => (DownKind::Grant, rng.words()),
        _ => (DownKind::BareGrant, [0; 4]),
    };
    s.lanes[k].waiting = Some(waiting);
    let down = &mut s.lanes[k].down;
    down.length = down.length.max(1);
    down.places[0] = Message { kind, block: waiting.block(), words };
    match by {
        By::Fill => free_line(s, k, waiting.block(), rng),
        _ => {
            held_line(s, k, waiting.block(), rng);
        }
    }
}

/// A line of lane k that is valid and has the block, not the newest; it is the
/// lowest-numbered such.
fn held_line<'a>(s: &'a mut Store, k: usize, block: u8, rng: &mut Rng) -> &'a mut Line {
    let c = usize::from(s.c);
    let lane = &mut s.lanes[k];
    let i = usize::from(lane.order[rng.below(c - 1)]);
    lane.lines[..i].iter_mut().for_each(|line| line.valid &= line.block != block);
    (lane.lines[i].valid, lane.lines[i].block) = (true, block);
    &mut lane.lines[i]
}

/// Lane k does not hold the block; the line that a grant of it fills is in the
/// third place of the use order or behind, often with an invalid one in the first.
fn free_line(s: &mut Store, k: usize, block: u8, rng: &mut Rng) {
    let (c, m) = (usize::from(s.c), s.m);
    let lane = &mut s.lanes[k];
    let place = rng.between(2, c - 1);
    if rng.chance(60) && lane.order[0] < lane.order[place] {
        lane.order.swap(0, place);
    }
    let [oldest, i] = [0, place].map(|place| usize::from(lane.order[place]));
    for line in &mut lane.lines[..c] {
        line.valid &= line.block != block;
    }
    for line in lane.lines[..i].iter_mut().filter(|line| !line.valid) {
        (line.valid, line.block) = (true, (block + 1) % m);
    }
    lane.lines[i].valid = false;
    lane.lines[oldest].valid &= oldest < i || rng.chance(40);
}

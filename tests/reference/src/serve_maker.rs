//! Makes serves that come as far as their orders or their grant: the block is not in
//! service and fewer than L services are open, the lane waits unserved and its return
//! queue is empty. Serve `index` depends on the seed and the index only.

use crate::held::HeldCall;
use crate::parts::*;
use crate::rng::Rng;
use crate::scramble;

/// A store, not corrupt, and the lane to serve.
pub fn make(seed: u64, index: usize) -> (Store, u8) {
    let mut rng = Rng::stream(seed ^ 0x7365_7276, index as u64);
    let orders = rng.weighted(&[2, 1, 1, 1, 1, 1, 1, 1]);
    let mut s = store(orders, &mut rng);
    let k = rng.byte_below(s.n);
    let ordered = ask(&mut s, k, orders, &mut rng);
    set_lengths(&mut s, k, &ordered, &mut rng);
    if rng.chance(50) {
        scramble::junk(&mut s, &mut rng);
    }
    s.completed = scramble::completed(&s, &mut rng);
    (s, k)
}

pub fn call(k: u8) -> HeldCall {
    HeldCall::Machine(Call::Serve(k))
}

/// A random store with lanes for so many orders.
fn store(orders: usize, rng: &mut Rng) -> Store {
    let n = rng.between((orders + 1).max(2), LANES);
    let (any_c, any_m) = (rng.between(1, 8), rng.between(1, 64));
    let c = rng.pick(&[1, 2, any_c, any_c]);
    let m = rng.pick(&[1, 2, 3, any_m, any_m, 64]);
    scramble::filled(Store::fresh(n as u8, c as u8, m as u8), rng)
}

/// Lane k waits with any command, and the block's flags are such that so many
/// orders go out; the lanes that they go to, by number.
fn ask(s: &mut Store, k: u8, orders: usize, rng: &mut Rng) -> Vec<u8> {
    let mut waiting = Waiting { served: false, ..scramble::waiting(s.m, rng) };
    // READ shared with MODIFIED reset orders nobody, whoever is PRESENT.
    let is_quiet = orders == 0 && rng.chance(50);
    if is_quiet {
        waiting.command = Command::ReadShared;
    }
    let lane = &mut s.lanes[usize::from(k)];
    (lane.waiting, lane.returns.length) = (Some(waiting), 0);
    scramble::make_servable(s, waiting.block(), rng);
    let any_count = rng.below(usize::from(s.n));
    let others = others(s.n, k, if is_quiet { any_count } else { orders }, rng);
    let must_update = orders > 0 && waiting.command == Command::ReadShared;
    let entry = &mut s.blocks[usize::from(waiting.block())];
    entry.modified = !is_quiet && (must_update || rng.chance(50));
    entry.present = std::array::from_fn(|j| others.contains(&(j as u8)));
    entry.present[usize::from(k)] = rng.chance(50);
    if is_quiet {
        Vec::new()
    } else {
        others
    }
}

/// So many lanes other than k, by number.
fn others(n: u8, k: u8, count: usize, rng: &mut Rng) -> Vec<u8> {
    let mut lanes: Vec<u8> = (0..n).filter(|&j| j != k).collect();
    scramble::permute(&mut lanes, rng);
    lanes.truncate(count);
    lanes.sort_unstable();
    lanes
}

/// Down queues with room; in a third of the cases some are full.
fn set_lengths(s: &mut Store, k: u8, ordered: &[u8], rng: &mut Rng) {
    let full = match rng.chance(34) {
        true => full_lanes(s.n, k, ordered, rng),
        false => Vec::new(),
    };
    for j in 0..s.n {
        let any = rng.byte_below(PLACES as u8);
        let room = rng.pick(&[0, 1, any, PLACES as u8 - 1]);
        let length = if full.contains(&j) { PLACES as u8 } else { room };
        s.lanes[usize::from(j)].down.length = length;
    }
}

/// Lanes to have a full down queue: some of those that the serve sends something,
/// or only others.
fn full_lanes(n: u8, k: u8, ordered: &[u8], rng: &mut Rng) -> Vec<u8> {
    let sent = if ordered.is_empty() { vec![k] } else { ordered.to_vec() };
    let others: Vec<u8> = (0..n).filter(|j| !sent.contains(j)).collect();
    match rng.weighted(&[2, 2, 4, 2, 5]) {
        0 => vec![sent[0]],
        1 => vec![sent[sent.len() - 1]],
        2 => vec![rng.pick(&sent)],
        3 => some_of(&sent, rng),
        _ => some_of(&others, rng),
    }
}

/// At least one of them.
fn some_of(lanes: &[u8], rng: &mut Rng) -> Vec<u8> {
    let one = rng.pick(lanes);
    lanes.iter().copied().filter(|&j| j == one || rng.chance(40)).collect()
}

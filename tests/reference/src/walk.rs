//! Chooses calls for a store, so that most of them do something.

use crate::parts::*;
use crate::rng::Rng;

/// How calls are chosen for a while.
#[derive(Clone)]
pub struct Style {
    /// Weights of begin, serve, return and deliver.
    weights: [usize; 4],
    hot: Vec<u8>,
    hot_share: usize,
    load_share: usize,
    odd_share: usize,
}

impl Style {
    pub fn random(s: &Store, rng: &mut Rng) -> Style {
        let blocks = usize::from(s.m);
        let few = rng.between(1, 3.min(blocks));
        let near_c = (usize::from(s.c) + 1).min(blocks);
        let hot = rng.pick(&[1, few, few, near_c, blocks]);
        Style {
            weights: std::array::from_fn(|_| rng.pick(&[1, 2, 4, 8])),
            hot: (0..hot).map(|_| rng.byte_below(s.m)).collect(),
            hot_share: rng.pick(&[60, 90, 100]),
            load_share: rng.pick(&[10, 40, 60, 80]),
            odd_share: rng.pick(&[2, 5, 10, 25]),
        }
    }

    /// Many lanes load the same one or two blocks, few write.
    pub fn sharing(s: &Store, rng: &mut Rng) -> Style {
        let hot = (0..rng.between(1, 2)).map(|_| rng.byte_below(s.m)).collect();
        let weights = [8, 8, 8, 8];
        Style { weights, hot, hot_share: 98, load_share: 93, odd_share: 4 }
    }

    /// Few begins.
    pub fn steps(s: &Store) -> Style {
        let hot = (0..s.m).collect();
        Style { weights: [1, 40, 40, 40], hot, hot_share: 0, load_share: 50, odd_share: 2 }
    }
}

/// The next call: one that does something, or at times any call.
pub fn next_call(s: &Store, style: &Style, rng: &mut Rng) -> Call {
    if rng.chance(style.odd_share) {
        return odd_call(s, rng);
    }
    meaningful_call(s, style, rng).unwrap_or_else(|| odd_call(s, rng))
}

/// A call that is not refused in a store from an opening, if there is one.
pub fn meaningful_call(s: &Store, style: &Style, rng: &mut Rng) -> Option<Call> {
    let servable = |l: &Lane| l.unserved() && l.returns.is_empty() && !block_or_limit_busy(s, l);
    let candidates = [
        lanes_with(s, |l| l.waiting.is_none()),
        lanes_with(s, servable),
        lanes_with(s, |l| !l.returns.is_empty()),
        lanes_with(s, |l| !l.down.is_empty()),
    ];
    let weight = |i: usize| if candidates[i].is_empty() { 0 } else { style.weights[i] };
    let weights: [usize; 4] = std::array::from_fn(weight);
    if weights == [0; 4] {
        return None;
    }
    let choice = rng.weighted(&weights);
    let lane = rng.pick(&candidates[choice]);
    Some(match choice {
        0 => begin_call(s, style, lane, rng),
        1 => Call::Serve(lane),
        2 => Call::Return(lane),
        _ => Call::Deliver(lane),
    })
}

/// Whether L services are open, or one of the block that the lane waits for.
fn block_or_limit_busy(s: &Store, lane: &Lane) -> bool {
    let in_service = lane.waiting.map_or(false, |w| s.slot_of(w.block()).is_some());
    in_service || s.open_services() >= usize::from(s.limit)
}

fn lanes_with(s: &Store, test: impl Fn(&Lane) -> bool) -> Vec<u8> {
    (0..s.n).filter(|&k| test(&s.lanes[usize::from(k)])).collect()
}

fn begin_call(s: &Store, style: &Style, lane: u8, rng: &mut Rng) -> Call {
    let block = match rng.chance(style.hot_share) {
        true => rng.pick(&style.hot),
        false => rng.byte_below(s.m),
    };
    let word = 4 * block + rng.byte_below(4);
    let op = match rng.chance(style.load_share) {
        true => Op::Load,
        false => write_op(rng),
    };
    Call::Begin { lane, op, word }
}

/// A load on a lane that waits: mostly of a block that it has, above all the one
/// that it waits for; at times of one that it has lost, or any.
pub fn load_beside(s: &Store, rng: &mut Rng) -> Option<Call> {
    let has = |l: &Lane, block: u8| crate::machine::search(l, s.c, block).is_some();
    let waits = |l: &Lane, test: &dyn Fn(Waiting) -> bool| l.waiting.map_or(false, test);
    let excludes = |w: Waiting| w.command == Command::Exclude;
    let has_it = lanes_with(s, |l| waits(l, &|w| has(l, w.block())));
    let lost_it = lanes_with(s, |l| waits(l, &|w| excludes(w) && !has(l, w.block())));
    let has_any = lanes_with(s, |l| l.waiting.is_some() && l.lines.iter().any(|line| line.valid));
    let any = lanes_with(s, |l| l.waiting.is_some());
    let candidates = [has_it, lost_it, has_any, any];
    let weight = |i: usize| if candidates[i].is_empty() { 0 } else { [50, 10, 35, 5][i] };
    let weights: [usize; 4] = std::array::from_fn(weight);
    if weights == [0; 4] {
        return None;
    }
    let choice = rng.weighted(&weights);
    let (k, at) = (rng.pick(&candidates[choice]), rng.byte_below(4));
    let lane = &s.lanes[usize::from(k)];
    let waiting = lane.waiting?;
    let word = match choice {
        0 | 1 => rng.pick(&[waiting.word, 4 * waiting.block() + at]),
        2 => {
            let held: Vec<u8> = lane.lines.iter().filter(|l| l.valid).map(|l| l.block).collect();
            4 * rng.pick(&held) + at
        }
        _ => 4 * rng.byte_below(s.m) + at,
    };
    Some(Call::Begin { lane: k, op: Op::Load, word })
}

pub fn write_op(rng: &mut Rng) -> Op {
    let v = rng.value();
    rng.pick(&[Op::Store(v), Op::Exchange(v), Op::Add(v)])
}

pub fn any_op(rng: &mut Rng) -> Op {
    match rng.chance(30) {
        true => Op::Load,
        false => write_op(rng),
    }
}

/// Mostly a lane of the store, at times one that is not.
pub fn any_lane(s: &Store, rng: &mut Rng) -> u8 {
    let any = rng.byte();
    match rng.chance(85) {
        true => rng.byte_below(s.n),
        false => rng.pick(&[s.n, s.n, s.n + 1, 7.max(s.n), 8, 9, 255, any]),
    }
}

/// Mostly a word of the store, at times one that is not.
pub fn any_word(s: &Store, rng: &mut Rng) -> u8 {
    let (words, any) = (4 * usize::from(s.m), rng.byte());
    match rng.chance(75) {
        true => rng.below(words) as u8,
        false => rng.pick(&[words.min(255) as u8, (words + 3).min(255) as u8, 255, any]),
    }
}

/// Any call at all, on any lane and word; at times an early serve, or one that 10
/// refuses.
pub fn odd_call(s: &Store, rng: &mut Rng) -> Call {
    let early = lanes_with(s, |l| l.waiting.is_some() && !l.returns.is_empty());
    if !early.is_empty() && rng.chance(30) {
        return Call::Serve(rng.pick(&early));
    }
    let busy = lanes_with(s, |l| l.unserved() && block_or_limit_busy(s, l));
    if !busy.is_empty() && rng.chance(20) {
        return Call::Serve(rng.pick(&busy));
    }
    let lane = any_lane(s, rng);
    match rng.below(5) {
        0 | 1 => Call::Begin { lane, op: any_op(rng), word: any_word(s, rng) },
        2 => Call::Serve(lane),
        3 => Call::Return(lane),
        _ => Call::Deliver(lane),
    }
}

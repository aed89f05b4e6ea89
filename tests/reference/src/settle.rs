//! Settle: the steps that bring a store to quiet, in 01's fixed order.

use crate::machine::{self, CORRUPT, UNEXPECTED};
use crate::parts::*;

/// What a settle gives that isn't refused.
#[derive(Clone, PartialEq, Eq, Debug, Default)]
pub struct Settled {
    pub steps: u32,
    /// O: the UPDATEs and PURGEs that its own serves queued, at most 7 for each of 8.
    pub orders: u8,
    /// In the order in which they came.
    pub completions: Vec<Completion>,
}

/// The store after settling and what settle gives, or the number of 14, of
/// the step that was refused, or of a stuck store.
pub fn settle(store: &Store) -> Result<(Store, Settled), u8> {
    settle_under(store, Rule::LoadFillsOldest)
}

/// The same under any rule.
pub fn settle_under(store: &Store, rule: Rule) -> Result<(Store, Settled), u8> {
    if machine::corrupt_under(store, rule) {
        return Err(CORRUPT);
    }
    let (mut after, mut given) = (store.clone(), Settled::default());
    while !after.quiet() {
        take_step(&mut after, &mut given, rule)?;
    }
    Ok((after, given))
}

/// The next step; a store that is not quiet and has none is stuck.
fn take_step(s: &mut Store, given: &mut Settled, rule: Rule) -> Result<(), u8> {
    let step = next_step(s).ok_or(UNEXPECTED)?;
    let before = queued_orders(s);
    if let Answer::Done(done) = machine::step(s, step, rule)? {
        given.completions.push(done);
    }
    given.orders += sent_orders(step, before, s);
    given.steps += 1;
    Ok(())
}

/// How many orders a step queued, by how many were queued before it: a serve takes
/// none, and the other steps queue none.
pub(crate) fn sent_orders(step: Call, before: usize, after: &Store) -> u8 {
    match step {
        Call::Serve(_) => (queued_orders(after) - before) as u8,
        _ => 0,
    }
}

/// The UPDATEs and PURGEs in the down queues of the n lanes.
pub(crate) fn queued_orders(s: &Store) -> usize {
    let lanes = s.lanes.iter().take(usize::from(s.n));
    let messages = lanes.flat_map(|lane| lane.down.messages());
    messages.filter(|message| message.kind.is_order()).count()
}

/// The counts of steps and completions before the end or the refusal, of a
/// store that is not corrupt; they are the same under either rule of fills.
pub fn before_refusal(store: &Store) -> (u32, usize) {
    let (mut after, mut given) = (store.clone(), Settled::default());
    let rule = Rule::LoadFillsOldest;
    while !after.quiet() && take_step(&mut after, &mut given, rule).is_ok() {}
    (given.steps, given.completions.len())
}

/// Deliver to the lowest lane with a filled down queue; else return from the
/// lowest with a filled return queue; else serve the lowest unserved.
pub fn next_step(s: &Store) -> Option<Call> {
    let lowest = |test: fn(&Lane) -> bool| (0..s.n).find(|&k| test(&s.lanes[usize::from(k)]));
    let deliver = lowest(|lane| !lane.down.is_empty()).map(Call::Deliver);
    let take = || lowest(|lane| !lane.returns.is_empty()).map(Call::Return);
    let serve = || lowest(Lane::unserved).map(Call::Serve);
    deliver.or_else(take).or_else(serve)
}

/// 01's bound on the steps: R + G + 2 × Q + S + 2 × n × U.
pub fn bound(s: &Store) -> u32 {
    let lanes = &s.lanes[..usize::from(s.n)];
    let services = s.open_services() as u32;
    services + lanes.iter().map(|lane| lane_share(lane, s.n)).sum::<u32>()
}

/// What a lane adds to the bound.
fn lane_share(lane: &Lane, n: u8) -> u32 {
    let down = lane.down.messages().iter();
    let orders = down.filter(|message| message.kind.is_order()).count() as u32;
    let grants = u32::from(lane.down.length) - orders;
    let unserved = u32::from(lane.unserved());
    u32::from(lane.returns.length) + grants + 2 * orders + 2 * u32::from(n) * unserved
}

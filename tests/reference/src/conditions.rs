//! Every refusal condition that holds for a store and a call, each taken on
//! its own. Written apart from the steps: the first in document 01's order,
//! with W1's 17 after 8 and W5's loads past 8, must be the number that the call
//! gives.

use crate::held::{HeldCall, SETTLE_KIND};
use crate::machine;
use crate::parts::*;

/// The order of the checks of a held call.
pub const ORDER: [u8; 11] = [14, 6, 7, 8, 17, 9, 10, 11, 16, 12, 15];

/// The numbers that can apply to a call, by its kind byte.
pub fn applicable(kind: u8) -> &'static [u8] {
    match kind {
        0x01..=0x04 => &[14, 6, 7, 8, 17, 12],
        0x05 => &[14, 6, 9, 10, 11, 12],
        0x06 | 0x07 => &[14, 6, 9, 16, 12],
        SETTLE_KIND => &[14, 10, 16, 12],
        _ => &[14, 15],
    }
}

/// All conditions that hold, in the order of the checks.
pub fn all(s: &Store, call: HeldCall) -> Vec<u8> {
    if call == HeldCall::Settle && corrupt_reasons(s).is_empty() {
        return match settle_end(s) {
            SettleEnd::Quiet => Vec::new(),
            SettleEnd::Stuck(_) => vec![16],
            SettleEnd::At(now, step) => all(&now, HeldCall::Machine(step)),
        };
    }
    let holds = |number: u8| match (number, call) {
        (14, _) => !corrupt_reasons(s).is_empty(),
        (15, HeldCall::Picture(lent)) => 19 * valid_lines(s) > lent as usize,
        (_, HeldCall::Picture(_)) => false,
        (_, HeldCall::Settle) => false,
        (6, HeldCall::Machine(call)) => call.lane() >= s.n,
        (17, HeldCall::Machine(call)) => matches!(call, Call::Begin { .. }) && places_left(s) == 0,
        (_, HeldCall::Machine(call)) => match s.lanes.get(usize::from(call.lane())) {
            Some(lane) => call_condition(s, lane, call, number),
            None => number == 7 && word_out_of_range(s, call),
        },
    };
    ORDER.into_iter().filter(|&number| holds(number)).collect()
}

/// Where settle's steps lead: to quiet, to a store without a next step, or
/// to a store and the step that is refused there.
pub enum SettleEnd {
    Quiet,
    Stuck(Box<Store>),
    At(Box<Store>, Call),
}

/// Settle's steps one by one, each asked for its conditions.
pub fn settle_end(s: &Store) -> SettleEnd {
    let mut now = s.clone();
    while let Some(step) = first_step(&now) {
        if !all(&now, HeldCall::Machine(step)).is_empty() {
            return SettleEnd::At(Box::new(now), step);
        }
        now = machine::call(&now, step).expect("no condition holds").0;
    }
    match stuck_reasons(&now) {
        [false, false] => SettleEnd::Quiet,
        _ => SettleEnd::Stuck(Box::new(now)),
    }
}

/// Deliver, return, serve: the first that has a lane, on its lowest lane.
fn first_step(s: &Store) -> Option<Call> {
    let lanes: Vec<(u8, &Lane)> = (0..s.n).zip(&s.lanes).collect();
    let mut steps = lanes.iter().filter(|(_, l)| l.down.length > 0).map(|&(k, _)| Call::Deliver(k));
    let mut takes =
        lanes.iter().filter(|(_, l)| l.returns.length > 0).map(|&(k, _)| Call::Return(k));
    let waits = |lane: &Lane| lane.waiting.map_or(false, |w| !w.served);
    let mut serves = lanes.iter().filter(|(_, l)| waits(l)).map(|&(k, _)| Call::Serve(k));
    steps.next().or(takes.next()).or(serves.next())
}

/// With queues empty and nothing unserved: a service, a served operation.
fn stuck_reasons(s: &Store) -> [bool; 2] {
    let served = s.lanes.iter().take(usize::from(s.n)).any(|lane| lane.waiting.is_some());
    [s.slots.iter().any(Option::is_some), served]
}

/// The places that are left for operations to begin; below 0 where an
/// operation that waits has none.
fn places_left(s: &Store) -> i64 {
    let lanes = s.lanes.iter().take(usize::from(s.n));
    let waiting: i64 = lanes.map(|lane| i64::from(lane.waiting.is_some())).sum();
    4_294_967_295 - i64::from(s.completed) - waiting
}

fn word_out_of_range(s: &Store, call: Call) -> bool {
    matches!(call, Call::Begin { word, .. } if usize::from(word) >= 4 * usize::from(s.m))
}

fn valid_lines(s: &Store) -> usize {
    let lanes = s.lanes.iter().take(usize::from(s.n));
    lanes.map(|l| own_lines(s, l).filter(|line| line.valid).count()).sum()
}

fn own_lines<'a>(s: &Store, lane: &'a Lane) -> impl Iterator<Item = &'a Line> {
    lane.lines.iter().take(usize::from(s.c))
}

fn holds_block(s: &Store, lane: &Lane, block: u8) -> bool {
    own_lines(s, lane).any(|line| line.valid && line.block == block)
}

fn all_lines_valid(s: &Store, lane: &Lane) -> bool {
    own_lines(s, lane).all(|line| line.valid)
}

fn call_condition(s: &Store, lane: &Lane, call: Call, number: u8) -> bool {
    match (call, number) {
        (Call::Begin { .. }, 7) => word_out_of_range(s, call),
        (Call::Begin { op: Op::Load, word, .. }, 8) if holds_block(s, lane, word / 4) => false,
        (Call::Begin { .. }, 8) => lane.waiting.is_some(),
        (Call::Begin { word, .. }, 12) => {
            let miss = !holds_block(s, lane, word / 4);
            miss && all_lines_valid(s, lane) && lane.returns.is_full()
        }
        (Call::Serve(_), 9) => !matches!(lane.waiting, Some(Waiting { served: false, .. })),
        (Call::Serve(_), 10) => serve_meets_busy(s, lane),
        (Call::Serve(_), 11) => lane.returns.length > 0,
        (Call::Serve(k), 12) => serve_meets_full(s, usize::from(k)),
        (Call::Return(_), 9) => lane.returns.length == 0,
        (_, 16) => !unexpected_reasons(s, HeldCall::Machine(call)).is_empty(),
        (Call::Return(_), 12) => close_meets_full(s, lane),
        (Call::Deliver(_), 9) => lane.down.length == 0,
        (Call::Deliver(_), 12) => {
            let order = lane.down.head().map_or(false, |m| m.kind.is_order());
            order && lane.returns.is_full()
        }
        _ => false,
    }
}

/// The block of the operation has a service, or as many as L are open.
fn serve_meets_busy(s: &Store, lane: &Lane) -> bool {
    let open: Vec<Service> = s.slots.iter().filter_map(|slot| *slot).collect();
    let same = |w: Waiting| open.iter().any(|service| service.block == w.word / 4);
    open.len() >= usize::from(s.limit) || lane.waiting.map_or(false, same)
}

/// An ordered lane's down queue is full; with nobody ordered, k's own is.
fn serve_meets_full(s: &Store, k: usize) -> bool {
    let waiting = match s.lanes[k].waiting {
        Some(waiting) => waiting,
        None => return false,
    };
    let entry = match s.blocks.get(usize::from(waiting.word) / 4) {
        Some(entry) => entry,
        None => return false,
    };
    let all = usize::from(s.n).min(LANES);
    let quiet_read = waiting.command == Command::ReadShared && !entry.modified;
    let ordered: Vec<usize> = match quiet_read {
        true => Vec::new(),
        false => (0..all).filter(|&j| j != k && entry.present[j]).collect(),
    };
    match ordered.is_empty() {
        true => s.lanes[k].down.is_full(),
        false => ordered.iter().any(|&j| s.lanes[j].down.is_full()),
    }
}

fn head_answer(lane: &Lane) -> Option<Message<ReturnKind>> {
    lane.returns.head().filter(|m| m.kind.is_answer())
}

/// All the reasons that 16 can have; the last two are settle's.
pub const UNEXPECTED_REASONS: [&str; 11] = [
    "answer with no service",
    "answer for a block not in service",
    "answer with 0 awaited",
    "grant to an idle lane",
    "grant to an unserved operation",
    "grant for another block than the operation's",
    "bare grant on a block not held",
    "grant with words on a held block",
    "grant with words and no free line",
    "settle is stuck with a service",
    "settle is stuck with a served operation",
];

/// The reasons for which a call meets an unexpected message, or is stuck.
pub fn unexpected_reasons(s: &Store, call: HeldCall) -> Vec<&'static str> {
    match call {
        HeldCall::Picture(_) => Vec::new(),
        HeldCall::Machine(call) => message_reasons(s, call),
        HeldCall::Settle => match settle_end(s) {
            SettleEnd::Quiet => Vec::new(),
            SettleEnd::At(now, step) => message_reasons(&now, step),
            SettleEnd::Stuck(now) => {
                let holds = stuck_reasons(&now);
                (0..2).filter(|&i| holds[i]).map(|i| UNEXPECTED_REASONS[9 + i]).collect()
            }
        },
    }
}

fn message_reasons(s: &Store, call: Call) -> Vec<&'static str> {
    let lane = match s.lanes.get(usize::from(call.lane())) {
        Some(lane) => lane,
        None => return Vec::new(),
    };
    let (mut holds, answer, grant) = ([false; 9], head_answer(lane), head_grant(lane));
    match (call, answer, grant) {
        (Call::Return(_), Some(answer), _) => {
            let own = own_service(s, answer.block);
            let none = s.slots.iter().all(Option::is_none);
            holds[0] = none;
            holds[1] = !none && own.is_none();
            holds[2] = own.map_or(false, |v| v.awaited == 0);
        }
        (Call::Deliver(_), _, Some(grant)) => {
            let (bare, held) =
                (grant.kind == DownKind::BareGrant, holds_block(s, lane, grant.block));
            holds[3] = lane.waiting.is_none();
            holds[4] = lane.waiting.map_or(false, |w| !w.served);
            holds[5] = lane.waiting.map_or(false, |w| w.word / 4 != grant.block);
            holds[6] = bare && !held;
            holds[7] = !bare && held;
            holds[8] = !bare && all_lines_valid(s, lane);
        }
        _ => {}
    }
    (0..9).filter(|&i| holds[i]).map(|i| UNEXPECTED_REASONS[i]).collect()
}

fn head_grant(lane: &Lane) -> Option<Message<DownKind>> {
    lane.down.head().filter(|m| !m.kind.is_order())
}

/// The service that an answer for the block belongs to.
fn own_service(s: &Store, block: u8) -> Option<Service> {
    let mut open = s.slots.iter().filter_map(|slot| *slot);
    open.find(|service| service.block == block)
}

/// The head would be the last answer, and the service's lane has no room.
fn close_meets_full(s: &Store, lane: &Lane) -> bool {
    let answer = head_answer(lane);
    let service = match answer.and_then(|answer| own_service(s, answer.block)) {
        Some(service) => service,
        None => return false,
    };
    let target = s.lanes.get(usize::from(service.lane));
    service.awaited <= 1 && target.map_or(false, |l| l.down.is_full())
}

/// All the reasons that 14 can have.
pub const REASONS: [&str; 30] = [
    "n below 2",
    "n above 8",
    "c below 1",
    "c above 8",
    "m below 1",
    "m above 64",
    "L below 1",
    "L above 8",
    "block of a valid line",
    "block of return message 0",
    "block of return message 1",
    "block of return message 2 to 6",
    "block of return message 7",
    "block of down message 0",
    "block of down message 1",
    "block of down message 2 to 6",
    "block of down message 7",
    "word of an unserved operation",
    "word of a served operation",
    "return queue length",
    "down queue length",
    "use order repeats",
    "use order exceeds",
    "lane of a service",
    "block of a service",
    "awaited",
    "services exceed L",
    "two services of one block",
    "PRESENT for lane n or above",
    SUM_REASON,
];

/// W1's reason.
pub const SUM_REASON: &str = "completions plus operations waiting";

/// The reasons for which the store is corrupt; none if it is not.
pub fn corrupt_reasons(s: &Store) -> Vec<&'static str> {
    let (n, c, m, limit) = (s.n, s.c, s.m, s.limit);
    let outside = [n < 2, n > 8, c < 1, c > 8, m < 1, m > 64, limit < 1, limit > 8];
    if outside.contains(&true) {
        return reasons_from(0, &outside);
    }
    let lanes = s.lanes.iter().take(usize::from(s.n));
    let mut found: Vec<&str> =
        lanes.flat_map(|lane| reasons_from(8, &lane_reasons(s, lane))).collect();
    found.extend(reasons_from(23, &service_reasons(s)));
    found.extend(reasons_from(28, &[present_beyond(s), places_left(s) < 0]));
    found.sort_unstable();
    found.dedup();
    found
}

/// The reasons that hold, the first of them at a place of `REASONS`.
fn reasons_from(first: usize, holds: &[bool]) -> Vec<&'static str> {
    (0..holds.len()).filter(|&i| holds[i]).map(|i| REASONS[first + i]).collect()
}

/// Some block has PRESENT for a lane that the store has not.
fn present_beyond(s: &Store) -> bool {
    let mut blocks = s.blocks.iter().take(usize::from(s.m));
    blocks.any(|block| block.present[usize::from(s.n)..].contains(&true))
}

/// Every slot counts, whatever L is.
fn service_reasons(s: &Store) -> [bool; 5] {
    let open: Vec<Service> = s.slots.iter().filter_map(|slot| *slot).collect();
    let same = |a: usize, b: usize| open[a].block == open[b].block;
    [
        open.iter().any(|service| service.lane >= s.n),
        open.iter().any(|service| service.block >= s.m),
        open.iter().any(|service| service.awaited >= s.n),
        open.len() > usize::from(s.limit),
        (0..open.len()).any(|a| (0..a).any(|b| same(a, b))),
    ]
}

/// Whether a message in one of these places is queued and has a block outside.
fn block_outside<K: Copy>(s: &Store, queue: &Queue<K>, places: std::ops::Range<usize>) -> bool {
    let queued = |place: &usize| *place < usize::from(queue.length);
    places.into_iter().filter(queued).any(|place| queue.places[place].block >= s.m)
}

fn lane_reasons(s: &Store, lane: &Lane) -> [bool; 15] {
    let word_outside = |served| {
        let waiting = lane.waiting.filter(|w| w.served == served);
        waiting.map_or(false, |w| usize::from(w.word) / 4 >= usize::from(s.m))
    };
    let (r, d) = (&lane.returns, &lane.down);
    let named = &lane.order[..usize::from(s.c)];
    let repeats = (0..named.len()).any(|i| named[..i].contains(&named[i]));
    [
        own_lines(s, lane).any(|line| line.valid && line.block >= s.m),
        block_outside(s, r, 0..1),
        block_outside(s, r, 1..2),
        block_outside(s, r, 2..7),
        block_outside(s, r, 7..8),
        block_outside(s, d, 0..1),
        block_outside(s, d, 1..2),
        block_outside(s, d, 2..7),
        block_outside(s, d, 7..8),
        word_outside(false),
        word_outside(true),
        r.length > 8,
        d.length > 8,
        repeats,
        named.iter().any(|&name| name >= s.c),
    ]
}

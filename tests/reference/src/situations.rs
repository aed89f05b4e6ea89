//! Situations of held cases that a wrong machine could treat otherwise; most
//! are never reached from an opening.

use crate::held::{HeldAnswer, HeldCall};
use crate::machine;
use crate::parts::*;

pub const NAMES: [&str; 14] = [
    "begin: hit with all lines valid and a full return queue",
    "begin: hit on a block in two valid lines",
    "begin: eviction into a return queue with one message",
    "serve: orders sent though k's own down queue is full",
    "serve: UPDATE sent to more than one lane",
    "return: eject taken during a service of its block",
    "return: eject taken with awaited 0 in an open service",
    "return: the last answer closes for k itself",
    "return: an answer that does not close",
    "deliver: grant with a full return queue",
    "deliver: order on a block in two valid lines",
    "deliver: UPDATE on a held line with PRIVATE reset",
    "deliver: bare grant of a READ",
    "deliver: grant of a load that waits with EXCLUDE",
];

/// The situations that a case meets, given that it was not refused.
pub fn met(s: &Store, call: HeldCall, answer: &HeldAnswer) -> Vec<&'static str> {
    let (call, answer) = match (call, answer) {
        (HeldCall::Machine(call), &HeldAnswer::Machine(answer)) => (call, answer),
        _ => return Vec::new(),
    };
    let lane = &s.lanes[usize::from(call.lane())];
    let holds: [bool; NAMES.len()] = std::array::from_fn(|i| match (call, i) {
        (Call::Begin { word, .. }, 0..=2) => begin(s, lane, word / 4, answer, i),
        (Call::Serve(_), 3 | 4) => serve(s, call.lane(), i),
        (Call::Return(_), 5..=8) => take_return(s, call.lane(), i),
        (Call::Deliver(_), 9..=13) => deliver(s, lane, i),
        _ => false,
    });
    (0..NAMES.len()).filter(|&i| holds[i]).map(|i| NAMES[i]).collect()
}

fn copies(s: &Store, lane: &Lane, block: u8) -> usize {
    let lines = lane.lines[..usize::from(s.c)].iter();
    lines.filter(|line| line.valid && line.block == block).count()
}

fn begin(s: &Store, lane: &Lane, block: u8, answer: Answer, situation: usize) -> bool {
    let full = lane.lines[..usize::from(s.c)].iter().all(|line| line.valid);
    match situation {
        0 => answer != Answer::Wait && full && lane.returns.is_full(),
        1 => answer != Answer::Wait && copies(s, lane, block) > 1,
        _ => copies(s, lane, block) == 0 && full && lane.returns.length == 1,
    }
}

fn serve(s: &Store, k: u8, situation: usize) -> bool {
    let (after, _) = machine::call(s, Call::Serve(k)).expect("not refused");
    let block = s.lanes[usize::from(k)].waiting.map(|w| w.block());
    let service = block.and_then(|block| after.service_of(block));
    let orders = service.map_or(0, |service| service.awaited);
    let shared = service.map_or(false, |v| v.command == Command::ReadShared);
    match situation {
        3 => orders > 0 && s.lanes[usize::from(k)].down.is_full(),
        _ => orders > 1 && shared,
    }
}

fn take_return(s: &Store, k: u8, situation: usize) -> bool {
    let message = s.lanes[usize::from(k)].returns.places[0];
    let service = match s.service_of(message.block) {
        Some(service) => service,
        None => return false,
    };
    let answer = message.kind.is_answer();
    match situation {
        5 => !answer,
        6 => !answer && service.awaited == 0,
        7 => answer && service.awaited == 1 && service.lane == k,
        _ => answer && service.awaited > 1,
    }
}

fn deliver(s: &Store, lane: &Lane, situation: usize) -> bool {
    let message = lane.down.places[0];
    let order = message.kind.is_order();
    let waits = |command: Command| lane.waiting.map_or(false, |w| w.command == command);
    let load = lane.waiting.map_or(false, |w| w.op.is_load());
    match situation {
        9 => !order && lane.returns.is_full(),
        10 => order && copies(s, lane, message.block) > 1,
        11 => {
            let held = machine::search(lane, s.c, message.block);
            let update = message.kind == DownKind::Update;
            update && held.map_or(false, |i| !lane.lines[i].private)
        }
        12 => message.kind == DownKind::BareGrant && !waits(Command::Exclude),
        _ => !order && load && waits(Command::Exclude),
    }
}

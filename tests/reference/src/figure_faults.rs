//! Wrong machines of W7: each differs from the right one in one thing that the figure
//! rests on.

use crate::held::{self, HeldAnswer};
use crate::lists::{self, Given, Record};
use crate::machine::{FULL, LANE_BUSY};
use crate::parts::*;
use crate::service_faults::{self as services, right_step, Machine, Stepped, RIGHT};

pub const WRONG: [Machine; 9] = [
    Machine { name: "queues of 7 places", step: services::seven_places, ..RIGHT },
    Machine { name: "a begin evicts two lines", step: evicts_two, ..RIGHT },
    Machine { name: "a begin while the lane waits", step: begins_again, ..RIGHT },
    // 14 for two services of one block would end each list at once.
    Machine {
        name: "10 for the block never",
        step: services::block_never,
        corrupt: services::same_block_passes,
        ..RIGHT
    },
    Machine {
        name: "10 for L never",
        step: services::limit_never,
        corrupt: services::exceeding_passes,
        ..RIGHT
    },
    Machine { name: "11 never", step: returns_never, ..RIGHT },
    Machine { name: "the grant at once, before the answers", step: grants_early, ..RIGHT },
    BEGINS_UNSERVED,
    ORDERS_TO_ALL,
];

// The next two keep to the figure: see `tests/figure_faults.rs`.

pub const BEGINS_UNSERVED: Machine =
    Machine { name: "a begin while the lane waits unserved", step: begins_unserved, ..RIGHT };

pub const ORDERS_TO_ALL: Machine =
    Machine { name: "orders to lanes not PRESENT too", step: orders_to_all, ..RIGHT };

/// One record on the store that the records before it left.
pub fn run(machine: &Machine, store: &mut Store, record: Record) -> Given {
    let call = match record {
        Record::Call(call) => call,
        _ => return lists::run(store, record),
    };
    match machine.run(store, call) {
        Ok((after, answer)) => {
            *store = after;
            Given::Answer(answer)
        }
        Err(number) => Given::Answer(HeldAnswer::Refused(number)),
    }
}

/// The bytes of a machine's answers to the records.
pub fn answers(machine: &Machine, records: &[Record]) -> Vec<u8> {
    let (mut store, mut out) = (lists::blank(), Vec::new());
    for &record in records {
        let bound = held::bound_bytes(&store);
        let given = run(machine, &mut store, record);
        out.extend(lists::answer_bytes(record, &given, bound));
    }
    out
}

/// Where the right begin evicts a line, the next oldest goes too.
fn evicts_two(s: &mut Store, call: Call) -> Stepped {
    let k = usize::from(call.lane());
    let before = s.lanes[k].returns.length;
    let answer = right_step(s, call)?;
    let lane = &mut s.lanes[k];
    if matches!(call, Call::Begin { .. }) && lane.returns.length > before {
        evict_oldest(lane, s.c)?;
    }
    Ok(answer)
}

/// The oldest valid line, if there is one.
fn evict_oldest(lane: &mut Lane, c: u8) -> Result<(), u8> {
    let mut order = lane.order[..usize::from(c)].iter().map(|&i| usize::from(i));
    let line = match order.find(|&i| lane.lines[i].valid) {
        Some(i) => &mut lane.lines[i],
        None => return Ok(()),
    };
    line.valid = false;
    let (kind, words) = match line.private {
        true => (ReturnKind::WriteEject, line.words),
        false => (ReturnKind::Eject, [0; 4]),
    };
    push(&mut lane.returns, Message { kind, block: line.block, words })
}

fn push<K: Copy>(queue: &mut Queue<K>, message: Message<K>) -> Result<(), u8> {
    match queue.push(message) {
        true => Ok(()),
        false => Err(FULL),
    }
}

/// In place of 8 the operation that waits is forgotten.
fn begins_again(s: &mut Store, call: Call) -> Stepped {
    match right_step(s, call) {
        Err(LANE_BUSY) => {
            s.lanes[usize::from(call.lane())].waiting = None;
            right_step(s, call)
        }
        given => given,
    }
}

fn begins_unserved(s: &mut Store, call: Call) -> Stepped {
    match s.lanes[usize::from(call.lane())].unserved() {
        true => begins_again(s, call),
        false => right_step(s, call),
    }
}

/// A serve does not see the lane's return queue.
fn returns_never(s: &mut Store, call: Call) -> Stepped {
    let (k, returns) = (usize::from(call.lane()), s.lanes[usize::from(call.lane())].returns);
    if !matches!(call, Call::Serve(_)) {
        return right_step(s, call);
    }
    s.lanes[k].returns.length = 0;
    let answer = right_step(s, call)?;
    s.lanes[k].returns = returns;
    Ok(answer)
}

/// A serve that leaves a service open queues its grant, and the close none.
fn grants_early(s: &mut Store, call: Call) -> Stepped {
    let before = s.clone();
    let answer = right_step(s, call)?;
    match call {
        Call::Serve(k) => grant_open(s, k)?,
        Call::Return(_) => {
            for (is, was) in s.lanes.iter_mut().zip(&before.lanes) {
                is.down.length -= u8::from(services::gained_grant(was, is));
            }
        }
        _ => {}
    }
    Ok(answer)
}

/// The grant of lane k's block, if that is in service.
fn grant_open(s: &mut Store, k: u8) -> Result<(), u8> {
    let lane = &mut s.lanes[usize::from(k)];
    let block = lane.waiting.map_or(0, |waiting| waiting.block());
    let service = s.slots.iter().flatten().find(|v| v.lane == k && v.block == block);
    let (kind, words) = match service {
        None => return Ok(()),
        Some(v) if v.bare => (DownKind::BareGrant, [0; 4]),
        Some(_) => (DownKind::Grant, s.blocks[usize::from(block)].words),
    };
    push(&mut lane.down, Message { kind, block, words })
}

/// All other lanes are PRESENT for the time of a serve that sends orders.
fn orders_to_all(s: &mut Store, call: Call) -> Stepped {
    let waiting = s.lanes[usize::from(call.lane())].waiting;
    let (k, waiting) = match (call, waiting) {
        (Call::Serve(k), Some(waiting)) => (usize::from(k), waiting),
        _ => return right_step(s, call),
    };
    let (n, block) = (usize::from(s.n), usize::from(waiting.block()));
    if waiting.command == Command::ReadShared && !s.blocks[block].modified {
        return right_step(s, call);
    }
    let was = s.blocks[block].present;
    (0..n).filter(|&j| j != k).for_each(|j| s.blocks[block].present[j] = true);
    let given = right_step(s, call);
    s.blocks[block].present = was;
    given
}

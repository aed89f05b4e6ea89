//! Wrong machines of W6: each differs from the right one in one thing about
//! services, their slots, the limit or the length of queues.

use crate::conditions;
use crate::held::{self, HeldAnswer, HeldCall};
use crate::machine::{self, CONTROL_BUSY, CORRUPT, FULL, NOTHING_PENDING, NO_SUCH_LANE};
use crate::machine::{RETURNS_PENDING, UNEXPECTED};
use crate::parts::*;
use crate::settle::{self, Settled};

const RULE: Rule = Rule::LoadFillsOldest;

pub(crate) type Stepped = Result<Answer, u8>;

/// The parts of a machine that a wrong one has another of.
pub struct Machine {
    pub name: &'static str,
    /// Condition 14.
    pub(crate) corrupt: fn(&Store) -> bool,
    /// A call that 14 and 6 do not refuse.
    pub(crate) step: fn(&mut Store, Call) -> Stepped,
    /// Settle's next step.
    pub(crate) next: fn(&Store) -> Option<Call>,
    pub(crate) bound: fn(&Store) -> u32,
}

pub const RIGHT: Machine = Machine {
    name: "right",
    corrupt: machine::corrupt,
    step: right_step,
    next: settle::next_step,
    bound: settle::bound,
};

pub const WRONG: [Machine; 26] = [
    Machine { name: "an answer lowers the lowest busy slot", step: lowest_lowered, ..RIGHT },
    Machine { name: "a close frees all slots", step: close_frees_all, ..RIGHT },
    Machine { name: "10 at L + 1 services", step: busy_above_limit, ..RIGHT },
    Machine { name: "10 for L never", step: limit_never, ..RIGHT },
    Machine { name: "10 for the block never", step: block_never, ..RIGHT },
    Machine { name: "10 at L - 1 services", step: busy_below_limit, ..RIGHT },
    Machine { name: "10 with any service open (as before W6)", step: busy_at_one, ..RIGHT },
    Machine { name: "10 for a lane that has a service", step: lane_is_busy, ..RIGHT },
    Machine { name: "11 before 10", step: returns_before_busy, ..RIGHT },
    Machine { name: "two services of one block not 14", corrupt: same_block_passes, ..RIGHT },
    Machine { name: "services above L not 14", corrupt: exceeding_passes, ..RIGHT },
    Machine { name: "L 0 or above 8 not 14", corrupt: any_limit_passes, ..RIGHT },
    Machine { name: "only slots below L looked at for 14", corrupt: low_slots_only, ..RIGHT },
    Machine { name: "two services of one lane 14", corrupt: same_lane_corrupt, ..RIGHT },
    Machine { name: "awaited 0 is 14", corrupt: none_awaited_corrupt, ..RIGHT },
    Machine { name: "L above n is 14", corrupt: limit_above_n_corrupt, ..RIGHT },
    Machine { name: "L above m is 14", corrupt: limit_above_m_corrupt, ..RIGHT },
    Machine { name: "queues of 7 places", step: seven_places, ..RIGHT },
    Machine { name: "a queue of 9 not 14", corrupt: nine_passes, ..RIGHT },
    Machine { name: "queues of 2 places for 14 (as before W6)", corrupt: three_corrupt, ..RIGHT },
    Machine { name: "14 of the first two messages only", corrupt: two_messages, ..RIGHT },
    Machine { name: "a take moves the first two places only", step: short_shift, ..RIGHT },
    Machine { name: "a new service in the highest free slot", step: highest_slot, ..RIGHT },
    Machine { name: "a close moves later slots down", step: slots_move_down, ..RIGHT },
    Machine { name: "S as 0 or 1 in the bound", bound: one_service_bound, ..RIGHT },
    Machine { name: "settle serves a higher lane past 10", next: past_busy, ..RIGHT },
];

pub(crate) fn right_step(s: &mut Store, call: Call) -> Stepped {
    machine::step(s, call, RULE)
}

impl Machine {
    /// What the machine gives to a case: the store after with the answer, or the
    /// number.
    pub fn run(&self, s: &Store, call: HeldCall) -> Result<(Store, HeldAnswer), u8> {
        if (self.corrupt)(s) {
            return Err(CORRUPT);
        }
        let mut after = s.clone();
        let answer = match call {
            HeldCall::Machine(call) if call.lane() >= s.n => return Err(NO_SUCH_LANE),
            HeldCall::Machine(call) => HeldAnswer::Machine((self.step)(&mut after, call)?),
            HeldCall::Settle => HeldAnswer::Settled(self.settle(&mut after)?),
            HeldCall::Picture(_) => held::run(s, call).answer,
        };
        Ok((after, answer))
    }

    fn settle(&self, s: &mut Store) -> Result<Settled, u8> {
        let mut given = Settled::default();
        while !s.quiet() {
            let step = (self.next)(s).ok_or(UNEXPECTED)?;
            let before = settle::queued_orders(s);
            if let Answer::Done(done) = (self.step)(s, step)? {
                given.completions.push(done);
            }
            given.orders += settle::sent_orders(step, before, s);
            given.steps += 1;
        }
        Ok(given)
    }

    /// Whether it gives other bytes to a case. Where it lets a corrupt store pass it
    /// does not give 14.
    pub fn differs(&self, s: &Store, call: HeldCall) -> bool {
        match machine::corrupt(s) {
            true => !(self.corrupt)(s),
            false => {
                let settles = call == HeldCall::Settle;
                self.run(s, call) != RIGHT.run(s, call)
                    || settles && (self.bound)(s) != (RIGHT.bound)(s)
            }
        }
    }
}

/// The names of the wrong machines that give a case other bytes.
pub fn told(s: &Store, call: HeldCall) -> Vec<&'static str> {
    WRONG.iter().filter(|wrong| wrong.differs(s, call)).map(|wrong| wrong.name).collect()
}

/// The right step, then a change to the store after it; it is told the one before.
fn but(s: &mut Store, call: Call, change: impl Fn(&Store, &mut Store)) -> Stepped {
    let before = s.clone();
    let answer = right_step(s, call)?;
    change(&before, s);
    Ok(answer)
}

/// The answer's block is that of the lowest busy slot for the time of the step.
fn lowest_lowered(s: &mut Store, call: Call) -> Stepped {
    let head = match call {
        Call::Return(k) => s.lanes[usize::from(k)].returns.head(),
        _ => None,
    };
    let lowest = s.slots.iter().position(Option::is_some);
    let (message, slot) = match (head, lowest) {
        (Some(message), Some(slot)) if message.kind.is_answer() => (message, slot),
        _ => return right_step(s, call),
    };
    let mut others = s.slots;
    let service = others[slot].take().expect("a busy slot");
    s.slots = [None; SLOTS];
    s.slots[slot] = Some(Service { block: message.block, ..service });
    let answer = right_step(s, call)?;
    let lowered = s.slots[slot].map(|v| Service { block: service.block, ..v });
    s.slots = others;
    s.slots[slot] = lowered;
    Ok(answer)
}

fn close_frees_all(s: &mut Store, call: Call) -> Stepped {
    but(s, call, |before, after| {
        let grant = after.lanes.iter().zip(&before.lanes).any(|(is, was)| gained_grant(was, is));
        if grant {
            after.slots = [None; SLOTS];
        }
    })
}

pub(crate) fn gained_grant(was: &Lane, is: &Lane) -> bool {
    let last = is.down.messages().last();
    is.down.length > was.down.length && last.map_or(false, |m| !m.kind.is_order())
}

/// Serves with another condition for 10.
fn serve_unless(s: &mut Store, call: Call, busy: fn(&Store, &Lane, u8) -> bool) -> Stepped {
    let k = match call {
        Call::Serve(k) => k,
        _ => return right_step(s, call),
    };
    let lane = &s.lanes[usize::from(k)];
    let waiting = lane.waiting.filter(|w| !w.served).ok_or(NOTHING_PENDING)?;
    let free = s.slots.iter().position(Option::is_none);
    match free.filter(|_| !busy(s, lane, waiting.block())) {
        Some(slot) => machine::serve_in(s, k, slot, RULE),
        None => Err(CONTROL_BUSY),
    }
}

fn in_service(s: &Store, block: u8) -> bool {
    s.slot_of(block).is_some()
}

fn at_limit(s: &Store) -> bool {
    s.open_services() >= usize::from(s.limit)
}

fn busy_above_limit(s: &mut Store, call: Call) -> Stepped {
    serve_unless(s, call, |s, _, block| {
        in_service(s, block) || s.open_services() > usize::from(s.limit)
    })
}

pub(crate) fn limit_never(s: &mut Store, call: Call) -> Stepped {
    serve_unless(s, call, |s, _, block| in_service(s, block))
}

pub(crate) fn block_never(s: &mut Store, call: Call) -> Stepped {
    serve_unless(s, call, |s, _, _| at_limit(s))
}

fn busy_below_limit(s: &mut Store, call: Call) -> Stepped {
    serve_unless(s, call, |s, _, block| {
        let open = s.open_services();
        in_service(s, block) || at_limit(s) || open > 0 && open + 1 == usize::from(s.limit)
    })
}

fn busy_at_one(s: &mut Store, call: Call) -> Stepped {
    serve_unless(s, call, |s, _, _| s.open_services() > 0)
}

fn lane_is_busy(s: &mut Store, call: Call) -> Stepped {
    let k = call.lane();
    let own = s.services().any(|v| v.lane == k);
    match right_step(s, call) {
        Ok(_) if matches!(call, Call::Serve(_)) && own => Err(CONTROL_BUSY),
        given => given,
    }
}

fn returns_before_busy(s: &mut Store, call: Call) -> Stepped {
    let pending = !s.lanes[usize::from(call.lane())].returns.is_empty();
    match right_step(s, call) {
        Err(CONTROL_BUSY) if pending => Err(RETURNS_PENDING),
        given => given,
    }
}

/// Corrupt for other reasons than these.
fn corrupt_but_for(s: &Store, reasons: &[&str]) -> bool {
    conditions::corrupt_reasons(s).iter().any(|reason| !reasons.contains(reason))
}

pub(crate) fn same_block_passes(s: &Store) -> bool {
    corrupt_but_for(s, &["two services of one block"])
}

pub(crate) fn exceeding_passes(s: &Store) -> bool {
    corrupt_but_for(s, &["services exceed L"])
}

fn any_limit_passes(s: &Store) -> bool {
    let limit = s.limit.clamp(1, SLOTS as u8);
    machine::corrupt(&Store { limit, ..s.clone() })
}

fn low_slots_only(s: &Store) -> bool {
    let mut low = s.clone();
    low.slots.iter_mut().skip(usize::from(s.limit)).for_each(|slot| *slot = None);
    machine::corrupt(&low)
}

fn same_lane_corrupt(s: &Store) -> bool {
    let lanes: Vec<u8> = s.services().map(|v| v.lane).collect();
    let repeats = (0..lanes.len()).any(|i| lanes[..i].contains(&lanes[i]));
    machine::corrupt(s) || repeats
}

fn none_awaited_corrupt(s: &Store) -> bool {
    machine::corrupt(s) || s.services().any(|v| v.awaited == 0)
}

fn limit_above_n_corrupt(s: &Store) -> bool {
    machine::corrupt(s) || s.limit > s.n
}

fn limit_above_m_corrupt(s: &Store) -> bool {
    machine::corrupt(s) || s.limit > s.m
}

/// The lengths of the queues of the store's own lanes.
pub fn lengths(s: &Store) -> Vec<u8> {
    let lanes = s.lanes.iter().take(usize::from(s.n));
    lanes.flat_map(|lane| [lane.returns.length, lane.down.length]).collect()
}

pub(crate) fn seven_places(s: &mut Store, call: Call) -> Stepped {
    let before = lengths(s);
    let answer = right_step(s, call)?;
    let grown = lengths(s).into_iter().zip(before).any(|(is, was)| is == 8 && was == 7);
    match grown {
        true => Err(FULL),
        false => Ok(answer),
    }
}

fn nine_passes(s: &Store) -> bool {
    let mut shorter = s.clone();
    for lane in &mut shorter.lanes {
        for length in [&mut lane.returns.length, &mut lane.down.length] {
            *length -= u8::from(*length == 9);
        }
    }
    machine::corrupt(&shorter)
}

fn three_corrupt(s: &Store) -> bool {
    machine::corrupt_under(s, Rule::BeforeW6)
}

fn two_messages(s: &Store) -> bool {
    let late = [
        "block of return message 2 to 6",
        "block of return message 7",
        "block of down message 2 to 6",
        "block of down message 7",
    ];
    corrupt_but_for(s, &late)
}

fn short_shift(s: &mut Store, call: Call) -> Stepped {
    but(s, call, |before, after| {
        let k = usize::from(call.lane());
        let (was, is) = (&before.lanes[k], &mut after.lanes[k]);
        match call {
            Call::Return(_) => is.returns.places[1..].copy_from_slice(&was.returns.places[1..]),
            Call::Deliver(_) => is.down.places[1..].copy_from_slice(&was.down.places[1..]),
            _ => {}
        }
    })
}

fn highest_slot(s: &mut Store, call: Call) -> Stepped {
    but(s, call, |before, after| {
        let new = (0..SLOTS).find(|&i| before.slots[i].is_none() && after.slots[i].is_some());
        let highest = before.slots.iter().rposition(Option::is_none);
        if let (Some(new), Some(highest)) = (new, highest) {
            after.slots.swap(new, highest);
        }
    })
}

fn slots_move_down(s: &mut Store, call: Call) -> Stepped {
    but(s, call, |before, after| {
        let freed = (0..SLOTS).find(|&i| before.slots[i].is_some() && after.slots[i].is_none());
        if let Some(freed) = freed {
            after.slots[freed..].rotate_left(1);
        }
    })
}

fn one_service_bound(s: &Store) -> u32 {
    let open = s.open_services() as u32;
    settle::bound(s) - open + open.min(1)
}

/// The lowest unserved lane that 10 does not refuse, if there is one.
fn past_busy(s: &Store) -> Option<Call> {
    let step = settle::next_step(s)?;
    let busy = |call: Call| right_step(&mut s.clone(), call) == Err(CONTROL_BUSY);
    let unserved = (0..s.n).filter(|&k| s.lanes[usize::from(k)].unserved()).map(Call::Serve);
    match step {
        Call::Serve(_) if busy(step) => unserved.into_iter().find(|&c| !busy(c)).or(Some(step)),
        _ => Some(step),
    }
}

//! What held cases meet of the places of completions: W1's refusals at the
//! last place, and completions near it. No list from an opening gets there.

use crate::conditions::{corrupt_reasons, SUM_REASON};
use crate::held::{HeldAnswer, HeldCall};
use crate::machine;
use crate::parts::*;

pub const NAMES: [&str; 24] = [
    "refused 17 on a begin that would be done",
    "refused 17 on a begin that would wait with EXCLUDE",
    "refused 17 on a begin that would miss",
    "refused 17 where 12 would be next",
    "refused 17 with nobody waiting",
    "refused 17 with served operations alone",
    "refused 17 with unserved operations alone",
    "refused 14 for the sum alone",
    "refused 14 for the sum alone, which is 4294967296",
    "refused 14 for the sum alone, with served operations alone",
    "refused 14 for the sum alone, with unserved operations alone",
    "refused 14 for the sum alone, a picture",
    "refused 14 for the sum alone, a settle",
    "done by a begin near the last place",
    "done by a deliver near the last place",
    "done by a settle near the last place",
    "done by a begin in the last place",
    "done by a deliver in the last place",
    "done by a settle in the last place",
    "not refused with the sum 4294967293",
    "not refused with the sum 4294967294",
    "not refused with the sum 4294967295",
    "not refused with the sum 4294967295, nobody waiting",
    "not refused with the sum 4294967295, an operation past lane n",
];

/// Near the last place are so many places before it.
pub const NEAR: u32 = 16;

/// Those of `NAMES` that a case meets.
pub fn met(s: &Store, call: HeldCall, answer: &HeldAnswer) -> Vec<&'static str> {
    let mut holds = refused_17(s, call, answer).to_vec();
    holds.extend(refused_14(s, call, answer));
    holds.extend(done(call, answer));
    holds.extend(sums(s, answer));
    assert_eq!(holds.len(), NAMES.len());
    NAMES.into_iter().zip(holds).filter(|(_, holds)| *holds).map(|(name, _)| name).collect()
}

/// The places that are left for operations to begin, if not too many wait.
pub fn left(s: &Store) -> Option<u64> {
    u64::from(LAST_PLACE).checked_sub(s.begun())
}

/// Whether operations wait that are served, and that are unserved.
pub fn waiting(s: &Store) -> (bool, bool) {
    let lanes = || s.lanes.iter().take(usize::from(s.n)).filter_map(|lane| lane.waiting);
    (lanes().any(|waiting| waiting.served), lanes().any(|waiting| !waiting.served))
}

/// The first four by what the call gives on a store with one place left.
fn refused_17(s: &Store, call: HeldCall, answer: &HeldAnswer) -> [bool; 7] {
    let call = match (call, answer) {
        (HeldCall::Machine(call), HeldAnswer::Refused(17)) => call,
        _ => return [false; 7],
    };
    let mut with_place = s.clone();
    with_place.completed -= 1;
    let given = machine::call(&with_place, call);
    let waits = |test: fn(Command) -> bool| match &given {
        Ok((after, Answer::Wait)) => {
            after.lanes[usize::from(call.lane())].waiting.map_or(false, |w| test(w.command))
        }
        _ => false,
    };
    [
        matches!(given, Ok((_, Answer::Done(_)))),
        waits(|command| command == Command::Exclude),
        waits(|command| command != Command::Exclude),
        matches!(given, Err(12)),
        waiting(s) == (false, false),
        waiting(s) == (true, false),
        waiting(s) == (false, true),
    ]
}

fn refused_14(s: &Store, call: HeldCall, answer: &HeldAnswer) -> [bool; 6] {
    if *answer != HeldAnswer::Refused(14) || corrupt_reasons(s) != [SUM_REASON] {
        return [false; 6];
    }
    [
        true,
        s.begun() == u64::from(LAST_PLACE) + 1,
        waiting(s) == (true, false),
        waiting(s) == (false, true),
        matches!(call, HeldCall::Picture(_)),
        call == HeldCall::Settle,
    ]
}

fn done(call: HeldCall, answer: &HeldAnswer) -> [bool; 6] {
    let places: Vec<u32> = match answer {
        HeldAnswer::Machine(Answer::Done(done)) => vec![done.place],
        HeldAnswer::Settled(given) => given.completions.iter().map(|done| done.place).collect(),
        _ => Vec::new(),
    };
    let by = [
        matches!(call, HeldCall::Machine(Call::Begin { .. })),
        matches!(call, HeldCall::Machine(Call::Deliver(_))),
        call == HeldCall::Settle,
    ];
    let near = places.iter().any(|&place| place >= LAST_PLACE - NEAR);
    let last = places.contains(&LAST_PLACE);
    [by[0] && near, by[1] && near, by[2] && near, by[0] && last, by[1] && last, by[2] && last]
}

fn sums(s: &Store, answer: &HeldAnswer) -> [bool; 5] {
    if matches!(answer, HeldAnswer::Refused(_)) {
        return [false; 5];
    }
    let none_left = left(s) == Some(0);
    let past = s.lanes[usize::from(s.n)..].iter().any(|lane| lane.waiting.is_some());
    [
        left(s) == Some(2),
        left(s) == Some(1),
        none_left,
        none_left && s.waiting() == 0,
        none_left && past,
    ]
}

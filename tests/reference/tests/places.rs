//! W1: the places of completions, and what the last of them refuses.

use reference::held::{self, HeldAnswer, HeldCall};
use reference::machine;
use reference::parts::*;
use reference::settle::settle;
use reference::{stores, tape};
use std::collections::BTreeSet;

const LAST: u32 = 4_294_967_295;

/// All kinds of call that lane 1 of a store can be called with.
const CALLS: [HeldCall; 9] = [
    begin(Op::Load),
    begin(Op::Store(1)),
    begin(Op::Exchange(1)),
    begin(Op::Add(1)),
    HeldCall::Machine(Call::Serve(1)),
    HeldCall::Machine(Call::Return(1)),
    HeldCall::Machine(Call::Deliver(1)),
    HeldCall::Picture(1_300),
    HeldCall::Settle,
];

const fn begin(op: Op) -> HeldCall {
    HeldCall::Machine(Call::Begin { lane: 1, op, word: 4 })
}

/// The four begins of lane 1, on a word of block 1.
fn begins() -> &'static [HeldCall] {
    &CALLS[..4]
}

fn waiting(served: bool) -> Option<Waiting> {
    let (command, op) = (Command::ReadExclusive, Op::Store(9));
    Some(Waiting { served, command, op, word: 0 })
}

fn line(private: bool, block: u8) -> Line {
    Line { valid: true, private, block, words: [1, 2, 3, 4] }
}

fn queue<K: Copy>(length: u8, kind: K) -> Queue<K> {
    Queue { length, places: [Message { kind, block: 0, words: [5; 4] }; PLACES] }
}

/// Three lanes of one line and two blocks, with so many completions.
fn store(completed: u32) -> Store {
    Store { completed, ..Store::fresh(3, 1, 2) }
}

/// Such stores in which lane 1 holds block 1 alone, shares it, has no line, and
/// has one of block 0.
fn stores_of_lane_1(completed: u32) -> [Store; 4] {
    [Some(line(true, 1)), Some(line(false, 1)), None, Some(line(true, 0))].map(|held| {
        let mut s = store(completed);
        s.lanes[1].lines[0] = held.unwrap_or_default();
        s
    })
}

/// The call is refused with the number, and the store is as before.
fn refused(s: &Store, call: HeldCall, number: u8) {
    let given = held::run(s, call);
    assert_eq!(given.answer, HeldAnswer::Refused(number), "{call:?}");
    assert_eq!(given.store, *s);
    assert_eq!(given.bytes()[..12], [4, number, 0, 0, 0, 0, 0, 0, 0, 0, 0, 0]);
}

/// What the call gives, which is no refusal; the store after it is sound.
fn accepted(s: &Store, call: HeldCall) -> (Store, HeldAnswer) {
    let given = held::run(s, call);
    assert!(!matches!(given.answer, HeldAnswer::Refused(_)), "{call:?} {:?}", given.answer);
    assert!(!machine::corrupt(&given.store));
    (given.store, given.answer)
}

/// The places that an answer gives.
fn places(answer: &HeldAnswer) -> Vec<u32> {
    match answer {
        HeldAnswer::Machine(Answer::Done(done)) => vec![done.place],
        HeldAnswer::Settled(given) => given.completions.iter().map(|done| done.place).collect(),
        _ => Vec::new(),
    }
}

/// Completions so far and operations waiting of the store's own lanes.
fn sum(s: &Store) -> u64 {
    let lanes = &s.lanes[..usize::from(s.n)];
    u64::from(s.completed) + lanes.iter().filter(|lane| lane.waiting.is_some()).count() as u64
}

/// Two begins that wait, one that is refused, their completions, then hits.
#[test]
fn only_completions_take_a_place() {
    let tape = [
        0, 2, 1, 1, // open
        2, 0, 0, 7, 0, 0, 0, // store: wait
        1, 1, 0, // load: wait
        1, 0, 0, // load: refused 8
        5, 0, 7, 0, // serve, deliver: done
        0, 2, 1, 1, // open: refused 4
        1, 0, 9, // load: refused 7
        1, 0, 0, // load: done
        5, 1, 7, 0, 6, 0, 7, 1, // serve, deliver, return, deliver: done
        1, 1, 0, // load: done
    ];
    let lines = "0 open\n1 wait\n2 wait\n3 refused 8\n4 step\n5 done 0 7 1\n6 refused 4\n\
                 7 refused 7\n8 done 0 7 2\n9 step\n10 step\n11 step\n12 done 1 7 3\n\
                 13 done 1 7 4\nend 14\n";
    assert_eq!(tape::print(&tape), lines);
}

#[test]
fn a_begin_needs_a_place() {
    for &call in begins() {
        for completed in [LAST - 2, LAST - 1] {
            for s in stores_of_lane_1(completed) {
                assert_eq!(sum(&accepted(&s, call).0), u64::from(completed) + 1);
            }
        }
        for s in stores_of_lane_1(LAST) {
            refused(&s, call, 17);
        }
        for served in [false, true] {
            for mut s in stores_of_lane_1(LAST - 2) {
                s.lanes[0].waiting = waiting(served);
                accepted(&s, call);
                s.completed = LAST - 1;
                refused(&s, call, 17);
                s.completed = LAST;
                refused(&s, call, 14);
            }
        }
    }
}

/// Two of three lanes wait; the third would be the last to be given a place.
#[test]
fn both_served_and_unserved_operations_count() {
    for mut s in stores_of_lane_1(LAST - 3) {
        (s.lanes[0].waiting, s.lanes[2].waiting) = (waiting(true), waiting(false));
        accepted(&s, CALLS[0]);
        s.completed = LAST - 2;
        refused(&s, CALLS[0], 17);
        s.completed = LAST - 1;
        refused(&s, CALLS[0], 14);
    }
}

#[test]
fn a_hit_gets_the_last_place() {
    for &call in begins() {
        let [s, ..] = stores_of_lane_1(LAST - 1);
        let (after, answer) = accepted(&s, call);
        assert_eq!((places(&answer), after.completed), (vec![LAST], LAST));
        begins().iter().for_each(|&again| refused(&after, again, 17));
    }
}

#[test]
fn checked_after_6_7_8_and_before_12() {
    for op in [Op::Load, Op::Store(1), Op::Exchange(1), Op::Add(1)] {
        let begin = |lane, word| HeldCall::Machine(Call::Begin { lane, op, word });
        let mut s = store(LAST);
        refused(&s, begin(0, 7), 17);
        refused(&s, begin(3, 7), 6);
        refused(&s, begin(3, 8), 6);
        refused(&s, begin(255, 0), 6);
        refused(&s, begin(0, 8), 7);
        for served in [false, true] {
            let mut s = store(LAST - 1);
            s.lanes[0].waiting = waiting(served);
            refused(&s, begin(0, 7), 8);
            refused(&s, begin(0, 8), 7);
            refused(&s, begin(1, 7), 17);
            // A load that hits is past 8.
            for private in [false, true] {
                s.lanes[0].lines[0] = line(private, 1);
                refused(&s, begin(0, 7), if op.is_load() { 17 } else { 8 });
                refused(&s, begin(0, 3), 8);
                refused(&s, begin(0, 8), 7);
            }
        }
        s.lanes[0].lines[0] = line(false, 0);
        s.lanes[0].returns = queue(8, ReturnKind::Eject);
        refused(&s, begin(0, 7), 17);
        s.completed = LAST - 1;
        refused(&s, begin(0, 7), 12);
    }
}

#[test]
fn a_larger_sum_is_14_in_every_call() {
    for served in [false, true] {
        let mut s = store(LAST);
        s.lanes[2].waiting = waiting(served);
        CALLS.iter().for_each(|&call| refused(&s, call, 14));
        // Before 6 and 15 too, and without wrap-around.
        refused(&s, HeldCall::Machine(Call::Serve(3)), 14);
        s.lanes[0].lines[0] = line(true, 0);
        refused(&s, HeldCall::Picture(0), 14);
        s.lanes[0].waiting = waiting(!served);
        s.lanes[1].waiting = waiting(served);
        for completed in [LAST, LAST - 1, LAST - 2] {
            s.completed = completed;
            CALLS.iter().for_each(|&call| refused(&s, call, 14));
        }
        s.completed = LAST - 3;
        assert!(!machine::corrupt(&s));
    }
    // The bound of a settle refused so is 0.
    let mut s = store(LAST);
    s.lanes[0].waiting = waiting(false);
    assert_eq!(held::run(&s, HeldCall::Settle).after, [0; 74]);
}

/// Lanes n and above are no part of the store.
#[test]
fn operations_past_lane_n_do_not_count() {
    let mut s = store(LAST);
    (3..8).for_each(|k| s.lanes[k].waiting = waiting(k % 2 == 0));
    assert!(!machine::corrupt(&s));
    refused(&s, CALLS[0], 17);
    s.completed = LAST - 1;
    accepted(&s, CALLS[0]);
}

/// All places are given and nobody waits: the other calls are as ever.
#[test]
fn without_a_place_left_the_other_calls_are_as_ever() {
    let mut s = store(LAST);
    s.lanes[1].lines[0] = line(true, 0);
    s.lanes[1].down = queue(1, DownKind::Update);
    s.lanes[1].returns = queue(1, ReturnKind::Eject);
    assert!(!machine::corrupt(&s));
    refused(&s, HeldCall::Machine(Call::Serve(1)), 9);
    let step = HeldAnswer::Machine(Answer::Step);
    let (after, answer) = accepted(&s, HeldCall::Machine(Call::Return(1)));
    assert_eq!((answer, after.completed, after.lanes[1].returns.length), (step.clone(), LAST, 0));
    let (after, answer) = accepted(&s, HeldCall::Machine(Call::Deliver(1)));
    assert_eq!((answer, after.completed, after.lanes[1].returns.length), (step, LAST, 2));
    assert_eq!(accepted(&s, HeldCall::Picture(19)).1, HeldAnswer::Picture(19));
    s.lanes[1].down.length = 0;
    let (after, given) = settle(&s).expect("ejects are taken");
    assert_eq!((given.steps, given.completions.len(), after.completed), (1, 0, LAST));
}

/// The last operation that could begin is served, granted and completed.
#[test]
fn the_last_operation_completes() {
    let mut s = store(LAST - 1);
    s = accepted(&s, CALLS[1]).0;
    begins().iter().for_each(|&call| refused(&s, call, 8));
    assert_eq!(places(&accepted(&s, HeldCall::Settle).1), [LAST]);
    s = accepted(&s, HeldCall::Machine(Call::Serve(1))).0;
    assert_eq!((s.completed, sum(&s)), (LAST - 1, u64::from(LAST)));
    let (after, answer) = accepted(&s, HeldCall::Machine(Call::Deliver(1)));
    assert_eq!((places(&answer), after.completed), (vec![LAST], LAST));
}

#[test]
fn settle_gives_the_next_places_in_its_order() {
    for completed in [0, 254, 65_534, LAST - 3] {
        let mut s = store(completed);
        // Lane 2's grant is on its way: it completes first.
        (s.lanes[2].waiting, s.lanes[2].down) = (waiting(true), queue(1, DownKind::Grant));
        (s.lanes[0].waiting, s.lanes[1].waiting) = (waiting(false), waiting(false));
        let (after, given) = settle(&s).expect("not refused");
        let listed: Vec<(u8, u32)> = given.completions.iter().map(|d| (d.lane, d.place)).collect();
        assert_eq!(listed, [(2, completed + 1), (0, completed + 2), (1, completed + 3)]);
        assert_eq!(after.completed, completed + 3);
    }
}

/// Settle completes one operation and meets an unexpected answer then.
#[test]
fn a_refused_settle_leaves_the_count() {
    let mut s = store(41);
    (s.lanes[0].waiting, s.lanes[0].down) = (waiting(true), queue(1, DownKind::Grant));
    s.lanes[2].returns = queue(1, ReturnKind::Gone);
    refused(&s, HeldCall::Settle, 16);
    let (after, answer) = accepted(&s, HeldCall::Machine(Call::Deliver(0)));
    assert_eq!((places(&answer), after.completed), (vec![42], 42));
}

/// A begin that isn't refused raises the sum by one, every other call keeps
/// it; the count rises with each place given, and a sound store stays sound.
#[test]
fn the_sum_counts_the_begins() {
    let (mut begun, mut kept) = (0, 0);
    for index in 0..20_000 {
        let case = stores::make(5, index);
        let given = held::run(&case.store, case.call);
        let is_begin = matches!(case.call, HeldCall::Machine(Call::Begin { .. }));
        if matches!(given.answer, HeldAnswer::Refused(_)) {
            assert!(given.store == case.store);
            continue;
        }
        assert!(!machine::corrupt(&case.store) && !machine::corrupt(&given.store));
        assert_eq!(sum(&given.store), sum(&case.store) + u64::from(is_begin), "case {index}");
        let next: Vec<u32> = (case.store.completed..given.store.completed).map(|c| c + 1).collect();
        assert_eq!(places(&given.answer), next, "case {index}");
        begun += usize::from(is_begin);
        kept += usize::from(!is_begin);
    }
    assert!(begun > 1_000 && kept > 3_000, "{begun} {kept}");
}

/// The case with no completions before it, and the same places after.
fn shifted(mut given: held::Given, by: u32) -> held::Given {
    match &mut given.answer {
        HeldAnswer::Machine(Answer::Done(done)) => done.place += by,
        HeldAnswer::Settled(given) => given.completions.iter_mut().for_each(|d| d.place += by),
        _ => {}
    }
    given.store.completed += by;
    given
}

/// But for 17 and 14, the count moves the places and does nothing else.
#[test]
fn the_count_does_nothing_else() {
    let mut compared = 0;
    for index in 0..20_000 {
        let case = stores::make(6, index);
        let given = held::run(&case.store, case.call);
        if [14, 17].map(HeldAnswer::Refused).contains(&given.answer) {
            continue;
        }
        let by = case.store.completed;
        let from_0 = shifted(held::run(&Store { completed: 0, ..case.store }, case.call), by);
        assert!(given.answer == from_0.answer && given.store == from_0.store, "case {index}");
        compared += 1;
    }
    assert!(compared > 10_000, "{compared}");
}

#[test]
fn counts_of_every_size_are_made() {
    let counts = (0..20_000).map(|index| stores::make(1, index).store.completed);
    let sizes: BTreeSet<u32> = counts.map(|count| 32 - count.leading_zeros()).collect();
    assert_eq!(sizes, (0..=32).collect());
}

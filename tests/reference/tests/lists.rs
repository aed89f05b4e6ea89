//! Lists of calls: their bytes, what the maker promises, and what the judge
//! of demand 3 finds.

use reference::bounds::{self, Bounded};
use reference::cover;
use reference::held::{HeldAnswer, HeldCall};
use reference::judge::judge;
use reference::list_maker::{self, SHAPES};
use reference::lists::{self, Given, Record};
use reference::parts::*;
use reference::settle::Settled;
use std::collections::BTreeSet;

fn begin(lane: u8, op: Op, word: u8) -> Record {
    Record::Call(HeldCall::Machine(Call::Begin { lane, op, word }))
}

const OPEN: Record = Record::Open { n: 2, c: 1, m: 1 };
const SETTLE: Record = Record::Call(HeldCall::Settle);

/// Document 01's two storing lanes, and the store shown.
fn two_stores() -> Vec<Record> {
    vec![OPEN, begin(0, Op::Store(7), 2), begin(1, Op::Store(9), 2), SETTLE, Record::Show]
}

fn bytes(records: &[Record]) -> Vec<u8> {
    records.iter().flat_map(|record| record.bytes()).collect()
}

/// The records with what the reference gives.
fn answered(records: &[Record]) -> Vec<(Record, Given)> {
    let answers = lists::answers(&bytes(records)).expect("well formed");
    lists::read(&bytes(records), &answers).expect("well formed")
}

/// Completions by lane, value and place.
fn settled(steps: u32, orders: u8, completions: &[(u8, u32, u32)]) -> Given {
    let completions =
        completions.iter().map(|&(lane, value, place)| Completion { lane, value, place }).collect();
    Given::Answer(HeldAnswer::Settled(Settled { steps, orders, completions }))
}

#[test]
fn list_bytes() {
    let input = bytes(&two_stores());
    assert_eq!(input[..8], [0, 2, 1, 1, 0, 0, 0, 0]);
    assert_eq!(input[8..16], [2, 0, 2, 7, 0, 0, 0, 0]);
    assert_eq!(input[24..32], [0x11, 0, 0, 0, 0, 0, 0, 0]);
    assert_eq!(input[32..], [0x12, 0, 0, 0, 0, 0, 0, 0]);
    assert_eq!(lists::records(&input), Ok(two_stores()));
    let answers = lists::answers(&input).expect("well formed");
    assert_eq!(answers.len(), 12 + 12 + 12 + 86 + 5_320);
    assert_eq!(answers[..12], [0; 12]);
    assert_eq!(answers[12..24], [2, 0, 0, 0, 0, 0, 0, 0, 0, 0, 0, 0]);
    assert_eq!(answers[36..48], [6, 0, 6, 0, 0, 0, 2, 1, 0, 0, 0, 0]);
    assert_eq!(answers[48..57], [0, 7, 0, 0, 0, 1, 0, 0, 0]);
    assert_eq!(answers[57..66], [1, 9, 0, 0, 0, 2, 0, 0, 0]);
    assert_eq!(answers[66..120], [0; 54]);
    assert_eq!(answers[120..122], [8, 0]);
    assert_eq!(answers[122..131], [2, 1, 1, 1, 2, 0, 0, 0, 0]);
    let given = lists::read(&input, &answers).expect("well formed");
    assert_eq!(given[3].1, settled(6, 1, &[(0, 7, 1), (1, 9, 2)]));
    assert!(lists::records(&input[..31]).is_err());
    assert!(lists::records(&[0x10, 0, 0, 0, 0, 0, 0, 0]).is_err());
    assert!(lists::read(&input, &answers[..answers.len() - 1]).is_err());
    assert!(lists::read(&input[..32], &answers).is_err());
}

#[test]
fn a_refused_opening_leaves_the_blank_store() {
    let calls = [Record::Open { n: 1, c: 1, m: 1 }, begin(0, Op::Load, 0), SETTLE, OPEN, SETTLE];
    let given: Vec<Given> = answered(&calls).into_iter().map(|(_, given)| given).collect();
    let refused = |number| Given::Answer(HeldAnswer::Refused(number));
    assert_eq!(given[..4], [refused(5), refused(14), refused(14), Given::Opened]);
    assert_eq!(given[4], settled(0, 0, &[]));
    // Nothing is left of a list before it, completions neither.
    let mut calls = two_stores();
    calls.extend([Record::Open { n: 9, c: 1, m: 1 }, Record::Show]);
    let given = answered(&calls).pop().map(|(_, given)| given);
    assert_eq!(given, Some(Given::Store(Box::new(Store::with_limit(0, 0, 0, 0)))));
}

#[test]
fn differences_are_found() {
    let input = bytes(&two_stores());
    let mut answers = lists::answers(&input).expect("well formed");
    assert_eq!(lists::differences(&input, &answers, 9), Ok(vec![]));
    answers[120] ^= 1;
    let found = lists::differences(&input, &answers, 9).expect("well formed");
    assert!(found.len() == 1 && found[0].ends_with("Call(Settle): answer byte 84"), "{found:?}");
    answers[38] ^= 1;
    answers[122 + 3_720] ^= 1;
    let found = lists::differences(&input, &answers, 9).expect("well formed");
    assert!(found.len() == 2 && found[0].ends_with("answer byte 2"), "{found:?}");
    assert!(found[1].ends_with("block 0 word 0 byte 0"), "{found:?}");
    answers.pop();
    let found = lists::differences(&input, &answers, 9).expect("well formed");
    assert!(found[1].ends_with("the answers end early"), "{found:?}");
}

/// The list judged with one answer changed.
fn judged_with(index: usize, change: impl Fn(&mut Given)) -> Result<usize, String> {
    let mut all = answered(&two_stores());
    change(&mut all[index].1);
    judge(&all).map(|judged| judged.completions)
}

#[test]
fn the_judge_finds_lies() {
    assert_eq!(judged_with(0, |_| {}), Ok(2));
    // A wrong value, a completion left out, one too many, one of another lane.
    for completions in [
        &[(0, 7, 1), (1, 8, 2)][..],
        &[(0, 7, 1)],
        &[(0, 7, 1), (1, 9, 2), (1, 9, 3)],
        &[(0, 7, 1), (0, 9, 2)],
        &[(0, 9, 1), (1, 7, 2)],
    ] {
        let lie = settled(6, 1, completions);
        assert!(judged_with(3, |given| *given = lie.clone()).is_err(), "{completions:?}");
    }
    // Stores commute as far as their values go, but not in what is left.
    let swapped = settled(6, 1, &[(1, 9, 1), (0, 7, 2)]);
    assert!(judged_with(3, |given| *given = swapped.clone()).is_err());
    let done = Completion { lane: 0, value: 8, place: 1 };
    let lie = Given::Answer(HeldAnswer::Machine(Answer::Done(done)));
    assert!(judged_with(1, |given| *given = lie.clone()).is_err());
    // A store that is not quiet, or has other words.
    let change = |given: &mut Given, change: fn(&mut Store)| match given {
        Given::Store(store) => change(store),
        _ => panic!("no store"),
    };
    let changes: [fn(&mut Store); 4] = [
        |s| s.lanes[1].lines[0].words[2] = 8,
        |s| s.lanes[1].lines[0].private = false,
        |s| s.blocks[0].present[0] = true,
        |s| s.lanes[0].returns.length = 1,
    ];
    for (i, act) in changes.into_iter().enumerate() {
        assert!(judged_with(4, |given| change(given, act)).is_err(), "change {i}");
    }
}

/// A list with completions in a deliver, in a begin, in a settle (three) and in
/// a begin again, then another with one in a settle.
fn many_places() -> Vec<(Record, Given)> {
    let call = |call| Record::Call(HeldCall::Machine(call));
    let steps = [call(Call::Serve(0)), call(Call::Deliver(0))];
    let mut records = vec![Record::Open { n: 4, c: 1, m: 1 }, begin(0, Op::Add(1), 0)];
    records.extend(steps);
    records.push(begin(0, Op::Add(2), 0));
    records.extend((1..4).map(|lane| begin(lane, Op::Add(3), 0)));
    records.extend([SETTLE, begin(3, Op::Load, 0), OPEN, begin(1, Op::Add(1), 0), SETTLE]);
    answered(&records)
}

/// The places in the order of the completions.
fn places(all: &mut [(Record, Given)]) -> Vec<&mut u32> {
    all.iter_mut().flat_map(|(_, given)| places_of(given)).collect()
}

fn places_of(given: &mut Given) -> Vec<&mut u32> {
    match given {
        Given::Answer(HeldAnswer::Machine(Answer::Done(done))) => vec![&mut done.place],
        Given::Answer(HeldAnswer::Settled(given)) => {
            given.completions.iter_mut().map(|done| &mut done.place).collect()
        }
        _ => Vec::new(),
    }
}

/// The judge's word on those answers with other places.
fn judged_places(wanted: &[u32]) -> Result<usize, String> {
    let mut all = many_places();
    for (place, &wanted) in places(&mut all).into_iter().zip(wanted) {
        *place = wanted;
    }
    judge(&all).map(|judged| judged.completions)
}

const RIGHT_PLACES: [u32; 7] = [1, 2, 3, 4, 5, 6, 1];

/// A wrong place at an index, a repeated and a skipped one: there alone, or
/// with all after it in the list moved too.
fn place_is_judged(index: usize) {
    let end = if index < 6 { 6 } else { 7 };
    let lies: [fn(u32) -> u32; 5] = [|_| 0, |_| 77, |_| u32::MAX, |p| p - 1, |p| p + 1];
    for lie in lies {
        for last in [index + 1, end] {
            let mut wrong = RIGHT_PLACES;
            wrong[index..last].iter_mut().for_each(|place| *place = lie(*place));
            let told = judged_places(&wrong).expect_err("a wrong place");
            assert!(told.contains("is next"), "{wrong:?}: {told}");
        }
    }
}

#[test]
fn right_places_are_held() {
    let mut all = many_places();
    assert_eq!(places(&mut all).into_iter().map(|place| *place).collect::<Vec<_>>(), RIGHT_PLACES);
    assert_eq!(judged_places(&RIGHT_PLACES), Ok(7));
    // The places do not go on from list to list.
    assert!(judged_places(&[1, 2, 3, 4, 5, 6, 7]).is_err());
}

#[test]
fn a_wrong_place_in_a_delivers_answer_is_found() {
    place_is_judged(0);
}

#[test]
fn a_wrong_place_in_a_begins_answer_is_found() {
    place_is_judged(1);
    place_is_judged(5);
}

#[test]
fn a_wrong_place_in_settles_list_is_found() {
    (2..5).for_each(place_is_judged);
    place_is_judged(6);
    // All three in one place, or in the order of neither lanes nor places.
    assert!(judged_places(&[1, 2, 3, 3, 3, 4, 1]).is_err());
    assert!(judged_places(&[1, 2, 5, 4, 3, 6, 1]).is_err());
}

/// The place's bytes are 0 in an answer that completes nothing, and in the room
/// that settle leaves.
#[test]
fn places_without_a_completion_are_not_read() {
    let input = bytes(&two_stores());
    for at in [8, 12 + 8, 36 + 8, 48 + 2 * 9 + 5] {
        let mut answers = lists::answers(&input).expect("well formed");
        answers[at] = 1;
        assert!(lists::read(&input, &answers).is_err(), "byte {at}");
    }
}

/// The bound of two unserved operations of two lanes is 8.
#[test]
fn a_count_above_the_bound_is_found() {
    let bounded = |steps| {
        let mut all = answered(&two_stores());
        all[3].1 = settled(steps, 1, &[(0, 7, 1), (1, 9, 2)]);
        bounds::of_lists(&all)
    };
    assert_eq!(bounded(6), Ok(Bounded { settles: 1, reached: 0 }));
    assert_eq!(bounded(8), Ok(Bounded { settles: 1, reached: 1 }));
    assert!(bounded(9).is_err());
}

/// A refused call feeds flat memory nothing, and the last begin that waited
/// is the one that completes.
#[test]
fn the_judge_attributes_by_the_last_begin_that_waited() {
    let calls = [
        OPEN,
        begin(0, Op::Add(3), 1),
        begin(0, Op::Add(50), 1),
        begin(2, Op::Add(60), 1),
        SETTLE,
        begin(0, Op::Add(4), 1),
        begin(1, Op::Load, 1),
        SETTLE,
    ];
    let all = answered(&calls);
    assert_eq!(all[7].1, settled(4, 1, &[(1, 7, 3)]));
    let judged = judge(&all).expect("demand 3");
    assert_eq!((judged.in_begins, judged.in_delivers, judged.in_settles), (1, 0, 2));
}

#[test]
fn made_lists_cover_what_they_must() {
    let all: Vec<Record> = (0..SHAPES).flat_map(|index| list_maker::make(1, index)).collect();
    let cover = cover::cover(&all);
    assert_eq!((cover.never_met(), cover.impossible()), (vec![], vec![]));
    assert!(cover.calls >= 100_000 && cover.lists == SHAPES, "{} calls", cover.calls);
    let [other, in_answers] = cover.other_bytes;
    assert!(other >= 2_500 && in_answers >= 500, "{other} {in_answers}");
    assert!(cover.other_before_w5 >= 2_000, "{}", cover.other_before_w5);
    for name in reference::list_loads::LOADS {
        let count = cover.loads.counts.get(name).copied().unwrap_or(0);
        assert!(count >= 300, "{name}: {count}");
    }
    let judged = judge(&answered(&all)).expect("demand 3");
    assert!(judged.completions >= 100_000, "{} completions", judged.completions);
    assert!(judged.in_settles >= 50_000 && judged.quiet_stores >= SHAPES / 2);
}

#[test]
fn the_maker_is_deterministic_and_has_all_shapes() {
    assert_eq!(list_maker::make(9, 16), list_maker::make(9, 16));
    assert_ne!(list_maker::make(9, 16), list_maker::make(10, 16));
    let shapes: BTreeSet<(u8, u8, u8)> = (0..SHAPES).map(list_maker::shape).collect();
    assert_eq!(shapes.len(), SHAPES);
    let inside = |(n, c, m)| (2..=8).contains(&n) && (1..=8).contains(&c) && (1..=64).contains(&m);
    assert!(shapes.into_iter().all(inside));
}

/// Every shape, in short lists and in long ones, of one seed and of another.
#[test]
fn drawn_lists_reach_every_shape() {
    for seed in [1, 2] {
        let drawn = (0..12 * list_maker::CYCLE).map(|place| list_maker::drawn_index(seed, place));
        let kinds: BTreeSet<_> =
            drawn.map(|i| (list_maker::shape(i), list_maker::is_long(i))).collect();
        assert_eq!(kinds.len(), 2 * SHAPES);
    }
    let few = |seed| (0..9).map(|place| list_maker::drawn_index(seed, place)).collect::<Vec<_>>();
    assert_ne!(few(1), few(2));
}

/// What is counted of loads' fills, in the order of their names: of lane 0, with
/// a settle after each operation.
fn fills(c: u8, operations: &[(Op, u8)]) -> [usize; 3] {
    let mut records = vec![Record::Open { n: 2, c, m: 4 }];
    for &(op, block) in operations {
        records.extend([begin(0, op, 4 * block), SETTLE]);
    }
    let counts = cover::cover(&records).fills.counts;
    reference::fills::FILLS.map(|name| counts.get(name).copied().unwrap_or(0))
}

#[test]
fn loads_fills_are_followed() {
    let (load, add) = (Op::Load, Op::Add(1));
    assert_eq!(fills(2, &[(load, 0), (load, 1)]), [0, 0, 0]);
    assert_eq!(fills(2, &[(load, 0), (load, 1), (load, 2)]), [1, 0, 0]);
    assert_eq!(fills(2, &[(load, 0), (load, 1), (load, 2), (load, 3)]), [2, 0, 0]);
    // Used once more, it is given up as any other; twice counts once.
    assert_eq!(fills(2, &[(load, 0), (load, 1), (load, 1), (load, 1)]), [0, 1, 0]);
    assert_eq!(fills(2, &[(load, 0), (load, 0), (add, 1), (load, 2)]), [0, 1, 0]);
    assert_eq!(fills(2, &[(load, 0), (load, 1), (add, 1)]), [0, 0, 1]);
    assert_eq!(fills(2, &[(load, 0), (load, 1), (add, 1), (add, 1), (load, 1)]), [0, 0, 1]);
    // Newest already: line 0, when line 1 goes in as oldest.
    assert_eq!(fills(2, &[(load, 0), (load, 1), (load, 0)]), [0, 0, 0]);
    // Another operation's fill is a use; one line has no order.
    assert_eq!(fills(2, &[(add, 0), (add, 1), (load, 0), (load, 2)]), [0, 0, 0]);
    assert_eq!(fills(1, &[(load, 0), (load, 0), (load, 1), (load, 2)]), [0, 0, 0]);
}

/// A line that was purged is no load's fill when another operation fills it.
#[test]
fn purged_fills_are_forgotten() {
    let mut records = vec![Record::Open { n: 2, c: 2, m: 4 }];
    for (lane, op, block) in
        [(0, Op::Load, 0), (0, Op::Add(1), 1), (1, Op::Add(1), 0), (0, Op::Add(1), 2)]
    {
        records.extend([begin(lane, op, 4 * block), SETTLE]);
    }
    records.extend([begin(0, Op::Add(1), 4), begin(0, Op::Load, 12), SETTLE]);
    let counts = cover::cover(&records).fills.counts;
    assert!(counts.is_empty(), "{counts:?}");
}

#[test]
fn a_cover_tells_what_is_missing() {
    let few: Vec<Record> = (0..40).flat_map(|index| list_maker::make(1, index)).collect();
    let never = cover::cover(&few).never_met();
    assert!(never.contains(&"shapes: only 40".to_string()), "{never:?}");
    let none = cover::cover(&two_stores()).never_met();
    assert!(none.contains(&"settle with 1 completions".to_string()), "{none:?}");
    assert!(none.contains(&"the rule before W3 gives other bytes".to_string()), "{none:?}");
    for name in reference::fills::FILLS {
        assert!(none.contains(&name.to_string()), "{none:?}");
    }
    assert!(!none.contains(&"settle with 2 completions".to_string()));
}

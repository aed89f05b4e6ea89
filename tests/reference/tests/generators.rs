//! What the generators promise.

use reference::beside;
use reference::bounds;
use reference::choice;
use reference::conditions::{self, REASONS, UNEXPECTED_REASONS};
use reference::damage::{CORRUPTING, FAIR};
use reference::held::{self, HeldAnswer, HeldCall, SETTLE_KIND};
use reference::list_maker::SHAPES;
use reference::machine;
use reference::orders;
use reference::pictures;
use reference::places;
use reference::rng::Rng;
use reference::service_faults;
use reference::services;
use reference::situations;
use reference::stores::{self, Case};
use reference::summary::{Cases, Tapes, BUSY, HELD_KINDS};
use reference::tape::SAMPLE_TAPE;
use reference::{tape, tapes};
use std::collections::BTreeSet;

#[test]
fn tapes_cover_what_they_must() {
    let mut summary = Tapes::default();
    let mut lengths = BTreeSet::new();
    for index in 0..tapes::CYCLE {
        let bytes = tapes::make(1, index);
        summary.add(&bytes);
        lengths.insert(bytes.len());
    }
    assert!(summary.lines >= 300_000, "{} lines", summary.lines);
    for length in [0, SAMPLE_TAPE.len(), 65_535, 65_536, 65_537] {
        assert!(lengths.contains(&length), "no tape of {length} bytes");
    }
    for number in (1..=11).chain([13, 18]) {
        assert!(summary.refused.contains_key(&number), "refusal {number}");
    }
    for number in [12, 14, 16, 17] {
        assert!(!summary.refused.contains_key(&number), "refusal {number}");
    }
    check_kind_08(&summary);
    assert!(summary.highest_place > 5_000, "{}", summary.highest_place);
    assert!(summary.beside >= 100, "{}", summary.beside);
    let events = &summary.events;
    assert!(events.orders.iter().all(|&count| count > 0), "{:?}", events.orders);
    assert_eq!(events.never_met(), [""; 0]);
    for n in 2..=8 {
        assert!(summary.shapes.iter().any(|s| s.0 == n));
    }
    for c in 1..=8 {
        assert!(summary.shapes.iter().any(|s| s.1 == c));
    }
    for m in 1..=64 {
        assert!(summary.shapes.iter().any(|s| s.2 == m), "m {m}");
    }
}

/// W6: kind 08 with every L, refused in every way; 10 for the block and for L apart;
/// eight services at once.
fn check_kind_08(summary: &Tapes) {
    for limit in 1..=8 {
        let count = summary.limit_opens.get(&format!("open with L {limit}")).copied();
        assert!(count >= Some(5), "L {limit}: {count:?}");
    }
    for number in [1, 4, 5, 18] {
        let count = summary.limit_opens.get(&format!("refused {number}")).copied();
        assert!(count >= Some(8), "refused {number}: {count:?}");
    }
    assert_eq!(summary.limit_opens.len(), 12);
    assert!(BUSY.iter().all(|name| summary.busy.get(name) >= Some(&100)), "{:?}", summary.busy);
    let open = &summary.open_services;
    assert!((0..=8).all(|count| open.get(&count) >= Some(&100)), "{open:?}");
    assert!(summary.longest_queue > 2, "{}", summary.longest_queue);
}

/// Every role of a cycle, and General tapes of every rank of 3,584 turns.
#[test]
fn drawn_tapes_reach_every_role_and_shape() {
    let (mut places, mut ranks) = (BTreeSet::new(), BTreeSet::new());
    for index in (0..150_000).map(|place| tapes::drawn_index(1, place)) {
        let (role, rank) = tapes::role(index);
        places.insert(index % tapes::CYCLE);
        if role == tapes::Role::General {
            ranks.insert(rank % (SHAPES / 2 * 3));
        }
    }
    assert_eq!((places.len(), ranks.len()), (tapes::CYCLE, SHAPES / 2 * 3));
    let turns = (0..SHAPES / 2 * 3).filter(|rank| rank % 3 < 2);
    let mut rng = Rng::new(1);
    let shapes: BTreeSet<_> = turns.map(|rank| tapes::shape_of_rank(rank, &mut rng)).collect();
    assert_eq!(shapes.len(), SHAPES);
    assert_ne!(tapes::drawn_index(1, 0), tapes::drawn_index(2, 0));
}

#[test]
fn held_counts_above_the_bound_are_found() {
    let cases: Vec<_> = (0..2_000).map(|index| stores::make(1, index)).collect();
    let settles = cases.iter().filter(|case| case.call == HeldCall::Settle);
    let input: Vec<u8> = settles.flat_map(|c| held::encode_case(&c.store, c.call)).collect();
    let mut answers = held::answers(&input).expect("well formed");
    let bounded = bounds::of_held(&input, &answers).expect("within the bound");
    assert!(bounded.settles >= 20 && bounded.reached > 0, "{bounded:?}");
    let length = held::given_length(HeldCall::Settle);
    let first = answers.chunks(length).position(|a| a[0] == held::SETTLED_TAG).expect("a settle");
    answers[first * length + 4] = 1;
    assert!(bounds::of_held(&input, &answers).is_err());
    answers[first * length + 4] = 0;
    answers.pop();
    assert!(bounds::of_held(&input, &answers).is_err());
}

#[test]
fn long_tapes_end_as_planned() {
    let long: Vec<Vec<u8>> =
        (0..tapes::CYCLE).map(|i| tapes::make(2, i)).filter(|t| t.len() == 65_536).collect();
    let truncated = |t: &Vec<u8>| {
        let lines = tape::print(t);
        let last = lines.lines().rev().nth(1).expect("two lines").to_string();
        last.ends_with(" refused 1")
    };
    assert!(long.iter().any(truncated));
    assert!(!long.iter().all(truncated));
}

#[test]
fn makers_are_deterministic() {
    for index in [0, 3, 80, 150, 170, 299, 399, 410] {
        assert_eq!(tapes::make(9, index), tapes::make(9, index));
    }
    assert_ne!(tapes::make(9, 299), tapes::make(10, 299));
    for index in 0..50 {
        let (one, two) = (stores::make(9, index), stores::make(9, index));
        assert!(one.store == two.store && one.call == two.call);
    }
}

/// From the bytes of a case to those of its answer: the number, the store's
/// own bytes, and what follows them untouched, but for settle's bound.
fn refusal_changes_nothing(case: &[u8], call: HeldCall, number: u8) {
    let (follows, untouched) = match call {
        HeldCall::Machine(_) => (0, 0),
        HeldCall::Picture(_) => (held::BUFFER_BYTES, held::BUFFER_FILL),
        HeldCall::Settle => (held::COMPLETIONS_BYTES, 0),
    };
    let mut want = vec![4, number, 0, 0, 0, 0, 0, 0, 0, 0, 0, 0];
    want.extend(&case[..held::STORE_BYTES]);
    want.extend(vec![untouched; follows]);
    if call == HeldCall::Settle {
        let (before, _) = held::decode_case(case).expect("well formed");
        want.extend(held::bound_bytes(&before));
    }
    assert!(held::answers(case) == Ok(want), "{call:?} refused {number}");
}

/// Every case: bytes round trip, the first condition that holds is the
/// number given, and a refusal changes nothing.
#[test]
fn cases_agree_with_the_conditions() {
    for index in 0..20_000 {
        let case = stores::make(3, index);
        let bytes = held::encode_case(&case.store, case.call);
        let (store, call) = held::decode_case(&bytes).expect("well formed");
        assert!(store == case.store && call == case.call);
        let given = held::run(&case.store, case.call);
        let holds = conditions::all(&case.store, case.call);
        match given.answer {
            HeldAnswer::Refused(number) => {
                assert_eq!(Some(&number), holds.first(), "case {index} {:?}", case.call);
                assert!(conditions::applicable(case.call.kind()).contains(&number));
                refusal_changes_nothing(&bytes, case.call, number);
            }
            _ => {
                assert!(holds.is_empty(), "case {index} {:?} {holds:?}", case.call);
                assert!(!machine::corrupt(&given.store));
            }
        }
    }
}

#[test]
fn cases_cover_what_they_must() {
    for seed in [1, 2, 3] {
        let mut summary = Cases::default();
        for index in 0..20_000 {
            let case = stores::make(seed, index);
            summary.add(&case, &held::run(&case.store, case.call).answer);
        }
        for number in conditions::ORDER {
            let total: usize = HELD_KINDS.iter().map(|&kind| summary.refused(kind, number)).sum();
            assert!(total >= 100, "refusal {number}: {total}");
        }
        for kind in HELD_KINDS {
            for &number in conditions::applicable(kind) {
                let count = summary.refused(kind, number);
                assert!(count >= 20, "kind {kind} refusal {number}: {count}");
            }
        }
        let alone = |reason| summary.reasons.get(reason).map_or(0, |counts| counts.1);
        assert!(REASONS.iter().all(|reason| alone(reason) >= 50));
        let alone = |reason| summary.unexpected_reasons.get(reason).map_or(0, |counts| counts.1);
        assert!(UNEXPECTED_REASONS.iter().all(|reason| alone(reason) >= 10));
        let met = |name| summary.situations.get(name).copied().unwrap_or(0);
        assert!(situations::NAMES.iter().all(|name| met(name) >= 10));
        check_places(&summary);
        check_pictures(&summary);
        check_orders(&summary);
        check_beside(&summary);
        check_services(&summary);
        check_settles(&summary);
        check_by_orders(&summary);
        check_pairs(&summary);
    }
}

/// Both chosen sets, the cases in a row.
fn chosen() -> Vec<Case> {
    choice::choose(1, 20_000).into_iter().flatten().collect()
}

/// Few enough that a set has no more than a mebibyte, cases and answers each, which is
/// all that `rt try` lets a program write; in the second some room is left.
#[test]
fn chosen_sets_are_short() {
    let [first, second] = choice::choose(1, 20_000);
    for cases in [&first, &second] {
        let input: Vec<u8> =
            cases.iter().flat_map(|c| held::encode_case(&c.store, c.call)).collect();
        let answers = held::answers(&input).expect("well formed");
        assert_eq!(answers.len(), choice::answers_length(cases));
        assert!(input.len() < answers.len() && answers.len() <= 1 << 20, "{}", answers.len());
    }
    assert!(choice::answers_length(&second) + 60_000 <= 1 << 20);
    assert!(second.len() > 20, "{}", second.len());
}

/// All that any of the cases meets, the chosen ones meet; and none is needless.
#[test]
fn chosen_cases_meet_all_that_is_met() {
    let all = (0..20_000).map(|index| stores::make(1, index));
    let met: BTreeSet<String> = all.flat_map(|case| choice::all_texts(&case)).collect();
    let texts: Vec<BTreeSet<String>> = chosen().iter().map(choice::all_texts).collect();
    let by_chosen: BTreeSet<String> = texts.iter().flatten().cloned().collect();
    assert_eq!(met, by_chosen);
    let count = |text: &String| texts.iter().filter(|texts| texts.contains(text)).count();
    for one in &texts {
        assert!(one.iter().any(|text| count(text) <= 3), "{one:?}");
    }
}

#[test]
fn chosen_cases_are_few_and_meet_much() {
    let mut summary = Cases::default();
    for case in chosen() {
        summary.add(&case, &held::run(&case.store, case.call).answer);
    }
    for kind in HELD_KINDS {
        let never = |number: &&u8| summary.refused(kind, **number) == 0;
        assert_eq!(conditions::applicable(kind).iter().find(never), None, "kind {kind}");
    }
    let alone = |reason| summary.reasons.get(reason).map_or(0, |counts| counts.1);
    assert!(REASONS.iter().all(|reason| alone(reason) > 0));
    let alone = |reason| summary.unexpected_reasons.get(reason).map_or(0, |counts| counts.1);
    assert!(UNEXPECTED_REASONS.iter().all(|reason| alone(reason) > 0));
    assert!(situations::NAMES.iter().all(|name| summary.situations.contains_key(name)));
    assert!(places::NAMES.iter().all(|name| summary.places.contains_key(name)));
    assert!(pictures::NAMES.iter().all(|name| summary.pictures.contains_key(name)));
    assert!(beside::NAMES.iter().all(|name| summary.beside.contains_key(name)));
    assert!(orders::NAMES.iter().all(|name| summary.orders.contains_key(name)));
    assert!(services::names().iter().all(|name| summary.services.get(name) >= Some(&3)));
    let settles = &summary.by_orders;
    assert!(settles.never_met().is_empty(), "{:?}", settles.never_met());
    assert!(settles.met.values().chain(settles.told.values()).all(|&count| count >= 3));
    assert!(summary.undone.1 > 0, "no settle was refused after a completion");
    assert!((0..=8).all(|count| summary.settled.contains_key(&count)), "{:?}", summary.settled);
}

/// W1: 17 and the sum's 14 are met, and completions near the last place; a
/// begin and a deliver that get the last place itself less often.
fn check_places(summary: &Cases) {
    let last = ["done by a begin in the last place", "done by a deliver in the last place"];
    for name in places::NAMES {
        let least = match name {
            _ if last.contains(&name) => 5,
            "refused 14 for the sum alone" => 100,
            _ if name.ends_with("alone, a picture") || name.ends_with("alone, a settle") => 10,
            _ if name.ends_with("near the last place") => 100,
            _ => 25,
        };
        let count = summary.places.get(name).copied().unwrap_or(0);
        assert!(count >= least, "{name}: {count}");
    }
}

/// W2: pictures tell the order of the records from wrong ones.
fn check_pictures(summary: &Cases) {
    for name in pictures::NAMES {
        let count = summary.pictures.get(name).copied().unwrap_or(0);
        assert!(count >= 100, "{name}: {count}");
    }
}

/// W3: cases tell where a line goes in the use order from wrong ways.
fn check_orders(summary: &Cases) {
    for name in orders::NAMES {
        let count = summary.orders.get(name).copied().unwrap_or(0);
        assert!(count >= 100, "{name}: {count}");
    }
}

/// W5: loads are done beside what waits, and begins refused there.
fn check_beside(summary: &Cases) {
    for name in beside::NAMES {
        let count = summary.beside.get(name).copied().unwrap_or(0);
        assert!(count >= 100, "{name}: {count}");
    }
}

/// W6: services in any slots, the limit and long queues.
fn check_services(summary: &Cases) {
    for name in services::names() {
        let count = summary.services.get(name).copied().unwrap_or(0);
        assert!(count >= 25, "{name}: {count}");
    }
}

/// W5 and W6: the chosen cases tell every wrong machine.
#[test]
fn chosen_cases_tell_the_wrong_machines() {
    let chosen = chosen();
    let beside = chosen.iter().flat_map(|case| beside::told(&case.store, case.call));
    let names = beside::WRONG.iter().map(|(name, _)| *name);
    assert_eq!(beside.collect::<BTreeSet<_>>(), names.collect());
    let told: Vec<_> =
        chosen.iter().map(|case| service_faults::told(&case.store, case.call)).collect();
    for wrong in &service_faults::WRONG {
        let count = told.iter().filter(|names| names.contains(&wrong.name)).count();
        assert!(count >= 3, "{}: {count}", wrong.name);
    }
}

/// W3: they tell every wrong use order.
#[test]
fn chosen_cases_tell_the_order() {
    let names = |case: &Case| {
        let (s, call) = (&case.store, case.call);
        orders::told(s, call, &held::run(s, call).answer)
    };
    let told: BTreeSet<&str> = chosen().iter().flat_map(names).collect();
    assert_eq!(told, orders::NAMES.into_iter().collect());
}

/// Settle: each number and reason, each count of completions, and refusals
/// that have steps and completions to undo.
fn check_settles(summary: &Cases) {
    for &number in conditions::applicable(SETTLE_KIND) {
        let count = summary.refused(SETTLE_KIND, number);
        assert!(count >= 100, "settle refused {number}: {count}");
    }
    for reason in REASONS.iter().chain(&UNEXPECTED_REASONS) {
        let count = summary.settle_reasons.get(reason).copied().unwrap_or(0);
        assert!(count >= 5, "settle, {reason}: {count}");
    }
    assert!((0..=8).all(|count| summary.settled.contains_key(&count)), "{:?}", summary.settled);
    assert!(summary.undone.1 >= 100, "{:?}", summary.undone);
}

/// W8: settles by the orders of their serves; those with O above 7 are few.
fn check_by_orders(summary: &Cases) {
    let settles = &summary.by_orders;
    assert!(settles.never_met().is_empty(), "{:?}", settles.never_met());
    for (name, &count) in settles.met.iter().chain(&settles.told) {
        let least = if *name == "O above 7" { 1 } else { 5 };
        assert!(count >= least, "{name}: {count}");
    }
}

/// Pairs of numbers that can hold at once are met, in document 01's order.
fn check_pairs(summary: &Cases) {
    let begin = [(14, 6), (14, 7), (14, 8), (14, 12), (6, 7), (7, 8), (7, 12), (8, 12)];
    let begin_17 = [(14, 17), (6, 17), (7, 17), (8, 17), (17, 12)];
    let serve = [
        (14, 9),
        (14, 10),
        (14, 11),
        (14, 12),
        (9, 10),
        (9, 11),
        (9, 12),
        (10, 11),
        (10, 12),
        (11, 12),
    ];
    let step = [(14, 6), (14, 9), (14, 16), (14, 12)];
    let met = |kind: u8, pairs: &[(u8, u8)]| {
        for &(given, also) in pairs {
            let count = summary.passed_over.get(&(kind, given, also)).copied().unwrap_or(0);
            assert!(count >= 5, "kind {kind}: {given} before {also}: {count}");
        }
    };
    (1..=4).for_each(|kind| met(kind, &begin));
    (1..=4).for_each(|kind| met(kind, &begin_17));
    met(5, &serve);
    met(6, &step);
    met(6, &[(16, 12)]);
    met(7, &step);
    met(0x10, &[(14, 15)]);
}

#[test]
fn damage_does_what_it_says() {
    let mut rng = Rng::new(5);
    for damage in CORRUPTING.iter().chain(&FAIR) {
        let mut done = 0;
        for _ in 0..200 {
            let (mut store, _) = stores::reached(&mut rng);
            if !(damage.act)(&mut store, &mut rng) {
                continue;
            }
            done += 1;
            let reasons = conditions::corrupt_reasons(&store);
            match damage.reason {
                Some(reason) => assert!(reasons.contains(&reason), "{reason}: {reasons:?}"),
                None => assert!(reasons.is_empty(), "{}: {reasons:?}", damage.name),
            }
            assert_eq!(machine::corrupt(&store), damage.reason.is_some());
        }
        assert!(done > 50, "{}: {done}", damage.name);
    }
}

#[test]
fn differences_are_found() {
    let cases: Vec<u8> = (0..40)
        .flat_map(|index| {
            let case = stores::make(4, index);
            held::encode_case(&case.store, case.call)
        })
        .collect();
    let mut answers = held::answers(&cases).expect("well formed");
    assert_eq!(held::differences(&cases, &answers, 9), Ok(vec![]));
    answers[12 + 56 + 458 + 450] ^= 1;
    let found = held::differences(&cases, &answers, 9).expect("well formed");
    assert_eq!(found.len(), 1);
    assert!(found[0].starts_with("case 0 ") && found[0].contains("lane 1 waiting byte 0"));
    answers.pop();
    let found = held::differences(&cases, &answers, 9).expect("well formed");
    assert!(found.len() == 2 && found[1].ends_with("the answers end early"));
}

#[test]
fn parts_of_a_store_have_names() {
    for (offset, name) in [
        (2, "m"),
        (3, "L"),
        (4, "completions byte 0"),
        (7, "completions byte 3"),
        (8, "slot 0 tag"),
        (12, "slot 0 awaited"),
        (55, "slot 7 bare"),
        (56, "lane 0 line 0 VALID"),
        (56 + 160, "lane 0 return queue length"),
        (56 + 161, "lane 0 return queue place 0 kind"),
        (56 + 304, "lane 0 return queue place 7 word 3 byte 3"),
        (56 + 305, "lane 0 down queue length"),
        (56 + 449, "lane 0 down queue place 7 word 3 byte 3"),
        (56 + 450, "lane 0 waiting byte 0"),
        (3_719, "lane 7 waiting byte 7"),
        (3_720, "block 0 word 0 byte 0"),
        (5_319, "block 63 MODIFIED"),
    ] {
        assert_eq!(held::part_name(offset), name);
    }
}

#[test]
fn picture_lengths_are_near_the_need() {
    let (mut exact, mut one_short) = (0, 0);
    for index in 0..20_000 {
        let case = stores::make(1, index);
        let lent = match case.call {
            HeldCall::Picture(lent) => lent,
            _ => continue,
        };
        assert!(lent <= 1_300);
        let mut buffer = [0; 1_300];
        if let Ok(need) = machine::picture(&case.store, &mut buffer) {
            exact += usize::from(need == lent as usize);
            one_short += usize::from(need == lent as usize + 1);
        }
    }
    assert!(exact > 50 && one_short > 50, "{exact} {one_short}");
}

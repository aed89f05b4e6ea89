//! W6: one service for each block, at most L in all; queues of 8 places.

use reference::conditions;
use reference::held::{self, HeldAnswer, HeldCall};
use reference::lists::{self, Given, Record};
use reference::machine;
use reference::parts::*;
use reference::rng::Rng;
use reference::service_faults::{self, RIGHT, WRONG};
use reference::services::{self, Services};
use reference::settle::{bound, settle};
use reference::{cover, list_maker, scramble, service_maker, stores, tape};
use std::collections::BTreeSet;
use std::fs;
use std::path::Path;
use std::process;

fn service(lane: u8, block: u8, awaited: u8) -> Option<Service> {
    Some(Service { lane, block, command: Command::ReadExclusive, awaited, bare: false })
}

fn waiting(served: bool, word: u8) -> Option<Waiting> {
    Some(Waiting { served, command: Command::ReadExclusive, op: Op::Store(1), word })
}

fn queue<K: Copy>(length: u8, kind: K, block: u8) -> Queue<K> {
    Queue { length, places: [Message { kind, block, words: [0; 4] }; PLACES] }
}

fn number(s: &Store, call: Call) -> Option<u8> {
    machine::call(s, call).err()
}

fn after(s: &Store, call: Call) -> Store {
    machine::call(s, call).expect("not refused").0
}

#[test]
fn openings() {
    for limit in 0..=255u8 {
        let number = (!(1..=8).contains(&limit)).then_some(18);
        assert_eq!(machine::open_with_limit(2, 1, 1, limit).err(), number);
        // 5 before 18.
        for (n, c, m) in [(1, 1, 1), (9, 1, 1), (2, 0, 1), (2, 9, 1), (2, 1, 0), (2, 1, 65)] {
            assert_eq!(machine::open_with_limit(n, c, m, limit).err(), Some(5));
        }
    }
    // L may be above n and m.
    let s = machine::open_with_limit(2, 1, 1, 8).expect("in range");
    assert_eq!((s.limit, s.slots, s.quiet()), (8, [None; SLOTS], true));
    assert_eq!(machine::open(5, 2, 9), machine::open_with_limit(5, 2, 9, 1));
}

#[test]
fn tape_kind_08() {
    let print = |tape: &[u8]| tape::print(tape);
    assert_eq!(print(&[8, 2, 1, 2, 3]), "0 open\nend 1\n");
    // 18, and 5 before it; the tape stays shut, and a later open of either kind opens.
    for limit in [0, 9, 255] {
        assert_eq!(print(&[8, 2, 1, 2, limit]), "0 refused 18\nend 1\n");
        assert_eq!(print(&[8, 1, 1, 2, limit]), "0 refused 5\nend 1\n");
        let shut = [8, 2, 1, 2, limit, 5, 0, 8, 2, 1, 2, 1, 5, 0];
        assert_eq!(print(&shut), "0 refused 18\n1 refused 3\n2 open\n3 refused 9\nend 4\n");
        let shut = [8, 2, 1, 2, limit, 0, 2, 1, 2, 5, 0];
        assert_eq!(print(&shut), "0 refused 18\n1 open\n2 refused 9\nend 3\n");
    }
    assert_eq!(print(&[0, 1, 1, 1, 8, 2, 1, 2, 1]), "0 refused 5\n1 open\nend 2\n");
    // 4 before 5 and 18.
    for first in [&[0, 2, 1, 2][..], &[8, 2, 1, 2, 1], &[8, 2, 1, 2, 8]] {
        for second in [&[0, 2, 1, 2][..], &[8, 2, 1, 2, 1], &[8, 0, 0, 0, 0], &[8, 2, 1, 2, 9]] {
            assert_eq!(print(&[first, second].concat()), "0 open\n1 refused 4\nend 2\n");
        }
    }
    // 1 before 3, 4, 5 and 18; 2 from 09 on.
    for kept in 0..4 {
        assert_eq!(print(&[8, 9, 9, 9][..1 + kept.min(3)]), "0 refused 1\nend 1\n");
        let opened = [&[0, 2, 1, 2, 8], &[1; 4][..kept]].concat();
        assert_eq!(print(&opened), "0 open\n1 refused 1\nend 2\n");
    }
    assert_eq!(print(&[9, 2, 1, 2, 1]), "0 refused 2\nend 1\n");
}

/// Two lanes hold two blocks, two others write to them: both are served at once, and
/// the one served last is done first.
const TWO_AT_ONCE: [u8; 63] = [
    8, 4, 1, 2, 2, // open
    2, 0, 0, 5, 0, 0, 0, 2, 1, 4, 6, 0, 0, 0, // stores of lanes 0 and 1: wait
    5, 0, 5, 1, 7, 0, 7, 1, // serves, delivers: done
    3, 2, 0, 7, 0, 0, 0, 3, 3, 4, 8, 0, 0, 0, // exchanges of lanes 2 and 3: wait
    5, 2, 5, 3, // serves
    5, 2, 7, 1, 6, 1, 7, 3, // 9; deliver, return, deliver: done
    7, 0, 6, 0, 7, 2, 7, 2, // deliver, return, deliver: done; 9
    6, 2,
];

#[test]
fn two_services_at_once() {
    let text =
        "0 open\n1 wait\n2 wait\n3 step\n4 step\n5 done 0 5 1\n6 done 1 6 2\n7 wait\n8 wait\n\
                9 step\n10 step\n11 refused 9\n12 step\n13 step\n14 done 3 6 3\n15 step\n16 step\n\
                17 done 2 5 4\n18 refused 9\n19 refused 9\nend 20\n";
    assert_eq!(tape::print(&TWO_AT_ONCE), text);
    // With L = 1 the second serve is refused by 10.
    let mut one = TWO_AT_ONCE;
    one[4] = 1;
    assert_eq!(tape::print(&one).lines().nth(10), Some("10 refused 10"));
    // The same tape of kind 00.
    let zero = [&[0, 4, 1, 2], &one[5..]].concat();
    assert_eq!(tape::print(&zero), tape::print(&one));
}

#[test]
fn ten_for_the_block_and_for_the_limit() {
    let mut s = Store::with_limit(3, 1, 4, 2);
    s.lanes[0].waiting = waiting(false, 4);
    assert_eq!(number(&s, Call::Serve(0)), None);
    // The block is in service, in any slot; another block is not refused.
    for slot in 0..SLOTS {
        let mut s = s.clone();
        s.slots[slot] = service(1, 1, 1);
        assert_eq!(number(&s, Call::Serve(0)), Some(10));
        s.slots[slot] = service(1, 2, 1);
        assert_eq!(number(&s, Call::Serve(0)), None);
    }
    // L are open, in any slots.
    (s.slots[2], s.slots[7]) = (service(1, 2, 1), service(1, 3, 0));
    assert_eq!(number(&s, Call::Serve(0)), Some(10));
    s.limit = 3;
    assert_eq!(number(&s, Call::Serve(0)), None);
    // 9 before 10 before 11 before 12.
    (s.limit, s.lanes[0].returns) = (2, queue(1, ReturnKind::Eject, 0));
    s.lanes[0].down = queue(8, DownKind::Purge, 0);
    assert_eq!(number(&s, Call::Serve(0)), Some(10));
    s.lanes[0].waiting = waiting(true, 4);
    assert_eq!(number(&s, Call::Serve(0)), Some(9));
    (s.lanes[0].waiting, s.limit) = (waiting(false, 4), 3);
    assert_eq!(number(&s, Call::Serve(0)), Some(11));
    s.lanes[0].returns.length = 0;
    assert_eq!(number(&s, Call::Serve(0)), Some(12));
    s.lanes[0].down.length = 7;
    assert_eq!(number(&s, Call::Serve(0)), None);
}

#[test]
fn a_new_service_takes_the_lowest_free_slot() {
    for busy in 0..255u8 {
        let mut s = Store::with_limit(2, 1, 64, 8);
        for slot in (0..8).filter(|slot| busy >> slot & 1 == 1) {
            s.slots[usize::from(slot)] = service(1, 10 + slot, 1);
        }
        s.lanes[0].waiting = waiting(false, 0);
        s.blocks[0].present[1] = true;
        let mut want = s.clone();
        want.slots[busy.trailing_ones() as usize] = service(0, 0, 1);
        want.lanes[0].waiting = waiting(true, 0);
        want.lanes[1].down.push(Message { kind: DownKind::Purge, block: 0, words: [0; 4] });
        assert_eq!(after(&s, Call::Serve(0)), want);
        // Closed at once it leaves all slots.
        s.blocks[0].present[1] = false;
        assert_eq!(after(&s, Call::Serve(0)).slots, s.slots);
    }
}

#[test]
fn an_answer_belongs_to_the_service_of_its_block() {
    for slot in 0..SLOTS {
        let mut s = Store::with_limit(4, 1, 64, 8);
        s.slots = std::array::from_fn(|i| service(3, 20 + i as u8, 2));
        let block = 20 + slot as u8;
        s.lanes[1].returns = queue(2, ReturnKind::Gone, block);
        let lowered = after(&s, Call::Return(1));
        let mut want = s.slots;
        want[slot] = service(3, block, 1);
        assert_eq!(lowered.slots, want);
        assert!(lowered.lanes[3].down.is_empty());
        // The last answer closes that one alone; the others stay in their slots.
        let closed = after(&lowered, Call::Return(1));
        want[slot] = None;
        assert_eq!(closed.slots, want);
        let granted: Vec<u8> = closed.lanes[3].down.messages().iter().map(|m| m.block).collect();
        assert_eq!((granted, closed.blocks[usize::from(block)].modified), (vec![block], true));
        // 16 where its own awaits 0, or there is none, though others await.
        s.slots[slot] = service(3, block, 0);
        assert_eq!(number(&s, Call::Return(1)), Some(16));
        s.slots[slot] = None;
        assert_eq!(number(&s, Call::Return(1)), Some(16));
        // An eject lowers nothing.
        s.slots[slot] = service(3, block, 1);
        s.lanes[1].returns = queue(1, ReturnKind::Eject, block);
        assert_eq!(after(&s, Call::Return(1)).slots, s.slots);
        // 12 if the lane of that service has no room.
        s.lanes[1].returns = queue(1, ReturnKind::Purged, block);
        s.lanes[3].down = queue(8, DownKind::Purge, 0);
        assert_eq!(number(&s, Call::Return(1)), Some(12));
        s.lanes[3].down.length = 7;
        assert_eq!(after(&s, Call::Return(1)).lanes[3].down.length, 8);
    }
}

#[test]
fn the_bound_counts_every_service() {
    let mut s = Store::with_limit(8, 1, 64, 8);
    for open in 0..=SLOTS {
        assert_eq!(bound(&s), open as u32);
        s.slots[open.min(7)] = service(0, open as u8, 1);
    }
    // The greatest: R 64, 2 × Q 128, S 8, 2 × n × U 128.
    for lane in &mut s.lanes {
        (lane.returns, lane.down) = (queue(8, ReturnKind::Eject, 0), queue(8, DownKind::Purge, 0));
        lane.waiting = waiting(false, 0);
    }
    s.slots = std::array::from_fn(|i| service(0, i as u8, 1));
    assert!(!machine::corrupt(&s) && bound(&s) == 328);
    assert_eq!(held::bound_bytes(&s), [72, 1]);
    let given = held::run(&s, HeldCall::Settle);
    assert_eq!((given.answer, &given.after[72..]), (HeldAnswer::Refused(12), &[72, 1][..]));
}

/// The lowest unserved lane is served; where 10 refuses that, settle is refused.
#[test]
fn settle_serves_no_higher_lane() {
    let mut s = Store::with_limit(3, 1, 4, 2);
    s.slots[3] = service(0, 2, 1);
    s.lanes[2].waiting = waiting(false, 0);
    assert_eq!(settle(&s).err(), Some(16));
    s.lanes[1].waiting = waiting(false, 8);
    assert_eq!(settle(&s).err(), Some(10));
    // Answered first, all is done.
    s.lanes[0].waiting = waiting(true, 8);
    s.lanes[2].returns = queue(1, ReturnKind::Gone, 2);
    let (quiet, given) = settle(&s).expect("not refused");
    assert!(quiet.quiet() && given.completions.len() == 3);
    // For L.
    s.lanes[2].returns.length = 0;
    (s.lanes[1].waiting, s.limit) = (waiting(false, 0), 1);
    assert_eq!(settle(&s).err(), Some(10));
}

#[test]
fn settle_closes_eight_services() {
    let mut s = machine::open_with_limit(8, 8, 8, 8).expect("in range");
    let begin = |s: &Store, lane: u8, op, word| after(s, Call::Begin { lane, op, word });
    for word in 0..8 {
        s = (0..8).fold(s, |s, lane| begin(&s, lane, Op::Load, 4 * word));
        s = settle(&s).expect("not refused").0;
    }
    s = (0..8).fold(s, |s, lane| begin(&s, lane, Op::Add(lane.into()), 4 * lane));
    s = [5, 2, 7, 0, 1, 6, 3, 4].into_iter().fold(s, |s, lane| after(&s, Call::Serve(lane)));
    let lanes: Vec<u8> = s.services().map(|v| v.lane).collect();
    assert_eq!(lanes, [5, 2, 7, 0, 1, 6, 3, 4]);
    assert!(s.lanes.iter().all(|lane| lane.down.length == 7));
    assert_eq!(bound(&s), 8 + 2 * 56);
    let (quiet, given) = settle(&s).expect("not refused");
    assert_eq!((quiet.quiet(), given.completions.len(), given.steps), (true, 8, 120));
}

#[test]
fn list_openings() {
    let bytes = [8, 3, 2, 5, 6, 0, 0, 0];
    let record = Record::OpenLimit { n: 3, c: 2, m: 5, limit: 6 };
    assert_eq!((lists::records(&bytes), record.bytes()), (Ok(vec![record]), bytes));
    let show = [0x12, 0, 0, 0, 0, 0, 0, 0];
    let answers = lists::answers(&[bytes, show].concat()).expect("well formed");
    assert_eq!(answers.len(), 12 + 5_320);
    assert_eq!(answers[12..20], [3, 2, 5, 6, 0, 0, 0, 0]);
    let at_one = lists::answers(&[[8, 3, 2, 5, 1, 0, 0, 0], show].concat());
    assert_eq!(at_one, lists::answers(&[[0, 3, 2, 5, 0, 0, 0, 0], show].concat()));
    // Refused, they leave the blank store.
    for (opening, number) in [([8, 3, 2, 5, 0, 0, 0, 0], 18), ([8, 9, 2, 5, 9, 0, 0, 0], 5)] {
        let answers = lists::answers(&[bytes, opening, show].concat()).expect("well formed");
        assert_eq!(answers[12..14], [4, number]);
        assert!(answers[24..] == held::encode_store(&lists::blank()));
        assert_eq!(answers[24..32 + 48], [0; 56]);
    }
    let given = lists::read(&bytes, &answers[..12]).expect("well formed");
    assert_eq!(given, [(record, Given::Opened)]);
}

/// A case changes the slots as its call says, and no others.
#[test]
fn other_slots_stay() {
    let mut changed = [0; 3];
    for index in 0..20_000 {
        let (s, call) = service_maker::make(4, index);
        let given = held::run(&s, call);
        let differing: Vec<usize> =
            (0..SLOTS).filter(|&i| s.slots[i] != given.store.slots[i]).collect();
        let own = match call {
            HeldCall::Settle => continue,
            HeldCall::Machine(Call::Serve(_)) => s.slots.iter().position(Option::is_none),
            HeldCall::Machine(Call::Return(k)) if k < s.n => {
                s.lanes[usize::from(k)].returns.head().and_then(|head| s.slot_of(head.block))
            }
            _ => None,
        };
        assert!(differing.iter().all(|&slot| Some(slot) == own), "case {index}");
        if let Some(&slot) = differing.first() {
            let kind = (s.slots[slot].is_some(), given.store.slots[slot].is_some());
            changed[usize::from(kind.0) + usize::from(kind.0 && kind.1)] += 1;
        }
    }
    // Opened, closed, lowered.
    assert!(changed.iter().all(|&count| count > 500), "{changed:?}");
}

/// The services by block, their slots left out.
fn sorted(mut s: Store) -> Store {
    let mut services: Vec<Option<Service>> = s.slots.to_vec();
    services.sort_by_key(|slot| slot.map_or((1, 0), |v| (0, v.block)));
    s.slots.copy_from_slice(&services);
    s
}

/// In other slots the services do the same.
#[test]
fn the_order_of_slots_is_free() {
    let (mut rng, mut moved) = (Rng::new(6), 0);
    for index in 0..10_000 {
        let (s, call) = service_maker::make(5, index);
        let mut other = s.clone();
        let mut slots: Vec<u8> = (0..8).collect();
        scramble::permute(&mut slots, &mut rng);
        other.slots = std::array::from_fn(|i| s.slots[usize::from(slots[i])]);
        let [one, two] = [&s, &other].map(|s| held::run(s, call));
        assert!(one.answer == two.answer && one.after == two.after, "case {index}");
        assert!(conditions::corrupt_reasons(&s) == conditions::corrupt_reasons(&other));
        if !machine::corrupt(&s) {
            assert!(sorted(one.store) == sorted(two.store), "case {index}");
            moved += usize::from(s.slots != other.slots);
        }
    }
    assert!(moved > 5_000, "{moved}");
}

/// What stands in the store past queue lengths does not matter, up to 8 messages.
#[test]
fn long_queues_are_first_in_first_out() {
    let mut rng = Rng::new(8);
    for _ in 0..2_000 {
        let mut s = Store::with_limit(2, 1, 64, 1);
        let blocks: Vec<u8> = (0..rng.between(1, 8)).map(|_| rng.byte_below(64)).collect();
        for &block in &blocks {
            assert!(s.lanes[0].down.push(Message { kind: DownKind::Purge, block, words: [0; 4] }));
        }
        for _ in 0..blocks.len() {
            s = after(&s, Call::Deliver(0));
        }
        assert_eq!(number(&s, Call::Deliver(0)), Some(9));
        let answers: Vec<u8> = s.lanes[0].returns.messages().iter().map(|m| m.block).collect();
        assert_eq!(answers, blocks);
    }
}

#[test]
fn made_cases_agree_with_the_conditions() {
    for index in 0..10_000 {
        let (s, call) = service_maker::make(2, index);
        let bytes = held::encode_case(&s, call);
        assert!(held::decode_case(&bytes) == Ok((s.clone(), call)), "case {index}");
        let given = held::run(&s, call);
        let holds = conditions::all(&s, call);
        match given.answer {
            HeldAnswer::Refused(number) => assert_eq!(holds.first(), Some(&number), "{index}"),
            _ => assert!(holds.is_empty() && !machine::corrupt(&given.store), "case {index}"),
        }
        assert_eq!(machine::corrupt(&s), !conditions::corrupt_reasons(&s).is_empty());
    }
}

#[test]
fn made_cases_depend_on_seed_and_index() {
    let bytes = |seed, index| {
        let (s, call) = service_maker::make(seed, index);
        held::encode_case(&s, call)
    };
    let all: BTreeSet<Vec<u8>> =
        (1..4).flat_map(|seed| (0..400).map(move |i| bytes(seed, i))).collect();
    assert_eq!(all.len(), 1_200);
    assert!((0..100).all(|index| bytes(1, index) == bytes(1, index)));
}

fn summary_of(seed: u64, count: usize) -> Services {
    let mut summary = Services::default();
    (0..count)
        .map(|index| service_maker::make(seed, index))
        .for_each(|(s, call)| summary.add(&s, call));
    summary
}

#[test]
fn made_cases_meet_all_and_tell_all() {
    for seed in 1..=20 {
        assert_eq!(summary_of(seed, 400).never_met(), [""; 0], "seed {seed}");
    }
    let summary = summary_of(1, 4_000);
    for name in services::names() {
        let count = summary.met.get(name).copied().unwrap_or(0);
        assert!(count >= 40, "{name}: {count}");
    }
    for wrong in &WRONG {
        let count = summary.told.get(wrong.name).copied().unwrap_or(0);
        assert!(count >= 40, "{}: {count}", wrong.name);
    }
    // Too few cases do not.
    assert!(summary_of(1, 20).never_met().len() > 20);
}

#[test]
fn the_right_machine_is_the_machine() {
    for (s, call) in (0..4_000).map(|index| service_maker::make(9, index)) {
        assert!(!RIGHT.differs(&s, call));
        let given = held::run(&s, call);
        match RIGHT.run(&s, call) {
            Ok((store, answer)) => assert!(store == given.store && answer == given.answer),
            Err(number) => assert_eq!(given.answer, HeldAnswer::Refused(number)),
        }
    }
    let names: BTreeSet<&str> = WRONG.iter().map(|wrong| wrong.name).collect();
    assert_eq!(names.len(), WRONG.len());
}

/// Machines that only the bytes of slots tell: the answer is the right one, and so is
/// the store with its services sorted.
#[test]
fn slots_alone_tell_where_services_are() {
    let names = ["a new service in the highest free slot", "a close moves later slots down"];
    for wrong in WRONG.iter().filter(|wrong| names.contains(&wrong.name)) {
        let mut told = 0;
        for (s, call) in (0..4_000).map(|index| service_maker::make(3, index)) {
            if !wrong.differs(&s, call) {
                continue;
            }
            told += 1;
            let [right, other] = [&RIGHT, wrong].map(|machine| machine.run(&s, call));
            let (right, other) = (right.expect("not refused"), other.expect("not refused"));
            assert!(right.1 == other.1 && sorted(right.0) == sorted(other.0));
        }
        assert!(told > 100, "{}: {told}", wrong.name);
    }
}

/// Cases with one service at most and short queues tell few of the wrong machines.
#[test]
fn cases_of_before_w6_tell_few() {
    let mut told = BTreeSet::new();
    for case in (0..4_000).map(|index| stores::make(1, index)) {
        let s = &case.store;
        let short = service_faults::lengths(&Store { n: s.n.min(8), ..s.clone() })
            .into_iter()
            .all(|length| length <= 2);
        if s.limit == 1 && s.open_services() <= 1 && short {
            told.extend(service_faults::told(s, case.call));
        }
    }
    assert!(!told.contains("10 for the block never") && !told.contains("queues of 7 places"));
    assert!(!told.contains("a close moves later slots down"), "{told:?}");
    assert!(!told.is_empty() && told.len() < WRONG.len() / 2, "{told:?}");
}

/// Lists whose openings all have L = 1 lack what needs several services.
#[test]
fn cover_tells_that_services_are_missing() {
    let narrow = |record: Record| match record.opens() {
        Some((n, c, m, _)) => Record::Open { n, c, m },
        None => record,
    };
    let records: Vec<Record> =
        (0..300).flat_map(|index| list_maker::make(1, index)).map(narrow).collect();
    let cover = cover::cover(&records);
    let never = cover.never_met();
    for name in [
        "serves refused 10 for the block alone",
        "serves that open with two services or more open",
        "closes of another than the newest service",
        "settles with two services or more open",
        "the machine before W6 gives other bytes",
        "n with L: only 7",
    ] {
        assert!(never.iter().any(|text| text == name), "{name}: {never:?}");
    }
    assert!(cover.impossible().is_empty());
}

#[test]
fn lists_mix_services() {
    let records: Vec<Record> = (0..1_200).flat_map(|index| list_maker::make(2, index)).collect();
    let services = cover::cover(&records).services;
    let count = |name: &str| services.counts.get(name).copied().unwrap_or(0);
    assert!(count("serves refused 10 for the block alone") > 300);
    assert!(count("serves refused 10 for L alone") > 300);
    assert!(count("serves that open with two services or more open") > 200);
    assert!(count("closes of another than the newest service") > 200);
    assert!(count("serves that open in a slot below a busy one") > 50);
    assert!(count("settles with two services or more open") > 200);
    let (returns, down) = services.longest;
    assert!((3..=8).contains(&returns) && (3..=8).contains(&down), "{returns} {down}");
}

#[test]
fn every_n_is_opened_with_every_limit() {
    let openings = || (0..list_maker::SHAPES).map(list_maker::opening);
    let pairs: BTreeSet<(u8, u8)> =
        openings().filter_map(Record::opens).map(|(n, _, _, limit)| (n, limit)).collect();
    assert_eq!(pairs.len(), 56);
    let by_00 = openings().filter(|record| matches!(record, Record::Open { .. })).count();
    assert!((200..400).contains(&by_00), "{by_00}");
    let shapes: BTreeSet<_> =
        openings().filter_map(Record::opens).map(|(n, c, m, _)| (n, c, m)).collect();
    assert_eq!(shapes.len(), list_maker::SHAPES);
}

fn run(arguments: &[&str]) -> process::Output {
    let program = env!("CARGO_BIN_EXE_reference");
    process::Command::new(program).args(arguments).output().expect("runs")
}

#[test]
fn commands() {
    let file = |name| Path::new(env!("CARGO_TARGET_TMPDIR")).join(name);
    let (cases, chosen) = (file("services.cases"), file("services.chosen"));
    let [path, chosen_path] = [&cases, &chosen].map(|path| path.to_str().expect("a plain path"));
    let made = run(&["make-services", "3", "400", path]);
    let lines = String::from_utf8(made.stdout).expect("text");
    assert!(made.status.success() && lines.starts_with("cases of services 400\n"), "{lines}");
    let bytes = fs::read(&cases).expect("a file");
    assert_eq!(bytes.len(), 400 * 5_328);
    let (s, call) = service_maker::make(3, 7);
    assert!(bytes[7 * 5_328..][..5_328] == held::encode_case(&s, call));
    let made = run(&["choose-held", "1", "3000", chosen_path]);
    let lines = String::from_utf8(made.stdout).expect("text");
    assert!(made.status.success() && lines.contains("services.chosen.second: "), "{lines}");
    let sets = [chosen_path.to_string(), format!("{chosen_path}.second")];
    for bytes in sets.map(|path| fs::read(path).expect("a file")) {
        assert!(bytes.len() % 5_328 == 0 && bytes.len() <= 1 << 20);
    }
}

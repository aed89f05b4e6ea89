//! W6: with L = 1 nothing a lane or a tape shows differs from before, save where an
//! old queue was full, a store handed in has a queue length above 2, or a tape has a
//! record of kind 08.

use reference::held::{self, HeldAnswer, HeldCall};
use reference::lists::{self, Record};
use reference::parts::*;
use reference::rng::Rng;
use reference::tape::{self, Event, Outcome};
use reference::{list_maker, machine, scramble, settle, stores, tapes, walk};
use std::collections::BTreeMap;
use std::io::Write;
use std::process;

const NOW: Rule = Rule::LoadFillsOldest;
const BEFORE: Rule = Rule::BeforeW6;

/// A case of which the store has L = 1, one service at most, in any slot, and queue
/// lengths up to so many.
fn narrowed(seed: u64, index: usize, longest: u8) -> (Store, HeldCall) {
    let (case, mut rng) = (stores::make(seed, index), Rng::new(index as u64));
    let (mut s, mut call) = (case.store, case.call);
    if (1..=8).contains(&s.limit) {
        s.limit = 1;
    }
    scramble::drop_services(&mut s, 1, &mut rng);
    if rng.chance(15) {
        s.slots = [None; SLOTS];
    }
    for lane in &mut s.lanes {
        lane.returns.length = lane.returns.length.min(longest);
        lane.down.length = lane.down.length.min(longest);
    }
    // Most cases of services are serves and returns: other calls of the same store.
    if rng.chance(30) && s.n > 0 && s.m > 0 {
        let lane = rng.byte_below(s.n);
        let begin = Call::Begin { lane, op: walk::any_op(&mut rng), word: 0 };
        let calls = [begin, Call::Serve(lane), Call::Return(lane), Call::Deliver(lane)];
        call = HeldCall::Machine(rng.pick(&calls));
    }
    (s, call)
}

/// The store without what stands past queue lengths, its services in the first slots.
fn plain(mut s: Store) -> Store {
    fn clear<K: Copy>(queue: &mut Queue<K>, blank: Message<K>) {
        let length = usize::from(queue.length).min(PLACES);
        queue.places[length..].fill(blank);
    }
    for lane in &mut s.lanes {
        clear(&mut lane.returns, Message { kind: ReturnKind::Eject, block: 0, words: [0; 4] });
        clear(&mut lane.down, Message { kind: DownKind::Update, block: 0, words: [0; 4] });
    }
    let services: Vec<Option<Service>> = s.slots.into_iter().filter(Option::is_some).collect();
    s.slots = [None; SLOTS];
    s.slots[..services.len()].copy_from_slice(&services);
    s
}

fn picture(s: &Store, rule: Rule) -> (Result<usize, u8>, Vec<u8>) {
    let mut buffer = vec![0xa5; held::BUFFER_BYTES];
    (machine::picture_under(s, &mut buffer, rule), buffer)
}

/// What a call shows: answer, what follows the store, the store and its picture.
type Shown = (HeldAnswer, Vec<u8>, Store, (Result<usize, u8>, Vec<u8>));

fn shown(s: &Store, call: HeldCall, rule: Rule) -> Shown {
    let given = held::run_under(s, call, rule);
    let picture = picture(&given.store, rule);
    (given.answer, given.after, plain(given.store), picture)
}

#[test]
fn held_calls_show_the_same() {
    let (mut same, mut full): (BTreeMap<(u8, bool), usize>, usize) = (BTreeMap::new(), 0);
    for index in 0..30_000 {
        let (s, call) = narrowed(1, index, 2);
        let [now, before] = [NOW, BEFORE].map(|rule| shown(&s, call, rule));
        if before.0 == HeldAnswer::Refused(machine::FULL) {
            full += 1;
            continue;
        }
        assert!(now == before, "case {index} {call:?}: {:?} {:?}", now.0, before.0);
        let refused = matches!(now.0, HeldAnswer::Refused(_));
        *same.entry((call.kind(), refused)).or_default() += 1;
    }
    assert!(full > 500, "{full}");
    for kind in [1, 2, 3, 4, 5, 6, 7, held::PICTURE_KIND, held::SETTLE_KIND] {
        let counts = [true, false].map(|refused| same.get(&(kind, refused)).copied());
        assert!(counts.iter().all(|&count| count > Some(100)), "kind {kind}: {counts:?}");
    }
}

/// The service may be in any slot: the same stores with it moved.
#[test]
fn services_are_met_in_every_slot() {
    let mut met = [0; SLOTS];
    for index in 0..20_000 {
        let (s, _) = narrowed(1, index, 2);
        if !machine::corrupt(&s) {
            s.slots.iter().zip(&mut met).for_each(|(slot, count)| *count += slot.map_or(0, |_| 1));
        }
    }
    assert!(met.iter().all(|&count| count > 100), "{met:?}");
}

/// First exception: where an old queue was full the machines differ, in most cases.
#[test]
fn a_full_queue_makes_a_difference() {
    let (mut differ, mut all) = (0, 0);
    for index in 0..20_000 {
        let (s, call) = narrowed(2, index, 2);
        let before = shown(&s, call, BEFORE);
        if before.0 == HeldAnswer::Refused(machine::FULL) {
            all += 1;
            differ += usize::from(shown(&s, call, NOW) != before);
        }
    }
    assert!(differ > 500 && differ * 10 > all * 9, "{differ} of {all}");
}

/// Second exception: a queue length above 2 was 14, and up to 8 is not.
#[test]
fn a_long_queue_makes_a_difference() {
    let (mut differ, mut same) = (0, 0);
    for index in 0..20_000 {
        let (s, call) = narrowed(3, index, 8);
        let longest = |lane: &Lane| lane.returns.length.max(lane.down.length);
        let lanes = &s.lanes[..usize::from(s.n.min(8))];
        if lanes.iter().map(longest).max().unwrap_or(0) <= 2 {
            continue;
        }
        let [now, before] = [NOW, BEFORE].map(|rule| shown(&s, call, rule));
        assert_eq!(before.0, HeldAnswer::Refused(machine::CORRUPT));
        match now == before {
            true => same += 1,
            false => differ += 1,
        }
    }
    assert!(differ > 1_000 && same > 100, "{differ} {same}");
}

/// The list with its openings of L = 1, by either kind.
fn at_one(records: Vec<Record>, with_limit: bool) -> Vec<Record> {
    let opening = |record: Record| match (record.opens(), with_limit) {
        (None, _) => record,
        (Some((n, c, m, _)), true) => Record::OpenLimit { n, c, m, limit: 1 },
        (Some((n, c, m, _)), false) => Record::Open { n, c, m },
    };
    records.into_iter().map(opening).collect()
}

/// The bytes of all answers, and how many calls 12 refused.
fn list_answers(records: &[Record], rule: Rule) -> (Vec<u8>, usize) {
    let (mut store, mut out, mut full) = (lists::blank(), Vec::new(), 0);
    for &record in records {
        let bound = held::bound_bytes_under(&store, rule);
        let given = lists::run_under(&mut store, record, rule);
        full += usize::from(given == lists::Given::Answer(HeldAnswer::Refused(12)));
        out.extend(lists::answer_bytes(record, &given, bound));
    }
    (out, full)
}

/// From an opening no queue was ever full: no condition.
#[test]
fn lists_show_the_same() {
    for index in 0..2_000 {
        let records = list_maker::make(6, index);
        let by_either = [true, false].map(|with_limit| at_one(records.clone(), with_limit));
        let before = list_answers(&by_either[1], BEFORE);
        assert_eq!(before.1, 0);
        for records in by_either {
            assert!(list_answers(&records, NOW) == before, "list {index}");
        }
    }
}

/// With a larger L the same lists do differ.
#[test]
fn lists_with_a_larger_limit_differ() {
    let records = || (0..600).map(|index| list_maker::make(6, index));
    let differs = |r: &Vec<Record>| list_answers(r, NOW).0 != list_answers(r, BEFORE).0;
    let differ = records().filter(differs).count();
    assert!(differ > 200, "{differ}");
}

fn has_kind_08(bytes: &[u8]) -> bool {
    bytes.len() <= tape::LONGEST && tape::kinds(bytes).contains(&8)
}

/// Third exception: a record of kind 08, and no other tape.
#[test]
fn tapes_show_the_same_but_for_kind_08() {
    let mut counts = [0; 2];
    for (seed, index) in (7..9).flat_map(|seed| (0..tapes::CYCLE).map(move |i| (seed, i))) {
        let bytes = tapes::make(seed, index);
        let same = tape::print(&bytes) == tape::print_under(&bytes, BEFORE);
        assert_eq!(same, !has_kind_08(&bytes), "seed {seed} tape {index}");
        counts[usize::from(same)] += 1;
    }
    assert!(counts.iter().all(|&count| count > 150), "{counts:?}");
}

/// The tape's records, those of kind 08 as kind 00; what 1 or 2 refuses is left out.
fn without_kind_08(bytes: &[u8]) -> Vec<u8> {
    let mut out = Vec::new();
    let read = tape::replay(bytes, &mut |event: &Event| match event.record {
        Some(tape::Record::OpenLimit { n, c, m, .. }) => {
            out.extend(tape::Record::Open { n, c, m }.bytes());
        }
        Some(record) => out.extend(record.bytes()),
        None => {}
    });
    if read.is_err() {
        out.clear();
    }
    out
}

#[test]
fn tapes_rewritten_to_kind_00_show_the_same() {
    let mut done = 0;
    for index in 0..tapes::CYCLE {
        let bytes = without_kind_08(&tapes::make(11, index));
        assert!(!has_kind_08(&bytes));
        let text = tape::print(&bytes);
        assert!(text == tape::print_under(&bytes, BEFORE), "tape {index}");
        done += text.matches(" done ").count();
    }
    assert!(done > 100_000, "{done}");
}

/// Before W6 kind 08 ends the tape, whatever follows.
#[test]
fn before_w6_kind_08_is_2() {
    let tape = [8, 2, 1, 2, 1, 5, 0];
    assert_eq!(tape::print_under(&tape, BEFORE), "0 refused 2\nend 1\n");
    let tape = [0, 2, 1, 2, 8];
    assert_eq!(tape::print_under(&tape, BEFORE), "0 open\n1 refused 2\nend 2\n");
    assert_eq!(tape::print(&tape), "0 open\n1 refused 1\nend 2\n");
    // The rule of fills before W3 leaves the kinds.
    assert_eq!(tape::print_under(&[8, 2, 1, 2, 1], Rule::FillsNewest), "0 open\nend 1\n");
}

/// The machine before W6 itself: two places, one service, 10 during any.
#[test]
fn the_machine_before_w6() {
    let mut s = Store::with_limit(3, 1, 4, 1);
    let service = Service { lane: 1, block: 3, command: Command::Exclude, awaited: 1, bare: false };
    s.lanes[0].waiting =
        Some(Waiting { served: false, command: Command::ReadShared, op: Op::Load, word: 0 });
    let serve = |s: &Store, rule| machine::call_under(s, Call::Serve(0), rule).err();
    assert_eq!([serve(&s, BEFORE), serve(&s, NOW)], [None, None]);
    s.slots[4] = Some(service);
    assert_eq!([serve(&s, BEFORE), serve(&s, NOW)], [Some(10), Some(10)]);
    s.limit = 2;
    assert_eq!([serve(&s, BEFORE), serve(&s, NOW)], [Some(10), None]);
    (s.limit, s.slots[4], s.lanes[0].down.length) = (1, None, 2);
    assert_eq!([serve(&s, BEFORE), serve(&s, NOW)], [Some(12), None]);
    s.lanes[0].down.length = 3;
    assert_eq!([serve(&s, BEFORE), serve(&s, NOW)], [Some(14), None]);
    assert_eq!(
        [BEFORE, NOW].map(|rule| settle::settle_under(&s, rule).err()),
        [Some(14), Some(16)]
    );
}

#[test]
fn the_command_prints_what_the_machine_before_prints() {
    for index in [1, 60, 100, 170, 250] {
        let bytes = tapes::make(1, index);
        let mut child = process::Command::new(env!("CARGO_BIN_EXE_reference"))
            .arg("tape-before-w6")
            .stdin(process::Stdio::piped())
            .stdout(process::Stdio::piped())
            .spawn()
            .expect("runs");
        child.stdin.take().expect("an input").write_all(&bytes).expect("written");
        let out = child.wait_with_output().expect("ends");
        assert!(out.status.success());
        assert_eq!(String::from_utf8(out.stdout), Ok(tape::print_under(&bytes, BEFORE)));
    }
}

/// Records of kind 08 that open are what the third exception is about.
#[test]
fn kinds_are_a_function_of_the_bytes() {
    for index in 0..tapes::CYCLE {
        let bytes = tapes::make(3, index);
        let mut kinds = Vec::new();
        let read = tape::replay(&bytes, &mut |event| {
            kinds.push(event.kind);
            assert!(!matches!(event.outcome, Outcome::Refused(12 | 14 | 16 | 17)));
        });
        assert!(read.is_err() || kinds == tape::kinds(&bytes), "tape {index}");
    }
}

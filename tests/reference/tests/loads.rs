//! W5: a load that hits completes in its call while its lane's operation waits; all
//! else on a lane that waits is 8. Readings 19 to 24.

use reference::beside::{self, Wrong, WRONG};
use reference::conditions;
use reference::cover;
use reference::flat::Flat;
use reference::held::{self, HeldAnswer, HeldCall};
use reference::judge::judge;
use reference::list_loads::LOADS;
use reference::list_maker;
use reference::lists::{self, Given, Record};
use reference::load_maker::{self, ROLES};
use reference::loads::{self, Loads};
use reference::machine;
use reference::parts::*;
use reference::tape;
use std::collections::BTreeSet;

const W: Words = [11, 22, 33, 44];
const X: Words = [5, 6, 7, 8];

const COMMANDS: [Command; 3] = [Command::ReadShared, Command::ReadExclusive, Command::Exclude];
const OPS: [Op; 4] = [Op::Load, Op::Store(1), Op::Exchange(1), Op::Add(1)];

fn line(private: bool, block: u8, words: Words) -> Line {
    Line { valid: true, private, block, words }
}

fn begin(lane: u8, op: Op, word: u8) -> Call {
    Call::Begin { lane, op, word }
}

fn load(lane: u8, word: u8) -> Call {
    begin(lane, Op::Load, word)
}

fn queue<K: Copy>(length: u8, kind: K, block: u8) -> Queue<K> {
    Queue { length, places: [Message { kind, block, words: [0; 4] }; PLACES] }
}

/// Lane 1 has block 2 in line 0, PRIVATE reset, and block 1 in line 2, PRIVATE set,
/// which was used before line 0; line 1 is not valid. It waits.
fn store(waiting: Waiting) -> Store {
    let mut s = Store { completed: 255, ..Store::fresh(3, 3, 4) };
    let lane = &mut s.lanes[1];
    lane.lines[0] = line(false, 2, W);
    lane.lines[2] = line(true, 1, X);
    lane.order = [2, 0, 1, 9, 9, 9, 9, 9];
    lane.waiting = Some(waiting);
    s
}

/// All that can wait on a word.
fn waitings(word: u8) -> Vec<Waiting> {
    let mut all = Vec::new();
    for (command, op) in COMMANDS.into_iter().flat_map(|c| OPS.map(|op| (c, op))) {
        all.extend([false, true].map(|served| Waiting { served, command, op, word }));
    }
    all
}

/// The load of lane 1 gives the value and the next place; the store after has one
/// completion more and the order, and is else as before.
fn is_done(s: &Store, word: u8, value: u32, order: [u8; 3]) {
    assert!(!machine::corrupt(s));
    let (after, answer) = machine::call(s, load(1, word)).expect("not refused");
    let place = s.completed + 1;
    assert_eq!(answer, Answer::Done(Completion { lane: 1, value, place }));
    let mut want = s.clone();
    want.completed = place;
    want.lanes[1].order[..3].copy_from_slice(&order);
    assert_eq!(after, want);
}

/// The call is refused with the number, and the bytes of the store are as before.
fn refused(s: &Store, call: Call, number: u8) {
    let given = held::run(s, HeldCall::Machine(call));
    assert_eq!(given.answer, HeldAnswer::Refused(number), "{call:?}");
    let mut want = vec![4, number, 0, 0, 0, 0, 0, 0, 0, 0, 0, 0];
    want.extend(held::encode_store(s));
    assert_eq!(given.bytes(), want);
}

/// The store after a call with this answer.
fn after(s: &Store, call: Call, answer: Answer) -> Store {
    let (after, given) = machine::call(s, call).expect("not refused");
    assert_eq!(given, answer, "{call:?}");
    after
}

fn done(lane: u8, value: u32, place: u32) -> Answer {
    Answer::Done(Completion { lane, value, place })
}

#[test]
fn a_hit_on_the_block_waited_for() {
    for waiting in waitings(9) {
        let mut s = store(waiting);
        (8..12).for_each(|word| is_done(&s, word, W[usize::from(word) - 8], [2, 1, 0]));
        // The same with a service of the block, and with the grant queued.
        s.slots[0] =
            Some(Service { lane: 1, block: 2, command: waiting.command, awaited: 1, bare: true });
        is_done(&s, 9, 22, [2, 1, 0]);
        s.slots[0] = None;
        for kind in [DownKind::BareGrant, DownKind::Purge, DownKind::Update] {
            s.lanes[1].down = queue(1, kind, 2);
            is_done(&s, 9, 22, [2, 1, 0]);
        }
        // PRIVATE set.
        s.lanes[1].lines[0].private = true;
        is_done(&s, 9, 22, [2, 1, 0]);
    }
}

#[test]
fn a_hit_on_another_block() {
    for waiting in [0, 9, 15].into_iter().flat_map(waitings) {
        let s = store(waiting);
        (4..8).for_each(|word| is_done(&s, word, X[usize::from(word) - 4], [0, 1, 2]));
    }
    for waiting in [0, 4, 15].into_iter().flat_map(waitings) {
        is_done(&store(waiting), 10, 33, [2, 1, 0]);
    }
}

/// The lowest-numbered valid line is the one found, and neither 12 nor the queues
/// are looked at.
#[test]
fn a_hit_among_other_lines() {
    let waiting = Waiting { served: true, command: Command::ReadShared, op: Op::Load, word: 0 };
    let mut s = store(waiting);
    s.lanes[1].lines[1] = Line { valid: false, ..line(true, 1, W) };
    is_done(&s, 5, 6, [0, 1, 2]);
    s.lanes[1].lines[1].valid = true;
    is_done(&s, 5, 22, [2, 0, 1]);
    s.lanes[1].returns = queue(8, ReturnKind::Eject, 3);
    s.lanes[1].down = queue(8, DownKind::Purge, 1);
    is_done(&s, 5, 22, [2, 0, 1]);
    s.lanes[1].lines[0].block = 1;
    is_done(&s, 5, 22, [2, 1, 0]);
}

/// Each c and each place in the use order.
#[test]
fn the_line_becomes_the_newest() {
    for c in 1..=8 {
        for place in 0..c {
            let mut s = Store::fresh(2, c, 64);
            let (lane, i) = (&mut s.lanes[0], usize::from(place));
            lane.order = [3, 1, 4, 0, 5, 2, 7, 6];
            lane.order[..usize::from(c)].iter_mut().zip(0..).for_each(|(name, i)| *name = i);
            lane.lines[i] = line(false, 7, W);
            lane.waiting = waitings(0).first().copied();
            let (after, _) = machine::call(&s, load(0, 30)).expect("a hit");
            let mut want = s.lanes[0].order.to_vec();
            let name = want.remove(i);
            want.insert(usize::from(c) - 1, name);
            assert_eq!(after.lanes[0].order.to_vec(), want);
        }
    }
}

#[test]
fn a_miss_is_8() {
    for waiting in [0, 4, 9, 15].into_iter().flat_map(waitings) {
        // Block 3 is in no line, block 0 in one that is not valid, nor past c.
        let mut s = store(waiting);
        s.lanes[1].lines[3] = line(true, 3, W);
        [0, 12].into_iter().for_each(|word| refused(&s, load(1, word), 8));
        // All lines valid; then 12 would come.
        s.lanes[1].lines[1] = line(true, 2, X);
        refused(&s, load(1, 12), 8);
        s.lanes[1].returns = queue(8, ReturnKind::Eject, 0);
        refused(&s, load(1, 12), 8);
        // Another lane's line is no hit.
        s.lanes[0].lines[0] = line(false, 3, W);
        refused(&s, load(1, 12), 8);
    }
}

#[test]
fn other_operations_are_8() {
    for waiting in [0, 4, 9].into_iter().flat_map(waitings) {
        let s = store(waiting);
        for op in &OPS[1..] {
            // A hit with PRIVATE, one without, a miss.
            [4, 8, 12].into_iter().for_each(|word| refused(&s, begin(1, *op, word), 8));
        }
    }
}

#[test]
fn the_order_of_the_checks() {
    for waiting in waitings(9) {
        let mut s = store(waiting);
        for op in OPS {
            refused(&s, begin(3, op, 255), 6);
            refused(&s, begin(1, op, 16), 7);
            refused(&s, begin(1, op, 255), 7);
        }
        // No place is left.
        s.completed = LAST_PLACE - 1;
        refused(&s, load(1, 5), 17);
        refused(&s, load(1, 9), 17);
        refused(&s, load(1, 12), 8);
        refused(&s, load(1, 16), 7);
        refused(&s, load(0, 9), 17);
        for op in &OPS[1..] {
            [4, 8, 12].into_iter().for_each(|word| refused(&s, begin(1, *op, word), 8));
        }
        s.completed = LAST_PLACE;
        OPS.into_iter().for_each(|op| refused(&s, begin(1, op, 5), 14));
        (s.completed, s.lanes[1].order[0]) = (0, 1);
        OPS.into_iter().for_each(|op| refused(&s, begin(1, op, 5), 14));
    }
}

/// The load gets the last place that is left, and what waits its own.
#[test]
fn the_last_places() {
    let waiting = Waiting { served: true, command: Command::Exclude, op: Op::Add(3), word: 9 };
    let mut s = store(waiting);
    s.completed = LAST_PLACE - 2;
    s.lanes[1].down = queue(1, DownKind::BareGrant, 2);
    is_done(&s, 9, 22, [2, 1, 0]);
    s = after(&s, load(1, 9), done(1, 22, LAST_PLACE - 1));
    assert!(!machine::corrupt(&s));
    refused(&s, load(1, 9), 17);
    s = after(&s, Call::Deliver(1), done(1, 22, LAST_PLACE));
    assert_eq!(s.lanes[1].lines[0].words, [11, 25, 33, 44]);
    refused(&s, load(1, 9), 17);
}

/// Lanes 0 and 1 of a fresh store have block 0, PRIVATE reset; word 2 is 7.
fn shared() -> Store {
    let mut s = machine::open(2, 2, 2).expect("a shape in range");
    for call in [begin(0, Op::Store(7), 2), load(1, 2), load(0, 2)] {
        s = machine::call(&s, call).expect("not refused").0;
        s = reference::settle::settle(&s).expect("not refused").0;
    }
    assert_eq!(s.completed, 3);
    s
}

/// Before serve, between serve and grant, with the grant queued, and after.
#[test]
fn a_load_shows_the_word_before_its_own_operation() {
    for (op, value, left) in [(Op::Add(5), 7, 12), (Op::Exchange(9), 7, 9), (Op::Store(4), 4, 4)] {
        let (wait, step) = (Answer::Wait, Answer::Step);
        let mut s = shared();
        s = after(&s, begin(0, op, 2), wait);
        let calls = [
            (load(0, 2), done(0, 7, 4)),
            (Call::Serve(0), step),
            (load(0, 2), done(0, 7, 5)),
            (load(1, 2), done(1, 7, 6)),
            (Call::Deliver(1), step),
            (load(0, 2), done(0, 7, 7)),
            (Call::Return(1), step),
            (load(0, 2), done(0, 7, 8)),
            (load(0, 3), done(0, 0, 9)),
            (Call::Deliver(0), done(0, value, 10)),
            (load(0, 2), done(0, left, 11)),
        ];
        for (call, answer) in calls {
            let waiting = s.lanes[0].waiting;
            s = after(&s, call, answer);
            let waits_on = call == load(0, 2) || call == load(0, 3);
            assert!(!waits_on || s.lanes[0].waiting == waiting);
        }
        assert!(s.quiet());
    }
}

/// A copy that PURGE takes while EXCLUDE waits.
#[test]
fn a_load_after_the_purge_is_8() {
    let mut s = shared();
    for lane in [0, 1] {
        s = after(&s, begin(lane, Op::Add(1), 2), Answer::Wait);
    }
    s = after(&s, Call::Serve(0), Answer::Step);
    s = after(&s, load(1, 2), done(1, 7, 4));
    s = after(&s, Call::Deliver(1), Answer::Step);
    (0..4).for_each(|word| refused(&s, load(1, word), 8));
    s = after(&s, load(0, 2), done(0, 7, 5));
    s = after(&s, Call::Return(1), Answer::Step);
    s = after(&s, Call::Deliver(0), done(0, 7, 6));
    refused(&s, load(1, 2), 8);
    s = after(&s, load(0, 2), done(0, 8, 7));
    let (s, given) = reference::settle::settle(&s).expect("not refused");
    assert_eq!(given.completions, [Completion { lane: 1, value: 8, place: 8 }]);
    after(&s, load(1, 2), done(1, 9, 9));
}

#[test]
fn a_tape_of_loads_beside_a_wait() {
    let tape = [
        0, 2, 1, 2, // open
        1, 0, 5, 5, 0, 7, 0, // load, serve, deliver
        4, 0, 5, 3, 0, 0, 0, // add: wait with EXCLUDE
        1, 0, 5, 1, 0, 4, // loads: done
        1, 0, 0, // load that misses: refused 8
        1, 0, 8, // load: refused 7
        2, 0, 5, 1, 0, 0, 0, // store: refused 8
        5, 0, 1, 0, 5, // serve, load: done
        7, 0, 1, 0, 5, // deliver, load: done
    ];
    let lines = "0 open\n1 wait\n2 step\n3 done 0 0 1\n4 wait\n5 done 0 0 2\n6 done 0 0 3\n\
                 7 refused 8\n8 refused 7\n9 refused 8\n10 step\n11 done 0 0 4\n\
                 12 done 0 0 5\n13 done 0 3 6\nend 14\n";
    assert_eq!(tape::print(&tape), lines);
}

/// A made begin against W5's sentences: the number by the conditions, a load that is
/// done by what it must change.
fn check_made(s: &Store, call: Call) {
    let given = held::run(s, HeldCall::Machine(call));
    let holds = conditions::all(s, HeldCall::Machine(call));
    let done = match given.answer {
        HeldAnswer::Machine(Answer::Done(done)) => done,
        HeldAnswer::Refused(number) => {
            assert_eq!(holds.first(), Some(&number), "{call:?}");
            assert!(given.store == *s);
            return;
        }
        answer => panic!("{call:?} gives {answer:?}"),
    };
    let (k, word) = match call {
        Call::Begin { lane, op: Op::Load, word } => (usize::from(lane), word),
        call => panic!("{call:?} is done"),
    };
    assert!(holds.is_empty() && s.lanes[k].waiting.is_some());
    let lines = || s.lanes[k].lines[..usize::from(s.c)].iter();
    let i = lines().position(|l| l.valid && l.block == word / 4).expect("a hit");
    let value = s.lanes[k].lines[i].words[usize::from(word % 4)];
    assert_eq!(done, Completion { lane: k as u8, value, place: s.completed + 1 });
    let mut want = s.clone();
    want.completed += 1;
    let order = newest(&s.lanes[k], s.c, i);
    want.lanes[k].order.copy_from_slice(&order);
    assert!(given.store == want && !machine::corrupt(&want));
}

/// The use order with line i as newest; places c and above stay.
fn newest(lane: &Lane, c: u8, i: usize) -> Vec<u8> {
    let (own, past) = lane.order.split_at(usize::from(c));
    let others = own.iter().copied().filter(|&name| usize::from(name) != i);
    others.chain([i as u8]).chain(past.iter().copied()).collect()
}

#[test]
fn made_begins_are_answered_as_w5_says() {
    for seed in [1, 2] {
        for index in 0..4_000 {
            let (s, call) = load_maker::make(seed, index);
            check_made(&s, call);
        }
    }
}

/// What is met by chance only, not by a role.
const BY_CHANCE: [&str; 7] = [
    "done, beside a load that waits",
    "done, other lanes wait too",
    "done, a service open",
    "done, messages in the lane's queues",
    "refused 8, a load that misses, what waits unserved",
    "refused 8, a load that misses, what waits served",
    "refused 8, of the word that waits",
];

/// Any 40 in a row meet every role and tell every wrong machine.
#[test]
fn any_forty_begins_meet_every_role() {
    assert_eq!(ROLES, 40);
    for (seed, start) in (0..60).map(|i| (i, 37 * i as usize)) {
        let mut summary = Loads::default();
        for index in start..start + 40 {
            let (s, call) = load_maker::make(seed, index);
            summary.add(&s, call).expect("a number that it can have");
        }
        let mut never = summary.never_met();
        never.retain(|name| !BY_CHANCE.contains(name));
        assert_eq!(never, [""; 0], "seed {seed}, from {start}");
    }
}

#[test]
fn four_hundred_begins_meet_all() {
    for seed in 1..=10 {
        let mut summary = Loads::default();
        for index in 0..400 {
            let (s, call) = load_maker::make(seed, index);
            summary.add(&s, call).expect("a number that it can have");
        }
        assert_eq!(summary.never_met(), [""; 0]);
    }
    assert_eq!(Loads::default().never_met().len(), loads::names().len() + WRONG.len());
    let names: BTreeSet<&str> = Loads::default().never_met().into_iter().collect();
    assert_eq!(names.len(), loads::names().len() + WRONG.len());
}

#[test]
fn the_maker_is_deterministic_and_varied() {
    assert!(load_maker::make(9, 77) == load_maker::make(9, 77));
    assert!(load_maker::make(9, 77) != load_maker::make(10, 77));
    assert!(load_maker::make(9, 77) != load_maker::make(9, 77 + ROLES));
    let mut shapes = BTreeSet::new();
    for index in 0..4_000 {
        let (s, call) = load_maker::make(1, index);
        let bytes = held::encode_case(&s, HeldCall::Machine(call));
        let decoded = held::decode_case(&bytes).expect("well formed");
        assert!(decoded == (s.clone(), HeldCall::Machine(call)));
        shapes.insert((s.n, s.c, s.m));
    }
    assert!(shapes.len() > 800, "{}", shapes.len());
}

/// Wrong machines have rules of their own for begins on lanes that wait alone.
#[test]
fn wrong_machines_are_right_elsewhere() {
    let mut s = shared();
    for (name, wrong) in WRONG {
        for call in [load(0, 2), load(1, 4), begin(0, Op::Add(1), 2), Call::Serve(0)] {
            assert!(beside::wrong_call(&s, call, wrong) == machine::call(&s, call), "{name}");
        }
    }
    s.lanes[0].waiting = waitings(2).first().copied();
    for (name, wrong) in WRONG {
        let call = load(1, 2);
        assert!(beside::wrong_call(&s, call, wrong) == machine::call(&s, call), "{name}");
    }
    let before = beside::wrong_call(&s, load(0, 2), beside::BEFORE_W5);
    assert!(before == Err(8) && machine::call(&s, load(0, 2)).is_ok());
}

fn record(call: Call) -> Record {
    Record::Call(HeldCall::Machine(call))
}

const SETTLE: Record = Record::Call(HeldCall::Settle);

/// The records with what the reference gives.
fn answered(records: &[Record]) -> Vec<(Record, Given)> {
    let mut store = lists::blank();
    records.iter().map(|&record| (record, lists::run(&mut store, record))).collect()
}

/// The same with a wrong machine.
fn answered_wrong(records: &[Record], wrong: Wrong) -> Vec<(Record, Given)> {
    let mut store = lists::blank();
    let give = |&record: &Record| (record, beside::wrong_run(&mut store, record, wrong));
    records.iter().map(give).collect()
}

/// Lists tell all wrong machines but those of 17, which needs 2^32 begins, and of
/// 12, which no list from an opening meets.
#[test]
fn made_lists_tell_wrong_machines() {
    let made: Vec<_> = (0..400).map(|index| list_maker::make(7, index)).collect();
    for (name, wrong) in WRONG {
        let other = made.iter().filter(|list| answered_wrong(list, wrong) != answered(list));
        let count = other.count();
        let never = name.starts_with("17") || name.starts_with("12");
        assert!(if never { count == 0 } else { count >= 20 }, "{name}: {count}");
    }
}

/// These give what no flat memory gives, in made lists.
#[test]
fn the_judge_finds_wrong_machines() {
    let made: Vec<_> = (0..400).map(|index| list_maker::make(7, index)).collect();
    for name in [
        "the load gives the word after its own operation",
        "the load clears the waiting operation",
        "the load is not counted among the completions",
        "a store, exchange or add that hits PRIVATE completes beside a wait",
    ] {
        let (_, wrong) = WRONG.into_iter().find(|(other, _)| *other == name).expect("a name");
        let found = made.iter().filter(|list| judge(&answered_wrong(list, wrong)).is_err());
        let count = found.count();
        // A store beside a wait is as lawful, by flat memory alone.
        let lawful = name.starts_with("a store");
        assert!(if lawful { count == 0 } else { count >= 20 }, "{name}: {count}");
    }
    made.iter().for_each(|list| assert!(judge(&answered(list)).is_ok()));
}

/// Which operation a completion is of.
#[derive(Clone, Copy, PartialEq, Eq, Debug)]
enum Attribution {
    /// Document 01's.
    Right,
    /// A load's completion beside a wait is of what waits, and the other of the load.
    OfWhatWaits,
    /// The load is fed behind what waits.
    BehindWhatWaits,
    /// A completion in no begin's answer is of the last begin that was not refused.
    LastNotRefused,
    /// It is of the last begin, refused or not.
    LastBegin,
}

/// Feeds flat memory the completions of a list in an order, with their operations.
#[derive(Default)]
struct Feed {
    /// Operations with the values that the answers give, in the order of feeding.
    fed: Vec<(Op, u8, u32)>,
    last: [Option<(Op, u8)>; LANES],
    waits: [bool; LANES],
    behind: [Vec<(Op, u8, u32)>; LANES],
}

impl Feed {
    fn see(&mut self, record: Record, given: &Given, how: Attribution) {
        match (record, given) {
            (
                Record::Call(HeldCall::Machine(Call::Begin { lane, op, word })),
                Given::Answer(answer),
            ) => {
                self.see_begin(lane, (op, word), answer, how);
            }
            (_, Given::Answer(HeldAnswer::Machine(Answer::Done(done)))) => self.complete(done),
            (_, Given::Answer(HeldAnswer::Settled(settled))) => {
                settled.completions.iter().for_each(|done| self.complete(done));
            }
            _ => {}
        }
    }

    fn see_begin(&mut self, k: u8, (op, word): (Op, u8), answer: &HeldAnswer, how: Attribution) {
        if usize::from(k) >= LANES {
            return;
        }
        let (k, beside) = (usize::from(k), self.waits[usize::from(k)]);
        match answer {
            HeldAnswer::Machine(Answer::Wait) => {
                (self.last[k], self.waits[k]) = (Some((op, word)), true);
            }
            HeldAnswer::Machine(Answer::Done(done)) => {
                match how {
                    Attribution::OfWhatWaits if beside => {
                        let (op, word) = self.last[k].expect("an operation");
                        self.fed.push((op, word, done.value));
                    }
                    Attribution::BehindWhatWaits if beside => {
                        self.behind[k].push((op, word, done.value));
                    }
                    _ => self.fed.push((op, word, done.value)),
                }
                if !matches!(how, Attribution::Right | Attribution::BehindWhatWaits) {
                    self.last[k] = Some((op, word));
                }
            }
            _ if how == Attribution::LastBegin => self.last[k] = Some((op, word)),
            _ => {}
        }
    }

    fn complete(&mut self, done: &Completion) {
        let k = usize::from(done.lane);
        let (op, word) = self.last[k].expect("an operation");
        self.fed.push((op, word, done.value));
        self.fed.append(&mut self.behind[k]);
        self.waits[k] = false;
    }
}

/// Whether flat memory gives the values that the answers have.
fn holds(all: &[(Record, Given)], how: Attribution) -> bool {
    let mut feed = Feed::default();
    all.iter().for_each(|(record, given)| feed.see(*record, given, how));
    let mut flat = Flat::new(255);
    feed.fed.iter().all(|&(op, word, value)| flat.feed(op, word) == value)
}

/// Only document 01's attribution, word for word, holds on made lists.
#[test]
fn wrong_attributions_disagree() {
    let lists: Vec<_> = (0..400).map(|i| answered(&list_maker::make(8, i))).collect();
    let wrong = |how| lists.iter().filter(|list| !holds(list, how)).count();
    assert_eq!(wrong(Attribution::Right), 0);
    for how in [
        Attribution::OfWhatWaits,
        Attribution::BehindWhatWaits,
        Attribution::LastNotRefused,
        Attribution::LastBegin,
    ] {
        assert!(wrong(how) >= 20, "{how:?}: {}", wrong(how));
    }
}

/// A list in which lane 0 loads the word that its add waits to change: the answers
/// and where the load's is.
fn beside_an_add() -> (Vec<(Record, Given)>, usize) {
    let records = [
        Record::Open { n: 2, c: 1, m: 1 },
        record(begin(0, Op::Store(7), 2)),
        SETTLE,
        record(load(1, 2)),
        SETTLE,
        record(begin(0, Op::Add(5), 2)),
        record(load(0, 2)),
        SETTLE,
        Record::Show,
    ];
    (answered(&records), 6)
}

/// From the bytes too, as `judge-lists` has them.
#[test]
fn the_word_after_the_add_is_found() {
    let (all, at) = beside_an_add();
    let answer = |value, place| Given::Answer(HeldAnswer::Machine(done(0, value, place)));
    assert_eq!(all[at].1, answer(7, 3));
    assert_eq!(judge(&all).expect("demand 3").completions, 4);
    let judged = |lie: Given| {
        let mut all = all.clone();
        all[at].1 = lie;
        let input: Vec<u8> = all.iter().flat_map(|(record, _)| record.bytes()).collect();
        let answers = all.iter().flat_map(|(r, given)| lists::answer_bytes(*r, given, [9, 0]));
        let read = lists::read(&input, &answers.collect::<Vec<u8>>()).expect("well formed");
        assert!(read == all);
        judge(&read).map(|judged| judged.completions)
    };
    assert_eq!(judged(answer(7, 3)), Ok(4));
    let told = judged(answer(12, 3)).expect_err("the word after the add");
    assert!(told.contains("gave 12, flat memory 7"), "{told}");
    // Another word, another place, another lane, no completion.
    assert!(judged(answer(0, 3)).is_err());
    assert!(judged(answer(7, 4)).is_err());
    assert!(judged(Given::Answer(HeldAnswer::Machine(done(1, 7, 3)))).is_err());
    assert!(judged(Given::Answer(HeldAnswer::Refused(8))).is_err());
    assert!(judged(Given::Answer(HeldAnswer::Machine(Answer::Wait))).is_err());
}

/// What is counted of lists, in the order of its names, and the lists that the
/// machine before W5 answers otherwise.
fn counted(calls: &[Call]) -> ([usize; LOADS.len()], usize) {
    let mut records = vec![Record::Open { n: 2, c: 2, m: 3 }];
    for call in [load(0, 2), load(1, 2), load(0, 4)] {
        records.extend([record(call), SETTLE]);
    }
    records.extend(calls.iter().map(|&call| record(call)));
    let cover = cover::cover(&records);
    let counts = &cover.loads.counts;
    (LOADS.map(|name| counts.get(name).copied().unwrap_or(0)), cover.other_before_w5)
}

#[test]
fn lists_loads_are_counted() {
    let add = begin(0, Op::Add(1), 2);
    assert_eq!(counted(&[load(0, 2), load(1, 2)]), ([0; 7], 0));
    assert_eq!(counted(&[add, load(1, 2)]), ([0; 7], 0));
    assert_eq!(counted(&[add, load(0, 2)]), ([1, 1, 0, 0, 0, 1, 0], 1));
    assert_eq!(counted(&[add, load(0, 3)]), ([1, 1, 0, 0, 0, 0, 0], 1));
    assert_eq!(counted(&[add, load(0, 5)]), ([1, 0, 0, 0, 1, 0, 0], 1));
    assert_eq!(counted(&[add, load(0, 8), load(0, 12)]), ([0; 7], 0));
    let serve = [add, Call::Serve(0), load(0, 3)];
    assert_eq!(counted(&serve), ([1, 0, 1, 0, 0, 0, 0], 1));
    let granted = [add, Call::Serve(0), Call::Deliver(1), Call::Return(1), load(0, 2)];
    assert_eq!(counted(&granted), ([1, 0, 0, 1, 0, 1, 0], 1));
    let mut after = granted.to_vec();
    after.extend([Call::Deliver(0), load(0, 2)]);
    assert_eq!(counted(&after), ([1, 0, 0, 1, 0, 1, 0], 1));
    // Lane 1's copy is purged: while it waits, and before it does.
    let add_1 = begin(1, Op::Add(1), 2);
    let purged = [add, add_1, Call::Serve(0), Call::Deliver(1), load(1, 2), load(1, 8)];
    assert_eq!(counted(&purged), ([0, 0, 0, 0, 0, 0, 1], 0));
    let idle = [add, Call::Serve(0), Call::Deliver(1), add_1, load(1, 2)];
    assert_eq!(counted(&idle), ([0; 7], 0));
}

#[test]
fn a_cover_tells_what_is_missing() {
    let none = cover::cover(&[Record::Open { n: 2, c: 1, m: 1 }]).never_met();
    for name in LOADS.into_iter().chain(["the machine before W5 gives other bytes"]) {
        assert!(none.contains(&name.to_string()), "{name}: {none:?}");
    }
    let few: Vec<Record> = (0..300).flat_map(|index| list_maker::make(1, index)).collect();
    let never = cover::cover(&few).never_met();
    assert!(LOADS.iter().all(|name| !never.contains(&name.to_string())), "{never:?}");
}

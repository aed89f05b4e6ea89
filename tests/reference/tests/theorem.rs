//! W3's sentence, row 14 of the readings: two lists from openings, one under each
//! rule, that complete the same operations in the same order get the same values
//! and the same places. Lanes, shapes, steps and refused calls may differ, and
//! whether a load is done beside an operation that waits (W5).

use reference::flat::Flat;
use reference::held::{HeldAnswer, HeldCall};
use reference::judge::judge;
use reference::list_maker;
use reference::lists::{self, Given, Record};
use reference::machine;
use reference::parts::*;
use reference::rng::Rng;
use reference::walk;
use std::collections::VecDeque;

const RULES: [Rule; 2] = [Rule::LoadFillsOldest, Rule::FillsNewest];

/// Kind with v, and word.
type Operation = (Op, u8);

/// What a list completes, in order: the operations, their values and places, and
/// the lanes.
#[derive(Default, PartialEq, Eq, Debug)]
struct History {
    operations: Vec<Operation>,
    values: Vec<u32>,
    places: Vec<u32>,
    lanes: Vec<u8>,
    /// Loads done on lanes that wait.
    beside: usize,
}

impl History {
    fn add(&mut self, operation: Operation, done: Completion) {
        self.operations.push(operation);
        self.values.push(done.value);
        self.places.push(done.place);
        self.lanes.push(done.lane);
    }
}

/// A list run under a rule: each record with what it gives.
fn run(records: &[Record], rule: Rule) -> Vec<(Record, Given)> {
    let mut store = lists::blank();
    let give = |&record: &Record| (record, lists::run_under(&mut store, record, rule));
    records.iter().map(give).collect()
}

/// The history of a list, each completion with its operation as document 01 finds
/// it: of that begin call, or of the lane's last begin call that waited.
fn history(all: &[(Record, Given)]) -> History {
    let (mut found, mut waited, mut waits) = (History::default(), [None; 256], [false; 256]);
    let last = |waited: &[Option<Operation>; 256], lane: u8| {
        waited[usize::from(lane)].expect("a begin call that waited")
    };
    for (record, given) in all {
        match (record, given) {
            (Record::Call(HeldCall::Machine(call)), Given::Answer(HeldAnswer::Machine(answer))) => {
                match (*call, *answer) {
                    (Call::Begin { lane, op, word }, Answer::Wait) => {
                        waited[usize::from(lane)] = Some((op, word));
                        waits[usize::from(lane)] = true;
                    }
                    (Call::Begin { op, word, .. }, Answer::Done(done)) => {
                        found.beside += usize::from(waits[usize::from(done.lane)]);
                        found.add((op, word), done);
                    }
                    (_, Answer::Done(done)) => {
                        waits[usize::from(done.lane)] = false;
                        found.add(last(&waited, done.lane), done);
                    }
                    _ => {}
                }
            }
            (_, Given::Answer(HeldAnswer::Settled(settled))) => {
                waits = [false; 256];
                for &done in &settled.completions {
                    found.add(last(&waited, done.lane), done);
                }
            }
            _ => {}
        }
    }
    found
}

/// Flat memory's values of the operations.
fn flat_values(operations: &[Operation]) -> Vec<u32> {
    let mut flat = Flat::new(64);
    operations.iter().map(|&(op, word)| flat.feed(op, word)).collect()
}

/// Makes a list that completes given operations in turn.
struct Maker {
    store: Store,
    rule: Rule,
    records: Vec<Record>,
    rng: Rng,
    /// The lanes of operations that have begun and wait, in their turn.
    begun: VecDeque<u8>,
}

impl Maker {
    fn push(&mut self, record: Record) -> Given {
        self.records.push(record);
        lists::run_under(&mut self.store, record, self.rule)
    }

    fn call(&mut self, call: Call) -> Answer {
        match self.push(Record::Call(HeldCall::Machine(call))) {
            Given::Answer(HeldAnswer::Machine(answer)) => answer,
            given => panic!("{call:?} gives {given:?}"),
        }
    }

    fn peek(&self, call: Call) -> Result<Answer, u8> {
        machine::call_under(&self.store, call, self.rule).map(|(_, answer)| answer)
    }

    fn idle_lane(&mut self) -> Option<u8> {
        let idle = |&k: &u8| self.store.lanes[usize::from(k)].waiting.is_none();
        let lanes: Vec<u8> = (0..self.store.n).filter(idle).collect();
        (!lanes.is_empty()).then(|| self.rng.pick(&lanes))
    }

    /// Each operation in its turn; now and then some of the next begin before it,
    /// if they have to wait, and a load is done beside the next.
    fn complete_all(&mut self, operations: &[Operation]) {
        let eager = self.rng.pick(&[0, 20, 60]);
        let mut next = 0;
        for turn in 0..operations.len() {
            self.disturb();
            if self.begun.is_empty() {
                let (op, word) = operations[turn];
                let later = operations.get(turn + 1).filter(|_| op.is_load());
                if self.rng.chance(50) && later.map_or(false, |&o| self.load_beside(word, o)) {
                    next = turn + 2;
                    continue;
                }
                let lane = self.idle_lane().expect("nobody waits");
                next = turn + 1;
                if self.call(Call::Begin { lane, op, word }) != Answer::Wait {
                    continue;
                }
                self.begun.push_back(lane);
            }
            while next < operations.len() && self.rng.chance(eager) {
                if !self.begin_early(operations[next]) {
                    break;
                }
                next += 1;
            }
            self.finish();
        }
    }

    /// The operation of the turn after waits, and the load is done in its lane; if
    /// there is a lane for both.
    fn load_beside(&mut self, word: u8, (op, later): Operation) -> bool {
        let both = |&lane: &u8| {
            let begin = Call::Begin { lane, op, word: later };
            let idle = self.store.lanes[usize::from(lane)].waiting.is_none();
            let waits = machine::call_under(&self.store, begin, self.rule);
            idle && waits.map_or(false, |(after, answer)| {
                let held = machine::search(&after.lanes[usize::from(lane)], after.c, word / 4);
                answer == Answer::Wait && held.is_some()
            })
        };
        let lanes: Vec<u8> = (0..self.store.n).filter(both).collect();
        if lanes.is_empty() {
            return false;
        }
        let lane = self.rng.pick(&lanes);
        self.call(Call::Begin { lane, op, word: later });
        self.begun.push_back(lane);
        let load = self.call(Call::Begin { lane, op: Op::Load, word });
        assert!(matches!(load, Answer::Done(done) if done.lane == lane));
        true
    }

    fn begin_early(&mut self, (op, word): Operation) -> bool {
        let lane = match self.idle_lane() {
            Some(lane) => lane,
            None => return false,
        };
        let begin = Call::Begin { lane, op, word };
        let waits = self.peek(begin) == Ok(Answer::Wait);
        if waits {
            self.call(begin);
            self.begun.push_back(lane);
        }
        waits
    }

    /// Steps in any order until the first that waits completes: only it is served.
    fn finish(&mut self) {
        let first = self.begun.pop_front().expect("an operation that waits");
        if self.begun.is_empty() && self.rng.chance(30) {
            self.push(Record::Call(HeldCall::Settle));
            return;
        }
        loop {
            let lanes = 0..self.store.n;
            let steps = lanes.flat_map(|k| [Call::Deliver(k), Call::Return(k)]);
            let steps: Vec<Call> =
                steps.chain([Call::Serve(first)]).filter(|&step| self.peek(step).is_ok()).collect();
            let step = self.rng.pick(&steps);
            if let Answer::Done(done) = self.call(step) {
                assert_eq!(done.lane, first);
                return;
            }
            self.disturb();
        }
    }

    /// Refused calls, steps that complete nothing, settles of idle lanes.
    fn disturb(&mut self) {
        while self.rng.chance(25) {
            let call = walk::odd_call(&self.store, &mut self.rng);
            match (call, self.peek(call)) {
                (_, Err(_)) => {
                    self.push(Record::Call(HeldCall::Machine(call)));
                }
                (Call::Return(_), Ok(Answer::Step)) | (Call::Deliver(_), Ok(Answer::Step)) => {
                    self.call(call);
                }
                _ => {}
            }
        }
        let waits = self.store.lanes.iter().any(|lane| lane.waiting.is_some());
        if !waits && self.rng.chance(10) {
            self.push(Record::Call(HeldCall::Settle));
        }
    }
}

/// A list of any other shape that has all the words, under the rule, that
/// completes the operations in turn.
fn other_list(operations: &[Operation], rule: Rule, shape: Shape, rng: &Rng) -> Vec<Record> {
    let mut rng = rng.clone();
    let blocks = operations.iter().map(|(_, word)| word / 4 + 1).max().unwrap_or(1);
    let (n, c) = (other(2, 8, shape.0, &mut rng), other(1, 8, shape.1, &mut rng));
    let m = other(blocks, 64, shape.2, &mut rng);
    let (store, records) = (lists::blank(), Vec::new());
    let mut maker = Maker { store, rule, records, rng, begun: VecDeque::new() };
    let limit = other(1, 8, shape.3, &mut maker.rng);
    maker.push(Record::OpenLimit { n, c, m, limit });
    maker.complete_all(operations);
    maker.records
}

/// Any number from low to high but one, if there is another.
fn other(low: u8, high: u8, one: u8, rng: &mut Rng) -> u8 {
    let others: Vec<u8> = (low..=high).filter(|&x| x != one).collect();
    if others.is_empty() {
        one
    } else {
        rng.pick(&others)
    }
}

/// n, c, m and L.
type Shape = (u8, u8, u8, u8);

fn opened_shape(records: &[Record]) -> Shape {
    let opens = |(n, c, m, limit): &Shape| machine::open_with_limit(*n, *c, *m, *limit).is_ok();
    records.iter().filter_map(|record| record.opens()).find(opens).expect("an opening")
}

fn refused(all: &[(Record, Given)]) -> usize {
    let number = |given: &Given| matches!(given, Given::Answer(HeldAnswer::Refused(_)));
    all.iter().filter(|(_, given)| number(given)).count()
}

/// Two operations on one word exchanged so that flat memory gives other values,
/// if some such are found.
fn swapped(operations: &[Operation], rng: &mut Rng) -> Option<Vec<Operation>> {
    let values = flat_values(operations);
    (0..50).find_map(|_| {
        let mut other = operations.to_vec();
        let one = rng.below(other.len().max(1));
        let next = (one + 1..other.len()).find(|&i| other[i].1 == other[one].1)?;
        other.swap(one, next);
        (flat_values(&other) != values).then_some(other)
    })
}

/// What the pairs were.
#[derive(Default, Debug)]
struct Pairs {
    pairs: usize,
    completions: usize,
    /// Pairs that differ in n, c, m and L at once, completions that do in the lane.
    all_of_the_shape: usize,
    in_another_lane: usize,
    /// Records, and refused ones, of the first lists and of the second.
    records: [usize; 2],
    refused: [usize; 2],
    /// Loads done beside a wait.
    beside: [usize; 2],
    /// Second lists to which the first's rule gives other bytes, or another store.
    other_bytes: usize,
    /// Pairs with two operations swapped that gave other values.
    swapped: usize,
}

/// The bytes of what a list gives, but for the bounds.
fn bytes(all: &[(Record, Given)]) -> Vec<u8> {
    all.iter().flat_map(|(record, given)| lists::answer_bytes(*record, given, [0; 2])).collect()
}

impl Pairs {
    fn see(&mut self, index: usize) {
        let rng = Rng::stream(14, index as u64);
        let [rule, other_rule] = if index % 2 == 0 { RULES } else { [RULES[1], RULES[0]] };
        let records = list_maker::make(14, list_maker::drawn_index(14, index));
        let (all, shape) = (run(&records, rule), opened_shape(&records));
        let first = history(&all);
        let other_records = other_list(&first.operations, other_rule, shape, &rng);
        let other_all = run(&other_records, other_rule);
        let second = history(&other_all);
        // The premise, by how the second list was made, and the claim.
        assert!(first.operations == second.operations && !first.operations.is_empty());
        assert_eq!(first.values, second.values, "pair {index}");
        assert_eq!(first.places, second.places, "pair {index}");
        // Both are flat memory's, of which the judge knows too.
        assert_eq!(first.values, flat_values(&first.operations));
        for list in [&all, &other_all] {
            assert_eq!(judge(list).expect("demand 3").completions, first.values.len());
        }
        self.count_shapes(shape, opened_shape(&other_records));
        self.count_lists([&all, &other_all], [&first, &second]);
        self.other_bytes += usize::from(tells_the_rules_apart(&other_records));
        self.see_swapped(&first, other_rule, shape, rng);
    }

    fn count_shapes(&mut self, one: Shape, other: Shape) {
        self.pairs += 1;
        let differ = one.0 != other.0 && one.1 != other.1 && one.2 != other.2;
        assert_ne!(one.3, other.3);
        self.all_of_the_shape += usize::from(differ);
    }

    fn count_lists(&mut self, lists: [&Vec<(Record, Given)>; 2], [one, two]: [&History; 2]) {
        self.completions += one.values.len();
        let lanes = one.lanes.iter().zip(&two.lanes);
        self.in_another_lane += lanes.filter(|(one, two)| one != two).count();
        self.beside = [self.beside[0] + one.beside, self.beside[1] + two.beside];
        for (i, list) in lists.into_iter().enumerate() {
            self.records[i] += list.len();
            self.refused[i] += refused(list);
        }
    }

    /// The same with two operations exchanged, where it matters: other values.
    fn see_swapped(&mut self, first: &History, rule: Rule, shape: Shape, mut rng: Rng) {
        let operations = match swapped(&first.operations, &mut rng) {
            Some(operations) => operations,
            None => return,
        };
        let third = history(&run(&other_list(&operations, rule, shape, &rng), rule));
        assert!(third.operations == operations && third.places == first.places);
        assert_eq!(third.values, flat_values(&operations));
        assert_ne!(third.values, first.values);
        self.swapped += 1;
    }
}

/// Whether the rules give other bytes to a list, or leave another store.
fn tells_the_rules_apart(records: &[Record]) -> bool {
    let mut shown = records.to_vec();
    shown.push(Record::Show);
    let [one, two] = RULES.map(|rule| bytes(&run(&shown, rule)));
    one != two
}

/// Lists made at random, and for each another list on another shape, in other
/// lanes, under the other rule.
#[test]
fn lists_of_the_same_completions_get_the_same_values() {
    let mut pairs = Pairs::default();
    (0..2_000).for_each(|index| pairs.see(index));
    println!("{pairs:?}");
    assert_eq!(pairs.pairs, 2_000);
    assert!(pairs.completions > 80_000 && pairs.in_another_lane > 50_000, "{pairs:?}");
    assert!(pairs.all_of_the_shape > 1_500 && pairs.other_bytes > 1_000, "{pairs:?}");
    assert!(pairs.beside[0] > 5_000 && pairs.beside[1] > 2_000, "{pairs:?}");
    assert!(pairs.swapped > 1_500 && pairs.refused.iter().all(|&count| count > 5_000));
}

/// The same list under each rule. As far as both complete the same operations,
/// which nobody has seen to, the values and places are the same.
#[test]
fn one_list_under_each_rule() {
    let (mut completions, mut whole, mut parted, mut other_bytes) = (0, 0, 0, 0);
    for index in 0..2_000 {
        let records = list_maker::make(15, list_maker::drawn_index(15, index));
        let [one, two] = RULES.map(|rule| run(&records, rule));
        let [first, second] = [&one, &two].map(|all| history(all));
        let alike = first.operations.iter().zip(&second.operations);
        let common = alike.take_while(|(one, two)| one == two).count();
        assert_eq!(first.values[..common], second.values[..common], "list {index}");
        assert_eq!(first.places[..common], second.places[..common], "list {index}");
        completions += common;
        let same = first.operations == second.operations;
        whole += usize::from(same);
        parted += usize::from(!same);
        other_bytes += usize::from(same && bytes(&one) != bytes(&two));
    }
    println!(
        "{completions} completions; lists alike to the end {whole}, of these with other bytes \
         {other_bytes}; alike up to a point {parted}"
    );
    assert!(completions > 50_000 && whole > 1_000 && parted > 100 && other_bytes > 500);
}

//! W8: settle gives O, and its count is exactly R + G + 2 × Q + S + 2 × U + 2 × O; what
//! holds answers to that tells wrong tellers and wrong equations.

use reference::damage::FAIR;
use reference::exact::{self, Equation, Exact, Letters};
use reference::held::{self, HeldCall, ORDERS_AT};
use reference::lists::{self, Record};
use reference::parts::*;
use reference::rng::Rng;
use reference::settle::{bound, next_step, settle, settle_under};
use reference::settles::{Log, Settles, SETTLES};
use reference::tellers::{self, Tell};
use reference::{judge, list_maker, machine, scramble, serve_byte, settle_maker, stores};

const SETTLE: Record = Record::Call(HeldCall::Settle);

/// The bytes of all that is given for a settle.
const LENGTH: usize = 12 + 5_320 + 72 + 2;

fn open(n: u8, c: u8, m: u8, limit: u8) -> Store {
    machine::open_with_limit(n, c, m, limit).expect("in range")
}

fn run(s: &mut Store, calls: &[Call]) {
    for &call in calls {
        *s = machine::call(s, call).expect("not refused").0;
    }
}

fn begin(lane: u8, op: Op, block: u8) -> Call {
    Call::Begin { lane, op, word: 4 * block }
}

fn letters(s: &Store) -> Letters {
    Letters::of(&held::encode_store(s)).expect("a store that settle looks at")
}

fn cases(stores: &[Store]) -> Vec<u8> {
    stores.iter().flat_map(|s| held::encode_case(s, HeldCall::Settle)).collect()
}

fn answers(stores: &[Store]) -> Vec<u8> {
    held::answers(&cases(stores)).expect("well formed")
}

/// What exact-held says of answers to settles.
fn held_to(stores: &[Store], answers: &[u8], equation: Equation) -> Exact {
    exact::hold_held(&cases(stores), answers, equation).expect("all bytes are there")
}

fn made(count: usize) -> Vec<Store> {
    (0..count).map(|index| settle_maker::make(1, index)).collect()
}

fn bytes(records: &[Record]) -> Vec<u8> {
    records.iter().flat_map(|record| record.bytes()).collect()
}

/// Document 01's two storing lanes, settled and shown.
fn two_stores() -> Vec<u8> {
    let store = |lane, v| Record::Call(HeldCall::Machine(begin(lane, Op::Store(v), 0)));
    bytes(&[Record::Open { n: 2, c: 1, m: 1 }, store(0, 7), store(1, 9), SETTLE, Record::Show])
}

#[test]
fn the_two_storing_lanes_give_6_with_one_order() {
    let input = two_stores();
    let answers = lists::answers(&input).expect("well formed");
    assert_eq!(answers[36..48], [6, 0, 6, 0, 0, 0, 2, 1, 0, 0, 0, 0]);
    assert_eq!(answers[48..57], [0, 7, 0, 0, 0, 1, 0, 0, 0]);
    assert_eq!(answers[57..66], [1, 9, 0, 0, 0, 2, 0, 0, 0]);
    assert_eq!(answers[120..122], [8, 0]);
    let held = exact::of_lists(&input, &answers).expect("exact");
    assert_eq!((held.settles, held.with_orders, held.with_all), (1, 1, 0));
    let mut s = open(2, 1, 1, 1);
    run(&mut s, &[begin(0, Op::Store(7), 0), begin(1, Op::Store(9), 0)]);
    let given = settle(&s).expect("not refused").1;
    assert_eq!((given.steps, given.orders), (6, 1));
    let places = [(0, 7, 1), (1, 9, 2)];
    let wanted = places.map(|(lane, value, place)| Completion { lane, value, place });
    assert_eq!(given.completions, wanted);
}

/// The letters of a store that is settled in so many steps with so many orders.
fn settles(s: &Store, steps: u32, orders: u8) -> [u32; 5] {
    let given = settle(s).expect("not refused").1;
    assert_eq!((given.steps, given.orders), (steps, orders));
    let stores = [s.clone()];
    let held = held_to(&stores, &answers(&stores), Letters::steps);
    assert_eq!((held.settles, held.with_all, held.faults), (1, 1, 0), "{held:?}");
    let Letters { returns, grants, queued, services, unserved, .. } = letters(s);
    [returns, grants, queued, services, unserved]
}

/// Lane 1 has block 0 and lane 3 block 1, both PRIVATE. Lane 0's load sends lane 1 an
/// UPDATE, lane 2's grant is queued, lane 3's store gives up its line.
#[test]
fn a_store_reached_with_all_six_letters() {
    let mut s = open(4, 1, 4, 2);
    run(&mut s, &[begin(1, Op::Store(5), 0), Call::Serve(1), Call::Deliver(1)]);
    run(&mut s, &[begin(3, Op::Store(6), 1), Call::Serve(3), Call::Deliver(3)]);
    run(&mut s, &[begin(0, Op::Load, 0), Call::Serve(0)]);
    run(&mut s, &[begin(2, Op::Load, 2), Call::Serve(2)]);
    run(&mut s, &[begin(3, Op::Store(8), 2)]);
    // Deliver 1 and 2, return 1, deliver 0, return 3, serve 3, deliver 2, return 2,
    // deliver 3: 1 + 1 + 2 × 1 + 1 + 2 × 1 + 2 × 1.
    assert_eq!(settles(&s, 9, 1), [1, 1, 1, 1, 1]);
    assert_eq!(bound(&s), 1 + 1 + 2 + 1 + 8);
    let given = settle(&s).expect("not refused").1;
    let done: Vec<_> = given.completions.iter().map(|d| (d.lane, d.value, d.place)).collect();
    assert_eq!(done, [(2, 0, 3), (0, 5, 4), (3, 8, 5)]);
}

/// No list leads there: lane 2 has an order that nobody sent, PRESENT has no line.
#[test]
fn a_store_handed_in_with_all_six_letters() {
    let mut s = open(3, 1, 3, 1);
    let waiting = |served, block: u8| {
        let (command, op) = (Command::ReadExclusive, Op::Add(1));
        Some(Waiting { served, command, op, word: 4 * block })
    };
    (0..3).for_each(|k| s.lanes[k].waiting = waiting(k < 2, k as u8));
    let (command, awaited) = (Command::ReadExclusive, 2);
    s.slots[3] = Some(Service { lane: 1, block: 1, command, awaited, bare: false });
    let words = [0; 4];
    s.lanes[0].down.push(Message { kind: DownKind::Grant, block: 0, words });
    s.lanes[2].down.push(Message { kind: DownKind::Purge, block: 1, words });
    s.lanes[0].returns.push(Message { kind: ReturnKind::Gone, block: 1, words });
    s.lanes[2].returns.push(Message { kind: ReturnKind::Eject, block: 0, words });
    s.blocks[2].present = [true, true, false, false, false, false, false, false];
    // Deliver 0 and 2, return 0, 2 and 2, deliver 1, serve 2, deliver 0 and 1, return 0
    // and 1, deliver 2: 2 + 1 + 2 × 1 + 1 + 2 × 1 + 2 × 2.
    assert_eq!(settles(&s, 12, 2), [2, 1, 1, 1, 1]);
}

/// n lanes have the same n blocks, and each writes another: each serve sends n - 1.
#[test]
fn as_many_orders_as_there_can_be() {
    for n in 2..=8 {
        let mut s = open(n, 8, 8, 1);
        for block in 0..n {
            (0..n).for_each(|lane| run(&mut s, &[begin(lane, Op::Load, block)]));
            s = settle(&s).expect("not refused").0;
        }
        (0..n).for_each(|lane| run(&mut s, &[begin(lane, Op::Add(1), lane)]));
        let given = settle(&s).expect("not refused").1;
        assert_eq!(given.orders, (n - 1) * n);
        assert_eq!(u32::from(given.orders), letters(&s).most_orders());
        assert_eq!((given.steps, bound(&s)), (2 * u32::from(n * n), 2 * u32::from(n * n)));
    }
}

/// Random stores that are not corrupt, reached from an opening and not.
fn random(index: u64) -> Store {
    let mut rng = Rng::stream(80, index);
    let mut s = match rng.chance(70) {
        true => stores::reached(&mut rng).0,
        false => scramble::store(&mut rng),
    };
    for _ in 0..rng.below(3) {
        (FAIR[rng.below(FAIR.len())].act)(&mut s, &mut rng);
    }
    s.completed = scramble::completed(&s, &mut rng);
    s
}

/// W8's sentence on one store, under a rule; false where settle is refused.
fn equation_holds(s: &Store, rule: Rule) -> bool {
    let given = match settle_under(s, rule) {
        Ok((_, given)) => given,
        Err(_) => return false,
    };
    let (letters, orders) = (letters(s), u32::from(given.orders));
    let Letters { n, returns, grants, queued, services, unserved } = letters;
    assert_eq!(given.steps, returns + grants + 2 * queued + services + 2 * (unserved + orders));
    assert!(orders <= (n - 1) * unserved && given.steps <= bound(s));
    assert_eq!((letters.steps(orders), letters.bound()), (given.steps, bound(s)));
    // A grant for each operation that waits: all letters are above 0 from n = 3 on.
    assert_eq!(given.completions.len() as u32, grants + services + unserved);
    true
}

#[test]
fn the_equation_holds_on_random_stores() {
    let (mut settled, mut before_w6) = (0, 0);
    for index in 0..24_000 {
        let s = random(index);
        let held = equation_holds(&s, Rule::LoadFillsOldest);
        assert_eq!(equation_holds(&s, Rule::FillsNewest), held);
        settled += usize::from(held);
        before_w6 += usize::from(equation_holds(&s, Rule::BeforeW6));
    }
    assert!(settled > 10_000 && before_w6 > 8_000, "{settled} {before_w6}");
    for s in made(4_000) {
        assert!(equation_holds(&s, Rule::LoadFillsOldest) && equation_holds(&s, Rule::FillsNewest));
    }
}

/// The orders that a step put behind those of before.
fn joined(before: &Store, after: &Store) -> u32 {
    let lanes = before.lanes.iter().zip(&after.lanes).take(usize::from(before.n));
    let behind = |(was, is): (&Lane, &Lane)| {
        let joined = is.down.messages().get(usize::from(was.down.length)..).unwrap_or(&[]);
        joined.iter().filter(|message| message.kind.is_order()).count() as u32
    };
    lanes.map(behind).sum()
}

/// A deliver, return or serve lowers R + G + 2 × Q + S + 2 × U by 1, and raises it by 2
/// for each order that it queues; so each on its own, in settle's order or not.
#[test]
fn each_step_counts_as_1_and_each_order_as_2() {
    let mut seen = [0; 4];
    for index in 0..10_000 {
        let s = if index % 4 == 0 { settle_maker::make(2, index) } else { random(index as u64) };
        let weight = letters(&s).steps(0);
        let steps = [Call::Deliver, Call::Return, Call::Serve];
        let k = (index / 4 % usize::from(s.n)) as u8;
        for (i, step) in steps.into_iter().enumerate() {
            if let Ok((after, _)) = machine::call(&s, step(k)) {
                let orders = joined(&s, &after);
                assert_eq!(letters(&after).steps(0) + 1, weight + 2 * orders, "{:?}", step(k));
                assert!(orders == 0 || i == 2);
                seen[i] += 1;
                seen[3] += usize::from(orders > 0);
            }
        }
    }
    assert!(seen.iter().all(|&count| count > 300), "{seen:?}");
}

/// O is what the serves' bytes of W4 say, which come from 01's sentences alone.
#[test]
fn orders_are_those_of_the_serves_bytes() {
    let mut orders_in_all = 0;
    for s in made(2_000) {
        let given = settle(&s).expect("not refused").1;
        let (mut now, mut orders) = (s.clone(), 0);
        while let Some(step) = next_step(&now) {
            if let Call::Serve(k) = step {
                let byte = serve_byte::byte(&held::encode_store(&now), k).expect("a step");
                orders += byte.count_ones();
            }
            run(&mut now, &[step]);
        }
        assert_eq!(u32::from(given.orders), orders);
        assert_eq!((given.steps, orders), tellers::right(&Log::of(&s)));
        orders_in_all += orders;
    }
    assert!(orders_in_all > 5_000, "{orders_in_all}");
}

/// The right answers with another count and O.
fn told_by(stores: &[Store], right: &[u8], tell: Tell) -> Vec<u8> {
    let mut answers = right.to_vec();
    for (s, given) in stores.iter().zip(answers.chunks_mut(LENGTH)) {
        let (steps, orders) = tell(&Log::of(s));
        given[2..6].copy_from_slice(&steps.to_le_bytes());
        given[ORDERS_AT] = orders as u8;
    }
    answers
}

/// The cases that faults are named of.
fn faulty(stores: &[Store], answers: &[u8]) -> Vec<bool> {
    let one = |(s, given): (&Store, &[u8])| {
        let held = held_to(&[s.clone()], given, Letters::steps);
        held.faults > 0 && exact::of_held(&cases(&[s.clone()]), given).is_err()
    };
    stores.iter().zip(answers.chunks(LENGTH)).map(one).collect()
}

/// Each is told in every settle to which it gives other bytes, and in no other.
#[test]
fn wrong_tellers_are_told() {
    let stores = made(260);
    let right = answers(&stores);
    assert_eq!(told_by(&stores, &right, tellers::right), right);
    for (name, tell) in tellers::WRONG {
        let wrong = told_by(&stores, &right, tell);
        let faulty = faulty(&stores, &wrong);
        let others = right.chunks(LENGTH).zip(wrong.chunks(LENGTH)).map(|(a, b)| a != b);
        assert_eq!(faulty, others.collect::<Vec<_>>(), "{name}");
        let told = faulty.iter().filter(|told| **told).count();
        assert!(told >= 60, "{name}: {told}");
        let found = held::differences(&cases(&stores), &wrong, 1).expect("well formed");
        let part = if name.starts_with('O') { "answer byte 7 (O)" } else { "answer byte 2" };
        assert!(found[0].contains(part), "{name}: {found:?}");
    }
}

/// The right answers do not hold to another equation.
#[test]
fn wrong_equations_are_told() {
    let stores = made(400);
    let answers = answers(&stores);
    assert_eq!(held_to(&stores, &answers, Letters::steps).faults, 0);
    let wrong: [(&str, Equation); 9] = [
        ("2 × n × U", |l, o| l.steps(o) + 2 * (l.n - 1) * l.unserved),
        ("2 × n × U without O", |l, _| l.bound()),
        ("U once", |l, o| l.steps(o) - l.unserved),
        ("O once", |l, o| l.steps(o) - o),
        ("without O", |l, _| l.steps(0)),
        ("Q once", |l, o| l.steps(o) - l.queued),
        ("without S", |l, o| l.steps(o) - l.services),
        ("without G", |l, o| l.steps(o) - l.grants),
        ("without R", |l, o| l.steps(o) - l.returns),
    ];
    for (name, equation) in wrong {
        let held = held_to(&stores, &answers, equation);
        assert!(held.faults >= 50 && held.settles == 400, "{name}: {}", held.faults);
        assert_eq!(held.named.len(), 20);
    }
}

/// One order more, in the count and in O: the equation holds, and only (n - 1) × U or
/// the comparison tells it.
#[test]
fn an_order_more_in_both_is_told_by_the_most_or_the_comparison() {
    let stores = made(260);
    let more: Tell = |log| (log.steps.len() as u32 + 2, log.orders() + 1);
    let wrong = told_by(&stores, &answers(&stores), more);
    let faulty = faulty(&stores, &wrong);
    for (s, faulty) in stores.iter().zip(&faulty) {
        let log = Log::of(s);
        assert_eq!(*faulty, log.orders() == log.letters.most_orders());
    }
    assert!(faulty.contains(&true) && faulty.contains(&false));
    let found = held::differences(&cases(&stores), &wrong, 1_000).expect("well formed");
    assert_eq!(found.len(), stores.len());
}

/// The faults of one settle answered with other bytes.
fn faults_with(s: &Store, change: impl Fn(&mut [u8])) -> Vec<String> {
    let stores = [s.clone()];
    let mut answers = answers(&stores);
    change(&mut answers);
    held_to(&stores, &answers, Letters::steps).named
}

/// Each demand can fail; a store without letters is a fault too.
#[test]
fn each_demand_can_fail() {
    let mut s = open(2, 1, 1, 1);
    run(&mut s, &[begin(0, Op::Store(7), 0), begin(1, Op::Store(9), 0)]);
    let has = |faults: Vec<String>, texts: &[&str]| {
        assert_eq!(faults.len(), texts.len(), "{faults:?}");
        faults.iter().zip(texts).for_each(|(f, text)| assert!(f.contains(text), "{faults:?}"));
    };
    has(faults_with(&s, |_| {}), &[]);
    has(faults_with(&s, |given| given[2] = 7), &["7 steps with O 1, not 6"]);
    has(faults_with(&s, |given| given[5] = 1), &["with O 1, not 6", "more than the bound 8"]);
    has(faults_with(&s, |given| given[7] = 0), &["6 steps with O 0, not 4"]);
    let both = |given: &mut [u8]| (given[2], given[7]) = (10, 3);
    has(faults_with(&s, both), &["O 3, more than 2", "10 steps, more than the bound 8"]);
    has(faults_with(&s, |given| given[LENGTH - 2] = 9), &["bound 9, not 8"]);
    has(faults_with(&s, |given| given[LENGTH - 1] = 1), &["bound 264, not 8"]);
    let refused = |given: &mut [u8]| (given[0], given[1]) = (4, 16);
    has(faults_with(&s, refused), &["O 1 in an answer that is not settled"]);
    s.lanes[1].down.length = 9;
    has(faults_with(&s, |_| {}), &[]);
    has(faults_with(&s, |given| given[0] = 6), &["settled with a queue of 9"]);
    for n in [0, 1, 9, 255] {
        s.n = n;
        has(faults_with(&s, |given| given[0] = 6), &[&format!("settled with n {n}")]);
    }
}

/// Byte 7 is 0 in what is given for any other call, and for a refused settle.
#[test]
fn orders_elsewhere_are_told() {
    let made: Vec<_> = (0..300).map(|index| stores::make(1, index)).collect();
    let input: Vec<u8> = made.iter().flat_map(|c| held::encode_case(&c.store, c.call)).collect();
    let answers = held::answers(&input).expect("well formed");
    let held = exact::of_held(&input, &answers).expect("exact");
    assert!(held.settles > 0);
    let (mut at, mut wrong, mut others) = (0, answers.clone(), 0);
    for case in &made {
        if answers[at] != held::SETTLED_TAG {
            assert_eq!(answers[at + ORDERS_AT], 0);
            (wrong[at + ORDERS_AT], others) = (1, others + 1);
        }
        at += held::given_length(case.call);
    }
    let told = exact::hold_held(&input, &wrong, Letters::steps).expect("all bytes are there");
    assert_eq!((told.faults, told.named.len()), (others, 20));
    assert!(exact::of_held(&input, &answers[..answers.len() - 1]).is_err());
    assert!(exact::of_held(&input, &[&answers[..], &[0]].concat()).is_err());
    assert!(exact::of_held(&input[..input.len() - 1], &answers).is_err());
}

/// Made lists hold; each byte of O that is another is told, and another store shown.
#[test]
fn lists_are_held_to_the_equation() {
    let records: Vec<Record> = (0..56).flat_map(|index| list_maker::make(3, index)).collect();
    let input = bytes(&records);
    let answers = lists::answers(&input).expect("well formed");
    let held = exact::of_lists(&input, &answers).expect("exact");
    assert!(held.settles > 300 && held.with_orders > 100 && held.with_all > 0, "{held:?}");
    let (mut at, mut wrong, mut settles) = (0, answers.clone(), 0);
    for record in &records {
        if *record == SETTLE && answers[at] == held::SETTLED_TAG {
            (wrong[at + ORDERS_AT], settles) = (answers[at + ORDERS_AT] ^ 1, settles + 1);
        }
        at += record.answer_length();
    }
    let told = exact::hold_lists(&input, &wrong, Letters::steps).expect("all bytes are there");
    assert!(told.faults >= settles && settles == held.settles, "{} {settles}", told.faults);
    let last = exact::hold_lists(&input, &answers[..at - 1], Letters::steps);
    assert!(last.is_err() && exact::of_lists(&input, &[&answers[..], &[0]].concat()).is_err());
    // The last record shows the store.
    let mut shown = answers.clone();
    shown[at - 1] ^= 1;
    let text = exact::of_lists(&input, &shown).expect_err("another store");
    assert!(text.contains("the store shown is another"), "{text}");
}

/// The judge of demand 3 knows no store, but an order takes two steps. Before an
/// opening there is nothing to settle.
#[test]
fn lists_that_tell_too_many_orders() {
    let input = two_stores();
    let told = |orders| {
        let mut answers = lists::answers(&input).expect("well formed");
        answers[36 + ORDERS_AT] = orders;
        let judged = judge::judge(&lists::read(&input, &answers).expect("well formed"));
        (judged.is_ok(), exact::of_lists(&input, &answers).is_ok())
    };
    assert_eq!(
        [0, 1, 2, 3].map(told),
        [(true, false), (true, true), (true, false), (false, false)]
    );
    let mut answers = lists::answers(&bytes(&[SETTLE])).expect("well formed");
    assert!(exact::of_lists(&bytes(&[SETTLE]), &answers).is_ok());
    (answers[0], answers[1]) = (6, 0);
    assert!(exact::of_lists(&bytes(&[SETTLE]), &answers).is_err());
    answers[0] = 4;
    answers[ORDERS_AT] = 1;
    assert!(lists::read(&bytes(&[SETTLE]), &answers).is_err());
    assert!(exact::of_lists(&bytes(&[SETTLE]), &answers).is_err());
}

/// A difference in O has its name, in held cases and in lists.
#[test]
fn differences_in_orders_are_named() {
    let input = two_stores();
    let mut answers = lists::answers(&input).expect("well formed");
    answers[36 + ORDERS_AT] = 2;
    let found = lists::differences(&input, &answers, 9).expect("well formed");
    assert!(found.len() == 1 && found[0].ends_with("Call(Settle): answer byte 7 (O)"), "{found:?}");
}

/// Any 400 made settles meet all, and tell all wrong tellers; each its role at least.
#[test]
fn made_settles_meet_all() {
    for seed in 1..=3 {
        let mut met = Settles::default();
        for index in 0..400 {
            let s = settle_maker::make(seed, index);
            let (log, given) = (Log::of(&s), held::run(&s, HeldCall::Settle));
            assert!(SETTLES[index % settle_maker::ROLES].1(&log));
            met.add(&s, &given.answer);
        }
        assert!(met.never_met().is_empty(), "{:?}", met.never_met());
        assert!(met.met.values().chain(met.told.values()).all(|&count| count >= 30));
        assert!(met.highest > 28, "{}", met.highest);
    }
    assert!(settle_maker::make(9, 5) == settle_maker::make(9, 5));
}

//! W3: a line filled for a load goes in as the oldest of the use order, and that
//! completion is no use. All else is as under document 01's rule.

use reference::held::{self, HeldAnswer, HeldCall};
use reference::machine;
use reference::order_maker;
use reference::orders::{self, Completing};
use reference::parts::*;
use reference::rng::Rng;
use reference::settle;
use reference::tape;
use reference::walk::{self, Style};
use reference::{scramble, stores, tapes};

const RULES: [Rule; 2] = [Rule::LoadFillsOldest, Rule::FillsNewest];

const WRITES: [Op; 3] = [Op::Store(1), Op::Exchange(2), Op::Add(3)];

/// The block that comes to lane 1.
const BLOCK: u8 = 9;

/// Lane 1 has a use order and these lines valid, each of the block of its number;
/// the places past c are 9.
fn store(order: &[u8], valid: &[u8]) -> Store {
    let mut s = Store::fresh(2, order.len() as u8, 10);
    s.lanes[1].order = [9; LINES];
    s.lanes[1].order[..order.len()].copy_from_slice(order);
    for &i in valid {
        s.lanes[1].lines[usize::from(i)] =
            Line { valid: true, private: true, block: i, words: [1, 2, 3, 4] };
    }
    s
}

/// The same with a grant on its way for an operation on the block.
fn granted(order: &[u8], valid: &[u8], kind: DownKind, op: Op, block: u8) -> Store {
    let mut s = store(order, valid);
    let (command, word) = (Command::ReadShared, 4 * block);
    s.lanes[1].waiting = Some(Waiting { served: true, command, op, word });
    s.lanes[1].down.length = 1;
    s.lanes[1].down.places[0] = Message { kind, block, words: [0; 4] };
    s
}

/// Lane 1's use order after the call, which completes; past c it is as before.
/// The call changes that order and nothing else in another way under the rules.
fn orders_after(s: &Store, call: Call) -> [Vec<u8>; 2] {
    let c = usize::from(s.c);
    let [now, mut former] = RULES.map(|rule| {
        let (after, answer) = machine::call_under(s, call, rule).expect("not refused");
        assert!(matches!(answer, Answer::Done(Completion { lane: 1, .. })));
        assert!(!machine::corrupt(&after));
        assert_eq!(after.lanes[1].order[c..], s.lanes[1].order[c..]);
        after
    });
    let given = [&now, &former].map(|after| after.lanes[1].order[..c].to_vec());
    former.lanes[1].order = now.lanes[1].order;
    assert_eq!(now, former);
    assert_eq!(machine::call(s, call), Ok((now, machine::call(s, call).expect("done").1)));
    given
}

/// The use order after, under W3's rule and under 01's.
fn moves(s: &Store, call: Call, want: [&[u8]; 2]) {
    assert_eq!(orders_after(s, call), want.map(<[u8]>::to_vec), "{:?}", s.lanes[1].order);
}

fn fills(order: &[u8], valid: &[u8], op: Op, want: [&[u8]; 2]) {
    moves(&granted(order, valid, DownKind::Grant, op, BLOCK), Call::Deliver(1), want);
}

/// Three lines, then more: the line filled in the first, a middle and the last
/// place.
#[test]
fn a_loads_fill_goes_in_as_oldest() {
    fills(&[0], &[], Op::Load, [&[0], &[0]]);
    fills(&[0, 1], &[1], Op::Load, [&[0, 1], &[1, 0]]);
    fills(&[1, 0], &[1], Op::Load, [&[0, 1], &[1, 0]]);
    fills(&[2, 0, 1], &[0, 1], Op::Load, [&[2, 0, 1], &[0, 1, 2]]);
    fills(&[2, 0, 1], &[1, 2], Op::Load, [&[0, 2, 1], &[2, 1, 0]]);
    fills(&[2, 0, 1], &[0, 2], Op::Load, [&[1, 2, 0], &[2, 0, 1]]);
    fills(&[3, 1, 0, 2], &[1, 2, 3], Op::Load, [&[0, 3, 1, 2], &[3, 1, 2, 0]]);
    let order = [6, 3, 0, 7, 2, 5, 1, 4];
    fills(&order, &[0, 1, 2, 3, 5, 6, 7], Op::Load, [&[4, 6, 3, 0, 7, 2, 5, 1], &order]);
    fills(
        &order,
        &[0, 1, 2, 3, 4, 5, 6],
        Op::Load,
        [&[7, 6, 3, 0, 2, 5, 1, 4], &[6, 3, 0, 2, 5, 1, 4, 7]],
    );
    fills(&order, &[0, 1, 2, 3, 4, 5, 7], Op::Load, [&order, &[3, 0, 7, 2, 5, 1, 4, 6]]);
}

/// The others, in their order, before or behind the line.
fn around(order: &[u8], line: u8) -> [Vec<u8>; 2] {
    let others: Vec<u8> = order.iter().copied().filter(|&name| name != line).collect();
    [[&[line][..], &others].concat(), [&others[..], &[line]].concat()]
}

/// Each c, each line and so each place of random orders, all other lines valid.
#[test]
fn each_c_and_place() {
    let mut rng = Rng::new(8);
    for c in 1..=8 {
        for _ in 0..if c < 6 { 600 } else { 60 } {
            let mut order: Vec<u8> = (0..c).collect();
            scramble::permute(&mut order, &mut rng);
            for line in 0..c {
                let [oldest, newest] = around(&order, line);
                let others: Vec<u8> = (0..c).filter(|&i| i != line).collect();
                fills(&order, &others, Op::Load, [&oldest, &newest]);
                WRITES.iter().for_each(|&op| fills(&order, &others, op, [&newest, &newest]));
            }
        }
    }
}

/// Lines not valid count in the order; the lowest-numbered of them is filled,
/// wherever it stands.
#[test]
fn lines_not_valid_keep_their_places() {
    for valid in [&[1][..], &[1, 2], &[1, 3], &[1, 2, 3]] {
        fills(&[3, 1, 0, 2], valid, Op::Load, [&[0, 3, 1, 2], &[3, 1, 2, 0]]);
    }
    fills(&[3, 1, 0, 2], &[0], Op::Load, [&[1, 3, 0, 2], &[3, 0, 2, 1]]);
    fills(&[3, 1, 0, 2], &[0, 1], Op::Load, [&[2, 3, 1, 0], &[3, 1, 0, 2]]);
    fills(&[3, 1, 0, 2], &[], Op::Load, [&[0, 3, 1, 2], &[3, 1, 2, 0]]);
    // From an opening: one load after another.
    for (rule, want) in RULES.into_iter().zip([[2, 1, 0, 3], [3, 0, 1, 2]]) {
        let mut s = machine::open(2, 4, 10).expect("in range");
        (0..3).for_each(|block| complete(&mut s, rule, Op::Load, block));
        assert_eq!(s.lanes[1].order[..4], want);
    }
}

#[test]
fn other_fills_are_a_use() {
    for op in WRITES {
        fills(&[0], &[], op, [&[0]; 2]);
        fills(&[2, 0, 1], &[0, 1], op, [&[0, 1, 2]; 2]);
        fills(&[2, 0, 1], &[1, 2], op, [&[2, 1, 0]; 2]);
        fills(&[2, 0, 1], &[0, 2], op, [&[2, 0, 1]; 2]);
        fills(&[3, 1, 0, 2], &[1], op, [&[3, 1, 2, 0]; 2]);
    }
}

/// A bare grant fills nothing, so it is a use of the held line, a load's too.
#[test]
fn a_bare_grant_is_a_use() {
    for op in [Op::Load, Op::Store(1), Op::Exchange(2), Op::Add(3)] {
        for (order, block, want) in [
            ([0, 1, 2], 0, [1, 2, 0]),
            ([0, 1, 2], 1, [0, 2, 1]),
            ([0, 1, 2], 2, [0, 1, 2]),
            ([2, 0, 1], 0, [2, 1, 0]),
        ] {
            let s = granted(&order, &[0, 1, 2], DownKind::BareGrant, op, block);
            moves(&s, Call::Deliver(1), [&want; 2]);
            // Whether the other lines are valid or not.
            let s = granted(&order, &[block], DownKind::BareGrant, op, block);
            moves(&s, Call::Deliver(1), [&want; 2]);
        }
    }
}

#[test]
fn a_hit_is_a_use() {
    for op in [Op::Load, Op::Store(1), Op::Exchange(2), Op::Add(3)] {
        for (block, want) in [(2, [0, 1, 2]), (0, [2, 1, 0]), (1, [2, 0, 1])] {
            let begin = Call::Begin { lane: 1, op, word: 4 * block };
            moves(&store(&[2, 0, 1], &[0, 1, 2]), begin, [&want; 2]);
            moves(&store(&[2, 0, 1], &[block]), begin, [&want; 2]);
        }
    }
    // A load's with PRIVATE reset too.
    let mut s = store(&[2, 0, 1], &[0, 1, 2]);
    s.lanes[1].lines[2].private = false;
    moves(&s, Call::Begin { lane: 1, op: Op::Load, word: 8 }, [&[0, 1, 2]; 2]);
}

/// Past c any number may stand, those of lines too.
#[test]
fn places_past_c_stay() {
    for op in [Op::Load, Op::Store(1)] {
        let mut s = granted(&[1, 2, 0], &[1, 2], DownKind::Grant, op, BLOCK);
        s.lanes[1].order[3..].copy_from_slice(&[0, 0, 255, 1, 0]);
        let want: [&[u8]; 2] =
            if op == Op::Load { [&[0, 1, 2], &[1, 2, 0]] } else { [&[1, 2, 0]; 2] };
        moves(&s, Call::Deliver(1), want);
        let mut s = granted(&[0], &[], DownKind::Grant, op, BLOCK);
        s.lanes[1].order[1..].copy_from_slice(&[0, 1, 0, 1, 0, 1, 0]);
        moves(&s, Call::Deliver(1), [&[0]; 2]);
    }
}

/// UPDATE, PURGE and giving up a line are no use.
#[test]
fn orders_and_evictions_are_no_use() {
    for kind in [DownKind::Update, DownKind::Purge] {
        let mut s = granted(&[2, 0, 1], &[0, 1, 2], kind, Op::Load, 0);
        s.lanes[1].waiting = None;
        let after = machine::call(&s, Call::Deliver(1)).expect("not refused").0;
        assert_eq!(after.lanes[1].order, s.lanes[1].order);
    }
    let s = store(&[2, 0, 1], &[0, 1, 2]);
    let begin = Call::Begin { lane: 1, op: Op::Load, word: 4 * BLOCK };
    let after = machine::call(&s, begin).expect("not refused").0;
    assert_eq!(after.lanes[1].order, s.lanes[1].order);
    assert!(!after.lanes[1].lines[2].valid);
}

/// Lane 1 does an operation on a block, and the store is quiet again.
fn complete(s: &mut Store, rule: Rule, op: Op, block: u8) {
    let begin = Call::Begin { lane: 1, op, word: 4 * block };
    let begun = machine::call_under(s, begin, rule).expect("not refused").0;
    *s = settle::settle_under(&begun, rule).expect("not refused").0;
    assert!(held_block(s, block));
}

fn held_block(s: &Store, block: u8) -> bool {
    machine::search(&s.lanes[1], s.c, block).is_some()
}

/// A load's fill becomes newest when an operation next completes on it: a load's
/// hit, or a bare grant. What another lane does with the block is no use.
#[test]
fn the_next_completion_makes_it_newest() {
    let rule = Rule::LoadFillsOldest;
    for op in [Op::Load, Op::Store(1), Op::Exchange(2), Op::Add(3)] {
        let mut s = machine::open(2, 3, 10).expect("in range");
        complete(&mut s, rule, Op::Add(1), 0);
        complete(&mut s, rule, Op::Add(1), 1);
        complete(&mut s, rule, Op::Load, 2);
        assert_eq!(s.lanes[1].order[..3], [2, 0, 1]);
        let load = Call::Begin { lane: 0, op: Op::Load, word: 8 };
        s = settle::settle(&machine::call(&s, load).expect("not refused").0).expect("settles").0;
        assert_eq!(s.lanes[1].order[..3], [2, 0, 1]);
        complete(&mut s, rule, op, 2);
        assert_eq!(s.lanes[1].order[..3], [0, 1, 2]);
    }
}

/// A lane uses two calibration blocks, then loads every other block once. Which
/// of the two it holds then.
fn swept(rule: Rule, c: u8, m: u8, blocks: [u8; 2], uses: &[Op]) -> [bool; 2] {
    let mut s = machine::open(2, c, m).expect("in range");
    for block in blocks {
        uses.iter().for_each(|&op| complete(&mut s, rule, op, block));
    }
    let others = (0..m).filter(|block| !blocks.contains(block));
    others.for_each(|block| complete(&mut s, rule, Op::Load, block));
    blocks.map(|block| held_block(&s, block))
}

#[test]
fn a_stock_count_leaves_the_calibration_blocks() {
    for (c, m) in (1..=8).flat_map(|c| [c + 2, c + 3, 20, 64].map(|m| (c, m))) {
        for blocks in [[0, 1], [m - 1, 0], [m / 2, m - 1]] {
            let uses: [&[Op]; 5] = [
                &[Op::Store(7)],
                &[Op::Exchange(7)],
                &[Op::Add(7)],
                &[Op::Load, Op::Load],
                &[Op::Load, Op::Add(7), Op::Load],
            ];
            for used in uses {
                // The newer one stays in two lines, none in one.
                let want = [c >= 3, c >= 2];
                let now = swept(Rule::LoadFillsOldest, c, m, blocks, used);
                assert_eq!(now, want, "{c} {m} {blocks:?} {used:?}");
                let former = swept(Rule::FillsNewest, c, m, blocks, used);
                assert_eq!(former, [false; 2], "{c} {m} {blocks:?} {used:?}");
            }
        }
    }
}

/// All blocks loaded once, from an opening: a load's fill is the next to be given
/// up, so the last takes the line of the one before it and the first stay. Under
/// 01's rule the last stay.
#[test]
fn loads_fills_push_each_other_out() {
    for (c, m) in (1..=8).flat_map(|c| (c..=20).map(move |m| (c, m))) {
        for rule in RULES {
            let mut s = machine::open(2, c, m).expect("in range");
            (0..m).for_each(|block| complete(&mut s, rule, Op::Load, block));
            let held: Vec<u8> = (0..m).filter(|&block| held_block(&s, block)).collect();
            let want: Vec<u8> = match rule {
                Rule::LoadFillsOldest => (0..c - 1).chain([m - 1]).collect(),
                _ => (m - c..m).collect(),
            };
            assert_eq!(held, want);
        }
    }
}

/// All made cases: the rules give the same answers, and stores that differ in the
/// use orders of lanes that a load's fill came to, if at all.
#[test]
fn the_rules_differ_in_the_order_after_loads_fills_alone() {
    let (mut same, mut other) = (0, 0);
    for index in 0..20_000 {
        let case = stores::make(8, index);
        let [now, mut former] = RULES.map(|rule| held::run_under(&case.store, case.call, rule));
        assert!(now.answer == former.answer && now.after == former.after, "case {index}");
        match now.store == former.store {
            true => same += 1,
            false => other += 1,
        }
        let filled = |k: usize| {
            let loads = case.store.lanes[k].waiting.map_or(false, |w| w.op.is_load());
            loads && now.store.lanes[k].waiting.is_none()
        };
        for k in (0..LANES).filter(|&k| filled(k)) {
            former.store.lanes[k].order = now.store.lanes[k].order;
        }
        assert!(now.store == former.store, "case {index}");
    }
    assert!(same > 15_000 && other > 350, "{same} {other}");
}

/// The machine gives W3's order to every completion, and 01's under 01's rule.
#[test]
fn right_orders_are_the_machines() {
    let (mut rng, mut seen) = (Rng::new(9), 0);
    for index in 0..20_000 {
        let case = stores::make(9, index);
        let from = [(case.store, case.call), order_maker::make(&mut rng)];
        for (s, call) in from {
            let (call, c) = match call {
                HeldCall::Machine(call) => (call, usize::from(s.c)),
                _ => continue,
            };
            let it = match Completing::of(&s, call) {
                Some(it) => it,
                None => continue,
            };
            let k = usize::from(call.lane());
            let [now, former] = RULES
                .map(|rule| machine::call_under(&s, call, rule).expect("done").0.lanes[k].order);
            assert_eq!(orders::RIGHT(&it), now[..c]);
            let newest = orders::WRONG[0].2(&it);
            assert_eq!(newest, former[..c]);
            seen += 1;
        }
    }
    assert!(seen > 15_000, "{seen}");
}

/// A settle with the first wrong order is one under 01's rule.
#[test]
fn a_settle_with_loads_fills_newest_is_01s() {
    let mut differ = 0;
    for index in 0..20_000 {
        let case = stores::make(10, index);
        if case.call != HeldCall::Settle {
            continue;
        }
        if let Ok((former, _)) = settle::settle_under(&case.store, Rule::FillsNewest) {
            assert!(orders::settled_with(&case.store, &orders::WRONG[0]) == former);
            let now = settle::settle(&case.store).expect("not refused").0;
            let hits = orders::WRONG[orders::FOR_GRANTS..].iter();
            assert!(hits.clone().all(|wrong| orders::settled_with(&case.store, wrong) == now));
            differ += usize::from(now != former);
        }
    }
    assert!(differ > 100, "{differ}");
}

/// What is made for the use order is not refused, and each kind is made. Most of
/// the settles tell all wrong orders for grants at once.
#[test]
fn cases_for_the_order_are_not_refused() {
    let (mut rng, mut kinds, mut tell_all) = (Rng::new(11), [0; 3], 0);
    for _ in 0..5_000 {
        let (s, call) = order_maker::make(&mut rng);
        let answer = held::run(&s, call).answer;
        let kind = match &answer {
            HeldAnswer::Machine(Answer::Done(_)) if call.kind() == 7 => 0,
            HeldAnswer::Machine(Answer::Done(_)) => 1,
            HeldAnswer::Settled(given) => {
                assert_eq!(given.completions.len(), usize::from(s.n));
                2
            }
            _ => panic!("{call:?} {answer:?}"),
        };
        kinds[kind] += 1;
        let told = orders::told(&s, call, &answer);
        let all = orders::NAMES[..orders::FOR_GRANTS].iter().all(|name| told.contains(name));
        tell_all += usize::from(all);
    }
    assert!(kinds.iter().all(|&count| count > 400), "{kinds:?}");
    assert!(tell_all > kinds[2] / 2, "{tell_all} of {kinds:?}");
}

/// The names that a call meets, in short.
fn names(s: &Store, call: Call) -> Vec<usize> {
    let call = HeldCall::Machine(call);
    let met = orders::met(s, call, &held::run(s, call).answer);
    met.iter().map(|name| orders::NAMES.iter().position(|n| n == name).expect("a name")).collect()
}

#[test]
fn names_that_fills_meet() {
    let filling = |order: &[u8], valid: &[u8], op| {
        names(&granted(order, valid, DownKind::Grant, op, BLOCK), Call::Deliver(1))
    };
    // One line has no order; in the first place it stays; in the second it
    // changes places with the first; from the third on the others move up.
    assert_eq!(filling(&[0], &[], Op::Load), [0; 0]);
    assert_eq!(filling(&[0, 1], &[1], Op::Load), [0, 1]);
    assert_eq!(filling(&[1, 0], &[1], Op::Load), [0, 1, 2]);
    assert_eq!(filling(&[1, 0, 2], &[1, 2], Op::Load), [0, 1, 2]);
    assert_eq!(filling(&[1, 2, 0], &[1, 2], Op::Load), [0, 1, 2, 3]);
    // The oldest of the others is not valid.
    assert_eq!(filling(&[2, 0, 1], &[1], Op::Load), [0, 1, 2, 4]);
    assert_eq!(filling(&[0, 2, 1], &[1], Op::Load), [0, 1, 4]);
    assert_eq!(filling(&[1, 2, 0], &[], Op::Load), [0, 1, 2, 3, 4]);
    for op in WRITES {
        assert_eq!(filling(&[0], &[], op), [0; 0]);
        assert_eq!(filling(&[1, 2, 0], &[1, 2], op), [5]);
        assert_eq!(filling(&[0, 2, 1], &[1, 2], op), [5]);
    }
}

#[test]
fn names_that_bare_grants_and_hits_meet() {
    let all = [0, 1, 2];
    for (op, name) in [(Op::Load, 6), (Op::Store(1), 7), (Op::Exchange(1), 7), (Op::Add(1), 7)] {
        for order in [[0, 1, 2], [1, 2, 0], [1, 0, 2]] {
            let s = granted(&order, &all, DownKind::BareGrant, op, 0);
            assert_eq!(names(&s, Call::Deliver(1)), [name]);
        }
        assert_eq!(names(&granted(&[0], &[0], DownKind::BareGrant, op, 0), Call::Deliver(1)), []);
    }
    let hit = |order: &[u8], op| {
        names(&store(order, &(0..order.len() as u8).collect::<Vec<_>>()), begin(op))
    };
    assert_eq!(hit(&[0, 1, 2], Op::Load), [8, 9]);
    assert_eq!(hit(&[1, 2, 0], Op::Load), [9]);
    assert_eq!(hit(&[0], Op::Load), []);
    for op in WRITES {
        assert_eq!(hit(&[1, 0, 2], op), [10]);
        assert_eq!(hit(&[1, 2, 0], op), []);
    }
}

fn begin(op: Op) -> Call {
    Call::Begin { lane: 1, op, word: 0 }
}

/// Calls that complete nothing, or are refused, meet no name.
#[test]
fn only_completions_meet_names() {
    let mut s = granted(&[1, 2, 0], &[], DownKind::Grant, Op::Load, BLOCK);
    assert!(!names(&s, Call::Deliver(1)).is_empty());
    assert_eq!(names(&s, begin(Op::Load)), []);
    assert_eq!(names(&s, Call::Serve(1)), []);
    assert_eq!(names(&s, Call::Deliver(0)), []);
    let settle =
        |s: &Store| orders::met(s, HeldCall::Settle, &held::run(s, HeldCall::Settle).answer);
    assert_eq!(settle(&s), orders::NAMES[11..12]);
    s.lanes[0].waiting = s.lanes[1].waiting;
    assert_eq!(held::run(&s, HeldCall::Settle).answer, HeldAnswer::Refused(16));
    assert_eq!(settle(&s), [""; 0]);
    s.lanes[1].waiting = None;
    assert_eq!(names(&s, Call::Deliver(1)), []);
    s.lanes[1].down.length = 0;
    assert_eq!(names(&s, begin(Op::Load)), []);
}

/// Made stores are reached under 01's rule. Under W3's the same calls reach them,
/// with each load's fill loaded once more, but for the completions so far.
#[test]
fn what_01s_rule_reaches_w3s_does_too() {
    let (mut calls, mut again) = (0, 0);
    for index in 0..300 {
        let mut rng = Rng::stream(12, index);
        let (n, c, m) = (rng.between(2, 8), rng.between(1, 8), rng.between(1, 64));
        let mut former = machine::open(n as u8, c as u8, m as u8).expect("in range");
        let mut now = former.clone();
        let style = Style::random(&former, &mut rng);
        for _ in 0..rng.between(50, 300) {
            let call = walk::next_call(&former, &style, &mut rng);
            let filled = Completing::of(&now, call).map_or(false, |it| it.is_loads_fill());
            let waited = former.lanes.get(usize::from(call.lane())).and_then(|lane| lane.waiting);
            if let Ok((after, _)) = machine::call_under(&former, call, Rule::FillsNewest) {
                former = after;
                now = machine::call(&now, call).expect("not refused either").0;
                calls += 1;
            }
            if let (true, Some(waiting)) = (filled, waited) {
                let load = Call::Begin { lane: call.lane(), op: Op::Load, word: waiting.word };
                now = machine::call(&now, load).expect("a hit").0;
                again += 1;
            }
            assert!(Store { completed: former.completed, ..now.clone() } == former);
        }
    }
    assert!(calls > 20_000 && again > 2_000, "{calls} {again}");
}

/// Lane 0 stores to block 0, loads block 1 and then block 2. Under 01's rule it
/// gives up block 0, under W3's block 1, and a load of block 0 is a hit.
#[test]
fn tapes_before_w3() {
    let tape = [
        0, 2, 2, 3, // open
        2, 0, 0, 7, 0, 0, 0, 5, 0, 7, 0, // store to word 0, serve, deliver
        1, 0, 4, 5, 0, 7, 0, // load of word 4, serve, deliver
        1, 0, 8, 6, 0, 5, 0, 7, 0, // load of word 8, return, serve, deliver
        1, 0, 0, // load of word 0
        1, 0, 4, // load of word 4
    ];
    let start = "0 open\n1 wait\n2 step\n3 done 0 7 1\n4 wait\n5 step\n6 done 0 0 2\n\
                 7 wait\n8 step\n9 step\n10 done 0 0 3\n";
    let now = start.to_string() + "11 done 0 7 4\n12 wait\nend 13\n";
    let former = start.to_string() + "11 wait\n12 refused 8\nend 13\n";
    assert_eq!(tape::print(&tape), now);
    assert_eq!(tape::print_under(&tape, Rule::LoadFillsOldest), now);
    assert_eq!(tape::print_under(&tape, Rule::FillsNewest), former);
    assert_eq!(tape::print_under(&[0; 65_537], Rule::FillsNewest), "refused 13\n");
    assert_eq!(tape::print_under(&[], Rule::FillsNewest), "end 0\n");
}

/// Made tapes print other lines before W3, often; document 01's own does not.
#[test]
fn many_tapes_tell_the_rules_apart() {
    let other = |tape: &[u8]| tape::print(tape) != tape::print_under(tape, Rule::FillsNewest);
    assert!(!other(&tape::SAMPLE_TAPE));
    let count = (0..tapes::CYCLE).filter(|&index| other(&tapes::make(1, index))).count();
    assert!(count >= 100, "{count}");
}

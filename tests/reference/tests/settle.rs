//! Settle: document 01's case, each refusal, the order of the completions,
//! and the bound on the steps over random stores.

use reference::damage::FAIR;
use reference::held::{self, HeldCall};
use reference::machine;
use reference::parts::*;
use reference::rng::Rng;
use reference::settle::{bound, next_step, settle, settle_under, Settled};
use reference::{scramble, stores};

fn open(n: u8, c: u8, m: u8) -> Store {
    machine::open(n, c, m).expect("shape in range")
}

fn begin(s: &mut Store, lane: u8, op: Op, word: u8) {
    let (after, answer) = machine::call(s, Call::Begin { lane, op, word }).expect("not refused");
    assert_eq!(answer, Answer::Wait);
    *s = after;
}

fn run(s: &mut Store, calls: &[Call]) {
    for &call in calls {
        *s = machine::call(s, call).expect("not refused").0;
    }
}

/// Settle takes these steps, sends these orders and completes these lanes with these
/// values, in the next places; the store after.
fn settles(s: &Store, steps: u32, orders: u8, lanes: &[(u8, u32)]) -> Store {
    let (after, given) = settle(s).expect("not refused");
    let in_places = lanes.iter().zip(s.completed + 1..);
    let completions =
        in_places.map(|(&(lane, value), place)| Completion { lane, value, place }).collect();
    assert_eq!(given, Settled { steps, orders, completions });
    assert!(after.quiet());
    assert_eq!(after.completed, s.completed + lanes.len() as u32);
    after
}

fn message<K>(kind: K, block: u8) -> Message<K> {
    Message { kind, block, words: [0; 4] }
}

fn queue<K: Copy>(length: u8, kind: K, block: u8) -> Queue<K> {
    Queue { length, places: [message(kind, block); PLACES] }
}

fn waiting(served: bool, op: Op, word: u8) -> Option<Waiting> {
    Some(Waiting { served, command: Command::ReadExclusive, op, word })
}

fn service(lane: u8, block: u8, awaited: u8) -> Option<Service> {
    Some(Service { lane, block, command: Command::ReadExclusive, awaited, bare: false })
}

#[test]
fn two_lanes_store_to_one_word() {
    let mut s = open(2, 1, 1);
    begin(&mut s, 0, Op::Store(7), 0);
    begin(&mut s, 1, Op::Store(9), 0);
    let after = settles(&s, 6, 1, &[(0, 7), (1, 9)]);
    assert!(!after.lanes[0].lines[0].valid);
    assert_eq!(after.lanes[1].lines[0].words, [9, 0, 0, 0]);
    assert_eq!(after.blocks[0].words, [7, 0, 0, 0]);
}

#[test]
fn a_quiet_store_takes_no_step() {
    for (n, c, m) in [(2, 1, 1), (8, 8, 64)] {
        let s = open(n, c, m);
        assert_eq!(settles(&s, 0, 0, &[]), s);
    }
    let mut s = open(3, 2, 2);
    begin(&mut s, 2, Op::Add(5), 6);
    let after = settles(&s, 2, 0, &[(2, 0)]);
    assert_eq!(settles(&after, 0, 0, &[]), after);
    // What lies past the n lanes is no part of it.
    let mut s = open(2, 1, 1);
    s.lanes[2].waiting = waiting(true, Op::Load, 0);
    s.lanes[7].down = queue(8, DownKind::Update, 0);
    assert_eq!(settles(&s, 0, 0, &[]), s);
}

#[test]
fn deliver_goes_before_return_and_return_before_serve() {
    let mut s = open(3, 1, 4);
    s.lanes[1].waiting = waiting(false, Op::Load, 0);
    s.lanes[0].waiting = waiting(true, Op::Load, 0);
    assert_eq!(next_step(&s), Some(Call::Serve(1)));
    s.lanes[0].waiting = waiting(false, Op::Load, 0);
    assert_eq!(next_step(&s), Some(Call::Serve(0)));
    s.lanes[2].returns = queue(1, ReturnKind::Eject, 3);
    assert_eq!(next_step(&s), Some(Call::Return(2)));
    s.lanes[1].returns = queue(1, ReturnKind::Eject, 3);
    assert_eq!(next_step(&s), Some(Call::Return(1)));
    s.lanes[2].down = queue(1, DownKind::Update, 3);
    assert_eq!(next_step(&s), Some(Call::Deliver(2)));
    s.lanes[1].down = queue(1, DownKind::Update, 3);
    assert_eq!(next_step(&s), Some(Call::Deliver(1)));
}

/// Lane 2's grant is on its way when the lower lanes begin: it is first.
#[test]
fn completions_come_in_their_own_order() {
    let mut s = open(3, 1, 2);
    begin(&mut s, 2, Op::Exchange(8), 1);
    run(&mut s, &[Call::Serve(2)]);
    begin(&mut s, 0, Op::Add(3), 1);
    begin(&mut s, 1, Op::Load, 4);
    settles(&s, 1 + 4 + 2, 1, &[(2, 0), (0, 8), (1, 0)]);
    // A service for lane 1 is open when lanes 0 and 2 begin.
    let mut s = open(3, 1, 2);
    begin(&mut s, 0, Op::Store(5), 0);
    s = settles(&s, 2, 0, &[(0, 5)]);
    begin(&mut s, 1, Op::Add(1), 0);
    run(&mut s, &[Call::Serve(1), Call::Deliver(0)]);
    begin(&mut s, 2, Op::Load, 0);
    begin(&mut s, 0, Op::Add(10), 0);
    let after = settles(&s, 2 + 4 + 4, 2, &[(1, 5), (0, 6), (2, 16)]);
    assert_eq!((after.blocks[0].words[0], after.blocks[0].modified), (16, false));
}

/// Eight lanes hold eight blocks each and each writes one: 2 × n × U steps.
#[test]
fn the_bound_is_met() {
    let mut s = open(8, 8, 8);
    for block in 0..8 {
        (0..8).for_each(|lane| begin(&mut s, lane, Op::Load, 4 * block));
        s = settle(&s).expect("not refused").0;
    }
    (0..8).for_each(|lane| begin(&mut s, lane, Op::Add(1), 4 * lane));
    assert_eq!(bound(&s), 128);
    settles(&s, 128, 56, &(0..8).map(|lane| (lane, 0)).collect::<Vec<_>>());
}

#[test]
fn corrupt_comes_first() {
    let mut s = open(2, 1, 1);
    s.lanes[0].waiting = waiting(true, Op::Load, 0);
    assert_eq!(settle(&s), Err(16));
    s.lanes[1].order[0] = 1;
    assert_eq!(settle(&s), Err(14));
    assert_eq!(settle(&Store::fresh(0, 0, 0)), Err(14));
    assert_eq!(settle(&Store::fresh(9, 1, 1)), Err(14));
}

#[test]
fn stuck_is_16() {
    // A served operation that nothing will answer.
    let mut s = open(2, 1, 2);
    s.lanes[1].waiting = waiting(true, Op::Add(1), 3);
    assert_eq!(settle(&s), Err(16));
    // A service that waits for answers nobody owes, and one that has none.
    for awaited in [0, 1] {
        let mut s = open(2, 1, 2);
        s.slots[0] = service(0, 1, awaited);
        assert_eq!(settle(&s), Err(16));
        s.lanes[0].waiting = waiting(true, Op::Add(1), 4);
        assert_eq!(settle(&s), Err(16));
    }
    // It is stuck only after an operation of another lane has completed.
    let mut s = open(2, 1, 2);
    s.lanes[1].waiting = waiting(true, Op::Add(1), 3);
    begin(&mut s, 0, Op::Store(4), 0);
    assert_eq!(settle(&s), Err(16));
}

#[test]
fn refused_inside_gives_that_steps_number() {
    // 10: the queues are empty, a service is open, an operation unserved.
    let mut s = open(2, 1, 2);
    s.slots[0] = service(0, 1, 1);
    s.lanes[1].waiting = waiting(false, Op::Load, 0);
    assert_eq!(settle(&s), Err(10));
    // 12: an order for a lane whose return queue is full.
    let mut s = open(2, 1, 2);
    s.lanes[1].returns = queue(8, ReturnKind::Eject, 0);
    assert_eq!(settle(&s).expect("ejects are taken").1.steps, 8);
    s.lanes[1].down = queue(1, DownKind::Update, 0);
    assert_eq!(settle(&s), Err(12));
    // 16: an answer with no service, a grant that nobody waits for.
    let mut s = open(2, 1, 2);
    s.lanes[1].returns = queue(1, ReturnKind::Gone, 0);
    assert_eq!(settle(&s), Err(16));
    let mut s = open(2, 1, 2);
    s.lanes[1].down = queue(1, DownKind::BareGrant, 0);
    assert_eq!(settle(&s), Err(16));
}

/// A refusal after completions lists none of them and undoes their steps.
#[test]
fn a_refusal_after_a_completion_gives_its_number_alone() {
    let mut s = open(3, 1, 2);
    s.lanes[0].waiting = waiting(true, Op::Store(4), 1);
    s.lanes[0].down = queue(1, DownKind::Grant, 0);
    settles(&s, 1, 0, &[(0, 4)]);
    s.lanes[2].returns = queue(1, ReturnKind::Gone, 0);
    assert_eq!(settle(&s), Err(16));
    let case = held::encode_case(&s, HeldCall::Settle);
    let mut want = vec![4, 16, 0, 0, 0, 0, 0, 0, 0, 0, 0, 0];
    want.extend(&case[..held::STORE_BYTES]);
    want.extend([0; held::COMPLETIONS_BYTES]);
    want.extend([2, 0]); // a grant and a return
    assert_eq!(held::answers(&case), Ok(want));
}

/// The orders among the messages that a step put behind those of before.
fn joined_orders(step: Call, before: &Store, after: &Store) -> u8 {
    let lanes = before.lanes.iter().zip(&after.lanes).take(usize::from(before.n));
    let joined = lanes.flat_map(|(was, is)| &is.down.messages()[usize::from(was.down.length)..]);
    match step {
        // Lazy: other steps may shorten a queue.
        Call::Serve(_) => joined.filter(|message| message.kind.is_order()).count() as u8,
        _ => 0,
    }
}

/// Settle is its steps, each as a call of its own, with the orders of its serves; the
/// steps before the end or the refusal are no more than the bound, and none makes a
/// store corrupt.
fn check_against_calls(s: &Store, rule: Rule) -> (u32, Result<usize, u8>) {
    let (mut now, mut steps, mut completions) = (s.clone(), 0, Vec::new());
    let mut orders = 0;
    let number = loop {
        if now.quiet() {
            break None;
        }
        let step = match next_step(&now) {
            Some(step) => step,
            None => break Some(16),
        };
        match machine::call_under(&now, step, rule) {
            Err(number) => break Some(number),
            Ok((after, answer)) => {
                assert!(!machine::corrupt(&after));
                assert!(bound(&after) < bound(&now), "{step:?} does not lower the bound");
                orders += joined_orders(step, &now, &after);
                now = after;
                steps += 1;
                if let Answer::Done(done) = answer {
                    completions.push(done);
                }
            }
        }
    };
    assert!(steps <= bound(s), "{steps} steps, bound {}", bound(s));
    let count = completions.len();
    let wanted = number.map_or(Ok((now, Settled { steps, orders, completions })), Err);
    assert!(settle_under(s, rule) == wanted);
    (steps, number.map_or(Ok(count), Err))
}

/// Random stores that are not corrupt, most of them reached by no opening.
fn damaged(index: u64) -> Store {
    let mut rng = Rng::stream(31, index);
    let mut s = match rng.chance(70) {
        true => stores::reached(&mut rng).0,
        false => scramble::store(&mut rng),
    };
    for _ in 0..rng.below(3) {
        (FAIR[rng.below(FAIR.len())].act)(&mut s, &mut rng);
    }
    s.completed = scramble::completed(&s, &mut rng);
    s
}

#[test]
fn random_stores_settle_within_the_bound() {
    let (mut settled, mut several, mut refused, mut longest) = (0, 0, [0; 18], 0);
    for index in 0..60_000 {
        let s = damaged(index);
        let (steps, given) = check_against_calls(&s, Rule::LoadFillsOldest);
        assert_eq!(check_against_calls(&s, Rule::FillsNewest), (steps, given));
        longest = longest.max(steps);
        match given {
            Ok(count) => {
                settled += 1;
                several += usize::from(count > 1);
            }
            Err(number) => refused[usize::from(number)] += 1,
        }
    }
    assert!(settled > 10_000 && several > 2_000, "{settled} {several}");
    assert!([10, 12, 16].iter().all(|&number: &usize| refused[number] > 100), "{refused:?}");
    assert_eq!(refused.iter().sum::<usize>(), refused[10] + refused[12] + refused[16]);
    assert!(longest >= 30, "{longest}");
}

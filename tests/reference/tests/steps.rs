//! What each step changes in the store, and what it leaves.

use reference::machine::{self, search};
use reference::parts::*;

const W: Words = [11, 22, 33, 44];
const X: Words = [5, 6, 7, 8];

fn line(private: bool, block: u8, words: Words) -> Line {
    Line { valid: true, private, block, words }
}

fn message<K>(kind: K, block: u8, words: Words) -> Message<K> {
    Message { kind, block, words }
}

fn served(command: Command, op: Op, word: u8) -> Option<Waiting> {
    Some(Waiting { served: true, command, op, word })
}

/// Lane 1 completes.
fn done(value: u32, place: u32) -> Answer {
    Answer::Done(Completion { lane: 1, value, place })
}

/// The call must give this answer; the store after it.
fn after(s: &Store, call: Call, answer: Answer) -> Store {
    assert!(!machine::corrupt(s));
    let (after, given) = machine::call(s, call).expect("not refused");
    assert_eq!(given, answer);
    after
}

fn begin(lane: u8, op: Op, word: u8) -> Call {
    Call::Begin { lane, op, word }
}

#[test]
fn queue_places() {
    let mut q = Queue::empty(ReturnKind::Gone);
    for block in 0..8 {
        assert!(!q.is_full() && usize::from(block) == q.messages().len());
        assert!(q.push(message(ReturnKind::Eject, block, W)));
    }
    assert!(q.is_full() && !q.push(message(ReturnKind::Gone, 9, W)));
    let blocks = |q: &Queue<ReturnKind>| q.places.map(|m| m.block);
    assert_eq!(q.take(), Some(message(ReturnKind::Eject, 0, W)));
    assert_eq!((q.length, blocks(&q)), (7, [1, 2, 3, 4, 5, 6, 7, 7]));
    assert!(q.push(message(ReturnKind::Updated, 8, X)));
    assert_eq!((q.length, blocks(&q)), (8, [1, 2, 3, 4, 5, 6, 7, 8]));
    for block in 1..8 {
        assert_eq!(q.take(), Some(message(ReturnKind::Eject, block, W)));
    }
    assert_eq!((q.length, blocks(&q)), (1, [8; 8]));
    assert_eq!(q.take(), Some(message(ReturnKind::Updated, 8, X)));
    assert_eq!((q.take(), q.length), (None, 0));
    assert_eq!(q.places, [message(ReturnKind::Updated, 8, X); 8]);
}

/// What stands past a queue's length moves too, and stays in the last place.
#[test]
fn a_take_moves_every_place() {
    let mut q = Queue::empty(ReturnKind::Gone);
    q.places = std::array::from_fn(|place| message(ReturnKind::Purged, place as u8, X));
    q.length = 2;
    assert_eq!(q.take(), Some(message(ReturnKind::Purged, 0, X)));
    assert_eq!((q.length, q.places.map(|m| m.block)), (1, [1, 2, 3, 4, 5, 6, 7, 7]));
    assert!(q.push(message(ReturnKind::Gone, 50, X)));
    assert_eq!((q.length, q.places.map(|m| m.block)), (2, [1, 50, 3, 4, 5, 6, 7, 7]));
}

#[test]
fn hit_uses_the_line() {
    let mut s = Store::fresh(2, 3, 4);
    s.lanes[1].lines[1] = line(true, 2, W);
    s.lanes[1].order = [1, 2, 0, 9, 9, 9, 9, 9];
    s.completed = 255;
    let mut want = s.clone();
    want.completed = 256;
    want.lanes[1].lines[1].words = [11, 22, 34, 44];
    want.lanes[1].order = [2, 0, 1, 9, 9, 9, 9, 9];
    assert_eq!(after(&s, begin(1, Op::Add(1), 10), done(33, 256)), want);
    // A store on a hit with PRIVATE reset waits, and is no use.
    s.lanes[1].lines[1].private = false;
    let mut want = s.clone();
    let op = Op::Store(3);
    want.lanes[1].waiting =
        Some(Waiting { served: false, command: Command::Exclude, op, word: 10 });
    assert_eq!(after(&s, begin(1, op, 10), Answer::Wait), want);
    // A load does not mind.
    let mut want = s.clone();
    want.completed = 256;
    want.lanes[1].order = [2, 0, 1, 9, 9, 9, 9, 9];
    assert_eq!(after(&s, begin(1, Op::Load, 8), done(11, 256)), want);
}

#[test]
fn eviction_keeps_all_but_valid() {
    let mut s = Store::fresh(2, 2, 4);
    s.lanes[0].lines[0] = line(false, 1, X);
    s.lanes[0].lines[1] = line(true, 2, W);
    s.lanes[0].order[..2].copy_from_slice(&[1, 0]);
    let mut want = s.clone();
    want.lanes[0].lines[1].valid = false;
    want.lanes[0].returns.length = 1;
    want.lanes[0].returns.places[0] = message(ReturnKind::WriteEject, 2, W);
    let (command, op) = (Command::ReadShared, Op::Load);
    want.lanes[0].waiting = Some(Waiting { served: false, command, op, word: 12 });
    assert_eq!(after(&s, begin(0, op, 12), Answer::Wait), want);
    // The other line is clean: EJECT, words 0.
    s.lanes[0].order[..2].copy_from_slice(&[0, 1]);
    let got = after(&s, begin(0, Op::Store(1), 12), Answer::Wait);
    assert_eq!(got.lanes[0].returns.places[0], message(ReturnKind::Eject, 1, [0; 4]));
    assert_eq!(got.lanes[0].lines[0], Line { valid: false, ..line(false, 1, X) });
    assert_eq!(got.lanes[0].waiting.map(|w| w.command), Some(Command::ReadExclusive));
}

#[test]
fn miss_with_a_free_line_evicts_nothing() {
    let mut s = Store::fresh(2, 2, 4);
    s.lanes[0].lines[0] = line(true, 1, X);
    s.lanes[0].returns.length = PLACES as u8;
    let got = after(&s, begin(0, Op::Load, 0), Answer::Wait);
    assert_eq!(got.lanes[0].lines, s.lanes[0].lines);
    assert_eq!(got.lanes[0].returns, s.lanes[0].returns);
}

fn unserved(command: Command, op: Op, word: u8) -> Option<Waiting> {
    Some(Waiting { served: false, command, op, word })
}

#[test]
fn serve_shared_unmodified_closes() {
    let mut s = Store::fresh(3, 1, 2);
    s.blocks[1] = Block { words: W, present: [false; 8], modified: false };
    s.blocks[1].present[0] = true;
    s.lanes[2].waiting = unserved(Command::ReadShared, Op::Load, 4);
    let mut want = s.clone();
    want.lanes[2].waiting = served(Command::ReadShared, Op::Load, 4);
    want.blocks[1].present[2] = true;
    want.lanes[2].down.length = 1;
    want.lanes[2].down.places[0] = message(DownKind::Grant, 1, W);
    assert_eq!(after(&s, Call::Serve(2), Answer::Step), want);
}

#[test]
fn serve_shared_modified_sends_update() {
    let mut s = Store::fresh(4, 1, 2);
    s.blocks[1].modified = true;
    s.blocks[1].present[..4].copy_from_slice(&[true, false, true, true]);
    s.lanes[2].waiting = unserved(Command::ReadShared, Op::Load, 4);
    let got = after(&s, Call::Serve(2), Answer::Step);
    let service =
        Service { lane: 2, block: 1, command: Command::ReadShared, awaited: 2, bare: false };
    assert_eq!(got.slots[0], Some(service));
    assert_eq!(got.blocks, s.blocks);
    for (k, length) in [(0, 1), (1, 0), (2, 0), (3, 1)] {
        assert_eq!(got.lanes[k].down.length, length);
    }
    assert_eq!(got.lanes[3].down.places[0], message(DownKind::Update, 1, [0; 4]));
}

#[test]
fn serve_exclusive_purges_every_other() {
    for (command, present, bare) in [
        (Command::ReadExclusive, true, false),
        (Command::Exclude, true, true),
        (Command::Exclude, false, false),
    ] {
        let mut s = Store::fresh(8, 1, 1);
        s.blocks[0].present = [true; 8];
        s.blocks[0].present[5] = present;
        s.lanes[5].waiting = unserved(command, Op::Store(1), 0);
        let got = after(&s, Call::Serve(5), Answer::Step);
        assert_eq!(got.slots[0], Some(Service { lane: 5, block: 0, command, awaited: 7, bare }));
        let orders = got.lanes.iter().filter(|l| l.down.length == 1);
        let purge = message(DownKind::Purge, 0, [0; 4]);
        assert_eq!(orders.filter(|l| l.down.places[0] == purge).count(), 7);
        assert!(got.lanes[5].down.is_empty());
    }
}

#[test]
fn serve_exclusive_alone_closes() {
    for (command, present, kind, words) in [
        (Command::ReadExclusive, false, DownKind::Grant, W),
        (Command::ReadExclusive, true, DownKind::Grant, W),
        (Command::Exclude, true, DownKind::BareGrant, [0; 4]),
        (Command::Exclude, false, DownKind::Grant, W),
    ] {
        let mut s = Store::fresh(2, 1, 1);
        s.blocks[0].words = W;
        s.blocks[0].present[1] = present;
        s.lanes[1].waiting = unserved(command, Op::Store(1), 0);
        let got = after(&s, Call::Serve(1), Answer::Step);
        assert_eq!((got.slots[0], got.blocks[0].modified), (None, true));
        assert_eq!(got.blocks[0].present[..2], [false, true]);
        assert_eq!(got.lanes[1].down.head(), Some(message(kind, 0, words)));
        assert_eq!(got.lanes[1].waiting, served(command, Op::Store(1), 0));
    }
}

/// Block 1 in service for lane 0, with one message in lane 1's return queue.
fn returning(command: Command, kind: ReturnKind, awaited: u8) -> Store {
    let mut s = Store::fresh(3, 1, 2);
    s.slots[0] = Some(Service { lane: 0, block: 1, command, awaited, bare: false });
    s.blocks[1] = Block { words: X, present: [false; 8], modified: true };
    s.blocks[1].present[1] = true;
    s.blocks[1].present[2] = true;
    s.lanes[1].returns.length = 1;
    s.lanes[1].returns.places = [message(ReturnKind::Gone, 9, X); PLACES];
    s.lanes[1].returns.places[0] = message(kind, 1, W);
    s
}

#[test]
fn returns_change_flags_and_words() {
    use ReturnKind::*;
    for (kind, present, words, awaited) in [
        (Eject, false, false, 2),
        (WriteEject, false, true, 2),
        (Updated, true, true, 1),
        (Purged, false, false, 1),
        (PurgedWords, false, true, 1),
        (Gone, false, false, 1),
    ] {
        let s = returning(Command::ReadExclusive, kind, 2);
        let mut want = s.clone();
        want.blocks[1].present[1] = present;
        if words {
            (want.blocks[1].words, want.blocks[1].modified) = (W, false);
        }
        want.slots[0].as_mut().expect("service").awaited = awaited;
        want.lanes[1].returns.length = 0;
        want.lanes[1].returns.places[0] = message(Gone, 9, X);
        assert_eq!(after(&s, Call::Return(1), Answer::Step), want, "{kind:?}");
    }
}

#[test]
fn last_answer_closes_after_its_words() {
    let s = returning(Command::ReadShared, ReturnKind::Updated, 1);
    let got = after(&s, Call::Return(1), Answer::Step);
    assert_eq!((got.slots[0], got.blocks[1].modified), (None, false));
    assert_eq!(got.blocks[1].present[..3], [true, true, true]);
    assert_eq!(got.lanes[0].down.head(), Some(message(DownKind::Grant, 1, W)));
    let s = returning(Command::ReadExclusive, ReturnKind::PurgedWords, 1);
    let got = after(&s, Call::Return(1), Answer::Step);
    assert_eq!((got.slots[0], got.blocks[1].modified), (None, true));
    assert_eq!(got.blocks[1].present[..3], [true, false, false]);
    assert_eq!(got.lanes[0].down.head(), Some(message(DownKind::Grant, 1, W)));
}

#[test]
fn bare_service_closes_bare() {
    let mut s = returning(Command::Exclude, ReturnKind::Purged, 1);
    s.slots[0].as_mut().expect("service").bare = true;
    let got = after(&s, Call::Return(1), Answer::Step);
    assert_eq!(got.lanes[0].down.head(), Some(message(DownKind::BareGrant, 1, [0; 4])));
}

/// Lane 1 with one message to deliver.
fn delivering(kind: DownKind, lines: &[Line]) -> Store {
    let mut s = Store::fresh(2, 3, 2);
    s.completed = 65_535;
    s.lanes[1].lines[..lines.len()].copy_from_slice(lines);
    s.lanes[1].down.length = 1;
    s.lanes[1].down.places[0] = message(kind, 1, if kind == DownKind::Grant { X } else { [0; 4] });
    s
}

#[test]
fn orders_are_answered() {
    use {DownKind::*, ReturnKind::*};
    let private = [line(true, 1, W), line(true, 1, X)];
    let shared = [line(false, 1, W)];
    for (kind, lines, answer, words, keeps) in [
        (Update, &private[..], Updated, W, Line { private: false, ..private[0] }),
        (Update, &shared[..], Updated, W, shared[0]),
        (Update, &[], Gone, [0; 4], Line::default()),
        (Purge, &private[..], PurgedWords, W, Line { valid: false, ..private[0] }),
        (Purge, &shared[..], Purged, [0; 4], Line { valid: false, ..shared[0] }),
        (Purge, &[], Gone, [0; 4], Line::default()),
    ] {
        let s = delivering(kind, lines);
        let mut want = s.clone();
        want.lanes[1].lines[0] = keeps;
        want.lanes[1].down.length = 0;
        want.lanes[1].down.places[0] = s.lanes[1].down.places[1];
        want.lanes[1].returns.length = 1;
        want.lanes[1].returns.places[0] = message(answer, 1, words);
        assert_eq!(after(&s, Call::Deliver(1), Answer::Step), want, "{kind:?} {answer:?}");
    }
}

#[test]
fn grant_with_words_fills_the_lowest_free_line() {
    // A load's fill goes in as the oldest, the others' as the newest.
    for (op, value, words, private, order) in [
        (Op::Load, 6, X, false, [1, 0, 2]),
        (Op::Store(1), 1, [5, 1, 7, 8], true, [0, 2, 1]),
        (Op::Exchange(2), 6, [5, 2, 7, 8], true, [0, 2, 1]),
        (Op::Add(u32::MAX), 6, [5, 5, 7, 8], true, [0, 2, 1]),
    ] {
        let mut s = delivering(DownKind::Grant, &[line(true, 0, W)]);
        s.lanes[1].waiting = served(Command::ReadExclusive, op, 5);
        let got = after(&s, Call::Deliver(1), done(value, 65_536));
        assert_eq!(got.lanes[1].lines[1], line(private, 1, words));
        assert_eq!((got.lanes[1].lines[0], got.lanes[1].lines[2].valid), (line(true, 0, W), false));
        assert_eq!(got.lanes[1].order[..3], order);
        assert_eq!((got.lanes[1].waiting, got.lanes[1].returns.length), (None, 0));
        assert_eq!(got.completed, 65_536);
    }
}

#[test]
fn bare_grant_uses_the_held_line() {
    let lines = [line(true, 0, W), line(false, 1, W), line(false, 1, X)];
    let mut s = delivering(DownKind::BareGrant, &lines);
    s.lanes[1].waiting = served(Command::Exclude, Op::Add(1), 4);
    let got = after(&s, Call::Deliver(1), done(11, 65_536));
    assert_eq!(got.lanes[1].lines[1], line(true, 1, [12, 22, 33, 44]));
    assert_eq!(got.lanes[1].lines[2], lines[2]);
    assert_eq!(got.lanes[1].order[..3], [0, 2, 1]);
    // A load resets PRIVATE, whatever its command was.
    s.lanes[1].lines[1].private = true;
    s.lanes[1].waiting = served(Command::ReadShared, Op::Load, 4);
    let got = after(&s, Call::Deliver(1), done(11, 65_536));
    assert_eq!(got.lanes[1].lines[1], line(false, 1, W));
    assert_eq!(got.lanes[1].order[..3], [0, 2, 1]);
}

#[test]
fn search_finds_the_lowest_valid_line() {
    let mut s = Store::fresh(2, 2, 2);
    assert_eq!(search(&s.lanes[0], 2, 0), None);
    s.lanes[0].lines[1] = line(false, 0, W);
    s.lanes[0].lines[2] = line(false, 1, W);
    assert_eq!(search(&s.lanes[0], 2, 0), Some(1));
    assert_eq!(search(&s.lanes[0], 2, 1), None);
    s.lanes[0].lines[0] = line(false, 0, W);
    assert_eq!(search(&s.lanes[0], 2, 0), Some(0));
}

#[test]
fn picture_writes_each_valid_line() {
    let mut s = Store::fresh(2, 2, 2);
    s.lanes[1].lines[0] = line(false, 1, [1, 2, 3, 0x0403_0201]);
    s.lanes[0].lines[1] = line(true, 0, [0; 4]);
    s.lanes[0].lines[2] = line(true, 0, W);
    s.lanes[2].lines[0] = line(true, 0, W);
    let mut buffer = [0xa5; 40];
    assert_eq!(machine::picture(&s, &mut buffer), Ok(38));
    let mut want = vec![0x10, 0, 0];
    want.extend([0; 16]);
    want.extend([0x10, 1, 1, 1, 0, 0, 0, 2, 0, 0, 0, 3, 0, 0, 0, 1, 2, 3, 4, 0xa5, 0xa5]);
    assert_eq!(buffer[..], want[..]);
    let mut buffer = [0xa5; 37];
    assert_eq!(machine::picture(&s, &mut buffer), Err(15));
    assert_eq!(buffer, [0xa5; 37]);
    s.lanes[1].order[0] = 2;
    assert_eq!(machine::picture(&s, &mut buffer), Err(14));
}

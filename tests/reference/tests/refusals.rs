//! Each refusal number, and the order of the checks.

use reference::held::{self, HeldAnswer, HeldCall};
use reference::machine;
use reference::parts::*;

/// The length of a full queue.
const FULL: u8 = PLACES as u8;

const LOAD: Call = Call::Begin { lane: 0, op: Op::Load, word: 0 };

/// The call is refused with the number, and the bytes of the store are as
/// before.
fn refused(s: &Store, call: Call, number: u8) {
    let given = held::run(s, HeldCall::Machine(call));
    assert_eq!(given.answer, HeldAnswer::Refused(number), "{call:?}");
    let mut want = vec![4, number, 0, 0, 0, 0, 0, 0, 0, 0, 0, 0];
    want.extend(held::encode_store(s));
    assert_eq!(given.bytes(), want);
}

fn accepted(s: &Store, call: Call) -> Store {
    machine::call(s, call).expect("not refused").0
}

fn with_block<K>(kind: K, block: u8) -> Message<K> {
    Message { kind, block, words: [0; 4] }
}

fn queue<K: Copy>(length: u8, kind: K, block: u8) -> Queue<K> {
    Queue { length, places: [with_block(kind, block); PLACES] }
}

fn waiting(served: bool, command: Command, word: u8) -> Option<Waiting> {
    Some(Waiting { served, command, op: Op::Store(1), word })
}

fn service(lane: u8, block: u8, awaited: u8) -> Option<Service> {
    Some(Service { lane, block, command: Command::ReadExclusive, awaited, bare: false })
}

fn valid(block: u8) -> Line {
    Line { valid: true, private: false, block, words: [1, 2, 3, 4] }
}

fn begins(lane: u8, word: u8) -> [Call; 4] {
    [Op::Load, Op::Store(1), Op::Exchange(1), Op::Add(1)].map(|op| Call::Begin { lane, op, word })
}

fn begins_refused(s: &Store, lane: u8, word: u8, number: u8) {
    begins(lane, word).into_iter().for_each(|call| refused(s, call, number));
}

fn begins_accepted(s: &Store, lane: u8, word: u8) {
    for call in begins(lane, word) {
        accepted(s, call);
    }
}

#[test]
fn begin_6_7_8_12() {
    let mut s = Store::fresh(2, 1, 2);
    for lane in [2, 7, 8, 255] {
        begins_refused(&s, lane, 0, 6);
        // 6 before 7.
        begins_refused(&s, lane, 8, 6);
    }
    begins_refused(&s, 1, 8, 7);
    begins_refused(&s, 1, 255, 7);
    for served in [false, true] {
        s.lanes[1].waiting = waiting(served, Command::ReadShared, 0);
        begins_refused(&s, 1, 0, 8);
        // 7 before 8.
        begins_refused(&s, 1, 8, 7);
        // Of a block that is held only a load goes on.
        for private in [false, true] {
            let mut s = s.clone();
            s.lanes[1].lines[0] = Line { private, ..valid(0) };
            let [load, others @ ..] = begins(1, 0);
            accepted(&s, load);
            others.into_iter().for_each(|call| refused(&s, call, 8));
            begins_refused(&s, 1, 4, 8);
            begins_refused(&s, 1, 8, 7);
        }
    }
    // 8 before 12, then 12 alone.
    s.lanes[1].lines[0] = valid(1);
    s.lanes[1].returns = queue(FULL, ReturnKind::Eject, 0);
    begins_refused(&s, 1, 0, 8);
    s.lanes[1].waiting = None;
    begins_refused(&s, 1, 0, 12);
    begins_refused(&s, 1, 8, 7);
    // No eviction, no 12.
    begins_accepted(&s, 1, 4);
    s.lanes[1].returns.length = FULL - 1;
    begins_accepted(&s, 1, 0);
}

#[test]
fn serve_6_9_10_11_12() {
    let mut s = Store::fresh(3, 1, 1);
    refused(&s, Call::Serve(3), 6);
    refused(&s, Call::Serve(0), 9);
    s.lanes[0].waiting = waiting(true, Command::ReadExclusive, 0);
    refused(&s, Call::Serve(0), 9);
    // All of 9, 10, 11 and 12 hold; they leave one by one.
    s.slots[0] = service(1, 0, 1);
    s.lanes[0].returns = queue(1, ReturnKind::Eject, 0);
    s.lanes[0].down = queue(FULL, DownKind::Purge, 0);
    refused(&s, Call::Serve(3), 6);
    refused(&s, Call::Serve(0), 9);
    s.lanes[0].waiting = waiting(false, Command::ReadExclusive, 0);
    refused(&s, Call::Serve(0), 10);
    s.slots[0] = None;
    refused(&s, Call::Serve(0), 11);
    s.lanes[0].returns.length = 0;
    refused(&s, Call::Serve(0), 12);
    s.lanes[0].down.length = FULL - 1;
    accepted(&s, Call::Serve(0));
}

#[test]
fn serve_12_of_ordered_lanes() {
    let mut s = Store::fresh(4, 1, 1);
    s.lanes[0].waiting = waiting(false, Command::ReadShared, 0);
    s.lanes[0].down = queue(FULL, DownKind::Update, 0);
    s.blocks[0].present[..4].copy_from_slice(&[true, true, false, true]);
    // Nobody is ordered, and k's own queue is full.
    refused(&s, Call::Serve(0), 12);
    // With orders k's own queue is not looked at.
    s.blocks[0].modified = true;
    let after = accepted(&s, Call::Serve(0));
    assert_eq!(after.slots[0].map(|v| v.awaited), Some(2));
    // The last ordered lane has no room: the first gets nothing.
    s.lanes[3].down = queue(FULL, DownKind::Update, 0);
    refused(&s, Call::Serve(0), 12);
    s.blocks[0].present[3] = false;
    accepted(&s, Call::Serve(0));
}

#[test]
fn return_6_9_16_12() {
    let mut s = Store::fresh(3, 1, 2);
    refused(&s, Call::Return(3), 6);
    refused(&s, Call::Return(1), 9);
    for kind in [ReturnKind::Updated, ReturnKind::Purged, ReturnKind::PurgedWords, ReturnKind::Gone]
    {
        s.lanes[1].returns = queue(1, kind, 1);
        s.lanes[0].down = queue(FULL, DownKind::Purge, 0);
        s.slots[0] = None;
        refused(&s, Call::Return(1), 16);
        s.slots[0] = service(0, 1, 0);
        refused(&s, Call::Return(1), 16);
        // 16 before 12.
        s.slots[0] = service(0, 0, 1);
        refused(&s, Call::Return(1), 16);
        s.slots[0] = service(0, 1, 1);
        refused(&s, Call::Return(1), 12);
        // No close, no 12.
        s.slots[0] = service(0, 1, 2);
        accepted(&s, Call::Return(1));
        s.slots[0] = service(0, 1, 1);
        s.lanes[0].down.length = 1;
        assert_eq!(accepted(&s, Call::Return(1)).lanes[0].down.length, 2);
    }
    for kind in [ReturnKind::Eject, ReturnKind::WriteEject] {
        s.lanes[1].returns = queue(FULL, kind, 1);
        for open in [None, service(0, 1, 0), service(0, 0, 1), service(0, 1, 1)] {
            s.slots[0] = open;
            assert_eq!(accepted(&s, Call::Return(1)).slots[0], open);
        }
    }
}

#[test]
fn deliver_6_9_12() {
    let mut s = Store::fresh(3, 1, 2);
    refused(&s, Call::Deliver(3), 6);
    refused(&s, Call::Deliver(2), 9);
    for kind in [DownKind::Update, DownKind::Purge] {
        for lines in [valid(1), Line::default()] {
            s.lanes[2].lines[0] = lines;
            s.lanes[2].down = queue(FULL, kind, 1);
            s.lanes[2].returns = queue(FULL, ReturnKind::Eject, 0);
            refused(&s, Call::Deliver(2), 12);
            s.lanes[2].returns.length = 1;
            accepted(&s, Call::Deliver(2));
        }
    }
}

#[test]
fn deliver_16() {
    let mut s = Store::fresh(2, 2, 3);
    for (kind, fits) in [(DownKind::Grant, Line::default()), (DownKind::BareGrant, valid(1))] {
        s.lanes[0].lines[0] = fits;
        s.lanes[0].down = queue(1, kind, 1);
        s.lanes[0].returns = queue(FULL, ReturnKind::Eject, 0);
        for wrong in [
            None,
            waiting(false, Command::Exclude, 4),
            waiting(true, Command::Exclude, 3),
            waiting(true, Command::Exclude, 8),
        ] {
            s.lanes[0].waiting = wrong;
            refused(&s, Call::Deliver(0), 16);
        }
        s.lanes[0].waiting = waiting(true, Command::ReadShared, 7);
        accepted(&s, Call::Deliver(0));
    }
    // Held already, no free line, not held.
    s.lanes[0].down = queue(1, DownKind::Grant, 1);
    s.lanes[0].lines[..2].copy_from_slice(&[Line::default(), valid(1)]);
    refused(&s, Call::Deliver(0), 16);
    s.lanes[0].lines[..2].copy_from_slice(&[valid(0), valid(2)]);
    refused(&s, Call::Deliver(0), 16);
    s.lanes[0].lines[..2].copy_from_slice(&[valid(0), Line { valid: false, ..valid(1) }]);
    accepted(&s, Call::Deliver(0));
    s.lanes[0].down = queue(1, DownKind::BareGrant, 1);
    refused(&s, Call::Deliver(0), 16);
}

#[test]
fn corrupt_before_all() {
    let mut s = Store::fresh(2, 1, 1);
    s.slots[0] = service(0, 0, 2);
    refused(&s, LOAD, 14);
    begins_refused(&s, 9, 255, 14);
    for call in [Call::Serve(0), Call::Return(0), Call::Deliver(0), Call::Serve(200)] {
        refused(&s, call, 14);
    }
    let given = held::run(&s, HeldCall::Picture(0));
    assert_eq!(given.answer, HeldAnswer::Refused(14));
    s.slots[0] = None;
    s.lanes[0].lines[0] = valid(0);
    let given = held::run(&s, HeldCall::Picture(18));
    assert_eq!(given.answer, HeldAnswer::Refused(15));
    assert_eq!(given.after, vec![0xa5; 1_300]);
    assert_eq!(held::run(&s, HeldCall::Picture(19)).answer, HeldAnswer::Picture(19));
}

/// A store that is not corrupt, changed.
fn changed(change: fn(&mut Store)) -> Store {
    let mut s = Store::fresh(3, 2, 5);
    s.lanes[1].lines[1] = valid(4);
    s.lanes[2].returns = queue(1, ReturnKind::Eject, 4);
    s.lanes[2].down = queue(1, DownKind::Purge, 4);
    s.lanes[0].waiting = waiting(true, Command::ReadShared, 19);
    s.slots[0] = service(2, 4, 2);
    s.blocks[4].present[2] = true;
    assert!(!machine::corrupt(&s));
    change(&mut s);
    s
}

/// Changes outside the queues, each of which makes the store corrupt.
const CORRUPTING: [fn(&mut Store); 25] = [
    |s| s.n = 1,
    |s| s.n = 9,
    |s| s.c = 0,
    |s| s.c = 9,
    |s| s.m = 0,
    |s| s.m = 65,
    |s| s.limit = 0,
    |s| s.limit = 9,
    |s| s.limit = 255,
    |s| s.slots[7] = service(3, 3, 2),
    |s| s.slots[7] = service(2, 4, 2),
    |s| s.slots[7] = service(2, 3, 2),
    |s| s.lanes[1].lines[1].block = 5,
    |s| s.lanes[1].lines[1].block = 255,
    |s| s.lanes[0].waiting = waiting(true, Command::ReadShared, 20),
    |s| s.lanes[0].waiting = waiting(false, Command::ReadShared, 255),
    |s| s.slots[0] = service(3, 4, 2),
    |s| s.slots[0] = service(2, 5, 2),
    |s| s.slots[0] = service(2, 4, 3),
    |s| s.blocks[4].present[3] = true,
    |s| s.blocks[0].present[7] = true,
    |s| s.lanes[2].order[1] = 0,
    |s| s.lanes[2].order[0] = 2,
    |s| s.lanes[0].order[1] = 255,
    |s| s.completed = LAST_PLACE,
];

/// The same for the queues.
const CORRUPTING_QUEUES: [fn(&mut Store); 8] = [
    |s| s.lanes[2].returns.places[0].block = 5,
    |s| {
        s.lanes[2].returns = queue(2, ReturnKind::Gone, 4);
        s.lanes[2].returns.places[1].block = 5;
    },
    |s| {
        s.lanes[2].returns = queue(FULL, ReturnKind::Gone, 4);
        s.lanes[2].returns.places[7].block = 5;
    },
    |s| s.lanes[2].down.places[0].block = 5,
    |s| {
        s.lanes[2].down = queue(2, DownKind::Grant, 4);
        s.lanes[2].down.places[1].block = 5;
    },
    |s| {
        s.lanes[2].down = queue(5, DownKind::Grant, 4);
        s.lanes[2].down.places[4].block = 255;
    },
    |s| s.lanes[2].returns.length = 9,
    |s| s.lanes[0].down.length = 255,
];

#[test]
fn each_condition_of_14() {
    for (i, change) in CORRUPTING.into_iter().chain(CORRUPTING_QUEUES).enumerate() {
        let s = changed(change);
        assert!(machine::corrupt(&s), "change {i}");
        refused(&s, LOAD, 14);
        refused(&s, Call::Deliver(77), 14);
    }
}

#[test]
fn not_corrupt() {
    let changes: [fn(&mut Store); 19] = [
        |s| s.lanes[1].lines[0].block = 5,
        |s| s.lanes[1].lines[2] = valid(9),
        |s| s.lanes[3].lines[0] = valid(9),
        |s| s.lanes[3].returns.length = 9,
        |s| s.lanes[3].waiting = waiting(true, Command::Exclude, 255),
        |s| s.lanes[0].order[2] = 0,
        |s| s.lanes[2].returns.places[1].block = 99,
        |s| s.lanes[2].down.places[1].block = 99,
        |s| s.blocks[5].present = [true; 8],
        |s| s.slots[0] = service(2, 4, 0),
        |s| s.slots[0] = None,
        |s| s.lanes[1].lines[0] = valid(4),
        |s| s.lanes[2].order[..2].copy_from_slice(&[1, 0]),
        |s| s.lanes[2].down.places[0] = with_block(DownKind::BareGrant, 4),
        |s| s.completed = LAST_PLACE - 1,
        |s| s.limit = 8,
        |s| (s.slots[0], s.slots[7]) = (None, service(2, 4, 2)),
        |s| (s.limit, s.slots[5]) = (2, service(2, 3, 0)),
        |s| s.lanes[0].down = queue(FULL, DownKind::Grant, 4),
    ];
    for (i, change) in changes.into_iter().enumerate() {
        assert!(!machine::corrupt(&changed(change)), "change {i}");
    }
}

#[test]
fn case_bytes() {
    let mut s = changed(|s| s.lanes[0].waiting = waiting(true, Command::Exclude, 19));
    s.completed = 0x0807_0605;
    let call = HeldCall::Machine(Call::Begin { lane: 1, op: Op::Add(0x0403_0201), word: 9 });
    let bytes = held::encode_case(&s, call);
    assert_eq!(bytes.len(), 5_328);
    assert_eq!(bytes[..14], [3, 2, 5, 1, 5, 6, 7, 8, 1, 2, 4, 1, 2, 0]);
    assert_eq!(bytes[14..56], [0; 42]);
    assert_eq!(bytes[56 + 450..56 + 458], [2, 2, 1, 1, 0, 0, 0, 19]);
    assert_eq!(bytes[56 + 458 + 19..56 + 458 + 25], [1, 0, 4, 1, 0, 0]);
    assert_eq!(bytes[56 + 2 * 458 + 160..][..3], [1, 0, 4]);
    assert_eq!(bytes[56 + 2 * 458 + 305..][..3], [1, 1, 4]);
    assert_eq!(bytes[56 + 8 * 458 + 4 * 25 + 16..][..9], [0, 0, 1, 0, 0, 0, 0, 0, 0]);
    assert_eq!(bytes[5_320..], [4, 1, 9, 1, 2, 3, 4, 0]);
    let (store, decoded) = held::decode_case(&bytes).expect("well formed");
    assert!(store == s && decoded == call);
    let given = held::run(&Store::fresh(2, 1, 1), HeldCall::Picture(0)).bytes();
    assert_eq!(given.len(), 12 + 5_320 + 1_300);
    assert_eq!(given[..12], [5, 0, 0, 0, 0, 0, 0, 0, 0, 0, 0, 0]);
    assert!(held::answers(&bytes[..5_327]).is_err());
}

#[test]
fn done_bytes() {
    let mut s = Store::fresh(2, 1, 1);
    (s.lanes[1].lines[0], s.completed) = (valid(0), 0x0807_06ff);
    let load = Call::Begin { lane: 1, op: Op::Load, word: 2 };
    let given = held::run(&s, HeldCall::Machine(load)).bytes();
    assert_eq!(given.len(), 12 + 5_320);
    assert_eq!(given[..12], [1, 1, 3, 0, 0, 0, 0, 0, 0, 7, 7, 8]);
    // The store after has that place as its count.
    assert_eq!(given[12..20], [2, 1, 1, 1, 0, 7, 7, 8]);
}

#[test]
fn settle_bytes() {
    assert_eq!(held::encode_call(HeldCall::Settle), [0x11, 0, 0, 0, 0, 0, 0, 0]);
    let mut s = Store::fresh(3, 1, 2);
    for lane in [2, 1] {
        s.lanes[lane].waiting = Some(Waiting {
            served: false,
            command: Command::ReadExclusive,
            op: Op::Store(0x0403_0201 * lane as u32),
            word: 3,
        });
    }
    s.completed = 0x0807_06fe;
    let given = held::run(&s, HeldCall::Settle).bytes();
    assert_eq!(given.len(), 12 + 5_320 + 72 + 2);
    assert_eq!(given[..12], [6, 0, 6, 0, 0, 0, 2, 1, 0, 0, 0, 0]);
    let (store, listed) = given[12..].split_at(5_320);
    assert_eq!(store[4..8], [0, 7, 7, 8]);
    assert_eq!(listed[..9], [1, 1, 2, 3, 4, 0xff, 6, 7, 8]);
    assert_eq!(listed[9..18], [2, 2, 4, 6, 8, 0, 7, 7, 8]);
    assert_eq!(listed[18..72], [0; 54]);
    // 2 × n × U.
    assert_eq!(listed[72..], [12, 0]);
    s.lanes[0].down = queue(1, DownKind::BareGrant, 1);
    let given = held::run(&s, HeldCall::Settle).bytes();
    assert_eq!(given[..12], [4, 16, 0, 0, 0, 0, 0, 0, 0, 0, 0, 0]);
    assert_eq!(given[12..12 + 5_320], held::encode_store(&s));
    assert_eq!(given[12 + 5_320..][..72], [0; 72]);
    // G more, though it is refused; 14 gives none.
    assert_eq!(given[12 + 5_320 + 72..], [13, 0]);
    s.c = 0;
    let given = held::run(&s, HeldCall::Settle).bytes();
    assert_eq!(given[..12], [4, 14, 0, 0, 0, 0, 0, 0, 0, 0, 0, 0]);
    assert_eq!(given[12 + 5_320..], [0; 74]);
}

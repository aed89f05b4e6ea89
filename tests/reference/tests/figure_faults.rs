//! Wrong machines of W7, and which lists tell them by the figure or by 12.

mod common;

use common::{begin, bytes, call, longest_opened_by_08, SETTLE};
use reference::figure::{self, figure, Lengths, DOWN, HELD, RETURN, TOGETHER};
use reference::figure_faults::{answers, BEGINS_UNSERVED, ORDERS_TO_ALL, WRONG};
use reference::list_maker;
use reference::lists::{self, Record};
use reference::longest::{self, Longest};
use reference::parts::*;
use reference::service_faults::{Machine, RIGHT};

fn wrong(name: &str) -> &'static Machine {
    WRONG.iter().find(|machine| machine.name == name).expect("a wrong machine")
}

/// What the judge says to a machine's answers, from their bytes.
fn held(machine: &Machine, records: &[Record]) -> Lengths {
    let read = lists::read(&bytes(records), &answers(machine, records)).expect("well formed");
    figure::hold(&read, figure)
}

/// The judge tells the wrong machine by this, and does not tell the right one.
fn told_by(name: &str, records: &[Record], by: &str) {
    let (right, found) = (held(&RIGHT, records), held(wrong(name), records));
    assert_eq!(right.named, Vec::<String>::new());
    assert!(found.named.iter().any(|fault| fault.contains(by)), "{name}: {:?}", found.named);
}

/// n, L and queue of the lists of make-longest that tell a wrong machine.
fn told(name: &str) -> Vec<(u8, u8, usize)> {
    let tells = |list: &Longest| held(wrong(name), &list.records).faults > 0;
    let lists = longest::all().into_iter().filter(tells);
    let mut told: Vec<_> = lists.map(|list| (list.n, list.limit, list.queue)).collect();
    told.sort_unstable();
    told.dedup();
    told
}

/// The lists of make-longest whose n, L and queue are these.
fn of_longest(test: fn(u8, u8, usize) -> bool) -> Vec<(u8, u8, usize)> {
    let all = longest::all().into_iter().map(|list| (list.n, list.limit, list.queue));
    let mut all: Vec<_> = all.filter(|&(n, limit, queue)| test(n, limit, queue)).collect();
    all.sort_unstable();
    all.dedup();
    all
}

/// The right machine keeps to the figure in all lists used here.
#[test]
fn the_right_machine_is_told_by_none() {
    let records = longest::records(&longest::all());
    assert_eq!(held(&RIGHT, &records).faults, 0);
    assert!(answers(&RIGHT, &records) == lists::answers(&bytes(&records)).expect("well formed"));
}

/// 12 comes with n = 8 and L of 7 or 8, in both queues, and nowhere else.
#[test]
fn seven_places_are_told() {
    let name = "queues of 7 places";
    assert_eq!(told(name), of_longest(|n, limit, _| n == 8 && limit >= 7));
    for limit in [7, 8] {
        told_by(name, &longest_opened_by_08(8, limit, RETURN).records, "Deliver(");
        told_by(name, &longest_opened_by_08(8, limit, DOWN).records, "Serve(");
        told_by(name, &longest_opened_by_08(8, limit, DOWN).records, "refused by 12");
    }
}

/// Two ejects and the answers: one too many. With n = 2 there is one line.
#[test]
fn two_evictions_are_told() {
    let name = "a begin evicts two lines";
    assert_eq!(told(name), of_longest(|n, _, queue| n > 2 && queue == RETURN));
    told_by(name, &longest_opened_by_08(3, 1, RETURN).records, HELD[RETURN]);
    // The ninth message of a queue.
    told_by(name, &longest_opened_by_08(8, 8, RETURN).records, "refused by 12");
}

/// A lane that has its bare grant queued begins once more and evicts a line: the eject
/// and the grant are there at once.
#[test]
fn a_second_begin_is_told() {
    let name = "a begin while the lane waits";
    assert_eq!(told(name), of_longest(|_, limit, queue| limit % 4 == 3 && queue == DOWN));
    told_by(name, &longest_opened_by_08(2, 3, DOWN).records, HELD[TOGETHER]);
    // The grant is refused by 16 from then on and stays, with all behind it.
    let mut records = vec![Record::OpenLimit { n: 2, c: 1, m: 4, limit: 1 }];
    for block in 0..3 {
        records.extend([begin(0, Op::Load, block), call(Call::Serve(0))]);
        records.push(call(Call::Return(0)));
    }
    records.extend([Record::Show, SETTLE, Record::Show]);
    told_by(name, &records, HELD[DOWN]);
}

/// The figure does not tell this one. A begin evicts when all lines are valid, and then
/// a line is free until a grant fills it. The serve for that comes when the eject is
/// taken, by 11. So there is one eject at most, though 8 is never given to a lane that
/// waits unserved. All stores of small shapes are in `figure_explore.rs`.
#[test]
fn a_second_begin_before_the_serve_is_not_told() {
    let mut records = longest::records(&longest::all());
    records.extend((0..400).flat_map(|index| list_maker::make(1, index)));
    assert_eq!(held(&BEGINS_UNSERVED, &records).named, Vec::<String>::new());
    assert!(answers(&BEGINS_UNSERVED, &records) != answers(&RIGHT, &records));
}

/// Lanes 1 and 2 ask for block 0, which lanes 0 and 3 have; lane 3 answers each order
/// that it has, and lane 1 goes on to block 1 as soon as it may.
fn two_ask_for_one_block(n: u8, limit: u8) -> Vec<Record> {
    let mut records = vec![Record::OpenLimit { n, c: 2, m: 3, limit }];
    for (lane, block) in [(0, 0), (3, 0), (0, 1)] {
        records.extend([begin(lane, Op::Load, block), SETTLE]);
    }
    // Block 1 is evicted, and lane 0 stays PRESENT for it.
    records.push(begin(0, Op::Load, 2));
    for lane in [1, 2] {
        records.extend([begin(lane, Op::Add(1), 0), call(Call::Serve(lane))]);
    }
    for _ in 0..2 {
        records.extend([call(Call::Deliver(3)), call(Call::Return(3))]);
    }
    records.extend([call(Call::Deliver(1)), begin(1, Op::Add(1), 1), call(Call::Serve(1))]);
    records.push(Record::Show);
    records.extend([(); 3].map(|()| call(Call::Deliver(0))));
    records.extend([Record::Show, SETTLE, Record::Show]);
    records
}

/// A second service of the block alone is not too much: a lane gets two orders, of two
/// services. But both answers of lane 3 lower the count of the first service, which so
/// closes though lane 0 owes it an answer still. Then lane 0 has three orders of two
/// services. The machine may not give 14 for two services of one block; else no call
/// goes on, and the figure does not tell it.
#[test]
fn two_services_of_a_block_are_told() {
    let name = "10 for the block never";
    let records = two_ask_for_one_block(4, 2);
    told_by(name, &records, HELD[TOGETHER]);
    told_by(name, &records, HELD[RETURN]);
    // In the lists of make-longest each lane asks for a block of its own.
    assert_eq!(told(name), vec![]);
}

/// All others are served.
#[test]
fn no_limit_is_told() {
    let name = "10 for L never";
    assert_eq!(told(name), of_longest(|n, limit, _| limit < n - 1));
    told_by(name, &longest_opened_by_08(3, 1, RETURN).records, HELD[RETURN]);
    told_by(name, &longest_opened_by_08(3, 1, DOWN).records, HELD[DOWN]);
}

/// The eject and the grant are there at once: neither queue is too long, but both are
/// together.
#[test]
fn a_serve_before_the_returns_is_told() {
    let name = "11 never";
    assert_eq!(told(name), of_longest(|_, _, queue| queue == RETURN));
    let found = held(wrong(name), &longest_opened_by_08(2, 1, RETURN).records);
    assert!(found.faults > 0);
    assert!(found.named.iter().all(|fault| fault.contains(HELD[TOGETHER])), "{:?}", found.named);
}

/// Lane 1 asks for one block after another, with its services open still.
#[test]
fn early_grants_are_told() {
    let mut records = vec![Record::OpenLimit { n: 2, c: 3, m: 3, limit: 3 }];
    (0..3).for_each(|block| records.extend([begin(0, Op::Load, block), SETTLE]));
    for block in 0..3 {
        records.extend([begin(1, Op::Add(1), block), call(Call::Serve(1))]);
        records.push(call(Call::Deliver(1)));
    }
    records.extend([Record::Show, SETTLE, Record::Show]);
    told_by("the grant at once, before the answers", &records, HELD[DOWN]);
}

/// The figure does not tell this machine: a service sends a lane one order at most,
/// PRESENT or not, so its queues are no longer (see `figure_explore.rs` for all stores
/// of small shapes). Other bytes tell it.
#[test]
fn orders_to_all_are_not_told() {
    let mut records = longest::records(&longest::all());
    records.extend((0..400).flat_map(|index| list_maker::make(1, index)));
    assert_eq!(held(&ORDERS_TO_ALL, &records).named, Vec::<String>::new());
    assert!(answers(&ORDERS_TO_ALL, &records) != answers(&RIGHT, &records));
}

#[test]
fn each_wrong_machine_has_a_name_of_its_own() {
    let mut names: Vec<&str> = WRONG.iter().map(|machine| machine.name).collect();
    names.sort_unstable();
    names.dedup();
    assert_eq!(names.len(), WRONG.len());
}

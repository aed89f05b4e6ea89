//! W2: the picture's records by block, then by lane, then by line. The checks
//! here read the bytes back and never sort.

use reference::held::{self, HeldAnswer, HeldCall};
use reference::machine;
use reference::parts::*;
use reference::pictures;
use reference::rng::Rng;
use reference::{scramble, stores};
use std::collections::BTreeSet;

const FILL: u8 = 0xa5;
const ROOM: usize = 1_300;

#[derive(Clone, Copy, PartialEq, Eq, Debug)]
struct Record {
    lane: u8,
    block: u8,
    words: Words,
}

/// The bytes of a picture; all room after them is as before.
fn picture(s: &Store) -> Vec<u8> {
    let mut buffer = [FILL; ROOM];
    let length = machine::picture(s, &mut buffer).expect("not refused");
    assert!(buffer[length..].iter().all(|&byte| byte == FILL));
    buffer[..length].to_vec()
}

/// Reads records of 19 bytes back.
fn records(bytes: &[u8]) -> Vec<Record> {
    assert_eq!(bytes.len() % 19, 0);
    let word = |record: &[u8], at: usize| {
        (0..4).map(|i| u32::from(record[at + i]) << (8 * i)).sum::<u32>()
    };
    let read = |record: &[u8]| {
        assert_eq!(record[0], 0x10);
        let words = [3, 7, 11, 15].map(|at| word(record, at));
        Record { lane: record[1], block: record[2], words }
    };
    bytes.chunks(19).map(read).collect()
}

/// The words of a lane's valid lines of a block, by line.
fn words_held(s: &Store, lane: u8, block: u8) -> Vec<Words> {
    let lines = s.lanes[usize::from(lane)].lines.iter().take(usize::from(s.c));
    lines.filter(|line| line.valid && line.block == block).map(|line| line.words).collect()
}

fn valid_lines(s: &Store) -> usize {
    let valid = |k: u8, i: u8| s.lanes[usize::from(k)].lines[usize::from(i)].valid;
    (0..s.n).map(|k| (0..s.c).filter(|&i| valid(k, i)).count()).sum()
}

/// Neighbours go up by block, in a block by lane; the records of one block and
/// lane are its valid lines by number; there are no others.
fn in_order(s: &Store, bytes: &[u8]) -> bool {
    let records = records(bytes);
    let up = |pair: &[Record]| {
        let (one, next) = (pair[0], pair[1]);
        one.block < next.block || (one.block == next.block && one.lane <= next.lane)
    };
    let shown = |lane: u8, block: u8| -> Vec<Words> {
        let alike = records.iter().filter(|r| r.lane == lane && r.block == block);
        alike.map(|record| record.words).collect()
    };
    records.windows(2).all(up)
        && records.len() == valid_lines(s)
        && (0..s.n).all(|k| (0..s.m).all(|a| shown(k, a) == words_held(s, k, a)))
}

/// The same again: a valid line's record has so many before it as there are
/// valid lines of lower blocks, of its block in lower lanes, and of its block
/// and lane with lower numbers.
fn each_in_its_place(s: &Store, bytes: &[u8]) -> bool {
    let (records, mut taken) = (records(bytes), BTreeSet::new());
    let count = |lane: u8, blocks: std::ops::Range<u8>| -> usize {
        blocks.map(|a| words_held(s, lane, a).len()).sum()
    };
    for (k, a) in (0..s.n).flat_map(|k| (0..s.m).map(move |a| (k, a))) {
        let lower_blocks: usize = (0..s.n).map(|j| count(j, 0..a)).sum();
        let lower_lanes: usize = (0..k).map(|j| count(j, a..a + 1)).sum();
        for (lower_lines, words) in words_held(s, k, a).into_iter().enumerate() {
            let place = lower_blocks + lower_lanes + lower_lines;
            if records.get(place) != Some(&Record { lane: k, block: a, words }) {
                return false;
            }
            taken.insert(place);
        }
    }
    taken.len() == records.len() && records.len() == valid_lines(s)
}

fn line(block: u8, word: u32) -> Line {
    Line { valid: true, private: false, block, words: [word, 0, 0, word] }
}

/// A store with lines given by lane, line, block and a word of their own.
fn store(n: u8, c: u8, m: u8, lines: &[(usize, usize, u8, u32)]) -> Store {
    let mut s = Store::fresh(n, c, m);
    for &(k, i, block, word) in lines {
        s.lanes[k].lines[i] = line(block, word);
    }
    s
}

/// The picture's records must be these, each by block, lane and its word.
fn shows(s: &Store, want: &[(u8, u8, u32)]) {
    let bytes = picture(s);
    let got: Vec<_> = records(&bytes).iter().map(|r| (r.block, r.lane, r.words[0])).collect();
    assert_eq!(got, want);
    assert!(in_order(s, &bytes) && each_in_its_place(s, &bytes));
}

#[test]
fn bytes_of_two_records() {
    let mut s = Store::fresh(3, 2, 9);
    s.lanes[0].lines[1] = Line { valid: true, private: true, block: 8, words: [1, 2, 3, u32::MAX] };
    s.lanes[2].lines[0] = Line { block: 7, words: [0x0403_0201, 0, 0, 5], ..line(0, 0) };
    let want = [
        0x10, 2, 7, 1, 2, 3, 4, 0, 0, 0, 0, 0, 0, 0, 0, 5, 0, 0, 0, // block 7
        0x10, 0, 8, 1, 0, 0, 0, 2, 0, 0, 0, 3, 0, 0, 0, 255, 255, 255, 255, // block 8
    ];
    assert_eq!(picture(&s), want);
    let mut exact = [FILL; 38];
    assert_eq!(machine::picture(&s, &mut exact), Ok(38));
    assert_eq!(exact, want);
    let mut short = [FILL; 37];
    assert_eq!(machine::picture(&s, &mut short), Err(15));
    assert_eq!(short, [FILL; 37]);
    s.m = 8;
    assert_eq!(machine::picture(&s, &mut exact), Err(14));
    assert_eq!(exact, want);
}

#[test]
fn no_records() {
    shows(&Store::fresh(2, 1, 1), &[]);
    assert_eq!(machine::picture(&Store::fresh(8, 8, 64), &mut []), Ok(0));
}

#[test]
fn blocks_go_before_lanes() {
    shows(&store(2, 1, 2, &[(0, 0, 1, 10), (1, 0, 0, 20)]), &[(0, 1, 20), (1, 0, 10)]);
    let s = store(3, 2, 3, &[(0, 0, 2, 10), (0, 1, 1, 11), (1, 0, 0, 20), (2, 1, 1, 30)]);
    shows(&s, &[(0, 1, 20), (1, 0, 11), (1, 2, 30), (2, 0, 10)]);
}

#[test]
fn blocks_go_before_lines() {
    let s = store(2, 3, 3, &[(1, 0, 2, 1), (1, 1, 1, 2), (1, 2, 0, 3)]);
    shows(&s, &[(0, 1, 3), (1, 1, 2), (2, 1, 1)]);
}

#[test]
fn a_block_goes_lane_by_lane() {
    let s = store(3, 2, 2, &[(0, 1, 1, 10), (1, 0, 1, 20), (2, 1, 1, 30), (2, 0, 0, 40)]);
    shows(&s, &[(0, 2, 40), (1, 0, 10), (1, 1, 20), (1, 2, 30)]);
}

/// Two lines in lane 0 and three in lane 1, that the lines' numbers mix and
/// whose words go down.
#[test]
fn a_block_in_several_lines_of_a_lane() {
    let two = [(0, 1, 2, 90), (0, 3, 2, 80)];
    let three = [(1, 0, 2, 70), (1, 2, 2, 60), (1, 3, 2, 50)];
    let others = [(0, 2, 3, 9), (1, 1, 0, 8), (0, 0, 1, 7)];
    let mut s = store(2, 4, 4, &[&two[..], &three, &others].concat());
    let block_2 = [(2, 0, 90), (2, 0, 80), (2, 1, 70), (2, 1, 60), (2, 1, 50)];
    let want = [&[(0, 1, 8), (1, 0, 7)][..], &block_2, &[(3, 0, 9)]].concat();
    shows(&s, &want);
    // Neither the use order nor PRIVATE shows.
    (s.lanes[0].order, s.lanes[1].order) = ([3, 1, 0, 2, 4, 5, 6, 7], [3, 2, 1, 0, 4, 5, 6, 7]);
    s.lanes[1].lines[2].private = true;
    shows(&s, &want);
}

/// Two lines of one block, lane and words still have a record each.
#[test]
fn equal_lines_have_a_record_each() {
    shows(&store(2, 2, 1, &[(1, 0, 0, 5), (1, 1, 0, 5)]), &[(0, 1, 5), (0, 1, 5)]);
}

#[test]
fn the_highest_block_is_last() {
    let s = store(8, 8, 64, &[(0, 0, 63, 1), (7, 7, 0, 2), (7, 0, 63, 3), (3, 4, 62, 4)]);
    shows(&s, &[(0, 7, 2), (62, 3, 4), (63, 0, 1), (63, 7, 3)]);
    shows(&store(2, 1, 64, &[(0, 0, 63, 1)]), &[(63, 0, 1)]);
    shows(&store(2, 1, 1, &[(1, 0, 0, 1), (0, 0, 0, 2)]), &[(0, 0, 2), (0, 1, 1)]);
}

#[test]
fn invalid_lines_have_no_record() {
    let mut s = store(2, 3, 4, &[(0, 0, 3, 1), (0, 1, 0, 2), (0, 2, 1, 3), (1, 0, 0, 4)]);
    s.lanes[0].lines[1].valid = false;
    shows(&s, &[(0, 1, 4), (1, 0, 3), (3, 0, 1)]);
    // Nor does its block have to be one that there is.
    s.lanes[0].lines[1].block = 255;
    shows(&s, &[(0, 1, 4), (1, 0, 3), (3, 0, 1)]);
}

#[test]
fn lines_past_c_and_lanes_past_n_have_no_record() {
    let own = [(0, 0, 2, 1), (1, 1, 1, 2)];
    let past = [(0, 2, 0, 3), (1, 7, 1, 4), (2, 0, 0, 5), (7, 7, 2, 6), (2, 1, 200, 7)];
    shows(&store(2, 2, 3, &[&own[..], &past].concat()), &[(1, 1, 2), (2, 0, 1)]);
}

/// All 64 lines, with the blocks against lanes and lines; and all of one block.
#[test]
fn all_lines_valid() {
    let lines = || (0..8).flat_map(|k| (0..8).map(move |i| (k, i)));
    let number = |k: usize, i: usize| (8 * k + i) as u8;
    let each: Vec<_> = lines().map(|(k, i)| (k, i, 63 - number(i, k), 1)).collect();
    let want: Vec<_> = (0..64).map(|block| (block, 7 - block % 8, 1)).collect();
    shows(&store(8, 8, 64, &each), &want);
    let one: Vec<_> = lines().map(|(k, i)| (k, i, 63, u32::from(number(k, i)))).collect();
    let want: Vec<_> = (0..64).map(|at| (63, at as u8 / 8, at)).collect();
    shows(&store(8, 8, 64, &one), &want);
}

/// A random store, most often with lines of several blocks and lanes, and often
/// with a block in several lines of a lane.
fn random(rng: &mut Rng) -> Store {
    let (n, c) = (rng.between(2, 8) as u8, rng.between(1, 8) as u8);
    let any = rng.between(1, 64);
    let mut s = Store::fresh(n, c, rng.pick(&[2, 3, 5, 16, any, 64]) as u8);
    let valid = rng.pick(&[30, 70, 100]);
    for lane in &mut s.lanes[..usize::from(n)] {
        scramble::permute(&mut lane.order[..usize::from(c)], rng);
        for line in &mut lane.lines[..usize::from(c)] {
            let (valid, private) = (rng.chance(valid), rng.chance(50));
            *line = Line { valid, private, block: rng.byte_below(s.m), words: rng.words() };
        }
    }
    scramble::junk(&mut s, rng);
    s
}

/// How many of a picture's blocks differ, and of its lanes.
fn spread(bytes: &[u8]) -> (usize, usize) {
    let records = records(bytes);
    let blocks: BTreeSet<u8> = records.iter().map(|record| record.block).collect();
    let lanes: BTreeSet<u8> = records.iter().map(|record| record.lane).collect();
    (blocks.len(), lanes.len())
}

#[test]
fn random_stores_are_shown_in_order() {
    let (mut rng, mut several) = (Rng::new(2), 0);
    for _ in 0..20_000 {
        let s = random(&mut rng);
        let bytes = picture(&s);
        assert!(in_order(&s, &bytes) && each_in_its_place(&s, &bytes));
        let (blocks, lanes) = spread(&bytes);
        several += usize::from(blocks > 1 && lanes > 1);
    }
    assert!(several > 15_000, "{several}");
}

/// Made stores that are not corrupt, whatever their call is.
#[test]
fn made_stores_are_shown_in_order() {
    let (mut shown, mut several) = (0, 0);
    for index in 0..20_000 {
        let s = stores::make(7, index).store;
        if machine::corrupt(&s) {
            continue;
        }
        let bytes = picture(&s);
        assert!(in_order(&s, &bytes) && each_in_its_place(&s, &bytes), "case {index}");
        let (blocks, lanes) = spread(&bytes);
        shown += 1;
        several += usize::from(blocks > 1 && lanes > 1);
    }
    assert!(shown > 10_000 && several > 4_000, "{shown} {several}");
}

/// The checks above let no other bytes pass: neither wrong orders, nor two
/// records exchanged, nor one that is missing, doubled or changed.
#[test]
fn the_checks_find_what_is_wrong() {
    let (mut rng, mut wrong, mut told) = (Rng::new(3), 0, [0; pictures::WRONG.len()]);
    let mut look = |s: &Store, bytes: &[u8], right: &[u8]| {
        let holds = bytes == right;
        assert_eq!((in_order(s, bytes), each_in_its_place(s, bytes)), (holds, holds));
        wrong += usize::from(!holds);
        usize::from(!holds)
    };
    for _ in 0..2_000 {
        let s = random(&mut rng);
        let right = picture(&s);
        assert_eq!(pictures::in_order(&s, pictures::RIGHT), right);
        for (order, told) in pictures::WRONG.into_iter().zip(&mut told) {
            *told += look(&s, &pictures::in_order(&s, order), &right);
        }
        let mut parts: Vec<Vec<u8>> = right.chunks(19).map(<[u8]>::to_vec).collect();
        if parts.is_empty() {
            continue;
        }
        let (one, other) = (rng.below(parts.len()), rng.below(parts.len()));
        parts.swap(one, other);
        look(&s, &parts.concat(), &right);
        parts.swap(one, other);
        parts[one] = parts[other].clone();
        look(&s, &parts.concat(), &right);
        parts.push(parts[other].clone());
        look(&s, &parts.concat(), &right);
        look(&s, &right[19..], &right);
        let mut changed = right.clone();
        changed[19 * one + rng.between(1, 18)] ^= 1 << rng.below(8);
        look(&s, &changed, &right);
    }
    assert!(told.iter().all(|&count| count > 500) && wrong > 10_000, "{told:?} {wrong}");
}

/// Two pictures of one store are the same, and so are those of stores that
/// differ in what is no part of them, or in anything but the valid lines.
#[test]
fn only_valid_lines_show() {
    let mut rng = Rng::new(4);
    for _ in 0..2_000 {
        let s = scramble::store(&mut rng);
        let mut other = s.clone();
        scramble::junk(&mut other, &mut rng);
        let from = scramble::store(&mut rng);
        (other.completed, other.blocks) = (rng.byte().into(), Store::fresh(2, 1, 1).blocks);
        (other.limit, other.slots) = (1 + rng.byte_below(8), [None; SLOTS]);
        for (lane, from) in other.lanes[..usize::from(s.n)].iter_mut().zip(&from.lanes) {
            (lane.returns.length, lane.down.length, lane.waiting) = (0, 0, None);
            scramble::permute(&mut lane.order[..usize::from(s.c)], &mut rng);
            lane.lines.iter_mut().zip(&from.lines).for_each(|(line, f)| line.private = f.private);
        }
        assert_eq!(picture(&other), picture(&s));
        assert_eq!(picture(&s), picture(&s));
    }
}

/// Where no block is in two lines of a lane, as after any opening, the picture
/// does not show which line has which block.
#[test]
fn lines_of_different_blocks_may_change_places() {
    let (mut rng, mut compared) = (Rng::new(5), 0);
    for _ in 0..4_000 {
        let s = random(&mut rng);
        let twice = |k: u8| (0..s.m).any(|a| words_held(&s, k, a).len() > 1);
        let mut other = s.clone();
        for lane in &mut other.lanes[..usize::from(s.n)] {
            lane.lines[..usize::from(s.c)].reverse();
        }
        if !(0..s.n).any(twice) {
            assert_eq!(picture(&other), picture(&s));
            compared += 1;
        }
    }
    assert!(compared > 500, "{compared}");
}

/// The names that a picture meets.
fn names(s: &Store) -> Vec<&'static str> {
    pictures::met(s, &held::run(s, HeldCall::Picture(ROOM as u32)).answer)
}

#[test]
fn names_that_pictures_meet() {
    let s = store(2, 1, 2, &[(0, 0, 0, 1), (1, 0, 1, 2)]);
    assert_eq!(
        names(&s),
        [
            "blocks descending gives other bytes",
            "a record of block m - 1, not the only block with one"
        ]
    );
    let s = store(2, 1, 3, &[(0, 0, 1, 1), (1, 0, 0, 2)]);
    assert_eq!(
        names(&s),
        [
            "by lane, then line (as before W2) gives other bytes",
            "by lane before block gives other bytes",
            "blocks descending gives other bytes",
        ]
    );
    let mut s = store(2, 2, 1, &[(1, 0, 0, 1), (1, 1, 0, 2)]);
    let lines = [
        "lines descending gives other bytes",
        "the first line of a block in a lane written for each gives other bytes",
        "a block in two or more lines of one lane",
    ];
    assert_eq!(names(&s), lines);
    s.lanes[1].order[..2].reverse();
    assert_eq!(
        names(&s),
        [&lines[..1], &["lines by their last use gives other bytes"], &lines[1..]].concat()
    );
    s.lanes[1].lines[1].words = s.lanes[1].lines[0].words;
    assert_eq!(names(&s), lines[2..]);
}

#[test]
fn names_of_lanes_and_lines() {
    let s = store(2, 2, 1, &[(0, 1, 0, 1), (1, 0, 0, 2)]);
    assert_eq!(
        names(&s),
        [
            "by line before block gives other bytes",
            "by line before lane gives other bytes",
            "lanes descending gives other bytes",
            "a block in two or more lanes",
        ]
    );
    // The other lines are invalid, of block 0.
    let mut s = store(2, 2, 3, &[(1, 1, 1, 1)]);
    assert_eq!(names(&s), ["an invalid line with a block below that of a record"]);
    s.lanes[1].lines[1].block = 0;
    assert_eq!(names(&s), [""; 0]);
    s.lanes[1].lines[2] = line(0, 3);
    assert_eq!(names(&s), ["a valid line past line c or lane n"]);
    s.lanes[1].lines[2].valid = false;
    s.lanes[2].lines[0] = line(0, 3);
    assert_eq!(names(&s), ["a valid line past line c or lane n"]);
}

/// Refused pictures and other calls meet no name.
#[test]
fn only_pictures_that_are_given_meet_names() {
    let mut s = store(2, 1, 2, &[(0, 0, 1, 1), (1, 0, 0, 2)]);
    assert!(!names(&s).is_empty());
    let met = |s: &Store, call| pictures::met(s, &held::run(s, call).answer);
    assert_eq!(held::run(&s, HeldCall::Picture(37)).answer, HeldAnswer::Refused(15));
    assert_eq!(met(&s, HeldCall::Picture(37)), [""; 0]);
    assert_eq!(met(&s, HeldCall::Settle), [""; 0]);
    assert_eq!(met(&s, HeldCall::Machine(Call::Serve(0))), [""; 0]);
    s.m = 1;
    assert_eq!(held::run(&s, HeldCall::Picture(38)).answer, HeldAnswer::Refused(14));
    assert_eq!(names(&s), [""; 0]);
}

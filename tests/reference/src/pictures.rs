//! What held pictures meet of W2's order: stores whose picture would have other
//! bytes in another order, and lines that are easily missed or taken wrongly.

use crate::held::HeldAnswer;
use crate::machine;
use crate::parts::*;

pub const NAMES: [&str; 14] = [
    "by lane, then line (as before W2) gives other bytes",
    "by lane before block gives other bytes",
    "by line before block gives other bytes",
    "by line before lane gives other bytes",
    "blocks descending gives other bytes",
    "lanes descending gives other bytes",
    "lines descending gives other bytes",
    "lines by their last use gives other bytes",
    "the first line of a block in a lane written for each gives other bytes",
    "a block in two or more lines of one lane",
    "a block in two or more lanes",
    "a record of block m - 1, not the only block with one",
    "an invalid line with a block below that of a record",
    "a valid line past line c or lane n",
];

/// So many of the first names are of wrong pictures that have other bytes.
pub const TELLING: usize = 9;

/// A valid line, by the numbers it can be put in order by.
pub struct Entry {
    block: i16,
    lane: i16,
    line: i16,
    /// Its place in the lane's use order, oldest first.
    used: i16,
    words: Words,
}

/// Entries go by the first number, where it is equal by the second, and so on.
pub type Order = fn(&Entry) -> [i16; 3];

pub const RIGHT: Order = |e| [e.block, e.lane, e.line];

/// Wrong ones, of the first names.
pub const WRONG: [Order; 8] = [
    |e| [e.lane, e.line, e.block],
    |e| [e.lane, e.block, e.line],
    |e| [e.line, e.block, e.lane],
    |e| [e.block, e.line, e.lane],
    |e| [-e.block, e.lane, e.line],
    |e| [e.block, -e.lane, e.line],
    |e| [e.block, e.lane, -e.line],
    |e| [e.block, e.lane, e.used],
];

/// Those of `NAMES` that a case meets: a picture that is not refused.
pub fn met(s: &Store, answer: &HeldAnswer) -> Vec<&'static str> {
    if !matches!(answer, HeldAnswer::Picture(_)) {
        return Vec::new();
    }
    let right = given(s);
    let mut holds: Vec<bool> = WRONG.iter().map(|&order| in_order(s, order) != right).collect();
    holds.push(firsts(s) != right);
    holds.extend(several(s));
    holds.extend(edges(s));
    assert_eq!(holds.len(), NAMES.len());
    NAMES.into_iter().zip(holds).filter(|(_, holds)| *holds).map(|(name, _)| name).collect()
}

/// Whether the case tells the right picture from all the wrong ones at once.
pub fn tells_all(s: &Store, answer: &HeldAnswer) -> bool {
    met(s, answer).starts_with(&NAMES[..TELLING])
}

/// The picture that the machine gives of a store that is not corrupt.
fn given(s: &Store) -> Vec<u8> {
    let mut buffer = [0; LANES * LINES * machine::PICTURE_RECORD];
    let length = machine::picture(s, &mut buffer).expect("room for all lines");
    buffer[..length].to_vec()
}

/// The store's valid lines.
fn entries(s: &Store) -> Vec<Entry> {
    let (n, c) = (usize::from(s.n), usize::from(s.c));
    let lines = (0..n).flat_map(|k| (0..c).map(move |i| (k, i)));
    let valid = lines.filter(|&(k, i)| s.lanes[k].lines[i].valid);
    let entry = |(k, i): (usize, usize)| {
        let (lane, line) = (&s.lanes[k], &s.lanes[k].lines[i]);
        let used = lane.order.iter().position(|&name| usize::from(name) == i);
        Entry {
            block: i16::from(line.block),
            lane: k as i16,
            line: i as i16,
            used: used.expect("line in use order") as i16,
            words: line.words,
        }
    };
    valid.map(entry).collect()
}

fn record(entry: &Entry, words: Words) -> Vec<u8> {
    let mut bytes = vec![0x10, entry.lane as u8, entry.block as u8];
    bytes.extend(words.iter().flat_map(|word| word.to_le_bytes()));
    bytes
}

/// The picture's bytes if its records had this order.
pub fn in_order(s: &Store, order: Order) -> Vec<u8> {
    let mut entries = entries(s);
    entries.sort_by_key(order);
    entries.iter().flat_map(|entry| record(entry, entry.words)).collect()
}

/// The same in the right order, if each line of a block and lane had the words
/// of the first.
fn firsts(s: &Store) -> Vec<u8> {
    let mut entries = entries(s);
    entries.sort_by_key(RIGHT);
    let first = |e: &Entry| {
        let found = entries.iter().find(|f| (f.block, f.lane) == (e.block, e.lane));
        found.expect("itself at least").words
    };
    entries.iter().flat_map(|entry| record(entry, first(entry))).collect()
}

/// Several lines of one block: in one lane, and in several.
fn several(s: &Store) -> [bool; 2] {
    let entries = entries(s);
    let pair = |alike: fn(&Entry, &Entry) -> bool| {
        entries.iter().any(|e| entries.iter().any(|f| e.block == f.block && alike(e, f)))
    };
    [pair(|e, f| e.lane == f.lane && e.line != f.line), pair(|e, f| e.lane != f.lane)]
}

/// The last block, and lines that have no record.
fn edges(s: &Store) -> [bool; 3] {
    let (n, c) = (usize::from(s.n), usize::from(s.c));
    let blocks: Vec<i16> = entries(s).iter().map(|entry| entry.block).collect();
    let (lowest, highest) = (blocks.iter().min().copied(), blocks.iter().max().copied());
    let lines = || s.lanes[..n].iter().flat_map(|lane| &lane.lines[..c]);
    let below = |line: &Line| !line.valid && Some(i16::from(line.block)) < highest;
    let past_c = s.lanes[..n].iter().flat_map(|lane| &lane.lines[c..]).any(|line| line.valid);
    let past_n = s.lanes[n..].iter().flat_map(|lane| &lane.lines).any(|line| line.valid);
    [highest == Some(i16::from(s.m) - 1) && lowest < highest, lines().any(below), past_c || past_n]
}

//! W4's byte of a serve: bit j, of value 2 to the power j, is set where the command
//! sends lane j an order. It is worked out from the bytes of the store before, by
//! 01's sentences, and held against the bytes of the store after that a program
//! answered. Nothing of the reference's own steps enters.

use crate::flat::demand;
use crate::held::{self, ANSWER_BYTES, CASE_BYTES, STORE_BYTES};
use crate::parts::{LANES, PLACES};
use std::fmt::{self, Display, Formatter};

// Where the parts are in the bytes of a store, of a lane and of a block.
const FIRST_SLOT: usize = 8;
const SLOT_BYTES: usize = 6;
pub(crate) const SLOTS: usize = 8;
const FIRST_LANE: usize = 56;
const LANE_BYTES: usize = 458;
pub(crate) const DOWN: usize = 305;
const DOWN_BYTES: usize = 145;
pub(crate) const MESSAGE_BYTES: usize = 18;
pub(crate) const WAITING: usize = 450;
const FIRST_BLOCK: usize = 3_720;
const BLOCK_BYTES: usize = 25;
const PRESENT: usize = 16;
const MODIFIED: usize = 24;

const SERVE_KIND: u8 = 0x05;
const STEP_TAG: u8 = 3;
const REFUSED_TAG: u8 = 4;
pub(crate) const UNSERVED_TAG: u8 = 1;
pub(crate) const BUSY_TAG: u8 = 1;

const READ_SHARED: u8 = 0;

pub(crate) const UPDATE: u8 = 0;
pub(crate) const PURGE: u8 = 1;
const GRANT: u8 = 2;
const BARE_GRANT: u8 = 3;

/// The words' bytes of a message without words.
const NO_WORDS: [u8; 16] = [0; 16];

/// So many wrong cases are named.
const NAMED: usize = 20;

pub(crate) fn lane(store: &[u8], j: usize) -> &[u8] {
    &store[FIRST_LANE + j * LANE_BYTES..][..LANE_BYTES]
}

pub(crate) fn slot(store: &[u8], i: usize) -> &[u8] {
    &store[FIRST_SLOT + i * SLOT_BYTES..][..SLOT_BYTES]
}

fn down(store: &[u8], j: usize) -> &[u8] {
    &lane(store, j)[DOWN..][..DOWN_BYTES]
}

/// What a serve takes: lane k's command for a block.
struct Taken<'a> {
    k: u8,
    command: u8,
    block: u8,
    /// The block in main memory: words, PRESENT flags, MODIFIED.
    entry: &'a [u8],
}

impl Taken<'_> {
    fn of(store: &[u8], k: u8) -> Result<Taken<'_>, String> {
        let known = k < store[0] && usize::from(k) < LANES;
        demand(known, "a step of a lane that the store has not")?;
        let waiting = &lane(store, usize::from(k))[WAITING..];
        let (tag, command, word) = (waiting[0], waiting[1], waiting[7]);
        demand(tag == UNSERVED_TAG, "a step without an unserved operation")?;
        let block = word / 4;
        let entry = &store[FIRST_BLOCK + usize::from(block) * BLOCK_BYTES..][..BLOCK_BYTES];
        Ok(Taken { k, command, block, entry })
    }

    /// READ shared orders every other PRESENT lane if MODIFIED is set, else none;
    /// READ exclusive and EXCLUDE order every other PRESENT lane.
    fn orders(&self, j: usize) -> bool {
        let other = j != usize::from(self.k);
        let present = self.entry[PRESENT + j] == 1;
        let modified = self.entry[MODIFIED] == 1;
        match self.command {
            READ_SHARED => modified && other && present,
            _ => other && present,
        }
    }

    fn byte(&self) -> u8 {
        (0..LANES).filter(|&j| self.orders(j)).map(|j| 1 << j).sum()
    }

    /// What a down queue gained, if it is as before or has one message more.
    fn gained(&self, before: &[u8], after: &[u8]) -> Gained {
        let has = |kind, words| with_behind(before, kind, self.block, words) == after;
        let words = &self.entry[..PRESENT];
        if before == after {
            Gained::Nothing
        } else if usize::from(before[0]) >= PLACES {
            Gained::Other
        } else if has(UPDATE, &NO_WORDS) || has(PURGE, &NO_WORDS) {
            Gained::Order
        } else if has(GRANT, words) || has(BARE_GRANT, &NO_WORDS) {
            Gained::Grant
        } else {
            Gained::Other
        }
    }

    /// With orders the lowest free slot has the service, which awaits so many; all
    /// other slots, and without orders all, are as before.
    fn hold_slots(&self, before: &[u8], after: &[u8], orders: u8) -> Result<(), String> {
        let free = (0..SLOTS).find(|&i| slot(before, i)[0] != BUSY_TAG);
        let own = free.filter(|_| orders > 0);
        for i in (0..SLOTS).filter(|&i| Some(i) != own) {
            let same = slot(before, i) == slot(after, i);
            demand(same, &format!("{orders} orders, but slot {i} is another"))?;
        }
        match own {
            Some(i) => self.hold_service(slot(after, i), orders),
            None => demand(orders == 0, &format!("{orders} orders, but no slot was free")),
        }
    }

    /// The service in its slot awaits so many answers.
    fn hold_service(&self, slot: &[u8], orders: u8) -> Result<(), String> {
        let (tag, lane, block, awaited) = (slot[0], slot[1], slot[2], slot[4]);
        let own = (tag, lane, block) == (BUSY_TAG, self.k, self.block);
        demand(own, &format!("{orders} orders, but the slot has no service of this"))?;
        demand(awaited == orders, &format!("{orders} orders, but awaited is {awaited}"))
    }
}

/// A down queue that is not full, with one message behind.
fn with_behind(queue: &[u8], kind: u8, block: u8, words: &[u8]) -> Vec<u8> {
    let mut queue = queue.to_vec();
    let place = 1 + usize::from(queue[0]) * MESSAGE_BYTES;
    queue[0] += 1;
    queue[place] = kind;
    queue[place + 1] = block;
    queue[place + 2..place + MESSAGE_BYTES].copy_from_slice(words);
    queue
}

#[derive(Clone, Copy, PartialEq, Eq, Debug)]
enum Gained {
    Nothing,
    /// UPDATE or PURGE of the operation's block.
    Order,
    /// Of the operation's block, bare or with main memory's words.
    Grant,
    Other,
}

/// W4's byte of a serve of lane k, from the bytes of the store before.
pub fn byte(before: &[u8], k: u8) -> Result<u8, String> {
    Ok(Taken::of(before, k)?.byte())
}

/// Holds a serve that was a step to its byte; gives the byte.
fn hold(before: &[u8], k: u8, after: &[u8]) -> Result<u8, String> {
    let taken = Taken::of(before, k)?;
    let byte = taken.byte();
    for j in 0..LANES {
        let due = match byte >> j & 1 {
            1 => Gained::Order,
            _ if byte == 0 && j == usize::from(k) => Gained::Grant,
            _ => Gained::Nothing,
        };
        let gained = taken.gained(down(before, j), down(after, j));
        let text = format!("byte {byte:08b}, lane {j} gained {gained:?}, due is {due:?}");
        demand(gained == due, &text)?;
    }
    let told = taken.hold_slots(before, after, byte.count_ones() as u8);
    told.map_err(|text| format!("byte {byte:08b}, {text}"))?;
    Ok(byte)
}

/// Serves that hold.
#[derive(Default, Clone, Copy, PartialEq, Eq, Debug)]
pub struct Held {
    /// Steps, by the number of orders.
    pub orders: [usize; LANES],
    pub refused: usize,
}

impl Held {
    /// Any case and what was given for it; only serves count.
    fn see(&mut self, case: &[u8], given: &[u8]) -> Result<(), String> {
        let (before, call) = case.split_at(STORE_BYTES);
        let (kind, k, tag) = (call[0], call[1], given[0]);
        match (kind, tag) {
            (SERVE_KIND, REFUSED_TAG) => self.refused += 1,
            (SERVE_KIND, STEP_TAG) => {
                let byte = hold(before, k, &given[ANSWER_BYTES..])?;
                self.orders[byte.count_ones() as usize] += 1;
            }
            (SERVE_KIND, _) => return Err(format!("a serve answered with tag {tag}")),
            _ => {}
        }
        Ok(())
    }
}

/// The bytes given for a case, by its call.
pub(crate) fn given_length(case: &[u8]) -> Result<usize, String> {
    demand(case.len() == CASE_BYTES, "the cases end early")?;
    Ok(held::given_length(held::decode_call(&case[STORE_BYTES..])?))
}

/// Holds the serves among answered cases to their bytes.
pub fn of_held(cases: &[u8], answers: &[u8]) -> Result<Held, String> {
    let (mut at, mut holds, mut wrong) = (0, Held::default(), Vec::new());
    for (index, case) in cases.chunks(CASE_BYTES).enumerate() {
        let length = given_length(case).map_err(|e| format!("case {index}: {e}"))?;
        let given = answers.get(at..at + length);
        let given = given.ok_or(format!("case {index}: the answers end early"))?;
        if let Err(text) = holds.see(case, given) {
            wrong.push(format!("case {index}: {text}"));
        }
        at += length;
    }
    demand(at == answers.len(), "bytes after the last answer")?;
    let count = wrong.len();
    wrong.truncate(NAMED);
    let text = format!("{count} serves do not hold to their byte\n{}", wrong.join("\n"));
    demand(count == 0, &text)?;
    Ok(holds)
}

impl Display for Held {
    fn fmt(&self, f: &mut Formatter) -> fmt::Result {
        let count = |(orders, count): (usize, &usize)| match orders {
            0 => format!("{count} with 0 orders"),
            _ => format!("{count} with {orders}"),
        };
        let counts: Vec<String> = self.orders.iter().enumerate().map(count).collect();
        writeln!(f, "serves by their byte: {}; refused {}", counts.join(", "), self.refused)
    }
}

//! Bytes of held stores, calls, cases and answers.

use crate::machine;
use crate::parts::*;
use crate::settle::{self, Settled};

pub const STORE_BYTES: usize = 5_320;
pub const SLOT_BYTES: usize = 6;
pub const CALL_BYTES: usize = 8;
pub const CASE_BYTES: usize = STORE_BYTES + CALL_BYTES;
pub const ANSWER_BYTES: usize = 12;
pub const BUFFER_BYTES: usize = 1_300;
pub const BUFFER_FILL: u8 = 0xa5;
pub const PICTURE_KIND: u8 = 0x10;
pub const SETTLE_KIND: u8 = 0x11;

/// The answer's first byte where settle was not refused.
pub const SETTLED_TAG: u8 = 6;

/// The place of O among the answer bytes.
pub const ORDERS_AT: usize = 7;

/// Room for a completion of each lane: lane, value and place.
pub const COMPLETION_BYTES: usize = 9;
pub const COMPLETIONS_BYTES: usize = LANES * COMPLETION_BYTES;

/// What follows settle's answer: its completions, then its bound.
pub const BOUND_BYTES: usize = 2;
pub const SETTLED_BYTES: usize = COMPLETIONS_BYTES + BOUND_BYTES;

#[derive(Clone, Copy, PartialEq, Eq, Debug)]
pub enum HeldCall {
    Machine(Call),
    /// The length of the lent buffer.
    Picture(u32),
    Settle,
}

impl HeldCall {
    pub fn kind(self) -> u8 {
        match self {
            HeldCall::Machine(call) => call.kind(),
            HeldCall::Picture(_) => PICTURE_KIND,
            HeldCall::Settle => SETTLE_KIND,
        }
    }
}

#[derive(Clone, PartialEq, Eq, Debug)]
pub enum HeldAnswer {
    Machine(Answer),
    Picture(u32),
    Settled(Settled),
    Refused(u8),
}

/// What a held call gives: answer, store after, and what follows the store:
/// picture's buffer, or settle's completions and bound.
pub struct Given {
    pub answer: HeldAnswer,
    pub store: Store,
    pub after: Vec<u8>,
}

pub fn run(store: &Store, call: HeldCall) -> Given {
    run_under(store, call, Rule::LoadFillsOldest)
}

/// The same under any rule.
pub fn run_under(store: &Store, call: HeldCall, rule: Rule) -> Given {
    match call {
        HeldCall::Machine(call) => {
            let (answer, store) = match machine::call_under(store, call, rule) {
                Ok((after, answer)) => (HeldAnswer::Machine(answer), after),
                Err(number) => (HeldAnswer::Refused(number), store.clone()),
            };
            Given { answer, store, after: Vec::new() }
        }
        HeldCall::Picture(lent) => {
            let mut buffer = vec![BUFFER_FILL; BUFFER_BYTES];
            let answer = match machine::picture_under(store, &mut buffer[..lent as usize], rule) {
                Ok(length) => HeldAnswer::Picture(length as u32),
                Err(number) => HeldAnswer::Refused(number),
            };
            Given { answer, store: store.clone(), after: buffer }
        }
        HeldCall::Settle => {
            let bound = bound_bytes_under(store, rule);
            let (answer, store) = match settle::settle_under(store, rule) {
                Ok((after, given)) => (HeldAnswer::Settled(given), after),
                Err(number) => (HeldAnswer::Refused(number), store.clone()),
            };
            let after = settled_bytes(&answer, bound);
            Given { answer, store, after }
        }
    }
}

impl Given {
    pub fn bytes(&self) -> Vec<u8> {
        let mut out = answer_bytes(&self.answer).to_vec();
        out.extend(encode_store(&self.store));
        out.extend(&self.after);
        out
    }
}

/// The bytes of all that a call gives, which have a fixed length.
pub fn given_length(call: HeldCall) -> usize {
    let after = match call {
        HeldCall::Machine(_) => 0,
        HeldCall::Picture(_) => BUFFER_BYTES,
        HeldCall::Settle => SETTLED_BYTES,
    };
    ANSWER_BYTES + STORE_BYTES + after
}

/// The 12 bytes of an answer.
pub fn answer_bytes(answer: &HeldAnswer) -> [u8; ANSWER_BYTES] {
    let (tag, small, value, place) = match answer {
        HeldAnswer::Machine(Answer::Done(done)) => (1, done.lane, done.value, done.place),
        HeldAnswer::Machine(Answer::Wait) => (2, 0, 0, 0),
        HeldAnswer::Machine(Answer::Step) => (3, 0, 0, 0),
        HeldAnswer::Refused(number) => (4, *number, 0, 0),
        HeldAnswer::Picture(length) => (5, 0, *length, 0),
        HeldAnswer::Settled(given) => (SETTLED_TAG, 0, given.steps, 0),
    };
    let (v, p, listed) = (value.to_le_bytes(), place.to_le_bytes(), completions(answer).len());
    let orders = orders(answer);
    [tag, small, v[0], v[1], v[2], v[3], listed as u8, orders, p[0], p[1], p[2], p[3]]
}

/// The orders that a settle gives; 0 for all else, and for a refused one.
fn orders(answer: &HeldAnswer) -> u8 {
    match answer {
        HeldAnswer::Settled(given) => given.orders,
        _ => 0,
    }
}

/// The number in four bytes at an offset.
pub fn number_at(bytes: &[u8], at: usize) -> u32 {
    u32::from_le_bytes([bytes[at], bytes[at + 1], bytes[at + 2], bytes[at + 3]])
}

/// 01's bound on the steps of a settle of a store; 0 where that is corrupt.
pub fn bound_bytes(before: &Store) -> [u8; BOUND_BYTES] {
    bound_bytes_under(before, Rule::LoadFillsOldest)
}

/// The same under any rule.
pub fn bound_bytes_under(before: &Store, rule: Rule) -> [u8; BOUND_BYTES] {
    let bound = match machine::corrupt_under(before, rule) {
        true => 0,
        false => settle::bound(before),
    };
    u16::try_from(bound).expect("a bound of at most 8 lanes").to_le_bytes()
}

/// What follows settle's answer.
pub fn settled_bytes(answer: &HeldAnswer, bound: [u8; BOUND_BYTES]) -> Vec<u8> {
    let mut out = completions_bytes(answer).to_vec();
    out.extend(bound);
    out
}

/// The completions in order, then 0.
fn completions_bytes(answer: &HeldAnswer) -> [u8; COMPLETIONS_BYTES] {
    let mut out = [0; COMPLETIONS_BYTES];
    for (room, done) in out.chunks_mut(COMPLETION_BYTES).zip(completions(answer)) {
        room[0] = done.lane;
        room[1..5].copy_from_slice(&done.value.to_le_bytes());
        room[5..].copy_from_slice(&done.place.to_le_bytes());
    }
    out
}

/// The completions that settle lists; a refused one lists none.
fn completions(answer: &HeldAnswer) -> &[Completion] {
    match answer {
        HeldAnswer::Settled(given) => &given.completions,
        _ => &[],
    }
}

/// The answers to all cases of the input.
pub fn answers(input: &[u8]) -> Result<Vec<u8>, String> {
    let mut out = Vec::new();
    for (index, case) in input.chunks(CASE_BYTES).enumerate() {
        let (store, call) = decode_case(case).map_err(|e| format!("case {index}: {e}"))?;
        out.extend(run(&store, call).bytes());
    }
    Ok(out)
}

pub fn decode_case(case: &[u8]) -> Result<(Store, HeldCall), String> {
    if case.len() != CASE_BYTES {
        return Err(format!("{} bytes, not {CASE_BYTES}", case.len()));
    }
    let (store, call) = case.split_at(STORE_BYTES);
    Ok((decode_store(store)?, decode_call(call)?))
}

pub fn encode_case(store: &Store, call: HeldCall) -> Vec<u8> {
    let mut out = encode_store(store);
    out.extend(encode_call(call));
    out
}

pub fn encode_call(call: HeldCall) -> [u8; CALL_BYTES] {
    let (lane, word, v) = match call {
        HeldCall::Machine(Call::Begin { lane, op, word }) => (lane, word, operand(op)),
        HeldCall::Machine(call) => (call.lane(), 0, 0),
        HeldCall::Picture(lent) => (0, 0, lent),
        HeldCall::Settle => (0, 0, 0),
    };
    let v = v.to_le_bytes();
    [call.kind(), lane, word, v[0], v[1], v[2], v[3], 0]
}

pub fn decode_call(bytes: &[u8]) -> Result<HeldCall, String> {
    let (kind, lane, word) = (bytes[0], bytes[1], bytes[2]);
    let v = number_at(bytes, 3);
    let begin = |op| Call::Begin { lane, op, word };
    Ok(HeldCall::Machine(match kind {
        0x01 => begin(Op::Load),
        0x02 => begin(Op::Store(v)),
        0x03 => begin(Op::Exchange(v)),
        0x04 => begin(Op::Add(v)),
        0x05 => Call::Serve(lane),
        0x06 => Call::Return(lane),
        0x07 => Call::Deliver(lane),
        PICTURE_KIND if v as usize <= BUFFER_BYTES => return Ok(HeldCall::Picture(v)),
        SETTLE_KIND => return Ok(HeldCall::Settle),
        _ => return Err(format!("call kind {kind:#04x} with v {v}")),
    }))
}

fn operand(op: Op) -> u32 {
    match op {
        Op::Load => 0,
        Op::Store(v) | Op::Exchange(v) | Op::Add(v) => v,
    }
}

const COMMANDS: [Command; 3] = [Command::ReadShared, Command::ReadExclusive, Command::Exclude];

const RETURN_KINDS: [ReturnKind; 6] = [
    ReturnKind::Eject,
    ReturnKind::WriteEject,
    ReturnKind::Updated,
    ReturnKind::Purged,
    ReturnKind::PurgedWords,
    ReturnKind::Gone,
];

const DOWN_KINDS: [DownKind; 4] =
    [DownKind::Update, DownKind::Purge, DownKind::Grant, DownKind::BareGrant];

fn index_of<T: PartialEq>(table: &[T], item: T) -> u8 {
    table.iter().position(|entry| *entry == item).expect("item in its table") as u8
}

pub fn encode_store(s: &Store) -> Vec<u8> {
    let mut out = vec![s.n, s.c, s.m, s.limit];
    out.extend(s.completed.to_le_bytes());
    s.slots.iter().for_each(|slot| out.extend(slot_bytes(slot)));
    s.lanes.iter().for_each(|lane| encode_lane(lane, &mut out));
    for block in &s.blocks {
        encode_words(&block.words, &mut out);
        out.extend(block.present.map(u8::from));
        out.push(u8::from(block.modified));
    }
    assert_eq!(out.len(), STORE_BYTES);
    out
}

/// A free slot has all bytes 0.
fn slot_bytes(slot: &Option<Service>) -> [u8; SLOT_BYTES] {
    match slot {
        None => [0; SLOT_BYTES],
        Some(v) => {
            let command = index_of(&COMMANDS, v.command);
            [1, v.lane, v.block, command, v.awaited, u8::from(v.bare)]
        }
    }
}

fn encode_words(words: &Words, out: &mut Vec<u8>) {
    words.iter().for_each(|w| out.extend(w.to_le_bytes()));
}

fn encode_lane(lane: &Lane, out: &mut Vec<u8>) {
    for line in &lane.lines {
        out.extend([u8::from(line.valid), u8::from(line.private), line.block]);
        encode_words(&line.words, out);
    }
    out.extend(lane.order);
    encode_queue(&lane.returns, &RETURN_KINDS, out);
    encode_queue(&lane.down, &DOWN_KINDS, out);
    out.extend(match lane.waiting {
        None => [0; 8],
        Some(w) => {
            let op = Call::Begin { lane: 0, op: w.op, word: 0 }.kind() - 1;
            let v = operand(w.op).to_le_bytes();
            let command = index_of(&COMMANDS, w.command);
            [1 + u8::from(w.served), command, op, v[0], v[1], v[2], v[3], w.word]
        }
    });
}

fn encode_queue<K: Copy + PartialEq>(queue: &Queue<K>, kinds: &[K], out: &mut Vec<u8>) {
    out.push(queue.length);
    for message in &queue.places {
        out.extend([index_of(kinds, message.kind), message.block]);
        encode_words(&message.words, out);
    }
}

struct Reader<'a> {
    bytes: &'a [u8],
    at: usize,
}

impl Reader<'_> {
    fn byte(&mut self) -> u8 {
        self.at += 1;
        self.bytes[self.at - 1]
    }

    fn word(&mut self) -> u32 {
        self.at += 4;
        number_at(self.bytes, self.at - 4)
    }

    fn words(&mut self) -> Words {
        [self.word(), self.word(), self.word(), self.word()]
    }

    /// An entry of a table, by its index.
    fn entry<T: Copy>(&mut self, table: &[T]) -> Result<T, String> {
        let index = self.byte();
        let found = table.get(usize::from(index)).copied();
        found.ok_or(format!("byte {} is {index}", self.at - 1))
    }

    fn flag(&mut self) -> Result<bool, String> {
        self.entry(&[false, true])
    }
}

pub fn decode_store(bytes: &[u8]) -> Result<Store, String> {
    let mut r = Reader { bytes, at: 0 };
    let mut s = Store::with_limit(r.byte(), r.byte(), r.byte(), r.byte());
    s.completed = r.word();
    s.slots.iter_mut().try_for_each(|slot| decode_slot(&mut r, slot))?;
    s.lanes.iter_mut().try_for_each(|lane| decode_lane(&mut r, lane))?;
    s.blocks.iter_mut().try_for_each(|block| decode_block(&mut r, block))?;
    // Free and idle have no other content; a load has no v.
    match encode_store(&s) == bytes {
        true => Ok(s),
        false => Err("bytes under a free, idle or load tag are not 0".to_string()),
    }
}

fn decode_slot(r: &mut Reader, slot: &mut Option<Service>) -> Result<(), String> {
    let (busy, lane, block) = (r.flag()?, r.byte(), r.byte());
    let (command, awaited, bare) = (r.entry(&COMMANDS)?, r.byte(), r.flag()?);
    *slot = busy.then_some(Service { lane, block, command, awaited, bare });
    Ok(())
}

fn decode_block(r: &mut Reader, block: &mut Block) -> Result<(), String> {
    block.words = r.words();
    for flag in &mut block.present {
        *flag = r.flag()?;
    }
    block.modified = r.flag()?;
    Ok(())
}

fn decode_lane(r: &mut Reader, lane: &mut Lane) -> Result<(), String> {
    for line in &mut lane.lines {
        (line.valid, line.private) = (r.flag()?, r.flag()?);
        (line.block, line.words) = (r.byte(), r.words());
    }
    lane.order = std::array::from_fn(|_| r.byte());
    decode_queue(r, &RETURN_KINDS, &mut lane.returns)?;
    decode_queue(r, &DOWN_KINDS, &mut lane.down)?;
    let (tag, command) = (r.entry(&[0, 1, 2])?, r.entry(&COMMANDS)?);
    let (op, v) = (r.entry(&[0, 1, 2, 3])?, r.word());
    let op = [Op::Load, Op::Store(v), Op::Exchange(v), Op::Add(v)][op];
    let waiting = Waiting { served: tag == 2, command, op, word: r.byte() };
    lane.waiting = (tag != 0).then_some(waiting);
    Ok(())
}

fn decode_queue<K: Copy>(r: &mut Reader, kinds: &[K], queue: &mut Queue<K>) -> Result<(), String> {
    queue.length = r.byte();
    for message in &mut queue.places {
        (message.kind, message.block, message.words) = (r.entry(kinds)?, r.byte(), r.words());
    }
    Ok(())
}

/// The name of the part of a store that a byte belongs to.
pub fn part_name(offset: usize) -> String {
    let words = |at: usize| format!("word {} byte {}", at / 4, at % 4);
    match offset {
        0..=3 => ["n", "c", "m", "L"][offset].to_string(),
        4..=7 => format!("completions byte {}", offset - 4),
        8..=55 => {
            let names = ["tag", "lane", "block", "command", "awaited", "bare"];
            format!("slot {} {}", (offset - 8) / SLOT_BYTES, names[(offset - 8) % SLOT_BYTES])
        }
        56..=3719 => {
            let (lane, at) = ((offset - 56) / 458, (offset - 56) % 458);
            format!("lane {lane} {}", lane_part_name(at))
        }
        _ => {
            let (block, at) = ((offset - 3720) / 25, (offset - 3720) % 25);
            let part = match at {
                0..=15 => words(at),
                16..=23 => format!("PRESENT {}", at - 16),
                _ => "MODIFIED".to_string(),
            };
            format!("block {block} {part}")
        }
    }
}

fn lane_part_name(at: usize) -> String {
    let fields = |at: usize, first: &[&str]| match first.get(at) {
        Some(name) => name.to_string(),
        None => format!("word {} byte {}", (at - first.len()) / 4, (at - first.len()) % 4),
    };
    let queue = |name: &str, at: usize| match at {
        0 => format!("{name} queue length"),
        _ => format!(
            "{name} queue place {} {}",
            (at - 1) / 18,
            fields((at - 1) % 18, &["kind", "block"])
        ),
    };
    match at {
        0..=151 => format!("line {} {}", at / 19, fields(at % 19, &["VALID", "PRIVATE", "block"])),
        152..=159 => format!("use order {}", at - 152),
        160..=304 => queue("return", at - 160),
        305..=449 => queue("down", at - 305),
        _ => format!("waiting byte {}", at - 450),
    }
}

/// Where other answers to the same cases differ; at most `most` lines.
pub fn differences(input: &[u8], other: &[u8], most: usize) -> Result<Vec<String>, String> {
    let (mut at, mut found) = (0, Vec::new());
    for (index, case) in input.chunks(CASE_BYTES).enumerate() {
        let (store, call) = decode_case(case).map_err(|e| format!("case {index}: {e}"))?;
        let own = run(&store, call);
        let bytes = own.bytes();
        let theirs = other.get(at..at + bytes.len());
        at += bytes.len();
        let place = match theirs {
            None => "the answers end early".to_string(),
            Some(theirs) => match bytes.iter().zip(theirs).position(|(a, b)| a != b) {
                None => continue,
                Some(i) => format!("{}: {} and {}", answer_part_name(i), bytes[i], theirs[i]),
            },
        };
        found.push(format!("case {index} {call:?} gives {:?}; {place}", own.answer));
        if found.len() == most || theirs.is_none() {
            return Ok(found);
        }
    }
    if at < other.len() {
        found.push(format!("{} bytes after the last answer", other.len() - at));
    }
    Ok(found)
}

/// The name of an answer byte.
pub fn answer_byte_name(offset: usize) -> String {
    match offset {
        ORDERS_AT => format!("answer byte {offset} (O)"),
        _ => format!("answer byte {offset}"),
    }
}

fn answer_part_name(offset: usize) -> String {
    if offset < ANSWER_BYTES {
        answer_byte_name(offset)
    } else if offset < ANSWER_BYTES + STORE_BYTES {
        part_name(offset - ANSWER_BYTES)
    } else {
        format!("byte {} after the store", offset - ANSWER_BYTES - STORE_BYTES)
    }
}

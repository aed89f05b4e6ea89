//! Bytes of lists of calls and of their answers. A list is an opening and
//! the records up to the next; see README.md.

use crate::held::{self, HeldAnswer, HeldCall, COMPLETION_BYTES, PICTURE_KIND};
use crate::machine;
use crate::parts::*;
use crate::settle::Settled;

pub const RECORD_BYTES: usize = held::CALL_BYTES;
pub const OPEN_KIND: u8 = 0x00;
pub const OPEN_LIMIT_KIND: u8 = 0x08;
pub const SHOW_KIND: u8 = 0x12;

#[derive(Clone, Copy, PartialEq, Eq, Debug)]
pub enum Record {
    /// L is 1.
    Open {
        n: u8,
        c: u8,
        m: u8,
    },
    OpenLimit {
        n: u8,
        c: u8,
        m: u8,
        limit: u8,
    },
    /// Any call but picture.
    Call(HeldCall),
    /// Gives the bytes of the store.
    Show,
}

impl Record {
    pub fn bytes(self) -> [u8; RECORD_BYTES] {
        match self {
            Record::Open { n, c, m } => [OPEN_KIND, n, c, m, 0, 0, 0, 0],
            Record::OpenLimit { n, c, m, limit } => [OPEN_LIMIT_KIND, n, c, m, limit, 0, 0, 0],
            Record::Call(call) => held::encode_call(call),
            Record::Show => [SHOW_KIND, 0, 0, 0, 0, 0, 0, 0],
        }
    }

    /// n, c, m and L of an opening.
    pub fn opens(self) -> Option<(u8, u8, u8, u8)> {
        match self {
            Record::Open { n, c, m } => Some((n, c, m, 1)),
            Record::OpenLimit { n, c, m, limit } => Some((n, c, m, limit)),
            Record::Call(_) | Record::Show => None,
        }
    }

    /// The bytes of its answer, which has a fixed length.
    pub fn answer_length(self) -> usize {
        match self {
            Record::Open { .. } | Record::OpenLimit { .. } => held::ANSWER_BYTES,
            Record::Call(HeldCall::Settle) => held::ANSWER_BYTES + held::SETTLED_BYTES,
            Record::Call(_) => held::ANSWER_BYTES,
            Record::Show => held::STORE_BYTES,
        }
    }
}

/// The records of the input; it must end with a whole one.
pub fn records(input: &[u8]) -> Result<Vec<Record>, String> {
    let parse = |(index, bytes): (usize, &[u8])| {
        record(bytes).map_err(|text| format!("record {index}: {text}"))
    };
    input.chunks(RECORD_BYTES).enumerate().map(parse).collect()
}

fn record(bytes: &[u8]) -> Result<Record, String> {
    if bytes.len() != RECORD_BYTES {
        return Err(format!("{} bytes, not {RECORD_BYTES}", bytes.len()));
    }
    Ok(match bytes[0] {
        OPEN_KIND => Record::Open { n: bytes[1], c: bytes[2], m: bytes[3] },
        OPEN_LIMIT_KIND => {
            Record::OpenLimit { n: bytes[1], c: bytes[2], m: bytes[3], limit: bytes[4] }
        }
        SHOW_KIND => Record::Show,
        PICTURE_KIND => return Err("picture in a list".to_string()),
        _ => Record::Call(held::decode_call(bytes)?),
    })
}

/// What a record gives.
#[derive(Clone, PartialEq, Eq, Debug)]
pub enum Given {
    Opened,
    Answer(HeldAnswer),
    Store(Box<Store>),
}

/// One record on the store that the records before it left. Before the first
/// opening, and after a refused one, that is the blank store.
pub fn run(store: &mut Store, record: Record) -> Given {
    run_under(store, record, Rule::LoadFillsOldest)
}

/// The same under any rule.
pub fn run_under(store: &mut Store, record: Record, rule: Rule) -> Given {
    match record {
        Record::Open { n, c, m } => opened(store, machine::open(n, c, m)),
        Record::OpenLimit { n, c, m, limit } => {
            opened(store, machine::open_with_limit(n, c, m, limit))
        }
        Record::Call(call) => {
            let given = held::run_under(store, call, rule);
            *store = given.store;
            Given::Answer(given.answer)
        }
        Record::Show => Given::Store(Box::new(store.clone())),
    }
}

/// A refused opening leaves the blank store.
fn opened(store: &mut Store, result: Result<Store, u8>) -> Given {
    match result {
        Ok(opened) => {
            *store = opened;
            Given::Opened
        }
        Err(number) => {
            *store = blank();
            Given::Answer(HeldAnswer::Refused(number))
        }
    }
}

pub fn blank() -> Store {
    Store::with_limit(0, 0, 0, 0)
}

/// The bytes that a record's answer has; the bound is that of the store before,
/// and stands in settle's only.
pub fn answer_bytes(record: Record, given: &Given, bound: [u8; held::BOUND_BYTES]) -> Vec<u8> {
    let mut out = match given {
        Given::Opened => vec![0; held::ANSWER_BYTES],
        Given::Answer(answer) => held::answer_bytes(answer).to_vec(),
        Given::Store(store) => held::encode_store(store),
    };
    if let (Record::Call(HeldCall::Settle), Given::Answer(answer)) = (record, given) {
        out.extend(held::settled_bytes(answer, bound));
    }
    out
}

/// The answers to all records of the input.
pub fn answers(input: &[u8]) -> Result<Vec<u8>, String> {
    let (mut store, mut out) = (blank(), Vec::new());
    for record in records(input)? {
        let bound = held::bound_bytes(&store);
        let given = run(&mut store, record);
        out.extend(answer_bytes(record, &given, bound));
    }
    Ok(out)
}

/// Reads an answer back; only what a right program can give is read, and a
/// settle's bound may be any.
pub fn read_answer(record: Record, bytes: &[u8]) -> Result<Given, String> {
    if record == Record::Show {
        return Ok(Given::Store(Box::new(held::decode_store(bytes)?)));
    }
    let value = held::number_at(bytes, 2);
    let given = match (record, bytes[0]) {
        (Record::Open { .. } | Record::OpenLimit { .. }, 0) => Given::Opened,
        (_, 1) => {
            let done = Completion { lane: bytes[1], value, place: held::number_at(bytes, 8) };
            Given::Answer(HeldAnswer::Machine(Answer::Done(done)))
        }
        (_, 2) => Given::Answer(HeldAnswer::Machine(Answer::Wait)),
        (_, 3) => Given::Answer(HeldAnswer::Machine(Answer::Step)),
        (_, 4) => Given::Answer(HeldAnswer::Refused(bytes[1])),
        (Record::Call(HeldCall::Settle), 6) => {
            let places =
                bytes[held::ANSWER_BYTES..][..held::COMPLETIONS_BYTES].chunks(COMPLETION_BYTES);
            let completions = places.take(usize::from(bytes[6])).map(completion).collect();
            let orders = bytes[held::ORDERS_AT];
            Given::Answer(HeldAnswer::Settled(Settled { steps: value, orders, completions }))
        }
        (_, tag) => return Err(format!("answer tag {tag}")),
    };
    let bound = [bytes[bytes.len() - 2], bytes[bytes.len() - 1]];
    match answer_bytes(record, &given, bound) == bytes {
        true => Ok(given),
        false => Err("bytes that the answer leaves free are not 0".to_string()),
    }
}

fn completion(bytes: &[u8]) -> Completion {
    let (value, place) = (held::number_at(bytes, 1), held::number_at(bytes, 5));
    Completion { lane: bytes[0], value, place }
}

/// Records and answers side by side, as read from the bytes.
pub fn read(input: &[u8], answers: &[u8]) -> Result<Vec<(Record, Given)>, String> {
    let (mut at, mut out) = (0, Vec::new());
    for (index, record) in records(input)?.into_iter().enumerate() {
        let bytes = answers.get(at..at + record.answer_length());
        at += record.answer_length();
        let given = bytes.ok_or("the answers end early".to_string());
        let given = given.and_then(|bytes| read_answer(record, bytes));
        out.push((record, given.map_err(|text| format!("record {index} {record:?}: {text}"))?));
    }
    match at == answers.len() {
        true => Ok(out),
        false => Err(format!("{} bytes after the last answer", answers.len() - at)),
    }
}

/// Where other answers to the same lists differ; at most `most` lines.
pub fn differences(input: &[u8], other: &[u8], most: usize) -> Result<Vec<String>, String> {
    let (mut store, mut at, mut list, mut found) = (blank(), 0, 0, Vec::new());
    for (index, record) in records(input)?.into_iter().enumerate() {
        list += usize::from(record.opens().is_some());
        let bound = held::bound_bytes(&store);
        let given = run(&mut store, record);
        let own = answer_bytes(record, &given, bound);
        let theirs = other.get(at..at + own.len());
        at += own.len();
        if theirs == Some(&own[..]) || found.len() == most {
            continue;
        }
        let first = theirs.and_then(|theirs| own.iter().zip(theirs).position(|(a, b)| a != b));
        let place = match (first, record) {
            (None, _) => "the answers end early".to_string(),
            (Some(i), Record::Show) => held::part_name(i),
            (Some(i), _) => held::answer_byte_name(i),
        };
        found.push(format!("opening {list} record {index} {record:?}: {place}"));
    }
    if at < other.len() {
        found.push(format!("{} bytes after the last answer", other.len() - at));
    }
    Ok(found)
}

//! The tape reader and the lines that `benchtape` prints.

use crate::machine::{self, ALREADY_OPEN, NOT_OPEN, TAPE_TOO_LONG, TRUNCATED, UNKNOWN_KIND};
use crate::machine::{HIGHEST_KIND, HIGHEST_KIND_BEFORE_W6};
use crate::parts::*;
use std::fmt::Write;

pub const LONGEST: usize = 65_536;

/// Document 01's sample tape.
pub const SAMPLE_TAPE: [u8; 52] = [
    0x00, 0x02, 0x01, 0x02, // open
    0x02, 0x00, 0x05, 0x07, 0x00, 0x00, 0x00, // store
    0x05, 0x00, 0x07, 0x00, // serve, deliver
    0x01, 0x01, 0x05, // load
    0x05, 0x01, 0x07, 0x00, 0x06, 0x00, 0x07, 0x01, // steps
    0x04, 0x01, 0x05, 0x01, 0x00, 0x00, 0x00, // add
    0x01, 0x00, 0x00, // load
    0x05, 0x00, 0x05, 0x01, 0x07, 0x00, 0x06, 0x00, // steps
    0x06, 0x00, 0x07, 0x01, 0x05, 0x00, 0x07, 0x00, // steps
];

#[derive(Clone, Copy, PartialEq, Eq, Debug)]
pub enum Record {
    /// Kind 00: L is 1.
    Open {
        n: u8,
        c: u8,
        m: u8,
    },
    /// Kind 08.
    OpenLimit {
        n: u8,
        c: u8,
        m: u8,
        limit: u8,
    },
    Call(Call),
}

impl Record {
    pub fn kind(self) -> u8 {
        match self {
            Record::Open { .. } => 0x00,
            Record::OpenLimit { .. } => 0x08,
            Record::Call(call) => call.kind(),
        }
    }

    /// n, c, m and L of an open.
    pub fn opens(self) -> Option<(u8, u8, u8, u8)> {
        match self {
            Record::Open { n, c, m } => Some((n, c, m, 1)),
            Record::OpenLimit { n, c, m, limit } => Some((n, c, m, limit)),
            Record::Call(_) => None,
        }
    }

    pub fn bytes(self) -> Vec<u8> {
        let mut bytes = vec![self.kind()];
        match self {
            Record::Open { n, c, m } => bytes.extend([n, c, m]),
            Record::OpenLimit { n, c, m, limit } => bytes.extend([n, c, m, limit]),
            Record::Call(Call::Begin { lane, op, word }) => {
                bytes.extend([lane, word]);
                if let Op::Store(v) | Op::Exchange(v) | Op::Add(v) = op {
                    bytes.extend(v.to_le_bytes());
                }
            }
            Record::Call(call) => bytes.push(call.lane()),
        }
        bytes
    }
}

/// The length of the body, by kind; none above the highest.
pub fn body_length(kind: u8) -> Option<usize> {
    match kind {
        0x00 => Some(3),
        0x01 => Some(2),
        0x02..=0x04 => Some(6),
        0x05..=0x07 => Some(1),
        HIGHEST_KIND => Some(4),
        _ => None,
    }
}

/// The same under any rule.
fn body_length_under(kind: u8, rule: Rule) -> Option<usize> {
    let highest = match rule {
        Rule::BeforeW6 => HIGHEST_KIND_BEFORE_W6,
        _ => HIGHEST_KIND,
    };
    body_length(kind).filter(|_| kind <= highest)
}

/// The kinds of a tape's records, the last of them perhaps cut or above the highest.
pub fn kinds(tape: &[u8]) -> Vec<u8> {
    let (mut at, mut kinds) = (0, Vec::new());
    while let Some(&kind) = tape.get(at) {
        kinds.push(kind);
        at += 1 + body_length(kind).unwrap_or(tape.len());
    }
    kinds
}

/// The first record of what is left of a tape (at least one byte).
fn parse(rest: &[u8], rule: Rule) -> Result<Record, u8> {
    let kind = rest[0];
    let length = body_length_under(kind, rule).ok_or(UNKNOWN_KIND)?;
    let body = rest.get(1..1 + length).ok_or(TRUNCATED)?;
    let begin = |op| Record::Call(Call::Begin { lane: body[0], op, word: body[1] });
    let v = || u32::from_le_bytes([body[2], body[3], body[4], body[5]]);
    Ok(match kind {
        0x00 => Record::Open { n: body[0], c: body[1], m: body[2] },
        0x01 => begin(Op::Load),
        0x02 => begin(Op::Store(v())),
        0x03 => begin(Op::Exchange(v())),
        0x04 => begin(Op::Add(v())),
        0x05 => Record::Call(Call::Serve(body[0])),
        0x06 => Record::Call(Call::Return(body[0])),
        0x07 => Record::Call(Call::Deliver(body[0])),
        _ => Record::OpenLimit { n: body[0], c: body[1], m: body[2], limit: body[3] },
    })
}

#[derive(Clone, Copy, PartialEq, Eq, Debug)]
pub enum Outcome {
    Open,
    Answer(Answer),
    Refused(u8),
}

/// One record that was read, and the store before and after it.
pub struct Event<'a> {
    pub kind: u8,
    pub record: Option<Record>,
    pub outcome: Outcome,
    pub before: Option<&'a Store>,
    pub after: Option<&'a Store>,
}

/// One record on the store of the tape, none while it is not open.
pub fn run_record(store: &Option<Store>, record: Record) -> Result<(Store, Outcome), u8> {
    run_record_under(store, record, Rule::LoadFillsOldest)
}

/// The same under any rule.
pub fn run_record_under(
    store: &Option<Store>,
    record: Record,
    rule: Rule,
) -> Result<(Store, Outcome), u8> {
    match (record, store) {
        (Record::Call(_), None) => Err(NOT_OPEN),
        (Record::Call(call), Some(store)) => {
            let (after, answer) = machine::call_under(store, call, rule)?;
            Ok((after, Outcome::Answer(answer)))
        }
        (_, Some(_)) => Err(ALREADY_OPEN),
        (Record::Open { n, c, m }, None) => Ok((machine::open(n, c, m)?, Outcome::Open)),
        (Record::OpenLimit { n, c, m, limit }, None) => {
            Ok((machine::open_with_limit(n, c, m, limit)?, Outcome::Open))
        }
    }
}

/// Reads a tape; `see` is shown each record. Err is refusal 13.
pub fn replay(tape: &[u8], see: &mut dyn FnMut(&Event)) -> Result<(), u8> {
    replay_under(tape, Rule::LoadFillsOldest, see)
}

/// The same under any rule.
pub fn replay_under(tape: &[u8], rule: Rule, see: &mut dyn FnMut(&Event)) -> Result<(), u8> {
    if tape.len() > LONGEST {
        return Err(TAPE_TOO_LONG);
    }
    let (mut at, mut store) = (0, None);
    while at < tape.len() {
        let kind = tape[at];
        let record = match parse(&tape[at..], rule) {
            Ok(record) => record,
            Err(number) => {
                let (outcome, now) = (Outcome::Refused(number), store.as_ref());
                see(&Event { kind, record: None, outcome, before: now, after: now });
                return Ok(());
            }
        };
        at += record.bytes().len();
        let (after, outcome) = match run_record_under(&store, record, rule) {
            Ok((after, outcome)) => (Some(after), outcome),
            Err(number) => (store.clone(), Outcome::Refused(number)),
        };
        let (before, now) = (store.as_ref(), after.as_ref());
        see(&Event { kind, record: Some(record), outcome, before, after: now });
        store = after;
    }
    Ok(())
}

/// Exactly what `benchtape` prints.
pub fn print(tape: &[u8]) -> String {
    print_under(tape, Rule::LoadFillsOldest)
}

/// The same under any rule.
pub fn print_under(tape: &[u8], rule: Rule) -> String {
    let (mut text, mut lines) = (String::new(), 0usize);
    let result = replay_under(tape, rule, &mut |event| {
        let line = match event.outcome {
            Outcome::Open => "open".to_string(),
            Outcome::Answer(Answer::Done(Completion { lane, value, place })) => {
                format!("done {lane} {value} {place}")
            }
            Outcome::Answer(Answer::Wait) => "wait".to_string(),
            Outcome::Answer(Answer::Step) => "step".to_string(),
            Outcome::Refused(number) => format!("refused {number}"),
        };
        writeln!(text, "{lines} {line}").expect("write to a string");
        lines += 1;
    });
    match result {
        Err(number) => format!("refused {number}\n"),
        Ok(()) => text + &format!("end {lines}\n"),
    }
}

//! Chooses few held cases that meet much, in two sets: without any one of them
//! something would be met too seldom.

use crate::beside;
use crate::conditions;
use crate::held::{self, HeldAnswer, HeldCall};
use crate::machine;
use crate::orders;
use crate::parts::*;
use crate::pictures;
use crate::places;
use crate::service_faults;
use crate::services;
use crate::settle;
use crate::settles;
use crate::situations;
use crate::stores::{self, Case};
use crate::summary::kind_name;
use crate::tellers;
use std::collections::{BTreeMap, BTreeSet};

/// The answers to the cases of a set have at most so many bytes.
pub const MOST_BYTES: usize = 1 << 20;

/// So many bytes are left free in the second set.
pub const FREE_BYTES: usize = 60_000;

/// The cases chosen, of the first so many of a seed, in two sets: each meets something
/// that would be met too seldom without it.
pub fn choose(seed: u64, from: usize) -> [Vec<Case>; 2] {
    let (mut chosen, mut counts) = (Vec::new(), BTreeMap::new());
    for case in (0..from).map(|index| stores::make(seed, index)) {
        let texts = all_texts(&case);
        let lacks = |text: &String| counts.get(text).map_or(true, |&count| count < wanted(text));
        if texts.iter().any(lacks) {
            count(&mut counts, &texts);
            chosen.push((case, texts));
        }
    }
    in_two_sets(without_needless(chosen, counts))
}

/// How many cases are to meet it: several, where it is W6's or W8's.
fn wanted(text: &str) -> usize {
    let prefixed = [FAULT, BY_ORDERS].iter().any(|prefix| text.starts_with(prefix));
    if prefixed || services::names().contains(&text) {
        3
    } else {
        1
    }
}

/// Before the name of a wrong machine or teller that a case tells.
const FAULT: &str = "not: ";

/// Before the name of what a settle meets of W8.
const BY_ORDERS: &str = "settle with ";

type Counts = BTreeMap<String, usize>;

fn count(counts: &mut Counts, texts: &BTreeSet<String>) {
    texts.iter().for_each(|text| *counts.entry(text.clone()).or_default() += 1);
}

/// Leaves out the cases whose texts others meet too, one after another; pictures
/// first, whose answers are longest.
fn without_needless(chosen: Vec<(Case, BTreeSet<String>)>, mut counts: Counts) -> Vec<Case> {
    let mut kept: Vec<Option<(Case, BTreeSet<String>)>> = chosen.into_iter().map(Some).collect();
    for pictures in [true, false] {
        for place in &mut kept {
            let needless = |(case, texts): &(Case, BTreeSet<String>)| {
                let of_kind = matches!(case.call, HeldCall::Picture(_)) == pictures;
                of_kind && texts.iter().all(|text| counts[text] > wanted(text))
            };
            if place.as_ref().map_or(false, needless) {
                let (_, texts) = place.take().expect("a case");
                texts.iter().for_each(|text| *counts.entry(text.clone()).or_default() -= 1);
            }
        }
    }
    kept.into_iter().flatten().map(|(case, _)| case).collect()
}

/// The first set is as long as it may be.
fn in_two_sets(mut cases: Vec<Case>) -> [Vec<Case>; 2] {
    let fits = |count: &usize| answers_length(&cases[..*count]) <= MOST_BYTES;
    let first = (0..=cases.len()).take_while(fits).last().unwrap_or(0);
    let second = cases.split_off(first);
    [cases, second]
}

/// All that a case meets or tells.
pub fn all_texts(case: &Case) -> BTreeSet<String> {
    let (s, call) = (&case.store, case.call);
    let answer = held::run(s, call).answer;
    let mut names = orders::told(s, call, &answer);
    names.extend(pictures::met(s, &answer));
    names.extend(beside::met(s, call, &answer));
    names.extend(beside::told(s, call));
    names.extend(services::met(s, call, &answer));
    let faults = service_faults::told(s, call).into_iter().map(|name| format!("{FAULT}{name}"));
    let alone = orders::met(s, call, &answer).into_iter().map(|name| format!("alone: {name}"));
    let names = names.into_iter().map(str::to_string).chain(faults).chain(alone);
    let names = names.chain(by_orders(s, &answer));
    let texts = names.chain(meets(case, &answer, &conditions::all(s, call)));
    texts.chain(finds(case)).collect()
}

/// What a settle meets of W8, and the wrong tellers that it tells.
fn by_orders(s: &Store, answer: &HeldAnswer) -> Vec<String> {
    let texts = |log| {
        let told = tellers::told(&log).into_iter().map(|name| format!("{FAULT}{name}"));
        let met = settles::met(&log).into_iter().map(|name| format!("{BY_ORDERS}{name}"));
        met.chain(told).collect()
    };
    settles::log(s, answer).map_or_else(Vec::new, texts)
}

/// The bytes of the answers to cases, which are more than those of the cases.
pub fn answers_length(cases: &[Case]) -> usize {
    cases.iter().map(|case| held::given_length(case.call)).sum()
}

/// Which parts keep the store from being quiet, for a settle not refused.
fn finds(case: &Case) -> Vec<String> {
    let (s, call) = (&case.store, case.call);
    if call != HeldCall::Settle || !conditions::all(s, call).is_empty() {
        return Vec::new();
    }
    let some = |test: fn(&Lane) -> bool| s.lanes[..usize::from(s.n)].iter().any(test);
    let waits = some(|lane| lane.waiting.is_some());
    let returns = some(|lane| !lane.returns.is_empty());
    let downs = some(|lane| !lane.down.is_empty());
    vec![format!("{:?}", [s.open_services() > 0, waits, returns, downs])]
}

/// What a case meets with an answer and the conditions that hold, each thing a text.
fn meets(case: &Case, answer: &HeldAnswer, holds: &[u8]) -> Vec<String> {
    let (s, call) = (&case.store, case.call);
    let kind = kind_name(call.kind());
    let named = situations::met(s, call, answer).into_iter().chain(places::met(s, call, answer));
    let mut met: Vec<String> = named.map(str::to_string).collect();
    met.extend(few_left(s, call, answer));
    met.extend(pictures::tells_all(s, answer).then(|| "picture that tells all".to_string()));
    met.push(match answer {
        HeldAnswer::Machine(Answer::Done { .. }) => format!("{kind} done {}", taken(s, call)),
        HeldAnswer::Machine(answer) => format!("{kind} {answer:?} {}", taken(s, call)),
        HeldAnswer::Picture(length) => format!("picture of {} records", (length / 19).min(6)),
        HeldAnswer::Settled(given) => format!("settled {}", given.completions.len()),
        HeldAnswer::Refused(14) => why(s, call, 14),
        HeldAnswer::Refused(number) => format!("{kind} refused {number} {}", why(s, call, *number)),
    });
    if let &HeldAnswer::Refused(number) = answer {
        let also = holds.iter().filter(|_| number != 14);
        met.extend(also.map(|also| format!("{kind} refused {number} before {also}")));
        met.push(format!("{kind} refused {number}"));
        let undone = call == HeldCall::Settle && number != 14 && settle::before_refusal(s).1 > 0;
        met.extend(undone.then(|| "settle refused after a completion".to_string()));
    }
    met
}

/// Who waits where a call finds no place left, or a begin the last one; only
/// of calls that are not refused, or with 17.
fn few_left(s: &Store, call: HeldCall, answer: &HeldAnswer) -> Vec<String> {
    let begins = matches!(call, HeldCall::Machine(Call::Begin { .. }));
    let left = match (places::left(s), answer) {
        (_, HeldAnswer::Refused(number)) if *number != 17 => return Vec::new(),
        (Some(0), _) => 0,
        (Some(1), _) if begins => 1,
        _ => return Vec::new(),
    };
    let (served, unserved) = places::waiting(s);
    let [first, last] = [0, usize::from(s.n) - 1].map(|k| s.lanes[k].waiting.is_some());
    vec![
        format!("{} with {left} places left", kind_name(call.kind())),
        format!("{left} places left, served {served}, unserved {unserved}"),
        format!("{left} places left, lane 0 {first}, lane n - 1 {last}"),
    ]
}

/// What a call that is not refused takes.
fn taken(s: &Store, call: HeldCall) -> String {
    match call {
        HeldCall::Machine(Call::Begin { lane, word, .. }) => {
            let lane = &s.lanes[usize::from(lane)];
            let found = machine::search(lane, s.c, word / 4);
            let full = lane.lines[..usize::from(s.c)].iter().all(|line| line.valid);
            format!("{:?} {full}", found.map(|i| lane.lines[i].private))
        }
        HeldCall::Machine(Call::Serve(k)) => {
            let waiting = s.lanes[usize::from(k)].waiting.expect("an unserved operation");
            let block = &s.blocks[usize::from(waiting.block())];
            format!("{:?} {}", waiting.command, block.present[usize::from(k)])
        }
        HeldCall::Machine(Call::Return(k)) => {
            let head = s.lanes[usize::from(k)].returns.places[0];
            let awaited = s.service_of(head.block).map(|service| service.awaited.min(2));
            format!("{:?} {awaited:?}", head.kind)
        }
        HeldCall::Machine(Call::Deliver(k)) => {
            let lane = &s.lanes[usize::from(k)];
            let message = lane.down.places[0];
            let found = machine::search(lane, s.c, message.block);
            format!("{:?} {:?}", message.kind, found.map(|i| lane.lines[i].private))
        }
        _ => String::new(),
    }
}

/// Why a call is refused, where there is one reason only.
fn why(s: &Store, call: HeldCall, number: u8) -> String {
    let reasons = match number {
        14 => conditions::corrupt_reasons(s),
        16 => conditions::unexpected_reasons(s, call),
        12 => return format!("first full {:?}", first_full(s)),
        _ => return String::new(),
    };
    match (reasons.len(), number) {
        (1, 14) => format!("{} {:?}", reasons[0], mended(s)),
        (1, _) => format!("{} {:?}", reasons[0], sides(s, call)),
        _ => String::new(),
    }
}

/// The lowest lane whose down queue is full.
fn first_full(s: &Store) -> Option<usize> {
    s.lanes[..usize::from(s.n)].iter().position(|lane| lane.down.is_full())
}

/// Whether one lane more, or one block more, would make the store sound: the
/// number out of range is then the least such.
fn mended(s: &Store) -> [bool; 2] {
    let (mut lanes, mut blocks) = (s.clone(), s.clone());
    lanes.n = s.n.saturating_add(1);
    blocks.m = s.m.saturating_add(1);
    [lanes, blocks].map(|store| conditions::corrupt_reasons(&store).is_empty())
}

/// How the block of a message delivered stands to the one waited for.
fn sides(s: &Store, call: HeldCall) -> Option<std::cmp::Ordering> {
    match call {
        HeldCall::Machine(Call::Deliver(k)) => {
            let lane = &s.lanes[usize::from(k)];
            lane.waiting.map(|waiting| lane.down.places[0].block.cmp(&waiting.block()))
        }
        _ => None,
    }
}

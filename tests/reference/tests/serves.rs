//! W4: a serve that is not refused sends its orders by one byte, and awaits as many
//! answers as that has bits. The maker of serves, and the judge of any program's.

use reference::conditions;
use reference::held::{self, HeldCall};
use reference::machine;
use reference::parts::*;
use reference::serve_byte::{self, Held};
use reference::serves::{Serves, ASKED, FULL_PLACES};
use reference::{serve_maker, stores};
use std::collections::BTreeSet;
use std::fs;
use std::path::Path;
use std::process;

/// The answer of a step.
const STEP: [u8; 12] = [3, 0, 0, 0, 0, 0, 0, 0, 0, 0, 0, 0];

/// Where the awaited count of slot 0 stands behind an answer; 0 if the slot is free.
const AWAITED: usize = STEP.len() + 12;

/// A serve that was a step.
struct Served {
    before: Store,
    k: usize,
    block: u8,
    after: Store,
    /// The lanes that the reference sent an order, by number.
    ordered: Vec<usize>,
}

impl Served {
    /// None where it is refused.
    fn of(before: Store, k: u8) -> Option<Served> {
        let (after, answer) = machine::call(&before, Call::Serve(k)).ok()?;
        assert_eq!(answer, Answer::Step);
        let k = usize::from(k);
        let block = before.lanes[k].waiting.expect("an operation").block();
        let length = |s: &Store, j: usize| s.lanes[j].down.length;
        let grown = |j: &usize| *j != k && length(&after, *j) != length(&before, *j);
        let ordered = (0..LANES).filter(grown).collect();
        Some(Served { before, k, block, after, ordered })
    }

    fn made(seed: u64, count: usize) -> Vec<Served> {
        let serves = (0..count).map(|index| serve_maker::make(seed, index));
        serves.filter_map(|(before, k)| Served::of(before, k)).collect()
    }

    /// The judge's word on another store after.
    fn judge(&self, after: &Store) -> Result<Held, String> {
        let case = held::encode_case(&self.before, serve_maker::call(self.k as u8));
        serve_byte::of_held(&case, &[&STEP[..], &held::encode_store(after)].concat())
    }

    /// An order as the serve sends, or would.
    fn order(&self) -> Message<DownKind> {
        let waiting = self.before.lanes[self.k].waiting.expect("an operation");
        let kind = match waiting.command {
            Command::ReadShared => DownKind::Update,
            _ => DownKind::Purge,
        };
        Message { kind, block: self.block, words: [0; 4] }
    }

    /// The first ordered lane, and the place of its order.
    fn first(&self) -> Option<(usize, usize)> {
        let &j = self.ordered.first()?;
        Some((j, usize::from(self.before.lanes[j].down.length)))
    }

    /// An ordered lane whose queue had one message.
    fn behind_one(&self) -> Option<usize> {
        self.ordered.iter().copied().find(|&j| self.before.lanes[j].down.length == 1)
    }

    /// A lane that is sent nothing and has room, past n too.
    fn spared(&self) -> Option<usize> {
        let gets = |j: usize| self.ordered.contains(&j) || j == self.k;
        (0..LANES).find(|&j| !gets(j) && !self.before.lanes[j].down.is_full())
    }
}

fn bytes_of(seed: u64, count: usize) -> Vec<u8> {
    let serves = (0..count).map(|index| serve_maker::make(seed, index));
    serves.flat_map(|(s, k)| held::encode_case(&s, serve_maker::call(k))).collect()
}

fn held_cases(seed: u64, count: usize) -> Vec<u8> {
    let cases = (0..count).map(|index| stores::make(seed, index));
    cases.flat_map(|case| held::encode_case(&case.store, case.call)).collect()
}

/// Every one is refused by 12 or not at all, by conditions stated apart from the
/// steps, and its bytes are read back.
#[test]
fn made_serves_come_to_their_orders() {
    for index in 0..4_000 {
        let (s, k) = serve_maker::make(2, index);
        let call = serve_maker::call(k);
        let number = machine::call(&s, Call::Serve(k)).err();
        assert!(matches!(number, None | Some(12)), "case {index}: {number:?}");
        assert_eq!(conditions::all(&s, call), number.into_iter().collect::<Vec<u8>>());
        assert!(!machine::corrupt(&s) && k < s.n);
        assert!(s.open_services() < usize::from(s.limit));
        let lane = &s.lanes[usize::from(k)];
        assert!(lane.unserved() && lane.returns.is_empty());
        assert!(held::decode_case(&held::encode_case(&s, call)) == Ok((s, call)));
    }
}

#[test]
fn made_serves_depend_on_seed_and_index() {
    assert!(bytes_of(1, 30)[..] == bytes_of(1, 40)[..30 * held::CASE_BYTES]);
    let all = [1, 2, 3].map(|seed| bytes_of(seed, 500)).concat();
    let distinct: BTreeSet<&[u8]> = all.chunks(held::CASE_BYTES).collect();
    assert_eq!(distinct.len(), 1_500);
}

fn summary_of(seed: u64) -> Serves {
    let mut summary = Serves::default();
    for index in 0..4_000 {
        let (s, k) = serve_maker::make(seed, index);
        summary.add(&s, k).expect("12 or no refusal");
    }
    summary
}

#[test]
fn made_serves_cover_what_they_must() {
    for summary in [1, 2, 3].map(summary_of) {
        assert!(summary.orders.iter().all(|&count| count >= 250), "{summary}");
        // Each n with each number of orders below it.
        assert_eq!(summary.by_n.len(), 35);
        assert!(summary.by_n.values().all(|&count| count >= 25), "{:?}", summary.by_n);
        let [asked, full] = [(&summary.asked, &ASKED), (&summary.full, &FULL_PLACES)]
            .map(|(counts, names)| names.iter().all(|name| counts.get(name) >= Some(&50)));
        assert!(asked && full, "{summary}");
        let full = summary.full.values().sum::<usize>() + summary.passed;
        assert!(summary.passed >= 300 && (1_200..1_500).contains(&full), "{summary}");
    }
}

/// Every lane of every n asks, with every operation and command; orders go to nearly
/// every set of lanes, and into queues with a message and without.
#[test]
fn made_serves_vary() {
    let (mut lanes, mut asked, mut lengths) = (BTreeSet::new(), BTreeSet::new(), BTreeSet::new());
    let (mut bytes, mut shapes) = (BTreeSet::new(), BTreeSet::new());
    for served in Served::made(1, 4_000) {
        let s = &served.before;
        let waiting = s.lanes[served.k].waiting.expect("an operation");
        let kind = Call::Begin { lane: 0, op: waiting.op, word: 0 }.kind();
        lanes.insert((s.n, served.k));
        asked.insert((kind, waiting.command as u8));
        let ordered = served.ordered.iter().map(|&j| s.lanes[j].down.length);
        lengths.extend(ordered);
        bytes.insert(served.ordered.clone());
        shapes.insert((s.c, s.m));
    }
    assert_eq!((lanes.len(), asked.len(), lengths.len()), (35, 12, 8));
    assert!(bytes.len() > 230 && shapes.len() > 300, "{} {}", bytes.len(), shapes.len());
}

/// Lane k of eight waits with the command on block 1, which these lanes have.
fn asks(k: u8, command: Command, modified: bool, present: &[usize]) -> Store {
    let mut s = Store::fresh(8, 1, 2);
    s.lanes[usize::from(k)].waiting =
        Some(Waiting { served: false, command, op: Op::Load, word: 6 });
    // The other block has other flags.
    s.blocks[0] = Block { words: [1; 4], present: [true; LANES], modified: !modified };
    s.blocks[1].modified = modified;
    present.iter().for_each(|&j| s.blocks[1].present[j] = true);
    s
}

#[test]
fn bytes_by_hand() {
    use Command::*;
    let all = [0, 1, 2, 3, 4, 5, 6, 7];
    for (k, command, modified, present, want) in [
        (0, ReadShared, true, &[][..], 0),
        (0, ReadShared, true, &[0], 0),
        (0, ReadShared, true, &[7], 128),
        (3, ReadShared, true, &[0, 3, 5], 33),
        (3, ReadShared, false, &[0, 3, 5], 0),
        (3, ReadExclusive, false, &[0, 3, 5], 33),
        (3, ReadExclusive, true, &[0, 3, 5], 33),
        (7, Exclude, false, &[1, 2, 7], 6),
        (7, Exclude, true, &[7], 0),
        (7, Exclude, true, &[1, 2], 6),
        (0, Exclude, false, &all, 254),
        (7, ReadExclusive, false, &all, 127),
        (4, ReadShared, true, &all, 239),
        (4, ReadShared, false, &all, 0),
    ] {
        let s = asks(k, command, modified, present);
        assert_eq!(serve_byte::byte(&held::encode_store(&s), k), Ok(want));
        let served = Served::of(s, k).expect("room for all");
        assert!(served.judge(&served.after).is_ok());
        assert_eq!(served.ordered.iter().map(|j| 1 << j).sum::<u8>(), want);
    }
}

/// The reference's own answers hold, each counted by the orders that it sent.
#[test]
fn made_serves_hold() {
    for seed in [1, 2, 3] {
        let (cases, mut orders) = (bytes_of(seed, 4_000), [0; LANES]);
        let given = serve_byte::of_held(&cases, &held::answers(&cases).expect("well formed"));
        let steps = Served::made(seed, 4_000);
        steps.iter().for_each(|served| orders[served.ordered.len()] += 1);
        assert_eq!(given, Ok(Held { orders, refused: 4_000 - steps.len() }));
    }
}

/// Among all kinds of call, with longer answers for some.
#[test]
fn held_serves_hold() {
    let (cases, serve) = (held_cases(1, 20_000), serve_maker::call(0).kind());
    let given = serve_byte::of_held(&cases, &held::answers(&cases).expect("well formed"));
    let given = given.expect("all hold");
    let calls = cases.chunks(held::CASE_BYTES).map(|case| case[held::STORE_BYTES]);
    let all = calls.filter(|&kind| kind == serve).count();
    assert_eq!(given.orders.iter().sum::<usize>() + given.refused, all);
    assert!(given.orders.iter().all(|&count| count > 0), "{given}");
}

/// Changes the store after, as a wrong program might; false or no change where it has
/// no place for it.
type Mutation = fn(&Served, &mut Store) -> bool;

fn of_first(s: &Served, act: impl FnOnce(usize, usize)) -> bool {
    s.first().map(|(j, place)| act(j, place)).is_some()
}

/// The service that the serve opened, where it did.
fn of_service(s: &Served, after: &mut Store, act: impl FnOnce(&mut Service)) -> bool {
    after.slots.iter_mut().flatten().find(|v| v.block == s.block).map(act).is_some()
}

/// Another service, where there is one.
fn of_another(s: &Served, after: &mut Store, act: impl FnOnce(&mut Option<Service>)) -> bool {
    let other = |slot: &&mut Option<Service>| slot.map_or(false, |v| v.block != s.block);
    after.slots.iter_mut().find(other).map(act).is_some()
}

/// A service of the operation, where the serve sent no order.
fn left_open(s: &Served, after: &mut Store, awaited: u8) -> bool {
    let (lane, command) = (s.k as u8, Command::ReadExclusive);
    let free = match after.slots.iter_mut().find(|slot| slot.is_none()) {
        Some(free) => free,
        None => return false,
    };
    *free = Some(Service { lane, block: s.block, command, awaited, bare: false });
    s.ordered.is_empty()
}

/// The asking lane's grant, where the serve sent no order, becomes an order.
fn grant_to_order(s: &Served, after: &mut Store) -> bool {
    let place = usize::from(s.before.lanes[s.k].down.length);
    let is_granted = s.ordered.is_empty();
    if is_granted {
        after.lanes[s.k].down.places[place] = s.order();
    }
    is_granted
}

/// The orders go to other lanes, as many; false where one has no room.
fn send_to(s: &Served, after: &mut Store, to: impl Fn(usize) -> usize) -> bool {
    s.ordered.iter().for_each(|&j| after.lanes[j].down = s.before.lanes[j].down);
    s.ordered.iter().all(|&j| after.lanes[to(j)].down.push(s.order()))
}

/// The first order's place in its lane has another message of the block.
fn replaced(s: &Served, after: &mut Store, kind: DownKind, words: Words) -> bool {
    let block = s.block;
    of_first(s, |j, place| after.lanes[j].down.places[place] = Message { kind, block, words })
}

const OF_QUEUES: [(&str, Mutation); 18] = [
    ("no order to the first lane", |s, after| {
        of_first(s, |j, _| after.lanes[j].down = s.before.lanes[j].down)
    }),
    ("no order to the last lane, and awaited one less", |s, after| {
        let last = s.ordered.last().map(|&j| after.lanes[j].down = s.before.lanes[j].down);
        last.is_some() && of_service(s, after, |service| service.awaited -= 1)
    }),
    ("a grant with words for an order", |s, after| {
        replaced(s, after, DownKind::Grant, s.before.blocks[usize::from(s.block)].words)
    }),
    ("a bare grant for an order", |s, after| replaced(s, after, DownKind::BareGrant, [0; 4])),
    ("orders to lanes 7 - j", |s, after| send_to(s, after, |j| 7 - j)),
    ("orders to lanes n - 1 - j", |s, after| {
        let last = usize::from(s.before.n) - 1;
        send_to(s, after, |j| last - j)
    }),
    ("orders to lanes j + 1", |s, after| send_to(s, after, |j| (j + 1) % LANES)),
    ("an order of another block", |s, after| {
        of_first(s, |j, place| after.lanes[j].down.places[place].block ^= 1)
    }),
    ("an order in place of the message before it", |s, after| {
        let queue = |j: usize| {
            after.lanes[j].down = s.before.lanes[j].down;
            after.lanes[j].down.places[0] = s.order();
        };
        s.behind_one().map(queue).is_some()
    }),
    ("the message before an order is another", |s, after| {
        of_first(s, |j, place| after.lanes[j].down.places[0].block ^= place as u8)
    }),
    ("an order with words", |s, after| {
        of_first(s, |j, place| after.lanes[j].down.places[place].words[3] = 1)
    }),
    ("an order before the message that was there", |s, after| {
        of_first(s, |j, place| after.lanes[j].down.places[..=place].reverse())
    }),
    ("two orders to one lane", |s, after| {
        of_first(s, |j, place| {
            let down = &mut after.lanes[j].down;
            (down.length, down.places[1]) = (PLACES as u8, down.places[place]);
        })
    }),
    ("an order more, to a lane without a bit", |s, after| {
        s.spared().map_or(false, |j| after.lanes[j].down.push(s.order()))
    }),
    ("an order more, and awaited one more", |s, after| {
        let sent = s.spared().map_or(false, |j| after.lanes[j].down.push(s.order()));
        sent && of_service(s, after, |service| service.awaited += 1)
    }),
    ("a queue of a lane without a bit longer by what stood there", |s, after| {
        s.spared().map(|j| after.lanes[j].down.length += 1).is_some()
    }),
    ("a message lost in a lane without a bit", |s, after| {
        s.spared().map_or(false, |j| after.lanes[j].down.take().is_some())
    }),
    ("a step that does nothing", |s, after| {
        *after = s.before.clone();
        true
    }),
];

const OF_THE_GRANT: [(&str, Mutation); 6] = [
    ("the asking lane sent an order too", |s, after| {
        let sent = after.lanes[s.k].down.push(s.order());
        sent && of_service(s, after, |service| service.awaited += 1)
    }),
    ("the grant counted as an order", |s, after| left_open(s, after, 1)),
    ("an order for the grant", grant_to_order),
    ("an order for the grant, awaited", |s, after| {
        grant_to_order(s, after) && left_open(s, after, 1)
    }),
    ("no grant", |s, after| {
        after.lanes[s.k].down = s.before.lanes[s.k].down;
        s.ordered.is_empty()
    }),
    ("a grant before the answers", |s, after| {
        let grant = Message { kind: DownKind::BareGrant, ..s.order() };
        !s.ordered.is_empty() && after.lanes[s.k].down.push(grant)
    }),
];

const OF_THE_SERVICE: [(&str, Mutation); 10] = [
    ("awaited one more", |s, after| of_service(s, after, |service| service.awaited += 1)),
    ("awaited one less", |s, after| of_service(s, after, |service| service.awaited -= 1)),
    ("awaited is the byte", |s, after| {
        let byte = s.ordered.iter().map(|j| 1 << j).sum();
        of_service(s, after, |service| service.awaited = byte)
    }),
    ("the service left open without orders", |s, after| left_open(s, after, 0)),
    ("the service closed with orders", |s, after| {
        after.slots = s.before.slots;
        !s.ordered.is_empty()
    }),
    ("the service in the last free slot", |s, after| {
        let own = after.slot_of(s.block).and_then(|slot| after.slots[slot].take());
        let last = after.slots.iter_mut().rev().find(|slot| slot.is_none());
        *last.expect("a free slot") = own;
        own.is_some()
    }),
    ("another service closed", |s, after| of_another(s, after, |slot| *slot = None)),
    ("another service awaits one less", |s, after| {
        of_another(s, after, |slot| {
            let awaited = slot.as_mut().map(|v| &mut v.awaited);
            awaited.into_iter().for_each(|count| *count = count.saturating_sub(1));
        })
    }),
    ("a service of another lane", |s, after| of_service(s, after, |service| service.lane ^= 1)),
    ("a service of another block", |s, after| of_service(s, after, |service| service.block ^= 1)),
];

/// Each way, in each of many serves that have a place for it.
fn are_found(mutations: &[(&str, Mutation)]) {
    let serves = Served::made(4, 2_000);
    for (name, mutate) in mutations {
        let found = serves.iter().filter(|served| is_found(served, name, *mutate)).count();
        assert!(found >= 100, "{name}: {found}");
    }
}

/// False where the serve has no place for it.
fn is_found(served: &Served, name: &str, mutate: Mutation) -> bool {
    let mut after = served.after.clone();
    if !mutate(served, &mut after) || after == served.after {
        return false;
    }
    let told = served.judge(&after).expect_err(name);
    assert!(told.starts_with("1 serves do not hold to their byte\ncase 0: "), "{name}: {told}");
    true
}

#[test]
fn mutated_queues_are_found() {
    are_found(&OF_QUEUES);
}

#[test]
fn mutated_grants_are_found() {
    are_found(&OF_THE_GRANT);
}

#[test]
fn mutated_services_are_found() {
    are_found(&OF_THE_SERVICE);
}

/// What is no matter of the byte: lines, words and flags after, and UPDATE for PURGE.
#[test]
fn only_queues_and_slots_are_judged() {
    for served in Served::made(5, 500) {
        let mut after = served.after.clone();
        after.completed ^= 1;
        after.blocks[0].modified ^= true;
        after.lanes[1].lines[0].valid ^= true;
        after.lanes[1].returns.length ^= 1;
        if let Some((j, place)) = served.first() {
            let kind = &mut after.lanes[j].down.places[place].kind;
            *kind = match kind {
                DownKind::Update => DownKind::Purge,
                _ => DownKind::Update,
            };
        }
        assert!(served.judge(&after).is_ok());
    }
}

/// Mutates slot 0 after each serve that was a step; the numbers of these cases.
fn mutate_slots(cases: &[u8], answers: &mut [u8]) -> Vec<usize> {
    let (mut at, mut mutated) = (0, Vec::new());
    for (index, case) in cases.chunks(held::CASE_BYTES).enumerate() {
        let call = held::decode_call(&case[held::STORE_BYTES..]).expect("well formed");
        if matches!(call, HeldCall::Machine(Call::Serve(_))) && answers[at] == STEP[0] {
            answers[at + AWAITED] += 1;
            mutated.push(index);
        }
        at += held::given_length(call);
    }
    mutated
}

/// Answers of other calls are passed over by their lengths: a wrong serve behind
/// them is named by its own number.
#[test]
fn wrong_serves_are_named() {
    let cases = held_cases(1, 600);
    let mut answers = held::answers(&cases).expect("well formed");
    let wrong = mutate_slots(&cases, &mut answers);
    let told = serve_byte::of_held(&cases, &answers).expect_err("wrong serves");
    let lines: Vec<&str> = told.lines().collect();
    assert!(lines[0].starts_with(&format!("{} serves do not hold", wrong.len())), "{told}");
    assert!(wrong.len() > 20 && lines.len() == 21, "{told}");
    for (line, index) in lines[1..].iter().zip(wrong) {
        assert!(line.starts_with(&format!("case {index}: byte ")), "{line}");
    }
}

#[test]
fn cut_and_long_files_are_found() {
    let cases = held_cases(1, 60);
    let mut answers = held::answers(&cases).expect("well formed");
    let tells = |cases: &[u8], answers: &[u8], text: &str| {
        let told = serve_byte::of_held(cases, answers).expect_err(text);
        assert!(told.ends_with(text), "{told}");
    };
    assert!(serve_byte::of_held(&cases, &answers).is_ok());
    tells(&cases, &answers[1..], "case 59: the answers end early");
    tells(&cases[..cases.len() - 1], &answers, "case 59: the cases end early");
    answers.push(0);
    tells(&cases, &answers, "bytes after the last answer");
}

/// A serve has to be refused where nothing is to serve, and gives no value.
#[test]
fn other_answers_to_a_serve_are_found() {
    let s = asks(1, Command::ReadShared, true, &[]);
    let mut few = s.clone();
    few.n = 3;
    (few.lanes[3].waiting, few.lanes[7].waiting) = (s.lanes[1].waiting, s.lanes[1].waiting);
    let mut many = s.clone();
    many.n = 255;
    let mut served = s.clone();
    served.lanes[1].waiting.as_mut().expect("an operation").served = true;
    let no_lane = "case 0: a step of a lane that the store has not";
    let nothing = "case 0: a step without an unserved operation";
    for (s, k, tag, text) in [
        (&s, 0, 3, nothing),
        (&served, 1, 3, nothing),
        (&s, 8, 3, no_lane),
        (&s, 255, 3, no_lane),
        (&few, 3, 3, no_lane),
        (&few, 7, 3, no_lane),
        (&many, 8, 3, no_lane),
        (&many, 254, 3, no_lane),
        (&s, 1, 1, "case 0: a serve answered with tag 1"),
        (&s, 1, 2, "case 0: a serve answered with tag 2"),
        (&s, 1, 5, "case 0: a serve answered with tag 5"),
    ] {
        let case = held::encode_case(s, serve_maker::call(k));
        let mut answers = [&STEP[..], &held::encode_store(s)].concat();
        answers[0] = tag;
        let told = serve_byte::of_held(&case, &answers).expect_err(text);
        assert!(told.ends_with(text), "{told}");
    }
}

fn run(arguments: &[&str]) -> process::Output {
    let program = env!("CARGO_BIN_EXE_reference");
    process::Command::new(program).args(arguments).output().expect("runs")
}

/// The two commands: byte-held exits with 0, and with 1 where a serve is wrong.
#[test]
fn commands() {
    let file = |name| Path::new(env!("CARGO_TARGET_TMPDIR")).join(name);
    let (cases, answers) = (file("serves.cases"), file("serves.answers"));
    let paths = [&cases, &answers].map(|path| path.to_str().expect("a plain path"));
    let made = run(&["make-serves", "1", "200", paths[0]]);
    let lines = String::from_utf8(made.stdout).expect("text");
    assert!(made.status.success() && lines.starts_with("serves 200\n"), "{lines}");
    assert!(lines.ends_with("refused otherwise: 0\n"), "{lines}");
    let bytes = fs::read(&cases).expect("a file");
    assert!(bytes == bytes_of(1, 200));
    let mut given = held::answers(&bytes).expect("well formed");
    fs::write(&answers, &given).expect("written");
    let judged = run(&["byte-held", paths[0], paths[1]]);
    let lines = String::from_utf8(judged.stdout).expect("text");
    assert!(judged.status.success() && lines.starts_with("serves by their byte: "), "{lines}");
    assert!(mutate_slots(&bytes, &mut given).len() > 100);
    fs::write(&answers, &given).expect("written");
    let judged = run(&["byte-held", paths[0], paths[1]]);
    assert_eq!((judged.status.code(), judged.stdout.len()), (Some(1), 0));
}

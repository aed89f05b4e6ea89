//! W7: no 12 from an opening, and each queue within one more than the smaller of L and
//! n - 1. The judge of it, the lists that meet it, made lists and made tapes.

mod common;

use common::{begin, bytes, longest_opened_by_08, SETTLE};
use reference::figure::{self, figure, Figure, Lengths, DOWN, RETURN};
use reference::held::{self, HeldAnswer, HeldCall};
use reference::lists::{self, Given, Record};
use reference::longest::{self, Longest};
use reference::machine::{self, FULL};
use reference::parts::*;
use reference::settle;
use reference::summary::Tapes;
use reference::{list_maker, tape, tapes};
use std::collections::BTreeSet;
use std::fs;
use std::path::Path;
use std::process;

fn pairs() -> impl Iterator<Item = (u8, u8)> {
    (2..=8).flat_map(|n| (1..=8).map(move |limit| (n, limit)))
}

#[test]
fn the_figure() {
    // One more than the smaller of L and n - 1, said without `min`.
    for (n, limit) in pairs() {
        let told = figure(n, limit) - 1;
        assert!(told == limit && limit < n || told == n - 1 && n - 1 <= limit);
    }
    assert_eq!((figure(2, 1), figure(2, 8), figure(8, 1)), (2, 2, 2));
    assert_eq!((figure(8, 6), figure(8, 7), figure(8, 8)), (7, 8, 8));
    // No queue has more places than the figure can ask for.
    assert_eq!(pairs().map(|(n, limit)| figure(n, limit)).max(), Some(PLACES as u8));
}

#[test]
fn the_longest_lists_meet_the_figure() {
    let all = longest::all();
    assert_eq!(all.len(), 126);
    for list in &all {
        assert_eq!(list.check(), Ok(()));
        let answered = longest::answered(&list.records);
        let numbers: BTreeSet<u8> =
            answered.iter().filter_map(|(_, given)| refusal(given)).collect();
        assert!(numbers.iter().all(|number| [8, 9, 10, 11].contains(number)), "{numbers:?}");
        // It ends quiet, with all operations completed.
        let quiet =
            |given: &Given| matches!(given, Given::Store(s) if s.quiet() && s.completed > 0);
        assert!(answered.last().map_or(false, |(_, given)| quiet(given)));
    }
    let kinds = |kind| all.iter().filter(|list| list.records[0].bytes()[0] == kind).count();
    assert_eq!((kinds(0x00), kinds(0x08)), (14, 112));
    let of = |queue| all.iter().filter(|list| list.queue == queue).count();
    assert_eq!((of(RETURN), of(DOWN)), (63, 63));
}

fn refusal(given: &Given) -> Option<u8> {
    match given {
        Given::Answer(HeldAnswer::Refused(number)) => Some(*number),
        _ => None,
    }
}

/// All kinds of messages stand in the longest queues.
#[test]
fn the_longest_queues_have_all_kinds() {
    let (mut returns, mut down) = (Vec::new(), Vec::new());
    for (_, given) in longest::answered(&longest::records(&longest::all())) {
        if let Given::Store(s) = given {
            for lane in &s.lanes {
                returns.extend(lane.returns.messages().iter().map(|message| message.kind));
                down.extend(lane.down.messages().iter().map(|message| message.kind));
            }
        }
    }
    use ReturnKind::*;
    for kind in [Eject, WriteEject, Updated, Purged, PurgedWords, Gone] {
        assert!(returns.contains(&kind), "{kind:?}");
    }
    for kind in [DownKind::Update, DownKind::Purge, DownKind::Grant, DownKind::BareGrant] {
        assert!(down.contains(&kind), "{kind:?}");
    }
}

/// What the judge finds in a list with one answer changed.
fn changed(list: &Longest, change: impl Fn(&mut Vec<(Record, Given)>)) -> Lengths {
    let mut all = longest::answered(&list.records);
    change(&mut all);
    let (mut input, mut answers) = (Vec::new(), Vec::new());
    for (record, given) in &all {
        input.extend(record.bytes());
        answers.extend(lists::answer_bytes(*record, given, [0; 2]));
    }
    figure::hold(&lists::read(&input, &answers).expect("well formed"), figure)
}

/// Any answer of any call, and of settle, changed to 12 is told.
#[test]
fn the_judge_finds_12() {
    let list = longest_opened_by_08(4, 2, RETURN);
    assert_eq!(changed(&list, |_| {}).faults, 0);
    for (index, record) in list.records.iter().enumerate() {
        let full = Given::Answer(HeldAnswer::Refused(FULL));
        if matches!(record, Record::Call(_)) {
            let held = changed(&list, |all| all[index].1 = full.clone());
            assert_eq!(held.faults, 1);
            assert!(held.named[0].ends_with("refused by 12"), "{:?}", held.named);
        }
        // Other numbers are not the figure's matter.
        let busy = Given::Answer(HeldAnswer::Refused(machine::CONTROL_BUSY));
        if matches!(record, Record::Call(_)) {
            assert_eq!(changed(&list, |all| all[index].1 = busy.clone()).faults, 0);
        }
    }
}

/// Lengths raised in the first store shown; none of a lane from n on counts.
fn raised(list: &Longest, lane: usize, lengths: [u8; 2]) -> Lengths {
    changed(list, |all| {
        let shown = all.iter_mut().find_map(|(_, given)| match given {
            Given::Store(store) => Some(store),
            _ => None,
        });
        let lane = &mut shown.expect("a store shown").lanes[lane];
        (lane.returns.length, lane.down.length) = (lengths[0], lengths[1]);
    })
}

/// In lists opened by kind 08 and by kind 00.
#[test]
fn the_judge_finds_long_queues() {
    for list in longest::all().iter().filter(|list| list.queue == RETURN) {
        let (n, limit, most) = (list.n, list.limit, figure(list.n, list.limit));
        for lane in 0..usize::from(n) {
            for lengths in [[most, 0], [0, most], [1, most - 1], [most - 1, 1]] {
                assert_eq!(raised(list, lane, lengths).faults, 0, "{n} {limit} {lengths:?}");
            }
            // One above, alone and so together; or together only.
            for (lengths, faults) in [([most + 1, 0], 2), ([0, most + 1], 2), ([1, most], 1)] {
                let held = raised(list, lane, lengths);
                assert_eq!(held.faults, faults, "{n} {limit} {lengths:?}");
                assert_eq!(held.within, 2);
            }
        }
        if n < 8 {
            assert_eq!(raised(list, 7, [255, 255]).faults, 0);
        }
    }
}

/// A refused opening starts a list of nothing to hold, and so does the input.
#[test]
fn a_refused_opening_has_nothing_to_hold() {
    let opening = Record::OpenLimit { n: 2, c: 1, m: 1, limit: 9 };
    let mut store = lists::blank();
    store.lanes[0].returns.length = 9;
    let shown = (Record::Show, Given::Store(Box::new(store)));
    let number = |number| Given::Answer(HeldAnswer::Refused(number));
    let full = (begin(0, Op::Load, 0), number(FULL));
    let (refused, opened) = ((opening, number(18)), (opening, Given::Opened));
    let faults = |all: &[(Record, Given)]| figure::hold(all, figure).faults;
    assert_eq!(faults(&[full.clone(), shown.clone()]), 0);
    assert_eq!(faults(&[refused.clone(), full.clone(), shown.clone()]), 0);
    assert_eq!(faults(&[opened.clone(), full.clone(), shown.clone()]), 3);
    // Also after a list that was held.
    let held = figure::hold(&[opened, refused, full, shown], figure);
    assert_eq!((held.faults, held.lists, held.refused_openings), (0, 1, 1));
}

/// How many lists do not keep to a figure, and for how many n with L it is met.
fn told_by_longest(figure: Figure) -> (usize, [usize; 2]) {
    let all = longest::all();
    let above =
        |list: &&Longest| figure::hold(&longest::answered(&list.records), figure).faults > 0;
    let held = figure::hold(&longest::answered(&longest::records(&all)), figure);
    (all.iter().filter(above).count(), [RETURN, DOWN].map(|queue| held.met[queue].len()))
}

/// A figure that is too small is exceeded. One that is only too large is not, but its
/// equality is not met where it is larger: 1 + L and 1 + the smaller of L and n are met
/// for the 28 pairs with L below n alone, n for the 35 with L not below n - 1.
#[test]
fn wrong_figures_are_told() {
    assert_eq!(told_by_longest(figure), (0, [56, 56]));
    let (above, _) = told_by_longest(|n, limit| limit.min(n - 1));
    assert_eq!(above, 126, "without the 1 more");
    assert_eq!(told_by_longest(|_, limit| 1 + limit), (0, [28, 28]), "L for the smaller");
    assert_eq!(told_by_longest(|n, limit| 1 + limit.min(n)), (0, [28, 28]), "n for n - 1");
    assert_eq!(told_by_longest(|n, _| n), (0, [35, 35]), "n - 1 for the smaller");
    assert_eq!(told_by_longest(|n, limit| 2 + limit.min(n - 1)), (0, [0, 0]), "2 for 1");
    let (above, _) = told_by_longest(|n, limit| 1 + limit.min(n - 2).max(1));
    assert_eq!(above, 2 * pairs().filter(|&(n, l)| n > 2 && l >= n - 1).count(), "n - 2");
}

/// The figure on the store after each call, and after each step inside a settle. The
/// store's lists were opened, so no call is refused by 12.
#[derive(Default)]
struct Stepped {
    stores: usize,
    met: [BTreeSet<(u8, u8)>; 3],
}

impl Stepped {
    fn see(&mut self, s: &Store) {
        self.stores += 1;
        let most = usize::from(figure(s.n, s.limit));
        for lane in &s.lanes[..usize::from(s.n)] {
            for (i, length) in figure::lengths(lane).into_iter().enumerate() {
                assert!(length <= most, "{s:?}");
                if length == most {
                    self.met[i].insert((s.n, s.limit));
                }
            }
        }
    }

    fn list(&mut self, records: &[Record]) {
        let mut store = lists::blank();
        for &record in records {
            if record == SETTLE && store.n > 0 {
                self.inside_settle(&store);
            }
            let given = lists::run(&mut store, record);
            assert_ne!(refusal(&given), Some(FULL), "{record:?}");
            if store.n > 0 {
                self.see(&store);
            }
        }
    }

    fn inside_settle(&mut self, before: &Store) {
        let mut s = before.clone();
        while let Some(step) = settle::next_step(&s) {
            s = machine::call(&s, step).expect("settle is not refused").0;
            self.see(&s);
        }
    }
}

#[test]
fn made_lists_keep_to_the_figure_after_each_call() {
    let mut stepped = Stepped::default();
    (0..700).for_each(|index| stepped.list(&list_maker::make(1, index)));
    (0..300).for_each(|place| {
        stepped.list(&list_maker::make(7, list_maker::drawn_index(7, place)));
    });
    assert!(stepped.stores >= 100_000, "{}", stepped.stores);
    let met = stepped.met.map(|pairs| pairs.len());
    assert!(met[RETURN] >= 14 && met[DOWN] >= 20, "{met:?}");
}

#[test]
fn the_longest_lists_keep_to_the_figure_after_each_call() {
    let mut stepped = Stepped::default();
    longest::all().iter().for_each(|list| stepped.list(&list.records));
    assert_eq!(stepped.met.map(|pairs| pairs.len()), [56; 3]);
}

/// No tape prints `refused 12`, and all its stores keep to the figure.
#[test]
fn made_tapes_have_no_12() {
    let (mut summary, mut stepped) = (Tapes::default(), Stepped::default());
    for index in 0..400 {
        let bytes = tapes::make(1, index);
        assert!(!tape::print(&bytes).lines().any(|line| line.ends_with(" refused 12")));
        summary.add(&bytes);
        let _ =
            tape::replay(&bytes, &mut |event| event.after.into_iter().for_each(|s| stepped.see(s)));
    }
    assert_eq!(summary.refused.get(&FULL), None);
    assert!(summary.to_string().contains("refusals never met: 12"), "{summary}");
    assert!(stepped.stores >= 50_000, "{}", stepped.stores);
}

/// 12 stays for stores that came from no opening.
#[test]
fn held_stores_still_have_12() {
    let mut s = Store::with_limit(2, 1, 2, 1);
    s.lanes[0].lines[0].valid = true;
    s.lanes[0].returns.length = PLACES as u8;
    let call = HeldCall::Machine(Call::Begin { lane: 0, op: Op::Load, word: 4 });
    assert_eq!(held::run(&s, call).answer, HeldAnswer::Refused(FULL));
    s.lanes[0].returns.length -= 1;
    assert_eq!(held::run(&s, call).answer, HeldAnswer::Machine(Answer::Wait));
}

fn run(arguments: &[&str]) -> process::Output {
    let program = env!("CARGO_BIN_EXE_reference");
    process::Command::new(program).args(arguments).output().expect("runs")
}

#[test]
fn commands() {
    let file = |name| Path::new(env!("CARGO_TARGET_TMPDIR")).join(name);
    let (lists_file, answers_file) = (file("longest.lists"), file("longest.answers"));
    let [made, given] = [&lists_file, &answers_file].map(|path| path.to_str().expect("plain"));
    assert!(run(&["make-longest", made]).status.success());
    let input = fs::read(&lists_file).expect("a file");
    assert!(input == bytes(&longest::records(&longest::all())));
    let mut answers = lists::answers(&input).expect("well formed");
    fs::write(&answers_file, &answers).expect("written");
    let held = run(&["figure-lists", made, given]);
    let lines = String::from_utf8(held.stdout).expect("text");
    assert!(held.status.success() && lines.contains("a return queue meets 56\n"), "{lines}");
    // The first list's second answer, a wait, as a refusal by 12.
    answers[12..14].copy_from_slice(&[4, 12]);
    fs::write(&answers_file, &answers).expect("written");
    let held = run(&["figure-lists", made, given]);
    let lines = String::from_utf8(held.stderr).expect("text");
    assert_eq!(held.status.code(), Some(1));
    assert!(lines.starts_with("record 1 ") && lines.contains("refused by 12"), "{lines}");
    assert!(lines.ends_with("faults in all: 1\n"), "{lines}");
}

//! The command line. See README.md.

use reference::cover::{self, Cover};
use reference::held::HeldCall;
use reference::loads::Loads;
use reference::parts::Rule;
use reference::serves::Serves;
use reference::services::Services;
use reference::settles::Settles;
use reference::stores::Case;
use reference::summary::{Cases, Tapes};
use reference::{bounds, choice, exact, figure, held, judge, list_maker, lists, longest};
use reference::{
    load_maker, serve_byte, serve_maker, service_maker, settle_maker, stores, tape, tapes,
};
use std::fs;
use std::io::{self, BufWriter, Read, Write};
use std::path::{Path, PathBuf};
use std::process::ExitCode;

const USAGE: &str = "usage:
  reference tape < TAPE
  reference tape-before-w3 < TAPE
  reference tape-before-w6 < TAPE
  reference held < CASES
  reference make-tapes SEED COUNT DIR
  reference draw-tapes SEED COUNT DIR
  reference expect-tapes DIR
  reference make-held SEED COUNT FILE
  reference choose-held SEED COUNT FILE
  reference make-serves SEED COUNT FILE
  reference make-loads SEED COUNT FILE
  reference make-services SEED COUNT FILE
  reference make-settles SEED COUNT FILE
  reference differ-held CASES ANSWERS
  reference bound-held CASES ANSWERS
  reference byte-held CASES ANSWERS
  reference exact-held CASES ANSWERS
  reference lists < LISTS
  reference make-lists SEED COUNT FILE
  reference draw-lists SEED COUNT FILE
  reference make-longest FILE
  reference count-lists LISTS
  reference cover-lists LISTS
  reference judge-lists LISTS ANSWERS
  reference bound-lists LISTS ANSWERS
  reference figure-lists LISTS ANSWERS
  reference exact-lists LISTS ANSWERS
  reference differ-lists LISTS ANSWERS";

type Outcome = Result<(), String>;

fn main() -> ExitCode {
    let args: Vec<String> = std::env::args().skip(1).collect();
    let args: Vec<&str> = args.iter().map(String::as_str).collect();
    match args[..] {
        ["byte-held", cases, answers] => exit_code(byte_held(cases, answers), 1),
        ["figure-lists", lists, answers] => exit_code(figure_lists(lists, answers), 1),
        ["exact-held", cases, answers] => exit_code(exact_held(cases, answers), 1),
        ["exact-lists", lists, answers] => exit_code(exact_lists(lists, answers), 1),
        _ => exit_code(run(&args), 2),
    }
}

/// A command that fails says why, and exits with its code.
fn exit_code(result: Outcome, failed: u8) -> ExitCode {
    match result {
        Ok(()) => ExitCode::SUCCESS,
        Err(text) => {
            eprintln!("{text}");
            ExitCode::from(failed)
        }
    }
}

/// The other commands.
fn run(args: &[&str]) -> Outcome {
    match args[..] {
        ["tape"] => run_tape(Rule::LoadFillsOldest),
        ["tape-before-w3"] => run_tape(Rule::FillsNewest),
        ["tape-before-w6"] => run_tape(Rule::BeforeW6),
        ["held"] => run_held(),
        ["make-tapes", seed, count, dir] => make_tapes(seed, count, dir, in_turn),
        ["draw-tapes", seed, count, dir] => make_tapes(seed, count, dir, tapes::drawn_index),
        ["expect-tapes", dir] => expect_tapes(Path::new(dir)),
        ["make-held", seed, count, file] => make_held(seed, count, Path::new(file)),
        ["choose-held", seed, count, file] => choose_held(seed, count, Path::new(file)),
        ["make-serves", seed, count, file] => make_serves(seed, count, Path::new(file)),
        ["make-loads", seed, count, file] => make_loads(seed, count, Path::new(file)),
        ["make-services", seed, count, file] => make_services(seed, count, Path::new(file)),
        ["make-settles", seed, count, file] => make_settles(seed, count, Path::new(file)),
        ["differ-held", cases, answers] => differ_held(cases, answers),
        ["bound-held", cases, answers] => bound_held(cases, answers),
        ["lists"] => run_lists(),
        ["make-lists", seed, count, file] => make_lists(seed, count, file, in_turn),
        ["draw-lists", seed, count, file] => make_lists(seed, count, file, list_maker::drawn_index),
        ["make-longest", file] => make_longest(Path::new(file)),
        ["count-lists", lists] => count_lists(lists).map(|_| ()),
        ["cover-lists", lists] => cover_lists(lists),
        ["judge-lists", lists, answers] => judge_lists(lists, answers),
        ["bound-lists", lists, answers] => bound_lists(lists, answers),
        ["differ-lists", lists, answers] => differ_lists(lists, answers),
        _ => Err(USAGE.to_string()),
    }
}

fn text(error: impl std::fmt::Display) -> String {
    error.to_string()
}

fn number<T: std::str::FromStr>(argument: &str) -> Result<T, String> {
    argument.parse().map_err(|_| format!("not a number: {argument}"))
}

fn input() -> Result<Vec<u8>, String> {
    let mut bytes = Vec::new();
    io::stdin().read_to_end(&mut bytes).map_err(text)?;
    Ok(bytes)
}

fn run_tape(rule: Rule) -> Outcome {
    let out = tape::print_under(&input()?, rule);
    io::stdout().write_all(out.as_bytes()).map_err(text)
}

fn run_held() -> Outcome {
    let out = held::answers(&input()?)?;
    io::stdout().write_all(&out).map_err(text)
}

/// The index of what is made at a place, by the seed and the place.
type Choice = fn(u64, usize) -> usize;

fn in_turn(_seed: u64, place: usize) -> usize {
    place
}

fn make_tapes(seed: &str, count: &str, dir: &str, choice: Choice) -> Outcome {
    let (seed, count, dir) = (number(seed)?, number(count)?, Path::new(dir));
    fs::create_dir_all(dir).map_err(text)?;
    let mut summary = Tapes::default();
    for place in 0..count {
        let bytes = tapes::make(seed, choice(seed, place));
        summary.add(&bytes);
        fs::write(dir.join(format!("{place:04}.tape")), bytes).map_err(text)?;
    }
    print!("{summary}");
    Ok(())
}

/// The files DIR/*.tape, by name.
fn tape_files(dir: &Path) -> Result<Vec<PathBuf>, String> {
    let entries = fs::read_dir(dir).map_err(text)?;
    let mut files: Vec<PathBuf> = entries.filter_map(|e| Some(e.ok()?.path())).collect();
    files.retain(|file| file.extension().map_or(false, |x| x == "tape"));
    files.sort();
    Ok(files)
}

fn expect_tapes(dir: &Path) -> Outcome {
    let files = tape_files(dir)?;
    for file in &files {
        let lines = tape::print(&fs::read(file).map_err(text)?);
        fs::write(file.with_extension("expected"), lines).map_err(text)?;
    }
    println!("{} files of expected lines", files.len());
    Ok(())
}

fn make_held(seed: &str, count: &str, file: &Path) -> Outcome {
    let (seed, count) = (number(seed)?, number(count)?);
    let mut out = BufWriter::new(fs::File::create(file).map_err(text)?);
    let mut summary = Cases::default();
    for index in 0..count {
        let case = stores::make(seed, index);
        summary.add(&case, &held::run(&case.store, case.call).answer);
        out.write_all(&held::encode_case(&case.store, case.call)).map_err(text)?;
    }
    out.flush().map_err(text)?;
    print!("{summary}");
    Ok(())
}

fn choose_held(seed: &str, count: &str, file: &Path) -> Outcome {
    let sets = choice::choose(number(seed)?, number(count)?);
    let mut second = file.as_os_str().to_owned();
    second.push(".second");
    let mut summary = Cases::default();
    for (cases, file) in sets.iter().zip([file, Path::new(&second)]) {
        write_chosen(cases, file)?;
        cases.iter().for_each(|case| summary.add(case, &held::run(&case.store, case.call).answer));
    }
    print!("{summary}");
    let room = choice::MOST_BYTES - choice::FREE_BYTES;
    match choice::answers_length(&sets[1]) <= room {
        true => Ok(()),
        false => Err(format!("the second set has more than {room} bytes of answers")),
    }
}

fn write_chosen(cases: &[Case], file: &Path) -> Outcome {
    let bytes = cases.iter().flat_map(|case| held::encode_case(&case.store, case.call));
    fs::write(file, bytes.collect::<Vec<u8>>()).map_err(text)?;
    let (length, most) = (choice::answers_length(cases), choice::MOST_BYTES);
    println!(
        "{}: {} cases, {length} bytes of answers, at most {most}",
        file.display(),
        cases.len()
    );
    Ok(())
}

fn make_serves(seed: &str, count: &str, file: &Path) -> Outcome {
    let (seed, count) = (number(seed)?, number(count)?);
    let mut out = BufWriter::new(fs::File::create(file).map_err(text)?);
    let mut summary = Serves::default();
    for index in 0..count {
        let (store, k) = serve_maker::make(seed, index);
        summary.add(&store, k).map_err(|e| format!("case {index}: {e}"))?;
        out.write_all(&held::encode_case(&store, serve_maker::call(k))).map_err(text)?;
    }
    out.flush().map_err(text)?;
    print!("{summary}");
    Ok(())
}

/// So many cases must meet all that there is to meet.
const ALL_MET_FROM: usize = 400;

fn make_loads(seed: &str, count: &str, file: &Path) -> Outcome {
    let (seed, count) = (number(seed)?, number(count)?);
    let mut out = BufWriter::new(fs::File::create(file).map_err(text)?);
    let mut summary = Loads::default();
    for index in 0..count {
        let (store, call) = load_maker::make(seed, index);
        summary.add(&store, call).map_err(|e| format!("case {index}: {e}"))?;
        out.write_all(&held::encode_case(&store, HeldCall::Machine(call))).map_err(text)?;
    }
    out.flush().map_err(text)?;
    print!("{summary}");
    all_met(count, &summary.never_met())
}

/// Fails if something was never met by so many cases.
fn all_met(count: usize, never: &[&str]) -> Outcome {
    match count >= ALL_MET_FROM && !never.is_empty() {
        true => Err(format!("never met: {}", never.join("; "))),
        false => Ok(()),
    }
}

fn make_services(seed: &str, count: &str, file: &Path) -> Outcome {
    let (seed, count) = (number(seed)?, number(count)?);
    let mut out = BufWriter::new(fs::File::create(file).map_err(text)?);
    let mut summary = Services::default();
    for index in 0..count {
        let (store, call) = service_maker::make(seed, index);
        summary.add(&store, call);
        out.write_all(&held::encode_case(&store, call)).map_err(text)?;
    }
    out.flush().map_err(text)?;
    print!("{summary}");
    all_met(count, &summary.never_met())
}

fn make_settles(seed: &str, count: &str, file: &Path) -> Outcome {
    let (seed, count) = (number(seed)?, number(count)?);
    let mut out = BufWriter::new(fs::File::create(file).map_err(text)?);
    let mut summary = Settles::default();
    for index in 0..count {
        let store = settle_maker::make(seed, index);
        summary.add(&store, &held::run(&store, HeldCall::Settle).answer);
        out.write_all(&held::encode_case(&store, HeldCall::Settle)).map_err(text)?;
    }
    out.flush().map_err(text)?;
    print!("{summary}");
    all_met(count, &summary.never_met())
}

fn differ_held(cases: &str, answers: &str) -> Outcome {
    let (cases, answers) = (fs::read(cases).map_err(text)?, fs::read(answers).map_err(text)?);
    let found = held::differences(&cases, &answers, 20)?;
    if found.is_empty() {
        println!("no differences in {} cases", cases.len() / held::CASE_BYTES);
        return Ok(());
    }
    Err(found.join("\n"))
}

fn bound_held(cases: &str, answers: &str) -> Outcome {
    let (cases, answers) = (fs::read(cases).map_err(text)?, fs::read(answers).map_err(text)?);
    print!("{}", bounds::of_held(&cases, &answers)?);
    Ok(())
}

fn byte_held(cases: &str, answers: &str) -> Outcome {
    let (cases, answers) = (fs::read(cases).map_err(text)?, fs::read(answers).map_err(text)?);
    print!("{}", serve_byte::of_held(&cases, &answers)?);
    Ok(())
}

fn exact_held(cases: &str, answers: &str) -> Outcome {
    let (cases, answers) = (fs::read(cases).map_err(text)?, fs::read(answers).map_err(text)?);
    print!("{}", exact::of_held(&cases, &answers)?);
    Ok(())
}

fn run_lists() -> Outcome {
    let out = lists::answers(&input()?)?;
    io::stdout().write_all(&out).map_err(text)
}

fn make_lists(seed: &str, count: &str, file: &str, choice: Choice) -> Outcome {
    let (seed, count) = (number(seed)?, number(count)?);
    let mut out = BufWriter::new(fs::File::create(file).map_err(text)?);
    for record in (0..count).flat_map(|place| list_maker::make(seed, choice(seed, place))) {
        out.write_all(&record.bytes()).map_err(text)?;
    }
    out.flush().map_err(text)
}

/// Fails if a list's queue does not meet W7's figure.
fn make_longest(file: &Path) -> Outcome {
    let all = longest::all();
    all.iter().try_for_each(longest::Longest::check)?;
    let records = longest::records(&all);
    let bytes: Vec<u8> = records.iter().flat_map(|record| record.bytes()).collect();
    fs::write(file, bytes).map_err(text)?;
    print!("{}", figure::judge(&longest::answered(&records))?);
    Ok(())
}

/// Prints what the lists met.
fn count_lists(file: &str) -> Result<Cover, String> {
    let cover = cover::cover(&lists::records(&fs::read(file).map_err(text)?)?);
    print!("{cover}");
    Ok(cover)
}

/// The same; fails if that is not all, or is impossible.
fn cover_lists(file: &str) -> Outcome {
    let cover = count_lists(file)?;
    let (never, odd) = (cover.never_met(), cover.impossible());
    match never.is_empty() && odd.is_empty() {
        true => Ok(()),
        false => Err(format!("never met: {}\nimpossible: {}", never.join("; "), odd.join("; "))),
    }
}

fn judge_lists(file: &str, answers: &str) -> Outcome {
    let (input, answers) = (fs::read(file).map_err(text)?, fs::read(answers).map_err(text)?);
    print!("{}", judge::judge(&lists::read(&input, &answers)?)?);
    Ok(())
}

fn bound_lists(file: &str, answers: &str) -> Outcome {
    let (input, answers) = (fs::read(file).map_err(text)?, fs::read(answers).map_err(text)?);
    print!("{}", bounds::of_lists(&lists::read(&input, &answers)?)?);
    Ok(())
}

fn figure_lists(file: &str, answers: &str) -> Outcome {
    let (input, answers) = (fs::read(file).map_err(text)?, fs::read(answers).map_err(text)?);
    print!("{}", figure::judge(&lists::read(&input, &answers)?)?);
    Ok(())
}

fn exact_lists(file: &str, answers: &str) -> Outcome {
    let (input, answers) = (fs::read(file).map_err(text)?, fs::read(answers).map_err(text)?);
    print!("{}", exact::of_lists(&input, &answers)?);
    Ok(())
}

fn differ_lists(file: &str, answers: &str) -> Outcome {
    let (input, answers) = (fs::read(file).map_err(text)?, fs::read(answers).map_err(text)?);
    let found = lists::differences(&input, &answers, 20)?;
    match found.is_empty() {
        true => Ok(()),
        false => Err(found.join("\n")),
    }
}

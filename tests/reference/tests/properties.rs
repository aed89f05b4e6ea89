//! Random runs from openings against flat memory, the places of completions, and
//! the four properties.

use reference::flat::{self, Flat};
use reference::machine;
use reference::parts::*;
use reference::rng::Rng;
use reference::walk::{self, Style};

/// A machine, flat memory, and each lane's last begin call that waited.
struct Run {
    store: Store,
    flat: Flat,
    waited: [Option<(Op, u8)>; LANES],
    completions: usize,
    refused: usize,
}

impl Run {
    fn new(n: u8, c: u8, m: u8) -> Run {
        let store = machine::open(n, c, m).expect("shape in range");
        Run { store, flat: Flat::new(m), waited: [None; LANES], completions: 0, refused: 0 }
    }

    fn call(&mut self, call: Call) -> Result<Answer, u8> {
        let (after, answer) = match machine::call(&self.store, call) {
            Ok(given) => given,
            Err(number) => {
                assert!([6, 7, 8, 9, 10, 11].contains(&number), "refused {number}");
                self.refused += 1;
                return Err(number);
            }
        };
        self.store = after;
        assert!(!machine::corrupt(&self.store));
        match (call, answer) {
            (Call::Begin { lane, op, word }, Answer::Wait) => {
                self.waited[usize::from(lane)] = Some((op, word));
            }
            (Call::Begin { op, word, .. }, Answer::Done(done)) => self.completed(op, word, done),
            (_, Answer::Done(done)) => {
                let (op, word) = self.waited[usize::from(done.lane)].expect("a begin that waited");
                self.completed(op, word, done);
            }
            _ => assert_eq!(answer, Answer::Step),
        }
        Ok(answer)
    }

    fn completed(&mut self, op: Op, word: u8, done: Completion) {
        assert_eq!(self.flat.feed(op, word), done.value, "{op:?} of word {word}");
        self.completions += 1;
        assert_eq!([done.place as usize, self.store.completed as usize], [self.completions; 2]);
    }

    /// Delivers, returns and serves, lowest lane first, until quiet.
    fn drain(&mut self) {
        let bound = 100 * usize::from(self.store.n);
        for _ in 0..bound {
            if self.store.quiet() {
                return;
            }
            let lanes = 0..self.store.n;
            let steps = lanes.clone().map(Call::Deliver);
            let mut steps =
                steps.chain(lanes.clone().map(Call::Return)).chain(lanes.map(Call::Serve));
            let taken = steps
                .any(|step| machine::call(&self.store, step).is_ok() && self.call(step).is_ok());
            assert!(taken, "no step is possible in a store that is not quiet");
        }
        panic!("not quiet after {bound} steps");
    }
}

fn check_quiet(run: &Run) {
    assert_eq!(flat::check_quiet(&run.store, &run.flat), Ok(()));
}

fn random_run(seed: u64, index: u64, calls: usize) -> Run {
    let mut rng = Rng::stream(seed, index);
    let (any_c, any_m) = (rng.between(1, 8), rng.between(1, 64));
    let (c, m) = (rng.pick(&[1, 2, any_c]) as u8, rng.pick(&[1, 2, 4, any_m]) as u8);
    let mut run = Run::new(rng.between(2, 8) as u8, c, m);
    let mut style = Style::random(&run.store, &mut rng);
    for i in 0..calls {
        if i % 150 == 149 {
            run.drain();
            check_quiet(&run);
            style = match rng.chance(20) {
                true => Style::sharing(&run.store, &mut rng),
                false => Style::random(&run.store, &mut rng),
            };
        }
        let _ = run.call(walk::next_call(&run.store, &style, &mut rng));
        if run.store.quiet() {
            check_quiet(&run);
        }
    }
    run.drain();
    check_quiet(&run);
    run
}

#[test]
fn random_runs_equal_flat_memory() {
    let (mut completions, mut refused) = (0, 0);
    for index in 0..150 {
        let run = random_run(7, index, 1_500);
        completions += run.completions;
        refused += run.refused;
    }
    assert!(completions > 50_000, "{completions} completions");
    assert!(refused > 10_000, "{refused} refusals");
}

#[test]
fn every_lane_adds_one_to_one_word() {
    for n in 2..=8 {
        let mut run = Run::new(n, 1, 1);
        for _ in 0..20 {
            for lane in 0..n {
                let _ = run.call(Call::Begin { lane, op: Op::Add(1), word: 2 });
            }
            run.drain();
        }
        check_quiet(&run);
        assert_eq!(run.flat.0[2], 20 * u32::from(n));
        assert_eq!(run.completions, 20 * usize::from(n));
    }
}

/// Orders in which steps can come are all taken, to a depth.
fn explore(run: &Store, depth: usize, seen: &mut usize) {
    *seen += 1;
    if depth == 0 {
        return;
    }
    for lane in 0..run.n {
        let begins =
            [Op::Load, Op::Add(1)].map(|op| Call::Begin { lane, op, word: 4 * (lane % run.m) });
        let steps = [Call::Serve(lane), Call::Return(lane), Call::Deliver(lane)];
        for call in begins.into_iter().chain(steps) {
            match machine::call(run, call) {
                Ok((after, _)) => {
                    assert!(!machine::corrupt(&after));
                    explore(&after, depth - 1, seen);
                }
                Err(number) => assert!((8..=11).contains(&number), "refused {number}"),
            }
        }
    }
}

#[test]
fn no_short_run_meets_a_full_queue_or_an_unexpected_message() {
    let mut seen = 0;
    for (c, m) in [(1, 1), (1, 2)] {
        explore(&machine::open(2, c, m).expect("in range"), 9, &mut seen);
    }
    assert!(seen > 20_000, "{seen} stores");
}

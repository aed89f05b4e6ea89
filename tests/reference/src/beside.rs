//! Begins on lanes that wait: what held ones meet, and wrong machines that answer
//! them otherwise. W5 lets a load that hits complete beside what waits.

use crate::held::{HeldAnswer, HeldCall};
use crate::lists::{self, Given, Record};
use crate::machine::{self, FULL, LANE_BUSY, NO_PLACE_LEFT};
use crate::parts::*;

/// The store after a call and its answer, or the refusal number.
pub type Outcome = Result<(Store, Answer), u8>;

/// A begin on a lane that waits, in a store that is not corrupt.
pub struct Beside<'a> {
    pub store: &'a Store,
    pub call: Call,
    pub lane: &'a Lane,
    pub op: Op,
    pub word: u8,
    pub waiting: Waiting,
    /// The line that Search finds its block in.
    pub found: Option<usize>,
}

impl<'a> Beside<'a> {
    pub fn of(store: &'a Store, call: HeldCall) -> Option<Beside<'a>> {
        let (call, k, op, word) = match call {
            HeldCall::Machine(call @ Call::Begin { lane, op, word }) => (call, lane, op, word),
            _ => return None,
        };
        if machine::corrupt(store) || k >= store.n {
            return None;
        }
        let lane = &store.lanes[usize::from(k)];
        let found = machine::search(lane, store.c, word / 4);
        Some(Beside { store, call, lane, op, word, waiting: lane.waiting?, found })
    }

    pub fn load_hits(&self) -> bool {
        self.op.is_load() && self.found.is_some()
    }

    pub fn load_misses(&self) -> bool {
        self.op.is_load() && self.found.is_none() && !self.word_outside()
    }

    pub fn word_outside(&self) -> bool {
        usize::from(self.word) >= 4 * usize::from(self.store.m)
    }

    /// It is of the block waited for.
    pub fn same_block(&self) -> bool {
        self.word / 4 == self.waiting.block()
    }

    /// It is a load of the word that its lane's store, exchange or add waits for.
    pub fn own_word(&self) -> bool {
        self.op.is_load() && self.word == self.waiting.word && !self.waiting.op.is_load()
    }

    /// PRIVATE of the line found.
    pub fn private(&self) -> Option<bool> {
        self.found.map(|i| self.lane.lines[i].private)
    }

    pub fn all_valid(&self) -> bool {
        self.lines().iter().all(|line| line.valid)
    }

    fn lines(&self) -> &[Line] {
        &self.lane.lines[..usize::from(self.store.c)]
    }

    pub fn none_left(&self) -> bool {
        self.store.begun() == u64::from(LAST_PLACE)
    }

    /// A miss that would have to give up a line, and has no room to.
    pub fn is_full(&self) -> bool {
        self.found.is_none() && self.all_valid() && self.lane.returns.is_full()
    }

    /// The grant of what waits is on its way.
    pub fn granted(&self) -> bool {
        let down = &self.lane.down.places[..usize::from(self.lane.down.length)];
        let grants = |m: &Message<DownKind>| !m.kind.is_order() && m.block == self.waiting.block();
        self.waiting.served && down.iter().any(grants)
    }

    fn right(&self) -> Outcome {
        machine::call(self.store, self.call)
    }

    /// The right answer, and the store after with a change.
    fn but(&self, change: impl Fn(&mut Store, &mut Lane)) -> Outcome {
        let (mut after, answer) = self.right()?;
        let k = usize::from(self.call.lane());
        let mut lane = after.lanes[k];
        change(&mut after, &mut lane);
        after.lanes[k] = lane;
        Ok((after, answer))
    }

    /// As if the lane did not wait, but for 17.
    fn as_idle(&self) -> Outcome {
        if self.none_left() {
            return Err(NO_PLACE_LEFT);
        }
        self.past_17()
    }

    /// The same with 17 not looked at: an operation less that waits leaves a place.
    fn past_17(&self) -> Outcome {
        let mut idle = self.store.clone();
        idle.lanes[usize::from(self.call.lane())].waiting = None;
        machine::call(&idle, self.call)
    }

    /// That waits as before.
    fn waits_on(&self, outcome: Outcome) -> Outcome {
        let (mut after, answer) = outcome?;
        after.lanes[usize::from(self.call.lane())].waiting = Some(self.waiting);
        Ok((after, answer))
    }

    /// The load's answer with the word as what waits will leave it.
    fn word_after(&self) -> Outcome {
        let (after, answer) = self.right()?;
        Ok(match answer {
            Answer::Done(done) => {
                let value = self.waiting.op.on(done.value).1;
                (after, Answer::Done(Completion { value, ..done }))
            }
            _ => (after, answer),
        })
    }
}

/// What a wrong machine gives where it has a rule of its own.
pub type Wrong = fn(&Beside) -> Option<Outcome>;

pub const WRONG: [(&str, Wrong); 16] = [
    ("8 for every load beside a wait (as before W5)", |it| busy(it.load_hits())),
    ("a load that misses waits too", |it| it.load_misses().then(|| it.as_idle())),
    ("a store, exchange or add that hits PRIVATE completes beside a wait", |it| {
        let hits = !it.op.is_load() && it.private() == Some(true);
        hits.then(|| it.waits_on(it.as_idle()))
    }),
    ("the load clears the waiting operation", |it| {
        it.load_hits().then(|| it.but(|_, lane| lane.waiting = None))
    }),
    ("8 before 7", |it| busy(it.word_outside())),
    ("the load is no use of the line", |it| {
        it.load_hits().then(|| it.but(|_, lane| lane.order = it.lane.order))
    }),
    ("17 not looked at for a load beside a wait", |it| {
        it.load_hits().then(|| it.waits_on(it.past_17()))
    }),
    ("17 before 8 for a load that misses", |it| {
        (it.load_misses() && it.none_left()).then_some(Err(NO_PLACE_LEFT))
    }),
    ("a load only beside an unserved operation", |it| busy(it.load_hits() && it.waiting.served)),
    ("a load of the block that the operation waits for is 8", |it| {
        busy(it.load_hits() && it.same_block())
    }),
    ("a load of another block than the one waited for is 8", |it| {
        busy(it.load_hits() && !it.same_block())
    }),
    ("17 before 8 for a store, exchange or add", |it| {
        let goes_on = !it.op.is_load() && !it.word_outside() && it.none_left();
        goes_on.then_some(Err(NO_PLACE_LEFT))
    }),
    ("12 before 8", |it| (it.is_full() && !it.word_outside()).then_some(Err(FULL))),
    ("the load makes the operation unserved", |it| {
        let unserved = Waiting { served: false, ..it.waiting };
        it.load_hits().then(|| it.but(|_, lane| lane.waiting = Some(unserved)))
    }),
    ("the load gives the word after its own operation", |it| {
        (it.load_hits() && it.own_word()).then(|| it.word_after())
    }),
    ("the load is not counted among the completions", |it| {
        it.load_hits().then(|| it.but(|after, _| after.completed -= 1))
    }),
];

fn busy(holds: bool) -> Option<Outcome> {
    holds.then_some(Err(LANE_BUSY))
}

/// What a wrong machine gives to a machine call.
pub fn wrong_call(s: &Store, call: Call, wrong: Wrong) -> Outcome {
    let own = Beside::of(s, HeldCall::Machine(call)).and_then(|it| wrong(&it));
    own.unwrap_or_else(|| machine::call(s, call))
}

/// One record of a list under a wrong machine.
pub fn wrong_run(store: &mut Store, record: Record, wrong: Wrong) -> Given {
    let own = match record {
        Record::Call(call) => Beside::of(store, call).and_then(|it| wrong(&it)),
        _ => None,
    };
    match own {
        None => lists::run(store, record),
        Some(Err(number)) => Given::Answer(HeldAnswer::Refused(number)),
        Some(Ok((after, answer))) => {
            *store = after;
            Given::Answer(HeldAnswer::Machine(answer))
        }
    }
}

/// The machine before W5.
pub const BEFORE_W5: Wrong = WRONG[0].1;

/// The names of the wrong machines that give a case other bytes.
pub fn told(s: &Store, call: HeldCall) -> Vec<&'static str> {
    let it = match Beside::of(s, call) {
        Some(it) => it,
        None => return Vec::new(),
    };
    let right = it.right();
    let differs = |wrong: Wrong| wrong(&it).map_or(false, |given| given != right);
    WRONG.iter().filter(|(_, wrong)| differs(*wrong)).map(|(name, _)| *name).collect()
}

/// What held cases of all kinds must meet often.
pub const NAMES: [&str; 3] = [
    "done by a load beside a wait",
    "refused 8 on a load that misses",
    "refused 8 on an operation that hits PRIVATE",
];

/// Those of `NAMES` that a case meets.
pub fn met(s: &Store, call: HeldCall, answer: &HeldAnswer) -> Vec<&'static str> {
    let it = match Beside::of(s, call) {
        Some(it) => it,
        None => return Vec::new(),
    };
    let is_busy = *answer == HeldAnswer::Refused(LANE_BUSY);
    let holds = [
        matches!(answer, HeldAnswer::Machine(Answer::Done(_))),
        is_busy && it.load_misses(),
        is_busy && !it.op.is_load() && it.private() == Some(true),
    ];
    NAMES.into_iter().zip(holds).filter(|(_, holds)| *holds).map(|(name, _)| name).collect()
}

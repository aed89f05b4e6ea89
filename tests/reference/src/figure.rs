//! W7's figure: each queue has at most one more message than the smaller of L and
//! n - 1, and 12 is never answered. Lists and answers are held to it from their bytes
//! alone: nothing of the machine enters here.

use crate::held::HeldAnswer;
use crate::lists::{Given, Record};
use crate::parts::*;
use std::collections::BTreeSet;
use std::fmt::{self, Display, Formatter};

/// The number that a full queue gives.
const FULL: u8 = 12;

/// So many faults are named.
const NAMED: usize = 20;

/// What is held to the figure: each queue of a lane, and both together.
pub const HELD: [&str; 3] = ["return queue", "down queue", "two queues together"];

/// Their places in `HELD`.
pub const RETURN: usize = 0;
pub const DOWN: usize = 1;
pub const TOGETHER: usize = 2;

/// The figure for n and L.
pub type Figure = fn(u8, u8) -> u8;

/// One more than the smaller of L and n - 1.
///
/// A service sends a lane one order at most, none to its own lane, and stays open
/// until the answer is taken. At most L are open, and no two of one lane, which has
/// one operation. So orders to a lane and its answers are at most the smaller of L and
/// n - 1. The one more is of the lane's own operation: the eject of its begin, or its
/// grant. Both are never there at once, since 11 keeps the serve back until the eject
/// is taken, and the lane begins no other before its grant is delivered.
pub fn figure(n: u8, limit: u8) -> u8 {
    1 + limit.min(n.saturating_sub(1))
}

/// The lengths of a lane's queues, in the order of `HELD`.
pub fn lengths(lane: &Lane) -> [usize; 3] {
    let (returns, down) = (usize::from(lane.returns.length), usize::from(lane.down.length));
    [returns, down, returns + down]
}

/// What was held to the figure, and what does not hold.
#[derive(Default)]
pub struct Lengths {
    /// Lists whose opening was not refused; the others have nothing to hold.
    pub lists: usize,
    pub refused_openings: usize,
    /// To calls, settles among them.
    pub not_full: usize,
    /// Shown, with all lanes within the figure.
    pub within: usize,
    /// n with L whose figure was met with equality, in the order of `HELD`.
    pub met: [BTreeSet<(u8, u8)>; 3],
    pub faults: usize,
    /// The first of them.
    pub named: Vec<String>,
    /// n and L of the list; none where its opening was refused, or came not yet.
    list: Option<(u8, u8)>,
}

/// Holds a whole file of lists to the figure; fails with the first faults.
pub fn judge(all: &[(Record, Given)]) -> Result<Lengths, String> {
    let held = hold(all, figure);
    match held.faults {
        0 => Ok(held),
        faults => Err(format!("{}\nfaults in all: {faults}", held.named.join("\n"))),
    }
}

/// The same with any figure, and without failing.
pub fn hold(all: &[(Record, Given)], figure: Figure) -> Lengths {
    let mut held = Lengths::default();
    for (index, (record, given)) in all.iter().enumerate() {
        for fault in held.see(*record, given, figure) {
            held.fault(format!("record {index} {record:?}: {fault}"));
        }
    }
    held
}

impl Lengths {
    fn fault(&mut self, text: String) {
        self.faults += 1;
        if self.named.len() < NAMED {
            self.named.push(text);
        }
    }

    /// One record and what it gave; the faults in it.
    fn see(&mut self, record: Record, given: &Given, figure: Figure) -> Vec<String> {
        if let Some((n, _, _, limit)) = record.opens() {
            self.open(n, limit, *given == Given::Opened);
            return Vec::new();
        }
        match (self.list, given) {
            (None, _) => Vec::new(),
            (Some(_), Given::Answer(HeldAnswer::Refused(FULL))) => {
                vec!["refused by 12".to_string()]
            }
            (Some((n, limit)), Given::Store(store)) => {
                self.see_store(store, n, limit, figure(n, limit))
            }
            (Some(_), _) => {
                self.not_full += 1;
                Vec::new()
            }
        }
    }

    fn open(&mut self, n: u8, limit: u8, opened: bool) {
        self.list = opened.then_some((n, limit));
        self.lists += usize::from(opened);
        self.refused_openings += usize::from(!opened);
    }

    /// A store shown, in a list with this n and L.
    fn see_store(&mut self, store: &Store, n: u8, limit: u8, figure: u8) -> Vec<String> {
        let (most, mut faults) = (usize::from(figure), Vec::new());
        for (k, lane) in store.lanes.iter().enumerate().take(usize::from(n)) {
            for (i, length) in lengths(lane).into_iter().enumerate() {
                if length == most {
                    self.met[i].insert((n, limit));
                }
                if length > most {
                    let what = HELD[i];
                    faults
                        .push(format!("n {n}, L {limit}: lane {k}, {what}: {length}, not {most}"));
                }
            }
        }
        self.within += usize::from(faults.is_empty());
        faults
    }
}

impl Display for Lengths {
    fn fmt(&self, f: &mut Formatter) -> fmt::Result {
        let [returns, down, together] = [RETURN, DOWN, TOGETHER].map(|i| self.met[i].len());
        writeln!(
            f,
            "lists {}, and {} with nothing to hold, whose opening was refused",
            self.lists, self.refused_openings
        )?;
        writeln!(f, "answers that are not 12: {}", self.not_full)?;
        writeln!(f, "stores within the figure {}", self.within)?;
        writeln!(f, "n with L whose figure a return queue meets {returns}")?;
        writeln!(f, "n with L whose figure a down queue meets {down}")?;
        writeln!(f, "n with L whose figure the two queues of a lane meet together {together}")
    }
}

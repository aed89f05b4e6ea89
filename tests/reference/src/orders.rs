//! What held completions meet of W3's rule: cases that would leave another store
//! if the line went elsewhere in its lane's use order.

use crate::held::{HeldAnswer, HeldCall};
use crate::machine;
use crate::parts::*;
use crate::settle;

pub const NAMES: [&str; 12] = [
    "a load's fill as newest (as before W3) gives another store",
    "a load's fill in the second place gives another store",
    "a load's fill with the order left as it was gives another store",
    "a load's fill that changes places with the oldest gives another store",
    "a load's fill as the oldest of the valid lines alone gives another store",
    "another operation's fill as oldest gives another store",
    "a load's bare grant as oldest gives another store",
    "another operation's bare grant as oldest gives another store",
    "a load's hit with the order left as it was gives another store",
    "a load's hit as oldest gives another store",
    "another operation's hit with the order left as it was gives another store",
    "loads' fills as newest (as before W3) give another store after a settle",
];

/// So many of the wrong orders are for grants; the others are for hits.
pub const FOR_GRANTS: usize = 8;

/// What an operation completes by.
#[derive(Clone, Copy, PartialEq, Eq, Debug)]
pub enum By {
    /// A grant with words.
    Fill,
    BareGrant,
    /// In its begin.
    Hit,
}

/// An operation that completes: by what, whether it is a load, and its line
/// among the c lines of its lane before.
pub struct Completing<'a> {
    by: By,
    load: bool,
    line: usize,
    lane: &'a Lane,
    c: usize,
}

/// Where the line goes: the first c places of the use order after.
pub type Order = fn(&Completing) -> Vec<u8>;

/// An order, for completions by this and of loads or not.
pub type Wrong = (By, bool, Order);

/// W3's own: a load's fill goes in as oldest, all else is a use.
pub const RIGHT: Order = |it| match it.is_loads_fill() {
    true => it.at(0),
    false => it.at(it.c - 1),
};

/// Wrong ones, of the first names.
pub const WRONG: [Wrong; 11] = [
    (By::Fill, true, |it| it.at(it.c - 1)),
    (By::Fill, true, |it| it.at(1.min(it.c - 1))),
    (By::Fill, true, |it| it.before()),
    (By::Fill, true, |it| it.exchanged()),
    (By::Fill, true, |it| it.at(it.invalid_first())),
    (By::Fill, false, |it| it.at(0)),
    (By::BareGrant, true, |it| it.at(0)),
    (By::BareGrant, false, |it| it.at(0)),
    (By::Hit, true, |it| it.before()),
    (By::Hit, true, |it| it.at(0)),
    (By::Hit, false, |it| it.before()),
];

impl<'a> Completing<'a> {
    /// What completes in a call of its own on a store that is not corrupt; none
    /// if nothing does.
    pub fn of(s: &'a Store, call: Call) -> Option<Completing<'a>> {
        let (after, answer) = machine::call(s, call).ok()?;
        let (lane, c) = (&s.lanes[usize::from(call.lane())], usize::from(s.c));
        let (by, op, block) = match (call, answer) {
            (Call::Begin { op, word, .. }, Answer::Done(_)) => (By::Hit, op, word / 4),
            (Call::Deliver(_), Answer::Done(_)) => {
                let (grant, waiting) = (lane.down.head()?, lane.waiting?);
                let fills = grant.kind == DownKind::Grant;
                (if fills { By::Fill } else { By::BareGrant }, waiting.op, grant.block)
            }
            _ => return None,
        };
        let line = machine::search(&after.lanes[usize::from(call.lane())], s.c, block)?;
        Some(Completing { by, load: op.is_load(), line, lane, c })
    }

    pub fn is_loads_fill(&self) -> bool {
        self.by == By::Fill && self.load
    }

    /// The wrong order, if it is for such a completion.
    fn under(&self, &(by, load, order): &Wrong) -> Option<Vec<u8>> {
        ((by, load) == (self.by, self.load)).then(|| order(self))
    }

    fn before(&self) -> Vec<u8> {
        self.lane.order[..self.c].to_vec()
    }

    /// The other lines in their order.
    fn others(&self) -> Vec<u8> {
        self.before().into_iter().filter(|&name| usize::from(name) != self.line).collect()
    }

    /// The line in this place, the others in their order around it.
    fn at(&self, place: usize) -> Vec<u8> {
        let mut order = self.others();
        order.insert(place, self.line as u8);
        order
    }

    fn exchanged(&self) -> Vec<u8> {
        let mut order = self.before();
        let place = order.iter().position(|&name| usize::from(name) == self.line);
        order.swap(0, place.expect("line in use order"));
        order
    }

    /// How many lines that are not valid stand before the first other valid one.
    fn invalid_first(&self) -> usize {
        let valid = |name: &u8| self.lane.lines[usize::from(*name)].valid;
        self.others().iter().take_while(|name| !valid(name)).count()
    }
}

/// Those of `NAMES` that a case meets: a call that completes, or a settle.
pub fn met(s: &Store, call: HeldCall, answer: &HeldAnswer) -> Vec<&'static str> {
    let mut holds = match (call, answer) {
        (HeldCall::Machine(call), HeldAnswer::Machine(Answer::Done(_))) => wrong_orders(s, call),
        _ => vec![false; WRONG.len()],
    };
    holds.push(matches!(answer, HeldAnswer::Settled(_)) && settles_otherwise(s));
    assert_eq!(holds.len(), NAMES.len());
    NAMES.into_iter().zip(holds).filter(|(_, holds)| *holds).map(|(name, _)| name).collect()
}

/// The same, and for a settle the names of the wrong orders that its steps tell:
/// the store at the end is another.
pub fn told(s: &Store, call: HeldCall, answer: &HeldAnswer) -> Vec<&'static str> {
    let mut names = met(s, call, answer);
    if matches!(answer, HeldAnswer::Settled(_)) {
        let after = settle::settle(s).expect("not refused").0;
        let differs = |wrong: &Wrong| settled_with(s, wrong) != after;
        let wrong = NAMES.into_iter().zip(&WRONG).filter(|(_, wrong)| differs(wrong));
        names.extend(wrong.map(|(name, _)| name));
    }
    names
}

/// Which of the wrong orders are not the one that the machine gives.
fn wrong_orders(s: &Store, call: Call) -> Vec<bool> {
    let it = Completing::of(s, call).expect("a completion");
    let (after, _) = machine::call(s, call).expect("not refused");
    let given = &after.lanes[usize::from(call.lane())].order[..it.c];
    WRONG.iter().map(|wrong| it.under(wrong).map_or(false, |order| order != given)).collect()
}

/// Whether the rule before W3 leaves another store.
fn settles_otherwise(s: &Store) -> bool {
    let [now, before] = [Rule::LoadFillsOldest, Rule::FillsNewest]
        .map(|rule| settle::settle_under(s, rule).expect("not refused").0);
    now != before
}

/// The store after a settle that is not refused, with a wrong order.
pub fn settled_with(s: &Store, wrong: &Wrong) -> Store {
    let mut now = s.clone();
    while let Some(step) = settle::next_step(&now) {
        let order = Completing::of(&now, step).and_then(|it| it.under(wrong));
        now = machine::call(&now, step).expect("settle is not refused").0;
        if let Some(order) = order {
            now.lanes[usize::from(step.lane())].order[..order.len()].copy_from_slice(&order);
        }
    }
    now
}

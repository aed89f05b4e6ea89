//! What held cases meet of W6: services in their slots, the limit, long queues.

use crate::conditions;
use crate::held::{self, HeldAnswer, HeldCall};
use crate::machine;
use crate::parts::*;
use crate::service_faults::{self, WRONG};
use crate::settle;
use crate::summary::{fmt_counts, kind_name};
use std::collections::BTreeMap;
use std::fmt::{self, Display, Formatter};

/// A case and its answer.
pub struct It<'a> {
    s: &'a Store,
    call: HeldCall,
    answer: &'a HeldAnswer,
    /// Why the store is corrupt, if it is.
    reasons: Vec<&'static str>,
}

type Test = fn(&It) -> bool;

/// Returns.
const RETURNS: [(&str, Test); 16] = [
    ("return: lowers a service above the lowest busy slot", |it| it.lowers() && it.rank() > 0),
    ("return: lowers the lowest busy slot, others open", |it| {
        it.lowers() && it.rank() == 0 && it.open() > 1
    }),
    ("return: closes the lowest busy slot, others open", |it| {
        it.closes() && it.rank() == 0 && it.open() > 1
    }),
    ("return: closes a slot between others", |it| {
        it.closes() && it.rank() > 0 && it.rank() + 1 < it.open()
    }),
    ("return: closes the highest busy slot, others open", |it| {
        it.closes() && it.rank() > 0 && it.rank() + 1 == it.open()
    }),
    ("return: closes slot 7", |it| it.closes() && it.own_slot() == Some(7)),
    ("return: closes with eight open", |it| it.closes() && it.open() == SLOTS),
    ("return: closes for a lane with another service", |it| it.closes() && it.shares_lane()),
    ("return: closes, which makes a queue full", |it| it.closes() && it.makes_full()),
    ("return: refused 12 with others open", |it| it.refused_return(12) && it.open() > 1),
    ("return: refused 16, another block's service awaits", |it| {
        it.refused_return(16) && it.own_slot().is_none() && it.some_await()
    }),
    ("return: refused 16, own service awaits 0, another awaits", |it| {
        it.refused_return(16) && it.own_slot().is_some() && it.some_await()
    }),
    ("return: refused 16 where 12 would be next", |it| {
        it.refused_return(16) && conditions::all(it.s, it.call).contains(&machine::FULL)
    }),
    ("return: eject of a block in service, several open", |it| {
        it.takes_return(false) && it.own_slot().is_some() && it.open() > 1
    }),
    ("return: taken from a queue of 3 to 7", |it| it.returns() && (3..8).contains(&it.length())),
    ("return: taken from a queue of 8", |it| it.returns() && it.length() == 8),
];

/// Serves.
const SERVES: [(&str, Test); 16] = [
    ("serve: refused 10 for the block alone", |it| it.busy() == Some((true, false))),
    ("serve: refused 10 for L alone", |it| it.busy() == Some((false, true))),
    ("serve: refused 10 for both", |it| it.busy() == Some((true, true))),
    ("serve: refused 10 for L alone, L 8", |it| {
        it.busy() == Some((false, true)) && it.s.limit == 8
    }),
    ("serve: refused 10 where 11 would be next", |it| it.busy().is_some() && it.returns_pending()),
    ("serve: refused 9 with L open", |it| {
        it.refused_serve(9) && it.open() == usize::from(it.s.limit)
    }),
    ("serve: refused 12 with services open", |it| it.refused_serve(12) && it.open() > 0),
    ("serve: opens with L - 1 open", |it| it.opens() && it.fills_limit() && it.open() > 0),
    ("serve: closes at once with L - 1 open", |it| {
        it.serves() && !it.opens() && it.fills_limit() && it.open() > 0
    }),
    ("serve: opens the eighth", |it| it.opens() && it.open() == 7),
    ("serve: opens with L above n", |it| it.opens() && it.s.limit > it.s.n),
    ("serve: opens with L above m", |it| it.opens() && it.s.limit > it.s.m),
    ("serve: opens in a gap between services", |it| it.opens() && it.in_gap()),
    ("serve: opens in slot 0 below others", |it| {
        it.opens() && it.s.slots[0].is_none() && it.open() > 0
    }),
    ("serve: opens for a lane with another service", |it| it.opens() && it.lane_has_service()),
    ("serve: makes a queue full", |it| it.serves() && it.makes_full()),
];

/// Begins and delivers.
const QUEUES: [(&str, Test); 6] = [
    ("begin: makes the return queue full", |it| it.begins() && it.makes_full()),
    ("begin: refused 12", |it| it.kind() < 5 && it.refused(12)),
    ("deliver: taken from a queue of 3 to 7", |it| it.delivers() && (3..8).contains(&it.length())),
    ("deliver: taken from a queue of 8", |it| it.delivers() && it.length() == 8),
    ("deliver: makes the return queue full", |it| it.delivers() && it.makes_full()),
    ("deliver: refused 12", |it| it.kind() == 7 && it.refused(12)),
];

/// Settles.
const SETTLES: [(&str, Test); 10] = [
    ("settle: closes two services or more", |it| it.settled() && it.open() > 1),
    ("settle: closes eight services", |it| it.settled() && it.open() == SLOTS),
    ("settle: refused 10 for the block alone", |it| it.busy_inside() == Some((true, false))),
    ("settle: refused 10 for L alone", |it| it.busy_inside() == Some((false, true))),
    ("settle: refused 10, a higher lane could be served", |it| {
        it.busy_inside().is_some() && it.higher_could_be_served()
    }),
    ("settle: refused 10 after steps", |it| {
        it.busy_inside().is_some() && settle::before_refusal(it.s).0 > 0
    }),
    ("settle: refused 16, two services or more stuck", |it| it.stuck() && it.open() > 1),
    ("settle: a queue of 8 on its way", |it| it.settled() && it.longest() == 8),
    ("settle: a bound above 255", |it| {
        it.kind() == held::SETTLE_KIND && it.sound() && settle::bound(it.s) > 255
    }),
    ("settle: refused 12 inside", |it| it.kind() == held::SETTLE_KIND && it.refused(12)),
];

/// Corrupt stores, for one reason alone.
const CORRUPT: [(&str, Test); 15] = [
    ("14: L 0 alone", |it| it.alone("L below 1")),
    ("14: L 9 alone", |it| it.alone("L above 8") && it.s.limit == 9),
    ("14: L above 9 alone", |it| it.alone("L above 8") && it.s.limit > 9),
    ("14: L + 1 services alone", |it| it.exceeds() && it.open() == usize::from(it.s.limit) + 1),
    ("14: more than L + 1 services alone", |it| {
        it.exceeds() && it.open() > usize::from(it.s.limit) + 1
    }),
    ("14: two of one block alone, in neighbouring slots", |it| it.repeats_at(1, 1)),
    ("14: two of one block alone, four slots apart or more", |it| it.repeats_at(4, 7)),
    ("14: lane of a service in slot L or above alone", |it| {
        it.alone("lane of a service") && it.late(|v, s| v.lane >= s.n)
    }),
    ("14: block of a service in slot L or above alone", |it| {
        it.alone("block of a service") && it.late(|v, s| v.block >= s.m)
    }),
    ("14: awaited in slot L or above alone", |it| {
        it.alone("awaited") && it.late(|v, s| v.awaited >= s.n)
    }),
    ("14: a return queue of 9 alone", |it| it.alone("return queue length") && it.longest() == 9),
    ("14: a down queue of 9 alone", |it| it.alone("down queue length") && it.longest() == 9),
    ("14: a message behind the second alone", |it| it.late_message()),
    ("14: for W6 alone, a picture", |it| it.of_w6() && it.kind() == held::PICTURE_KIND),
    ("14: for W6 alone, a settle", |it| it.of_w6() && it.kind() == held::SETTLE_KIND),
];

/// Stores that look odd and are not corrupt.
const FAIR: [(&str, Test); 6] = [
    ("not refused, two services of one lane", |it| it.passes() && it.lanes_repeat()),
    ("not refused, awaited 0", |it| it.passes() && it.s.services().any(|v| v.awaited == 0)),
    ("not refused, L above n", |it| it.passes() && it.s.limit > it.s.n),
    ("not refused, L above m", |it| it.passes() && it.s.limit > it.s.m),
    ("not refused, a service in slot L or above", |it| it.passes() && it.late(|_, _| true)),
    ("not refused, eight services", |it| it.passes() && it.open() == SLOTS),
];

fn tests() -> impl Iterator<Item = &'static (&'static str, Test)> {
    let steps = RETURNS.iter().chain(&SERVES).chain(&QUEUES);
    steps.chain(&SETTLES).chain(&CORRUPT).chain(&FAIR)
}

/// All that there is to meet, in the order of print.
pub fn names() -> Vec<&'static str> {
    tests().map(|(name, _)| *name).collect()
}

/// Those of the names that a case meets.
pub fn met(s: &Store, call: HeldCall, answer: &HeldAnswer) -> Vec<&'static str> {
    let it = It { s, call, answer, reasons: conditions::corrupt_reasons(s) };
    tests().filter(|(_, test)| test(&it)).map(|(name, _)| *name).collect()
}

impl It<'_> {
    fn kind(&self) -> u8 {
        self.call.kind()
    }

    fn sound(&self) -> bool {
        self.reasons.is_empty()
    }

    fn refused(&self, number: u8) -> bool {
        *self.answer == HeldAnswer::Refused(number)
    }

    fn passes(&self) -> bool {
        !matches!(self.answer, HeldAnswer::Refused(_))
    }

    fn open(&self) -> usize {
        self.s.open_services()
    }

    fn lane(&self) -> Option<&Lane> {
        match self.call {
            HeldCall::Machine(call) if call.lane() < self.s.n.min(8) => {
                Some(&self.s.lanes[usize::from(call.lane())])
            }
            _ => None,
        }
    }

    fn begins(&self) -> bool {
        self.kind() < 5 && self.passes()
    }

    fn serves(&self) -> bool {
        self.kind() == 5 && self.passes()
    }

    fn returns(&self) -> bool {
        self.kind() == 6 && self.passes()
    }

    fn delivers(&self) -> bool {
        self.kind() == 7 && self.passes()
    }

    /// The store after a call that is not refused.
    fn after(&self) -> Store {
        held::run(self.s, self.call).store
    }

    /// Some queue gets its eighth message.
    fn makes_full(&self) -> bool {
        let (before, after) = (service_faults::lengths(self.s), self.after());
        service_faults::lengths(&after).iter().zip(&before).any(|(&is, &was)| is == 8 && was == 7)
    }

    /// The length of the queue that a return or deliver takes from.
    fn length(&self) -> u8 {
        let length = |lane: &Lane| match self.kind() {
            6 => lane.returns.length,
            _ => lane.down.length,
        };
        self.lane().map_or(0, length)
    }

    fn longest(&self) -> u8 {
        service_faults::lengths(self.s).into_iter().max().unwrap_or(0)
    }

    fn head(&self) -> Option<Message<ReturnKind>> {
        self.lane().filter(|_| self.kind() == 6)?.returns.head()
    }

    /// The slot of the service of the returned message's block.
    fn own_slot(&self) -> Option<usize> {
        self.head().and_then(|message| self.s.slot_of(message.block))
    }

    /// How many busy slots are below the own one.
    fn rank(&self) -> usize {
        let own = self.own_slot().unwrap_or(0);
        self.s.slots[..own].iter().flatten().count()
    }

    /// A return of an answer, or of an eject, that is not refused.
    fn takes_return(&self, answers: bool) -> bool {
        self.returns() && self.head().map_or(false, |m| m.kind.is_answer() == answers)
    }

    fn own_awaited(&self) -> u8 {
        self.own_slot().and_then(|slot| self.s.slots[slot]).map_or(0, |v| v.awaited)
    }

    fn lowers(&self) -> bool {
        self.takes_return(true) && self.own_awaited() > 1
    }

    fn closes(&self) -> bool {
        self.takes_return(true) && self.own_awaited() == 1
    }

    /// The lane of the own service has another one.
    fn shares_lane(&self) -> bool {
        let own = self.own_slot().and_then(|slot| self.s.slots[slot]);
        own.map_or(false, |own| self.s.services().filter(|v| v.lane == own.lane).count() > 1)
    }

    fn refused_return(&self, number: u8) -> bool {
        self.kind() == 6 && self.refused(number)
    }

    fn some_await(&self) -> bool {
        self.s.services().any(|v| v.awaited > 0)
    }

    fn refused_serve(&self, number: u8) -> bool {
        self.kind() == 5 && self.refused(number)
    }

    /// Whether 10 is for the block, and whether it is for L.
    fn busy(&self) -> Option<(bool, bool)> {
        let waiting = self.lane().filter(|_| self.refused_serve(10))?.waiting?;
        Some(reasons_of_10(self.s, waiting.block()))
    }

    fn returns_pending(&self) -> bool {
        self.lane().map_or(false, |lane| !lane.returns.is_empty())
    }

    fn opens(&self) -> bool {
        self.serves() && self.after().open_services() > self.open()
    }

    /// One more, and L are open.
    fn fills_limit(&self) -> bool {
        self.open() + 1 == usize::from(self.s.limit)
    }

    /// The lowest free slot is between busy ones, and another slot above is free.
    fn in_gap(&self) -> bool {
        let slots = &self.s.slots;
        let lowest = slots.iter().position(Option::is_none).unwrap_or(0);
        let above = |test: fn(&Option<Service>) -> bool| slots[lowest..].iter().skip(1).any(test);
        lowest > 0 && above(Option::is_some) && above(Option::is_none)
    }

    fn lane_has_service(&self) -> bool {
        match self.call {
            HeldCall::Machine(call) => self.s.services().any(|v| v.lane == call.lane()),
            _ => false,
        }
    }

    fn settled(&self) -> bool {
        matches!(self.answer, HeldAnswer::Settled(_))
    }

    /// The store and the serve that 10 refuses inside a settle.
    fn refused_inside(&self) -> Option<(Store, u8)> {
        if self.call != HeldCall::Settle || !self.refused(10) {
            return None;
        }
        match conditions::settle_end(self.s) {
            conditions::SettleEnd::At(now, Call::Serve(k)) => Some((*now, k)),
            _ => None,
        }
    }

    fn busy_inside(&self) -> Option<(bool, bool)> {
        let (now, k) = self.refused_inside()?;
        let waiting = now.lanes[usize::from(k)].waiting?;
        Some(reasons_of_10(&now, waiting.block()))
    }

    fn higher_could_be_served(&self) -> bool {
        let (now, k) = match self.refused_inside() {
            Some(found) => found,
            None => return false,
        };
        (k + 1..now.n).any(|higher| machine::call(&now, Call::Serve(higher)).is_ok())
    }

    fn stuck(&self) -> bool {
        let end = || conditions::settle_end(self.s);
        self.call == HeldCall::Settle
            && self.refused(16)
            && matches!(end(), conditions::SettleEnd::Stuck(_))
    }

    /// The only reason for which the store is corrupt.
    fn alone(&self, reason: &str) -> bool {
        self.reasons == [reason]
    }

    fn exceeds(&self) -> bool {
        self.alone("services exceed L")
    }

    /// Two services of one block, their slots so far from each other.
    fn repeats_at(&self, least: usize, most: usize) -> bool {
        let slots = self.s.slots;
        let same = |a: usize, b: usize| match (slots[a], slots[b]) {
            (Some(one), Some(other)) => one.block == other.block,
            _ => false,
        };
        let apart = |a: usize, b: usize| (least..=most).contains(&(a - b));
        let pair = |a: usize| (0..a).any(|b| same(a, b) && apart(a, b));
        self.alone("two services of one block") && (0..SLOTS).any(pair)
    }

    /// A service in slot L or above is so.
    fn late(&self, test: fn(&Service, &Store) -> bool) -> bool {
        let late = self.s.slots.iter().skip(usize::from(self.s.limit)).flatten();
        late.into_iter().any(|service| test(service, self.s))
    }

    fn late_message(&self) -> bool {
        let late = |reason: &&str| reason.ends_with("message 2 to 6") || reason.ends_with("sage 7");
        self.reasons.len() == 1 && self.reasons.iter().all(late)
    }

    /// Corrupt for one of W6's own reasons alone.
    fn of_w6(&self) -> bool {
        let own = ["L below 1", "L above 8", "services exceed L", "two services of one block"];
        own.iter().any(|reason| self.alone(reason))
    }

    fn lanes_repeat(&self) -> bool {
        let lanes: Vec<u8> = self.s.services().map(|v| v.lane).collect();
        (0..lanes.len()).any(|i| lanes[..i].contains(&lanes[i]))
    }
}

/// Whether the block is in service, and whether L services are open.
fn reasons_of_10(s: &Store, block: u8) -> (bool, bool) {
    (s.service_of(block).is_some(), s.open_services() >= usize::from(s.limit))
}

/// Counts over made cases.
#[derive(Default)]
pub struct Services {
    pub cases: usize,
    /// By call kind and answer.
    pub given: BTreeMap<(u8, String), usize>,
    pub met: BTreeMap<&'static str, usize>,
    /// The wrong machines that give other bytes.
    pub told: BTreeMap<&'static str, usize>,
}

impl Services {
    pub fn add(&mut self, s: &Store, call: HeldCall) {
        self.cases += 1;
        let answer = held::run(s, call).answer;
        let name = match answer {
            HeldAnswer::Refused(number) => format!("refused-{number}"),
            _ => "accepted".to_string(),
        };
        *self.given.entry((call.kind(), name)).or_default() += 1;
        for name in met(s, call, &answer) {
            *self.met.entry(name).or_default() += 1;
        }
        for name in service_faults::told(s, call) {
            *self.told.entry(name).or_default() += 1;
        }
    }

    /// What was never met, wrong machines that no case tells too.
    pub fn never_met(&self) -> Vec<&'static str> {
        let met = names().into_iter().filter(|name| !self.met.contains_key(name));
        let told = WRONG.iter().map(|wrong| wrong.name);
        met.chain(told.filter(|name| !self.told.contains_key(name))).collect()
    }
}

impl Display for Services {
    fn fmt(&self, f: &mut Formatter) -> fmt::Result {
        writeln!(f, "cases of services {}", self.cases)?;
        for kind in crate::summary::HELD_KINDS {
            let of_kind = self.given.iter().filter(|((k, _), _)| *k == kind);
            let parts: Vec<String> = of_kind.map(|((_, name), n)| format!(" {name} {n}")).collect();
            writeln!(f, "{}:{}", kind_name(kind), parts.concat())?;
        }
        writeln!(f, "met:")?;
        fmt_counts(f, &names(), &self.met)?;
        writeln!(f, "wrong machines:")?;
        for wrong in &WRONG {
            let told = self.told.get(wrong.name).unwrap_or(&0);
            writeln!(f, "  {} gives other bytes: {told}", wrong.name)?;
        }
        Ok(())
    }
}

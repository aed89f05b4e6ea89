//! Makes cases: a held store and a call. Case `index` depends on the seed
//! and the index only.

use crate::conditions;
use crate::damage::{self, Damage, CORRUPTING, FAIR};
use crate::held::{HeldCall, BUFFER_BYTES};
use crate::load_maker;
use crate::machine;
use crate::order_maker;
use crate::parts::*;
use crate::rng::Rng;
use crate::scramble;
use crate::service_maker;
use crate::walk::{self, Style};

pub struct Case {
    pub store: Store,
    pub call: HeldCall,
    /// Where the store comes from.
    pub source: &'static str,
    /// Names of the damage done.
    pub damages: Vec<&'static str>,
}

pub const SOURCES: [&str; 7] = [
    "reached",
    "reached, damaged",
    "random",
    "random, damaged",
    FOR_THE_ORDER,
    BESIDE_A_WAIT,
    OF_SERVICES,
];

/// The source of cases whose completions move lines in the use order.
pub const FOR_THE_ORDER: &str = "for the use order";

/// The source of begins on lanes that wait.
pub const BESIDE_A_WAIT: &str = "beside a wait";

/// The source of cases of several services, the limit and long queues.
pub const OF_SERVICES: &str = "of services";

/// One case in so many is of services.
const SERVICES_EVERY: usize = 8;

/// A step that finds nothing gives way: a serve or deliver to a case of the use
/// order, a return to a begin on a lane that waits.
pub fn make(seed: u64, index: usize) -> Case {
    if index % SERVICES_EVERY == SERVICES_EVERY - 1 {
        return of_services(seed, index);
    }
    let case = of_any_call(seed, index);
    match case.call {
        HeldCall::Machine(Call::Serve(_) | Call::Deliver(_)) if finds_nothing(&case, 2) => {
            for_the_order(seed, index)
        }
        HeldCall::Machine(Call::Return(_)) if finds_nothing(&case, 3) => beside_a_wait(seed, index),
        _ => case,
    }
}

/// 9 alone refuses it, in a store of so many lines or more. All such are refused
/// alike.
fn finds_nothing(case: &Case, lines: u8) -> bool {
    let (s, call) = (&case.store, case.call);
    s.c >= lines && conditions::all(s, call) == [machine::NOTHING_PENDING]
}

fn of_services(seed: u64, index: usize) -> Case {
    let mut rng = Rng::stream(seed ^ 0x736c_6f73, index as u64);
    let (store, call) = service_maker::make_any(&mut rng);
    Case { store, call, source: OF_SERVICES, damages: Vec::new() }
}

fn beside_a_wait(seed: u64, index: usize) -> Case {
    let mut rng = Rng::stream(seed ^ 0x6265_7369, index as u64);
    let (store, call) = load_maker::make_any(&mut rng);
    let call = HeldCall::Machine(call);
    Case { store, call, source: BESIDE_A_WAIT, damages: Vec::new() }
}

fn for_the_order(seed: u64, index: usize) -> Case {
    let mut rng = Rng::stream(seed ^ 0x6f72_6465, index as u64);
    let (mut store, call) = order_maker::make(&mut rng);
    if rng.chance(50) {
        scramble::junk(&mut store, &mut rng);
    }
    // One place less: a hit needs one.
    store.completed = scramble::completed(&store, &mut rng).saturating_sub(1);
    Case { store, call, source: FOR_THE_ORDER, damages: Vec::new() }
}

fn of_any_call(seed: u64, index: usize) -> Case {
    let mut rng = Rng::stream(seed, index as u64);
    let source = rng.weighted(&[25, 30, 30, 15]);
    let (mut store, call) = if source < 2 { reached(&mut rng) } else { random(&mut rng) };
    if rng.chance(50) {
        scramble::junk(&mut store, &mut rng);
    }
    let (fair, corrupting) = match source % 2 {
        0 => (Vec::new(), Vec::new()),
        _ => choose_damage(&mut rng),
    };
    let mut damages = damage(&mut store, &fair, &mut rng);
    // Only now, since all before may add an operation that waits.
    store.completed = scramble::completed(&store, &mut rng);
    damages.extend(damage(&mut store, &corrupting, &mut rng));
    Case { store, call, source: SOURCES[source], damages }
}

/// A store that random calls reach from an opening, and a call. They run under
/// 01's rule, and begins on lanes that wait are left out, since all were refused
/// before W5: W3's rule and W5 reach the same stores, and cases stay as they were.
pub fn reached(rng: &mut Rng) -> (Store, HeldCall) {
    let (any_c, any_m) = (rng.between(1, 8), rng.between(1, 64));
    let c = rng.pick(&[1, 2, any_c]) as u8;
    let m = rng.pick(&[1, 2, 3, any_m, 64]) as u8;
    let (any, n) = (rng.between(1, SLOTS) as u8, rng.between(2, 8) as u8);
    let limit = rng.pick(&[1, any, any, 8]);
    let mut s = machine::open_with_limit(n, c, m, limit).expect("shape in range");
    let style = match rng.chance(20) {
        true => Style::sharing(&s, rng),
        false => Style::random(&s, rng),
    };
    let any = rng.below(200);
    for _ in 0..rng.pick(&[0, 5, 20, any, any]) {
        let call = walk::next_call(&s, &style, rng);
        if waits(&s, call) {
            continue;
        }
        if let Ok((after, _)) = machine::call_under(&s, call, Rule::FillsNewest) {
            s = after;
        }
    }
    let call = match rng.below(100) {
        0..=11 => picture_call(&s, rng),
        12..=27 => settle_call(&mut s, rng),
        28..=64 => HeldCall::Machine(walk::next_call(&s, &style, rng)),
        _ => any_call(&s, rng),
    };
    (s, call)
}

/// Whether the call is a begin on a lane that waits.
fn waits(s: &Store, call: Call) -> bool {
    let begins = matches!(call, Call::Begin { .. }) && call.lane() < s.n;
    begins && s.lanes[usize::from(call.lane())].waiting.is_some()
}

/// A random store and a call that is turned toward it.
fn random(rng: &mut Rng) -> (Store, HeldCall) {
    let mut s = scramble::store(rng);
    let call = match rng.below(100) {
        0..=9 => picture_call(&s, rng),
        10..=18 => settle_call(&mut s, rng),
        _ => any_call(&s, rng),
    };
    if let HeldCall::Machine(call) = call {
        if call.lane() < s.n && rng.chance(70) {
            turn_toward(&mut s, call, rng);
        }
    }
    (s, call)
}

/// Any machine call, begins half as often as the steps together.
fn any_call(s: &Store, rng: &mut Rng) -> HeldCall {
    let (lane, v) = (walk::any_lane(s, rng), rng.value());
    let op = rng.pick(&[Op::Load, Op::Store(v), Op::Exchange(v), Op::Add(v)]);
    let begin = Call::Begin { lane, op, word: walk::any_word(s, rng) };
    let steps = [Call::Serve(lane), Call::Return(lane), Call::Deliver(lane)];
    HeldCall::Machine(match rng.chance(40) {
        true => begin,
        false => rng.pick(&steps),
    })
}

/// Picture with a lent buffer near the length it needs, or any.
fn picture_call(s: &Store, rng: &mut Rng) -> HeldCall {
    let lanes = &s.lanes[..usize::from(s.n)];
    let valid = |l: &Lane| l.lines[..usize::from(s.c)].iter().filter(|l| l.valid).count();
    let need = 19 * lanes.iter().map(valid).sum::<usize>();
    let any = rng.below(BUFFER_BYTES + 1);
    let below = need.saturating_sub(1);
    let near = [need, need, below, below, need + 1, need + 19, need.saturating_sub(19)];
    let lent = rng.pick(&near);
    HeldCall::Picture(rng.pick(&[lent, lent, any, 0, BUFFER_BYTES]) as u32)
}

/// Settle, of the store as it is or with one thing that its steps meet.
fn settle_call(s: &mut Store, rng: &mut Rng) -> HeldCall {
    let k = usize::from(rng.byte_below(s.n));
    let (n, m) = (s.n, s.m);
    match rng.below(10) {
        // A service that is never answered: 10 or stuck.
        0 | 1 => {
            let service = damage::any_service(s, rng);
            service.awaited = rng.pick(&[0, (service.awaited + 1).min(n - 1), n - 1]);
        }
        // An order to a lane with a full return queue: 12.
        2 => {
            let places = scramble::return_places(m, rng);
            s.lanes[k].returns = Queue { length: PLACES as u8, places };
            let kind = rng.pick(&[DownKind::Update, DownKind::Purge]);
            let order = Message { kind, block: rng.byte_below(m), words: [0; 4] };
            s.lanes[k].down.push(order);
        }
        // A served operation that nothing answers: stuck.
        3 => {
            let fresh = scramble::waiting(m, rng);
            s.lanes[k].waiting.get_or_insert(fresh).served = true;
        }
        // A last message that is refused when the others are taken.
        4 => {
            let last = &mut s.lanes[usize::from(n) - 1].returns;
            last.push(scramble::return_places(m, rng)[0]);
        }
        // Ejects, which are always taken.
        5 => {
            let kind = rng.pick(&[ReturnKind::Eject, ReturnKind::WriteEject]);
            s.lanes[k].returns.push(Message { kind, block: rng.byte_below(m), words: rng.words() });
        }
        _ => {}
    }
    HeldCall::Settle
}

/// Changes the store so that the later checks of the call are met.
fn turn_toward(s: &mut Store, call: Call, rng: &mut Rng) {
    match call {
        Call::Begin { lane, word, .. } => toward_begin(s, usize::from(lane), word, rng),
        Call::Serve(lane) => toward_serve(s, usize::from(lane), rng),
        Call::Return(lane) => toward_return(s, usize::from(lane), rng),
        Call::Deliver(lane) => toward_deliver(s, usize::from(lane), rng),
    }
}

fn toward_begin(s: &mut Store, k: usize, word: u8, rng: &mut Rng) {
    let (c, m) = (usize::from(s.c), s.m);
    if rng.chance(20) {
        // Nobody else waits: the next place can be the last.
        s.lanes.iter_mut().for_each(|lane| lane.waiting = None);
    }
    let lane = &mut s.lanes[k];
    if rng.chance(55) {
        lane.waiting = None;
    }
    if rng.chance(40) {
        // A miss with all lines valid, where there is another block.
        for line in &mut lane.lines[..c] {
            line.valid = true;
            if line.block == word / 4 {
                line.block = (line.block + 1) % m;
            }
        }
        if rng.chance(75) {
            let places = scramble::return_places(m, rng);
            lane.returns = Queue { length: PLACES as u8, places };
        }
    } else if word / 4 < m && rng.chance(50) {
        let line = &mut lane.lines[rng.below(c)];
        (line.valid, line.block) = (true, word / 4);
    }
}

fn toward_serve(s: &mut Store, k: usize, rng: &mut Rng) {
    if rng.chance(80) {
        let fresh = scramble::waiting(s.m, rng);
        s.lanes[k].waiting.get_or_insert(fresh).served = false;
    }
    if let Some(waiting) = s.lanes[k].waiting {
        toward_slot(s, waiting.block(), rng);
    }
    if rng.chance(65) {
        s.lanes[k].returns.length = 0;
    }
    if rng.chance(30) {
        toward_orders(s, k, rng);
    }
}

/// Mostly room for a service of the block; else the block is in service, or L
/// services are open.
fn toward_slot(s: &mut Store, block: u8, rng: &mut Rng) {
    match rng.below(100) {
        0..=64 => scramble::make_servable(s, block, rng),
        65..=76 => {
            scramble::make_servable(s, block, rng);
            if let Some(slot) = scramble::free_slot(s, rng) {
                s.slots[slot] = Some(Service { block, ..scramble::service(s.n, s.m, rng) });
            }
        }
        77..=88 => scramble::open_services(s, usize::from(s.limit), rng),
        _ => {}
    }
}

/// Many lanes have the block, and room for orders unlike k itself.
fn toward_orders(s: &mut Store, k: usize, rng: &mut Rng) {
    let waiting = match s.lanes[k].waiting {
        Some(waiting) => waiting,
        None => return,
    };
    let n = usize::from(s.n);
    let entry = &mut s.blocks[usize::from(waiting.block())];
    entry.modified = rng.chance(80);
    for j in 0..n {
        entry.present[j] = rng.chance(70);
        let length = &mut s.lanes[j].down.length;
        *length = if j == k { PLACES as u8 } else { rng.pick(&[0, 0, 1, 7]) };
    }
}

fn toward_return(s: &mut Store, k: usize, rng: &mut Rng) {
    let queue = &mut s.lanes[k].returns;
    if queue.is_empty() {
        *queue = Queue { length: 1, places: scramble::return_places(s.m, rng) };
    }
    let block = queue.places[0].block;
    if rng.chance(85) {
        let own = rng.chance(75) && s.slot_of(block).is_none();
        let service = match s.slot_of(block) {
            Some(slot) => s.slots[slot].as_mut().expect("an open service"),
            None => damage::any_service(s, rng),
        };
        if own {
            service.block = block;
        }
        service.awaited = rng.pick(&[1, 1, 1, service.awaited]);
    }
}

fn toward_deliver(s: &mut Store, k: usize, rng: &mut Rng) {
    let m = s.m;
    let lane = &mut s.lanes[k];
    if lane.down.is_empty() {
        lane.down = Queue { length: 1, places: scramble::down_places(m, rng) };
    }
    if rng.chance(80) {
        let fresh = scramble::waiting(m, rng);
        let waiting = lane.waiting.get_or_insert(fresh);
        waiting.served = true;
        waiting.word = 4 * lane.down.places[0].block + waiting.word % 4;
        if rng.chance(10) {
            (waiting.op, waiting.command) = (Op::Load, Command::Exclude);
        }
    }
    if rng.chance(50) {
        toward_fit(lane, s.c, rng);
    }
    if rng.chance(40) {
        toward_misfit(lane, s.c, m, rng);
    }
}

/// One thing that is wrong for a grant at the head of the down queue.
fn toward_misfit(lane: &mut Lane, c: u8, m: u8, rng: &mut Rng) {
    let head = lane.down.places[0];
    let (one, other) = (usize::from(rng.byte_below(c)), usize::from(rng.byte_below(c)));
    match (rng.below(5), &mut lane.waiting) {
        (0, Some(waiting)) => waiting.served = false,
        (1, Some(waiting)) => waiting.word = 4 * ((waiting.block() + 1) % m),
        (2, _) => {
            (lane.lines[one].valid, lane.lines[one].block) = (true, head.block);
            lane.lines[other].valid = one == other;
        }
        (3, _) => {
            for line in &mut lane.lines[..usize::from(c)] {
                (line.valid, line.block) = (true, (head.block + 1) % m);
            }
        }
        _ => lane.waiting = None,
    }
}

/// Lines that a grant at the head of the down queue fits, or an order finds.
fn toward_fit(lane: &mut Lane, c: u8, rng: &mut Rng) {
    let head = lane.down.places[0];
    let at = usize::from(rng.byte_below(c));
    if head.kind != DownKind::Grant {
        (lane.lines[at].valid, lane.lines[at].block) = (true, head.block);
        return;
    }
    lane.lines[at].valid = false;
    for line in &mut lane.lines[..usize::from(c)] {
        line.valid &= line.block != head.block;
    }
}

type Damages = Vec<&'static Damage>;

/// Some fair damage, some corrupting, or both. Damage to n, c, m and L is last:
/// the others need them in range.
fn choose_damage(rng: &mut Rng) -> (Damages, Damages) {
    let is_corrupting = rng.chance(60);
    let none = if is_corrupting { 4 } else { 0 };
    let fair = (0..rng.weighted(&[none, 4, 2])).map(|_| &FAIR[rng.below(FAIR.len())]).collect();
    let mut corrupting = Vec::new();
    if is_corrupting {
        let last = CORRUPTING.len() - 1;
        let (inner, any) = (rng.between(8, last), rng.between(0, last));
        // The last, W1's, can come with all calls and be met in many ways.
        let any = if rng.chance(6) { last } else { any };
        if rng.chance(20) {
            corrupting.push(&CORRUPTING[inner]);
        }
        corrupting.push(&CORRUPTING[any]);
    }
    (fair, corrupting)
}

/// Does the damage; the names of what the store had a place for.
fn damage(store: &mut Store, chosen: &[&Damage], rng: &mut Rng) -> Vec<&'static str> {
    let done = chosen.iter().filter(|damage| (damage.act)(store, rng));
    done.map(|damage| damage.name).collect()
}

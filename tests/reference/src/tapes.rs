//! Makes tapes. The machine is run while a tape is made, so that most of its
//! records do something. Tape `index` depends on the seed and the index only.

use crate::list_maker::SHAPES;
use crate::machine::HIGHEST_KIND;
use crate::parts::*;
use crate::rng::Rng;
use crate::tape::{self, body_length, Record, LONGEST};
use crate::walk::{self, Style};

/// What a tape is for.
#[derive(Clone, Copy, PartialEq, Eq, Debug)]
pub enum Role {
    Empty,
    /// Document 01's own.
    Sample,
    /// Exactly so many bytes, the last record whole or truncated.
    Sized {
        bytes: usize,
        truncated: bool,
    },
    /// Ends in a record of the kind with only so much of its body.
    Truncated {
        kind: u8,
        kept: usize,
        opened: bool,
    },
    /// Ends in a kind above the highest, perhaps with bytes after it.
    Unknown {
        kind: u8,
        followed: bool,
        opened: bool,
    },
    /// One byte is changed.
    Damaged,
    /// Many records and refused opens before the open.
    NotOpen,
    /// Random small bytes.
    RandomBytes,
    /// Eight lanes share a few blocks.
    Sharing,
    /// Opens of kinds 00 and 08, accepted and refused, then any records.
    Opens(Opens),
    /// Many services at once, with this L.
    Services {
        limit: u8,
    },
    /// Lanes that wait load often.
    Beside,
    General,
}

/// Opens at the beginning of a tape.
#[derive(Clone, Copy, PartialEq, Eq, Debug)]
pub enum Opens {
    /// Kind 08 with this L.
    Limit(u8),
    /// L is above n, and above m.
    LimitAboveAll,
    /// Each is refused by 4: 08 after 00, 00 after 08, 08 after 08.
    LimitAfterOpen,
    OpenAfterLimit,
    LimitAfterLimit,
    /// 08, refused by 5; with an L outside too.
    InvalidShape,
    InvalidShapeAndLimit,
    /// 08, refused by 18.
    InvalidLimit(u8),
    /// 08, refused by 5 or 18, then 08 or 00.
    LimitAfterRefused,
    OpenAfterRefused,
    /// 00, refused by 5, then 08.
    LimitAfterRefusedOpen,
}

/// Roles repeat after so many tapes.
pub const CYCLE: usize = 400;

/// So many tapes at the end of a cycle are Beside.
const BESIDE: usize = 8;

/// The roles at the beginning of a cycle; those up to the last are General.
fn special_roles() -> Vec<Role> {
    let mut roles = vec![Role::Empty, Role::Sample];
    roles.extend([LONGEST - 1, LONGEST, LONGEST + 1].into_iter().flat_map(sized_roles));
    roles.push(Role::Sized { bytes: 100_000, truncated: false });
    roles.extend([true, false].into_iter().flat_map(truncated_roles));
    let above = [0x09, 0x0a, 0x0f, 0x10, 0x11, 0x80, 0xff];
    roles.extend(above.into_iter().flat_map(unknown_roles));
    roles.extend([Role::Damaged; 24]);
    roles.extend([Role::NotOpen; 8]);
    roles.extend([Role::RandomBytes; 8]);
    roles.extend([Role::Sharing; 8]);
    roles.extend(opens().into_iter().map(Role::Opens));
    roles.extend((0..24).map(|i| Role::Services { limit: 1 + i % 8 }));
    roles
}

/// Every way to open, or not to.
fn opens() -> Vec<Opens> {
    use Opens::*;
    let mut opens: Vec<Opens> = (1..=8).map(Limit).collect();
    opens.extend([LimitAboveAll, LimitAfterOpen, OpenAfterLimit, LimitAfterLimit, InvalidShape]);
    opens.extend([InvalidShapeAndLimit, InvalidLimit(0), InvalidLimit(9), InvalidLimit(255)]);
    opens.extend([LimitAfterRefused, OpenAfterRefused, LimitAfterRefusedOpen]);
    opens
}

fn sized_roles(bytes: usize) -> [Role; 2] {
    [false, true].map(|truncated| Role::Sized { bytes, truncated })
}

/// Every kind, with every length that its body is short of.
fn truncated_roles(opened: bool) -> Vec<Role> {
    let lengths = |kind| 0..body_length(kind).expect("known kind");
    let of_kind = |kind| lengths(kind).map(move |kept| Role::Truncated { kind, kept, opened });
    (0..=HIGHEST_KIND).flat_map(of_kind).collect()
}

fn unknown_roles(kind: u8) -> [Role; 3] {
    let ways = [(false, false), (false, true), (true, true)];
    ways.map(|(followed, opened)| Role::Unknown { kind, followed, opened })
}

/// An index of any role, and of any shape where it is General; the seed's choice.
pub fn drawn_index(seed: u64, place: usize) -> usize {
    Rng::stream(seed ^ 0x6472_6177, place as u64).below(CYCLE * SHAPES)
}

/// The role of a tape, and its rank among the General ones so far.
pub fn role(index: usize) -> (Role, usize) {
    let specials = special_roles();
    let (round, at) = (index / CYCLE, index % CYCLE);
    let general = CYCLE - specials.len() - BESIDE;
    let rank = round * general + at.saturating_sub(specials.len());
    let last = if at < CYCLE - BESIDE { Role::General } else { Role::Beside };
    (specials.get(at).copied().unwrap_or(last), rank)
}

pub fn make(seed: u64, index: usize) -> Vec<u8> {
    let rng = Rng::stream(seed, index as u64);
    let (role, rank) = role(index);
    match role {
        Role::Empty => Vec::new(),
        Role::Sample => tape::SAMPLE_TAPE.to_vec(),
        Role::Sized { bytes, truncated } => sized(rng, bytes, truncated),
        Role::Truncated { kind, kept, opened } => truncated(rng, kind, kept, opened),
        Role::Unknown { kind, followed, opened } => unknown(rng, kind, followed, opened),
        Role::Damaged => damaged(rng),
        Role::NotOpen => not_open(rng),
        Role::RandomBytes => random_bytes(rng),
        Role::Sharing => sharing(rng),
        Role::Opens(how) => opened_so(rng, how),
        Role::Services { limit } => services(rng, limit),
        Role::Beside => beside(rng),
        Role::General => general(rng, rank),
    }
}

fn random_bytes(mut rng: Rng) -> Vec<u8> {
    (0..rng.between(2_000, 8_000)).map(|_| rng.byte_below(HIGHEST_KIND + 1)).collect()
}

pub type Shape = (u8, u8, u8);

/// Every n, c and m in turn, and in 3,584 turns every shape; each third tape
/// any small shape.
pub fn shape_of_rank(rank: usize, rng: &mut Rng) -> Shape {
    if rank % 3 == 2 {
        return small_shape(rng);
    }
    let turn = rank / 3 * 2 + rank % 3;
    let (n, c, m) = (2 + turn % 7, 1 + (turn + turn / 8 + turn / 64) % 8, 1 + turn % 64);
    (n as u8, c as u8, m as u8)
}

fn small_shape(rng: &mut Rng) -> Shape {
    let (any_c, any_m) = (rng.between(1, 8), rng.between(1, 64));
    let c = rng.pick(&[1, 1, 2, 3, any_c]);
    let m = rng.pick(&[1, 2, 3, 4, 6, any_m]);
    (rng.between(2, 8) as u8, c as u8, m as u8)
}

/// A shape with one or more of its numbers out of range.
fn bad_shape(rng: &mut Rng) -> Shape {
    loop {
        let (mut n, mut c, mut m) = small_shape(rng);
        if rng.chance(50) {
            n = rng.pick(&[0, 1, 9, 255]);
        }
        if rng.chance(40) {
            c = rng.pick(&[0, 9, 255]);
        }
        if rng.chance(40) {
            m = rng.pick(&[0, 65, 255]);
        }
        if crate::machine::open(n, c, m).is_err() {
            return (n, c, m);
        }
    }
}

fn bad_limit(rng: &mut Rng) -> u8 {
    rng.pick(&[0, 0, 9, 9, 10, 128, 255])
}

struct Builder {
    bytes: Vec<u8>,
    store: Option<Store>,
    rng: Rng,
    /// So many records in a hundred are loads on lanes that wait.
    beside: usize,
}

impl Builder {
    fn new(rng: Rng) -> Builder {
        Builder { bytes: Vec::new(), store: None, rng, beside: 0 }
    }

    /// Adds a record and runs it.
    fn record(&mut self, record: Record) {
        self.bytes.extend(record.bytes());
        if let Ok((after, _)) = tape::run_record(&self.store, record) {
            self.store = Some(after);
        }
    }

    fn open(&mut self, (n, c, m): Shape) {
        self.record(Record::Open { n, c, m });
    }

    fn open_limit(&mut self, (n, c, m): Shape, limit: u8) {
        self.record(Record::OpenLimit { n, c, m, limit });
    }

    /// By kind 00 or 08.
    fn open_any(&mut self, shape: Shape) {
        let limit = self.rng.between(1, SLOTS) as u8;
        match self.rng.chance(40) {
            true => self.open(shape),
            false => self.open_limit(shape, limit),
        }
    }

    /// An open of either kind that is refused by 5 or 18.
    fn refused_open(&mut self) {
        let (bad, good) = (bad_shape(&mut self.rng), small_shape(&mut self.rng));
        let (limit, any) = (bad_limit(&mut self.rng), self.rng.between(1, SLOTS) as u8);
        let pick = self.rng.pick(&[limit, any]);
        match self.rng.below(4) {
            0 | 1 => self.open(bad),
            2 => self.open_limit(bad, pick),
            _ => self.open_limit(good, limit),
        }
    }

    /// Records before the open, refused one and all.
    fn prelude(&mut self, records: usize) {
        for _ in 0..records {
            if self.rng.chance(40) {
                self.refused_open();
            } else {
                let like = Store::fresh(8, 8, 64);
                let call = walk::odd_call(&like, &mut self.rng);
                self.record(Record::Call(call));
            }
        }
    }

    /// A prelude at times, then the open.
    fn start(&mut self, shape: Shape) {
        if self.rng.chance(35) {
            let records = self.rng.between(1, 6);
            self.prelude(records);
        }
        self.open_any(shape);
    }

    fn next_record(&mut self, style: &Style) -> Record {
        let rng = &mut self.rng;
        if rng.below(400) == 0 {
            let (n, c, m) = if rng.chance(50) { bad_shape(rng) } else { small_shape(rng) };
            let limit = rng.below(10) as u8;
            // Tapes that kind 00 opened mostly stay without a record of kind 08.
            let limited = self.store.as_ref().map_or(false, |s| s.limit > 1);
            return match limited && rng.chance(50) {
                true => Record::OpenLimit { n, c, m, limit },
                false => Record::Open { n, c, m },
            };
        }
        let store = self.store.as_ref().expect("open store");
        let load = match self.beside > 0 && rng.chance(self.beside) {
            true => walk::load_beside(store, rng),
            false => None,
        };
        Record::Call(load.unwrap_or_else(|| walk::next_call(store, style, rng)))
    }

    fn new_style(&mut self, sharing: bool) -> Style {
        let store = self.store.as_ref().expect("open store");
        match sharing {
            true => Style::sharing(store, &mut self.rng),
            false => Style::random(store, &mut self.rng),
        }
    }

    /// Records in phases of one style each, some ended by a drain.
    fn run(&mut self, records: usize, sharing: bool) {
        let mut left = records;
        while left > 0 {
            let style = self.new_style(sharing);
            let phase = self.rng.between(60, 300).min(left);
            if !self.phase(phase, &style) {
                return;
            }
            left -= phase;
            if self.rng.chance(25) {
                self.drain();
            }
        }
    }

    /// Records of one style; false if the tape has no room for them all.
    fn phase(&mut self, records: usize, style: &Style) -> bool {
        for _ in 0..records {
            if self.bytes.len() > LONGEST - 600 {
                return false;
            }
            let record = self.next_record(style);
            self.record(record);
        }
        true
    }

    /// Steps until the store is quiet.
    fn drain(&mut self) {
        loop {
            let store = self.store.as_ref().expect("open store");
            let steps =
                (0..store.n).flat_map(|k| [Call::Deliver(k), Call::Return(k), Call::Serve(k)]);
            let open = |call: &Call| tape::run_record(&self.store, Record::Call(*call)).is_ok();
            let possible: Vec<Call> = steps.filter(open).collect();
            if possible.is_empty() {
                return;
            }
            let call = self.rng.pick(&possible);
            self.record(Record::Call(call));
        }
    }

    /// Many lanes load the same blocks, as many as a lane has lines; the first of them.
    fn share_blocks(&mut self) -> u8 {
        let (n, c, m) = self.store.as_ref().map_or((2, 1, 1), |s| (s.n, s.c, s.m));
        let first = self.rng.byte_below(m);
        for block in 0..c.min(m) {
            for lane in 0..n {
                let word = 4 * ((first + block) % m) + self.rng.byte_below(4);
                if self.rng.chance(80) {
                    self.record(Record::Call(Call::Begin { lane, op: Op::Load, word }));
                }
            }
            self.drain();
        }
        first
    }

    /// Each lane writes to a block of these, or any; then all are served in any
    /// order, as far as 10 lets.
    fn write_and_serve(&mut self, first: u8) {
        let (n, c, m) = self.store.as_ref().map_or((2, 1, 1), |s| (s.n, s.c, s.m));
        let any_share = self.rng.pick(&[0, 10, 40]);
        let mut lanes: Vec<u8> = (0..n).collect();
        crate::scramble::permute(&mut lanes, &mut self.rng);
        for &lane in &lanes {
            let block = match self.rng.chance(any_share) {
                true => self.rng.byte_below(m),
                false => (first + lane % c) % m,
            };
            let (op, word) = (walk::write_op(&mut self.rng), 4 * block + self.rng.byte_below(4));
            self.record(Record::Call(Call::Begin { lane, op, word }));
        }
        lanes.into_iter().for_each(|lane| self.record(Record::Call(Call::Serve(lane))));
    }

    /// Records of any kind up to 16 bytes before so many, or a little past.
    fn fill_near(&mut self, bytes: usize) {
        let mut style = self.new_style(false);
        while self.bytes.len() + 16 < bytes {
            if self.rng.below(200) == 0 {
                style = self.new_style(false);
            }
            let record = self.next_record(&style);
            self.record(record);
        }
    }

    /// Whole records up to exactly so many bytes.
    fn fill_to(&mut self, bytes: usize) {
        self.fill_near(bytes);
        while self.bytes.len() + 3 < bytes {
            let lane = self.rng.byte_below(2);
            let call = self.rng.pick(&[Call::Serve(lane), Call::Return(lane), Call::Deliver(lane)]);
            self.record(Record::Call(call));
        }
        let lane = self.rng.byte_below(2);
        let load = Call::Begin { lane, op: Op::Load, word: 0 };
        match bytes - self.bytes.len() {
            3 => self.record(Record::Call(load)),
            2 => self.record(Record::Call(Call::Deliver(lane))),
            _ => unreachable!("two or three bytes are left"),
        }
    }
}

fn general(mut rng: Rng, rank: usize) -> Vec<u8> {
    let shape = shape_of_rank(rank, &mut rng);
    let records = rng.pick(&[300, 1_000, 2_000, 3_000, 5_000]);
    let mut tape = Builder::new(rng);
    tape.start(shape);
    tape.run(records, false);
    tape.bytes
}

fn sharing(mut rng: Rng) -> Vec<u8> {
    let shape = (rng.pick(&[8, 8, 7, 6]), rng.pick(&[1, 2, 4]), rng.pick(&[1, 2, 8, 64]));
    let mut tape = Builder::new(rng);
    tape.start(shape);
    tape.run(4_000, true);
    tape.bytes
}

fn beside(mut rng: Rng) -> Vec<u8> {
    let shape = (rng.between(2, 8) as u8, rng.pick(&[2, 3, 4]), rng.pick(&[3, 6, 12, 24]));
    let records = rng.pick(&[1_000, 2_000, 3_000]);
    let mut tape = Builder::new(rng);
    tape.beside = tape.rng.pick(&[10, 25, 40]);
    tape.start(shape);
    tape.run(records, false);
    tape.bytes
}

fn sized(mut rng: Rng, bytes: usize, truncated: bool) -> Vec<u8> {
    let shape = small_shape(&mut rng);
    let mut tape = Builder::new(rng);
    tape.start(shape);
    if !truncated {
        tape.fill_to(bytes);
        return tape.bytes;
    }
    let kept = tape.rng.below(6);
    tape.fill_to(bytes - 1 - kept);
    let lane = tape.rng.byte_below(2);
    let store = Call::Begin { lane, op: Op::Store(7), word: 0 };
    tape.bytes.extend(&Record::Call(store).bytes()[..1 + kept]);
    tape.bytes
}

/// An opened tape of some length, or a few records that open nothing.
fn beginning(mut rng: Rng, opened: bool) -> Builder {
    let (shape, records) = (small_shape(&mut rng), rng.between(200, 1_200));
    let mut tape = Builder::new(rng);
    if opened {
        tape.start(shape);
        tape.run(records, false);
    } else {
        let records = tape.rng.below(6);
        tape.prelude(records);
    }
    tape
}

fn truncated(rng: Rng, kind: u8, kept: usize, opened: bool) -> Vec<u8> {
    let mut tape = beginning(rng, opened);
    tape.bytes.push(kind);
    for _ in 0..kept {
        let byte = tape.rng.byte_below(8);
        tape.bytes.push(byte);
    }
    tape.bytes
}

fn unknown(rng: Rng, kind: u8, followed: bool, opened: bool) -> Vec<u8> {
    let mut tape = beginning(rng, opened);
    tape.bytes.push(kind);
    if followed {
        tape.run(20, false);
    }
    tape.bytes
}

fn damaged(rng: Rng) -> Vec<u8> {
    let mut tape = beginning(rng, true);
    let at = tape.rng.below(tape.bytes.len());
    let at = tape.rng.pick(&[at, at, at, at % 8]);
    let change = tape.rng.pick(&[1, 2, 4, 8, 0x80, 0xff]);
    tape.bytes[at] ^= change;
    tape.bytes
}

fn not_open(mut rng: Rng) -> Vec<u8> {
    let (shape, records) = (small_shape(&mut rng), rng.between(50, 150));
    let mut tape = Builder::new(rng);
    tape.prelude(records);
    if tape.rng.chance(75) {
        tape.open_any(shape);
        tape.run(600, false);
    }
    tape.bytes
}

fn opened_so(mut rng: Rng, how: Opens) -> Vec<u8> {
    let (mut shape, limit) = (small_shape(&mut rng), rng.between(1, SLOTS) as u8);
    let mut tape = Builder::new(rng);
    let (bad, bad_limit) = (bad_shape(&mut tape.rng), bad_limit(&mut tape.rng));
    match how {
        Opens::Limit(limit) => tape.open_limit(shape, limit),
        Opens::LimitAboveAll => {
            shape = (tape.rng.between(2, 7) as u8, shape.1, tape.rng.between(1, 7) as u8);
            tape.open_limit(shape, 8);
        }
        Opens::LimitAfterOpen => tape.open(shape),
        Opens::OpenAfterLimit | Opens::LimitAfterLimit => tape.open_limit(shape, limit),
        Opens::InvalidShape => tape.open_limit(bad, limit),
        Opens::InvalidShapeAndLimit => tape.open_limit(bad, bad_limit),
        Opens::InvalidLimit(limit) => tape.open_limit(shape, limit),
        Opens::LimitAfterRefused => tape.open_limit(bad, limit),
        Opens::OpenAfterRefused => tape.open_limit(shape, bad_limit),
        Opens::LimitAfterRefusedOpen => tape.open(bad),
    }
    let any = walk::odd_call(&Store::fresh(8, 8, 64), &mut tape.rng);
    tape.record(Record::Call(any));
    open_again(&mut tape, shape, how);
    if tape.store.is_some() {
        tape.run(400, false);
    }
    tape.bytes
}

/// The opens that follow the first.
fn open_again(tape: &mut Builder, shape: Shape, how: Opens) {
    let limit = tape.rng.between(1, SLOTS) as u8;
    match how {
        Opens::LimitAfterOpen | Opens::LimitAfterLimit => {
            tape.open_limit(shape, limit);
            tape.open_limit(shape, 0);
            tape.open_limit((0, 0, 0), 9);
        }
        Opens::OpenAfterLimit => {
            tape.open(shape);
            tape.open((0, 0, 0));
        }
        Opens::LimitAfterRefused | Opens::LimitAfterRefusedOpen => {
            tape.open_limit(shape, 9);
            tape.open_limit(shape, limit);
        }
        Opens::OpenAfterRefused => tape.open(shape),
        _ => {}
    }
}

/// Rounds in which lanes share blocks, then each writes, and memory serves as many
/// as it can.
fn services(mut rng: Rng, limit: u8) -> Vec<u8> {
    let any = (rng.between(3, 8) as u8, rng.pick(&[1, 2, 4, 8]), rng.pick(&[3, 8, 16, 64]));
    let wide = (8, 8, rng.pick(&[8, 9, 64]));
    let shape = rng.pick(&[any, wide]);
    let rounds = rng.between(8, 20);
    let mut tape = Builder::new(rng);
    tape.open_limit(shape, limit);
    for _ in 0..rounds {
        let first = tape.share_blocks();
        tape.write_and_serve(first);
        let (steps, style) = (tape.rng.below(40), tape.new_style(false));
        tape.phase(steps, &style);
        if tape.rng.chance(60) {
            tape.drain();
        }
    }
    tape.bytes
}

//! Makes settles that are not refused, for W8: something of each letter before, and
//! serves that send orders. Most stores are reached from no opening. Settle `index`
//! depends on the seed and the index only.

use crate::parts::*;
use crate::rng::Rng;
use crate::scramble;
use crate::service_maker;
use crate::settle;
use crate::settles::{Log, SETTLES};

/// What settles meet in turn.
pub const ROLES: usize = SETTLES.len();

/// So many stores are drawn at most; some ten are enough.
const TRIES: usize = 100_000;

/// A store of which settle is not refused.
pub fn make(seed: u64, index: usize) -> Store {
    let mut rng = Rng::stream(seed ^ 0x7365_7474, index as u64);
    let meets = SETTLES[index % ROLES].1;
    let settles = |s: &Store| settle::settle(s).is_ok() && meets(&Log::of(s));
    let mut drawn = (0..TRIES).map(|_| draw(&mut rng));
    let mut s = drawn.find(settles).expect("one of many");
    if rng.chance(50) {
        scramble::junk(&mut s, &mut rng);
    }
    s.completed = scramble::completed(&s, &mut rng);
    s
}

/// Services that their answers close, then grants, ejects and unserved operations.
fn draw(rng: &mut Rng) -> Store {
    let any = rng.between(1, SLOTS);
    let open = rng.pick(&[0, 0, 1, any]);
    let mut s = service_maker::settling(open, rng);
    set_flags(&mut s, rng);
    let (asking, granted) = (rng.pick(&[30, 60, 100]), rng.pick(&[0, 0, 30]));
    for k in 0..usize::from(s.n) {
        if s.lanes[k].waiting.is_some() || !rng.chance(asking) {
            continue;
        }
        match rng.chance(granted) {
            true => grant(&mut s, k, rng),
            false => ask(&mut s, k, rng),
        }
    }
    for _ in 0..rng.pick(&[0, 0, 1, 4]) {
        eject(&mut s, rng);
    }
    s
}

/// PRESENT and MODIFIED: nowhere, everywhere or here and there.
fn set_flags(s: &mut Store, rng: &mut Rng) {
    let [present, modified] = [rng.pick(&[0, 30, 70, 100]), rng.pick(&[0, 50, 100])];
    let (n, m) = (usize::from(s.n), usize::from(s.m));
    for block in &mut s.blocks[..m] {
        block.present[..n].iter_mut().for_each(|flag| *flag = rng.chance(present));
        block.modified = rng.chance(modified);
    }
}

/// Lane k waits for a block, mostly one of its own, with a line that its grant fits.
fn wait(s: &mut Store, k: usize, bare: bool, rng: &mut Rng) -> u8 {
    let (own, any) = (k as u8 % s.m, rng.byte_below(s.m));
    let block = rng.pick(&[own, own, any]);
    let mut waiting = scramble::waiting(s.m, rng);
    waiting.word = 4 * block + waiting.word % 4;
    let reads = rng.pick(&[Command::ReadShared, Command::ReadExclusive]);
    waiting.command = if bare { Command::Exclude } else { reads };
    let (at, lane) = (rng.below(usize::from(s.c)), &mut s.lanes[k]);
    for line in lane.lines[..usize::from(s.c)].iter_mut() {
        line.valid &= line.block != block;
    }
    (lane.lines[at].valid, lane.lines[at].block) = (bare, block);
    lane.waiting = Some(waiting);
    block
}

/// Unserved. An EXCLUDE has its line, and is PRESENT.
fn ask(s: &mut Store, k: usize, rng: &mut Rng) {
    let bare = rng.chance(35);
    let block = wait(s, k, bare, rng);
    if bare {
        s.blocks[usize::from(block)].present[k] = true;
    }
    s.lanes[k].waiting = s.lanes[k].waiting.map(|w| Waiting { served: false, ..w });
}

/// Served, with the grant in the down queue.
fn grant(s: &mut Store, k: usize, rng: &mut Rng) {
    let bare = rng.chance(35);
    let block = wait(s, k, bare, rng);
    let (kind, words) = match bare {
        true => (DownKind::BareGrant, [0; 4]),
        false => (DownKind::Grant, rng.words()),
    };
    let lane = &mut s.lanes[k];
    lane.waiting = lane.waiting.map(|w| Waiting { served: true, ..w });
    lane.down.push(Message { kind, block, words });
}

/// Of any block, in a lane that has room for it and for its answers.
fn eject(s: &mut Store, rng: &mut Rng) {
    let (block, words) = (rng.byte_below(s.m), rng.words());
    let kind = rng.pick(&[ReturnKind::Eject, ReturnKind::WriteEject]);
    let words = if kind.has_words() { words } else { [0; 4] };
    let lane = &mut s.lanes[usize::from(rng.byte_below(s.n))];
    if usize::from(lane.returns.length + lane.down.length) < PLACES {
        lane.returns.push(Message { kind, block, words });
    }
}

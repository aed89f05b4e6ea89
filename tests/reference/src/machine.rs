//! Checks and steps. A call works on a copy of the store, and the copy is
//! handed back only when nothing was refused.

use crate::parts::*;

pub const TRUNCATED: u8 = 1;
pub const UNKNOWN_KIND: u8 = 2;
pub const NOT_OPEN: u8 = 3;
pub const ALREADY_OPEN: u8 = 4;
pub const INVALID_SHAPE: u8 = 5;
pub const NO_SUCH_LANE: u8 = 6;
pub const NO_SUCH_WORD: u8 = 7;
pub const LANE_BUSY: u8 = 8;
pub const NOTHING_PENDING: u8 = 9;
pub const CONTROL_BUSY: u8 = 10;
pub const RETURNS_PENDING: u8 = 11;
pub const FULL: u8 = 12;
pub const TAPE_TOO_LONG: u8 = 13;
pub const CORRUPT: u8 = 14;
pub const BUFFER_SHORT: u8 = 15;
pub const UNEXPECTED: u8 = 16;
pub const NO_PLACE_LEFT: u8 = 17;
pub const INVALID_LIMIT: u8 = 18;

/// The highest kind of a tape's records.
pub const HIGHEST_KIND: u8 = 0x08;

/// The same before W6.
pub const HIGHEST_KIND_BEFORE_W6: u8 = 0x07;

pub const PICTURE_RECORD: usize = 19;

fn shape_in_range(n: u8, c: u8, m: u8) -> bool {
    (2..=8).contains(&n) && (1..=8).contains(&c) && (1..=64).contains(&m)
}

fn limit_in_range(limit: u8) -> bool {
    (1..=SLOTS).contains(&usize::from(limit))
}

/// With L = 1.
pub fn open(n: u8, c: u8, m: u8) -> Result<Store, u8> {
    open_with_limit(n, c, m, 1)
}

pub fn open_with_limit(n: u8, c: u8, m: u8, limit: u8) -> Result<Store, u8> {
    if !shape_in_range(n, c, m) {
        Err(INVALID_SHAPE)
    } else if !limit_in_range(limit) {
        Err(INVALID_LIMIT)
    } else {
        Ok(Store::with_limit(n, c, m, limit))
    }
}

/// The store after the call and its answer, or the refusal number.
pub fn call(store: &Store, call: Call) -> Result<(Store, Answer), u8> {
    call_under(store, call, Rule::LoadFillsOldest)
}

/// The same under any rule.
pub fn call_under(store: &Store, call: Call, rule: Rule) -> Result<(Store, Answer), u8> {
    if corrupt_under(store, rule) {
        return Err(CORRUPT);
    }
    if call.lane() >= store.n {
        return Err(NO_SUCH_LANE);
    }
    let mut after = store.clone();
    let answer = step(&mut after, call, rule)?;
    Ok((after, answer))
}

/// The call without the checks of 14 and 6. A refused one may leave a store
/// that is half changed: the caller drops it.
pub fn step(s: &mut Store, call: Call, rule: Rule) -> Result<Answer, u8> {
    match call {
        Call::Begin { lane, op, word } => begin(s, lane, op, word, rule),
        Call::Serve(lane) => serve(s, lane, rule),
        Call::Return(lane) => take_return(s, lane, rule),
        Call::Deliver(lane) => deliver(s, lane, rule),
    }
}

/// Writes the picture into the lent buffer and gives its length.
pub fn picture(store: &Store, buffer: &mut [u8]) -> Result<usize, u8> {
    picture_under(store, buffer, Rule::LoadFillsOldest)
}

/// The same under any rule.
pub fn picture_under(store: &Store, buffer: &mut [u8], rule: Rule) -> Result<usize, u8> {
    if corrupt_under(store, rule) {
        return Err(CORRUPT);
    }
    let lines = picture_lines(store).into_iter();
    let bytes: Vec<u8> = lines.flat_map(|(k, line)| picture_record(k, line)).collect();
    if buffer.len() < bytes.len() {
        return Err(BUFFER_SHORT);
    }
    buffer[..bytes.len()].copy_from_slice(&bytes);
    Ok(bytes.len())
}

/// The valid lines by block, then by lane, then by line, each with its lane.
fn picture_lines(s: &Store) -> Vec<(u8, &Line)> {
    let mut valid = Vec::new();
    for (k, lane) in (0..s.n).zip(&s.lanes) {
        for (i, line) in (0..s.c).zip(&lane.lines).filter(|(_, line)| line.valid) {
            valid.push((k, i, line));
        }
    }
    valid.sort_by_key(|&(k, i, line)| (line.block, k, i));
    valid.into_iter().map(|(k, _, line)| (k, line)).collect()
}

fn picture_record(k: u8, line: &Line) -> Vec<u8> {
    let mut bytes = vec![0x10, k, line.block];
    bytes.extend(line.words.iter().flat_map(|word| word.to_le_bytes()));
    bytes
}

/// Condition 14.
pub fn corrupt(s: &Store) -> bool {
    corrupt_under(s, Rule::LoadFillsOldest)
}

/// The same under any rule.
pub fn corrupt_under(s: &Store, rule: Rule) -> bool {
    if !shape_in_range(s.n, s.c, s.m) || !limit_in_range(s.limit) {
        return true;
    }
    let (n, m) = (usize::from(s.n), usize::from(s.m));
    let lane = s.lanes[..n].iter().any(|l| corrupt_lane(l, s.c, s.m, rule));
    let present = s.blocks[..m].iter().any(|b| b.present[n..].contains(&true));
    corrupt_services(s) || lane || present || s.begun() > u64::from(LAST_PLACE)
}

/// A number of some service out of range, two of one block, or more than L.
fn corrupt_services(s: &Store) -> bool {
    let outside = |v: &Service| v.lane >= s.n || v.block >= s.m || v.awaited > s.n - 1;
    let mut blocks: Vec<u8> = s.services().map(|v| v.block).collect();
    let open = blocks.len();
    blocks.sort_unstable();
    blocks.dedup();
    s.services().any(outside) || blocks.len() < open || open > usize::from(s.limit)
}

fn corrupt_lane(lane: &Lane, c: u8, m: u8, rule: Rule) -> bool {
    let c = usize::from(c);
    let lines = lane.lines[..c].iter().any(|l| l.valid && l.block >= m);
    let mut named = lane.order[..c].to_vec();
    named.sort_unstable();
    let order = named.iter().enumerate().any(|(i, &name)| i != usize::from(name));
    let waiting = lane.waiting.map_or(false, |w| u16::from(w.word) >= 4 * u16::from(m));
    let queues = corrupt_queue(&lane.returns, m, rule) || corrupt_queue(&lane.down, m, rule);
    lines || order || waiting || queues
}

fn corrupt_queue<K: Copy>(queue: &Queue<K>, m: u8, rule: Rule) -> bool {
    let too_long = usize::from(queue.length) > rule.places();
    too_long || queue.messages().iter().any(|message| message.block >= m)
}

/// The lowest-numbered valid line with the block.
pub fn search(lane: &Lane, c: u8, block: u8) -> Option<usize> {
    (0..usize::from(c)).find(|&i| lane.lines[i].valid && lane.lines[i].block == block)
}

/// The place of line i among the c lines, the oldest in place 0.
fn place_in_order(lane: &Lane, c: u8, i: usize) -> usize {
    let order = &lane.order[..usize::from(c)];
    order.iter().position(|&name| usize::from(name) == i).expect("line in use order")
}

/// Line i becomes the last used.
fn use_line(lane: &mut Lane, c: u8, i: usize) {
    let at = place_in_order(lane, c, i);
    lane.order[at..usize::from(c)].rotate_left(1);
}

/// Line i becomes the oldest.
fn make_oldest(lane: &mut Lane, c: u8, i: usize) {
    let at = place_in_order(lane, c, i);
    lane.order[..=at].rotate_right(1);
}

/// Does the operation on line i of lane k and gives it the next place. The use
/// order is the caller's, and so is what waits.
fn complete(s: &mut Store, k: u8, i: usize, op: Op, word: u8) -> Answer {
    let lane = &mut s.lanes[usize::from(k)];
    let cell = &mut lane.lines[i].words[usize::from(word % 4)];
    let (value, left) = op.on(*cell);
    *cell = left;
    s.completed += 1;
    Answer::Done(Completion { lane: k, value, place: s.completed })
}

fn begin(s: &mut Store, k: u8, op: Op, word: u8, rule: Rule) -> Result<Answer, u8> {
    if u16::from(word) >= 4 * u16::from(s.m) {
        return Err(NO_SUCH_WORD);
    }
    let lane = &s.lanes[usize::from(k)];
    let found = search(lane, s.c, word / 4);
    // Beside an operation that waits only a load that hits goes on.
    if lane.waiting.is_some() && !(op.is_load() && found.is_some()) {
        return Err(LANE_BUSY);
    }
    if s.begun() == u64::from(LAST_PLACE) {
        return Err(NO_PLACE_LEFT);
    }
    let lane = &mut s.lanes[usize::from(k)];
    let command = match found {
        Some(i) if op.is_load() || lane.lines[i].private => {
            use_line(lane, s.c, i);
            return Ok(complete(s, k, i, op, word));
        }
        Some(_) => Command::Exclude,
        None => {
            make_room(lane, s.c, rule)?;
            if op.is_load() {
                Command::ReadShared
            } else {
                Command::ReadExclusive
            }
        }
    };
    lane.waiting = Some(Waiting { served: false, command, op, word });
    Ok(Answer::Wait)
}

/// Evicts the oldest line when all lines are valid.
fn make_room(lane: &mut Lane, c: u8, rule: Rule) -> Result<(), u8> {
    if !lane.lines[..usize::from(c)].iter().all(|l| l.valid) {
        return Ok(());
    }
    let line = &mut lane.lines[usize::from(lane.order[0])];
    line.valid = false;
    let message = if line.private {
        Message { kind: ReturnKind::WriteEject, block: line.block, words: line.words }
    } else {
        Message { kind: ReturnKind::Eject, block: line.block, words: [0; 4] }
    };
    push(&mut lane.returns, message, rule)
}

fn push<K: Copy>(queue: &mut Queue<K>, message: Message<K>, rule: Rule) -> Result<(), u8> {
    if queue.push_at(message, rule.places()) {
        Ok(())
    } else {
        Err(FULL)
    }
}

fn serve(s: &mut Store, k: u8, rule: Rule) -> Result<Answer, u8> {
    let waiting = match s.lanes[usize::from(k)].waiting {
        Some(waiting) if !waiting.served => waiting,
        _ => return Err(NOTHING_PENDING),
    };
    let slot = slot_for(s, waiting.block(), rule).ok_or(CONTROL_BUSY)?;
    serve_in(s, k, slot, rule)
}

/// The lowest-numbered free slot, unless the block is in service or L services are
/// open. Before W6 any service is one too many.
fn slot_for(s: &Store, block: u8, rule: Rule) -> Option<usize> {
    let busy = match rule {
        Rule::BeforeW6 => s.open_services() > 0,
        _ => s.slot_of(block).is_some() || s.open_services() >= usize::from(s.limit),
    };
    s.slots.iter().position(Option::is_none).filter(|_| !busy)
}

/// Serves lane k, which has an unserved operation, in a free slot.
pub(crate) fn serve_in(s: &mut Store, k: u8, slot: usize, rule: Rule) -> Result<Answer, u8> {
    let lane = &mut s.lanes[usize::from(k)];
    if !lane.returns.is_empty() {
        return Err(RETURNS_PENDING);
    }
    let waiting = lane.waiting.as_mut().expect("an operation");
    waiting.served = true;
    let (block, command) = (waiting.block(), waiting.command);
    let bare = command == Command::Exclude && s.blocks[usize::from(block)].present[usize::from(k)];
    let awaited = send_orders(s, k, block, command, rule)?;
    s.slots[slot] = Some(Service { lane: k, block, command, awaited, bare });
    if awaited == 0 {
        close(s, slot, rule)?;
    }
    Ok(Answer::Step)
}

/// Sends the orders of a service and gives their count.
fn send_orders(s: &mut Store, k: u8, block: u8, command: Command, rule: Rule) -> Result<u8, u8> {
    let directory = s.blocks[usize::from(block)];
    let kind = match command {
        Command::ReadShared if !directory.modified => return Ok(0),
        Command::ReadShared => DownKind::Update,
        Command::ReadExclusive | Command::Exclude => DownKind::Purge,
    };
    let mut sent = 0;
    for other in (0..s.n).filter(|&j| j != k && directory.present[usize::from(j)]) {
        let order = Message { kind, block, words: [0; 4] };
        push(&mut s.lanes[usize::from(other)].down, order, rule)?;
        sent += 1;
    }
    Ok(sent)
}

/// Closes the service in a slot: directory flags, grant, slot free.
fn close(s: &mut Store, slot: usize, rule: Rule) -> Result<(), u8> {
    let service = s.slots[slot].take().expect("open service");
    let k = usize::from(service.lane);
    let entry = &mut s.blocks[usize::from(service.block)];
    if service.command != Command::ReadShared {
        entry.present = [false; LANES];
        entry.modified = true;
    }
    entry.present[k] = true;
    let (kind, words) = match service.bare {
        true => (DownKind::BareGrant, [0; 4]),
        false => (DownKind::Grant, entry.words),
    };
    push(&mut s.lanes[k].down, Message { kind, block: service.block, words }, rule)
}

fn take_return(s: &mut Store, k: u8, rule: Rule) -> Result<Answer, u8> {
    let message = s.lanes[usize::from(k)].returns.take().ok_or(NOTHING_PENDING)?;
    let kind = message.kind;
    let slot = awaiting_slot(s, message.block, rule);
    if kind.is_answer() && slot.is_none() {
        return Err(UNEXPECTED);
    }
    let entry = &mut s.blocks[usize::from(message.block)];
    if kind != ReturnKind::Updated {
        entry.present[usize::from(k)] = false;
    }
    if kind.has_words() {
        entry.words = message.words;
        entry.modified = false;
    }
    match slot {
        Some(slot) if kind.is_answer() => lower_awaited(s, slot, rule)?,
        _ => {}
    }
    Ok(Answer::Step)
}

/// The slot of the service that an answer for the block belongs to, if it awaits
/// one. Before W6 there is one service at most, and the block must be its own.
fn awaiting_slot(s: &Store, block: u8, rule: Rule) -> Option<usize> {
    let slot = match rule {
        Rule::BeforeW6 => s.slots.iter().position(Option::is_some),
        _ => s.slot_of(block),
    };
    slot.filter(|&slot| s.slots[slot].map_or(false, |v| v.block == block && v.awaited > 0))
}

fn lower_awaited(s: &mut Store, slot: usize, rule: Rule) -> Result<(), u8> {
    let service = s.slots[slot].as_mut().expect("open service");
    service.awaited -= 1;
    if service.awaited == 0 {
        close(s, slot, rule)?;
    }
    Ok(())
}

fn deliver(s: &mut Store, k: u8, rule: Rule) -> Result<Answer, u8> {
    let (c, lane) = (s.c, &mut s.lanes[usize::from(k)]);
    let message = lane.down.take().ok_or(NOTHING_PENDING)?;
    if message.kind.is_order() {
        obey(lane, c, message, rule)?;
        Ok(Answer::Step)
    } else {
        let (i, waiting) = accept_grant(lane, c, message)?;
        let fills = message.kind == DownKind::Grant;
        match fills && !rule.fill_is_use(waiting.op) {
            true => make_oldest(lane, c, i),
            false => use_line(lane, c, i),
        }
        lane.waiting = None;
        Ok(complete(s, k, i, waiting.op, waiting.word))
    }
}

/// UPDATE or PURGE: the answer joins the return queue.
fn obey(lane: &mut Lane, c: u8, order: Message<DownKind>, rule: Rule) -> Result<(), u8> {
    let (kind, words) = match search(lane, c, order.block) {
        None => (ReturnKind::Gone, [0; 4]),
        Some(i) => {
            let line = &mut lane.lines[i];
            if order.kind == DownKind::Update {
                line.private = false;
                (ReturnKind::Updated, line.words)
            } else {
                line.valid = false;
                match line.private {
                    true => (ReturnKind::PurgedWords, line.words),
                    false => (ReturnKind::Purged, [0; 4]),
                }
            }
        }
    };
    push(&mut lane.returns, Message { kind, block: order.block, words }, rule)
}

/// A grant, bare or with words: gives the line that it is for, and the served
/// operation to complete there.
fn accept_grant(lane: &mut Lane, c: u8, grant: Message<DownKind>) -> Result<(usize, Waiting), u8> {
    let waiting = match lane.waiting {
        Some(w) if w.served && w.block() == grant.block => w,
        _ => return Err(UNEXPECTED),
    };
    let held = search(lane, c, grant.block);
    let i = if grant.kind == DownKind::BareGrant {
        held.ok_or(UNEXPECTED)?
    } else {
        if held.is_some() {
            return Err(UNEXPECTED);
        }
        let free = lane.lines[..usize::from(c)].iter().position(|l| !l.valid);
        let i = free.ok_or(UNEXPECTED)?;
        let line = &mut lane.lines[i];
        (line.valid, line.block, line.words) = (true, grant.block, grant.words);
        i
    };
    lane.lines[i].private = !waiting.op.is_load();
    Ok((i, waiting))
}

//! What the tests of W7's lists share.

use reference::held::HeldCall;
use reference::lists::Record;
use reference::longest::{self, Longest};
use reference::parts::*;

pub const SETTLE: Record = Record::Call(HeldCall::Settle);

pub fn call(call: Call) -> Record {
    Record::Call(HeldCall::Machine(call))
}

/// On the block's first word.
pub fn begin(lane: u8, op: Op, block: u8) -> Record {
    call(Call::Begin { lane, op, word: 4 * block })
}

pub fn bytes(records: &[Record]) -> Vec<u8> {
    records.iter().flat_map(|record| record.bytes()).collect()
}

/// The list of make-longest with this n, L and queue that kind 08 opens. With L = 1
/// there is one that kind 00 opens, too: never that.
pub fn longest_opened_by_08(n: u8, limit: u8, queue: usize) -> Longest {
    let by_08 = |list: &Longest| matches!(list.records[0], Record::OpenLimit { .. });
    let wanted = |list: &Longest| (list.n, list.limit, list.queue) == (n, limit, queue);
    longest::all().into_iter().find(|list| by_08(list) && wanted(list)).expect("made")
}

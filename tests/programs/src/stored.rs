//! The stored replay in crates/replay: calls of every kind with small buffers, so that the
//! program is run on them wherever the proofs are checked.

use crate::format::{Message, Reply};
use reference::cases::{call, coded, damaged, dilated, readings, settled, Call, Settled};

/// The longest call that is stored, in bytes.
const LONGEST: usize = 1_000;
const SEEDS: u64 = 300;

/// The settled cases, codes, readings and dilations, each kind of damage alone, and seeded calls.
pub fn calls() -> Vec<Call> {
    let settled: [Vec<Settled>; 4] = [settled(), coded(), readings(), dilated()];
    let settled = settled.into_iter().flatten().map(|settled| settled.call);
    let alone = damaged().into_iter().filter(|d| d.rows.len() == 1);
    let small = |call: &Call| Message::from(call).bytes().len() <= LONGEST;
    let seeded = (0..SEEDS).map(call).filter(small);
    settled.chain(alone.map(|d| d.call)).chain(seeded).collect()
}

/// What `replay` reads.
pub fn stdin() -> Vec<u8> {
    let calls = calls().into_iter();
    calls
        .flat_map(|call| Message::from(&call).bytes())
        .collect()
}

/// What it must write, by the second program.
pub fn stdout() -> Vec<u8> {
    let calls = calls().into_iter();
    calls
        .flat_map(|call| Reply::expected(&call).bytes())
        .collect()
}

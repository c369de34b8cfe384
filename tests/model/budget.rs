//! Budgets for random lists, and how each stood to what its message cost, for the coverage.

use crate::coverage::Coverage;
use crate::device::Device;
use crate::ends::subject;
use crate::manifest::SPENT;
use crate::rng::Rng;

/// The columns of the coverage's table: the budget, t being what the block costs. By the first two a
/// block is refused.
pub const BUDGETS: [&str; 5] = ["0", "t-1", "t", "t+1", "most"];

/// Its rows, by message: blocks first. The last one may be the only one.
pub const CARRIERS: [&str; 7] = [
    "first block",
    "middle block",
    "last block",
    "last, short",
    "kind 1",
    "kind 3",
    "kind 4",
];

const BLOCKS: usize = 4;

/// Other kinds than blocks have no cost that a budget could be near to.
pub fn columns_due(row: usize) -> &'static [usize] {
    if row < BLOCKS {
        &[0, 1, 2, 3, 4]
    } else {
        &[0, 4]
    }
}

/// What the block costs that is due to a device; 0 where none is.
pub fn due(device: Option<&Device>) -> u32 {
    device.map_or(0, |device| device.block_cost().unwrap_or(0))
}

/// For a message that costs so much: a budget that suffices, or in so many percent one that does
/// not, where there is one.
pub fn draw(rng: &mut Rng, spent: usize, cost: u32) -> u32 {
    let (any, more, most) = (rng.u32(), cost + 1, u32::MAX);
    if cost > 0 && rng.percent(spent) {
        return rng.pick(&[0, cost - 1, any % cost]);
    }
    rng.pick(&[cost, cost, more, more, most, most, any.max(cost)])
}

/// A device in this state got a message with this budget, and gave this answer.
pub fn count(device: &Device, message: &[u8], budget: u32, answer: u32, coverage: &mut Coverage) {
    let Some((manifest, i)) = subject(device, message) else {
        return;
    };
    let n = manifest.blocks();
    let row = match message[0] {
        1 => BLOCKS,
        kind @ (3 | 4) => BLOCKS + kind as usize - 2,
        _ if i == n => 2 + (manifest.place(i).len() < manifest.block_length as usize) as usize,
        _ => (i > 1) as usize,
    };
    let block = row < BLOCKS;
    let cost = if block { due(Some(device)) } else { 0 };
    let holding = [
        budget == 0,
        block && cost.checked_sub(1) == Some(budget),
        block && budget == cost,
        block && budget == cost + 1,
        budget == u32::MAX,
    ];
    for column in (0..5).filter(|column| holding[*column]) {
        let answer_due = if block && column < 2 { SPENT } else { 0 };
        if answer == answer_due {
            coverage.budget(row, column, manifest.block_length as usize);
        }
    }
}

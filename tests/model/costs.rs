//! What blocks cost and which budgets suffice, by hand and in every run: change 7. The numbers are
//! worked out here from the paper's text, and library and model must both have them.

use crate::altered::{Altered, SERIAL};
use crate::compare::Compared;
use crate::craft::Image;
use crate::handed;
use crate::handmade::{ACCEPTED, MODEL, expect};
use crate::limit;
use crate::manifest::{BLOCK_LENGTHS, MOST_BLOCKS, Manifest, SPENT};
use crate::pair::Pair;
use crate::readers;
use crate::rng::Rng;
use crate::signer::Signer;

/// L, T, and what each block costs. A digest of 256 bytes takes 5, one of 64 bytes 2, one of 55
/// bytes or fewer 1.
const COSTS: [(usize, usize, &[u32]); 9] = [
    (256, 2048, &[11, 5, 7, 5, 9, 5, 7, 5 + 8 * 5 + 7 * 2]),
    (256, 257, &[7, 1 + 5 + 1 + 2]),
    (256, 256, &[5 + 5]),
    (64, 192, &[6, 2, 2 + 3 * 2 + 2 * 2]),
    (64, 129, &[6, 2, 1 + 2 * 2 + 1 + 2 * 2]),
    (64, 56, &[2 + 2]),
    (64, 55, &[1 + 1]),
    (64, 1, &[2]),
    (1024, 1, &[2]),
];

/// Whole downloads, each block with just its cost for a budget.
pub fn numbers(rng: &mut Rng, signer: &Signer) -> Compared<()> {
    for (block_length, length, costs) in COSTS {
        let case = limit::case(rng, signer, block_length, length);
        let mut altered = Altered::new(case)?;
        expect("blocks", altered.n(), costs.len())?;
        for (at, cost) in costs.iter().enumerate() {
            let what = format!("L {block_length}, T {length}, block {}", at + 1);
            altered.costs(&what, at + 1, *cost)?;
        }
    }
    Ok(())
}

/// By L: the first block and the last one of 1,536. Each of both takes a digest of L bytes, the
/// first one 11 nodes besides, the last one the whole tree.
const MOST: [(u32, u32, u32); 5] = [
    (64, 2 + 22, 2 + 1536 * 2 + 1535 * 2),
    (128, 3 + 22, 3 + 1536 * 3 + 1535 * 2),
    (256, 5 + 22, 5 + 1536 * 5 + 1535 * 2),
    (512, 9 + 22, 9 + 1536 * 9 + 1535 * 2),
    (1024, 17 + 22, 17 + 1536 * 17 + 1535 * 2),
];

/// Read off states, at the limit of the blocks.
pub fn most_blocks(rng: &mut Rng, signer: &Signer) -> Compared<()> {
    let fresh = Pair::fresh(rng, MODEL, &signer.key, 0)?;
    for (block_length, first, last) in MOST {
        let image_length = block_length * MOST_BLOCKS as u32;
        for (i, due) in [(1, first), (MOST_BLOCKS, last)] {
            let cost = cost(&fresh, block_length, image_length, i)?;
            expect("cost", cost, due)?;
        }
    }
    Ok(())
}

/// What block i costs of an image with these lengths, read off a state; library and model must say
/// the same.
pub fn cost(fresh: &Pair, block_length: u32, image_length: u32, i: usize) -> Compared<u32> {
    let manifest = Manifest {
        version: 1,
        block_length: block_length as u16,
        model: MODEL,
        serial: SERIAL,
        image_length,
        root: [7; 32],
    };
    let pair = handed::loading(fresh, i as u16, &manifest);
    expect("cost, compared", readers::cost(&pair.state)?, ACCEPTED)?;
    let cost = pair.device().block_cost();
    cost.map_err(|refusal| format!("cost of block {i}: {refusal}"))
}

/// For each block length, images of few blocks, the last of them whole, with one byte, or so long
/// that its digest takes one compression, or just two.
pub fn images(rng: &mut Rng) -> Vec<Image> {
    let mut images = Vec::new();
    for length in BLOCK_LENGTHS.map(|length| length as usize) {
        for n in [1, 2, 3, 5, 8] {
            for last in [1, 55, 56, length] {
                images.push(Image::random(rng, length, (n - 1) * length + last));
            }
        }
    }
    images
}

impl Altered<'_> {
    /// Block i costs so much: with each budget, the refusals first.
    fn costs(&mut self, what: &str, i: usize, cost: u32) -> Compared<()> {
        let (pair, message) = (self.stages[i].clone(), self.messages[i].clone());
        expect(what, pair.device().block_cost(), Ok(cost))?;
        for (budget, due) in [
            (0, SPENT),
            (cost - 1, SPENT),
            (cost, ACCEPTED),
            (cost + 1, ACCEPTED),
            (u32::MAX, ACCEPTED),
        ] {
            self.within(what, &pair, &message, budget, due)?;
        }
        Ok(())
    }

    /// Every message of a download and of updates after it.
    pub fn budgets(&mut self) -> Compared<()> {
        for i in 1..=self.n() {
            let cost = self.stages[i].device().block_cost();
            let cost = cost.map_err(|refusal| format!("cost of block {i}: {refusal}"))?;
            self.costs(&format!("block {i}"), i, cost)?;
        }
        let program = (self.stages[0].clone(), self.messages[0].clone());
        let updates = [3, 4].map(|kind| (self.complete(), self.update(kind, self.n())));
        for (pair, message) in updates.into_iter().chain([program]) {
            for budget in [0, u32::MAX] {
                self.within("not a block", &pair, &message, budget, ACCEPTED)?;
            }
        }
        Ok(())
    }
}

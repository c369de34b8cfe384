//! How a random list is made up: the flash, the images, and how often things go wrong.

use crate::budget;
use crate::lengths::{blocks, image_length};
use crate::manifest::{BLOCK_LENGTHS, MOST_BLOCKS};
use crate::pair::Pair;
use crate::rng::Rng;

pub struct Plan {
    pub calls: usize,
    pub flash_length: usize,
    /// The images' block lengths, and their most blocks.
    pub block_lengths: Vec<u32>,
    pub most_blocks: usize,
    /// Percent of new images that are as long as the flash.
    pub exact: usize,
    /// Percent of new programs whose root is that of the padded image.
    pub padded: usize,
    /// Percent of messages that fit the stage.
    pub honest: usize,
    /// Percent of these that begin a new program while loading.
    pub restarts: usize,
    /// Percent of these that are updates of a complete program.
    pub updates: usize,
    /// Percent of calls that are lent the image's part of the flash alone, or a byte less.
    pub tight: usize,
    /// Percent of calls whose budget does not suffice for the block that is due, and for the last
    /// one, which is due more rarely.
    pub spent: [usize; 2],
    /// Percent of calls before which somebody else writes to the flash.
    pub touched: usize,
    /// Percent of calls before which the flash gets back what the device had left there: over a
    /// touched one many messages are refused.
    pub put_back: usize,
    /// Percent of calls that go to a changed copy of the device.
    pub aside: usize,
    /// Percent of accepted ones among these from which the list goes on.
    pub followed: usize,
}

impl Plan {
    pub fn small(rng: &mut Rng) -> Plan {
        let own = rng.pick(&BLOCK_LENGTHS);
        let (usual, any) = (blocks(rng, 40), rng.range(4, 40));
        let n = rng.pick(&[usual, usual, any]);
        let length = image_length(rng, own as usize, n);
        // Too short by a byte, just right, or longer.
        let extra = rng.pick(&[-1, 0, 0, 0, 0, 1, 63, 1000]);
        Plan {
            calls: rng.range(20, 140),
            flash_length: length.saturating_add_signed(extra),
            block_lengths: [[own; 5], BLOCK_LENGTHS].concat(),
            most_blocks: 40,
            exact: 30,
            padded: rng.pick(&[0, 5, 20]),
            honest: rng.pick(&[100, 85, 60, 30]),
            restarts: 2,
            updates: 80,
            tight: rng.pick(&[0, 50]),
            spent: rng.pick(&[[0, 0], [5, 15], [20, 60]]),
            touched: rng.pick(&[0, 0, 10, 30]),
            put_back: 25,
            aside: rng.pick(&[0, 20, 50]),
            followed: 33,
        }
    }

    /// Long enough to run through an image of up to 1,536 blocks, and little longer, for its
    /// updates are slow.
    pub fn large(rng: &mut Rng) -> Plan {
        let any = rng.range(41, MOST_BLOCKS);
        // Behind 1,024 blocks the tree is a level deeper.
        let near = rng.pick(&[1023, 1024, 1025, MOST_BLOCKS - 1]);
        let n = rng.pick(&[any, near, MOST_BLOCKS, MOST_BLOCKS]);
        let block_length = rng.pick(&[64, 64, 64, 128, 1024]);
        Plan {
            calls: n + n / 50 + 10,
            flash_length: image_length(rng, block_length, n) + rng.pick(&[0, 1]),
            block_lengths: vec![block_length as u32],
            most_blocks: MOST_BLOCKS,
            exact: 95,
            padded: 0,
            honest: rng.pick(&[99, 100]),
            restarts: 0,
            updates: 90,
            tight: 0,
            spent: [1, 30],
            touched: rng.pick(&[0, 1]),
            put_back: 10,
            aside: 1,
            followed: 0,
        }
    }

    /// A budget for a message to this device.
    pub fn budget(&self, rng: &mut Rng, pair: &Pair, message: &[u8]) -> u32 {
        let cost = pair.least_budget(message);
        // A block that costs something is due, so the state makes sense.
        let last = cost > 0 && pair.device().is_last_due();
        budget::draw(rng, self.spent[last as usize], cost)
    }
}

//! Image lengths around the multiples of L.

use crate::rng::Rng;

/// How many bytes the last block has.
pub const LASTS: [&str; 4] = ["1", "..", "L-1", "L"];

/// A length of n blocks, the last of them with one byte, with all of L but one, whole, or with any
/// number of bytes.
pub fn image_length(rng: &mut Rng, block_length: usize, n: usize) -> usize {
    let any = rng.range(1, block_length);
    (n - 1) * block_length + rng.pick(&[1, block_length - 1, block_length, any])
}

/// A number of blocks, up to `most`: 1, 2, 3, few more, or any beyond these.
pub fn blocks(rng: &mut Rng, most: usize) -> usize {
    let few = rng.range(4, 8);
    let more = rng.range(4, most.max(4));
    rng.pick(&[1, 2, 2, 3, 3, 3, few, few, more]).min(most)
}

/// Which of 16 shapes an image has: 1, 2, 3 or more blocks, four times the last one's length.
pub fn shape(image_length: usize, block_length: usize) -> usize {
    let n = image_length.div_ceil(block_length);
    let short = n * block_length - image_length;
    let last = match short {
        0 => 3,
        1 => 2,
        _ if short == block_length - 1 => 0,
        _ => 1,
    };
    4 * (n.min(4) - 1) + last
}

//! Somebody else writes to the flash between two calls: to single bytes, to a block that tears, or
//! to all of it.

use std::ops::Range;

use crate::pair::Pair;
use crate::regions::regions;
use crate::rng::Rng;

/// The flash after that. The message is the one that comes next.
pub fn touched(rng: &mut Rng, pair: &Pair, message: &[u8]) -> Vec<u8> {
    let mut flash = pair.flash.clone();
    let all = 0..flash.len();
    let parts = regions(&pair.device(), message, flash.len());
    let parts = parts.unwrap_or([0..0, all, 0..0, 0..0]);
    match rng.below(12) {
        // Another board, with anything on it or blank.
        0 => flash = rng.bytes(flash.len()),
        1 => flash.fill(0xff),
        2 => half_undone(&mut flash, &pair.overwritten),
        3 | 4 => begun(rng, &mut flash, &parts[1], message),
        _ => {
            let there: Vec<_> = parts.iter().filter(|part| !part.is_empty()).collect();
            if !there.is_empty() {
                let part = rng.pick(&there);
                some_bytes(rng, &mut flash, part);
            }
        }
    }
    flash
}

fn some_bytes(rng: &mut Rng, flash: &mut [u8], part: &Range<usize>) {
    for _ in 0..rng.pick(&[1, 1, 1, 2, 5]) {
        let (first, last) = (part.start, part.end - 1);
        let any = rng.range(first, last);
        flash[rng.pick(&[first, last, any])] ^= 1 << rng.below(8);
    }
}

/// The last accepted block was written up to its middle, and the state is that after it.
fn half_undone(flash: &mut [u8], overwritten: &(usize, Vec<u8>)) {
    let (start, old) = overwritten;
    let half = old.len() / 2;
    if let Some(place) = flash.get_mut(start + half..start + old.len()) {
        place.copy_from_slice(&old[half..]);
    }
}

/// The message came before: its block's first byte is written, its first half or all of it, and the
/// state is still the one from before. A message that names no block has written none.
fn begun(rng: &mut Rng, flash: &mut [u8], block: &Range<usize>, message: &[u8]) {
    let head = match message.first() {
        Some(2) => 3,
        Some(3 | 4) => 51,
        _ => return,
    };
    let written = rng
        .pick(&[1, block.len() / 2, block.len()])
        .min(block.len());
    if let Some(new) = message.get(head..head + written) {
        flash[block.start..block.start + written].copy_from_slice(new);
    }
}

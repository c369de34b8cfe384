//! Change 8, the program for planning wake-ups: what it prints for an input.

use std::collections::BTreeSet;
use std::sync::LazyLock;

use crate::device::comparison_cost;
use crate::layout::MOST_HASHES;
use crate::manifest::{BLOCK_LENGTHS, MOST_BLOCKS};
use crate::tree::siblings;

/// By n: how many labels the block messages before the last carry, each number once. With L this
/// decides what they cost; walking every tree anew for each input would be slow.
static CARRIED: LazyLock<Vec<BTreeSet<usize>>> = LazyLock::new(|| {
    let carried = |n| (1..n).map(|i| siblings(n, i).len()).collect();
    (0..=MOST_BLOCKS).map(carried).collect()
});

/// "one to nine base-ten digits", before the LF
fn value(line: &[u8]) -> Option<u32> {
    let right = (1..=9).contains(&line.len()) && line.iter().all(u8::is_ascii_digit);
    let digits = line.iter().map(|digit| (digit - b'0') as u32);
    right.then(|| digits.fold(0, |sum, digit| 10 * sum + digit))
}

/// "two lines", each with its LF: "L and a number of compressions"
pub fn numbers(input: &[u8]) -> Option<(u32, u32)> {
    let lines = input.strip_suffix(b"\n")?;
    let lines: Vec<&[u8]> = lines.split(|byte| *byte == b'\n').collect();
    let [block_length, compressions] = lines[..] else {
        return None;
    };
    Some((value(block_length)?, value(compressions)?))
}

/// "the largest n up to 1,536 whose block messages before the last all fit", or 0 where "n = 2
/// already doesn't"
fn most_blocks(block_length: u32, compressions: u32) -> usize {
    let cost = |labels| comparison_cost(block_length as usize, labels);
    let costs: Vec<u32> = (0..=MOST_HASHES).map(cost).collect();
    let fits = |n: &usize| {
        let mut carried = CARRIED[*n].iter();
        carried.all(|labels| costs[*labels] <= compressions)
    };
    match fits(&2) {
        true => (2..=MOST_BLOCKS).filter(fits).max().unwrap(),
        false => 0,
    }
}

/// "0 where the input is anything else, L isn't allowed"
pub fn answer(input: &[u8]) -> usize {
    match numbers(input) {
        Some((length, compressions)) if BLOCK_LENGTHS.contains(&length) => {
            most_blocks(length, compressions)
        }
        _ => 0,
    }
}

/// Whether message 1 carries the most labels of all before the last, for every n from 2 on.
pub fn first_carries_most() -> bool {
    (2..=MOST_BLOCKS).all(|n| CARRIED[n].last() == Some(&siblings(n, 1).len()))
}

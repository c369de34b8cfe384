//! Damage: to messages field by field, to their length, and to states.

use std::ops::Range;

use crate::craft::wrong_block_length;
use crate::device::Device;
use crate::layout::{HASHES_AT, MANIFEST_AT, MOST_HASHES, NEXT_AT, STAGE_AT, STATE_LENGTH};
use crate::lms::{Parameters, number};
use crate::manifest::{MOST_BLOCKS, Manifest};
use crate::rng::Rng;

/// The fields of a manifest that begins at `at`.
fn manifest_fields(at: usize) -> Vec<Range<usize>> {
    [0..2, 2..4, 4..8, 8..12, 12..16, 16..48]
        .map(|field| at + field.start..at + field.end)
        .to_vec()
}

/// The parts of a signature that begins at `at`: leaf number, type, C, one of the chains, type, one
/// of the path's hashes.
pub fn signature_fields(rng: &mut Rng, p: &Parameters, at: usize) -> Vec<Range<usize>> {
    let chain = 40 + 32 * rng.below(p.chains);
    let tree_type = p.tree_type_offset();
    let path = tree_type + 4 + 32 * rng.below(p.height);
    let starts = [
        (0, 4),
        (4, 4),
        (8, 32),
        (chain, 32),
        (tree_type, 4),
        (path, 32),
    ];
    starts
        .map(|(start, length)| at + start..at + start + length)
        .to_vec()
}

/// L, and the length of the block that a message should carry: by the manifest that it has or, for
/// kind 2, the device has, and by its number.
fn block_lengths(device: &Device, message: &[u8]) -> (usize, usize) {
    let (manifest, i) = match message.first() {
        Some(2) => (device.manifest().cloned(), message.get(1..3)),
        _ => (message.get(1..49).map(Manifest::read), message.get(49..51)),
    };
    match (manifest, i.map_or(0, number) as usize) {
        (Some(m), i) if m.check_size().is_ok() && i >= 1 && i <= m.blocks() => {
            (m.block_length as usize, m.place(i).len())
        }
        _ => (64, 64),
    }
}

/// The fields of a message, so that each is damaged as often, however short it is.
fn fields(rng: &mut Rng, p: &Parameters, device: &Device, message: &[u8]) -> Vec<Range<usize>> {
    let mut found = Vec::from([0..1]);
    match message.first() {
        Some(1) => {
            found.extend(manifest_fields(1));
            found.extend(signature_fields(rng, p, 49));
        }
        Some(2) => {
            let labels = 3 + block_lengths(device, message).1;
            found.extend([1..3, 1..3, 3..labels, 3..labels]);
            found.extend((labels..message.len()).step_by(32).map(|at| at..at + 32));
        }
        Some(3 | 4) if message.len() >= 51 => {
            let hashes = 51 + block_lengths(device, message).1;
            let signature = message.len().saturating_sub(p.signature_length());
            found.extend(manifest_fields(1));
            found.extend([49..51, 51..hashes]);
            found.extend((hashes..signature).step_by(32).map(|at| at..at + 32));
            found.extend(signature_fields(rng, p, signature));
        }
        _ => found.push(0..message.len()),
    }
    found.retain(|field| field.end <= message.len() && !field.is_empty());
    found
}

/// One byte of the range; numbers change in their lowest byte more often.
pub fn damage_byte(rng: &mut Rng, bytes: &mut [u8], field: Range<usize>) {
    let at = if rng.one_in(3) {
        field.end - 1
    } else {
        rng.range(field.start, field.end - 1)
    };
    let old = bytes[at];
    let any = rng.next() as u8;
    let flipped = old ^ (1 << rng.below(8));
    bytes[at] = rng.pick(&[
        flipped,
        flipped,
        old.wrapping_add(1),
        old.wrapping_sub(1),
        any,
        0,
        0xff,
    ]);
}

/// One to three fields damaged.
pub fn damage(rng: &mut Rng, p: &Parameters, device: &Device, message: &mut [u8]) {
    for _ in 0..rng.pick(&[1, 1, 1, 2, 3]) {
        let found = fields(rng, p, device, message);
        if !found.is_empty() {
            let field = found[rng.below(found.len())].clone();
            damage_byte(rng, message, field);
        }
    }
}

/// Cut by some bytes, cut to a length near one that the rules name, or grown.
pub fn resize(rng: &mut Rng, p: &Parameters, device: &Device, message: &mut Vec<u8>) {
    let length = message.len();
    let (whole, own) = block_lengths(device, message);
    // Where the signature begins, if there is one: updates need that many bytes.
    let unsigned = length.saturating_sub(p.signature_length());
    let edges = [0, 1, 2, 3, 4, 48, 49, 50, 51, 52];
    let block = [2 + own, 3 + own, 4 + own, 3 + whole];
    let update = [
        50 + own,
        51 + own,
        50 + whole,
        51 + whole,
        unsigned.saturating_sub(1),
        unsigned,
    ];
    let new_length = match rng.below(8) {
        0 => rng.pick(&edges),
        1 | 2 if message.first() == Some(&2) => rng.pick(&block),
        1 | 2 => rng.pick(&update),
        3 => rng.below(length + 1),
        4 => length.saturating_sub(rng.pick(&[1, 1, 2, 32, 33])),
        _ => length + rng.pick(&[1, 1, 2, 31, 32, 33, 40]),
    };
    let more = rng.bytes(new_length.saturating_sub(length));
    message.truncate(new_length);
    message.extend(more);
}

/// Bytes that are no message of any kind, or hardly one.
pub fn noise(rng: &mut Rng) -> Vec<u8> {
    let length = rng.pick(&[0, 0, 1, 2, 3, 48, 49, 50, 51, 67, 200, 1500]);
    let mut message = rng.bytes(length);
    if !message.is_empty() && rng.percent(70) {
        message[0] = rng.pick(&[0, 1, 2, 3, 4, 5, 255]);
    }
    message
}

fn put(state: &mut [u8], at: usize, bytes: &[u8]) {
    state[at..at + bytes.len()].copy_from_slice(bytes);
}

/// Another state: other bytes in one field, random ones, or another length.
pub fn damage_state(rng: &mut Rng, state: &mut Vec<u8>) {
    let any = rng.u32();
    match rng.below(16) {
        0 => {
            let (less, more) = (STATE_LENGTH - 1, STATE_LENGTH + 1);
            let (hash_more, any) = (STATE_LENGTH + 32, any as usize % 600);
            let other = rng.pick(&[0, 1, STAGE_AT, HASHES_AT, less, more, hash_more, any]);
            state.resize(other, 0);
        }
        1 => *state = rng.bytes(STATE_LENGTH),
        2 => {
            let stage = rng.pick(&[3, 4, 256, 258, 512, any as u16]);
            put(state, STAGE_AT, &stage.to_be_bytes());
        }
        3..=5 => put(state, STAGE_AT, &rng.pick(&[0u16, 1, 2]).to_be_bytes()),
        6..=9 => damage_counts(rng, state),
        10 => {
            let other = wrong_block_length(rng) as u16;
            put(state, MANIFEST_AT + 2, &other.to_be_bytes());
        }
        11 | 12 => {
            let found = manifest_fields(MANIFEST_AT);
            let field = found[rng.below(found.len())].clone();
            damage_byte(rng, state, field);
        }
        13 => damage_byte(rng, state, 0..STAGE_AT),
        _ => {
            let at = HASHES_AT + 32 * rng.below(MOST_HASHES);
            damage_byte(rng, state, at..at + 32);
        }
    }
}

/// Another next number or image length, in or out of what the other one allows.
fn damage_counts(rng: &mut Rng, state: &mut [u8]) {
    let length = number(&state[MANIFEST_AT + 2..MANIFEST_AT + 4]);
    let n = number(&state[MANIFEST_AT + 12..MANIFEST_AT + 16]).div_ceil(length.max(1));
    let edges = [0, 1, n, n.wrapping_add(1), u16::MAX as u32, rng.u32()];
    let most = length * MOST_BLOCKS as u32;
    match rng.below(4) {
        0 => put(state, MANIFEST_AT + 12, &rng.pick(&edges).to_be_bytes()),
        1 => {
            let image_length = rng.pick(&[most, most + 1]);
            put(state, MANIFEST_AT + 12, &image_length.to_be_bytes());
        }
        _ => put(state, NEXT_AT, &(rng.pick(&edges) as u16).to_be_bytes()),
    }
}

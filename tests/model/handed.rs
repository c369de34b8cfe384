//! States handed in, around the limit of 1,536 blocks, by hand and in every run: up to it they make
//! sense, above it they are refused, whatever comes. The answers are written here as the papers'
//! numbers, and library and model must both give them.

use crate::altered::{SERIAL, with_state};
use crate::compare::Compared;
use crate::craft::Image;
use crate::handmade::{ACCEPTED, Case, MODEL, expect};
use crate::layout::{STAGE_AT, STATE_LENGTH};
use crate::limit;
use crate::manifest::{AREA, KIND, Manifest, SHORT, STAGE, STATE, TURN};
use crate::pair::Pair;
use crate::readers;
use crate::rng::Rng;
use crate::sender::Change;
use crate::signer::Signer;

const IDLE: u16 = 0;
const LOADING: u16 = 1;
const COMPLETE: u16 = 2;

/// The device with this stage, next number and manifest, and the manifest's root for the last of
/// its hashes: the one held before block 1.
fn stage(pair: &Pair, number: u16, next: u16, manifest: &Manifest) -> Pair {
    let numbers = [number.to_be_bytes(), next.to_be_bytes()].concat();
    let pair = with_state(pair, STAGE_AT, &[numbers, manifest.bytes()].concat());
    with_state(&pair, STATE_LENGTH - 32, &manifest.root)
}

pub fn loading(pair: &Pair, next: u16, manifest: &Manifest) -> Pair {
    stage(pair, LOADING, next, manifest)
}

pub fn complete(pair: &Pair, manifest: &Manifest) -> Pair {
    stage(pair, COMPLETE, 0, manifest)
}

/// Status, length of the block message that is due, its cost, and boot check.
fn expect_readers(pair: &Pair, due: [u32; 4]) -> Compared<()> {
    let answers = [
        readers::status(&pair.state)?,
        readers::due(&pair.state)?,
        readers::cost(&pair.state)?,
        pair.boot_check()?,
    ];
    expect("status, length due, cost and boot check", answers, due)
}

/// A message and its answers, by devices that make sense: an idle one, one that loads at block 1,
/// and a complete one.
type Message = (&'static str, Vec<u8>, [u32; 3]);

/// Messages of every kind, which a device takes that has this manifest and the case's image in its
/// flash, and some that none takes.
fn messages(case: &mut Case, manifest: &Manifest) -> Vec<Message> {
    let image = case.image.clone();
    let small = Image {
        bytes: image.bytes[..1].to_vec(),
        ..image
    };
    let program = small.manifest(MODEL, SERIAL + 1, &small);
    let mut found = vec![
        ("empty message", Vec::new(), [KIND; 3]),
        ("kind 0", vec![0; 60], [KIND; 3]),
        ("kind 5", vec![5; 60], [KIND; 3]),
        ("new program", case.signed_program(&program), [ACCEPTED; 3]),
        ("block 1", image.block_message(1), [STAGE, ACCEPTED, STAGE]),
    ];
    found.extend([1, 2, 3, 4].map(|kind| ("kind alone", vec![kind], [SHORT; 3])));
    let update = Manifest {
        serial: SERIAL + 1,
        ..manifest.clone()
    };
    for kind in [3, 4] {
        let first = Change::new(kind, &image.bytes, image.block_length, 1);
        let message = case.signed_update(&update, &first);
        found.push(("update", message, [STAGE, STAGE, ACCEPTED]));
        let behind = Change {
            number: image.blocks() as u16 + 1,
            ..first
        };
        let message = case.signed_update(&update, &behind);
        found.push(("update behind the last", message, [STAGE, STAGE, TURN]));
    }
    found
}

/// Every reader and every message gives 1.
fn refused(case: &mut Case, mut pair: Pair, messages: &[Message]) -> Compared<()> {
    expect_readers(&pair, [STATE; 4])?;
    for (what, message, _) in messages {
        case.give(what, &mut pair, message, STATE)?;
    }
    Ok(())
}

/// The same for a device that has this manifest.
pub fn refused_by_all(case: &mut Case, pair: Pair, manifest: &Manifest) -> Compared<()> {
    let messages = messages(case, manifest);
    refused(case, pair, &messages)
}

/// What the readers give of a device at each stage.
const READERS: [[u32; 4]; 3] = [
    [ACCEPTED, STAGE, STAGE, STAGE],
    [ACCEPTED, ACCEPTED, ACCEPTED, STAGE],
    [ACCEPTED, STAGE, STAGE, ACCEPTED],
];

/// Each has its answer from a device at this stage.
fn answered(case: &mut Case, pair: Pair, number: u16, messages: &[Message]) -> Compared<()> {
    let column = number as usize;
    expect_readers(&pair, READERS[column])?;
    for (what, message, due) in messages {
        case.give(what, &mut pair.clone(), message, due[column])?;
    }
    Ok(())
}

/// Numbers of blocks, whether the last one is whole or has one byte, and whether a state with such
/// an image makes sense.
const IMAGES: [(usize, bool, u32); 5] = [
    (1536, true, ACCEPTED),
    (1536, false, ACCEPTED),
    (1537, true, STATE),
    (1537, false, STATE),
    (4096, true, STATE),
];

/// Devices that are idle, loading at block 1, and complete.
pub fn counts(rng: &mut Rng, signer: &Signer, block_length: usize) -> Compared<()> {
    for (n, whole, due) in IMAGES {
        let last = if whole { block_length } else { 1 };
        let length = (n - 1) * block_length + last;
        let mut case = limit::case(rng, signer, block_length, length);
        count(&mut case, due).map_err(|what| format!("T {length}: {what}"))?;
    }
    Ok(())
}

fn count(case: &mut Case, due: u32) -> Compared<()> {
    let image = case.image.clone();
    let manifest = image.manifest(MODEL, SERIAL, &image);
    let length = image.bytes.len();
    let mut pair = Pair::fresh(&mut case.rng, MODEL, &case.signer.key, length)?;
    pair.put_flash(image.bytes);
    let messages = messages(case, &manifest);
    // What an idle device has for a manifest means nothing.
    for (number, next, due) in [(IDLE, 0, ACCEPTED), (LOADING, 1, due), (COMPLETE, 0, due)] {
        let device = stage(&pair, number, next, &manifest);
        match due {
            ACCEPTED => answered(case, device, number, &messages),
            _ => refused(case, device, &messages),
        }?;
    }
    Ok(())
}

/// Blocks and next number of a loading device, and whether it makes sense.
const NEXT: [(usize, u16, u32); 13] = [
    (1536, 0, STATE),
    (1536, 1, ACCEPTED),
    (1536, 2, ACCEPTED),
    (1536, 1535, ACCEPTED),
    (1536, 1536, ACCEPTED),
    (1536, 1537, STATE),
    (1536, 65_535, STATE),
    (1535, 1535, ACCEPTED),
    (1535, 1536, STATE),
    (1537, 1, STATE),
    (1537, 1537, STATE),
    (1537, 1538, STATE),
    (4096, 4096, STATE),
];

/// Next numbers around the last one. Of a complete device nobody looks at it: its blocks decide.
pub fn next_numbers(rng: &mut Rng, signer: &Signer, block_length: usize) -> Compared<()> {
    let mut case = limit::case(rng, signer, block_length, 1);
    let fresh = Pair::fresh(&mut case.rng, MODEL, &signer.key, 1)?;
    let own = case.image.manifest(MODEL, SERIAL, &case.image);
    let messages = messages(&mut case, &own);
    for (n, next, due) in NEXT {
        let manifest = Manifest {
            image_length: (n * block_length) as u32,
            ..own.clone()
        };
        let due_complete = if n > 1536 { STATE } else { ACCEPTED };
        for (number, due, readers) in [
            (LOADING, due, [ACCEPTED, ACCEPTED, ACCEPTED, STAGE]),
            (COMPLETE, due_complete, [ACCEPTED, STAGE, STAGE, AREA]),
        ] {
            let mut pair = stage(&fresh, number, next, &manifest);
            let result = match due {
                ACCEPTED => expect_readers(&pair, readers)
                    .and_then(|()| case.give("empty message", &mut pair, &[], KIND)),
                _ => refused(&mut case, pair, &messages),
            };
            result.map_err(|what| format!("stage {number}, n {n}, next {next}: {what}"))?;
        }
    }
    Ok(())
}

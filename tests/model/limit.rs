//! The limit of 1,536 blocks, by hand and in every run: images and manifests just below it, at it
//! and above it, whole downloads at it, and how many hashes messages carry and devices hold. The
//! answers are written here as the papers' numbers, and library and model must both give them.

use std::collections::HashMap;

use crate::altered::{SERIAL, expect_boot};
use crate::capi::Send;
use crate::compare::Compared;
use crate::craft::Image;
use crate::device::Stage;
use crate::handed;
use crate::handmade::{ACCEPTED, Case, MODEL, expect};
use crate::manifest::{AREA, Manifest, SIZE, TURN, UNLIKE};
use crate::pair::Pair;
use crate::rng::Rng;
use crate::sender::{Change, program_message, update_message};
use crate::sha256::{Hash, sha256};
use crate::signer::Signer;
use crate::tree::{Subtree, block, cover, parent, whole};

/// Image lengths, as blocks and bytes more or less, and the answer to them.
const LENGTHS: [(usize, isize, u32); 6] = [
    (1536, 0, ACCEPTED),
    (1536, -1, ACCEPTED),
    (1535, 1, ACCEPTED),
    (1536, 1, SIZE),
    (1537, 0, SIZE),
    (4096, 0, SIZE),
];

/// More than any message needs.
const ROOM: usize = 5000;

/// A case of a random image.
pub fn case<'a>(rng: &mut Rng, signer: &'a Signer, block_length: usize, length: usize) -> Case<'a> {
    let image = Image {
        block_length,
        bytes: rng.bytes(length),
    };
    Case::new(Rng::new(rng.next(), 0), signer, image)
}

/// The sender and a device, for images and manifests of each of these lengths.
pub fn sizes(rng: &mut Rng, signer: &Signer, block_length: usize) -> Compared<()> {
    for (blocks, more, due) in LENGTHS {
        let length = (blocks * block_length).saturating_add_signed(more);
        let mut case = case(rng, signer, block_length, length);
        orders(&mut case, due)
            .and_then(|()| manifests(&mut case, due))
            .map_err(|what| format!("T {length}: {what}"))?;
    }
    Ok(())
}

/// All five functions of the sender, with a number that may be wrong, and with room and without:
/// the size comes first, the number next.
fn orders(case: &mut Case, due: u32) -> Compared<()> {
    let first = |answers: [u32; 3]| answers.into_iter().find(|answer| *answer != ACCEPTED);
    let n = case.image.blocks() as u32;
    let signature = &[0; 100];
    for (number, turn) in [(1, ACCEPTED), (n, ACCEPTED), (0, TURN), (n + 1, TURN)] {
        for (what, turn) in [
            (Send::Manifest, ACCEPTED),
            (Send::Program(signature), ACCEPTED),
            (Send::Block(number), turn),
            (Send::Update(3, number, signature), turn),
            (Send::Update(4, number, signature), turn),
        ] {
            for (room, area) in [(ROOM, ACCEPTED), (0, AREA)] {
                let answer = first([due, turn, area]).unwrap_or(ACCEPTED);
                expect("sender", case.order(what, room)?, answer)?;
            }
        }
    }
    Ok(())
}

/// A signed manifest of this image's length to a fresh device, and in updates to a complete one,
/// whose image has another. The root is any.
fn manifests(case: &mut Case, due: u32) -> Compared<()> {
    let Image {
        block_length,
        bytes,
    } = case.image.clone();
    let manifest = |length: usize, serial| Manifest {
        version: 1,
        block_length: block_length as u16,
        model: MODEL,
        serial,
        image_length: length as u32,
        root: [7; 32],
    };
    let due_update = if due == ACCEPTED { UNLIKE } else { due };
    let [fresh, other] = [bytes.len(), 5 * block_length]
        .map(|length| Pair::fresh(&mut case.rng, MODEL, &case.signer.key, length));
    let complete = handed::complete(&other?, &manifest(5 * block_length, SERIAL));
    let fresh = fresh?;
    let new = manifest(bytes.len(), SERIAL + 1);
    let message = case.signed_program(&new);
    case.give("new program", &mut fresh.clone(), &message, due)?;
    for kind in [3, 4] {
        let change = Change::new(kind, &bytes[..block_length], block_length, 1);
        let message = case.signed_update(&new, &change);
        case.give("update", &mut complete.clone(), &message, due_update)?;
    }
    if due == SIZE {
        all_else_wrong(case, &fresh, &complete, new)?;
    }
    Ok(())
}

/// The size comes before model, serial, flash, number and signature.
fn all_else_wrong(
    case: &mut Case,
    fresh: &Pair,
    complete: &Pair,
    mut manifest: Manifest,
) -> Compared<()> {
    manifest.model ^= 1;
    manifest.serial = 0;
    let bytes = manifest.bytes();
    let message = program_message(&bytes, &[]);
    case.give("wrong program", &mut fresh.cut(0), &message, SIZE)?;
    for kind in [3, 4] {
        let change = Change {
            kind,
            number: 0,
            block: Vec::new(),
            hashes: Vec::new(),
        };
        let message = update_message(&bytes, &change, &[]);
        case.give("wrong update", &mut complete.cut(0), &message, SIZE)?;
    }
    Ok(())
}

/// By block of 1,536: how many hashes its message carries, and how many its path update does. Of
/// the two halves the left one has 1,024 blocks and a depth of 10, the right one 512 and a depth of
/// 9; their root lies one level higher.
const CARRIED: [(u32, usize, usize); 9] = [
    (1, 11, 11),
    (2, 0, 11),
    (3, 1, 11),
    (513, 9, 11),
    (1024, 0, 11),
    (1025, 9, 10),
    (1281, 8, 10),
    (1535, 1, 10),
    (1536, 0, 10),
];

/// How many hashes the messages of an image of 1,536 blocks carry.
pub fn carried(rng: &mut Rng, signer: &Signer) -> Compared<()> {
    let mut case = case(rng, signer, 64, 98_304);
    for (i, hashes, siblings) in CARRIED {
        let message = case.sent(Send::Block(i))?;
        expect("block message", message.len(), 3 + 64 + 32 * hashes)?;
        let message = case.sent(Send::Update(4, i, &[]))?;
        expect("path update", message.len(), 51 + 64 + 32 * siblings)?;
    }
    Ok(())
}

/// The longest messages, and path updates of the first block and the last: L = 1,024, and a
/// signature as long as that of the tallest key of type 3.
pub fn longest_messages(rng: &mut Rng, signer: &Signer) -> Compared<()> {
    let mut case = case(rng, signer, 1024, 1_572_864);
    let signature = rng.bytes(2988);
    for (what, due) in [
        (Send::Program(&signature), 3037),
        (Send::Block(1), 1379),
        (Send::Update(3, 1, &signature), 4063),
        (Send::Update(4, 1, &signature), 4415),
        (Send::Update(4, 1536, &signature), 4383),
    ] {
        expect("longest message", case.sent(what)?.len(), due)?;
    }
    Ok(())
}

/// Image lengths of whole downloads, with L = 64: 1,024 blocks, 1,025, and twice 1,536.
pub const DOWNLOADS: [usize; 4] = [65_536, 65_537, 98_304, 98_241];

/// From fresh to complete, and updates of the last block.
pub fn download(rng: &mut Rng, signer: &Signer, length: usize) -> Compared<()> {
    let mut case = case(rng, signer, 64, length);
    let mut pair = Pair::fresh(&mut case.rng, MODEL, &signer.key, length)?;
    let signature = case.signature()?;
    let program = case.sent(Send::Program(&signature))?;
    case.give("new program", &mut pair, &program, ACCEPTED)?;
    blocks(&mut case, &mut pair, 1)?;
    for kind in [3, 4] {
        case.update(&mut pair, kind, case.image.blocks())?;
        expect_boot("updated", &pair, ACCEPTED)?;
    }
    Ok(())
}

/// The sender's blocks of an image with L = 64, from this one on and up to the boot check; and what
/// is held before each.
pub fn blocks(case: &mut Case, pair: &mut Pair, first: usize) -> Compared<()> {
    let n = case.image.blocks();
    let hashes = all_hashes(&case.image);
    for i in first..=n {
        expect_held(pair, &hashes, n, i - 1).map_err(|what| format!("before block {i}: {what}"))?;
        let answer = case.order(Send::Block(i as u32), ROOM)?;
        expect("sender", answer, ACCEPTED)?;
        let message = case.image.block_message(i);
        case.give("block", pair, &message, ACCEPTED)?;
        if i == 1 && n > 1024 {
            // The message's hashes fill all the room that a state has for them.
            let filled = pair.state[112..] == message[67..];
            expect("hashes of block 1 in the state", filled, true)?;
        }
    }
    expect_boot("downloaded", pair, ACCEPTED)?;
    let image = &case.image.bytes;
    expect("flash", pair.flash[..image.len()] == image[..], true)
}

/// Those of all subtrees, each worked out once.
fn all_hashes(image: &Image) -> HashMap<Subtree, Hash> {
    fn walk(subtree: Subtree, image: &Image, found: &mut HashMap<Subtree, Hash>) -> Hash {
        let hash = if subtree.count == 1 {
            sha256(block(&image.bytes, image.block_length, subtree.first))
        } else {
            let (left, right) = subtree.halves();
            parent(&walk(left, image, found), &walk(right, image, found))
        };
        found.insert(subtree, hash);
        hash
    }
    let mut found = HashMap::new();
    walk(whole(image.blocks()), image, &mut found);
    found
}

/// How many hashes are held after i blocks of n, where n is 1,024, or a power of two more. Of a
/// tree over a power of two, the blocks that are left need as many as their number has ones in base
/// two; a tree that no block was taken from yet needs one.
fn held_after(n: usize, i: usize) -> usize {
    match i {
        0 => 1,
        1..1024 => (1024 - i).count_ones() as usize + (n > 1024) as usize,
        _ => (n - i).count_ones() as usize,
    }
}

/// What a loading device holds after i blocks of n: how many hashes, and that they are the image's.
fn expect_held(pair: &Pair, hashes: &HashMap<Subtree, Hash>, n: usize, i: usize) -> Compared<()> {
    let Stage::Loading { held, .. } = pair.device().stage else {
        return Err("not loading".into());
    };
    expect("hashes held", held.len(), held_after(n, i))?;
    let due: Vec<Hash> = cover(n, i + 1).iter().map(|s| hashes[s]).collect();
    expect("held hashes are the image's", held == due, true)
}

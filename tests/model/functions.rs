//! The library's other functions against the model: the sender, the digest, the verdict on a
//! signature.

use crate::capi::{self, Send};
use crate::compare::{Compared, same, same_answer, same_count};
use crate::coverage::{Coverage, ROOM, ROOM_BYTE_SHORT, SENDER, VERIFY};
use crate::craft::wrong_block_length;
use crate::damage::{damage_byte, signature_fields};
use crate::edge::{self, Edge};
use crate::lengths;
use crate::lent::Lent;
use crate::lms;
use crate::manifest::{AREA, BLOCK_LENGTHS, MOST_BLOCKS, Outcome, SIZE, UNSIGNED};
use crate::rng::Rng;
use crate::sender::{Order, deliver};
use crate::sha256::{counted, sha256};
use crate::signer::Signer;

/// An image's length for the block length: mostly up to 20 blocks, at times none; rarely, for it is
/// slow, up to the most or one byte too long.
fn image_length(rng: &mut Rng, block_length: usize) -> usize {
    let most = MOST_BLOCKS * block_length;
    match rng.below(1200) {
        0 => most,
        1 => most + 1,
        2 => rng.below(most + 1),
        3..=40 => 0,
        _ => {
            let more = rng.range(4, 20);
            let n = rng.pick(&[1, 2, 3, more]);
            lengths::image_length(rng, block_length, n)
        }
    }
}

fn block_length(rng: &mut Rng) -> u32 {
    match rng.below(12) {
        0 => wrong_block_length(rng),
        // Right in the low 16 bits, which are all that the manifest has room for.
        1 => rng.pick(&BLOCK_LENGTHS) + (rng.u32() << 16),
        _ => rng.pick(&BLOCK_LENGTHS),
    }
}

/// A number of n blocks, often the last one's, or one that they have not.
fn block_number(rng: &mut Rng, n: u32) -> u32 {
    let any = rng.u32();
    let inside = 1 + any % n.max(1);
    let wrong = rng.pick(&[0, n + 1, any, inside + 65_536]);
    rng.pick(&[inside, 1, n, n, n, wrong])
}

/// Room for the bytes due, for a byte less, or for any number.
fn room_around(rng: &mut Rng, due: usize) -> usize {
    let spare = rng.below(100);
    let (less, more) = (due - 1, due + spare);
    rng.pick(&[due, due, due, less, less, less, due + 1, more, spare, 0])
}

/// One call of one sender function, on a buffer of any room.
pub fn sender_call(rng: &mut Rng, coverage: &mut Coverage) -> Compared<()> {
    let block_length = block_length(rng);
    let length = image_length(rng, (block_length as usize).clamp(1, 1024));
    let image = rng.bytes(length);
    let order = Order {
        image: &image,
        block_length,
        model: rng.u32(),
        serial: rng.u32(),
    };
    let signature_length = rng.pick(&[0, 1, 1292, 2348, 2508, 3000]);
    let signature = rng.bytes(signature_length);
    let n = length.div_ceil(block_length.max(1) as usize) as u32;
    let number = block_number(rng, n);
    // The manifest alone, or a message.
    let kind = rng.pick(&[0, 1, 2, 2, 2, 3, 3, 3, 4, 4, 4]);
    let what = match kind {
        0 => Send::Manifest,
        1 => Send::Program(&signature),
        2 => Send::Block(number),
        _ => Send::Update(kind as u8, number, &signature),
    };
    let message = sent(&order, what);
    let due = message.as_ref().map_or(100, Vec::len);
    let room = room_around(rng, due);
    let answer = compare_sender(rng, &order, what, message, room)
        .map_err(|e| format!("kind {kind}, L {block_length}, T {length}, number {number}: {e}"))?;
    coverage.count(SENDER + kind, answer);
    if let Some(n) = edge::blocks(length, block_length) {
        coverage.edge(Edge::Sender, n, answer == SIZE);
    }
    if kind >= 2 && number == n && answer == 0 && room == due {
        coverage.shape(ROOM + kind - 2, length, block_length as usize);
    }
    if kind >= 2 && number == n && answer == AREA && room == due - 1 {
        coverage.shape(ROOM_BYTE_SHORT + kind - 2, length, block_length as usize);
    }
    Ok(())
}

/// One call into so much room: answer, whole buffer and number of written bytes.
pub fn compare_sender(
    rng: &mut Rng,
    order: &Order,
    what: Send,
    message: Outcome<Vec<u8>>,
    room: usize,
) -> Compared<u32> {
    let mut out = rng.bytes(room);
    let mut library_out = Lent::new(&out);
    let mut written = rng.below(5000);
    let mut library_written = written;
    let answer = deliver(message, &mut out, &mut written);
    let library = capi::send(order, what, &mut library_out, &mut library_written);
    same_answer(library, answer)?;
    same("sender's buffer", &library_out, &out)?;
    if library_written != written {
        return Err(format!(
            "written: library {library_written}, model {written}"
        ));
    }
    Ok(answer)
}

/// What the model's sender makes.
pub fn sent(order: &Order, what: Send) -> Outcome<Vec<u8>> {
    match what {
        Send::Manifest => order.manifest(),
        Send::Program(signature) => order.program(signature),
        Send::Block(number) => order.block(number),
        Send::Update(kind, number, signature) => order.update(kind, number, signature),
    }
}

/// A digest and its compressions, at lengths around the ends of blocks more often.
pub fn digest_call(rng: &mut Rng) -> Compared<()> {
    let length = match rng.below(20) {
        0 => rng.below(20_000),
        1..=6 => (64 * rng.below(20) + rng.range(53, 67)).saturating_sub(64),
        _ => rng.below(600),
    };
    let message = rng.bytes(length);
    let (digest, compressions) = counted(|| sha256(&message));
    let (library, count) = capi::digest(&message);
    same("digest", &library, &digest)?;
    same_count(count, compressions as usize)
}

/// A verdict: of a valid signature, or of one damaged in key, message, length or one of its parts.
pub fn verify_call(rng: &mut Rng, coverage: &mut Coverage, pair: &[Signer; 2]) -> Compared<()> {
    let signer = &pair[0];
    let mut key = signer.key.clone();
    let length = rng.pick(&[0, 1, 48, 56, 200]);
    let mut message = rng.bytes(length);
    let mut signature = signer.sign(rng, &message);
    match rng.below(15) {
        0..=3 => {}
        4 => signature = pair[1].sign(rng, &message),
        5 => message.push(0),
        6 => signature.truncate(rng.below(signature.len())),
        7 => signature.push(0),
        8 => key.resize(rng.pick(&[0, 1, 8, 24, 55, 57, 60]), 0),
        9 => {
            let field = rng.pick(&[(0, 4), (4, 8), (8, 24), (24, 56)]);
            damage_byte(rng, &mut key, field.0..field.1);
        }
        10 => {
            // Another type, in key and signature alike.
            let other = [0, 0, 0, rng.range(0, 10) as u8];
            let (in_key, in_signature) =
                rng.pick(&[(0, signer.parameters.tree_type_offset()), (4, 4)]);
            key[in_key..in_key + 4].copy_from_slice(&other);
            signature[in_signature..in_signature + 4].copy_from_slice(&other);
        }
        _ => {
            let fields = signature_fields(rng, &signer.parameters, 0);
            let field = fields[rng.below(fields.len())].clone();
            damage_byte(rng, &mut signature, field);
        }
    }
    let valid = lms::verify(&key, &message, &signature);
    let answer = if valid { 0 } else { UNSIGNED };
    let library = capi::verify(&key, &message, &signature);
    same_answer(library, answer)?;
    coverage.count(VERIFY, answer);
    Ok(())
}

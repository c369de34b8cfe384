//! Worst cases that are reached, in every run: change 8. The numbers are the paper's, and the model
//! must have them.

use crate::compare::Compared;
use crate::costs;
use crate::handmade::{MODEL, expect};
use crate::lms::{Parameters, message_digest, number, steps, verify};
use crate::manifest::{BLOCK_LENGTHS, MOST_BLOCKS};
use crate::pair::Pair;
use crate::rng::Rng;
use crate::sha256::{Hash, counted};
use crate::signer::Signer;

/// Hands over one result.
type Record<'a> = &'a mut dyn FnMut(Compared<()>);

/// "type 4 never takes more than 8,415 and type 3 never more than 990"
const MOST_STEPS: [(u32, u32); 2] = [(4, 8415), (3, 990)];

/// "a digest of 32 zero bytes takes both"; and no digest takes more.
pub fn chain_steps(rng: &mut Rng, record: Record) {
    for (ots_type, most) in MOST_STEPS {
        let p = Parameters::of(5, ots_type).expect("a known type");
        record(expect("steps of zeros", steps(&p, &[0; 32]), most));
        for digest in digests(rng) {
            let steps = steps(&p, &digest);
            record(at_most(&format!("steps of {digest:02x?}"), steps, most));
        }
    }
}

fn at_most(what: &str, got: u32, most: u32) -> Compared<()> {
    expect(
        &format!("{what}: {got} is at most {most}"),
        got <= most,
        true,
    )
}

/// Random ones, and zeros but for few bytes.
fn digests(rng: &mut Rng) -> Vec<Hash> {
    let mut found: Vec<Hash> = (0..100).map(|_| rng.array()).collect();
    for count in 0..100 {
        let mut digest = [0; 32];
        for _ in 0..=count % 4 {
            digest[rng.below(32)] = rng.next() as u8;
        }
        found.push(digest);
    }
    found
}

/// What a verdict over a manifest takes: 2 for that, the steps, 18 or 34 for the ends of the chains,
/// 1 for the leaf and 2 for each level.
pub fn verdict(rng: &mut Rng, signer: &Signer) -> Compared<()> {
    let (key, p) = (&signer.key, &signer.parameters);
    let message = rng.bytes(48);
    let signature = signer.sign(rng, &message);
    let (valid, made) = counted(|| verify(key, &message, &signature));
    expect("a signer's signature", valid, true)?;
    let q = number(&signature[..4]);
    let digest = message_digest(&key[8..24], q, &signature[8..40], &message);
    let ends = if p.chains == 34 { 18 } else { 34 };
    let due = 2 + steps(p, &digest) + ends + 1 + 2 * p.height as u32;
    expect("compressions of a verdict", made, due)
}

/// "For downloads of two or more blocks", few or very many: "message 1 costs most of all block
/// messages before the last."
pub fn first_messages(rng: &mut Rng, signer: &Signer, record: Record) {
    let fresh = match Pair::fresh(rng, MODEL, &signer.key, 0) {
        Ok(fresh) => fresh,
        Err(what) => return record(Err(what)),
    };
    for block_length in BLOCK_LENGTHS {
        for n in (2..=200).chain([1024, 1025, MOST_BLOCKS]) {
            let image_length = n * block_length as usize - rng.below(block_length as usize);
            let result = first_message(&fresh, block_length, image_length as u32, n);
            record(result.map_err(|what| format!("L {block_length}, T {image_length}: {what}")));
        }
    }
}

fn first_message(fresh: &Pair, block_length: u32, image_length: u32, n: usize) -> Compared<()> {
    let cost = |i| costs::cost(fresh, block_length, image_length, i);
    let first = cost(1)?;
    for i in 2..n {
        at_most(&format!("cost of message {i}"), cost(i)?, first)?;
    }
    Ok(())
}

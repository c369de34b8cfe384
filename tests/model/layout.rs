//! The state's 464 bytes, as the C header describes them, around the model's device.
//!
//! The header says of every byte what becomes of it, with one exception: it does not say what a
//! fresh state has where the bytes mean nothing (manifest and hashes). The tests take those from
//! the library.

use crate::device::{Device, Stage, held_count};
use crate::lms::{hashes, number};
use crate::manifest::{Manifest, Outcome, STATE};

pub const STAGE_AT: usize = 60;
pub const NEXT_AT: usize = 62;
pub const MANIFEST_AT: usize = 64;
pub const HASHES_AT: usize = 112;
/// "At most 11 labels are then held."
pub const MOST_HASHES: usize = 11;
pub const STATE_LENGTH: usize = HASHES_AT + 32 * MOST_HASHES;

pub fn fresh(model: u32, key: &[u8]) -> Vec<u8> {
    let mut state = model.to_be_bytes().to_vec();
    state.extend(key);
    state.extend([0; 4]);
    state
}

pub fn read(state: &[u8]) -> Outcome<Device> {
    if state.len() != STATE_LENGTH {
        return Err(STATE);
    }
    let manifest = Manifest::read(&state[MANIFEST_AT..HASHES_AT]);
    let stage = match number(&state[STAGE_AT..NEXT_AT]) {
        0 => Stage::Idle,
        1 => {
            let next = number(&state[NEXT_AT..MANIFEST_AT]) as usize;
            let held = &state[STATE_LENGTH - 32 * held_count(&manifest, next)..];
            Stage::Loading {
                manifest,
                next,
                held: hashes(held),
            }
        }
        2 => Stage::Complete { manifest },
        _ => return Err(STATE),
    };
    Ok(Device {
        model: number(&state[..4]),
        key: state[4..STAGE_AT].to_vec(),
        stage,
    })
}

/// Writes a stage over the bytes of the one before it. What stands before the held hashes stays:
/// "later messages leave in it what they find", a hash that was held until now included.
fn write(state: &mut [u8], stage: &Stage) {
    let (code, next, manifest, held) = match stage {
        Stage::Idle => unreachable!("no message makes a device idle"),
        Stage::Loading {
            manifest,
            next,
            held,
        } => (1, *next as u16, manifest, held.concat()),
        Stage::Complete { manifest } => (2, 0, manifest, Vec::new()),
    };
    state[STAGE_AT..NEXT_AT].copy_from_slice(&u16::to_be_bytes(code));
    state[NEXT_AT..MANIFEST_AT].copy_from_slice(&next.to_be_bytes());
    state[MANIFEST_AT..HASHES_AT].copy_from_slice(&manifest.bytes());
    state[STATE_LENGTH - held.len()..].copy_from_slice(&held);
}

/// The boot check: 0, or the refusal.
pub fn boot_check(state: &[u8], flash: &[u8]) -> u32 {
    let verdict = read(state).and_then(|device| device.boot_check(flash));
    verdict.err().unwrap_or(0)
}

/// One message to the device: the compressions that it reports, with state and flash those after
/// it, or the refusal, with both as before.
pub fn receive(state: &mut [u8], flash: &mut [u8], message: &[u8], budget: u32) -> Outcome<u32> {
    let effect = read(state)?.receive(flash, message, budget)?;
    // "a new program zeroes it"
    if message[0] == 1 {
        state[HASHES_AT..].fill(0);
    }
    write(state, &effect.stage);
    if let Some((start, block)) = effect.write {
        flash[start..start + block.len()].copy_from_slice(&block);
    }
    Ok(effect.compressions)
}

//! Document 01, "Bundle and loader": the text that the loader prints for two files. A missing file
//! is an empty one.

use crate::device::Stage;
use crate::layout::{STATE_LENGTH, fresh, read, receive};
use crate::lms::{KEY_LENGTH, number};

pub const LARGEST_BUNDLE: usize = 65_536;
pub const FLASH_LENGTH: usize = 65_536;

struct Run {
    state: Vec<u8>,
    flash: Vec<u8>,
    text: String,
}

impl Run {
    fn hand_over(&mut self, word: &str, due: usize, message: &[u8]) -> bool {
        // "The loader's budgets always suffice."
        let outcome = receive(&mut self.state, &mut self.flash, message, u32::MAX);
        let answer = outcome.err().unwrap_or(0);
        self.text += &format!("{word} {due} {answer}\n");
        answer == 0
    }

    /// The next block's number, and its message's due length.
    fn due(&self) -> Option<(usize, usize)> {
        let device = read(&self.state).expect("the device's own state");
        match device.stage {
            Stage::Loading { next, .. } => device.due_length().ok().map(|length| (next, length)),
            _ => None,
        }
    }

    /// Hands over the blocks; the number of accepted ones.
    fn blocks(&mut self, mut bytes: &[u8]) -> usize {
        let mut accepted = 0;
        while let Some((number, length)) = self.due() {
            let (message, rest) = bytes.split_at(length.min(bytes.len()));
            if !self.hand_over("block", number, message) {
                break;
            }
            accepted += 1;
            bytes = rest;
        }
        accepted
    }

    fn stage_name(&self) -> &'static str {
        match read(&self.state).expect("the device's own state").stage {
            Stage::Idle => "idle",
            Stage::Loading { .. } => "loading",
            Stage::Complete { .. } => "complete",
        }
    }
}

/// The bytes before the kind 1 message, and that message; none for a file without trailer or a
/// distance beyond its start.
fn parts(bundle: &[u8]) -> Option<(&[u8], &[u8])> {
    let end = bundle.len().checked_sub(4)?;
    let start = end.checked_sub(number(&bundle[end..]) as usize)?;
    Some((&bundle[..start], &bundle[start..end]))
}

pub fn output(key_file: &[u8], bundle: &[u8]) -> String {
    if key_file.len() != KEY_LENGTH + 4 {
        return "key\n".into();
    }
    if bundle.len() > LARGEST_BUNDLE {
        return "bundle over\n".into();
    }
    let (key, model) = key_file.split_at(KEY_LENGTH);
    let mut state = fresh(number(model), key);
    state.resize(STATE_LENGTH, 0);
    let mut run = Run {
        state,
        flash: vec![0; FLASH_LENGTH],
        text: format!("bundle {}\n", bundle.len()),
    };
    let mut accepted = 0;
    match parts(bundle) {
        None => run.text += "slip 0 3\n",
        Some((blocks, program)) => {
            if run.hand_over("slip", 0, program) {
                accepted = run.blocks(blocks);
            }
        }
    }
    format!("{}state {} {accepted}\n", run.text, run.stage_name())
}

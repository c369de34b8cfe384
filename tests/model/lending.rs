//! What a device is lent for one message, or for the boot check: a refused message writes nothing,
//! and a new program no flash; a path update reads the numbered block and no other; what stands
//! behind the program is neither read nor written.

use std::fmt;
use std::ops::Range;

use crate::coverage::Coverage;
use crate::device::Device;
use crate::ends::subject;
use crate::lent::{Access, Lent};
use crate::regions::{regions, row};

/// A message and its budget, the answer that the model gives, and the part of the flash that may be
/// touched.
pub struct Lending<'a> {
    pub message: &'a [u8],
    pub budget: u32,
    pub answer: u32,
    pub reach: Range<usize>,
}

impl fmt::Display for Lending<'_> {
    fn fmt(&self, f: &mut fmt::Formatter) -> fmt::Result {
        let (bytes, budget, answer) = (self.message.len(), self.budget, self.answer);
        write!(f, "a message of {bytes} bytes")?;
        if let Some(kind) = self.message.first() {
            write!(f, " and kind {kind}")?;
        }
        write!(f, ", budget {budget}, due answer {answer}")
    }
}

/// The part that a message reaches of a flash of so many bytes. One that has to do with no program
/// may read all of it.
pub fn reach(device: &Device, message: &[u8], length: usize) -> Range<usize> {
    let Some((manifest, i)) = subject(device, message) else {
        return 0..length;
    };
    let reach = match message[0] {
        4 if i < 1 || i > manifest.blocks() => 0..0,
        4 => manifest.place(i),
        _ => 0..manifest.image_length as usize,
    };
    reach.start.min(length)..reach.end.min(length)
}

/// The part that the boot check reaches.
pub fn boot_reach(device: &Device, length: usize) -> Range<usize> {
    let program = device.manifest().filter(|m| m.check_size().is_ok());
    0..program.map_or(length, |m| length.min(m.image_length as usize))
}

impl Lending<'_> {
    pub fn state_access(&self) -> Access {
        match self.answer {
            0 => Access::Write,
            _ => Access::Read,
        }
    }

    pub fn flash_access(&self) -> Access {
        match self.message.first() {
            Some(1) => Access::Read,
            _ => self.state_access(),
        }
    }

    /// Where a page must begin so that all behind the part can be closed, or all before it. A block
    /// is too short for both: the message's last byte decides, in place of chance.
    pub fn page_at(&self) -> usize {
        let Range { start, end } = self.reach;
        let odd = self.message.last().is_some_and(|byte| byte % 2 == 1);
        if odd && start > 0 { start } else { end }
    }

    /// Counts the regions of the flash that were closed, to their last byte.
    pub fn count(&self, device: &Device, flash: &Lent, coverage: &mut Coverage) {
        let parts = regions(device, self.message, flash.bytes().len());
        let Some((parts, row)) = parts.zip(row(device, self.message)) else {
            return;
        };
        for (region, part) in parts.iter().enumerate() {
            if !part.is_empty() && flash.apart(part, &self.reach) {
                coverage.closed(row, region, self.answer == 0);
            }
        }
    }
}

//! Where others have touched the flash, seen from a message that comes then; and what became of it,
//! for the coverage.

use std::ops::Range;

use crate::coverage::Coverage;
use crate::device::Device;
use crate::ends::subject;

pub const REGIONS: [&str; 4] = ["before", "in", "behind", "beyond"];

/// The parts of a flash of so many bytes: before the block that the message names, that block, what
/// stands behind it in the image, and what stands beyond the image. A message that names no block
/// has all of the image for one. None for a message that has to do with no image.
pub fn regions(device: &Device, message: &[u8], length: usize) -> Option<[Range<usize>; 4]> {
    let (manifest, i) = subject(device, message)?;
    let end = manifest.image_length as usize;
    let block = if i >= 1 && i <= manifest.blocks() {
        manifest.place(i)
    } else {
        0..end
    };
    let bounds = [0, block.start, block.end, end, length].map(|bound| bound.min(length));
    Some([0, 1, 2, 3].map(|part| bounds[part]..bounds[part + 1]))
}

/// What a message meets that comes to a touched flash.
pub struct Meeting {
    row: usize,
    /// The one region that is touched, if it is one.
    region: Option<usize>,
    /// Whether the part that the current manifest speaks of is touched.
    within: bool,
    /// The answer that the message would get over the untouched flash.
    without: u32,
}

impl Meeting {
    /// None for a flash that is as the device left it.
    pub fn new(
        device: &Device,
        flash: &[u8],
        untouched: &[u8],
        message: &[u8],
        budget: u32,
    ) -> Option<Meeting> {
        let untouched = &untouched[..flash.len()];
        if flash == untouched {
            return None;
        }
        let parts = regions(device, message, flash.len())?;
        let mut touched = (0..4).filter(|part| {
            let part = parts[*part].clone();
            flash[part.clone()] != untouched[part]
        });
        let (first, second) = (touched.next(), touched.next());
        let length = device.manifest().map_or(0, |m| m.image_length as usize);
        let length = length.min(flash.len());
        let without = device.receive(untouched, message, budget);
        Some(Meeting {
            row: row(device, message)?,
            region: if second.is_none() { first } else { None },
            within: flash[..length] != untouched[..length],
            without: without.err().unwrap_or(0),
        })
    }

    pub fn count(&self, answer: u32, coverage: &mut Coverage) {
        if let (Some(region), 0) = (self.region, self.without) {
            coverage.touched(self.row, region, answer == 0);
        }
        if self.within {
            coverage.instead(self.row, self.without, answer != self.without);
        }
    }
}

/// By kind, and the last block behind the others: a row of the coverage's tables.
pub fn row(device: &Device, message: &[u8]) -> Option<usize> {
    let (manifest, i) = subject(device, message)?;
    Some(match message[0] {
        1 => 0,
        2 if i == manifest.blocks() => 2,
        2 => 1,
        kind => kind as usize,
    })
}

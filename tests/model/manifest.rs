//! Document 01, the slip of 48 bytes (here: the manifest), and the refusals that follow from it
//! alone: 4, and 5 with change 6's limit.

use std::ops::Range;

use crate::lms::number;
use crate::sha256::Hash;

pub const BLOCK_LENGTHS: [u32; 5] = [64, 128, 256, 512, 1024];
/// "in slips and in states handed in", and in the sender's images
pub const MOST_BLOCKS: usize = 1536;

/// The numbers of document 01's table, and of the changes.
pub const STATE: u32 = 1;
pub const KIND: u32 = 2;
pub const SHORT: u32 = 3;
pub const VERSION: u32 = 4;
pub const SIZE: u32 = 5;
pub const MODEL: u32 = 6;
pub const SERIAL: u32 = 7;
pub const AREA: u32 = 8;
pub const UNSIGNED: u32 = 9;
pub const STAGE: u32 = 10;
pub const TURN: u32 = 11;
pub const LENGTH: u32 = 12;
pub const UNLIKE: u32 = 13;
pub const MISMATCH: u32 = 14;
pub const PATH: u32 = 15;
pub const TEXT: u32 = 16;
pub const PLACE: u32 = 17;
pub const TWICE: u32 = 18;
pub const ALTERED: u32 = 19;
pub const SPENT: u32 = 20;

/// The first refusal that applies.
pub type Outcome<T> = Result<T, u32>;

pub fn refuse_if(condition: bool, refusal: u32) -> Outcome<()> {
    if condition { Err(refusal) } else { Ok(()) }
}

#[derive(Clone, Debug)]
pub struct Manifest {
    pub version: u16,
    pub block_length: u16,
    pub model: u32,
    pub serial: u32,
    /// T, the image's bytes.
    pub image_length: u32,
    pub root: Hash,
}

impl Manifest {
    pub fn read(bytes: &[u8]) -> Manifest {
        Manifest {
            version: number(&bytes[..2]) as u16,
            block_length: number(&bytes[2..4]) as u16,
            model: number(&bytes[4..8]),
            serial: number(&bytes[8..12]),
            image_length: number(&bytes[12..16]),
            root: bytes[16..48].try_into().unwrap(),
        }
    }

    pub fn bytes(&self) -> Vec<u8> {
        let mut out = self.version.to_be_bytes().to_vec();
        out.extend(self.block_length.to_be_bytes());
        out.extend(self.model.to_be_bytes());
        out.extend(self.serial.to_be_bytes());
        out.extend(self.image_length.to_be_bytes());
        out.extend(self.root);
        out
    }

    /// The image's blocks, n.
    pub fn blocks(&self) -> usize {
        (self.image_length as usize).div_ceil(self.block_length as usize)
    }

    /// Where block i stands in the image, and in the flash. "The last block ends with the image",
    /// after T - (n - 1) × L bytes; all others have L.
    pub fn place(&self, i: usize) -> Range<usize> {
        let length = self.block_length as usize;
        let end = if i == self.blocks() {
            self.image_length as usize
        } else {
            i * length
        };
        (i - 1) * length..end
    }

    pub fn check_version(&self) -> Outcome<()> {
        refuse_if(self.version != 1, VERSION)
    }

    pub fn check_size(&self) -> Outcome<()> {
        check_size(self.image_length as usize, self.block_length as u32)
    }
}

pub fn check_size(image_length: usize, block_length: u32) -> Outcome<()> {
    let allowed = BLOCK_LENGTHS.contains(&block_length) && image_length > 0;
    refuse_if(
        !allowed || image_length.div_ceil(block_length as usize) > MOST_BLOCKS,
        SIZE,
    )
}

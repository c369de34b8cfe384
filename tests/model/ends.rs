//! The image's end: which of its cases a message to a device was, for the coverage.

use crate::coverage::{Coverage, FLASH, FLASH_BYTE_SHORT, LAST};
use crate::device::{Device, Stage};
use crate::lms::{Parameters, number, verify};
use crate::manifest::{AREA, Manifest};
use crate::sha256::sha256;
use crate::tree::{path, root};

/// The flash against T, for any message; and, where the last block is shorter than L, what a message
/// of it carries: its own bytes, L of them, or another number; and how it is cut. The hash that the
/// device compares is over the own bytes, or over the block padded to L bytes, which nothing makes
/// right.
#[derive(Clone, Copy)]
pub enum End {
    FlashByteShort,
    FlashExact,
    FlashInsideBlock,
    Own,
    OwnPaddedHash,
    Whole,
    WholePaddedHash,
    ByteLess,
    ByteMore,
    NoSignature,
    SignedByteLess,
}

/// By case: its name, and each kind that it must occur with, with the answer that is then due.
pub const ENDS: [(&str, &[(usize, u32)]); 11] = [
    ("flash T - 1", &[(1, 8), (2, 8), (3, 8), (4, 8)]),
    ("flash T", &[(1, 0), (2, 0), (3, 0), (4, 0)]),
    ("flash up to n x L", &[(1, 0), (2, 0), (3, 0), (4, 0)]),
    ("own bytes", &[(2, 0), (3, 0), (4, 0)]),
    ("own, hash padded", &[(2, 14), (3, 14), (4, 14)]),
    ("L bytes", &[(2, 12), (3, 9), (4, 9)]),
    ("L, hash padded", &[(2, 12), (3, 9), (4, 9)]),
    ("a byte less", &[(2, 12), (3, 12), (4, 12)]),
    ("a byte more", &[(2, 12)]),
    ("no signature", &[(3, 9), (4, 9)]),
    ("signed, less 1", &[(3, 9), (4, 9)]),
];

/// One message to a device that makes sense, and the answer.
pub struct Call<'a> {
    pub device: &'a Device,
    pub flash: &'a [u8],
    pub message: &'a [u8],
    pub answer: u32,
}

/// The manifest whose T counts, and the block's number, 0 for kind 1.
pub fn subject(device: &Device, message: &[u8]) -> Option<(Manifest, usize)> {
    let (manifest, i) = match message.first() {
        Some(1) => (Manifest::read(message.get(1..49)?), 0),
        Some(2) => (device.manifest()?.clone(), number(message.get(1..3)?)),
        Some(3 | 4) => (
            Manifest::read(message.get(1..49)?),
            number(message.get(49..51)?),
        ),
        _ => return None,
    };
    manifest.check_size().ok()?;
    Some((manifest, i as usize))
}

impl Call<'_> {
    pub fn count(&self, coverage: &mut Coverage) {
        let Some((manifest, i)) = subject(self.device, self.message) else {
            return;
        };
        let kind = self.message[0] as usize;
        let mut cases = self.flash_cases(&manifest);
        let last = i == manifest.blocks();
        if last && manifest.place(i).len() < manifest.block_length as usize {
            cases.extend(self.block_cases(&manifest));
        }
        for case in cases {
            coverage.end(case, kind, self.answer);
        }
        for row in self.shape_rows(&manifest, last) {
            let length = manifest.image_length as usize;
            coverage.shape(row, length, manifest.block_length as usize);
        }
    }

    fn flash_cases(&self, manifest: &Manifest) -> Vec<End> {
        let (flash, length) = (self.flash.len(), manifest.image_length as usize);
        let whole = manifest.blocks() * manifest.block_length as usize;
        chosen(&[
            (End::FlashByteShort, flash + 1 == length),
            (End::FlashExact, flash == length && length < whole),
            (End::FlashInsideBlock, length < flash && flash < whole),
        ])
    }

    fn shape_rows(&self, manifest: &Manifest, last: bool) -> Vec<usize> {
        let (flash, length) = (self.flash.len(), manifest.image_length as usize);
        let taken = last && self.answer == 0;
        chosen(&[
            (LAST + (self.message[0] as usize).saturating_sub(2), taken),
            (FLASH, taken && flash == length),
            (FLASH_BYTE_SHORT, self.answer == AREA && flash + 1 == length),
        ])
    }

    /// For a message of the last block, which is shorter than L.
    fn block_cases(&self, manifest: &Manifest) -> Vec<End> {
        let (n, kind, bytes) = (manifest.blocks(), self.message[0], self.message.len());
        let own = manifest.place(n).len();
        let head = if kind == 2 { 3 } else { 51 };
        let depth = if kind == 4 { path(n, n).len() } else { 0 };
        let unsigned = head + own + 32 * depth;
        let signed = unsigned + self.signature_length();
        let mut cases = chosen(&[
            (End::ByteLess, bytes + 1 == unsigned),
            (End::ByteMore, bytes == unsigned + 1),
            (End::NoSignature, bytes == unsigned),
            (End::SignedByteLess, bytes + 1 == signed),
        ]);
        let block = &self.message[head..bytes.min(head + own)];
        let mut padded = block.to_vec();
        padded.resize(manifest.block_length as usize, 0xff);
        if bytes == signed {
            cases.extend(chosen(&[
                (End::Own, self.hash_is_over(manifest, block)),
                (End::OwnPaddedHash, self.hash_is_over(manifest, &padded)),
            ]));
        }
        if bytes == signed + padded.len() - own {
            cases.extend(chosen(&[
                (End::Whole, self.hash_is_over(manifest, block)),
                (End::WholePaddedHash, self.hash_is_over(manifest, &padded)),
            ]));
        }
        cases
    }

    /// 0 for kind 2.
    fn signature_length(&self) -> usize {
        let key = &self.device.key;
        match Parameters::of(number(&key[..4]), number(&key[4..8])) {
            Some(parameters) if self.message[0] != 2 => parameters.signature_length(),
            _ => 0,
        }
    }

    /// Whether the hash that the device holds for a block, or that is signed in an update, is over
    /// this last block.
    fn hash_is_over(&self, manifest: &Manifest, block: &[u8]) -> bool {
        let (device, message) = (self.device, self.message);
        match (&device.stage, message[0]) {
            (Stage::Loading { held, .. }, 2) => held[0] == sha256(block),
            (Stage::Complete { .. }, 3 | 4) => {
                let start = manifest.place(manifest.blocks()).start;
                let Some(before) = self.flash.get(..start) else {
                    return false;
                };
                let image = [before, block].concat();
                let signature = &message[message.len() - self.signature_length()..];
                manifest.root == root(&image, manifest.block_length as usize)
                    && verify(&device.key, &message[1..49], signature)
            }
            _ => false,
        }
    }
}

/// Those that hold.
fn chosen<T: Copy>(cases: &[(T, bool)]) -> Vec<T> {
    let holding = cases.iter().filter(|(_, holds)| *holds);
    holding.map(|(case, _)| *case).collect()
}

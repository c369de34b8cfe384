//! Document 01 and changes 1, 2 and 6, the sender: the bare manifest and the messages of each kind.
//! It refuses 5, 11, 8 in this order.

use crate::manifest::{AREA, Manifest, Outcome, TURN, check_size, refuse_if};
use crate::sha256::Hash;
use crate::tree::{block, path, root, siblings};

/// What the sender is given for every message.
#[derive(Clone, Copy)]
pub struct Order<'a> {
    pub image: &'a [u8],
    pub block_length: u32,
    pub model: u32,
    pub serial: u32,
}

impl Order<'_> {
    fn check_number(&self, number: u32) -> Outcome<()> {
        let n = self.image.len().div_ceil(self.block_length as usize);
        refuse_if(number < 1 || number as usize > n, TURN)
    }

    pub fn manifest(&self) -> Outcome<Vec<u8>> {
        check_size(self.image.len(), self.block_length)?;
        let manifest = Manifest {
            version: 1,
            block_length: self.block_length as u16,
            model: self.model,
            serial: self.serial,
            image_length: self.image.len() as u32,
            root: root(self.image, self.block_length as usize),
        };
        Ok(manifest.bytes())
    }

    pub fn program(&self, signature: &[u8]) -> Outcome<Vec<u8>> {
        Ok(program_message(&self.manifest()?, signature))
    }

    pub fn block(&self, number: u32) -> Outcome<Vec<u8>> {
        check_size(self.image.len(), self.block_length)?;
        self.check_number(number)?;
        let length = self.block_length as usize;
        Ok(block_message(self.image, length, number as usize))
    }

    /// Kind 3 or 4.
    pub fn update(&self, kind: u8, number: u32, signature: &[u8]) -> Outcome<Vec<u8>> {
        let manifest = self.manifest()?;
        self.check_number(number)?;
        let length = self.block_length as usize;
        let change = Change::new(kind, self.image, length, number as usize);
        Ok(update_message(&manifest, &change, signature))
    }
}

/// What kinds 3 and 4 carry between manifest and signature.
pub struct Change {
    pub kind: u8,
    pub number: u16,
    pub block: Vec<u8>,
    /// Those of the path for kind 4, none for kind 3.
    pub hashes: Vec<Hash>,
}

impl Change {
    /// Block i as it is in this image.
    pub fn new(kind: u8, image: &[u8], block_length: usize, i: usize) -> Change {
        let mut path = path(image.len().div_ceil(block_length), i);
        if kind == 3 {
            path.clear();
        }
        Change {
            kind,
            number: i as u16,
            block: block(image, block_length, i).to_vec(),
            hashes: path.iter().map(|s| s.hash(image, block_length)).collect(),
        }
    }
}

pub fn program_message(manifest: &[u8], signature: &[u8]) -> Vec<u8> {
    [&[1], manifest, signature].concat()
}

pub fn block_message(image: &[u8], block_length: usize, i: usize) -> Vec<u8> {
    let mut out = vec![2];
    out.extend((i as u16).to_be_bytes());
    out.extend(block(image, block_length, i));
    for sibling in siblings(image.len().div_ceil(block_length), i) {
        out.extend(sibling.hash(image, block_length));
    }
    out
}

pub fn update_message(manifest: &[u8], change: &Change, signature: &[u8]) -> Vec<u8> {
    let mut out = vec![change.kind];
    out.extend(manifest);
    out.extend(change.number.to_be_bytes());
    out.extend(&change.block);
    out.extend(change.hashes.concat());
    out.extend(signature);
    out
}

/// Writes to the start of the buffer, or refuses 8 and leaves it.
pub fn deliver(message: Outcome<Vec<u8>>, out: &mut [u8], written: &mut usize) -> u32 {
    let fitting = message.and_then(|m| {
        refuse_if(m.len() > out.len(), AREA)?;
        Ok(m)
    });
    match fitting {
        Ok(message) => {
            out[..message.len()].copy_from_slice(&message);
            *written = message.len();
            0
        }
        Err(refusal) => refusal,
    }
}

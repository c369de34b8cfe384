//! Document 01 and changes 1, 2, 5, 6 and 7, the drive (here: the device): its state, its refusals
//! in the order of each kind, and what its blocks cost.

use crate::lms::{hashes, number, verify};
use crate::manifest::*;
use crate::sha256::{Hash, counted, sha256};
use crate::tree::{cover, parent, path, root, root_by_path, siblings};

#[derive(Clone)]
pub enum Stage {
    Idle,
    Loading {
        manifest: Manifest,
        next: usize,
        /// In block order.
        held: Vec<Hash>,
    },
    Complete {
        manifest: Manifest,
    },
}

pub struct Device {
    pub model: u32,
    pub key: Vec<u8>,
    pub stage: Stage,
}

/// What an accepted message does: the stage after it, the block it writes, and the compressions it
/// reports: "an accepted one", of kind 2, "reports its total".
pub struct Effect {
    pub stage: Stage,
    pub write: Option<(usize, Vec<u8>)>,
    pub compressions: u32,
}

impl Device {
    pub fn manifest(&self) -> Option<&Manifest> {
        match &self.stage {
            Stage::Idle => None,
            Stage::Loading { manifest, .. } | Stage::Complete { manifest } => Some(manifest),
        }
    }

    /// "The serial is kept once, in the slip, and counts as 0 when idle."
    pub fn serial(&self) -> u32 {
        self.manifest().map_or(0, |manifest| manifest.serial)
    }

    /// Refusal 1. The bytes of the state are read in layout.rs, which leaves any manifest and any
    /// next number to this.
    fn check_state(&self) -> Outcome<()> {
        if let Some(manifest) = self.manifest() {
            let sound = manifest.check_version().and(manifest.check_size());
            refuse_if(sound.is_err(), STATE)?;
        }
        match &self.stage {
            Stage::Loading { manifest, next, .. } => {
                refuse_if(*next < 1 || *next > manifest.blocks(), STATE)
            }
            _ => Ok(()),
        }
    }

    /// Stage, next number, n, model, serial, T and L; those of the manifest are 0 when idle.
    pub fn status(&self) -> Outcome<[u32; 7]> {
        self.check_state()?;
        let (stage, next) = match &self.stage {
            Stage::Idle => (0, 0),
            Stage::Loading { next, .. } => (1, *next as u32),
            Stage::Complete { .. } => (2, 0),
        };
        let [n, length, block_length] = self.manifest().map_or([0; 3], |manifest| {
            [
                manifest.blocks() as u32,
                manifest.image_length,
                manifest.block_length as u32,
            ]
        });
        let serial = self.serial();
        Ok([stage, next, n, self.model, serial, length, block_length])
    }

    /// The length of the block message with the next number.
    pub fn due_length(&self) -> Outcome<usize> {
        self.check_state()?;
        match &self.stage {
            Stage::Loading { manifest, next, .. } => Ok(due_length(manifest, *next)),
            _ => Err(STAGE),
        }
    }

    /// Whether a block is due, and it is the last. The state makes sense.
    pub fn is_last_due(&self) -> bool {
        matches!(&self.stage, Stage::Loading { manifest, next, .. } if *next == manifest.blocks())
    }

    /// The total of the block message with the next number.
    pub fn block_cost(&self) -> Outcome<u32> {
        self.check_state()?;
        let Stage::Loading { manifest, next, .. } = &self.stage else {
            return Err(STAGE);
        };
        let labels = siblings(manifest.blocks(), *next).len();
        let comparison = comparison_cost(manifest.place(*next).len(), labels);
        if *next < manifest.blocks() {
            return Ok(comparison);
        }
        let (_, whole) = counted(|| tree(manifest, &vec![0; manifest.image_length as usize]));
        Ok(comparison + whole)
    }

    /// The boot check: complete, and the flash has the manifest's root. 1, 10, 8, 19.
    pub fn boot_check(&self, flash: &[u8]) -> Outcome<()> {
        self.check_state()?;
        let Stage::Complete { manifest } = &self.stage else {
            return Err(STAGE);
        };
        check_flash(manifest, flash)?;
        check_tree(manifest, flash)
    }

    pub fn receive(&self, flash: &[u8], message: &[u8], budget: u32) -> Outcome<Effect> {
        self.check_state()?;
        let least = match message.first() {
            Some(1) => 49,
            Some(2) => 3,
            Some(3 | 4) => 51,
            _ => return Err(KIND),
        };
        refuse_if(message.len() < least, SHORT)?;
        match message[0] {
            1 => self.program(flash, message),
            2 => self.block(flash, message, budget),
            _ => self.update(flash, message),
        }
    }

    /// Refusals 4, 5, 6, 7, which kinds 1, 3 and 4 share.
    fn check_manifest(&self, manifest: &Manifest) -> Outcome<()> {
        manifest.check_version()?;
        manifest.check_size()?;
        refuse_if(manifest.model != self.model, MODEL)?;
        refuse_if(manifest.serial <= self.serial(), SERIAL)
    }

    /// Kind 1: 4, 5, 6, 7, 8, 9.
    fn program(&self, flash: &[u8], message: &[u8]) -> Outcome<Effect> {
        let manifest = Manifest::read(&message[1..49]);
        self.check_manifest(&manifest)?;
        check_flash(&manifest, flash)?;
        let signed = verify(&self.key, &message[1..49], &message[49..]);
        refuse_if(!signed, UNSIGNED)?;
        let held = vec![manifest.root];
        Ok(Effect {
            stage: Stage::Loading {
                manifest,
                next: 1,
                held,
            },
            write: None,
            compressions: 0,
        })
    }

    /// Kind 2: 10, 8, 11, 12, 20, 14, and for the last block 19. "its comparison's, and for the last
    /// block Change 5's whole tree besides": both are worked out before 20 is decided.
    fn block(&self, flash: &[u8], message: &[u8], budget: u32) -> Outcome<Effect> {
        let Stage::Loading {
            manifest,
            next,
            held,
        } = &self.stage
        else {
            return Err(STAGE);
        };
        let (n, i) = (manifest.blocks(), number(&message[1..3]) as usize);
        check_flash(manifest, flash)?;
        refuse_if(i != *next, TURN)?;
        refuse_if(message.len() != due_length(manifest, i), LENGTH)?;
        let place = manifest.place(i);
        let (block, labels) = message[3..].split_at(place.len());
        let labels = hashes(labels);
        let (computed, comparison) = counted(|| compared(block, &labels));
        let (untouched, whole) = counted(|| match i == n {
            true => check_tree(manifest, &with_block(manifest, flash, i, block)),
            false => Ok(()),
        });
        let compressions = comparison + whole;
        refuse_if(compressions > budget, SPENT)?;
        // The cover of blocks i to n begins with the largest subtree whose first block is i.
        refuse_if(computed != held[0], MISMATCH)?;
        untouched?;
        let manifest = manifest.clone();
        let stage = if i == n {
            Stage::Complete { manifest }
        } else {
            Stage::Loading {
                manifest,
                next: i + 1,
                held: [&labels, &held[1..]].concat(),
            }
        };
        Ok(Effect {
            stage,
            write: Some((place.start, block.to_vec())),
            compressions,
        })
    }

    /// Kind 3: 10, 4, 5, 6, 7, 13, 8, 19, 11, 12, 9, 14. Kind 4: the same without 19, and 15 before
    /// 14.
    fn update(&self, flash: &[u8], message: &[u8]) -> Outcome<Effect> {
        let Stage::Complete { manifest: old } = &self.stage else {
            return Err(STAGE);
        };
        let manifest = Manifest::read(&message[1..49]);
        self.check_manifest(&manifest)?;
        let alike =
            manifest.block_length == old.block_length && manifest.image_length == old.image_length;
        refuse_if(!alike, UNLIKE)?;
        check_flash(&manifest, flash)?;
        let by_path = message[0] == 4;
        if !by_path {
            check_tree(old, flash)?;
        }
        let (n, i) = (manifest.blocks(), number(&message[49..51]) as usize);
        refuse_if(i < 1 || i > n, TURN)?;
        let place = manifest.place(i);
        let depth = if by_path { path(n, i).len() } else { 0 };
        refuse_if(message.len() < 51 + place.len() + 32 * depth, LENGTH)?;
        let (block, rest) = message[51..].split_at(place.len());
        let (labels, signature) = rest.split_at(32 * depth);
        let signed = verify(&self.key, &message[1..49], signature);
        refuse_if(!signed, UNSIGNED)?;
        let start = place.start;
        let new_root = if by_path {
            let (labels, old_block) = (hashes(labels), &flash[place]);
            refuse_if(root_by_path(n, i, old_block, &labels) != old.root, PATH)?;
            root_by_path(n, i, block, &labels)
        } else {
            tree(&manifest, &with_block(&manifest, flash, i, block))
        };
        refuse_if(new_root != manifest.root, MISMATCH)?;
        Ok(Effect {
            stage: Stage::Complete { manifest },
            write: Some((start, block.to_vec())),
            compressions: 0,
        })
    }
}

/// "the area must have T bytes"
fn check_flash(manifest: &Manifest, flash: &[u8]) -> Outcome<()> {
    refuse_if(flash.len() < manifest.image_length as usize, AREA)
}

/// "The label compared for kind 2": worked out from the block and the message's labels.
fn compared(block: &[u8], labels: &[Hash]) -> Hash {
    labels
        .iter()
        .fold(sha256(block), |hash, label| parent(&hash, label))
}

/// What the comparison takes of a block of so many bytes whose message carries so many labels: all
/// that a block message costs before the last. The digests are made, of blank bytes.
pub fn comparison_cost(block_length: usize, labels: usize) -> u32 {
    let (block, labels) = (vec![0; block_length], vec![[0; 32]; labels]);
    counted(|| compared(&block, &labels)).1
}

/// The root of the tree over the image's part of the flash.
fn tree(manifest: &Manifest, flash: &[u8]) -> Hash {
    let image = &flash[..manifest.image_length as usize];
    root(image, manifest.block_length as usize)
}

/// Refusal 19: "if that tree lacks the held slip's root"
fn check_tree(current: &Manifest, flash: &[u8]) -> Outcome<()> {
    refuse_if(tree(current, flash) != current.root, ALTERED)
}

/// The flash "with that block in place"
fn with_block(manifest: &Manifest, flash: &[u8], i: usize, block: &[u8]) -> Vec<u8> {
    let mut flash = flash.to_vec();
    flash[manifest.place(i)].copy_from_slice(block);
    flash
}

/// "3 + L + 32 × c(i) bytes", and for the last block its own bytes in the place of L.
fn due_length(manifest: &Manifest, i: usize) -> usize {
    3 + manifest.place(i).len() + 32 * siblings(manifest.blocks(), i).len()
}

/// How many hashes are held: it follows from manifest and next number, which must be sound.
pub fn held_count(manifest: &Manifest, next: usize) -> usize {
    let sound = manifest.check_size().is_ok() && next >= 1 && next <= manifest.blocks();
    if sound {
        cover(manifest.blocks(), next).len()
    } else {
        0
    }
}

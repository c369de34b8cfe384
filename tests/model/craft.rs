//! The messages of a random list: honest ones, which fit the device's present stage, and ones that
//! are wrong in chosen ways but else well made.

use std::collections::HashMap;

use crate::damage::damage_byte;
use crate::device::{Device, Stage};
use crate::lengths::{blocks, image_length};
use crate::manifest::{BLOCK_LENGTHS, MOST_BLOCKS, Manifest};
use crate::plan::Plan;
use crate::rng::Rng;
use crate::sender::{Change, block_message, program_message, update_message};
use crate::sha256::Hash;
use crate::signer::Signer;
use crate::tree::{block, root};

#[derive(Clone)]
pub struct Image {
    pub block_length: usize,
    pub bytes: Vec<u8>,
}

impl Image {
    pub fn random(rng: &mut Rng, block_length: usize, length: usize) -> Image {
        let bytes = if rng.one_in(10) {
            // Equal blocks give equal hashes all over the tree.
            vec![rng.next() as u8; length]
        } else {
            rng.bytes(length)
        };
        Image {
            block_length,
            bytes,
        }
    }

    pub fn blocks(&self) -> usize {
        self.bytes.len().div_ceil(self.block_length)
    }

    pub fn block_message(&self, i: usize) -> Vec<u8> {
        block_message(&self.bytes, self.block_length, i)
    }

    pub fn block_messages(&self) -> Vec<Vec<u8>> {
        (1..=self.blocks()).map(|i| self.block_message(i)).collect()
    }

    /// The manifest; its root is that of the image as it was hashed.
    pub fn manifest(&self, model: u32, serial: u32, hashed: &Image) -> Manifest {
        Manifest {
            version: 1,
            block_length: self.block_length as u16,
            model,
            serial,
            image_length: self.bytes.len() as u32,
            root: root(&hashed.bytes, hashed.block_length),
        }
    }

    fn change_block(&mut self, rng: &mut Rng, i: usize) {
        let start = (i - 1) * self.block_length;
        let length = block(&self.bytes, self.block_length, i).len();
        self.bytes.splice(start..start + length, rng.bytes(length));
    }

    /// How many bytes the last block has less than L.
    pub fn lacking(&self) -> usize {
        self.blocks() * self.block_length - self.bytes.len()
    }

    /// The image with its last block padded to L bytes. Nobody may hash or send it so.
    pub fn padded(&self) -> Image {
        let mut image = self.clone();
        image.bytes.extend(vec![0xff; self.lacking()]);
        image
    }
}

/// Makes the messages for one device.
pub struct Author<'a> {
    pub rng: Rng,
    pub plan: Plan,
    pub model: u32,
    pub signer: &'a Signer,
    /// Another key of the same types.
    pub stranger: &'a Signer,
    /// All images so far as they were hashed, by their roots.
    pub images: HashMap<Hash, Image>,
}

impl Author<'_> {
    /// The image whose root the device has, if this author made it. It has as many blocks as the
    /// manifest says, but may have been hashed with more or fewer bytes in the last one.
    fn current(&self, device: &Device) -> Option<&Image> {
        let manifest = device.manifest()?;
        let image = self.images.get(&manifest.root)?;
        let same = image.block_length == manifest.block_length as usize
            && image.blocks() == manifest.blocks();
        same.then_some(image)
    }

    /// The message that the device should accept now.
    pub fn honest(&mut self, device: &Device) -> Vec<u8> {
        let program = self.rng.percent(self.plan.restarts);
        let update = self.rng.percent(self.plan.updates);
        match (&device.stage, self.current(device)) {
            (Stage::Loading { manifest, next, .. }, Some(image)) if !program => {
                let misfit = image.bytes.len() != manifest.image_length as usize;
                let message = image.block_message(*next);
                if misfit && *next == image.blocks() {
                    return self.misfit_block(device, message);
                }
                message
            }
            (Stage::Complete { .. }, Some(_)) if update => self.update(device, false),
            _ => self.program(device, false),
        }
    }

    /// For the last block, if the image was hashed with more or fewer bytes than the manifest says:
    /// the block as it was hashed, or as long as is due, or a new program, for the device takes
    /// neither.
    fn misfit_block(&mut self, device: &Device, mut message: Vec<u8>) -> Vec<u8> {
        match self.rng.below(3) {
            0 => return self.program(device, false),
            1 => message.resize(device.due_length().unwrap_or(0), 0xff),
            _ => {}
        }
        message
    }

    /// A message with wrong values, of the kind that the stage asks for more often than not.
    pub fn faulty(&mut self, device: &Device) -> Vec<u8> {
        // 3 stands for both kinds of updates.
        let usual = match device.stage {
            Stage::Idle => 1,
            Stage::Loading { .. } => 2,
            Stage::Complete { .. } => 3,
        };
        match self.rng.pick(&[usual, usual, 1, 2, 3]) {
            1 => self.program(device, true),
            2 => self.any_block(device),
            _ if self.rng.one_in(5) => self.padded_update(device),
            _ => self.update(device, true),
        }
    }

    /// A block of the device's image, or of any other: the next one, or any. The last one is at times
    /// padded.
    fn any_block(&mut self, device: &Device) -> Vec<u8> {
        let image = self.some_image(device);
        let n = image.blocks();
        let any = self.rng.range(1, n);
        let next = match device.stage {
            Stage::Loading { next, .. } => next.min(n),
            _ => n,
        };
        let i = self.rng.pick(&[any, any, next]);
        if i == n && self.rng.one_in(2) {
            return image.padded().block_message(n);
        }
        image.block_message(i)
    }

    /// The device's image mostly, else one of the others or a new one.
    fn some_image(&mut self, device: &Device) -> Image {
        let known = if self.rng.percent(80) {
            self.current(device)
        } else {
            let mut roots: Vec<_> = self.images.keys().copied().collect();
            roots.sort();
            (!roots.is_empty()).then(|| &self.images[&self.rng.pick(&roots)])
        };
        match known {
            Some(image) => image.clone(),
            None => self.new_image(),
        }
    }

    /// An image that fits the flash, if any does; now and then a longer one.
    fn new_image(&mut self) -> Image {
        let (rng, plan) = (&mut self.rng, &self.plan);
        let block_length = rng.pick(&plan.block_lengths) as usize;
        let fitting = plan.flash_length.clamp(1, plan.most_blocks * block_length);
        let length = if rng.percent(plan.exact) {
            fitting
        } else if rng.one_in(6) {
            let n = rng.range(1, 40);
            let any = image_length(rng, block_length, n);
            rng.pick(&[fitting + 1, fitting + 1, any])
        } else {
            let n = blocks(rng, (fitting / block_length).max(1));
            image_length(rng, block_length, n).min(fitting)
        };
        Image::random(rng, block_length, length)
    }

    fn serial_above(&mut self, serial: u32) -> u32 {
        // Rarely the last serial: behind it the list has only refusals.
        let step = match self.rng.below(400) {
            0 => u32::MAX,
            1 => self.rng.u32(),
            _ => 1 + self.rng.below(3) as u32,
        };
        serial.saturating_add(step)
    }

    /// A manifest for the image, its serial above the device's; its root may be that of the padded
    /// image.
    fn manifest(&mut self, device: &Device, image: &Image, padded: bool) -> Manifest {
        let hashed = if padded {
            image.padded()
        } else {
            image.clone()
        };
        let serial = self.serial_above(device.serial());
        let manifest = image.manifest(self.model, serial, &hashed);
        self.images.insert(manifest.root, hashed);
        manifest
    }

    /// Kind 1 for a new image; a faulty one has up to three wrong values, and then any signature.
    fn program(&mut self, device: &Device, faulty: bool) -> Vec<u8> {
        let image = if self.rng.one_in(5) {
            self.some_image(device)
        } else {
            self.new_image()
        };
        let padded = self.rng.percent(self.plan.padded);
        let mut manifest = self.manifest(device, &image, padded);
        if faulty {
            self.spoil(&mut manifest, device.serial());
        }
        let bytes = manifest.bytes();
        let signature = self.signature(&bytes, faulty);
        program_message(&bytes, &signature)
    }

    /// Kind 3 or 4 that changes one block of the device's image, or writes it again; a faulty one
    /// has wrong values in any of its parts.
    fn update(&mut self, device: &Device, faulty: bool) -> Vec<u8> {
        let mut image = self.some_image(device);
        if !faulty {
            image = self.current(device).cloned().unwrap_or(image);
        }
        let n = image.blocks();
        let any = self.rng.range(1, n);
        let mut i = self.rng.pick(&[any, 1, n, n]);
        if !self.rng.one_in(4) {
            image.change_block(&mut self.rng, i);
        }
        let mut manifest = self.manifest(device, &image, false);
        if faulty && self.rng.percent(35) {
            self.spoil(&mut manifest, device.serial());
        }
        if faulty && self.rng.percent(20) {
            // All of it fits the new image, but another block is sent than the changed one.
            i = self.rng.range(1, n);
        }
        let kind = self.rng.pick(&[3, 4]);
        let mut change = Change::new(kind, &image.bytes, image.block_length, i);
        if faulty {
            self.spoil_change(&mut change, n as u16);
        }
        let bytes = manifest.bytes();
        let signature = self.signature(&bytes, faulty);
        update_message(&bytes, &change, &signature)
    }

    /// Kind 3 or 4 of the last block, right but for the padding: that block was hashed so, or is sent
    /// so, or both.
    fn padded_update(&mut self, device: &Device) -> Vec<u8> {
        let mut image = self.some_image(device);
        let n = image.blocks();
        image.change_block(&mut self.rng, n);
        let (hash, send) = self.rng.pick(&[(true, false), (false, true), (true, true)]);
        let manifest = self.manifest(device, &image, hash).bytes();
        let sent = if send { image.padded() } else { image };
        let kind = self.rng.pick(&[3, 4]);
        let change = Change::new(kind, &sent.bytes, sent.block_length, n);
        let signature = self.signature(&manifest, false);
        update_message(&manifest, &change, &signature)
    }

    /// Number, block and hashes, each left as it is or made wrong.
    fn spoil_change(&mut self, change: &mut Change, n: u16) {
        let rng = &mut self.rng;
        if rng.percent(40) {
            let any = rng.range(1, n as usize) as u16;
            change.number = rng.pick(&[0, n, n + 1, u16::MAX, 1, any]);
        }
        if rng.percent(30) {
            let at = rng.below(change.block.len());
            change.block[at] ^= 1 << rng.below(8);
        }
        if change.kind == 4 && rng.percent(40) {
            spoil_hashes(rng, &mut change.hashes);
        }
    }

    fn signature(&mut self, manifest: &[u8], faulty: bool) -> Vec<u8> {
        let length = self.signer.parameters.signature_length();
        match self.rng.below(if faulty { 10 } else { 1 }) {
            7 => self.stranger.sign(&mut self.rng, manifest),
            8 => self.rng.bytes(length),
            9 => {
                let other = self.rng.bytes(48);
                self.signer.sign(&mut self.rng, &other)
            }
            _ => self.signer.sign(&mut self.rng, manifest),
        }
    }

    /// One to three values of the manifest made wrong, or moved to the edge of what is right.
    fn spoil(&mut self, manifest: &mut Manifest, serial: u32) {
        let rng = &mut self.rng;
        for _ in 0..rng.range(1, 3) {
            let (l, t) = (manifest.block_length as u32, manifest.image_length);
            match rng.below(6) {
                0 => manifest.version = rng.pick(&[0, 2, 256, 257, u16::MAX]),
                1 => manifest.block_length = wrong_block_length(rng) as u16,
                2 => {
                    let model = manifest.model;
                    let other = rng.u32();
                    let swapped = model.swap_bytes();
                    manifest.model = rng.pick(&[other, swapped, model ^ 1, model ^ 1 << 31]);
                }
                3 => {
                    let below = serial.saturating_sub(1);
                    manifest.serial = rng.pick(&[serial, serial, below, 0, u32::MAX]);
                }
                4 => {
                    let most = l * MOST_BLOCKS as u32;
                    let edges = [
                        0,
                        1,
                        t.saturating_sub(1),
                        t.wrapping_add(1),
                        most,
                        most + 1,
                        u32::MAX,
                    ];
                    manifest.image_length = rng.pick(&edges);
                }
                _ => manifest.root = rng.array(),
            }
        }
    }
}

/// One hash more, one less, another order, or one of them damaged.
fn spoil_hashes(rng: &mut Rng, hashes: &mut Vec<Hash>) {
    let at = rng.below(hashes.len().max(1));
    match rng.below(5) {
        0 => hashes.insert(at, rng.array()),
        1 => hashes.reverse(),
        _ if hashes.is_empty() => {}
        2 => {
            hashes.remove(at);
        }
        3 => {
            let other = rng.below(hashes.len());
            hashes.swap(at, other);
        }
        _ => damage_byte(rng, &mut hashes[at], 0..32),
    }
}

/// An allowed block length, or mostly one that is not.
pub fn wrong_block_length(rng: &mut Rng) -> u32 {
    let any = rng.u32() % 2000;
    let wrong = [0, 1, 32, 63, 65, 96, 192, 1000, 1023, 1025, 2048, 0xffff];
    let other = rng.pick(&wrong);
    let allowed = rng.pick(&BLOCK_LENGTHS);
    rng.pick(&[any, other, other, allowed])
}

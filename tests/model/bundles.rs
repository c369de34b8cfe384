//! The loader program against the model's text, on bundles made by hand and at random, in a folder of
//! its own.

use std::fs;
use std::path::{Path, PathBuf};
use std::process::Command;

use crate::compare::Compared;
use crate::craft::Image;
use crate::damage::damage_byte;
use crate::lengths::image_length;
use crate::loader::{FLASH_LENGTH, LARGEST_BUNDLE, output};
use crate::manifest::{BLOCK_LENGTHS, MOST_BLOCKS, Manifest};
use crate::rng::Rng;
use crate::sender::program_message;
use crate::signer::Signer;

pub struct Bundles {
    folder: PathBuf,
    program: PathBuf,
}

/// The two files; none is a missing one.
struct Files {
    key: Option<Vec<u8>>,
    bundle: Option<Vec<u8>>,
}

impl Bundles {
    pub fn new() -> Bundles {
        let folder = std::env::temp_dir().join(format!("lertxuno-model-{}", std::process::id()));
        fs::create_dir_all(&folder).expect("a temporary folder");
        let program = fs::canonicalize("crates/loader/out/loader").expect("the loader program");
        Bundles { folder, program }
    }

    /// One run on a random bundle; on success how it ended, for the coverage.
    pub fn random(&self, rng: &mut Rng, signer: &Signer) -> Compared<String> {
        self.run(random_files(rng, signer))
    }

    /// Bundles of one image: behind its last block comes the kind 1 message, or filler, just as much
    /// as the block has less than L, or more; that block lacks a byte; it was padded to L bytes.
    pub fn last_blocks(&self, rng: &mut Rng, signer: &Signer, image: &Image) -> Compared<()> {
        let (padded, lacking) = (image.padded(), image.lacking());
        let blocks = image.block_messages().concat();
        for filler in [0, lacking, image.block_length] {
            let with_filler = [&blocks[..], &vec![0xff; filler]].concat();
            self.expect(rng, signer, [image; 2], with_filler, "state complete")?;
        }
        let cut = blocks[..blocks.len() - 1].to_vec();
        self.expect(rng, signer, [image; 2], cut, "block 12")?;
        let blocks = padded.block_messages().concat();
        let end = if lacking > 0 {
            "block 14"
        } else {
            "state complete"
        };
        self.expect(rng, signer, [image, &padded], blocks, end)
    }

    /// Images as long as the loader's flash and a byte longer; of the most blocks, which it has no
    /// room for, and a byte longer. Their blocks are missing.
    pub fn longest_images(
        &self,
        rng: &mut Rng,
        signer: &Signer,
        block_length: usize,
    ) -> Compared<()> {
        let most = MOST_BLOCKS * block_length;
        for (length, end) in [
            (FLASH_LENGTH, "block 2"),
            (FLASH_LENGTH + 1, "slip 8"),
            (most, "slip 8"),
            (most + 1, "slip 5"),
        ] {
            let image = Image::random(rng, block_length, length);
            self.expect(rng, signer, [&image; 2], Vec::new(), end)?;
        }
        Ok(())
    }

    /// One run that must end so. The manifest is that of the first image, its root the second's.
    fn expect(
        &self,
        rng: &mut Rng,
        signer: &Signer,
        [image, hashed]: [&Image; 2],
        blocks: Vec<u8>,
        due: &str,
    ) -> Compared<()> {
        let model = rng.u32();
        let program = signed(rng, signer, &image.manifest(model, 1, hashed));
        let distance = program.len() as u32;
        let end = self.run(Files {
            key: Some([&signer.key[..], &model.to_be_bytes()].concat()),
            bundle: Some([&blocks[..], &program, &distance.to_be_bytes()].concat()),
        })?;
        if end != due {
            return Err(format!("ends in {end}, due is {due}"));
        }
        Ok(())
    }

    fn run(&self, files: Files) -> Compared<String> {
        put(&self.folder.join("key.bin"), &files.key);
        put(&self.folder.join("bundle.bin"), &files.bundle);
        let (key, bundle) = (
            files.key.unwrap_or_default(),
            files.bundle.unwrap_or_default(),
        );
        let due = output(&key, &bundle);
        let run = Command::new(&self.program)
            .current_dir(&self.folder)
            .output()
            .map_err(|error| format!("loader does not run: {error}"))?;
        let printed = String::from_utf8_lossy(&run.stdout).into_owned();
        if printed != due {
            return Err(format!(
                "loader, bundle of {} bytes: printed {printed:?}, model {due:?}",
                bundle.len()
            ));
        }
        Ok(summary(&due))
    }
}

impl Drop for Bundles {
    fn drop(&mut self) {
        // What stays behind in the temporary folder harms nobody.
        let _ = fs::remove_dir_all(&self.folder);
    }
}

fn put(path: &Path, bytes: &Option<Vec<u8>>) {
    match bytes {
        Some(bytes) => fs::write(path, bytes).expect("a file in the temporary folder"),
        None => {
            let _ = fs::remove_file(path);
        }
    }
}

/// How the run ended: the first refusal's word and number, or the last stage.
fn summary(text: &str) -> String {
    let words = |line: &str| line.split(' ').map(str::to_owned).collect::<Vec<_>>();
    let refused = text
        .lines()
        .map(words)
        .find(|line| line.len() == 3 && line[0] != "state" && line[2] != "0");
    match refused {
        Some(line) => format!("{} {}", line[0], line[2]),
        None => words(text.lines().last().unwrap_or_default())
            .into_iter()
            .take(2)
            .collect::<Vec<_>>()
            .join(" "),
    }
}

fn random_image(rng: &mut Rng) -> Image {
    let block_length = rng.pick(&BLOCK_LENGTHS) as usize;
    let n = match rng.below(8) {
        0 | 1 => rng.range(1, 60_000 / block_length),
        _ => rng.range(1, 20),
    };
    // As long as the loader's flash, or longer, now and then.
    let length = match rng.below(10) {
        0 => FLASH_LENGTH,
        1 => FLASH_LENGTH + rng.pick(&[1, block_length]),
        _ => image_length(rng, block_length, n),
    };
    Image::random(rng, block_length, length)
}

/// The kind 1 message.
fn signed(rng: &mut Rng, signer: &Signer, manifest: &Manifest) -> Vec<u8> {
    let bytes = manifest.bytes();
    program_message(&bytes, &signer.sign(rng, &bytes))
}

fn random_files(rng: &mut Rng, signer: &Signer) -> Files {
    let model = rng.u32();
    let image = random_image(rng);
    let hashed = if rng.one_in(10) {
        image.padded()
    } else {
        image.clone()
    };
    let serial = rng.pick(&[1, 1, 7, u32::MAX]);
    let mut manifest = image.manifest(model, serial, &hashed);
    match rng.below(30) {
        0 => manifest.version = 0,
        1 => manifest.block_length += 1,
        2 => manifest.model = rng.u32(),
        3 => manifest.serial = 0,
        4 => manifest.image_length = 0,
        _ => {}
    }
    let program = signed(rng, signer, &manifest);
    let key = [&signer.key[..], &model.to_be_bytes()].concat();
    Files {
        key: key_file(rng, key),
        bundle: bundle_file(rng, hashed.block_messages(), program),
    }
}

fn key_file(rng: &mut Rng, mut key: Vec<u8>) -> Option<Vec<u8>> {
    match rng.below(40) {
        0 => return None,
        1 => key.truncate(rng.below(60)),
        2 => key.push(0),
        3 => damage_byte(rng, &mut key, 0..60),
        _ => {}
    }
    Some(key)
}

/// The block messages, changed in one way or, mostly, not at all.
fn block_part(rng: &mut Rng, mut blocks: Vec<Vec<u8>>) -> Vec<u8> {
    let at = rng.below(blocks.len());
    let length = blocks[at].len();
    match rng.below(14) {
        0 => blocks[at][0] = rng.pick(&[0, 1, 3, 4]),
        1 => damage_byte(rng, &mut blocks[at], 1..3),
        2 => damage_byte(rng, &mut blocks[at], 3..length),
        3 => {
            let other = rng.below(blocks.len());
            blocks.swap(at, other);
        }
        4 => blocks[at].truncate(rng.below(length)),
        5 | 6 => {
            let left = rng.pick(&[0, 1, 2, 3, length - 1]);
            blocks.truncate(at + 1);
            blocks[at].truncate(left);
        }
        _ => {}
    }
    blocks.concat()
}

/// Blocks, filler, kind 1 message and trailer, whole or changed in one way.
fn bundle_file(rng: &mut Rng, blocks: Vec<Vec<u8>>, mut program: Vec<u8>) -> Option<Vec<u8>> {
    let mut blocks = block_part(rng, blocks);
    let change = rng.below(16);
    // Not more than the file's limit, except where that is the case tried.
    blocks.truncate(LARGEST_BUNDLE - 4 - program.len());
    let most = LARGEST_BUNDLE - 4 - program.len() - blocks.len();
    let filler = match change {
        0 => most,
        1 => most + 1,
        2..=5 => rng.below(100).min(most),
        _ => 0,
    };
    let mut distance = program.len() as u32;
    match change {
        6 => distance = distance.wrapping_add_signed(rng.pick(&[-1, 1, 32, -32])),
        7 => distance = rng.u32() >> rng.below(32),
        8 => damage_byte(rng, &mut program, 49..distance as usize),
        _ => {}
    }
    let filler = rng.bytes(filler);
    let mut bundle = [blocks, filler, program, distance.to_be_bytes().into()].concat();
    let length = bundle.len();
    match change {
        9 => damage_byte(rng, &mut bundle, 0..length),
        10 => bundle.truncate(rng.below(length)),
        11 if rng.one_in(2) => bundle.truncate(rng.below(4)),
        11 => return None,
        _ => {}
    }
    Some(bundle)
}

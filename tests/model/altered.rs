//! Flashes that others have touched, by hand and in every run: for each block length, images of one
//! block, two and five, whose last block is whole or has one byte. The answers are written here as
//! the papers' numbers, and library and model must both give them.

use crate::compare::Compared;
use crate::craft::Image;
use crate::handmade::{ACCEPTED, BEHIND, Case, MODEL, expect};
use crate::layout::{MANIFEST_AT, NEXT_AT, STAGE_AT, STATE_LENGTH};
use crate::manifest::{BLOCK_LENGTHS, Manifest};
use crate::pair::Pair;
use crate::regions::regions;
use crate::rng::Rng;
use crate::sender::Change;
use crate::sha256::sha256;

pub const SERIAL: u32 = 1;

/// For a message that the untouched flash takes, by the region that is touched (before the block
/// that the message names, in it, behind it, beyond the image): its answer, and the boot check's
/// after it. Last the boot check's after the message over the untouched flash.
struct Due {
    answers: [u32; 4],
    boots: [u32; 4],
    boot: u32,
}

/// A new program, and a block that is not the last.
const ONWARD: Due = Due {
    answers: [0, 0, 0, 0],
    boots: [10, 10, 10, 10],
    boot: 10,
};
/// Nothing stands behind it.
const LAST_BLOCK: Due = Due {
    answers: [19, 0, 0, 0],
    boots: [10, 0, 0, 0],
    boot: 0,
};
const UPDATE: Due = Due {
    answers: [19, 19, 19, 0],
    boots: [19, 19, 19, 0],
    boot: 0,
};
const PATH_UPDATE: Due = Due {
    answers: [0, 15, 0, 0],
    boots: [19, 19, 19, 0],
    boot: 0,
};

pub fn images(rng: &mut Rng) -> Vec<Image> {
    let mut images = Vec::new();
    for block_length in BLOCK_LENGTHS.map(|length| length as usize) {
        for n in [1, 2, 5] {
            for last in [1, block_length] {
                let bytes = rng.bytes((n - 1) * block_length + last);
                images.push(Image {
                    block_length,
                    bytes,
                });
            }
        }
    }
    images
}

/// The bytes, with these others in their place from here on.
fn spliced(bytes: &[u8], at: usize, others: &[u8]) -> Vec<u8> {
    let mut spliced = bytes.to_vec();
    spliced[at..at + others.len()].copy_from_slice(others);
    spliced
}

/// The pair after somebody else wrote this to its flash.
fn written(pair: &Pair, at: usize, bytes: &[u8]) -> Pair {
    let mut other = pair.clone();
    other.put_flash(spliced(&pair.flash, at, bytes));
    other
}

/// The pair after somebody else flipped a bit of this byte.
pub fn flipped(pair: &Pair, at: usize) -> Pair {
    written(pair, at, &[pair.flash[at] ^ 1])
}

/// The pair after somebody else wrote this to its state.
pub fn with_state(pair: &Pair, at: usize, bytes: &[u8]) -> Pair {
    let mut other = pair.clone();
    other.put_state(spliced(&pair.state, at, bytes));
    other
}

pub fn expect_boot(what: &str, pair: &Pair, due: u32) -> Compared<()> {
    expect(&format!("boot check, {what}"), pair.boot_check()?, due)
}

fn expect_same(what: &str, pair: &Pair, due: &Pair) -> Compared<()> {
    expect(&format!("state {what}"), pair.state == due.state, true)?;
    expect(&format!("flash {what}"), pair.flash == due.flash, true)
}

/// One image and its download.
pub struct Altered<'a> {
    pub case: Case<'a>,
    /// Kind 1, then the blocks.
    pub messages: Vec<Vec<u8>>,
    /// The device before each of these, and behind the last.
    pub stages: Vec<Pair>,
}

impl<'a> Altered<'a> {
    pub fn new(mut case: Case<'a>) -> Compared<Altered<'a>> {
        let length = case.image.bytes.len() + BEHIND;
        let mut pair = Pair::fresh(&mut case.rng, MODEL, &case.signer.key, length)?;
        let manifest = case.image.manifest(MODEL, SERIAL, &case.image);
        let mut messages = vec![case.signed_program(&manifest)];
        messages.extend(case.image.block_messages());
        let mut stages = vec![pair.clone()];
        for message in &messages {
            case.give("download", &mut pair, message, ACCEPTED)?;
            stages.push(pair.clone());
        }
        Ok(Altered {
            case,
            messages,
            stages,
        })
    }

    pub fn run(&mut self) -> Compared<()> {
        self.programs()?;
        self.blocks()?;
        self.updates()?;
        self.orders()?;
        self.other_boards()?;
        self.refused_downloads()?;
        self.torn_blocks()?;
        self.other_roots()?;
        self.boot_checks()?;
        self.senseless_states()
    }

    pub fn n(&self) -> usize {
        self.case.image.blocks()
    }

    pub fn manifest(&self) -> Manifest {
        let image = &self.case.image;
        image.manifest(MODEL, SERIAL, image)
    }

    pub fn complete(&self) -> Pair {
        self.stages[self.n() + 1].clone()
    }

    fn next_program(&mut self) -> Vec<u8> {
        let mut manifest = self.manifest();
        manifest.serial += 1;
        self.case.signed_program(&manifest)
    }

    /// The image with all bytes of block i changed.
    fn changed(&self, i: usize) -> Image {
        let mut image = self.case.image.clone();
        for byte in &mut image.bytes[self.manifest().place(i)] {
            *byte ^= 0x55;
        }
        image
    }

    /// What a kind 3 or 4 is made of that changes block i.
    pub fn parts(&self, kind: u8, i: usize) -> (Manifest, Change) {
        let image = self.changed(i);
        let change = Change::new(kind, &image.bytes, image.block_length, i);
        (image.manifest(MODEL, SERIAL + 1, &image), change)
    }

    pub fn update(&mut self, kind: u8, i: usize) -> Vec<u8> {
        let (manifest, change) = self.parts(kind, i);
        self.case.signed_update(&manifest, &change)
    }

    /// The device after a message with the least budget that suffices.
    pub fn after(&mut self, what: &str, pair: &Pair, message: &[u8], due: u32) -> Compared<Pair> {
        self.within(what, pair, message, pair.least_budget(message), due)
    }

    /// The device after a message; a refused one leaves state and flash as they are.
    pub fn within(
        &mut self,
        what: &str,
        pair: &Pair,
        message: &[u8],
        budget: u32,
        due: u32,
    ) -> Compared<Pair> {
        let mut after = pair.clone();
        self.case
            .give_within(what, &mut after, message, budget, due)?;
        if due != ACCEPTED {
            expect_same(&format!("after {what}"), &after, pair)?;
        }
        Ok(after)
    }

    /// The message, over a flash that is touched in the first or the last byte of each region; and
    /// that with the old byte put back all is as if nobody had touched it.
    fn each_region(&mut self, what: &str, pair: &Pair, message: &[u8], due: &Due) -> Compared<()> {
        let plain = self.after(what, pair, message, ACCEPTED)?;
        expect_boot(what, &plain, due.boot)?;
        let parts = regions(&pair.device(), message, pair.flash.len()).expect("a sound message");
        for (region, part) in parts.into_iter().enumerate() {
            if part.is_empty() {
                continue;
            }
            for at in [part.start, part.end - 1] {
                let what = format!("{what}, byte {at} touched");
                let touched = flipped(pair, at);
                let mut after = self.after(&what, &touched, message, due.answers[region])?;
                expect_boot(&what, &after, due.boots[region])?;
                after.put_back();
                if due.answers[region] != ACCEPTED {
                    self.case.give("put back", &mut after, message, ACCEPTED)?;
                }
                expect_same(&format!("put back after {what}"), &after, &plain)?;
                expect_boot(&what, &after, due.boot)?;
            }
        }
        Ok(())
    }

    /// Kind 1 at each stage.
    fn programs(&mut self) -> Compared<()> {
        let message = self.next_program();
        for pair in self.stages.clone() {
            self.each_region("new program", &pair, &message, &ONWARD)?;
        }
        Ok(())
    }

    fn blocks(&mut self) -> Compared<()> {
        for i in 1..=self.n() {
            let due = if i == self.n() { LAST_BLOCK } else { ONWARD };
            let (pair, message) = (self.stages[i].clone(), self.messages[i].clone());
            self.each_region(&format!("block {i}"), &pair, &message, &due)?;
        }
        Ok(())
    }

    fn updates(&mut self) -> Compared<()> {
        let pair = self.complete();
        for (kind, due) in [(3, UPDATE), (4, PATH_UPDATE)] {
            for i in 1..=self.n() {
                let message = self.update(kind, i);
                self.each_region(&format!("kind {kind} of block {i}"), &pair, &message, &due)?;
            }
        }
        Ok(())
    }

    /// Every byte of the flash is another than the program's. A last block that is the only one
    /// covers all of it.
    fn other_boards(&mut self) -> Compared<()> {
        let board: Vec<u8> = self.complete().flash.iter().map(|byte| !byte).collect();
        for (at, message) in self.messages.clone().iter().enumerate() {
            let noticed = at == self.n() && at > 1;
            let pair = written(&self.stages[at], 0, &board);
            self.after("other board", &pair, message, if noticed { 19 } else { 0 })?;
        }
        let pair = written(&self.complete(), 0, &board);
        expect_boot("other board", &pair, 19)?;
        for (kind, due) in [(3, 19), (4, 15)] {
            let message = self.update(kind, 1);
            self.after("update of another board", &pair, &message, due)?;
        }
        let message = self.next_program();
        self.after("new program on another board", &pair, &message, 0)?;
        Ok(())
    }

    /// The ways on from a last block that was refused.
    fn refused_downloads(&mut self) -> Compared<()> {
        let n = self.n();
        if n == 1 {
            return Ok(());
        }
        let [program, first, last] = [0, 1, n].map(|at| self.messages[at].clone());
        let pair = flipped(&self.stages[n], 0);
        let pair = self.after("last block", &pair, &last, 19)?;
        let pair = self.after("last block again", &pair, &last, 19)?;
        self.after("first block again", &pair, &first, 11)?;
        self.after("same program again", &pair, &program, 7)?;
        let higher = self.next_program();
        let begun = self.after("program of a higher serial", &pair, &higher, 0)?;
        self.all_blocks("blocks of a higher serial", begun)?;
        let mut begun = pair.clone();
        begun.put_state(self.stages[1].state.clone());
        let end = self.all_blocks("blocks after an old state", begun)?;
        expect_same("after an old state", &end, &self.complete())
    }

    fn all_blocks(&mut self, what: &str, mut pair: Pair) -> Compared<Pair> {
        for message in &self.messages[1..] {
            self.case.give(what, &mut pair, message, ACCEPTED)?;
        }
        expect_boot(what, &pair, 0)?;
        Ok(pair)
    }

    /// A message comes again, its block written in part or whole, with the state from before it.
    fn torn_blocks(&mut self) -> Compared<()> {
        for i in 1..=self.n() {
            let place = self.manifest().place(i);
            let new = self.changed(i).bytes[place.clone()].to_vec();
            for done in [1, place.len().div_ceil(2), place.len()] {
                let pair = written(&self.complete(), place.start, &new[..done]);
                expect_boot("torn block", &pair, 19)?;
                for (kind, due) in [(3, 19), (4, 15)] {
                    let message = self.update(kind, i);
                    self.after("update of a torn block", &pair, &message, due)?;
                }
                let message = self.messages[i].clone();
                let pair = written(&self.stages[i], place.start, &message[3..3 + done]);
                self.after("block over a torn one", &pair, &message, 0)?;
            }
        }
        Ok(())
    }

    /// States whose root is not the flash's, or not the one that the hash held belongs to: the root
    /// decides, with a single block too.
    fn other_roots(&mut self) -> Compared<()> {
        let n = self.n();
        let mut other = self.manifest();
        other.root[31] ^= 1;
        let complete = with_state(&self.complete(), MANIFEST_AT, &other.bytes());
        expect_boot("other root", &complete, 19)?;
        for (kind, due) in [(3, 19), (4, 15)] {
            let message = self.update(kind, 1);
            self.after("update, other root", &complete, &message, due)?;
        }
        let message = self.messages[n].clone();
        let loading = with_state(&self.stages[n], MANIFEST_AT, &other.bytes());
        self.after("last block, other root", &loading, &message, 19)?;
        let message = self.changed(n).block_message(n);
        let held = sha256(&message[3..]);
        let loading = with_state(&self.stages[n], STATE_LENGTH - 32, &held);
        self.after("last block, other hash held", &loading, &message, 19)?;
        Ok(())
    }

    fn boot_checks(&mut self) -> Compared<()> {
        let length = self.case.image.bytes.len();
        for pair in &self.stages[..=self.n()] {
            expect_boot("idle or loading", pair, 10)?;
            expect_boot("idle or loading, short flash", &pair.cut(length - 1), 10)?;
        }
        let complete = self.complete();
        let touched = flipped(&complete, length - 1);
        for (what, pair, due) in [
            ("flash of the image alone", complete.cut(length), 0),
            ("touched beyond", flipped(&complete, length), 0),
            ("touched", touched.clone(), 19),
            ("touched, the image alone", touched.cut(length), 19),
            ("short flash", complete.cut(length - 1), 8),
            (
                "touched, short flash",
                flipped(&complete, 0).cut(length - 1),
                8,
            ),
            ("no flash", complete.cut(0), 8),
        ] {
            expect_boot(what, &pair, due)?;
        }
        Ok(())
    }

    /// They come before all else that the boot check refuses.
    fn senseless_states(&mut self) -> Compared<()> {
        let [idle, loading] = [0, self.n()].map(|at| &self.stages[at]);
        let short = self.complete().cut(0);
        for length in [0, STATE_LENGTH - 1, STATE_LENGTH + 1] {
            let mut state = short.state.clone();
            state.resize(length, 0);
            let mut other = short.clone();
            other.put_state(state);
            expect_boot("state of another length", &other, 1)?;
        }
        let behind = (self.n() as u16 + 1).to_be_bytes();
        let none = [0; 4];
        for (what, pair, at, bytes, due) in [
            ("stage 3", &short, STAGE_AT, &[0, 3][..], 1),
            ("version 2", &short, MANIFEST_AT, &[0, 2], 1),
            ("L = 65", &short, MANIFEST_AT + 2, &[0, 65], 1),
            ("T = 0", &short, MANIFEST_AT + 12, &none, 1),
            ("next number 0", loading, NEXT_AT, &[0, 0], 1),
            ("next number n + 1", loading, NEXT_AT, &behind, 1),
            // Nobody looks there while complete or idle.
            ("complete, next number n + 1", &short, NEXT_AT, &behind, 8),
            ("idle, T = 0", idle, MANIFEST_AT + 12, &none, 10),
        ] {
            expect_boot(what, &with_state(pair, at, bytes), due)?;
        }
        Ok(())
    }
}

//! The image's end, by hand and in every run: for each block length, images of few blocks that end
//! a byte behind a multiple of L, within a block, a byte before a multiple of L, and on it. The
//! answers are written here, and library and model must both give them.

use crate::capi::Send;
use crate::compare::Compared;
use crate::coverage::Coverage;
use crate::craft::Image;
use crate::functions::{compare_sender, sent};
use crate::manifest::{
    AREA, BLOCK_LENGTHS, LENGTH, MISMATCH, MOST_BLOCKS, Manifest, SIZE, UNLIKE, UNSIGNED,
};
use crate::pair::Pair;
use crate::rng::Rng;
use crate::sender::{Change, Order, program_message, update_message};
use crate::signer::Signer;

pub const ACCEPTED: u32 = 0;
pub const MODEL: u32 = 0x0a0b_0c0d;

/// Bytes that the flash has behind the image in the second of two downloads; in the first, none.
pub const BEHIND: usize = 5;

pub fn images(rng: &mut Rng) -> Vec<Image> {
    let mut images = Vec::new();
    for length in BLOCK_LENGTHS.map(|length| length as usize) {
        for n in 1..=5 {
            for last in [1, length / 2, length - 1, length] {
                images.push(Image::random(rng, length, (n - 1) * length + last));
            }
        }
    }
    images
}

pub fn expect<T: PartialEq + std::fmt::Debug>(what: &str, got: T, due: T) -> Compared<()> {
    if got == due {
        return Ok(());
    }
    Err(format!("{what}: {got:?}, due is {due:?}"))
}

fn order(image: &Image, serial: u32) -> Order<'_> {
    Order {
        image: &image.bytes,
        block_length: image.block_length as u32,
        model: MODEL,
        serial,
    }
}

pub struct Case<'a> {
    pub rng: Rng,
    pub signer: &'a Signer,
    pub image: Image,
    serial: u32,
    /// Of no interest here: all that is done has its due answer.
    coverage: Coverage,
}

impl<'a> Case<'a> {
    pub fn new(rng: Rng, signer: &'a Signer, image: Image) -> Case<'a> {
        Case {
            rng,
            signer,
            image,
            serial: 1,
            coverage: Coverage::new(),
        }
    }

    /// Downloads, updates, and what must be refused.
    pub fn run(&mut self) -> Compared<()> {
        for behind in [0, BEHIND] {
            let mut pair = self.download(behind)?;
            for kind in [3, 4] {
                self.update(&mut pair, kind, 1)?;
                self.update(&mut pair, kind, self.image.blocks())?;
            }
        }
        if self.image.lacking() > 0 {
            self.padded_download()?;
        }
        Ok(())
    }

    /// With the least budget that suffices.
    pub fn give(&mut self, what: &str, pair: &mut Pair, message: &[u8], due: u32) -> Compared<()> {
        let budget = pair.least_budget(message);
        self.give_within(what, pair, message, budget, due)
    }

    pub fn give_within(
        &mut self,
        what: &str,
        pair: &mut Pair,
        message: &[u8],
        budget: u32,
        due: u32,
    ) -> Compared<()> {
        let what = format!("{what}, budget {budget}");
        let answer = pair.call(message, budget, &mut self.coverage);
        expect(&what, answer.map_err(|e| format!("{what}: {e}"))?, due)
    }

    /// Kind 1 with this manifest.
    pub fn signed_program(&mut self, manifest: &Manifest) -> Vec<u8> {
        let bytes = manifest.bytes();
        program_message(&bytes, &self.signer.sign(&mut self.rng, &bytes))
    }

    /// Kind 3 or 4 with this manifest.
    pub fn signed_update(&mut self, manifest: &Manifest, change: &Change) -> Vec<u8> {
        let bytes = manifest.bytes();
        update_message(&bytes, change, &self.signer.sign(&mut self.rng, &bytes))
    }

    /// Refused for a flash of T - 1 bytes.
    fn give_to_short_flash(&mut self, pair: &Pair, message: &[u8]) -> Compared<()> {
        let mut short = pair.cut(self.image.bytes.len() - 1);
        self.give("flash of T - 1 bytes", &mut short, message, AREA)
    }

    /// What the sender answers, given so much room.
    pub fn order(&mut self, what: Send, room: usize) -> Compared<u32> {
        let order = order(&self.image, self.serial);
        compare_sender(&mut self.rng, &order, what, sent(&order, what), room)
    }

    /// The sender's message, into room for just its bytes or for more; a byte less is refused.
    pub fn sent(&mut self, what: Send) -> Compared<Vec<u8>> {
        let order = order(&self.image, self.serial);
        let message = sent(&order, what).map_err(|refusal| format!("model's sender: {refusal}"))?;
        let length = message.len();
        for (room, due) in [
            (length - 1, AREA),
            (length, ACCEPTED),
            (2 * length, ACCEPTED),
        ] {
            let answer = compare_sender(&mut self.rng, &order, what, Ok(message.clone()), room)?;
            expect("sender", answer, due)?;
        }
        Ok(message)
    }

    pub fn signature(&mut self) -> Compared<Vec<u8>> {
        let manifest = self.sent(Send::Manifest)?;
        Ok(self.signer.sign(&mut self.rng, &manifest))
    }

    /// The flash begins with the image, and what stands behind it stayed.
    fn expect_flash(&self, pair: &Pair, behind: &[u8]) -> Compared<()> {
        let (image, rest) = pair.flash.split_at(self.image.bytes.len());
        expect("flash, the image", image == self.image.bytes, true)?;
        expect("flash, behind the image", rest, behind)
    }

    /// From fresh to complete, in a flash of T bytes and so many more.
    fn download(&mut self, more: usize) -> Compared<Pair> {
        let (n, length) = (self.image.blocks(), self.image.bytes.len());
        let key = &self.signer.key;
        let mut pair = Pair::fresh(&mut self.rng, MODEL, key, length + more)?;
        let behind = pair.flash[length..].to_vec();
        let signature = self.signature()?;
        let program = self.sent(Send::Program(&signature))?;
        self.give_to_short_flash(&pair, &program)?;
        self.give("new program", &mut pair, &program, ACCEPTED)?;
        for i in 1..=n {
            let message = self.sent(Send::Block(i as u32))?;
            if i == n {
                self.wrong_last_blocks(&mut pair, &message)?;
            }
            self.give("block", &mut pair, &message, ACCEPTED)?;
        }
        self.expect_flash(&pair, &behind)?;
        Ok(pair)
    }

    /// A byte less, a byte more, L bytes; and a flash of T - 1 bytes.
    fn wrong_last_blocks(&mut self, pair: &mut Pair, message: &[u8]) -> Compared<()> {
        let due = message.len();
        for length in [due - 1, due + 1, due + self.image.lacking()] {
            let mut other = message.to_vec();
            other.resize(length, 0xff);
            if length != due {
                self.give("last block of another length", pair, &other, LENGTH)?;
            }
        }
        self.give_to_short_flash(pair, message)
    }

    /// Kind 3 or 4 of block i; first as it must be refused.
    pub fn update(&mut self, pair: &mut Pair, kind: u8, i: usize) -> Compared<()> {
        let behind = pair.flash[self.image.bytes.len()..].to_vec();
        self.image.bytes[(i - 1) * self.image.block_length] ^= 1;
        self.serial += 1;
        let signature = self.signature()?;
        let message = self.sent(Send::Update(kind, i as u32, &signature))?;
        let (bytes, least) = (message.len(), message.len() - signature.len());
        let without_block_byte = [&message[..51], &message[52..]].concat();
        let cuts = [
            (&message[..least - 1], LENGTH),
            (&message[..least], UNSIGNED),
            (&message[..bytes - 1], UNSIGNED),
            (&without_block_byte, UNSIGNED),
        ];
        for (cut, due) in cuts {
            self.give("update that is cut", pair, cut, due)?;
        }
        self.give_to_short_flash(pair, &message)?;
        self.longer_update(pair, kind, i)?;
        if i == self.image.blocks() && self.image.lacking() > 0 {
            self.padded_updates(pair, kind)?;
        }
        self.give("update", pair, &message, ACCEPTED)?;
        self.expect_flash(pair, &behind)
    }

    /// To an image that is a byte longer, be it in as many blocks. Where these are then too many,
    /// that comes first.
    fn longer_update(&mut self, pair: &mut Pair, kind: u8, i: usize) -> Compared<()> {
        let mut longer = self.image.clone();
        longer.bytes.push(0xff);
        let manifest = longer.manifest(MODEL, self.serial, &longer);
        let change = Change::new(kind, &longer.bytes, longer.block_length, i);
        let message = self.signed_update(&manifest, &change);
        let over = longer.blocks() > MOST_BLOCKS;
        let due = if over { SIZE } else { UNLIKE };
        self.give("update to a longer image", pair, &message, due)
    }

    /// The last block is sent padded, or was hashed padded, or both.
    fn padded_updates(&mut self, pair: &mut Pair, kind: u8) -> Compared<()> {
        let (own, padded) = (self.image.clone(), self.image.padded());
        let cases = [
            (&padded, &own, UNSIGNED),
            (&own, &padded, MISMATCH),
            (&padded, &padded, UNSIGNED),
        ];
        for (carried, hashed, due) in cases {
            let manifest = own.manifest(MODEL, self.serial, hashed);
            let change = Change::new(kind, &carried.bytes, own.block_length, own.blocks());
            let message = self.signed_update(&manifest, &change);
            self.give("padded update", pair, &message, due)?;
        }
        Ok(())
    }

    /// The root is that of the padded image: all goes well up to its last block.
    fn padded_download(&mut self) -> Compared<()> {
        let (own, padded) = (self.image.clone(), self.image.padded());
        let (n, length) = (own.blocks(), own.bytes.len());
        let mut pair = Pair::fresh(&mut self.rng, MODEL, &self.signer.key, length)?;
        let program = self.signed_program(&own.manifest(MODEL, self.serial, &padded));
        self.give("padded program", &mut pair, &program, ACCEPTED)?;
        for i in 1..n {
            let message = padded.block_message(i);
            self.give("block before a padded one", &mut pair, &message, ACCEPTED)?;
        }
        let (message, cut) = (padded.block_message(n), own.block_message(n));
        self.give("padded block", &mut pair, &message, LENGTH)?;
        self.give("block that was hashed padded", &mut pair, &cut, MISMATCH)
    }
}

/// T = 257 with L = 256: all of the above, and how many bytes the messages have.
pub fn one_byte(mut rng: Rng, signer: &Signer) -> Compared<()> {
    let image = Image::random(&mut rng, 256, 257);
    let mut case = Case::new(rng, signer, image);
    let signature = case.signature()?;
    let messages = [
        (Send::Block(1), 3 + 256 + 32),
        (Send::Block(2), 3 + 1),
        (Send::Update(3, 2, &signature), 51 + 1 + signature.len()),
        (
            Send::Update(4, 2, &signature),
            51 + 1 + 32 + signature.len(),
        ),
    ];
    for (what, due) in messages {
        expect("message's bytes", case.sent(what)?.len(), due)?;
    }
    case.run()
}

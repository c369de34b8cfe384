//! Where 19 and 20 stand among the refusals, by hand: messages that are wrong in one way, over a
//! flash that others have touched, and blocks with a budget that does not suffice.

use crate::altered::{Altered, SERIAL, flipped};
use crate::compare::Compared;

#[derive(Clone, Copy, Debug)]
enum Fault {
    None,
    Short,
    Version,
    Size,
    Model,
    Serial,
    BlockLength,
    ImageLength,
    NumberZero,
    NumberBehind,
    Cut,
    Signature,
    Root,
}

/// What an update gets: over an untouched flash; kind 3 over one that is touched in the image; kind
/// 4 over one that is touched in the block it names. Elsewhere kind 4 does not look.
const FAULTS: [(Fault, [u32; 3]); 13] = [
    (Fault::None, [0, 19, 15]),
    (Fault::Short, [3, 3, 3]),
    (Fault::Version, [4, 4, 4]),
    (Fault::Size, [5, 5, 5]),
    (Fault::Model, [6, 6, 6]),
    (Fault::Serial, [7, 7, 7]),
    (Fault::BlockLength, [13, 13, 13]),
    (Fault::ImageLength, [13, 13, 13]),
    (Fault::NumberZero, [11, 19, 11]),
    (Fault::NumberBehind, [11, 19, 11]),
    (Fault::Cut, [12, 19, 12]),
    (Fault::Signature, [9, 19, 9]),
    (Fault::Root, [14, 19, 15]),
];

impl Altered<'_> {
    /// Updates of the first block and of the last, and last blocks.
    pub fn orders(&mut self) -> Compared<()> {
        for (kind, i) in [(3, 1), (3, self.n()), (4, 1), (4, self.n())] {
            for (fault, due) in FAULTS {
                self.order_of_update(kind, i, fault, due)
                    .map_err(|what| format!("kind {kind} of block {i}, {fault:?}: {what}"))?;
            }
        }
        self.order_of_last_block()?;
        for i in 1..=self.n() {
            self.order_of_spent_block(i)
                .map_err(|what| format!("block {i}: {what}"))?;
        }
        Ok(())
    }

    fn faulty_update(&mut self, kind: u8, i: usize, fault: Fault) -> Vec<u8> {
        let (mut manifest, mut change) = self.parts(kind, i);
        match fault {
            Fault::Version => manifest.version = 2,
            Fault::Size => manifest.image_length = 0,
            Fault::Model => manifest.model ^= 1,
            Fault::Serial => manifest.serial = SERIAL,
            Fault::BlockLength => {
                manifest.block_length = if manifest.block_length == 64 { 128 } else { 64 }
            }
            Fault::ImageLength => manifest.image_length += 1,
            Fault::NumberZero => change.number = 0,
            Fault::NumberBehind => change.number = self.n() as u16 + 1,
            Fault::Root => manifest.root[0] ^= 1,
            _ => {}
        }
        let mut message = self.case.signed_update(&manifest, &change);
        let least = 51 + change.block.len() + 32 * change.hashes.len();
        match fault {
            Fault::Short => message.truncate(50),
            Fault::Cut => message.truncate(least - 1),
            Fault::Signature => message[least] ^= 1,
            _ => {}
        }
        message
    }

    fn order_of_update(
        &mut self,
        kind: u8,
        i: usize,
        fault: Fault,
        [plain, update, path_update]: [u32; 3],
    ) -> Compared<()> {
        let message = self.faulty_update(kind, i, fault);
        let complete = self.complete();
        let length = self.case.image.bytes.len();
        let place = self.manifest().place(i);
        self.after("untouched", &complete, &message, plain)?;
        self.after("beyond", &flipped(&complete, length), &message, plain)?;
        for at in [0, place.start, place.end - 1, length - 1] {
            let due = match kind {
                3 => update,
                _ if place.contains(&at) => path_update,
                _ => plain,
            };
            let touched = flipped(&complete, at);
            self.after(&format!("byte {at}"), &touched, &message, due)?;
            // All that 19 comes before, 8 comes before as well.
            let due = if update == 19 { 8 } else { plain };
            let short = touched.cut(length - 1);
            self.after(&format!("byte {at}, short flash"), &short, &message, due)?;
        }
        let due = if plain == 3 { 3 } else { 10 };
        let loading = flipped(&self.stages[self.n()], 0);
        self.after("loading", &loading, &message, due)?;
        Ok(())
    }

    /// All others come before 19.
    fn order_of_last_block(&mut self) -> Compared<()> {
        let n = self.n();
        let message = self.messages[n].clone();
        let (mut number, mut block) = (message.clone(), message.clone());
        number[2] += 1;
        block[3] ^= 1;
        let longer = [&message[..], &[0]].concat();
        let touched = flipped(&self.stages[n], 0);
        let short = touched.cut(self.case.image.bytes.len() - 1);
        let complete = flipped(&self.complete(), 0);
        self.after("last block, wrong number", &touched, &number, 11)?;
        self.after("last block, a byte more", &touched, &longer, 12)?;
        self.after("wrong last block", &touched, &block, 14)?;
        self.after("last block, short flash", &short, &message, 8)?;
        self.after("last block once more", &complete, &message, 10)?;
        Ok(())
    }

    /// A block over its budget, wrong in other ways besides: 20 comes after 12 and before 14 and
    /// 19.
    fn order_of_spent_block(&mut self, i: usize) -> Compared<()> {
        let (pair, message) = (self.stages[i].clone(), self.messages[i].clone());
        let touched = flipped(&pair, 0);
        let short = pair.cut(self.case.image.bytes.len() - 1);
        let ends = message.len();
        let [mut number, mut block, mut hash] = [(); 3].map(|()| message.clone());
        number[2] += 1;
        block[3] ^= 1;
        hash[ends - 1] ^= 1;
        let longer = [&message[..], &[0]].concat();
        for budget in [0, pair.least_budget(&message) - 1] {
            for (what, pair, message, due) in [
                ("spent", &pair, &message[..], 20),
                ("spent, cut within its head", &pair, &message[..2], 3),
                ("spent, idle", &self.stages[0].clone(), &message, 10),
                ("spent, complete", &self.complete(), &message, 10),
                ("spent, short flash", &short, &message, 8),
                ("spent, wrong number", &pair, &number, 11),
                ("spent, a byte less", &pair, &message[..ends - 1], 12),
                ("spent, a byte more", &pair, &longer, 12),
                ("spent, wrong block", &pair, &block, 20),
                ("spent, wrong hash", &pair, &hash, 20),
                ("spent, touched", &touched, &message, 20),
                ("spent, wrong and touched", &touched, &block, 20),
            ] {
                self.within(what, pair, message, budget, due)?;
            }
        }
        Ok(())
    }
}

//! Random lists of messages and budgets to the library's device and to the model's.

use std::collections::HashMap;

use crate::compare::Compared;
use crate::coverage::Coverage;
use crate::craft::Author;
use crate::damage::{damage, noise, resize};
use crate::device::{Device, Stage};
use crate::ends::subject;
use crate::layout::STAGE_AT;
use crate::lms::number;
use crate::manifest::Manifest;
use crate::pair::Pair;
use crate::plan::Plan;
use crate::rng::Rng;
use crate::signer::Signer;
use crate::touch::touched;

/// One list of messages.
pub struct List<'a> {
    author: Author<'a>,
    pair: Pair,
    history: Vec<Vec<u8>>,
}

impl<'a> List<'a> {
    pub fn new(mut rng: Rng, signers: &'a [[Signer; 2]], large: bool) -> Compared<List<'a>> {
        let [signer, stranger] = &signers[pick_key(&mut rng, signers)];
        let plan = if large {
            Plan::large(&mut rng)
        } else {
            Plan::small(&mut rng)
        };
        let model = rng.u32();
        let pair = Pair::fresh(&mut rng, model, &signer.key, plan.flash_length)?;
        let author = Author {
            rng,
            plan,
            model,
            signer,
            stranger,
            images: HashMap::new(),
        };
        Ok(List {
            author,
            pair,
            history: Vec::new(),
        })
    }

    pub fn length(&self) -> usize {
        self.author.plan.calls
    }

    /// Makes the next message, hands it over and compares.
    pub fn step(&mut self, coverage: &mut Coverage) -> Compared<()> {
        let message = self.message(&self.pair.device());
        self.others(&message);
        let kind = message.first().map_or(0, |kind| *kind as usize);
        let answer = self
            .call(&message, coverage)
            .map_err(|what| format!("kind {kind}, {} bytes: {what}", message.len()))?;
        coverage.count(if kind <= 4 { kind } else { 0 }, answer);
        match &self.pair.device().stage {
            Stage::Idle => {}
            Stage::Loading { held, .. } => coverage.held(held.len()),
            Stage::Complete { manifest } => coverage.completed(manifest.blocks()),
        }
        if kind == 4 && answer == 0 {
            let n = Manifest::read(&message[1..49]).blocks();
            coverage.path_update(n, number(&message[49..51]) as usize);
        }
        self.history.push(message);
        Ok(())
    }

    /// What becomes of the flash between two calls.
    fn others(&mut self, message: &[u8]) {
        let (rng, plan) = (&mut self.author.rng, &self.author.plan);
        if rng.percent(plan.put_back) {
            self.pair.put_back();
        }
        if rng.percent(plan.touched) {
            let flash = touched(rng, &self.pair, message);
            self.pair.put_flash(flash);
        }
    }

    fn call(&mut self, message: &[u8], coverage: &mut Coverage) -> Compared<u32> {
        let (rng, plan) = (&mut self.author.rng, &self.author.plan);
        if !rng.percent(plan.aside) {
            let tight = rng.percent(plan.tight);
            let budget = plan.budget(rng, &self.pair, message);
            return match subject(&self.pair.device(), message) {
                Some((manifest, _)) if tight => {
                    let length = manifest.image_length as usize - rng.one_in(4) as usize;
                    self.pair.call_within(length, message, budget, coverage)
                }
                _ => self.pair.call(message, budget, coverage),
            };
        }
        let mut other = self.pair.changed(rng);
        let budget = plan.budget(rng, &other, message);
        let answer = other.call(message, budget, coverage)?;
        // A device that went on from odd bytes is worth following, if it has its model, key and
        // whole flash.
        if answer == 0
            && other.state[..STAGE_AT] == self.pair.state[..STAGE_AT]
            && other.flash.len() == self.pair.flash.len()
            && rng.percent(plan.followed)
        {
            self.pair = other;
        }
        Ok(answer)
    }

    fn message(&mut self, device: &Device) -> Vec<u8> {
        let author = &mut self.author;
        if author.rng.percent(author.plan.honest) {
            return author.honest(device);
        }
        match author.rng.below(16) {
            0..=3 => {
                let mut message = author.honest(device);
                let p = &author.signer.parameters;
                damage(&mut author.rng, p, device, &mut message);
                message
            }
            4..=7 => {
                let mut message = if author.rng.one_in(2) {
                    author.honest(device)
                } else {
                    author.faulty(device)
                };
                let p = &author.signer.parameters;
                resize(&mut author.rng, p, device, &mut message);
                message
            }
            8 | 9 if !self.history.is_empty() => {
                let at = author.rng.below(self.history.len());
                self.history[at].clone()
            }
            10..=14 => author.faulty(device),
            _ => noise(&mut author.rng),
        }
    }
}

/// Keys of 8-bit digits are slow, and rarer for that.
fn pick_key(rng: &mut Rng, signers: &[[Signer; 2]]) -> usize {
    loop {
        let index = rng.below(signers.len());
        if signers[index][0].parameters.width == 4 || rng.one_in(8) {
            return index;
        }
    }
}

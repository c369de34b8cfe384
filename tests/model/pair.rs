//! A device of the library and one of the model, which get the same messages and budgets. After
//! every call answer, compressions, state and flash are compared, what both read off the state, and
//! the boot check.

use crate::budget;
use crate::capi;
use crate::compare::{Compared, same, same_answer, same_count};
use crate::coverage::{BOOT_CHECK, Coverage};
use crate::damage::damage_state;
use crate::device::Device;
use crate::edge;
use crate::ends::{Call, subject};
use crate::layout::{self, MANIFEST_AT, STATE_LENGTH};
use crate::lending::{Lending, boot_reach, reach};
use crate::lent::Lent;
use crate::manifest::{Outcome, STATE};
use crate::readers::{self, BEFORE};
use crate::regions::Meeting;
use crate::rng::Rng;

/// Both devices, each with its own state and flash.
#[derive(Clone)]
pub struct Pair {
    library_state: Lent,
    library_flash: Lent,
    pub state: Vec<u8>,
    pub flash: Vec<u8>,
    /// The flash as it would be had nobody but the device written to it. What it has beyond the
    /// flash's length counts for nothing.
    untouched: Vec<u8>,
    /// What the last accepted block took the place of, and where that is.
    pub overwritten: (usize, Vec<u8>),
}

impl Pair {
    /// A fresh device. What the header leaves free in its state is taken from the library.
    pub fn fresh(rng: &mut Rng, model: u32, key: &[u8], flash_length: usize) -> Compared<Pair> {
        let mut library_state = Lent::new(&rng.bytes(STATE_LENGTH));
        capi::fresh(model, key.try_into().unwrap(), &mut library_state);
        let mut state = layout::fresh(model, key);
        state.extend(&library_state.bytes()[MANIFEST_AT..]);
        same("fresh state", &library_state, &state)?;
        let flash = rng.bytes(flash_length);
        Ok(Pair {
            library_flash: Lent::new(&flash),
            library_state,
            state,
            untouched: flash.clone(),
            flash,
            overwritten: (0, Vec::new()),
        })
    }

    pub fn call(&mut self, message: &[u8], budget: u32, coverage: &mut Coverage) -> Compared<u32> {
        let before = layout::read(&self.state).ok();
        let (flash, untouched) = (&self.flash, &self.untouched);
        let meeting = before
            .as_ref()
            .and_then(|device| Meeting::new(device, flash, untouched, message, budget));
        let outcome = layout::receive(&mut self.state, &mut self.flash, message, budget);
        let answer = self.receive(before.as_ref(), message, budget, outcome, coverage)?;
        coverage.count(BOOT_CHECK, self.boot_check()?);
        readers::compare(&self.state, coverage)?;
        if let Some(device) = &before {
            edge::count(device, message, answer, coverage);
            budget::count(device, message, budget, answer, coverage);
        }
        if let (Some(device), true) = (&before, answer != STATE) {
            let call = Call {
                device,
                flash: &self.flash,
                message,
                answer,
            };
            call.count(coverage);
        }
        if let Some(meeting) = meeting {
            meeting.count(answer, coverage);
        }
        if let (Some(device), 0) = (before, answer) {
            self.follow(&device, message);
        }
        Ok(answer)
    }

    /// The library's device gets the message, and is lent no more than it may touch where this
    /// outcome is due. A block that it takes costs what it said before.
    fn receive(
        &mut self,
        before: Option<&Device>,
        message: &[u8],
        budget: u32,
        outcome: Outcome<u32>,
        coverage: &mut Coverage,
    ) -> Compared<u32> {
        let length = self.flash.len();
        let lending = Lending {
            message,
            budget,
            answer: outcome.err().unwrap_or(0),
            reach: before.map_or(0..length, |device| reach(device, message, length)),
        };
        let (mut said, mut reported) = ([BEFORE; 3], [BEFORE; 3]);
        capi::block_cost(self.library_state.bytes(), &mut said);
        let library = capi::receive(
            &mut self.library_state,
            &mut self.library_flash,
            &lending,
            &mut reported,
        );
        if let Some(device) = before {
            lending.count(device, &self.library_flash, coverage);
        }
        let answer = readers::compare_compressions(library, reported, outcome)?;
        if (message.first(), answer) == (Some(&2), 0) {
            same_count(said, reported).map_err(|what| format!("said before the block: {what}"))?;
        }
        Ok(answer)
    }

    /// The least budget that suffices for a message: what the block costs that is due. Other kinds
    /// need none.
    pub fn least_budget(&self, message: &[u8]) -> u32 {
        match message.first() {
            Some(2) => budget::due(layout::read(&self.state).ok().as_ref()),
            _ => 0,
        }
    }

    /// The block of an accepted message goes to the untouched flash as well.
    fn follow(&mut self, device: &Device, message: &[u8]) {
        let (manifest, i) = subject(device, message).expect("an accepted message");
        if i > 0 {
            let place = manifest.place(i);
            self.overwritten = (place.start, self.untouched[place.clone()].to_vec());
            self.untouched[place.clone()].copy_from_slice(&self.flash[place]);
        }
    }

    /// The boot check, and behind it a look at state and flash, which it must leave as they are.
    pub fn boot_check(&self) -> Compared<u32> {
        let length = self.flash.len();
        let device = layout::read(&self.state).ok();
        let reach = device.map_or(0..length, |device| boot_reach(&device, length));
        let library = capi::boot_check(&self.library_state, &self.library_flash, &reach);
        same("state", &self.library_state, &self.state)?;
        same("flash", &self.library_flash, &self.flash)?;
        let answer = layout::boot_check(&self.state, &self.flash);
        same_answer(library, answer).map_err(|what| format!("boot check: {what}"))?;
        Ok(answer)
    }

    /// Somebody else writes the whole state.
    pub fn put_state(&mut self, state: Vec<u8>) {
        self.library_state = Lent::new(&state);
        self.state = state;
    }

    /// Somebody else writes the whole flash.
    pub fn put_flash(&mut self, flash: Vec<u8>) {
        self.library_flash = Lent::new(&flash);
        self.flash = flash;
    }

    /// Somebody puts back what the device had left in the flash.
    pub fn put_back(&mut self) {
        let untouched = &self.untouched[..self.flash.len()];
        if self.flash != untouched {
            self.put_flash(untouched.to_vec());
        }
    }

    /// A call that is lent so many bytes of the flash, or all that there are; the rest stays.
    pub fn call_within(
        &mut self,
        length: usize,
        message: &[u8],
        budget: u32,
        coverage: &mut Coverage,
    ) -> Compared<u32> {
        let mut lent = self.flash.clone();
        let rest = lent.split_off(length.min(lent.len()));
        self.put_flash(lent);
        let answer = self.call(message, budget, coverage);
        self.put_flash([&self.flash[..], &rest].concat());
        answer
    }

    pub fn device(&self) -> Device {
        layout::read(&self.state).expect("fresh, or left by an accepted message")
    }

    /// The same pair with a flash of so many bytes, or of all that it has.
    pub fn cut(&self, flash_length: usize) -> Pair {
        let mut other = self.clone();
        let length = flash_length.min(self.flash.len());
        other.put_flash(self.flash[..length].to_vec());
        other
    }

    /// The same pair with another state, another flash length or both.
    pub fn changed(&self, rng: &mut Rng) -> Pair {
        let what = rng.below(10);
        let mut other = if what < 4 {
            // The image's length, or a byte less or more, or any.
            let device = self.device();
            let manifest = device.manifest();
            let due = manifest.map_or(self.flash.len(), |m| m.image_length as usize);
            let any = rng.below(due + 1);
            self.cut(rng.pick(&[0, due.saturating_sub(1), due, due + 1, any]))
        } else {
            self.clone()
        };
        if what >= 3 {
            let mut state = self.state.clone();
            damage_state(rng, &mut state);
            other.put_state(state);
        }
        other
    }
}

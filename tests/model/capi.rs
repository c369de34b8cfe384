//! The C library (include/lertxuno.h). Byte arrays that it reads or writes are lent (lent.rs), those
//! that it only reads for reading alone.

use std::ops::Range;

use crate::fault::during;
use crate::lending::Lending;
use crate::lent::{Access, Lent};
use crate::sender::Order;

#[link(name = "capi", kind = "static")]
unsafe extern "C" {
    fn lertxuno_digest(message: *const u8, length: usize, out: *mut u8) -> usize;
    fn lertxuno_verify(
        key: *const u8,
        key_length: usize,
        message: *const u8,
        message_length: usize,
        signature: *const u8,
        signature_length: usize,
    ) -> u32;
    fn lertxuno_manifest(
        image: *const u8,
        image_length: usize,
        block_length: u32,
        model: u32,
        serial: u32,
        out: *mut u8,
        room: usize,
        written: *mut usize,
    ) -> u32;
    fn lertxuno_program(
        image: *const u8,
        image_length: usize,
        block_length: u32,
        model: u32,
        serial: u32,
        signature: *const u8,
        signature_length: usize,
        out: *mut u8,
        room: usize,
        written: *mut usize,
    ) -> u32;
    fn lertxuno_block(
        image: *const u8,
        image_length: usize,
        block_length: u32,
        number: u32,
        out: *mut u8,
        room: usize,
        written: *mut usize,
    ) -> u32;
    fn lertxuno_update(
        image: *const u8,
        image_length: usize,
        block_length: u32,
        model: u32,
        serial: u32,
        number: u32,
        signature: *const u8,
        signature_length: usize,
        out: *mut u8,
        room: usize,
        written: *mut usize,
    ) -> u32;
    fn lertxuno_path_update(
        image: *const u8,
        image_length: usize,
        block_length: u32,
        model: u32,
        serial: u32,
        number: u32,
        signature: *const u8,
        signature_length: usize,
        out: *mut u8,
        room: usize,
        written: *mut usize,
    ) -> u32;
    fn lertxuno_ihex(
        text: *const u8,
        text_length: usize,
        base: u32,
        length: usize,
        out: *mut u8,
        room: usize,
        line: *mut usize,
    ) -> u32;
    fn lertxuno_fresh(model: u32, key: *const u8, state: *mut u8);
    fn lertxuno_receive(
        state: *mut u8,
        state_length: usize,
        flash: *mut u8,
        flash_length: usize,
        message: *const u8,
        message_length: usize,
        budget: u32,
        compressions: *mut u32,
    ) -> u32;
    fn lertxuno_status(state: *const u8, state_length: usize, out: *mut u32) -> u32;
    fn lertxuno_block_message_length(
        state: *const u8,
        state_length: usize,
        length: *mut usize,
    ) -> u32;
    fn lertxuno_block_cost(state: *const u8, state_length: usize, compressions: *mut u32) -> u32;
    fn lertxuno_boot_check(
        state: *const u8,
        state_length: usize,
        flash: *const u8,
        flash_length: usize,
    ) -> u32;
}

/// The digest, and the compressions that it took.
pub fn digest(message: &[u8]) -> (Lent, usize) {
    let (message, mut out) = (Lent::new(message), Lent::new(&[0; 32]));
    let ((m, ml), (o, ol)) = (message.parts(), out.parts_mut());
    // SAFETY (here and below): the header's terms are kept: no null pointer but for an empty array,
    // lengths as lent, written memory overlaps nothing.
    let compressions = during(
        "lertxuno_digest",
        &[("message", m, ml), ("output", o, ol)],
        || unsafe { lertxuno_digest(m, ml, o) },
    );
    (out, compressions)
}

pub fn verify(key: &[u8], message: &[u8], signature: &[u8]) -> u32 {
    let [key, message, signature] = [key, message, signature].map(Lent::new);
    let ((k, kl), (m, ml), (s, sl)) = (key.parts(), message.parts(), signature.parts());
    let arrays = [("key", k, kl), ("message", m, ml), ("signature", s, sl)];
    during("lertxuno_verify", &arrays, || unsafe {
        lertxuno_verify(k, kl, m, ml, s, sl)
    })
}

/// Which sender function, with what it is given beyond the image and its values.
#[derive(Clone, Copy)]
pub enum Send<'a> {
    Manifest,
    Program(&'a [u8]),
    Block(u32),
    /// The kind comes first, 3 or 4.
    Update(u8, u32, &'a [u8]),
}

impl Send<'_> {
    /// Empty where the function takes none.
    fn signature(&self) -> &[u8] {
        match self {
            Send::Program(signature) | Send::Update(_, _, signature) => signature,
            _ => &[],
        }
    }

    fn name(&self) -> &str {
        match self {
            Send::Manifest => "lertxuno_manifest",
            Send::Program(_) => "lertxuno_program",
            Send::Block(_) => "lertxuno_block",
            Send::Update(3, ..) => "lertxuno_update",
            Send::Update(..) => "lertxuno_path_update",
        }
    }
}

pub fn send(order: &Order, what: Send, out: &mut Lent, written: &mut usize) -> u32 {
    let (image, signature) = (Lent::new(order.image), Lent::new(what.signature()));
    let ((image, length), (s, sl)) = (image.parts(), signature.parts());
    let (block, model, serial) = (order.block_length, order.model, order.serial);
    let (out, room) = out.parts_mut();
    let arrays = [
        ("image", image, length),
        ("signature", s, sl),
        ("output", out, room),
    ];
    let call = || unsafe {
        match what {
            Send::Manifest => {
                lertxuno_manifest(image, length, block, model, serial, out, room, written)
            }
            Send::Program(_) => lertxuno_program(
                image, length, block, model, serial, s, sl, out, room, written,
            ),
            Send::Block(i) => lertxuno_block(image, length, block, i, out, room, written),
            Send::Update(kind, i, _) => {
                let update = if kind == 3 {
                    lertxuno_update
                } else {
                    lertxuno_path_update
                };
                update(
                    image, length, block, model, serial, i, s, sl, out, room, written,
                )
            }
        }
    };
    during(what.name(), &arrays, call)
}

/// The line's number, and a guard on each side of it.
pub type LineNumber = [usize; 3];

pub fn ihex(text: &[u8], base: u32, length: usize, out: &mut Lent, line: &mut LineNumber) -> u32 {
    let text = Lent::new(text);
    let ((t, tl), (out, room)) = (text.parts(), out.parts_mut());
    let arrays = [("text", t, tl), ("output", out, room)];
    during("lertxuno_ihex", &arrays, || unsafe {
        lertxuno_ihex(t, tl, base, length, out, room, &mut line[1])
    })
}

pub fn fresh(model: u32, key: &[u8; 56], state: &mut Lent) {
    let key = Lent::new(key);
    let ((k, kl), (s, sl)) = (key.parts(), state.parts_mut());
    let arrays = [("key", k, kl), ("state", s, sl)];
    during("lertxuno_fresh", &arrays, || unsafe {
        lertxuno_fresh(model, k, s)
    })
}

/// Both arrays in full, and of the flash the pages that hold one of these bytes open.
fn lend_device(
    (state, state_access): (&Lent, Access),
    (flash, flash_access): (&Lent, Access),
    reach: &Range<usize>,
    call: impl FnOnce(*mut u8, usize, *mut u8, usize) -> u32,
) -> u32 {
    let all = 0..state.bytes().len();
    state.lend(state_access, &all, |s, sl| {
        flash.lend(flash_access, reach, |f, fl| call(s, sl, f, fl))
    })
}

/// Compressions, and a guard on each side of them.
pub type Compressions = [u32; 3];

pub fn receive(
    state: &mut Lent,
    flash: &mut Lent,
    lending: &Lending,
    compressions: &mut Compressions,
) -> u32 {
    let message = Lent::new(lending.message);
    let (m, ml) = message.parts();
    let name = format!("lertxuno_receive of {lending},");
    flash.put_page_at(lending.page_at());
    let (state, flash) = (
        (&*state, lending.state_access()),
        (&*flash, lending.flash_access()),
    );
    lend_device(state, flash, &lending.reach, |s, sl, f, fl| {
        let arrays = [
            ("state", s as _, sl),
            ("flash", f as _, fl),
            ("message", m, ml),
        ];
        during(name, &arrays, || unsafe {
            lertxuno_receive(s, sl, f, fl, m, ml, lending.budget, &mut compressions[1])
        })
    })
}

/// The seven numbers, and a guard on each side of them.
pub type Status = [u32; 9];

pub fn status(state: &[u8], out: &mut Status) -> u32 {
    let state = Lent::new(state);
    let (s, sl) = state.parts();
    during("lertxuno_status", &[("state", s, sl)], || unsafe {
        lertxuno_status(s, sl, out[1..].as_mut_ptr())
    })
}

pub fn block_message_length(state: &[u8], length: &mut usize) -> u32 {
    let state = Lent::new(state);
    let (s, sl) = state.parts();
    let arrays = [("state", s, sl)];
    during("lertxuno_block_message_length", &arrays, || unsafe {
        lertxuno_block_message_length(s, sl, length)
    })
}

pub fn block_cost(state: &[u8], compressions: &mut Compressions) -> u32 {
    let state = Lent::new(state);
    let (s, sl) = state.parts();
    during("lertxuno_block_cost", &[("state", s, sl)], || unsafe {
        lertxuno_block_cost(s, sl, &mut compressions[1])
    })
}

/// The part of the flash is the one that may be read.
pub fn boot_check(state: &Lent, flash: &Lent, reach: &Range<usize>) -> u32 {
    let (state, flash) = ((state, Access::Read), (flash, Access::Read));
    lend_device(state, flash, reach, |s, sl, f, fl| {
        let arrays = [("state", s as _, sl), ("flash", f as _, fl)];
        during("lertxuno_boot_check", &arrays, || unsafe {
            lertxuno_boot_check(s, sl, f, fl)
        })
    })
}

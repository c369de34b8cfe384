//! The library's Intel HEX reader against the model: answer, line and whole buffer.

use crate::capi::{self, LineNumber};
use crate::compare::{Compared, same, same_answer};
use crate::coverage::Coverage;
use crate::hexcases::Call;
use crate::hexdamage;
use crate::hextexts;
use crate::ihex::{ADDRESSES, LONGEST, Reading, check_request, read};
use crate::lent::Lent;
use crate::rng::Rng;

/// What the reader is given.
pub struct Request {
    pub text: Vec<u8>,
    pub base: u32,
    pub length: usize,
    pub room: usize,
}

impl Request {
    pub fn new(text: impl Into<Vec<u8>>, base: u32, length: usize, room: usize) -> Request {
        Request {
            text: text.into(),
            base,
            length,
            room,
        }
    }
}

/// One call of the reader, with a text, a length and a room that are right or not.
pub fn random(rng: &mut Rng, coverage: &mut Coverage) -> Compared<()> {
    let mut length = hextexts::length(rng);
    let mut base = hextexts::base(rng, length);
    let text = if rng.one_in(100) {
        Vec::new()
    } else {
        hexdamage::text(rng, base, length)
    };
    let mut room = room(rng, length);
    if rng.one_in(12) {
        (base, length) = wrong_size(rng, base, length);
        room = rng.pick(&[room, length.min(LONGEST + 1), 0]);
    }
    compare(rng, &Request::new(text, base, length, room), coverage)?;
    Ok(())
}

/// Room for the image, for a byte less or more, for more, or for any number of bytes up to it.
fn room(rng: &mut Rng, length: usize) -> usize {
    let (more, any) = (length + rng.below(40), rng.below(length));
    match rng.below(12) {
        0 => length - 1,
        1 => rng.pick(&[0, any]),
        2 => length + 1,
        3..=5 => more,
        _ => length,
    }
}

/// A length that is not allowed, be it right in its low bits, or a last byte that has no address.
fn wrong_size(rng: &mut Rng, base: u32, length: usize) -> (u32, usize) {
    // The sum of both is 0 in 64 bits, and little more.
    let around = rng.below(3).wrapping_sub(base as usize);
    let above = (ADDRESSES - length as u64 + 1).min(ADDRESSES - 1) as u32;
    let lengths = [
        0,
        LONGEST + 1,
        (1 << 16) + length,
        (1 << 32) + length,
        (1 << 63) + length,
        around,
        usize::MAX,
    ];
    match rng.below(4) {
        0 => (above, length.max(2)),
        1 => (rng.pick(&[u32::MAX, above]), LONGEST),
        _ => (base, rng.pick(&lengths)),
    }
}

/// What stands in the buffer before the call.
fn buffer(rng: &mut Rng, room: usize) -> Vec<u8> {
    match rng.below(8) {
        0 => vec![0; room],
        1 => vec![0xff; room],
        _ => rng.bytes(room),
    }
}

/// One call: the answer, the line's number, and the buffer after it.
pub fn compare(
    rng: &mut Rng,
    request: &Request,
    coverage: &mut Coverage,
) -> Compared<(u32, usize, Vec<u8>)> {
    let Request {
        text,
        base,
        length,
        room,
    } = request;
    let mut out = buffer(rng, *room);
    let mut library_out = Lent::new(&out);
    let before = rng.next() as usize;
    let mut library_line = [before; 3];
    let reading = Reading::new(text, *base, (*length).min(LONGEST));
    let refused = check_request(*base, *length, *room);
    let (answer, line) = read(&reading, refused, &mut out);
    let library = capi::ihex(text, *base, *length, &mut library_out, &mut library_line);
    same_answer(library, answer)
        .and_then(|()| same_line(library_line, [before, line, before]))
        .and_then(|()| same("buffer", &library_out, &out))
        .map_err(|e| format!("{}: {e}", shown(request)))?;
    let call = Call {
        request,
        reading: &reading,
        answer,
    };
    call.count(coverage);
    Ok((answer, line, out))
}

fn same_line(library: LineNumber, model: LineNumber) -> Compared<()> {
    if library == model {
        return Ok(());
    }
    Err(format!("line: library {library:?}, model {model:?}"))
}

/// The call, so that it can be made by hand; of a long text only the start.
fn shown(request: &Request) -> String {
    let Request {
        text,
        base,
        length,
        room,
    } = request;
    let start = text[..text.len().min(2000)].escape_ascii();
    let bytes = text.len();
    format!("base {base}, length {length}, room {room}, text of {bytes} bytes \"{start}\"")
}

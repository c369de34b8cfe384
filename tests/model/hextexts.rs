//! Texts in Intel HEX that denote an image: in pieces of any length and order, with gaps, and in
//! every form that the rules leave free.

use crate::ihex::{ADDRESSES, DATA, END, LONGEST, Record, UPPER};
use crate::rng::Rng;

/// A part of the image, at its address.
#[derive(Clone)]
pub struct Piece {
    pub at: u32,
    pub data: Vec<u8>,
}

pub fn length(rng: &mut Rng) -> usize {
    let (small, middle, any) = (
        rng.range(2, 40),
        rng.range(41, 700),
        rng.range(1, LONGEST - 1),
    );
    rng.pick(&[1, 1, 2, 3, small, small, small, middle, 256, LONGEST, any])
}

/// An address for an image of so many bytes: at either end of all addresses, or so that the image
/// goes over a multiple of 64 KiB or ends or begins at it.
pub fn base(rng: &mut Rng, length: usize) -> u32 {
    let top = ADDRESSES - length as u64;
    let upper = rng.next() % 65_536;
    let bound = rng.pick(&[1, 1, 2, 0x8000, upper]) << 16;
    let near = bound.saturating_sub(rng.below(length + 2) as u64);
    let (low, high) = (rng.next() % 3, top - rng.next() % 3);
    let any = rng.next() % top;
    let base = rng.pick(&[0, 0, low, near, near, near, top, high, any]);
    base.min(top) as u32
}

/// A text's records have up to `most` bytes, fewer than `gap` stand between two of them, and one in
/// `moved` goes to the image's end.
struct Measure {
    most: usize,
    gap: usize,
    moved: usize,
}

impl Measure {
    fn new(rng: &mut Rng, length: usize) -> Measure {
        // A long image mostly has few records: many take long.
        let sparse = length > 1000 && !rng.one_in(10);
        let gap = rng.pick(&[1, 1, 3, length / 2 + 1]);
        let counts: &[usize] = if length > 1000 {
            &[16, 32, 255]
        } else {
            &[1, 2, 4, 16, 255]
        };
        Measure {
            most: rng.pick(counts),
            gap: if sparse { length / 2 } else { gap },
            moved: if sparse { 4 } else { length },
        }
    }
}

/// Pieces that name no byte twice and none outside, in the order of a text.
pub fn pieces(rng: &mut Rng, base: u32, length: usize) -> Vec<Piece> {
    let measure = Measure::new(rng, length);
    let mut pieces = Vec::new();
    let mut at = rng.below(measure.gap);
    while at < length {
        let any = rng.range(1, measure.most);
        let count = rng.pick(&[measure.most, measure.most, any]);
        if rng.one_in(measure.moved) {
            at = at.max(length.saturating_sub(count));
        }
        let count = count.min(length - at);
        pieces.push(Piece {
            at: base + at as u32,
            data: data(rng, count),
        });
        at += count + rng.below(measure.gap);
    }
    reorder(rng, &mut pieces);
    pieces
}

/// Any bytes; at times 0xFF, as if they were not named.
pub fn data(rng: &mut Rng, count: usize) -> Vec<u8> {
    if rng.one_in(6) {
        return vec![0xff; count];
    }
    rng.bytes(count)
}

fn reorder(rng: &mut Rng, pieces: &mut [Piece]) {
    match rng.below(6) {
        0 => pieces.reverse(),
        1 | 2 => {
            for last in 1..pieces.len() {
                pieces.swap(last, rng.below(last + 1));
            }
        }
        _ => {}
    }
}

/// The address field of a record that has no use for it.
fn free_address(rng: &mut Rng) -> u16 {
    let any = rng.next() as u16;
    rng.pick(&[0, any])
}

fn upper_record(rng: &mut Rng, upper: u16) -> Record {
    Record {
        kind: UPPER,
        address: free_address(rng),
        data: upper.to_be_bytes().to_vec(),
    }
}

/// The pieces with the 04 records that they need, and some that they do not; records without data;
/// the end.
pub fn records(rng: &mut Rng, pieces: &[Piece]) -> Vec<Record> {
    let mut records = Vec::new();
    let mut upper = 0;
    let idle = rng.pick(&[4, 20, 200]);
    for piece in pieces {
        let due = (piece.at >> 16) as u16;
        if rng.one_in(idle) {
            upper = rng.pick(&[0, due ^ 1, due.wrapping_add(1), 0xffff]);
            records.push(upper_record(rng, upper));
        }
        if upper != due || rng.one_in(idle) {
            upper = due;
            records.push(upper_record(rng, upper));
        }
        if rng.one_in(idle) {
            records.push(Record {
                kind: DATA,
                address: rng.next() as u16,
                data: Vec::new(),
            });
        }
        records.push(Record {
            kind: DATA,
            address: piece.at as u16,
            data: piece.data.clone(),
        });
    }
    records.push(Record {
        kind: END,
        address: free_address(rng),
        data: Vec::new(),
    });
    records
}

/// Percent of lower case letters, and of lines that end in CR LF.
pub struct Form {
    lower: usize,
    cr: usize,
}

impl Form {
    pub fn new(rng: &mut Rng) -> Form {
        Form {
            lower: rng.pick(&[0, 0, 100, 50]),
            cr: rng.pick(&[0, 0, 100, 50]),
        }
    }

    /// A line of a record's bytes.
    pub fn line(&self, rng: &mut Rng, bytes: &[u8]) -> Vec<u8> {
        let mut line = vec![b':'];
        for digit in bytes.iter().flat_map(|byte| [byte >> 4, byte & 15]) {
            let digits = if digit > 9 && rng.percent(self.lower) {
                b"0123456789abcdef"
            } else {
                b"0123456789ABCDEF"
            };
            line.push(digits[digit as usize]);
        }
        let end: &[u8] = if rng.percent(self.cr) { b"\r\n" } else { b"\n" };
        line.extend(end);
        line
    }
}

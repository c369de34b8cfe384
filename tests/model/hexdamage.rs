//! Faults in Intel HEX texts, at every step of their making: pieces outside the image or named
//! again, wrong records, wrong bytes in a record, wrong characters in a line, damage to the whole.

use crate::damage::damage_byte;
use crate::hextexts::{Form, Piece, data, pieces, records};
use crate::ihex::{END, Record, UPPER, sum};
use crate::rng::Rng;

/// A text for the image, right or with up to four faults, which may hide one another.
pub fn text(rng: &mut Rng, base: u32, length: usize) -> Vec<u8> {
    let mut steps = [0; 6];
    for _ in 0..rng.pick(&[0, 0, 0, 1, 1, 1, 2, 2, 3, 4]) {
        // Places, for they are harder to get wrong, more often.
        steps[rng.pick(&[0, 0, 0, 1, 2, 3, 4, 5])] += 1;
    }
    let mut pieces = pieces(rng, base, length);
    (0..steps[0]).for_each(|_| misplace(rng, &mut pieces, base, length));
    let mut records = records(rng, &pieces);
    (0..steps[1]).for_each(|_| damage_records(rng, &mut records));
    let mut bytes: Vec<_> = records.iter().map(Record::bytes).collect();
    (0..steps[2]).for_each(|_| some(rng, &mut bytes, damage_bytes));
    let form = Form::new(rng);
    let mut lines: Vec<_> = bytes.iter().map(|bytes| form.line(rng, bytes)).collect();
    (0..steps[3]).for_each(|_| some(rng, &mut lines, damage_line));
    (0..steps[4]).for_each(|_| damage_lines(rng, &mut lines));
    let mut text = lines.concat();
    (0..steps[5]).for_each(|_| damage_text(rng, &mut text));
    text
}

/// Damages one of them, if there is one.
fn some(rng: &mut Rng, from: &mut [Vec<u8>], damage: fn(&mut Rng, &mut Vec<u8>)) {
    if !from.is_empty() {
        let at = rng.below(from.len());
        damage(rng, &mut from[at]);
    }
}

/// One more piece, at any place of the text: at the image's edges, at the ends of all addresses,
/// anywhere, or over another piece.
fn misplace(rng: &mut Rng, pieces: &mut Vec<Piece>, base: u32, length: usize) {
    let count = rng.range(1, 4);
    let end = base.wrapping_add(length as u32);
    let any = rng.u32();
    let (at, count) = match rng.below(9) {
        0 | 1 => (base.wrapping_sub(1), count),
        2 | 3 => (end.wrapping_sub(count as u32 - 1), count),
        4 => (0u32.wrapping_sub(count as u32), count + rng.below(4)),
        5 => (rng.pick(&[any, end, base ^ 1 << 16, base ^ 1 << 31]), count),
        _ => match overlapping(rng, pieces) {
            Some(again) => return pieces.insert(rng.below(pieces.len() + 1), again),
            None => (base, count),
        },
    };
    let data = data(rng, count);
    pieces.insert(rng.below(pieces.len() + 1), Piece { at, data });
}

/// A piece with bytes of another: all of them, with the same values or others, or its last one and
/// what follows, or its first one and what stands before.
fn overlapping(rng: &mut Rng, pieces: &[Piece]) -> Option<Piece> {
    let other = pieces.get(rng.below(pieces.len().max(1)))?;
    let count = other.data.len() as u32;
    let more = rng.below(3) as u32;
    let (at, count) = match rng.below(4) {
        0 => return Some(other.clone()),
        1 => (other.at, count),
        2 => (other.at.wrapping_add(count - 1), 1 + more),
        _ => (other.at.wrapping_sub(more), 1 + more),
    };
    let data = data(rng, count as usize);
    Some(Piece { at, data })
}

/// Another record, one too many, one too few, or another order.
fn damage_records(rng: &mut Rng, records: &mut Vec<Record>) {
    let at = rng.below(records.len() + 1);
    let address = rng.next() as u16;
    let (kind, count) = match rng.below(8) {
        0 | 1 => (rng.pick(&[2, 3, 5, 6, 255]), rng.pick(&[0, 2, 4])),
        2 => (UPPER, rng.pick(&[0, 1, 3, 4])),
        3 => (END, rng.pick(&[1, 2])),
        4 => (END, 0),
        _ if records.is_empty() => return,
        5 => {
            records.pop();
            return;
        }
        6 => {
            records.remove(at.min(records.len() - 1));
            return;
        }
        _ => {
            let (one, other) = (rng.below(records.len()), rng.below(records.len()));
            return records.swap(one, other);
        }
    };
    let data = rng.bytes(count);
    let record = Record {
        kind,
        address,
        data,
    };
    records.insert(at, record);
}

/// A wrong checksum; or a wrong count, a byte more or less or very few bytes with a right one.
fn damage_bytes(rng: &mut Rng, bytes: &mut Vec<u8>) {
    let last = bytes.len().saturating_sub(1);
    match rng.below(6) {
        0 if !bytes.is_empty() => damage_byte(rng, bytes, last..last + 1),
        // As if it were the sum itself, or its complement.
        1 if !bytes.is_empty() => {
            let right = bytes[last];
            bytes[last] = rng.pick(&[right.wrapping_neg(), right.wrapping_sub(1)]);
        }
        2 if !bytes.is_empty() => {
            damage_byte(rng, bytes, 0..1);
            fit(bytes);
        }
        3 => {
            bytes.push(rng.next() as u8);
            fit(bytes);
        }
        4 => {
            bytes.pop();
            fit(bytes);
        }
        _ => {
            bytes.truncate(rng.below(5));
            fit(bytes);
        }
    }
}

/// Makes the last byte the right checksum.
fn fit(bytes: &mut [u8]) {
    if let Some((last, rest)) = bytes.split_last_mut() {
        *last = sum(rest).wrapping_neg();
    }
}

/// A line that begins or ends in another way, has other characters, or some more or less.
fn damage_line(rng: &mut Rng, line: &mut Vec<u8>) {
    let at = rng.below(line.len() + 1);
    match rng.below(6) {
        0 => {
            let starts: [&[u8]; 6] = [b"", b"::", b";", b" :", b"0", b"\xef\xbb\xbf:"];
            line.splice(..line.len().min(1), rng.pick(&starts).to_vec());
        }
        1 => {
            let body = line.trim_ascii_end().len();
            let ends: [&[u8]; 9] = [
                b"", b"\r", b"\r\r\n", b"\n\r", b" \n", b"\t\r\n", b"\r \n", b"\0\n", b"\n\n",
            ];
            line.splice(body.., rng.pick(&ends).to_vec());
        }
        2 => line.insert(at, odd_byte(rng)),
        3 if at < line.len() => line[at] = odd_byte(rng),
        4 => {
            line.drain(at..line.len().min(at + rng.range(1, 2)));
        }
        _ => {
            let more = [b'0'; 2];
            line.splice(at..at, more[..rng.range(1, 2)].to_vec());
        }
    }
}

/// A blank, a neighbour of the digits, a digit with a bit changed, or any byte.
fn odd_byte(rng: &mut Rng) -> u8 {
    let any = rng.next() as u8;
    let near = rng.pick(b"/:@G`g");
    let changed = rng.pick(b"09AFaf") ^ rng.pick(&[0x20, 0x40, 0x80]);
    rng.pick(&[b' ', b'\t', b'\r', b'\n', 0, near, near, changed, any])
}

/// A line dropped, doubled or moved, or one more that is empty or of blanks.
fn damage_lines(rng: &mut Rng, lines: &mut Vec<Vec<u8>>) {
    let at = rng.below(lines.len().max(1));
    let to = rng.below(lines.len() + 1);
    let blank: [&[u8]; 5] = [b"\n", b"\r\n", b" \n", b"\r", b":\n"];
    match rng.below(4) {
        0 if !lines.is_empty() => {
            lines.remove(at);
        }
        1 if !lines.is_empty() => lines.insert(to, lines[at].clone()),
        2 if !lines.is_empty() => lines[at..].rotate_left(1),
        _ => lines.insert(to, rng.pick(&blank).to_vec()),
    }
}

/// A byte changed, dropped or inserted anywhere, an end cut off, or bytes behind the end.
fn damage_text(rng: &mut Rng, text: &mut Vec<u8>) {
    let at = rng.below(text.len() + 1);
    match rng.below(7) {
        0 | 1 if at < text.len() => damage_byte(rng, text, at..at + 1),
        2 if at < text.len() => {
            text.remove(at);
        }
        3 => text.insert(at, odd_byte(rng)),
        4 => text.truncate(at),
        5 => text.truncate(text.len().saturating_sub(rng.range(1, 3))),
        _ => {
            let ends: [&[u8]; 6] = [b"\n", b"\r\n", b"\0", b" ", b"\x1a", b":00000001FF\n"];
            text.extend(rng.pick(&ends));
        }
    }
}

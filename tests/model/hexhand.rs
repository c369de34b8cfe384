//! Intel HEX by hand and in every run. The answers are written here, and library and model must
//! both give them.

use crate::compare::Compared;
use crate::coverage::Coverage;
use crate::hexcall::{Request, compare};
use crate::ihex::{self, DATA, LONGEST, Record, UPPER};
use crate::manifest::{AREA, PLACE, SIZE, TEXT, TWICE};
use crate::rng::Rng;

/// Base (base sixteen), length, answer, line's number, image (base sixteen, if there is one), text:
/// / is LF there, ~ CR, _ a blank.
const CASES: [&str; 82] = [
    // Accepted: the end record alone; either case and either end of line; records in any order,
    // without data, with a gap between; unnamed bytes, and a named one that is 0xFF.
    "7 3 0 0 ffffff :00000001FF/",
    "0 1 0 0 ff :00000001ff~/",
    "0 1 0 0 ff :00123401b9/",
    "0 1 0 0 41 :0100000041BE/:00000001FF/",
    "0 1 0 0 41 :0100000041bE~/:00000001Ff/",
    "0 3 0 0 4142ff :0100010042BC/:0100000041BE/:00000001FF/",
    "0 3 0 0 41ff43 :0100000041BE/:0100020043BA/:00000001FF/",
    "9 1 0 0 ff :0000000000/:00ABCD0088/:00000001FF/",
    "0 2 0 0 ffff :01000000FF00/:00000001FF/",
    // 04: needless, again, replaced, back to 0, with an address field; data over the 64 KiB.
    "0 1 0 0 41 :020000040000FA/:0100000041BE/:00000001FF/",
    "10000 1 0 0 41 :020000040001F9/:020000040001F9/:0100000041BE/:00000001FF/",
    "10000 1 0 0 41 :02000004FFFFFC/:02BEEF0400014C/:0100000041BE/:00000001FF/",
    "0 1 0 0 41 :020000040001F9/:020000040000FA/:0100000041BE/:00000001FF/",
    "ffff 2 0 0 0102 :02FFFF000102FD/:00000001FF/",
    "ffff 3 0 0 010242 :02FFFF000102FD/:020000040001F9/:0100010042BC/:00000001FF/",
    // At the end of all addresses.
    "ffffffff 1 0 0 01 :02000004FFFFFC/:01FFFF000100/:00000001FF/",
    "fffffffe 2 0 0 0102 :02000004FFFFFC/:02FFFE000102FE/:00000001FF/",
    // Before any line: lengths and last bytes.
    "0 0 5 0 - :00000001FF/",
    "0 32769 5 0 - :00000001FF/",
    "0 18446744073709551615 5 0 - :00000001FF/",
    "1 18446744073709551615 5 0 - :00000001FF/",
    "0 4294967297 5 0 - :00000001FF/",
    "ffffffff 2 5 0 - :00000001FF/",
    "ffff8001 32768 5 0 - :00000001FF/",
    "ffffffff 2 5 0 - x",
    // No end.
    "0 1 16 1 - ",
    "0 1 16 2 - :0100000041BE/",
    "0 1 16 3 - :020000040000FA~/:0100000041BE~/",
    // A line without LF, with CR alone, with more than CR LF.
    "0 1 16 1 - :00000001FF",
    "0 1 16 1 - :00000001FF~",
    "0 1 16 2 - :0100000041BE/:00000001FF",
    "0 1 16 1 - :0100000041BE~:00000001FF/",
    "0 1 16 1 - :00000001FF~~/",
    "0 1 16 2 - :00000001FF/~",
    // Behind the end.
    "0 1 16 2 - :00000001FF//",
    "0 1 16 2 - :00000001FF/_",
    "0 1 16 2 - :00000001FF/:00000001FF/",
    "0 1 16 2 - :00000001FF/:0100000041BE/",
    "0 1 16 1 - :00000001FF_/",
    "0 1 16 3 - :0100000041BE/:00000001FF/:0100010042BC/",
    // Empty lines, blanks, colons.
    "0 1 16 1 - /:00000001FF/",
    "0 1 16 1 - ~/:00000001FF/",
    "0 1 16 2 - :0100000041BE//:00000001FF/",
    "0 1 16 1 - _:00000001FF/",
    "0 1 16 1 - :_00000001FF/",
    "0 1 16 1 - 00000001FF/",
    "0 1 16 1 - ::00000001FF/",
    "0 1 16 1 - :/:00000001FF/",
    // Digits: one too few, one too many, none at all; bytes: too few, more or less than the count.
    "0 1 16 1 - :00000001F/",
    "0 1 16 1 - :00000001FF0/",
    "0 1 16 1 - :00000001FG/",
    "0 1 16 1 - :00/:00000001FF/",
    "0 1 16 1 - :00000000/:00000001FF/",
    "0 1 16 1 - :00000001FF00/",
    "0 1 16 1 - :0200000041BD/:00000001FF/",
    "0 1 16 1 - :0000000041BF/:00000001FF/",
    // Checksums.
    "0 1 16 1 - :0000000101/",
    "0 1 16 1 - :00000001FE/",
    "0 1 16 2 - :0100000041BE/:0000000100/",
    "0 1 16 1 - :0100000041BF/:00000001FF/",
    "0 1 16 1 - :020000040000FB/:00000001FF/",
    // Types, and data where there should be none, or two.
    "0 1 16 1 - :020000020000FC/:00000001FF/",
    "0 1 16 1 - :0400000300000000F9/:00000001FF/",
    "0 1 16 1 - :0400000500000000F7/:00000001FF/",
    "0 1 16 1 - :00000006FA/:00000001FF/",
    "0 1 16 1 - :000000FF01/:00000001FF/",
    "0 1 16 1 - :0100000100FE/",
    "0 1 16 1 - :00000004FC/:00000001FF/",
    "0 1 16 1 - :0100000400FB/:00000001FF/",
    "0 1 16 1 - :03000004000000F9/:00000001FF/",
    // Outside: by a byte on either side, over the end of all addresses.
    "1 1 17 1 - :0200000041427B/:00000001FF/",
    "0 1 17 1 - :0200000041427B/:00000001FF/",
    "0 1 17 2 - :020000040001F9/:0100000041BE/:00000001FF/",
    "ffffffff 1 17 2 - :02000004FFFFFC/:02FFFF000102FD/:00000001FF/",
    "0 1 17 2 - :02000004FFFFFC/:02FFFF000102FD/:00000001FF/",
    // Twice: the same, and another by its first or last byte.
    "0 1 18 2 - :0100000041BE/:0100000041BE/:00000001FF/",
    "0 2 18 2 - :0100000041BE/:0200000041427B/:00000001FF/",
    "0 2 18 3 - :01000000FF00/:0100010042BC/:0100000041BE/:00000001FF/",
    // Several: the earliest line, and within it 16, 17, 18.
    "0 1 17 2 - :0100000041BE/:0200000041427B/:00000001FF/",
    "0 1 16 2 - :0100000041BE/:0100000041BF/:00000001FF/",
    "0 1 18 2 - :0100000041BE/:0100000041BE/:0100010042BC/x",
    "0 1 17 1 - :0100010042BC/:0100000041BE/:0100000041BE/:00000001FE/",
];

const END: &str = ":00000001FF\n";

/// Over a multiple of 64 KiB.
const BASE: u32 = 0xfff0;

/// A text with all digits as a byte's first and second; the image has four bytes more.
const SHORT: &[u8] = b":020000040012E8\r\n\
    :14FFFC000123456789ABCDEFfedcba9876543210F0E1d2C393\n\
    :00000001FF\r\n";

fn text(written: &str) -> Vec<u8> {
    let byte = |byte| match byte {
        b'/' => b'\n',
        b'~' => b'\r',
        b'_' => b' ',
        other => other,
    };
    written.bytes().map(byte).collect()
}

/// A line.
fn line(kind: u8, address: u16, data: &[u8]) -> String {
    let record = Record {
        kind,
        address,
        data: data.to_vec(),
    };
    let bytes = record.bytes();
    let digits: String = bytes.iter().map(|byte| format!("{byte:02X}")).collect();
    format!(":{digits}\n")
}

struct Hand<'a> {
    rng: &'a mut Rng,
    /// Of no interest here: all that is done has its due answer.
    coverage: Coverage,
}

/// All of it, part by part.
pub fn run(rng: &mut Rng, mut report: impl FnMut(Compared<()>)) {
    let coverage = Coverage::new();
    let mut hand = Hand { rng, coverage };
    for written in CASES {
        report(hand.case(written));
    }
    for length in [2, 3, 17, LONGEST] {
        report(hand.rooms(length));
    }
    for value in 0..=255 {
        report(hand.count(value as usize));
        report(hand.kind(value));
    }
    for at in 0..=SHORT.len() {
        report(hand.every_byte(at));
    }
    report(hand.byte_by_byte());
    report(hand.many_lines());
}

impl Hand<'_> {
    fn expect(&mut self, request: Request, due: (u32, usize)) -> Compared<Vec<u8>> {
        let (answer, line, out) = compare(self.rng, &request, &mut self.coverage)?;
        if (answer, line) != due {
            let text = request.text.escape_ascii();
            return Err(format!("{text}: {answer} in line {line}, due is {due:?}"));
        }
        Ok(out)
    }

    /// As it is written above.
    fn case(&mut self, written: &str) -> Compared<()> {
        let fields: Vec<&str> = written.splitn(6, ' ').collect();
        let number = |field: &str| field.parse::<usize>().expect("a number");
        let length = number(fields[1]);
        let base = u32::from_str_radix(fields[0], 16).expect("a number");
        let room = length.min(LONGEST + 1) + 2;
        let request = Request::new(text(fields[5]), base, length, room);
        let due = (number(fields[2]) as u32, number(fields[3]));
        let out = self.expect(request, due)?;
        let image = out[..length.min(out.len())].iter();
        let image: String = image.map(|byte| format!("{byte:02x}")).collect();
        if due.0 == 0 && image != fields[4] {
            return Err(format!("{written}: image {image}"));
        }
        Ok(())
    }

    /// Buffers of about so many bytes, and of none. Refused before any line, whatever the text.
    fn rooms(&mut self, length: usize) -> Compared<()> {
        for room in [0, length - 1, length, length + 1, length + 2] {
            for (text, due) in [(END, (0, 0)), ("", (TEXT, 1)), ("x", (TEXT, 1))] {
                let due = if room < length { (AREA, 0) } else { due };
                self.expect(Request::new(text, 0, length, room), due)?;
                let above = u32::MAX - length as u32 + 2;
                self.expect(Request::new(text, above, length, room), (SIZE, 0))?;
            }
        }
        Ok(())
    }

    /// A record of so many bytes, for an image of as many and of a byte less.
    fn count(&mut self, count: usize) -> Compared<()> {
        let bytes = self.rng.bytes(count);
        let text = line(DATA, BASE as u16, &bytes) + END;
        let length = count.max(1);
        let image = self.expect(Request::new(text.clone(), BASE, length, length), (0, 0))?;
        if count > 0 && image != bytes {
            return Err(format!("{text:?}: image {image:02x?}"));
        }
        if count > 1 {
            let request = Request::new(text, BASE, count - 1, length);
            self.expect(request, (PLACE, 1))?;
        }
        Ok(())
    }

    /// A record of this type, with up to four bytes, before the end record. The image has the
    /// place of those.
    fn kind(&mut self, kind: u8) -> Compared<()> {
        for count in 0..=4 {
            let text = line(kind, 0, &[0; 4][..count]) + END;
            let due = match (kind, count) {
                (DATA, _) | (UPPER, 2) => (0, 0),
                // The text's own end comes behind it.
                (ihex::END, 0) => (TEXT, 2),
                _ => (TEXT, 1),
            };
            self.expect(Request::new(text, 0, 4, 4), due)?;
        }
        Ok(())
    }

    /// The short text cut here, without the byte here, and with each byte in its place or before it.
    fn every_byte(&mut self, at: usize) -> Compared<()> {
        let (before, rest) = SHORT.split_at(at);
        let behind = rest.get(1..).unwrap_or_default();
        let mut texts = vec![before.to_vec(), [before, behind].concat()];
        for byte in 0..=255 {
            texts.extend([rest, behind].map(|rest| [before, &[byte], rest].concat()));
        }
        for text in texts {
            let request = Request::new(text, 0x12_fffc, 24, 25);
            compare(self.rng, &request, &mut self.coverage)?;
        }
        Ok(())
    }

    /// The longest image in as many records, from its end to its start; then one of them again.
    fn byte_by_byte(&mut self) -> Compared<()> {
        let image = self.rng.bytes(LONGEST);
        let byte = |at: usize| line(DATA, at as u16, &image[at..at + 1]);
        let lines: String = (0..LONGEST).rev().map(byte).collect();
        let request = |end: &str| Request::new(lines.clone() + end, 0, LONGEST, LONGEST);
        if self.expect(request(END), (0, 0))? != image {
            return Err("longest image".into());
        }
        for at in [0, LONGEST / 2, LONGEST - 1] {
            self.expect(request(&byte(at)), (TWICE, LONGEST + 1))?;
        }
        Ok(())
    }

    /// More lines than 16 bits count.
    fn many_lines(&mut self) -> Compared<()> {
        let lines = ":0000000000\n".repeat(70_000);
        for (end, due) in [(END, (0, 0)), ("", (TEXT, 70_001)), ("x", (TEXT, 70_001))] {
            let request = Request::new(lines.clone() + end, 5, 1, 1);
            self.expect(request, due)?;
        }
        Ok(())
    }
}

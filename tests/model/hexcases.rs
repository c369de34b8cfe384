//! Which cases of the Intel HEX rules a call was, for the coverage.

use crate::coverage::Coverage;
use crate::hexcall::Request;
use crate::ihex::{ADDRESSES, Broken, DATA, END, LONGEST, Line, Reading, Record, UPPER};
use crate::manifest::{AREA, PLACE, SIZE, TEXT, TWICE};

/// One call, and the answer.
pub struct Call<'a> {
    pub request: &'a Request,
    /// That for the longest image, if the length is greater.
    pub reading: &'a Reading,
    pub answer: u32,
}

/// A case's name, the answers that it must occur with, and whether a call is one.
pub type Case = (&'static str, &'static [u32], fn(&Call) -> bool);

/// All that the reader answers; what it answers where length and base are right, where the room is
/// too, and for a line at fault.
pub const ANSWERS: [u32; 6] = [0, SIZE, AREA, TEXT, PLACE, TWICE];
const SIZED: &[u32] = &[0, AREA, TEXT, PLACE, TWICE];
const READ: &[u32] = &[0, TEXT, PLACE, TWICE];
const FAULTS: &[u32] = &[TEXT, PLACE, TWICE];

pub const CASES: [&[Case]; 5] = [&REQUESTS, &FORMS, &RECORDS, &FAULTY, &HIDDEN];

/// Length, base, room and text as a whole.
const REQUESTS: [Case; 18] = [
    ("any", &ANSWERS, |_| true),
    ("length 0", &[SIZE], |c| c.length() == 0),
    ("length 1", SIZED, |c| c.length() == 1),
    ("length 32,768", &ANSWERS, |c| c.length() == LONGEST),
    ("length 32,769", &[SIZE], |c| c.length() == LONGEST + 1),
    ("length, low bits", &[SIZE], |c| c.right_in_low_bits()),
    ("length 2^64 - 1", &[SIZE], |c| c.length() == usize::MAX),
    ("base 0", &ANSWERS, |c| c.request.base == 0),
    ("up to 2^32", SIZED, |c| c.end() == ADDRESSES as u128),
    ("a byte above", &[SIZE], |c| {
        c.end() == ADDRESSES as u128 + 1
    }),
    ("over 64 KiB", SIZED, |c| c.over_64_kib()),
    ("room, byte less", &[AREA], |c| c.spare() == -1),
    ("room, just", READ, |c| c.spare() == 0),
    ("room, byte more", READ, |c| c.spare() == 1),
    ("room too short", &[SIZE, AREA], |c| c.spare() < 0),
    ("no text", &[SIZE, AREA, TEXT], |c| c.text().is_empty()),
    ("sound text", &[0, SIZE, AREA], |c| c.first().is_none()),
    ("text at fault", &[SIZE, AREA], |c| c.first().is_some()),
];

/// Digits and ends of lines.
const FORMS: [Case; 6] = [
    ("upper case", READ, |c| c.letters() == [true, false]),
    ("lower case", READ, |c| c.letters() == [false, true]),
    ("both cases", READ, |c| c.letters() == [true, true]),
    ("LF", READ, |c| c.line_ends() == [true, false]),
    ("CR LF", READ, |c| c.line_ends() == [false, true]),
    ("LF and CR LF", READ, |c| c.line_ends() == [true, true]),
];

/// What the lines say before the one at fault.
const RECORDS: [Case; 15] = [
    ("no data", READ, |c| c.data().any(|l| l.count() == 0)),
    ("no data, outside", &[0], |c| c.nothing_outside()),
    ("255 bytes", READ, |c| c.data().any(|l| l.count() == 255)),
    ("data over 64 KiB", READ, |c| c.data().any(Line::crosses)),
    ("other order", READ, |c| !c.starts().is_sorted()),
    ("04 never", READ, |c| c.uppers().is_empty()),
    ("04 again", READ, |c| c.successive(|one, next| one == next)),
    ("04 higher", READ, |c| c.successive(|one, next| one < next)),
    ("04 lower", READ, |c| c.successive(|one, next| one > next)),
    ("04, address", READ, |c| c.addressed(UPPER)),
    ("01, address", &[0, TEXT], |c| c.addressed(END)),
    ("none named", &[0], |c| c.named() == 0),
    ("some named", &[0], |c| (1..c.length()).contains(&c.named())),
    ("all named", &[0], |c| c.named() == c.length()),
    ("all of 32,768", &[0], |c| c.named() == LONGEST),
];

/// The line at fault.
const FAULTY: [Case; 25] = [
    ("line 1", &[TEXT, PLACE], |c| c.number() == 1),
    ("line 2", FAULTS, |c| c.number() == 2),
    ("line over 9", FAULTS, |c| c.number() > 9),
    ("line over 255", FAULTS, |c| c.number() > 255),
    ("type 2", &[TEXT], |c| c.type_is(2)),
    ("type 3", &[TEXT], |c| c.type_is(3)),
    ("type 5", &[TEXT], |c| c.type_is(5)),
    ("type 6", &[TEXT], |c| c.type_is(6)),
    ("type 255", &[TEXT], |c| c.type_is(255)),
    ("01, a byte", &[TEXT], |c| c.has_data(Broken::EndData, 1)),
    ("04, no byte", &[TEXT], |c| c.has_data(Broken::UpperData, 0)),
    ("04, a byte", &[TEXT], |c| c.has_data(Broken::UpperData, 1)),
    ("04, 3 bytes", &[TEXT], |c| c.has_data(Broken::UpperData, 3)),
    ("01 without LF", &[TEXT], |c| c.is(Broken::Unended, END)),
    ("00 behind 01", &[TEXT], |c| c.is(Broken::AfterEnd, DATA)),
    ("01 behind 01", &[TEXT], |c| c.is(Broken::AfterEnd, END)),
    ("byte before", &[PLACE], |c| c.fault(Line::byte_before)),
    ("byte behind", &[PLACE], |c| c.fault(Line::byte_behind)),
    ("all outside", &[PLACE], |c| c.fault(Line::all_outside)),
    ("from it to 0", &[PLACE], |c| c.fault(Line::wraps_from)),
    ("over 0 to it", &[PLACE], |c| c.fault(Line::wraps_into)),
    ("one byte again", &[TWICE], |c| c.fault(Line::one_again)),
    ("same values", &[TWICE], |c| c.again(|old, new| old == new)),
    ("other values", &[TWICE], |c| c.again(|old, new| old != new)),
    ("0xFF before", &[TWICE], |c| c.again(|old, _| old == 0xff)),
];

/// Faults that are not given, for another comes before.
const HIDDEN: [Case; 8] = [
    ("17 in the line", &[TEXT], |c| c.fault(Line::outside)),
    ("18 in the line", &[TEXT, PLACE], |c| c.fault(Line::twice)),
    ("18 first in it", &[PLACE], |c| c.fault(Line::twice_first)),
    ("17 first in it", &[PLACE], |c| c.fault(Line::outside_first)),
    ("16 in a later one", FAULTS, |c| c.later(TEXT)),
    ("17 in a later one", FAULTS, |c| c.later(PLACE)),
    ("18 in a later one", FAULTS, |c| c.later(TWICE)),
    ("no end either", FAULTS, |c| c.no_end_either()),
];

impl Call<'_> {
    pub fn count(&self, coverage: &mut Coverage) {
        let cases = CASES.iter().flat_map(|cases| cases.iter());
        for (index, (_, _, holds)) in cases.enumerate() {
            if holds(self) {
                coverage.text(index, self.answer);
            }
        }
        if let (TEXT, Some(line)) = (self.answer, self.first()) {
            coverage.broken(&line.broken);
        }
    }

    fn length(&self) -> usize {
        self.request.length
    }

    fn text(&self) -> &[u8] {
        &self.request.text
    }

    /// Whether a reader that cut the length to 32 bits would find it right.
    fn right_in_low_bits(&self) -> bool {
        self.length() >> 32 > 0 && (1..=LONGEST).contains(&(self.length() as u32 as usize))
    }

    /// The address behind the image.
    fn end(&self) -> u128 {
        self.request.base as u128 + self.length() as u128
    }

    fn over_64_kib(&self) -> bool {
        self.length() > 0 && self.request.base as u128 >> 16 != (self.end() - 1) >> 16
    }

    fn spare(&self) -> i128 {
        self.request.room as i128 - self.length() as i128
    }

    /// Whether upper case occurs, and lower case.
    fn letters(&self) -> [bool; 2] {
        [b'A'..=b'F', b'a'..=b'f'].map(|some| self.text().iter().any(|byte| some.contains(byte)))
    }

    /// Whether lines end in LF alone, and in CR LF.
    fn line_ends(&self) -> [bool; 2] {
        let lines = self.text().split_inclusive(|byte| *byte == b'\n');
        let cr: Vec<bool> = lines.map(|line| line.ends_with(b"\r\n")).collect();
        [cr.contains(&false), cr.contains(&true)]
    }

    /// The earliest line at fault, whether the reader came to it or not.
    fn first(&self) -> Option<&Line> {
        let (at, _) = self.reading.fault?;
        Some(&self.reading.lines[at])
    }

    /// The records before it.
    fn records(&self) -> impl Iterator<Item = (&Line, &Record)> {
        let count = self.reading.fault.map_or(usize::MAX, |(at, _)| at);
        let lines = self.reading.lines.iter().take(count);
        lines.filter_map(|line| Some((line, line.record.as_ref()?)))
    }

    fn data(&self) -> impl Iterator<Item = &Line> {
        let data = self.records().filter(|(_, record)| record.kind == DATA);
        data.map(|(line, _)| line)
    }

    fn starts(&self) -> Vec<u64> {
        self.data().map(|line| line.start).collect()
    }

    /// A record without data, at an address that is not the image's.
    fn nothing_outside(&self) -> bool {
        let image = self.request.base as u128..self.end();
        self.data()
            .any(|line| line.count() == 0 && !image.contains(&line.start.into()))
    }

    fn uppers(&self) -> Vec<&[u8]> {
        let uppers = self.records().filter(|(_, record)| record.kind == UPPER);
        uppers.map(|(_, record)| &record.data[..]).collect()
    }

    fn successive(&self, are: fn(&[u8], &[u8]) -> bool) -> bool {
        self.uppers().windows(2).any(|pair| are(pair[0], pair[1]))
    }

    fn addressed(&self, kind: u8) -> bool {
        self.records()
            .any(|(_, record)| record.kind == kind && record.address != 0)
    }

    fn named(&self) -> usize {
        self.reading.image.iter().flatten().count()
    }

    /// Of the first line at fault; 0 if there is none.
    fn number(&self) -> usize {
        self.reading.fault.map_or(0, |(at, _)| at + 1)
    }

    fn fault(&self, is: fn(&Line) -> bool) -> bool {
        self.first().is_some_and(is)
    }

    fn again(&self, are: fn(u8, u8) -> bool) -> bool {
        self.first()
            .is_some_and(|line| line.again().all(|(old, new)| are(old, new)))
    }

    /// The record of a line that is broken in this way alone.
    fn only(&self, broken: Broken) -> Option<&Record> {
        let line = self.first().filter(|line| line.broken == [broken])?;
        line.record.as_ref()
    }

    fn is(&self, broken: Broken, kind: u8) -> bool {
        self.only(broken).is_some_and(|record| record.kind == kind)
    }

    fn type_is(&self, kind: u8) -> bool {
        self.is(Broken::Type, kind)
    }

    fn has_data(&self, broken: Broken, count: usize) -> bool {
        self.only(broken)
            .is_some_and(|record| record.data.len() == count)
    }

    fn later(&self, refusal: u32) -> bool {
        let lines = self.reading.lines.iter().skip(self.number());
        self.number() > 0 && lines.map(Line::check).any(|check| check == Err(refusal))
    }

    fn no_end_either(&self) -> bool {
        let last = self.reading.lines.last();
        self.number() < self.reading.lines.len()
            && last.is_some_and(|l| l.broken == [Broken::NoEnd])
    }
}

impl Line {
    fn count(&self) -> usize {
        self.places.len()
    }

    fn end(&self) -> u64 {
        self.start + self.count() as u64
    }

    fn crosses(&self) -> bool {
        self.count() > 0 && self.start >> 16 != (self.end() - 1) >> 16
    }

    /// Which of its bytes are outside.
    fn outsiders(&self) -> Vec<usize> {
        (0..self.count())
            .filter(|at| self.places[*at].is_none())
            .collect()
    }

    fn byte_before(&self) -> bool {
        self.count() > 1 && self.outsiders() == [0]
    }

    fn byte_behind(&self) -> bool {
        self.count() > 1 && self.outsiders() == [self.count() - 1]
    }

    fn all_outside(&self) -> bool {
        self.outsiders().len() == self.count()
    }

    fn wraps_from(&self) -> bool {
        self.end() > ADDRESSES && self.places[0].is_some()
    }

    fn wraps_into(&self) -> bool {
        self.end() > ADDRESSES && self.places[self.count() - 1].is_some()
    }

    /// The bytes named before, with those of this line.
    fn again(&self) -> impl Iterator<Item = (u8, u8)> {
        let data = self.record.iter().flat_map(|record| &record.data);
        let both = self.named.iter().zip(data);
        both.filter_map(|(old, new)| Some(((*old)?, *new)))
    }

    fn one_again(&self) -> bool {
        self.count() > 1 && self.again().count() == 1
    }

    /// Whether the first byte named before, if there is one, comes before all that are outside.
    fn twice_first(&self) -> bool {
        let again = self.named.iter().position(Option::is_some);
        again.is_some_and(|at| {
            self.outsiders()
                .first()
                .is_some_and(|outside| at < *outside)
        })
    }

    fn outside_first(&self) -> bool {
        let again = self.named.iter().position(Option::is_some);
        again.is_some_and(|at| {
            self.outsiders()
                .first()
                .is_some_and(|outside| at > *outside)
        })
    }
}

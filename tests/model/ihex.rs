//! Change 3, programs from Intel HEX: what each line of a text says, and the image that the text
//! denotes. The reader refuses 5, 8, then for the earliest line at fault 16, 17, 18.

use crate::manifest::{AREA, Outcome, PLACE, SIZE, TEXT, TWICE, refuse_if};

/// The most bytes of an image.
pub const LONGEST: usize = 32_768;
/// How many addresses there are.
pub const ADDRESSES: u64 = 1 << 32;

pub const DATA: u8 = 0;
pub const END: u8 = 1;
pub const UPPER: u8 = 4;

/// What breaks a line; the last stands for the line that the text lacks.
#[derive(Clone, Copy, PartialEq)]
pub enum Broken {
    Unended,
    Empty,
    Start,
    Digit,
    Odd,
    Short,
    Count,
    Checksum,
    Type,
    EndData,
    UpperData,
    AfterEnd,
    NoEnd,
}

pub const BROKEN: [&str; 13] = [
    "no LF", "empty", "no :", "digit", "odd", "short", "count", "sum", "type", "01", "04", "after",
    "no end",
];

/// What a line's digits say.
pub struct Record {
    pub kind: u8,
    pub address: u16,
    pub data: Vec<u8>,
}

impl Record {
    /// Count, address, type, data and checksum.
    pub fn bytes(&self) -> Vec<u8> {
        let [high, low] = self.address.to_be_bytes();
        let mut bytes = vec![self.data.len() as u8, high, low, self.kind];
        bytes.extend(&self.data);
        bytes.push(sum(&bytes).wrapping_neg());
        bytes
    }
}

pub fn sum(bytes: &[u8]) -> u8 {
    bytes.iter().fold(0, |sum, byte| sum.wrapping_add(*byte))
}

/// One line with all that is wrong with it, so that the tests know what they have tried.
pub struct Line {
    /// Empty for a line that is not broken.
    pub broken: Vec<Broken>,
    /// None where the line has no digits for a whole one.
    pub record: Option<Record>,
    /// The address of the record's first byte, and for each byte its place in the image.
    pub start: u64,
    pub places: Vec<Option<usize>>,
    /// Which of these an earlier line has named, and with what.
    pub named: Vec<Option<u8>>,
}

impl Line {
    fn missing() -> Line {
        Line {
            broken: vec![Broken::NoEnd],
            record: None,
            start: 0,
            places: Vec::new(),
            named: Vec::new(),
        }
    }

    pub fn outside(&self) -> bool {
        self.places.iter().any(Option::is_none)
    }

    pub fn twice(&self) -> bool {
        self.named.iter().any(Option::is_some)
    }

    /// "within a line in this order"
    pub fn check(&self) -> Outcome<()> {
        refuse_if(!self.broken.is_empty(), TEXT)?;
        refuse_if(self.outside(), PLACE)?;
        refuse_if(self.twice(), TWICE)
    }
}

/// The line without its end: "every line ends in LF or CR LF".
fn body(line: &[u8]) -> Option<&[u8]> {
    let body = line.strip_suffix(b"\n")?;
    Some(body.strip_suffix(b"\r").unwrap_or(body))
}

/// The bytes that the digits behind the colon give.
fn bytes(body: &[u8]) -> Result<Vec<u8>, Broken> {
    if body.is_empty() {
        return Err(Broken::Empty);
    }
    let digits = body.strip_prefix(b":").ok_or(Broken::Start)?;
    let values = digits.iter().map(|digit| (*digit as char).to_digit(16));
    let values: Vec<u32> = values.collect::<Option<_>>().ok_or(Broken::Digit)?;
    if values.len() % 2 == 1 {
        return Err(Broken::Odd);
    }
    let pair = |pair: &[u32]| (16 * pair[0] + pair[1]) as u8;
    Ok(values.chunks(2).map(pair).collect())
}

/// The record, and what breaks it. Its data are the bytes between type and checksum.
fn record(bytes: &[u8]) -> Result<(Record, Vec<Broken>), Broken> {
    let [count, high, low, kind, data @ .., _] = bytes else {
        return Err(Broken::Short);
    };
    let rules = [
        (Broken::Count, *count as usize == data.len()),
        (Broken::Checksum, sum(bytes) == 0),
        (Broken::Type, [DATA, END, UPPER].contains(kind)),
        (Broken::EndData, *kind != END || *count == 0),
        (Broken::UpperData, *kind != UPPER || *count == 2),
    ];
    let record = Record {
        kind: *kind,
        address: u16::from_be_bytes([*high, *low]),
        data: data.to_vec(),
    };
    let broken = rules.iter().filter(|(_, kept)| !kept);
    Ok((record, broken.map(|(rule, _)| *rule).collect()))
}

/// A text as read for an image at this base.
pub struct Reading {
    base: u64,
    /// The last 04 value.
    upper: u16,
    ended: bool,
    pub lines: Vec<Line>,
    /// The earliest line at fault, by its place among the lines, and its refusal.
    pub fault: Option<(usize, u32)>,
    /// The bytes that the lines name.
    pub image: Vec<Option<u8>>,
}

impl Reading {
    pub fn new(text: &[u8], base: u32, length: usize) -> Reading {
        let mut reading = Reading {
            base: base as u64,
            upper: 0,
            ended: false,
            lines: Vec::new(),
            fault: None,
            image: vec![None; length],
        };
        for line in text.split_inclusive(|byte| *byte == b'\n') {
            let line = reading.line(line);
            reading.take(line);
        }
        if !reading.ended {
            reading.take(Line::missing());
        }
        reading
    }

    fn line(&self, text: &[u8]) -> Line {
        let mut broken = Vec::new();
        if self.ended {
            broken.push(Broken::AfterEnd);
        }
        let body = body(text).unwrap_or_else(|| {
            broken.push(Broken::Unended);
            text
        });
        let record = match bytes(body).and_then(|bytes| record(&bytes)) {
            Ok((record, more)) => {
                broken.extend(more);
                Some(record)
            }
            Err(more) => {
                broken.push(more);
                None
            }
        };
        self.place(broken, record)
    }

    /// Where the record's bytes belong, if it has data for the image.
    fn place(&self, broken: Vec<Broken>, record: Option<Record>) -> Line {
        let (address, count) = match &record {
            Some(record) if record.kind == DATA => (record.address as u64, record.data.len()),
            _ => (0, 0),
        };
        let start = self.upper as u64 * 65_536 + address;
        let place = |position| {
            let address = (start + position as u64) % ADDRESSES;
            let place = address.checked_sub(self.base)? as usize;
            (place < self.image.len()).then_some(place)
        };
        let places: Vec<_> = (0..count).map(place).collect();
        let named = places.iter().map(|place| self.image[(*place)?]).collect();
        Line {
            broken,
            record,
            start,
            places,
            named,
        }
    }

    /// Does what the line says, unless it is at fault. The lines behind a fault are read too: the
    /// tests want to know what else is wrong.
    fn take(&mut self, line: Line) {
        match (line.check(), &line.record) {
            (Ok(()), Some(record)) => match record.kind {
                END => self.ended = true,
                UPPER => self.upper = u16::from_be_bytes([record.data[0], record.data[1]]),
                _ => {
                    for (place, byte) in line.places.iter().flatten().zip(&record.data) {
                        self.image[*place] = Some(*byte);
                    }
                }
            },
            (check, _) => {
                let fault = check.err().map(|refusal| (self.lines.len(), refusal));
                self.fault = self.fault.or(fault);
            }
        }
        self.lines.push(line);
    }
}

/// What is refused "before any line".
pub fn check_request(base: u32, length: usize, room: usize) -> Outcome<()> {
    let allowed = (1..=LONGEST).contains(&length);
    refuse_if(!allowed || base as u64 + length as u64 > ADDRESSES, SIZE)?;
    refuse_if(room < length, AREA)
}

/// The reader: the answer and the line's number. The buffer has the image at its start afterwards,
/// or is as it was.
pub fn read(reading: &Reading, request: Outcome<()>, out: &mut [u8]) -> (u32, usize) {
    match (request, reading.fault) {
        (Err(refusal), _) => (refusal, 0),
        (_, Some((at, refusal))) => (refusal, at + 1),
        _ => {
            for (place, byte) in out.iter_mut().zip(&reading.image) {
                *place = byte.unwrap_or(0xff);
            }
            (0, 0)
        }
    }
}

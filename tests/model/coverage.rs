//! How often each answer was given, by row (a kind of message, or a function), each sort of path
//! update accepted, each number of hashes held, each case of the limit's edge, of the image's end,
//! of a flash that others have touched or that is closed in part, of budgets, of Intel HEX texts and
//! of inputs of wake; and which of these must have occurred at least once.

use crate::budget::{BUDGETS, CARRIERS, columns_due};
use crate::edge::{COUNTS, EDGES, Edge};
use crate::ends::{ENDS, End};
use crate::hexcases;
use crate::ihex::{BROKEN, Broken};
use crate::layout::MOST_HASHES;
use crate::lengths::{LASTS, shape};
use crate::manifest::BLOCK_LENGTHS;
use crate::regions::REGIONS;
use crate::tree::path;
use crate::wakes::{FORMS, Form, RESULTS};

struct Row {
    name: &'static str,
    /// The columns that must have occurred: answers, depths, numbers of hashes or blocks, kinds,
    /// regions, shapes or faults.
    due: Vec<usize>,
    counts: Vec<u64>,
}

pub struct Coverage {
    answers: Vec<Row>,
    paths: Vec<Row>,
    held: [Row; 1],
    edges: [Row; EDGES.len()],
    ends: Vec<Row>,
    /// Refused ones, and accepted ones.
    touched: [Vec<Row>; 2],
    /// The same answer, and another.
    instead: [Vec<Row>; 2],
    /// Refused ones, and accepted ones.
    closed: [Vec<Row>; 2],
    texts: Vec<Row>,
    /// Broken lines: by a single fault, and by several.
    broken: [Row; 2],
    /// Inputs of wake, by form; and its answers to right ones, by block length.
    forms: Vec<Row>,
    planned: [Row; 5],
    /// By row, block length and shape.
    shapes: [[[u64; 16]; 5]; SHAPED.len()],
    /// By row, block length and budget.
    budgets: [[[u64; BUDGETS.len()]; 5]; CARRIERS.len()],
    /// The most blocks that a complete device had.
    largest: usize,
}

/// Those of all functions but the Intel HEX reader; the columns of the tables of answers.
const COLUMNS: [u32; 18] = [0, 1, 2, 3, 4, 5, 6, 7, 8, 9, 10, 11, 12, 13, 14, 15, 19, 20];

/// Rows 0 to 4 are indexed by the message's kind, 0 being any other and the empty message.
const ANSWERS: [(&str, &[u32]); 15] = [
    ("device, other", &[1, 2]),
    ("device, kind 1", &[0, 1, 3, 4, 5, 6, 7, 8, 9]),
    ("device, kind 2", &[0, 1, 3, 8, 10, 11, 12, 14, 19, 20]),
    (
        "device, kind 3",
        &[0, 1, 3, 4, 5, 6, 7, 8, 9, 10, 11, 12, 13, 14, 19],
    ),
    (
        "device, kind 4",
        &[0, 1, 3, 4, 5, 6, 7, 8, 9, 10, 11, 12, 13, 14, 15],
    ),
    ("sender, manifest", &[0, 5, 8]),
    ("sender, kind 1", &[0, 5, 8]),
    ("sender, kind 2", &[0, 5, 8, 11]),
    ("sender, kind 3", &[0, 5, 8, 11]),
    ("sender, kind 4", &[0, 5, 8, 11]),
    ("verify", &[0, 9]),
    ("status", &[0, 1]),
    ("length due", &[0, 1, 10]),
    ("cost due", &[0, 1, 10]),
    ("boot check", &[0, 1, 8, 10, 19]),
];

pub const SENDER: usize = 5;
pub const VERIFY: usize = 10;
pub const STATUS: usize = 11;
pub const DUE: usize = 12;
pub const COST: usize = 13;
pub const BOOT_CHECK: usize = 14;

/// Messages that an untouched flash would take, by the one region that others have touched:
/// refused, and accepted. Kind 1 has all of its image for its block; behind the last block is none.
const TOUCHED: [[(&str, &[usize]); 5]; 2] = [
    [
        ("kind 1", &[]),
        ("kind 2", &[]),
        ("last block", &[0]),
        ("kind 3", &[0, 1, 2]),
        ("kind 4", &[1]),
    ],
    [
        ("kind 1", &[1, 3]),
        ("kind 2", &[0, 1, 2, 3]),
        ("last block", &[1, 3]),
        ("kind 3", &[3]),
        ("kind 4", &[0, 2, 3]),
    ],
];

/// Messages by the regions that were closed while the library judged them, be they refused or
/// accepted.
const CLOSED: [(&str, &[usize]); 5] = [
    ("kind 1", &[3]),
    ("kind 2", &[3]),
    ("last block", &[3]),
    ("kind 3", &[3]),
    ("kind 4", &[0, 2, 3]),
];

/// Messages over a flash that others have touched within the current image, by the answer that an
/// untouched one would give: where it was the same, and where another came, which in a sound list
/// is 19, or 15 for kind 4. That kind 4 gets 14 all the same is too rare to be due.
const INSTEAD: [[(&str, &[u32]); 5]; 2] = [
    [
        ("kind 1", &[0, 4, 6, 7, 8, 9]),
        ("kind 2", &[0, 8, 10, 11, 12, 14, 20]),
        ("last block", &[0, 8, 10, 11, 12, 14, 20]),
        ("kind 3", &[4, 6, 7, 8, 10, 13]),
        ("kind 4", &[0, 4, 6, 7, 8, 9, 10, 11, 12, 13]),
    ],
    [
        ("kind 1", &[]),
        ("kind 2", &[]),
        ("last block", &[0]),
        ("kind 3", &[0, 9, 11, 12, 14]),
        ("kind 4", &[0, 14]),
    ],
];

/// Path updates accepted, by the depth of the block's leaf. Deeper ones than these are too rare to be
/// due: few lists have a large image.
const PATHS: [(&str, &[usize]); 4] = [
    ("first block", &[0, 1, 2, 3, 4, 5, 6]),
    ("last block", &[0, 1, 2, 3, 4]),
    ("n = 2^depth", &[0, 1, 2, 3, 4]),
    ("other n", &[1, 2, 3, 4, 5, 6]),
];

/// What was done with images of every shape: their last block accepted, as a block and by updates;
/// any message of it accepted in a flash of T bytes, and one refused in a flash of a byte less; the
/// sender's messages of it, into a buffer of just their length, and refused for a byte less.
const SHAPED: [&str; 11] = [
    "last, kind 2",
    "last, kind 3",
    "last, kind 4",
    "flash T",
    "flash T - 1",
    "room, kind 2",
    "room, kind 3",
    "room, kind 4",
    "room - 1, kind 2",
    "room - 1, kind 3",
    "room - 1, kind 4",
];

/// The rows of kind 2; those of 3 and 4 follow.
pub const LAST: usize = 0;
pub const ROOM: usize = 5;
pub const ROOM_BYTE_SHORT: usize = 8;

pub const FLASH: usize = 3;
pub const FLASH_BYTE_SHORT: usize = 4;

/// All answers of wake: each level of the tree that fits doubles the blocks, up to the most.
const PLANNED: [u32; 12] = [0, 2, 4, 8, 16, 32, 64, 128, 256, 512, 1024, 1536];
const LENGTHS: [&str; 5] = ["L = 64", "L = 128", "L = 256", "L = 512", "L = 1,024"];

fn row(name: &'static str, due: impl IntoIterator<Item = usize>) -> Row {
    Row {
        name,
        due: due.into_iter().collect(),
        counts: vec![0; COLUMNS.len()],
    }
}

fn rows(from: &[(&'static str, &[usize])]) -> Vec<Row> {
    let empty = |(name, due): &(&'static str, &[usize])| row(name, due.iter().copied());
    from.iter().map(empty).collect()
}

fn answer_rows(from: &[(&'static str, &[u32])]) -> Vec<Row> {
    let empty = |(name, due): &(&'static str, &[u32])| {
        row(name, due.iter().map(|answer| column(&COLUMNS, *answer)))
    };
    from.iter().map(empty).collect()
}

/// Of an allowed block length.
fn length_index(block_length: usize) -> Option<usize> {
    let mut lengths = BLOCK_LENGTHS.iter();
    lengths.position(|length| *length as usize == block_length)
}

/// Of each column the count for the block length that had it least.
fn least<const COLUMNS: usize>(row: Row, lengths: &[[u64; COLUMNS]; 5]) -> Row {
    let least = |column: usize| lengths.iter().map(|l| l[column]).min().unwrap();
    Row {
        counts: (0..COLUMNS).map(least).collect(),
        ..row
    }
}

fn column(answers: &[u32], answer: u32) -> usize {
    let column = answers.iter().position(|some| *some == answer);
    column.expect("an answer of such a function")
}

/// Prints the rows; the number of due columns that stayed empty.
fn table(title: &str, columns: impl Iterator<Item = String>, rows: &[Row]) -> u64 {
    print!("{title:18}");
    let columns: Vec<String> = columns.collect();
    for column in &columns {
        print!("{column:>7}");
    }
    println!();
    let mut missing = 0;
    for row in rows {
        print!("{:18}", row.name);
        for (column, count) in row.counts[..columns.len()].iter().enumerate() {
            match (row.due.contains(&column), count) {
                (false, 0) => print!("{:>7}", "."),
                _ => print!("{count:>7}"),
            }
        }
        println!();
        missing += row.due.iter().filter(|a| row.counts[**a] == 0).count() as u64;
    }
    missing
}

impl Coverage {
    pub fn new() -> Coverage {
        let end = |(name, due): &(&'static str, &[(usize, u32)])| {
            row(name, due.iter().map(|(kind, _)| *kind))
        };
        let text = |(name, due, _): &hexcases::Case| {
            let due = due.iter();
            row(name, due.map(|answer| column(&hexcases::ANSWERS, *answer)))
        };
        let form = |(name, due, _): &Form| row(name, due.iter().copied());
        Coverage {
            answers: answer_rows(&ANSWERS),
            paths: rows(&PATHS),
            held: [row("while loading", 1..=MOST_HASHES)],
            edges: EDGES.map(|name| row(name, 0..COUNTS.len())),
            ends: ENDS.iter().map(end).collect(),
            touched: TOUCHED.map(|from| rows(&from)),
            instead: INSTEAD.map(|from| answer_rows(&from)),
            closed: [rows(&CLOSED), rows(&CLOSED)],
            texts: hexcases::CASES.concat().iter().map(text).collect(),
            broken: [row("one fault", 0..BROKEN.len()), row("several", [])],
            forms: FORMS.iter().map(form).collect(),
            planned: LENGTHS.map(|name| row(name, 0..PLANNED.len())),
            shapes: [[[0; 16]; 5]; SHAPED.len()],
            budgets: [[[0; BUDGETS.len()]; 5]; CARRIERS.len()],
            largest: 0,
        }
    }

    /// Those of all tables.
    fn counts(&mut self) -> impl Iterator<Item = &mut u64> {
        let arrays = self.held.iter_mut().chain(&mut self.edges);
        let arrays = arrays.chain(&mut self.broken).chain(&mut self.planned);
        let lists = [&mut self.answers, &mut self.paths, &mut self.ends];
        let lists = lists.into_iter().chain([&mut self.texts, &mut self.forms]);
        let lists = lists.chain(&mut self.touched).chain(&mut self.instead);
        let lists = lists.chain(&mut self.closed);
        let rows = arrays.chain(lists.flatten());
        let shapes = self.shapes.as_flattened_mut().as_flattened_mut();
        let budgets = self.budgets.as_flattened_mut().as_flattened_mut();
        let counts = rows.flat_map(|row| &mut row.counts);
        counts.chain(shapes).chain(budgets)
    }

    /// What occurred in another thread.
    pub fn add(&mut self, mut other: Coverage) {
        for (count, more) in self.counts().zip(other.counts()) {
            *count += *more;
        }
        self.completed(other.largest);
    }

    pub fn count(&mut self, row: usize, answer: u32) {
        self.answers[row].counts[column(&COLUMNS, answer)] += 1;
    }

    pub fn completed(&mut self, blocks: usize) {
        self.largest = self.largest.max(blocks);
    }

    /// A path update of block i of n was accepted.
    pub fn path_update(&mut self, n: usize, i: usize) {
        let even = n.is_power_of_two();
        for (row, holds) in self.paths.iter_mut().zip([i == 1, i == n, even, !even]) {
            row.counts[path(n, i).len()] += holds as u64;
        }
    }

    /// A device was left loading, with so many hashes held.
    pub fn held(&mut self, hashes: usize) {
        self.held[0].counts[hashes] += 1;
    }

    /// Something of n blocks was judged. It counts if it was let pass with the most, or refused
    /// with one more.
    pub fn edge(&mut self, edge: Edge, n: usize, refused: bool) {
        let column = COUNTS.iter().position(|count| *count == n);
        if let Some(column) = column.filter(|column| refused == (*column == 1)) {
            self.edges[edge as usize].counts[column] += 1;
        }
    }

    /// A message was this case. It counts if it got the answer that is due to it, and none that
    /// comes earlier.
    pub fn end(&mut self, case: End, kind: usize, answer: u32) {
        let due = ENDS[case as usize].1.contains(&(kind, answer));
        self.ends[case as usize].counts[kind] += due as u64;
    }

    /// A message that an untouched flash would take came to one that is touched in this region.
    pub fn touched(&mut self, row: usize, region: usize, accepted: bool) {
        self.touched[accepted as usize][row].counts[region] += 1;
    }

    /// A message to a flash that is touched got the answer of the untouched one, or another.
    pub fn instead(&mut self, row: usize, without: u32, other: bool) {
        self.instead[other as usize][row].counts[column(&COLUMNS, without)] += 1;
    }

    /// A message was judged while this region of the flash was closed.
    pub fn closed(&mut self, row: usize, region: usize, accepted: bool) {
        self.closed[accepted as usize][row].counts[region] += 1;
    }

    /// A call of the Intel HEX reader was this case.
    pub fn text(&mut self, case: usize, answer: u32) {
        self.texts[case].counts[column(&hexcases::ANSWERS, answer)] += 1;
    }

    /// It refused a line for these.
    pub fn broken(&mut self, faults: &[Broken]) {
        for fault in faults {
            self.broken[(faults.len() > 1) as usize].counts[*fault as usize] += 1;
        }
    }

    /// An input of wake in this form had this result.
    pub fn form(&mut self, form: usize, result: usize) {
        self.forms[form].counts[result] += 1;
    }

    /// Wake's answer to two numbers. It counts if the first is an allowed block length.
    pub fn planned(&mut self, block_length: usize, answer: u32) {
        if let Some(length) = length_index(block_length) {
            self.planned[length].counts[column(&PLANNED, answer)] += 1;
        }
    }

    pub fn shape(&mut self, row: usize, image_length: usize, block_length: usize) {
        if let Some(length) = length_index(block_length) {
            self.shapes[row][length][shape(image_length, block_length)] += 1;
        }
    }

    /// A message came with such a budget, and got the answer that is due then.
    pub fn budget(&mut self, row: usize, column: usize, block_length: usize) {
        if let Some(length) = length_index(block_length) {
            self.budgets[row][length][column] += 1;
        }
    }

    fn least_shapes(&self) -> Vec<Row> {
        let rows = SHAPED.iter().zip(&self.shapes);
        rows.map(|(name, counts)| least(row(name, 0..16), counts))
            .collect()
    }

    fn least_budgets(&self) -> Vec<Row> {
        let rows = CARRIERS.iter().zip(&self.budgets).enumerate();
        rows.map(|(at, (name, counts))| {
            let due = columns_due(at).iter().copied();
            least(row(name, due), counts)
        })
        .collect()
    }

    /// Prints all tables; the number of due cases that never came.
    pub fn report(&self) -> u64 {
        let numbers = |n: usize| (0..n).map(|column| column.to_string());
        let answers = || COLUMNS.iter().map(u32::to_string);
        let regions = || REGIONS.into_iter().map(str::to_string);
        let text_answers = hexcases::ANSWERS.iter().map(u32::to_string);
        let faults = BROKEN.iter().map(|fault| fault.to_string());
        let shapes = ["1", "2", "3", "n"].map(|n| LASTS.map(|last| format!("{n}:{last}")));
        let shapes = shapes.concat().into_iter();
        let budgets = BUDGETS.into_iter().map(str::to_string);
        let results = RESULTS.into_iter().map(str::to_string);
        let planned = PLANNED.iter().map(u32::to_string);
        let missing = table("answers", answers(), &self.answers)
            + table("paths, by depth", numbers(16), &self.paths)
            + table("hashes held", numbers(MOST_HASHES + 1), &self.held)
            + table("blocks", COUNTS.iter().map(usize::to_string), &self.edges)
            + table("ends, by kind", numbers(5), &self.ends)
            + table("touched, refused", regions(), &self.touched[0])
            + table("touched, accepted", regions(), &self.touched[1])
            + table("touched, the same", answers(), &self.instead[0])
            + table("touched, 19 or 15", answers(), &self.instead[1])
            + table("closed, refused", regions(), &self.closed[0])
            + table("closed, accepted", regions(), &self.closed[1])
            + table("texts, by answer", text_answers, &self.texts)
            + table("broken lines", faults, &self.broken)
            + table("shapes, n:last", shapes, &self.least_shapes())
            + table("budgets", budgets, &self.least_budgets())
            + table("wake, by answer", results, &self.forms)
            + table("wake, by L", planned, &self.planned);
        println!("largest complete image: {} blocks", self.largest);
        missing
    }
}

//! The program wake against the model's answer, on inputs right and damaged: by hand, and at random.

use std::io::Write;
use std::process::{Command, Stdio};

use crate::compare::Compared;
use crate::coverage::Coverage;
use crate::handmade::expect;
use crate::manifest::{BLOCK_LENGTHS, MOST_BLOCKS};
use crate::rng::Rng;
use crate::wake::{answer, numbers};

/// The columns of the coverage's table of forms: 0, a number of blocks below the most, and the most.
pub const RESULTS: [&str; 3] = ["0", "n", "most"];
const ALL: &[usize] = &[0, 1, 2];
const NONE: &[usize] = &[0];
const MOST: &[usize] = &[2];

/// A form of input: its name, the results that it has, all of which must occur, and an input of this
/// form, made of an allowed L and a number of compressions. Its characters are bytes.
pub type Form = (
    &'static str,
    &'static [usize],
    fn(&mut Rng, u32, u32) -> String,
);

pub const FORMS: [Form; 20] = [
    ("plain", ALL, |_, l, c| plain(l, c)),
    ("leading zeros", ALL, |rng, l, c| {
        padded(l, c, rng.range(5, 9), rng.range(3, 9))
    }),
    ("nine digits", ALL, |_, l, c| padded(l, c, 9, 9)),
    ("great number", MOST, |rng, l, _| plain(l, rng.pick(&GREAT))),
    ("L not allowed", NONE, |rng, _, c| {
        plain(rng.pick(&wrong_lengths()), c)
    }),
    ("the other order", NONE, |_, l, c| plain(c, l)),
    ("ten digits", NONE, |rng, l, c| {
        let (first, second) = rng.pick(&[(10, 0), (0, 10), (10, 10), (0, 20)]);
        padded(l, c, first, second)
    }),
    ("nothing", NONE, |_, _, _| String::new()),
    ("cut", NONE, |rng, l, c| {
        let input = plain(l, c);
        input[..rng.below(input.len())].into()
    }),
    ("no last LF", NONE, |_, l, c| format!("{l}\n{c}")),
    ("no second line", NONE, |_, l, _| format!("{l}\n")),
    ("on one line", NONE, |rng, l, c| {
        format!("{l}{}{c}\n", rng.pick(&["", " ", "\t", ",", "\r"]))
    }),
    ("first line empty", NONE, |_, l, c| format!("\n{l}\n{c}\n")),
    ("empty between", NONE, |_, l, c| format!("{l}\n\n{c}\n")),
    ("LF behind", NONE, |_, l, c| plain(l, c) + "\n"),
    ("lines behind", NONE, |_, l, c| plain(l, c).repeat(2)),
    ("byte behind", NONE, |rng, l, c| {
        format!("{l}\n{c}\n{}", other(rng))
    }),
    ("byte behind the longest", NONE, |rng, l, c| {
        let digit = rng.range(b'0' as usize, b'9' as usize) as u8 as char;
        let behind = rng.pick(&['\n', digit]);
        format!("{}{behind}", padded(l, c, 9, 9))
    }),
    ("CR LF", NONE, |rng, l, c| {
        let (first, second) = rng.pick(&[("\r", ""), ("", "\r"), ("\r", "\r")]);
        format!("{l}{first}\n{c}{second}\n")
    }),
    ("byte more", NONE, |rng, l, c| {
        let input = plain(l, c);
        with_byte(&input, rng.below(input.len()), other(rng))
    }),
];

const PLAIN: usize = 0;
const GREAT_NUMBER: usize = 3;
const WRONG_LENGTH: usize = 4;
const BYTE_MORE: usize = 19;

/// Numbers that suffice for every block: around those that are 0 in fewer bits, and at the end of
/// nine digits.
const GREAT: [u32; 12] = [
    61,
    255,
    256,
    257,
    65_535,
    65_536,
    65_537,
    1 << 24,
    1 << 29,
    99_999_999,
    999_999_998,
    999_999_999,
];

/// Too few for any L, and then enough for two blocks or more, for the most, and for them again.
const EACH: [u32; 4] = [3, 20, 39, 60];

/// Powers of two and their neighbours, lengths that are right in 16 bits, and the greatest number.
fn wrong_lengths() -> Vec<u32> {
    let powers = (0..30).flat_map(|k| [(1 << k) - 1, 1 << k, (1 << k) + 1]);
    let low = BLOCK_LENGTHS.map(|length| length + 65_536);
    let lengths = powers.chain(low).chain([999_999_999]);
    lengths
        .filter(|length| !BLOCK_LENGTHS.contains(length))
        .collect()
}

fn plain(block_length: u32, compressions: u32) -> String {
    padded(block_length, compressions, 0, 0)
}

/// With zeros before numbers that have fewer digits than these.
fn padded(block_length: u32, compressions: u32, first: usize, second: usize) -> String {
    format!("{block_length:0first$}\n{compressions:0second$}\n")
}

/// Neither digits nor LF.
const OTHERS: [char; 13] = [
    '\r', ' ', '\t', '\0', '+', '-', '.', ',', '/', ':', 'e', '\x7f', '\u{ff}',
];

fn other(rng: &mut Rng) -> char {
    let above = rng.range(b':' as usize, 255) as u8 as char;
    let known = rng.pick(&OTHERS);
    rng.pick(&[known, above])
}

fn with_byte(input: &str, at: usize, byte: char) -> String {
    let (before, behind) = input.split_at(at);
    format!("{before}{byte}{behind}")
}

/// Every allowed L with every number up to 60, with great ones, and with some in each form; lengths
/// that are not allowed; and a right input with another byte at each of its places.
pub fn by_hand(rng: &mut Rng) -> Vec<(usize, String)> {
    let mut inputs = Vec::new();
    for length in BLOCK_LENGTHS {
        inputs.extend((0..=60).map(|c| (PLAIN, plain(length, c))));
        inputs.extend(GREAT.map(|c| (GREAT_NUMBER, plain(length, c))));
        for (form, (_, _, make)) in FORMS.iter().enumerate() {
            inputs.extend(EACH.map(|c| (form, make(rng, length, c))));
        }
    }
    let wrong = wrong_lengths().into_iter();
    inputs.extend(wrong.map(|length| (WRONG_LENGTH, plain(length, 60))));
    let right = plain(256, 11);
    for at in 0..right.len() {
        inputs.extend(OTHERS.map(|byte| (BYTE_MORE, with_byte(&right, at, byte))));
    }
    inputs
}

pub fn random(rng: &mut Rng) -> (usize, String) {
    let (form, length) = (rng.below(FORMS.len()), rng.pick(&BLOCK_LENGTHS));
    let compressions = rng.range(0, 60) as u32;
    (form, FORMS[form].2(rng, length, compressions))
}

/// One run: the program's whole output is the model's answer, which is one that the form may have.
pub fn compare(form: usize, input: &str, coverage: &mut Coverage) -> Compared<()> {
    let bytes: Vec<u8> = input.chars().map(|byte| byte as u8).collect();
    let (name, results, _) = FORMS[form];
    let due = answer(&bytes);
    let result = match due {
        0 => 0,
        MOST_BLOCKS => 2,
        _ => 1,
    };
    let what = format!("{name}, {input:?}");
    if !results.contains(&result) {
        return Err(format!("{what}: the model has {due}"));
    }
    let printed = run(&bytes)?;
    expect(&what, printed, format!("{due}\n"))?;
    coverage.form(form, result);
    if let Some((block_length, _)) = numbers(&bytes) {
        coverage.planned(block_length as usize, due as u32);
    }
    Ok(())
}

/// What the program prints, its characters being bytes too.
fn run(input: &[u8]) -> Compared<String> {
    let broken = |error| format!("wake does not run: {error}");
    let mut program = Command::new("crates/wake/out/wake");
    let program = program.stdin(Stdio::piped()).stdout(Stdio::piped());
    let mut running = program.spawn().map_err(broken)?;
    let mut stdin = running.stdin.take().expect("a pipe");
    stdin.write_all(input).map_err(broken)?;
    drop(stdin);
    let ended = running.wait_with_output().map_err(broken)?;
    expect("wake ends well", ended.status.success(), true)?;
    Ok(String::from_utf8_lossy(&ended.stdout).into_owned())
}

//! The model against values known from outside, before it judges anything: FIPS 180-4's examples,
//! two signatures of RFC 8554's appendix F, a well-known Intel HEX text, and the counts, lengths and
//! costs that documents 01 and 02 work out by hand or give a formula for. And paths and the last
//! block, against the tree.

use crate::device::{Device, Stage};
use crate::ihex::Reading;
use crate::layout::MOST_HASHES;
use crate::lms::verify;
use crate::manifest::{MOST_BLOCKS, Manifest, check_size};
use crate::rfc8554::CASES;
use crate::sender::block_message;
use crate::sha256::{counted, sha256};
use crate::tree::{block, cover, parent, path, root, root_by_path, siblings};
use crate::wake;

pub fn unhex(text: &str) -> Vec<u8> {
    let digits: Vec<u8> = text
        .chars()
        .filter_map(|c| c.to_digit(16))
        .map(|d| d as u8)
        .collect();
    digits.chunks(2).map(|d| d[0] << 4 | d[1]).collect()
}

fn digests() -> bool {
    let examples: [(&[u8], &str); 4] = [
        (
            b"",
            "e3b0c44298fc1c149afbf4c8996fb92427ae41e4649b934ca495991b7852b855",
        ),
        (
            b"abc",
            "ba7816bf8f01cfea414140de5dae2223b00361a396177a9cb410ff61f20015ad",
        ),
        (
            b"abcdbcdecdefdefgefghfghighijhijkijkljklmklmnlmnomnopnopq",
            "248d6a61d20638b8e5c026930c3e6039a33ce45964ff2167f6ecedd419db06c1",
        ),
        (
            &[b'a'; 1_000_000],
            "cdc76e5c9914fb9281a1c7e284d73e67f1809a48a497200e046d39ccc7112cd0",
        ),
    ];
    examples
        .iter()
        .all(|(message, digest)| sha256(message).to_vec() == unhex(digest))
}

fn signatures() -> bool {
    CASES.iter().all(|case| {
        let [key, message, mut signature] = case.map(unhex);
        let valid = verify(&key, &message, &signature);
        signature[100] ^= 1;
        valid && !verify(&key, &message, &signature)
    })
}

fn counts() -> bool {
    let c = |n| -> Vec<usize> { (1..=n).map(|i| siblings(n, i).len()).collect() };
    let held = |n| -> Vec<usize> { (1..=n + 1).map(|next| cover(n, next).len()).collect() };
    c(1) == [0]
        && c(3) == [2, 0, 0]
        && c(5) == [3, 0, 1, 0, 0]
        && c(7) == [3, 0, 1, 0, 2, 0, 0]
        && c(8) == [3, 0, 1, 0, 2, 0, 1, 0]
        && held(8) == [1, 3, 2, 2, 1, 2, 1, 1, 0]
        && held(3) == [1, 2, 1, 0]
}

/// "At most 11 labels are then held": whatever the image, and whichever block is next.
fn most_held() -> bool {
    let most = |n: usize| (1..=n).map(|next| cover(n, next).len()).max();
    most(1024) == Some(10)
        && most(1025) == Some(11)
        && (1..=MOST_BLOCKS).all(|n| most(n) <= Some(MOST_HASHES))
}

/// Of the block messages with L = 256; and the limits of T.
fn lengths() -> bool {
    let of = |length: usize| -> Vec<usize> {
        let message = |i| block_message(&vec![0; length], 256, i);
        (1..=length.div_ceil(256))
            .map(|i| message(i).len())
            .collect()
    };
    of(256) == [259]
        && of(257) == [291, 4]
        && of(2048)[..2] == [355, 259]
        && of(2048).iter().sum::<usize>() == 2296
        && of(2047)[7] == 258
        && check_size(393_216, 256).is_ok()
        && check_size(393_217, 256).is_err()
}

/// "its length plus 9, over 64, rounded up"
fn compressions() -> bool {
    (0..300).all(|length: usize| {
        let (_, count) = counted(|| sha256(&vec![0; length]));
        count as usize == (length + 9).div_ceil(64)
    })
}

/// "With L = 256 and n = 8, message 1 costs 11": 5 for the block, and 2 for each of three labels.
/// Message 2 has none. The last one takes 5, and for the tree 8 × 5 + 7 × 2. One byte takes a
/// compression twice.
fn costs() -> bool {
    let cost = |block_length, image_length, next| {
        let device = Device {
            model: 0,
            key: Vec::new(),
            stage: Stage::Loading {
                manifest: Manifest {
                    version: 1,
                    block_length,
                    model: 0,
                    serial: 1,
                    image_length,
                    root: [0; 32],
                },
                next,
                held: Vec::new(),
            },
        };
        device.block_cost()
    };
    cost(256, 2048, 1) == Ok(11)
        && cost(256, 2048, 2) == Ok(5)
        && cost(256, 2048, 8) == Ok(59)
        && [64, 128, 256, 512, 1024]
            .iter()
            .all(|length| cost(*length, 1, 1) == Ok(2))
}

/// By the costs above, 11 is just enough for eight blocks, and one less for half of them. Message 1
/// of two blocks costs 4 with L = 64, and 19 with L = 1,024.
fn plans() -> bool {
    let plans = [
        ("256\n11\n", 8),
        ("256\n10\n", 4),
        ("64\n4\n", 2),
        ("64\n3\n", 0),
        ("1024\n19\n", 2),
        ("1024\n18\n", 0),
        ("1024\n39\n", 1536),
    ];
    wake::first_carries_most()
        && plans
            .iter()
            .all(|(input, n)| wake::answer(input.as_bytes()) == *n)
}

/// It has the bytes that are left, and its label is over those.
fn last_block() -> bool {
    let image = [7; 129];
    let (whole, one, less) = (sha256(&[7; 64]), sha256(&[7]), sha256(&[7; 63]));
    block(&image, 64, 3) == [7]
        && root(&image[..1], 64) == one
        && root(&image[..63], 64) == less
        && root(&image[..64], 64) == whole
        && root(&image[..65], 64) == parent(&whole, &one)
        && root(&image[..127], 64) == parent(&whole, &less)
        && root(&image[..128], 64) == parent(&whole, &whole)
        && root(&image, 64) == parent(&parent(&whole, &whole), &one)
}

/// The leaves' depths, read off the tree's figure for n = 3 and off the rule for others; and that
/// each block of small trees leads to the root.
fn paths() -> bool {
    let depths = |n| -> Vec<usize> { (1..=n).map(|i| path(n, i).len()).collect() };
    let leads = |n: usize, i: usize| {
        let image: Vec<u8> = (0..64 * n - 5).map(|at| (at / 64) as u8).collect();
        let hashes: Vec<_> = path(n, i).iter().map(|s| s.hash(&image, 64)).collect();
        root_by_path(n, i, block(&image, 64, i), &hashes) == root(&image, 64)
    };
    depths(1) == [0]
        && depths(3) == [2, 2, 1]
        && depths(5) == [3, 3, 3, 3, 1]
        && depths(7) == [3, 3, 3, 3, 3, 3, 2]
        && depths(8) == [3; 8]
        && (1..=17).all(|n| (1..=n).all(|i| leads(n, i)))
}

/// The usual example of a text, which others have published with its checksums.
fn hex_text() -> bool {
    let text = b":10010000214601360121470136007EFE09D2190140\n\
        :100110002146017E17C20001FF5F16002148011928\n\
        :10012000194E79234623965778239EDA3F01B2CAA7\n\
        :100130003F0156702B5E712B722B732146013421C7\n\
        :00000001FF\n";
    let image = "214601360121470136007EFE09D219012146017E17C20001FF5F160021480119\
        194E79234623965778239EDA3F01B2CA3F0156702B5E712B722B732146013421";
    let reading = Reading::new(text, 0x100, 64);
    let named: Option<Vec<u8>> = reading.image.iter().copied().collect();
    reading.fault.is_none() && named == Some(unhex(image))
}

pub fn run() -> [(&'static str, bool); 11] {
    [
        ("digests", digests()),
        ("signatures", signatures()),
        ("counts", counts()),
        ("most hashes held", most_held()),
        ("lengths", lengths()),
        ("compressions", compressions()),
        ("costs", costs()),
        ("plans", plans()),
        ("last block", last_block()),
        ("paths", paths()),
        ("Intel HEX", hex_text()),
    ]
}

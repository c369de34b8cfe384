//! RFC 8554: the verdict on one LMS signature, no HSS layer.

use crate::sha256::{Hash, counted, sha256};

pub const KEY_LENGTH: usize = 56;

const D_PBLC: u16 = 0x8080;
const D_MESG: u16 = 0x8181;
const D_LEAF: u16 = 0x8282;
const D_INTR: u16 = 0x8383;

/// What the two type numbers of a key stand for.
#[derive(Clone, Copy)]
pub struct Parameters {
    /// Bits of a digit.
    pub width: usize,
    pub chains: usize,
    pub shift: u32,
    pub height: usize,
}

impl Parameters {
    pub fn of(tree_type: u32, ots_type: u32) -> Option<Parameters> {
        let (width, chains, shift) = match ots_type {
            3 => (4, 67, 4),
            4 => (8, 34, 0),
            _ => return None,
        };
        let height = match tree_type {
            5..=9 => 5 * (tree_type as usize - 4),
            _ => return None,
        };
        Some(Parameters {
            width,
            chains,
            shift,
            height,
        })
    }

    /// Offset of the second type number: behind leaf number and one-time signature.
    pub fn tree_type_offset(&self) -> usize {
        4 + 4 + 32 * (self.chains + 1)
    }

    pub fn signature_length(&self) -> usize {
        self.tree_type_offset() + 4 + 32 * self.height
    }
}

pub fn number(bytes: &[u8]) -> u32 {
    bytes.iter().fold(0, |sum, byte| sum << 8 | *byte as u32)
}

/// H(I || u32str(place) || u16str(separator) || parts), the shape of every hash but the chain's.
fn tagged(id: &[u8], place: u32, separator: u16, parts: &[&[u8]]) -> Hash {
    let mut input = id.to_vec();
    input.extend(place.to_be_bytes());
    input.extend(separator.to_be_bytes());
    for part in parts {
        input.extend_from_slice(part);
    }
    sha256(&input)
}

/// Steps `from` up to, not including, `to` of chain i.
pub fn chain(id: &[u8], q: u32, i: usize, start: Hash, from: usize, to: usize) -> Hash {
    let mut input = [0u8; 55];
    input[..16].copy_from_slice(id);
    input[16..20].copy_from_slice(&q.to_be_bytes());
    input[20..22].copy_from_slice(&(i as u16).to_be_bytes());
    input[23..].copy_from_slice(&start);
    for j in from..to {
        input[22] = j as u8;
        let next = sha256(&input);
        input[23..].copy_from_slice(&next);
    }
    input[23..].try_into().unwrap()
}

/// Q, the randomized digest of the message.
pub fn message_digest(id: &[u8], q: u32, c: &[u8], message: &[u8]) -> Hash {
    tagged(id, q, D_MESG, &[c, message])
}

/// The digits of Q || Cksm(Q), one for each chain.
pub fn digits(p: &Parameters, digest: &Hash) -> Vec<usize> {
    let largest = (1 << p.width) - 1;
    let digit = |bytes: &[u8], i: usize| {
        let bit = i * p.width;
        bytes[bit / 8] as usize >> (8 - p.width - bit % 8) & largest
    };
    let sum: usize = (0..256 / p.width).map(|i| largest - digit(digest, i)).sum();
    let mut bytes = digest.to_vec();
    bytes.extend(((sum << p.shift) as u16).to_be_bytes());
    (0..p.chains).map(|i| digit(&bytes, i)).collect()
}

/// The ends of all chains, each from its hash in a signature on.
fn ends(p: &Parameters, id: &[u8], q: u32, start: &[Hash], digest: &Hash) -> Vec<Hash> {
    let digits = digits(p, digest);
    (0..p.chains)
        .map(|i| chain(id, q, i, start[i], digits[i], (1 << p.width) - 1))
        .collect()
}

/// How many chain steps a verdict takes where Q is this digest. They are made, from blank hashes; a
/// step is one compression.
pub fn steps(p: &Parameters, digest: &Hash) -> u32 {
    let start = vec![[0; 32]; p.chains];
    counted(|| ends(p, &[0; 16], 0, &start, digest)).1
}

/// The hash of a leaf, from the ends of its chains.
pub fn leaf_hash(p: &Parameters, id: &[u8], q: u32, ends: &[Hash]) -> Hash {
    let one_time_key = tagged(id, q, D_PBLC, &[&ends.concat()]);
    tagged(id, (1 << p.height) + q, D_LEAF, &[&one_time_key])
}

pub fn inner_hash(id: &[u8], node: u32, left: &Hash, right: &Hash) -> Hash {
    tagged(id, node, D_INTR, &[left, right])
}

/// Algorithm 6a from a leaf's hash upward.
pub fn top_hash(id: &[u8], mut node: u32, mut hash: Hash, path: &[Hash]) -> Hash {
    for sibling in path {
        hash = if node % 2 == 1 {
            inner_hash(id, node / 2, sibling, &hash)
        } else {
            inner_hash(id, node / 2, &hash, sibling)
        };
        node /= 2;
    }
    hash
}

pub fn hashes(bytes: &[u8]) -> Vec<Hash> {
    bytes.chunks(32).map(|h| h.try_into().unwrap()).collect()
}

pub fn verify(key: &[u8], message: &[u8], signature: &[u8]) -> bool {
    if key.len() != KEY_LENGTH {
        return false;
    }
    let (tree_type, ots_type) = (number(&key[..4]), number(&key[4..8]));
    let (id, top) = (&key[8..24], &key[24..]);
    let Some(p) = Parameters::of(tree_type, ots_type) else {
        return false;
    };
    if signature.len() != p.signature_length() {
        return false;
    }
    let q = number(&signature[..4]);
    let at = p.tree_type_offset();
    let path = hashes(&signature[at + 4..]);
    let types_match =
        number(&signature[4..8]) == ots_type && number(&signature[at..at + 4]) == tree_type;
    if !types_match || q >= 1 << p.height {
        return false;
    }
    let digest = message_digest(id, q, &signature[8..40], message);
    let ends = ends(&p, id, q, &hashes(&signature[40..at]), &digest);
    let leaf = leaf_hash(&p, id, q, &ends);
    top_hash(id, (1 << p.height) + q, leaf, &path) == top
}

//! SHA-256 (FIPS 180-4, sections 4 to 6). The constants are worked out from the primes, as the
//! standard defines them, and not copied. Compressions are counted as they are made, for change 7.

use std::cell::Cell;

pub type Hash = [u8; 32];

thread_local! {
    /// Those of this thread so far.
    static COMPRESSIONS: Cell<u32> = const { Cell::new(0) };
}

/// A result, and how many compressions it took.
pub fn counted<T>(work: impl FnOnce() -> T) -> (T, u32) {
    let before = COMPRESSIONS.get();
    let result = work();
    (result, COMPRESSIONS.get().wrapping_sub(before))
}

/// The first 32 fractional bits of the `degree`-th root of each of the first N primes.
const fn prime_roots<const N: usize>(degree: u32) -> [u32; N] {
    let mut out = [0; N];
    let (mut found, mut candidate) = (0, 2u128);
    while found < N {
        let mut divisor = 2;
        while candidate % divisor != 0 {
            divisor += 1;
        }
        if divisor == candidate {
            out[found] = root(candidate << (32 * degree), degree) as u32;
            found += 1;
        }
        candidate += 1;
    }
    out
}

/// The integer part of the `degree`-th root, bit by bit; the roots needed here have fewer than 38
/// bits.
const fn root(value: u128, degree: u32) -> u128 {
    let (mut low, mut bit) = (0u128, 1u128 << 37);
    while bit > 0 {
        if (low + bit).pow(degree) <= value {
            low += bit;
        }
        bit >>= 1;
    }
    low
}

static K: [u32; 64] = prime_roots(3);
static START: [u32; 8] = prime_roots(2);

/// Section 6.2.2: one block of 64 bytes.
fn compress(hash: &mut [u32; 8], block: &[u8]) {
    COMPRESSIONS.set(COMPRESSIONS.get().wrapping_add(1));
    let mut w = [0u32; 64];
    for (word, bytes) in w.iter_mut().zip(block.chunks(4)) {
        *word = u32::from_be_bytes([bytes[0], bytes[1], bytes[2], bytes[3]]);
    }
    for t in 16..64 {
        let (x, y) = (w[t - 2], w[t - 15]);
        let s1 = x.rotate_right(17) ^ x.rotate_right(19) ^ (x >> 10);
        let s0 = y.rotate_right(7) ^ y.rotate_right(18) ^ (y >> 3);
        w[t] = s1
            .wrapping_add(w[t - 7])
            .wrapping_add(s0)
            .wrapping_add(w[t - 16]);
    }
    let [mut a, mut b, mut c, mut d, mut e, mut f, mut g, mut h] = *hash;
    for t in 0..64 {
        let s1 = e.rotate_right(6) ^ e.rotate_right(11) ^ e.rotate_right(25);
        let ch = (e & f) ^ (!e & g);
        let t1 = h
            .wrapping_add(s1)
            .wrapping_add(ch)
            .wrapping_add(K[t])
            .wrapping_add(w[t]);
        let s0 = a.rotate_right(2) ^ a.rotate_right(13) ^ a.rotate_right(22);
        let maj = (a & b) ^ (a & c) ^ (b & c);
        let t2 = s0.wrapping_add(maj);
        (h, g, f, e) = (g, f, e, d.wrapping_add(t1));
        (d, c, b, a) = (c, b, a, t1.wrapping_add(t2));
    }
    for (word, letter) in hash.iter_mut().zip([a, b, c, d, e, f, g, h]) {
        *word = word.wrapping_add(letter);
    }
}

pub fn sha256(message: &[u8]) -> Hash {
    let mut hash = START;
    let whole = message.len() / 64 * 64;
    for block in message[..whole].chunks(64) {
        compress(&mut hash, block);
    }
    // Section 5.1.1: 0x80, zeros, the length in bits; one or two blocks.
    let rest = &message[whole..];
    let mut tail = [0u8; 128];
    tail[..rest.len()].copy_from_slice(rest);
    tail[rest.len()] = 0x80;
    let end = if rest.len() + 9 <= 64 { 64 } else { 128 };
    tail[end - 8..end].copy_from_slice(&(8 * message.len() as u64).to_be_bytes());
    for block in tail[..end].chunks(64) {
        compress(&mut hash, block);
    }
    let mut out = [0; 32];
    for (bytes, word) in out.chunks_mut(4).zip(hash) {
        bytes.copy_from_slice(&word.to_be_bytes());
    }
    out
}

//! Document 01, "Tree and labels": the tree over the blocks, what block message i carries and what
//! the device holds; and 02's path from a block to the root, and last block, which ends with the
//! image. A label is a hash here.
//!
//! All is worked out by walking the tree as it is defined, never by a formula over block numbers.
//! Blocks count from 1.

use crate::sha256::{Hash, sha256};

/// A subtree: its first block and its number of blocks.
#[derive(Clone, Copy, PartialEq, Eq, Hash, Debug)]
pub struct Subtree {
    pub first: usize,
    pub count: usize,
}

impl Subtree {
    /// "split at k, the largest power of two below n"
    pub fn halves(self) -> (Subtree, Subtree) {
        let mut k = 1;
        while 2 * k < self.count {
            k *= 2;
        }
        let left = Subtree { count: k, ..self };
        let right = Subtree {
            first: self.first + k,
            count: self.count - k,
        };
        (left, right)
    }

    /// Its hash in the tree over this image, or over as many bytes of the flash.
    pub fn hash(self, image: &[u8], block_length: usize) -> Hash {
        if self.count == 1 {
            return sha256(block(image, block_length, self.first));
        }
        let (left, right) = self.halves();
        parent(
            &left.hash(image, block_length),
            &right.hash(image, block_length),
        )
    }
}

pub fn parent(left: &Hash, right: &Hash) -> Hash {
    sha256(&[*left, *right].concat())
}

pub fn whole(n: usize) -> Subtree {
    Subtree { first: 1, count: n }
}

/// Block i: the image is cut every L bytes, and the last block has the bytes that are left.
pub fn block(image: &[u8], block_length: usize, i: usize) -> &[u8] {
    let mut blocks = image.chunks(block_length);
    blocks.nth(i - 1).expect("a block of the image")
}

pub fn root(image: &[u8], block_length: usize) -> Hash {
    let n = image.len().div_ceil(block_length);
    whole(n).hash(image, block_length)
}

/// The right siblings from block i up to the root of the largest subtree that begins with it,
/// lowest first; c(i) is their number.
pub fn siblings(n: usize, i: usize) -> Vec<Subtree> {
    let mut subtree = whole(n);
    while subtree.first != i {
        let (left, right) = subtree.halves();
        subtree = if i < right.first { left } else { right };
    }
    let mut found = Vec::new();
    while subtree.count > 1 {
        let (left, right) = subtree.halves();
        found.insert(0, right);
        subtree = left;
    }
    found
}

/// The siblings from block i's leaf up to the root, lowest first; the leaf's depth is their number.
pub fn path(n: usize, i: usize) -> Vec<Subtree> {
    let mut subtree = whole(n);
    let mut found = Vec::new();
    while subtree.count > 1 {
        let (left, right) = subtree.halves();
        let (inside, beside) = if i < right.first {
            (left, right)
        } else {
            (right, left)
        };
        found.insert(0, beside);
        subtree = inside;
    }
    found
}

/// The root that block i leads to with these siblings' hashes, as many as its leaf is deep.
pub fn root_by_path(n: usize, i: usize, block: &[u8], hashes: &[Hash]) -> Hash {
    let siblings = path(n, i);
    siblings
        .iter()
        .zip(hashes)
        .fold(sha256(block), |hash, (sibling, beside)| {
            if sibling.first < i {
                parent(beside, &hash)
            } else {
                parent(&hash, beside)
            }
        })
}

/// The fewest subtrees that cover exactly the blocks from `next` to n, in block order: what the
/// device holds before block `next`.
pub fn cover(n: usize, next: usize) -> Vec<Subtree> {
    fn walk(subtree: Subtree, next: usize, found: &mut Vec<Subtree>) {
        if subtree.first >= next {
            found.push(subtree);
        } else if subtree.first + subtree.count > next {
            let (left, right) = subtree.halves();
            walk(left, next, found);
            walk(right, next, found);
        }
    }
    let mut found = Vec::new();
    walk(whole(n), next, &mut found);
    found
}

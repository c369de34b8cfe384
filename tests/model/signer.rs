//! Signatures for the tests (RFC 8554, algorithms 1 to 5, secrets as in its appendix A).
//!
//! Of a tall tree only one subtree of height 5 is built; the siblings above it are random and fixed
//! for the key. The top hash follows from both, so the 32 leaves of that subtree can sign, and no
//! verifier can tell the difference.

use crate::lms::{Parameters, chain, digits, inner_hash, leaf_hash, message_digest, top_hash};
use crate::rng::Rng;
use crate::sha256::{Hash, sha256};

const BUILT: usize = 32;

pub struct Signer {
    /// The public key's 56 bytes.
    pub key: Vec<u8>,
    pub parameters: Parameters,
    id: [u8; 16],
    seed: Hash,
    first_leaf: u32,
    /// Every step of every chain of every leaf, so that signing is looking up.
    steps: Vec<Hash>,
    /// The built subtree as a heap: its root is node 1, its leaves are nodes 32 to 63.
    nodes: Vec<Hash>,
    /// Siblings above the built subtree, lowest first.
    above: Vec<Hash>,
}

fn leaves(tree_type: u32, ots_type: u32) -> u32 {
    1 << Parameters::of(tree_type, ots_type)
        .expect("a known type")
        .height
}

impl Signer {
    pub fn new(rng: &mut Rng, tree_type: u32, ots_type: u32) -> Signer {
        let first_leaf = rng.u32() % leaves(tree_type, ots_type);
        Signer::with_leaf(rng, tree_type, ots_type, first_leaf)
    }

    /// A key whose signatures come from leaf numbers that its tree does not have: all else of them
    /// is right.
    pub fn beyond(rng: &mut Rng, tree_type: u32, ots_type: u32) -> Signer {
        let first_leaf = leaves(tree_type, ots_type) + rng.u32() % (1 << 20);
        Signer::with_leaf(rng, tree_type, ots_type, first_leaf)
    }

    /// The key whose built subtree holds this leaf.
    fn with_leaf(rng: &mut Rng, tree_type: u32, ots_type: u32, leaf: u32) -> Signer {
        let parameters = Parameters::of(tree_type, ots_type).expect("a known type");
        let mut signer = Signer {
            key: Vec::new(),
            parameters,
            id: rng.array(),
            seed: rng.array(),
            first_leaf: leaf / BUILT as u32 * BUILT as u32,
            steps: Vec::new(),
            nodes: vec![[0; 32]; 2 * BUILT],
            above: (5..parameters.height).map(|_| rng.array()).collect(),
        };
        signer.build();
        let top = top_hash(&signer.id, signer.node(1), signer.nodes[1], &signer.above);
        signer.key.extend(tree_type.to_be_bytes());
        signer.key.extend(ots_type.to_be_bytes());
        signer.key.extend(signer.id);
        signer.key.extend(top);
        signer
    }

    /// The whole tree's number of a node of the built subtree.
    fn node(&self, index: usize) -> u32 {
        let level = index.ilog2() as usize;
        let first = ((1 << self.parameters.height) + self.first_leaf) >> (5 - level);
        first + (index - (1 << level)) as u32
    }

    fn build(&mut self) {
        let p = self.parameters;
        for leaf in 0..BUILT {
            let q = self.first_leaf + leaf as u32;
            let ends: Vec<Hash> = (0..p.chains).map(|i| self.build_chain(q, i)).collect();
            self.nodes[BUILT + leaf] = leaf_hash(&p, &self.id, q, &ends);
        }
        for index in (1..BUILT).rev() {
            let (left, right) = (&self.nodes[2 * index], &self.nodes[2 * index + 1]);
            self.nodes[index] = inner_hash(&self.id, self.node(index), left, right);
        }
    }

    /// Keeps all steps of the chain; its end.
    fn build_chain(&mut self, q: u32, i: usize) -> Hash {
        let mut hash = self.secret(q, i);
        self.steps.push(hash);
        for step in 1..1 << self.parameters.width {
            hash = chain(&self.id, q, i, hash, step - 1, step);
            self.steps.push(hash);
        }
        hash
    }

    fn secret(&self, q: u32, i: usize) -> Hash {
        let mut input = self.id.to_vec();
        input.extend(q.to_be_bytes());
        input.extend((i as u16).to_be_bytes());
        input.push(0xff);
        input.extend(self.seed);
        sha256(&input)
    }

    /// A signature by a random leaf. Leaves are used many times, which a test may do.
    pub fn sign(&self, rng: &mut Rng, message: &[u8]) -> Vec<u8> {
        let p = &self.parameters;
        let leaf = rng.below(BUILT);
        let q = self.first_leaf + leaf as u32;
        let c: Hash = rng.array();
        let mut out = q.to_be_bytes().to_vec();
        out.extend(&self.key[4..8]);
        out.extend(c);
        let digest = message_digest(&self.id, q, &c, message);
        for (i, digit) in digits(p, &digest).into_iter().enumerate() {
            let chain = leaf * p.chains + i;
            out.extend(self.steps[(chain << p.width) + digit]);
        }
        out.extend(&self.key[..4]);
        let mut index = BUILT + leaf;
        while index > 1 {
            out.extend(self.nodes[index ^ 1]);
            index /= 2;
        }
        out.extend(self.above.concat());
        out
    }
}

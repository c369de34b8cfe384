//! The edge of the limit: which states, manifests and images had as many blocks as are allowed, or
//! one more, for the coverage.

use crate::coverage::Coverage;
use crate::device::{Device, Stage};
use crate::manifest::{BLOCK_LENGTHS, MOST_BLOCKS, Manifest, SIZE, STAGE, STATE};

/// What was judged by its number of blocks; a row of the coverage's table.
#[derive(Clone, Copy)]
pub enum Edge {
    Loading,
    Complete,
    Program,
    Update,
    PathUpdate,
    Sender,
}

pub const EDGES: [&str; 6] = [
    "state, loading",
    "state, complete",
    "device, kind 1",
    "device, kind 3",
    "device, kind 4",
    "sender",
];

/// The columns: as many blocks as are allowed, let pass; and one more, refused.
pub const COUNTS: [usize; 2] = [MOST_BLOCKS, MOST_BLOCKS + 1];

/// The image's blocks, if its block length is allowed.
pub fn blocks(image_length: usize, block_length: u32) -> Option<usize> {
    let allowed = BLOCK_LENGTHS.contains(&block_length);
    allowed.then(|| image_length.div_ceil(block_length as usize))
}

/// The blocks that a manifest has, if nothing else can be wrong with its version and size.
fn blocks_of(manifest: &Manifest) -> Option<usize> {
    let n = blocks(manifest.image_length as usize, manifest.block_length as u32)?;
    (manifest.version == 1).then_some(n)
}

/// The state's row and blocks, if these alone can make it senseless.
fn state(device: &Device) -> Option<(Edge, usize)> {
    let n = blocks_of(device.manifest()?)?;
    match device.stage {
        Stage::Loading { next, .. } => (1..=n).contains(&next).then_some((Edge::Loading, n)),
        _ => Some((Edge::Complete, n)),
    }
}

/// The row and the blocks of the manifest that a message carries, if it has all of the head.
fn message(bytes: &[u8]) -> Option<(Edge, usize)> {
    let (edge, head) = match bytes.first()? {
        1 => (Edge::Program, 49),
        3 => (Edge::Update, 51),
        4 => (Edge::PathUpdate, 51),
        _ => return None,
    };
    let manifest = Manifest::read(&bytes.get(..head)?[1..49]);
    Some((edge, blocks_of(&manifest)?))
}

/// A device in this state got a message and gave this answer.
pub fn count(device: &Device, bytes: &[u8], answer: u32, coverage: &mut Coverage) {
    if let Some((edge, n)) = state(device) {
        coverage.edge(edge, n, answer == STATE);
    }
    if let (Some((edge, n)), false) = (message(bytes), [STATE, STAGE].contains(&answer)) {
        coverage.edge(edge, n, answer == SIZE);
    }
}

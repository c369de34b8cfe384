//! States that devices stored while the limit was 4,096 blocks: 496 bytes, with places for twelve
//! hashes, the held ones at the end. Without the first place, which is free for every image of up
//! to 1,536 blocks, such a state is one that the library takes, and the device goes on with it.
//!
//! The library of that time made those below. A fresh device, with the model and the key used here,
//! got the signed manifest of an image and then its blocks in order, all from the sender of that
//! library; after as many blocks as the names say its state was written down in hex. `IDLE` is the
//! fresh one. Blanks and line ends mean nothing.

use crate::altered::{SERIAL, expect_boot, flipped};
use crate::compare::Compared;
use crate::craft::Image;
use crate::handed::refused_by_all;
use crate::handmade::{ACCEPTED, Case, MODEL, expect};
use crate::layout::STATE_LENGTH;
use crate::limit::blocks;
use crate::manifest::{ALTERED, MISMATCH, SERIAL as NOT_NEWER, STAGE};
use crate::pair::Pair;
use crate::readers;
use crate::rng::Rng;
use crate::selftest::unhex;
use crate::signer::Signer;

/// 1,536 blocks: eleven hashes are held.
const AFTER_BLOCK_1: &str = "
    0a0b0c0d00000005000000034690277094505bfe6161d4d9b7aa7b70159f3b8ddfdf3dc7dfefe7b3240aab3325c13c113320e475e91b85152b9b95ce00010002
    000100400a0b0c0d0000000100018000635e48d0c6fce7f60af674d0bbd9d703299667c9a342ea95edb3b77a3692e50300000000000000000000000000000000
    000000000000000000000000000000002233b6fea15b42bde620fd63e0f644fb4f6860b9708941aef281d3e0233980d4615dafc16a4c13d9e7f6beefc245f1af
    44a44d57159faf3d1142403e1daa53190953b83c67c44d53cd9d020b5cab7762d896b06eaa5ce83f902d19d5bcef85c8ec8f86d77236174319e2af87dc976d83
    c83f2ae9d87f0f00eab7af12e84ccdf1386e8ebeea3d246cff54ba65f818cab247c2ea222b956aace006c8209b7166bc32d3b38cd977ba60adf16c39ceaa02e0
    192efc48c356f076ba7a487886c00bf38391f0890f3aadedc00c2e50c08f5086a0c527b16ed95bd89029157ab49b3e84c292a640cf6f88f5950cb514d312a464
    91e2ba98fa3c3d40b9eab6d030f79646a6931a79d174974723e8573996a17d0ede95d870879d925ca2db2498b45833c947736958548e2ab114424b014002169a
    b4d40af99bdccfdbc99ae88d132de5d8257beb4ff15672e6c1b436403dbf0f8cac483b0c453d525cf7f9e855072e7788";

/// The same image.
const AFTER_BLOCK_700: &str = "
    0a0b0c0d00000005000000034690277094505bfe6161d4d9b7aa7b70159f3b8ddfdf3dc7dfefe7b3240aab3325c13c113320e475e91b85152b9b95ce000102bd
    000100400a0b0c0d0000000100018000635e48d0c6fce7f60af674d0bbd9d703299667c9a342ea95edb3b77a3692e50300000000000000000000000000000000
    000000000000000000000000000000002233b6fea15b42bde620fd63e0f644fb4f6860b9708941aef281d3e0233980d4582651a7a81ee690acf515b88ec2c054
    82a57dfdf12dfbcb0d1f962ea5c3c2d3ca6a90c9b2a0b6b38111ea13fda1ad43118e2ad777aa3e88b1ebd6dea08869d1d083bce12e0c4ee23d3a5a68b11afaa4
    05da745af4e6021c0fe222d19aba18a6a34f25ff8b0116db4547b2b0bfe8db97e53bcfbd0861b8baaef63c747b9898e40c1a2c37daf04ce43ed3d96ef5fc8dd3
    31dcbad29b7e8ede1509389cf286d28eb78395994a103a08722eaf4b755e12e5443652989cf493dcb175d165e29b27fb7ecfd1668002f88445ddcacb6bfe6b8f
    b5e902003bf90cab7a0939b874eee1cd4188e35a0087250c22de3ebfe9ecd1c2eab472b18fdb4b304a2a509bc5dba475c927e14b5a6f9234d81e62bfacbf3249
    2da4c13366de38d0302f0f06794bc8b0257beb4ff15672e6c1b436403dbf0f8cac483b0c453d525cf7f9e855072e7788";

/// 1,025 blocks, of which the last has one byte.
const COMPLETE: &str = "
    0a0b0c0d00000005000000034690277094505bfe6161d4d9b7aa7b70159f3b8ddfdf3dc7dfefe7b3240aab3325c13c113320e475e91b85152b9b95ce00020000
    000100400a0b0c0d0000000100010001ff626f675187c973a1a5bcc341396736155227aca8d03d425c12f5fef672478200000000000000000000000000000000
    000000000000000000000000000000002233b6fea15b42bde620fd63e0f644fb4f6860b9708941aef281d3e0233980d4582651a7a81ee690acf515b88ec2c054
    82a57dfdf12dfbcb0d1f962ea5c3c2d33b537959cd67d5b0b05b8337cc0288586a34f445068aa51653522d3f3e6722df4a944ef5dd13d99896cf77c1f3b84f50
    844dc0feee5c169aebc63b32748aa054a57d5134245cbe73d0d0373a17865bb336c8f1f897065690fe7b129a64010166040c865ba07a2984e40a8f1699d24dec
    d80a9273cf169d22f857c0120beaf4c9cc910806a2b5725dcfd9a059cb1c58dd1912dcc0a879dd17c050e1a3ab3fb8a19aa59c77fe0436200013af6a238c3834
    dbaa19a19b0fd65361ca0ad8595225c40ebd2a4122ec4d1cc9e21d490f92974b9e50a0f465020884fc16612ddfa25512fe3abfb2c76775ec5146e72de2b9e73d
    017e6a24425a33dd5408e982a8f2202fa1fce4363854ff888cff4b8e7875d600c2682390412a8cf79b37d0b11148b0fa";

/// 1,537 blocks, before the first.
const TOO_LARGE: &str = "
    0a0b0c0d00000005000000034690277094505bfe6161d4d9b7aa7b70159f3b8ddfdf3dc7dfefe7b3240aab3325c13c113320e475e91b85152b9b95ce00010001
    000100400a0b0c0d000000010001800141af396243ef946b514576a82203411ad3a961cc865bd06320bbfaf89616cbdb00000000000000000000000000000000
    00000000000000000000000000000000000000000000000000000000000000000000000000000000000000000000000000000000000000000000000000000000
    00000000000000000000000000000000000000000000000000000000000000000000000000000000000000000000000000000000000000000000000000000000
    00000000000000000000000000000000000000000000000000000000000000000000000000000000000000000000000000000000000000000000000000000000
    00000000000000000000000000000000000000000000000000000000000000000000000000000000000000000000000000000000000000000000000000000000
    00000000000000000000000000000000000000000000000000000000000000000000000000000000000000000000000000000000000000000000000000000000
    0000000000000000000000000000000041af396243ef946b514576a82203411ad3a961cc865bd06320bbfaf89616cbdb";

const IDLE: &str = "
    0a0b0c0d00000005000000034690277094505bfe6161d4d9b7aa7b70159f3b8ddfdf3dc7dfefe7b3240aab3325c13c113320e475e91b85152b9b95ce00000000
    00000000000000000000000000000000000000000000000000000000000000000000000000000000000000000000000000000000000000000000000000000000
    00000000000000000000000000000000000000000000000000000000000000000000000000000000000000000000000000000000000000000000000000000000
    00000000000000000000000000000000000000000000000000000000000000000000000000000000000000000000000000000000000000000000000000000000
    00000000000000000000000000000000000000000000000000000000000000000000000000000000000000000000000000000000000000000000000000000000
    00000000000000000000000000000000000000000000000000000000000000000000000000000000000000000000000000000000000000000000000000000000
    00000000000000000000000000000000000000000000000000000000000000000000000000000000000000000000000000000000000000000000000000000000
    000000000000000000000000000000000000000000000000000000000000000000000000000000000000000000000000";

/// The bytes that are left out: the first of the twelve places.
const FIRST_PLACE: std::ops::Range<usize> = 112..144;

/// A stored state, its image's length and the blocks of it that are in the flash, and what must
/// come of it.
struct Stored {
    name: &'static str,
    state: &'static str,
    length: usize,
    accepted: usize,
    then: fn(&Stored, &mut Case, Pair) -> Compared<()>,
}

const STORED: [Stored; 5] = [
    Stored {
        name: "after block 1",
        state: AFTER_BLOCK_1,
        length: 98_304,
        accepted: 1,
        then: Stored::goes_on,
    },
    Stored {
        name: "after block 700",
        state: AFTER_BLOCK_700,
        length: 98_304,
        accepted: 700,
        then: Stored::goes_on,
    },
    Stored {
        name: "complete",
        state: COMPLETE,
        length: 65_537,
        accepted: 1025,
        then: |_, case, pair| is_complete(case, pair),
    },
    Stored {
        name: "too large",
        state: TOO_LARGE,
        length: 98_305,
        accepted: 0,
        then: |_, case, pair| is_too_large(case, pair),
    },
    Stored {
        name: "idle",
        state: IDLE,
        length: 98_304,
        accepted: 0,
        then: |_, case, pair| is_idle(case, pair),
    },
];

pub fn run(rng: &mut Rng, mut record: impl FnMut(Compared<()>)) {
    let signer = Signer::new(&mut Rng::new(6, 0), 5, 3);
    for stored in STORED {
        let case_rng = Rng::new(rng.next(), 0);
        let mut case = Case::new(case_rng, &signer, image(stored.length));
        let result = stored.device(&mut case);
        let result = result.and_then(|pair| (stored.then)(&stored, &mut case, pair));
        record(result.map_err(|what| format!("{}: {what}", stored.name)));
    }
}

/// L = 64, and the byte at position p is the highest one of p × 2,654,435,761 modulo 2 to the power
/// 32.
fn image(length: usize) -> Image {
    let byte = |p: u32| p.wrapping_mul(2_654_435_761).to_be_bytes()[0];
    Image {
        block_length: 64,
        bytes: (0..length as u32).map(byte).collect(),
    }
}

impl Stored {
    /// The device with what is left of the state. All of its bytes are no state.
    fn device(&self, case: &mut Case) -> Compared<Pair> {
        let state = unhex(self.state);
        expect("bytes stored", state.len(), 496)?;
        let manifest = case.image.manifest(MODEL, SERIAL, &case.image);
        let written = (64 * self.accepted).min(self.length);
        let mut flash = case.image.bytes[..written].to_vec();
        flash.resize(self.length, 0xff);
        let mut pair = Pair::fresh(&mut case.rng, MODEL, &case.signer.key, self.length)?;
        pair.put_flash(flash);
        pair.put_state(state.clone());
        refused_by_all(case, pair.clone(), &manifest)?;
        let (before, behind) = (&state[..FIRST_PLACE.start], &state[FIRST_PLACE.end..]);
        pair.put_state([before, behind].concat());
        Ok(pair)
    }

    /// The sender's other blocks complete it.
    fn goes_on(&self, case: &mut Case, mut pair: Pair) -> Compared<()> {
        let next = self.accepted + 1;
        expect_status(&pair, [1, next as u32, 1536, MODEL, SERIAL, 98_304, 64])?;
        self.misread(case, pair.clone(), next)?;
        blocks(case, &mut pair, next)?;
        expect_status(&pair, [2, 0, 1536, MODEL, SERIAL, 98_304, 64])
    }

    /// The first bytes alone, as many as a state has, are taken for one, with each hash one place
    /// off: no block fits, and the same program is not newer.
    fn misread(&self, case: &mut Case, mut pair: Pair, next: usize) -> Compared<()> {
        pair.put_state(unhex(self.state)[..STATE_LENGTH].to_vec());
        let message = case.image.block_message(next);
        case.give("block, misread state", &mut pair, &message, MISMATCH)?;
        let program = case.signed_program(&case.image.manifest(MODEL, SERIAL, &case.image));
        case.give("program, misread state", &mut pair, &program, NOT_NEWER)
    }
}

/// Stage, next number, n, model, serial, T and L.
fn expect_status(pair: &Pair, due: [u32; 7]) -> Compared<()> {
    expect("status, compared", readers::status(&pair.state)?, ACCEPTED)?;
    expect("status", pair.device().status(), Ok(due))
}

fn is_complete(case: &mut Case, mut pair: Pair) -> Compared<()> {
    expect_status(&pair, [2, 0, 1025, MODEL, SERIAL, 65_537, 64])?;
    expect_boot("stored", &pair, ACCEPTED)?;
    expect_boot("stored, touched", &flipped(&pair, 65_536), ALTERED)?;
    for kind in [3, 4] {
        case.update(&mut pair, kind, 1025)?;
        expect_boot("updated", &pair, ACCEPTED)?;
    }
    Ok(())
}

/// Only a fresh state helps.
fn is_too_large(case: &mut Case, pair: Pair) -> Compared<()> {
    let manifest = case.image.manifest(MODEL, SERIAL, &case.image);
    refused_by_all(case, pair, &manifest)?;
    let fresh = Pair::fresh(&mut case.rng, MODEL, &case.signer.key, 98_304)?;
    case.image = image(98_304);
    takes_program(case, fresh)
}

fn is_idle(case: &mut Case, pair: Pair) -> Compared<()> {
    expect_status(&pair, [0, 0, 0, MODEL, 0, 0, 0])?;
    expect_boot("stored", &pair, STAGE)?;
    takes_program(case, pair)
}

fn takes_program(case: &mut Case, mut pair: Pair) -> Compared<()> {
    let manifest = case.image.manifest(MODEL, SERIAL, &case.image);
    let program = case.signed_program(&manifest);
    case.give("new program", &mut pair, &program, ACCEPTED)?;
    let message = case.image.block_message(1);
    case.give("block 1", &mut pair, &message, ACCEPTED)?;
    expect_status(&pair, [1, 2, 1536, MODEL, SERIAL, 98_304, 64])
}

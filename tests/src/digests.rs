//! The exports of libsignature.a by two libraries: digests, and searches of golden images.
use crate::compare::caught;
use crate::lender::{Exports, Lender};
use crate::library::Library;
use crate::random::Random;

/// A block's contents, of any length, its number, and what stands around its digest in a golden image.
struct Signed {
    contents: Vec<u8>,
    number: u32,
    before: Vec<u8>,
    behind: Vec<u8>,
}

/// Compares contents of every length about the parts of 64 bytes, and some longer ones. Says how many there were, or the first difference.
pub fn run<E: Exports>(candidate: &Lender<E>, reference: &Library) -> Result<usize, String> {
    let mut random = Random::new(60);
    let longer: Vec<usize> = (0..20).map(|_| random.below(60_000)).collect();
    let mut count = 0;
    for length in (0..=260).chain(4030..=4100).chain(longer) {
        let signed = Signed::drawn(length, &mut random);
        let what = format!("{length} bytes with the number {:#x}", signed.number);
        let (given, expected) = (caught(|| signed.by(candidate)), signed.by(reference));
        if given.map_err(|panic| format!("{what}: {panic}"))? != expected {
            return Err(format!("{what}: another digest, or another answer about an image"));
        }
        count += 1;
    }
    Ok(count)
}

impl Signed {
    fn drawn(length: usize, random: &mut Random) -> Signed {
        let (digests, rest) = (random.below(4), random.below(70));
        let [contents, before, behind] = [length, 32 * digests, rest].map(|length| random.bytes(length));
        Signed { contents, number: random.next() as u32, before, behind }
    }

    /// The digest of the contents, that of the block, and whether images sign it: with the digest, with one bit of it changed, without its last byte, with
    /// all digests moved by a byte, with none, and with the digest of another block.
    fn by<E: Exports>(&self, library: &Lender<E>) -> ([u8; 32], [u8; 32], [bool; 6]) {
        let Signed { contents, number, before, behind } = self;
        let digest = library.block_digest(contents, *number);
        let golden = [&before[..], &digest, behind].concat();
        let mut changed = golden.clone();
        changed[before.len() + 31] ^= 1;
        let signs = |golden: &[u8], number: u32| library.is_signed(contents, golden, number);
        let answers = [
            signs(&golden, *number),
            signs(&changed, *number),
            signs(&golden[..before.len() + 31], *number),
            signs(&golden[1..], *number),
            signs(&[], *number),
            signs(&golden, number ^ 1),
        ];
        (library.sha256(contents), digest, answers)
    }
}

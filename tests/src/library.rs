//! The exports of the linked archives.
use crate::guarded::{Guarded, Place, ROOM};
use crate::lender::{Export, Exports, Lender, BUFFERS};
use crate::mapping::Mapping;
use ::library::monitor::{invoke, Lent, Outputs};
use ::library::signature::{signature_block_digest, signature_is_signed, signature_sha256};
use ::library::steps::pagemon_run;
use calls::{Call, PerBuffer, NUMBERS};

/// The linked archives, lent what they need.
pub type Library = Lender<Linked>;

impl Default for Library {
    fn default() -> Library {
        let mapping = Mapping::anonymous(ROOM).expect("no memory for buffers");
        Lender::new(Linked, Guarded::new(mapping))
    }
}

pub struct Linked;

impl Exports for Linked {
    fn answer(&mut self, copies: &Guarded, export: Export, numbers: [u32; NUMBERS], lent: [Place; BUFFERS]) -> u64 {
        let lent = lent.map(|place| Lent { pointer: copies.pointer(place), length: place.length });
        let ([contents, _, golden, _, _, digest], number) = (lent, numbers[0]);
        // SAFETY: every pointer is to a copy of its own.
        unsafe {
            match export {
                Export::Call(kind) => return call(Call { kind, arguments: numbers }, lent).into(),
                Export::Run => return run(lent) as u64,
                Export::Sha256 => signature_sha256(contents.pointer, contents.length, digest.pointer),
                Export::BlockDigest => {
                    signature_block_digest(contents.pointer, contents.length, number, digest.pointer);
                }
                Export::IsSigned => {
                    let (golden, golden_length) = (golden.pointer, golden.length);
                    return signature_is_signed(contents.pointer, contents.length, golden, golden_length, number)
                        .into();
                }
            }
        }
        0
    }
}

/// # Safety
///
/// Every pointer is to a copy of its own.
unsafe fn call(call: Call, lent: [Lent; BUFFERS]) -> u32 {
    let [memory, ledger, golden, kinds, registers, Lent { pointer: output, .. }] = lent;
    let outputs = Outputs { byte: output, pending: output, hashed: output.cast() };
    // SAFETY: as the caller promises.
    unsafe { invoke(call, PerBuffer { memory, ledger, golden, kinds, registers }, outputs) }
}

/// # Safety
///
/// Every pointer is to a copy of its own.
unsafe fn run(lent: [Lent; BUFFERS]) -> usize {
    let [memory, ledger, golden, records, answers, bytes] = lent;
    // SAFETY: as the caller promises.
    unsafe {
        pagemon_run(
            memory.pointer,
            memory.length,
            ledger.pointer,
            ledger.length,
            golden.pointer,
            golden.length,
            records.pointer,
            records.length,
            answers.pointer.cast(),
            answers.length / 4,
            bytes.pointer,
            bytes.length,
        )
    }
}

//! The exports of libmonitor.a (include/pagemon.h), from the table of the calls.
use calls::{Call, Kind, PerBuffer, NUMBERS};

/// A buffer as a call takes it.
#[derive(Clone, Copy)]
pub struct Lent {
    pub pointer: *mut u8,
    pub length: usize,
}

impl From<&mut [u8]> for Lent {
    fn from(bytes: &mut [u8]) -> Lent {
        Lent { pointer: bytes.as_mut_ptr(), length: bytes.len() }
    }
}

/// Where calls store what they give beside their answers.
#[derive(Clone, Copy)]
pub struct Outputs {
    pub byte: *mut u8,
    pub pending: *mut u8,
    pub hashed: *mut u32,
}

macro_rules! exports {
    ($($kind:ident = $byte:tt: $export:ident(
        $($access:tt $buffer:ident),*; $($number:ident),* $(; $($output:ident: $type:ty),*)?
    ) refuses $($refusal:ident),*;)*) => {
        #[link(name = "monitor", kind = "static")]
        extern "C" {
            $(fn $export($($buffer: *$access u8, _: usize,)* $($number: u32,)* $($($output: *mut $type,)*)?) -> u32;)*
        }

        /// Makes a call with each of these numbers, one after the other, and hands each answer to `note`. One loop to a kind of call, so that
        /// nothing but the call itself is in it.
        ///
        /// # Safety
        ///
        /// What the call is lent (`Kind::access`) and its outputs are valid for it, and share no byte with each other.
        #[inline(always)]
        pub unsafe fn repeat(kind: Kind, numbers: &[[u32; NUMBERS]], lent: PerBuffer<Lent>, outputs: Outputs, mut note: impl FnMut(u32)) {
            match kind {
                $(Kind::$kind => for &[$($number,)* ..] in numbers {
                    // SAFETY: as the caller promises.
                    note(unsafe { $export($(lent.$buffer.pointer, lent.$buffer.length,)* $($number,)* $($(outputs.$output,)*)?) });
                })*
            }
        }
    };
}

calls::table!(exports);

/// Makes a call, and gives its answer.
///
/// # Safety
///
/// As for `repeat`.
pub unsafe fn invoke(call: Call, lent: PerBuffer<Lent>, outputs: Outputs) -> u32 {
    let mut given = 0;
    // SAFETY: as the caller promises.
    unsafe { repeat(call.kind, &[call.arguments], lent, outputs, |answer| given = answer) };
    given
}

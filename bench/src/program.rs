//! The two programs behind one interface: a call is a kind, up to five words, and the lent buffers.
use crate::baseline;
use calls::{Kind, PerBuffer, NUMBERS};
use library::monitor::{repeat, Outputs};

/// What is lent. The scratch bytes are the plain program's alone.
#[derive(Clone)]
pub struct Buffers {
    pub memory: Vec<u8>,
    pub ledger: Vec<u8>,
    pub golden: Vec<u8>,
    pub kinds: Vec<u8>,
    pub registers: Vec<u8>,
    pub scratch: Vec<u8>,
}

/// What a call gives: its answer, and a byte or the number of blocks hashed, 0 where it gives none.
#[derive(Clone, Copy, PartialEq, Eq, Default, Debug)]
pub struct Given {
    pub answer: u32,
    pub byte: u8,
    pub hashed: u32,
}

/// Makes a call for each list of words, one after the other, and hands what each gives to `note`.
pub trait Program {
    fn batch(kind: Kind, words: &[[u32; NUMBERS]], lent: &mut Buffers, note: impl FnMut(Given));
}

/// The proved monitor in libmonitor.a.
pub struct Monitor;

/// The program in plain Rust.
pub struct Plain;

impl Program for Monitor {
    #[inline(always)]
    fn batch(kind: Kind, words: &[[u32; NUMBERS]], lent: &mut Buffers, mut note: impl FnMut(Given)) {
        let Buffers { memory, ledger, golden, kinds, registers, .. } = lent;
        let lent = PerBuffer { memory, ledger, golden, kinds, registers }.map(|buffer| buffer.as_mut_slice().into());
        let (mut byte, mut hashed) = (0, 0);
        let place = &raw mut byte;
        let outputs = Outputs { byte: place, pending: place, hashed: &raw mut hashed };
        let note = |answer| {
            // SAFETY: nothing writes the outputs between two calls.
            let (byte, hashed) = unsafe { (*outputs.byte, *outputs.hashed) };
            note(Given { answer, byte, hashed });
        };
        // SAFETY: the buffers and the outputs are apart, and nothing else uses them during a call.
        unsafe { repeat(kind, words, lent, outputs, note) }
    }
}

/// One loop to a kind of call, so that nothing but the call itself is in it.
macro_rules! batches {
    ($words:expr, $note:expr, $kind:expr, { $($name:ident($call:pat, $output:pat) => $made:expr,)* }) => {
        match $kind {
            $(Kind::$name => {
                for $call in $words {
                    let mut given = Given::default();
                    given.answer = {
                        let $output = &mut given;
                        $made
                    };
                    $note(given);
                }
            })*
        }
    };
}

impl Program for Plain {
    #[inline(always)]
    fn batch(kind: Kind, words: &[[u32; NUMBERS]], lent: &mut Buffers, mut note: impl FnMut(Given)) {
        let Buffers { memory, ledger, golden, kinds, registers, scratch } = lent;
        let (memory, ledger, scratch) = (&mut memory[..], &mut ledger[..], &mut scratch[..]);
        let registers = &mut registers[..];
        let (golden, kinds) = (&golden[..], &kinds[..]);
        batches!(words, note, kind, {
            Begin(&[a, ..], _) => baseline::begin(memory, ledger, a),
            CreateL1(&[a, ..], Given { hashed, .. }) => baseline::create_l1(memory, ledger, golden, scratch, a, hashed),
            CreateL2(&[a, ..], Given { hashed, .. }) => baseline::create_l2(memory, ledger, golden, scratch, a, hashed),
            FreeL1(&[a, ..], _) => baseline::free_l1(memory, ledger, scratch, a),
            FreeL2(&[a, ..], _) => baseline::free_l2(memory, ledger, scratch, a),
            MapL1(&[a, b, c, d, _], Given { hashed, .. }) => baseline::map_l1(memory, ledger, golden, a, b, c, d, hashed),
            MapL2(&[a, b, c, d, _], Given { hashed, .. }) => baseline::map_l2(memory, ledger, golden, a, b, c, d, hashed),
            Link(&[a, b, c, d, _], _) => baseline::link(memory, ledger, a, b, c, d),
            UnmapL1(&[a, b, ..], _) => baseline::unmap_l1(memory, ledger, a, b),
            UnmapL2(&[a, b, ..], _) => baseline::unmap_l2(memory, ledger, a, b),
            Switch(&[a, ..], _) => baseline::switch(memory, ledger, a),
            Read(&[a, ..], Given { byte, .. }) => baseline::read(memory, ledger, registers, a, byte),
            Write(&[a, b, ..], _) => baseline::write(memory, ledger, registers, a, b),
            Fetch(&[a, ..], Given { byte, .. }) => baseline::fetch(memory, ledger, registers, a, byte),
            MapLarge(&[a, b, c, d, _], Given { hashed, .. }) => {
                baseline::map_large(memory, ledger, golden, a, b, c, d, hashed)
            },
            UnmapLarge(&[a, b, ..], _) => baseline::unmap_large(memory, ledger, a, b),
            Forget(&[a, b, ..], _) => baseline::forget(memory, ledger, a, b),
            BeginKinds(&[a, ..], _) => baseline::begin_kinds(memory, ledger, kinds, a),
            MapL1Kind(&[a, b, c, d, e], Given { hashed, .. }) => {
                baseline::map_l1_kind(memory, ledger, golden, a, b, c, d, e, hashed)
            },
            MapL2Kind(&[a, b, c, d, e], Given { hashed, .. }) => {
                baseline::map_l2_kind(memory, ledger, golden, a, b, c, d, e, hashed)
            },
            MapLargeKind(&[a, b, c, d, e], Given { hashed, .. }) => {
                baseline::map_large_kind(memory, ledger, golden, a, b, c, d, e, hashed)
            },
            Acknowledge(_, Given { byte, .. }) => baseline::acknowledge(registers, byte),
        })
    }
}

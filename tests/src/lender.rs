//! How the exports of the archives are lent their buffers, and what is looked at afterwards. Every buffer is lent as a copy between canaries; canaries and
//! const buffers must be as they were after each call.
use crate::bytes::word;
use crate::guarded::{Guarded, Place};
use crate::monitor::{Call, Given, Kind, Monitor, Store, NUMBERS};
use calls::Access::{self, NotLent, Reads, Writes};
use std::array::from_fn;
use std::cell::RefCell;
use std::rc::Rc;

/// What the archives export.
#[derive(Clone, Copy, PartialEq, Eq, Debug)]
pub enum Export {
    /// Lent memory, ledger, golden image, kinds, registers and what it gives beside its answer.
    Call(Kind),
    /// Lent memory, ledger, golden image, records, answers and bytes.
    Run,
    /// These three are lent contents, a golden image in the third place, and in the last a digest.
    Sha256,
    BlockDigest,
    IsSigned,
}

impl Export {
    pub fn all() -> impl Iterator<Item = Export> {
        let others = [Export::Run, Export::Sha256, Export::BlockDigest, Export::IsSigned];
        Kind::ALL.into_iter().map(Export::Call).chain(others)
    }

    /// How many of them come before it.
    pub fn position(self) -> usize {
        Export::all().take_while(|other| *other != self).count()
    }

    /// Its name in C.
    pub fn name(self) -> &'static str {
        match self {
            Export::Call(kind) => kind.export(),
            Export::Run => "pagemon_run",
            Export::Sha256 => "signature_sha256",
            Export::BlockDigest => "signature_block_digest",
            Export::IsSigned => "signature_is_signed",
        }
    }
}

/// The most buffers that an export is lent, outputs among them.
pub const BUFFERS: usize = 6;

/// Whatever makes the calls.
pub trait Exports {
    /// What an export returns, called with these numbers and lent these copies, or 0 if it returns nothing.
    fn answer(&mut self, copies: &Guarded, export: Export, numbers: [u32; NUMBERS], lent: [Place; BUFFERS]) -> u64;
}

/// A buffer to be lent: its bytes, what may be done with them, and a number of which its address is a multiple.
struct Buffer<'a> {
    content: &'a [u8],
    access: Access,
    unit: usize,
}

/// Of each buffer what a call left there, if that is something else than was lent.
type Left = [Option<Vec<u8>>; BUFFERS];

/// What an output holds before a call: each of two values, neither of which may stay.
const OLD: [u8; 2] = [0xA7, 0x58];

/// Exports, and the copies that they are lent.
pub struct Lender<E> {
    exports: RefCell<E>,
    copies: RefCell<Guarded>,
    /// The longest memory on which calls with an output are made twice.
    repeated: usize,
}

impl<E: Exports> Monitor for Lender<E> {
    fn perform(&self, call: Call, store: &mut Store) -> Given {
        let is_repeated = !call.kind.outputs().is_empty() && store.memory.len() <= self.repeated;
        let other = is_repeated.then(|| store.clone());
        let given = self.once(call, store, OLD[0]);
        if let Some(mut other) = other {
            let again = self.once(call, &mut other, OLD[1]);
            assert!(again == given && other == *store, "an output was not set, or the call is not repeatable");
        }
        given
    }
}

impl<E: Exports> Lender<E> {
    pub fn new(exports: E, copies: Guarded) -> Lender<E> {
        Lender { exports: RefCell::new(exports), copies: RefCell::new(copies), repeated: usize::MAX }
    }

    /// The same, but that calls on a longer memory are made once.
    pub fn repeating_up_to(self, memory: usize) -> Lender<E> {
        Lender { repeated: memory, ..self }
    }

    /// Lends copies of these buffers, and gives the answer and what was left.
    fn lend(&self, export: Export, numbers: [u32; NUMBERS], buffers: [Buffer; BUFFERS]) -> (u64, Left) {
        let copies = &mut *self.copies.borrow_mut();
        copies.clear();
        let places = buffers.each_ref().map(|buffer| copies.put(buffer.content, buffer.unit));
        let answer = self.exports.borrow_mut().answer(copies, export, numbers, places);
        (answer, from_fn(|at| buffers[at].left(copies, places[at])))
    }

    /// Makes a call with an output that holds `old`.
    fn once(&self, call: Call, store: &mut Store, old: u8) -> Given {
        let (kind, access, old) = (call.kind, call.kind.access(), [old; 4]);
        let output = &old[..if kind.gives_hashed() { 4 } else { usize::from(kind.gives_byte()) }];
        let buffers = [
            Buffer::new(&store.memory, access.memory),
            Buffer::new(&store.ledger, access.ledger),
            Buffer::new(&store.golden, access.golden),
            Buffer::new(&store.kinds, access.kinds),
            Buffer::new(&store.registers, access.registers),
            Buffer { content: output, access: Writes, unit: output.len().max(1) },
        ];
        let (answer, left) = self.lend(Export::Call(kind), call.arguments, buffers);
        let [memory, ledger, golden, kinds, registers, given] = left;
        put_memory(store, memory);
        put(&mut store.ledger, ledger);
        put(&mut store.golden, golden);
        put(&mut store.kinds, kinds);
        put(&mut store.registers, registers);
        let given = given.as_deref().unwrap_or(output);
        Given {
            answer: answer as u32,
            byte: if kind.gives_byte() { given[0] } else { 0 },
            hashed: if kind.gives_hashed() { word(given, 0) } else { 0 },
        }
    }

    /// Obeys a list of records, and says how many it obeyed.
    pub fn run(&self, store: &mut Store, records: &[u8], answers: &mut [u32], bytes: &mut [u8]) -> usize {
        let words: Vec<u8> = answers.iter().flat_map(|answer| answer.to_le_bytes()).collect();
        let buffers = [
            Buffer::new(&store.memory, Writes),
            Buffer::new(&store.ledger, Writes),
            Buffer::new(&store.golden, Reads),
            Buffer::new(records, Reads),
            Buffer { content: &words, access: Writes, unit: 4 },
            Buffer::new(bytes, Writes),
        ];
        let (obeyed, left) = self.lend(Export::Run, [0; NUMBERS], buffers);
        let [memory, ledger, _, _, new_words, new_bytes] = left;
        put_memory(store, memory);
        put(&mut store.ledger, ledger);
        put(bytes, new_bytes);
        let words = new_words.unwrap_or(words);
        (0..).zip(answers).for_each(|(place, answer)| *answer = word(&words, 4 * place));
        obeyed as usize
    }

    pub fn sha256(&self, message: &[u8]) -> [u8; 32] {
        self.digest(Export::Sha256, message, 0)
    }

    pub fn block_digest(&self, contents: &[u8], number: u32) -> [u8; 32] {
        self.digest(Export::BlockDigest, contents, number)
    }

    pub fn is_signed(&self, contents: &[u8], golden: &[u8], number: u32) -> bool {
        self.signature(Export::IsSigned, contents, golden, &mut [], number)
    }

    fn digest(&self, export: Export, contents: &[u8], number: u32) -> [u8; 32] {
        let mut digests = OLD.map(|old| [old; 32]);
        for digest in &mut digests {
            self.signature(export, contents, &[], digest, number);
        }
        assert!(digests[0] == digests[1], "a digest was not stored, or the call is not repeatable");
        digests[0]
    }

    fn signature(&self, export: Export, contents: &[u8], golden: &[u8], digest: &mut [u8], number: u32) -> bool {
        let none = || Buffer::new(&[], NotLent);
        let (contents, golden) = (Buffer::new(contents, Reads), Buffer::new(golden, Reads));
        let buffers = [contents, none(), golden, none(), none(), Buffer::new(digest, Writes)];
        let (answer, [.., left]) = self.lend(export, [number, 0, 0, 0, 0], buffers);
        put(digest, left);
        answer != 0
    }
}

impl<'a> Buffer<'a> {
    /// At any address, and of no bytes where it is not lent.
    fn new(content: &'a [u8], access: Access) -> Buffer<'a> {
        Buffer { content: if access == NotLent { &[] } else { content }, access, unit: 1 }
    }

    /// What a call left in a copy that it may write, if that is something else. Where it may not, the copy must be as it was.
    fn left(&self, copies: &Guarded, place: Place) -> Option<Vec<u8>> {
        if self.access != Writes {
            copies.must_equal(place, self.content);
            return None;
        }
        let left = copies.guarded_content(place);
        (left != self.content).then(|| left.to_vec())
    }
}

fn put(buffer: &mut [u8], left: Option<Vec<u8>>) {
    if let Some(left) = left {
        buffer.copy_from_slice(&left);
    }
}

fn put_memory(store: &mut Store, left: Option<Vec<u8>>) {
    if let Some(left) = left {
        store.memory = Rc::new(left);
    }
}

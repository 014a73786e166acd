//! Whatever answers the calls, and the buffers that it is lent.
use std::rc::Rc;

pub use calls::{
    ledger_bytes, Call, Kind, BLOCK, DFAR, DFSR, IFAR, IFSR, KINDS_AT, KINDS_BYTES, LEDGER_HEAD, LEDGER_RECORD, MARKED,
    NO_TABLE, NUMBERS, PENDING, REGISTERS_BYTES,
};

/// The buffers that a call is lent. Copies share the memory until one of them is written.
#[derive(Clone, PartialEq, Eq)]
pub struct Store {
    pub memory: Rc<Vec<u8>>,
    pub ledger: Vec<u8>,
    pub golden: Vec<u8>,
    /// The memory kinds of a begin that names them.
    pub kinds: Vec<u8>,
    /// The fault registers of a guest's access and of an acknowledge.
    pub registers: Vec<u8>,
}

/// A memory's bytes to be written, no longer shared.
pub fn own(memory: &mut Rc<Vec<u8>>) -> &mut [u8] {
    let bytes: &mut Vec<u8> = Rc::make_mut(memory);
    bytes
}

/// What a call gives back: its answer, the byte of a read, fetch or acknowledge, and the number of blocks that a create or map hashed (0 for all others).
#[derive(Clone, Copy, PartialEq, Eq, Default, Debug)]
pub struct Given {
    pub answer: u32,
    pub byte: u8,
    pub hashed: u32,
}

/// The calls that name no memory kind, each with the one that does and is otherwise the same.
const NAMING_MEMORY_KINDS: [(Kind, Kind); 4] = [
    (Kind::Begin, Kind::BeginKinds),
    (Kind::MapL1, Kind::MapL1Kind),
    (Kind::MapL2, Kind::MapL2Kind),
    (Kind::MapLarge, Kind::MapLargeKind),
];

/// The counterpart that names memory kinds, or one of them, of a call that names none.
pub fn naming_memory_kind(call: Kind) -> Option<Kind> {
    NAMING_MEMORY_KINDS.into_iter().find(|(plain, _)| *plain == call).map(|(_, naming)| naming)
}

/// The counterpart that names none, of a call that does.
pub fn plain_call(call: Kind) -> Option<Kind> {
    NAMING_MEMORY_KINDS.into_iter().find(|(_, naming)| *naming == call).map(|(plain, _)| plain)
}

pub trait Monitor {
    fn perform(&self, call: Call, store: &mut Store) -> Given;
}

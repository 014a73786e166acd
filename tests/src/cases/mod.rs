//! Cases for the comparison, call by call.
mod guest;
mod hostile;
mod kinds;
mod large;
mod marks;
mod places;
mod reasons;
mod regions;
mod registers;
pub mod scene;
mod simple;
mod tables;
mod whole;

use crate::compare::{Comparer, Outcome};
use crate::monitor::{plain_call, Call, Kind, Store};

/// A call with the buffers that it is lent, and the answer and the number of blocks hashed if they are known without the reference.
#[derive(Clone)]
pub struct Case {
    pub name: String,
    pub call: Call,
    pub store: Store,
    pub expected: Option<u32>,
    pub hashed: Option<u32>,
}

impl Case {
    /// The same, with the number of blocks hashed.
    pub fn hashing(self, number: u32) -> Case {
        Case { hashed: Some(number), ..self }
    }
}

/// All cases of one call; the largest regions last. Acknowledge is lent no region.
pub fn run(kind: Kind, comparer: &mut Comparer) -> Outcome {
    if kind == Kind::Acknowledge {
        return registers::acknowledge(comparer);
    }
    regions::small(kind, comparer)?;
    match plain_call(kind) {
        Some(plain) => comparer.naming_memory_kinds(|comparer| rules(plain, comparer))?,
        None => rules(kind, comparer)?,
    }
    kinds::run(kind, comparer)?;
    regions::large(kind, comparer)
}

/// The cases of a call that names no kinds, or no kind.
fn rules(kind: Kind, comparer: &mut Comparer) -> Outcome {
    match kind {
        Kind::Begin => simple::begin(comparer)?,
        Kind::Switch => simple::switch(comparer)?,
        Kind::Forget => {}
        Kind::Read | Kind::Write | Kind::Fetch => {
            registers::run(kind, comparer)?;
            guest::run(kind, comparer)?;
            large::run(kind, comparer)?;
        }
        _ => {
            reasons::run(kind, comparer)?;
            places::run(kind, comparer)?;
            tables::run(kind, comparer)?;
            large::run(kind, comparer)?;
            reasons::pairs(kind, comparer)?;
            whole::run(kind, comparer)?;
            hostile::run(kind, comparer)?;
        }
    }
    marks::run(kind, comparer)
}

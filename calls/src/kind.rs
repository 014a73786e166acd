//! What is to be known of each call, from its row of the table.
use crate::buffers::{Access, PerBuffer};
use crate::refusals::{self, Refusal};

macro_rules! access {
    (const) => {
        Access::Reads
    };
    (mut) => {
        Access::Writes
    };
}

/// A pointer in C, up to its name.
macro_rules! pointer {
    (const u8) => {
        "const uint8_t *"
    };
    (mut u8) => {
        "uint8_t *"
    };
    (mut u32) => {
        "uint32_t *"
    };
}

macro_rules! call_byte {
    (-) => {
        None
    };
    ($byte:literal) => {
        Some($byte)
    };
}

macro_rules! kinds {
    ($($kind:ident = $byte:tt: $export:ident(
        $($access:tt $buffer:ident),*; $($number:ident),* $(; $($output:ident: $type:tt),*)?
    ) refuses $($refusal:ident),*;)*) => {
        /// The calls: those of records in the order of their call bytes, then the others.
        #[derive(Clone, Copy, PartialEq, Eq, PartialOrd, Ord, Debug)]
        pub enum Kind {
            $($kind,)*
        }

        impl Kind {
            pub const ALL: [Kind; [$(stringify!($kind)),*].len()] = [$(Kind::$kind),*];

            /// The call byte of its records, if records can say it.
            pub fn byte(self) -> Option<u8> {
                match self {
                    $(Kind::$kind => call_byte!($byte),)*
                }
            }

            /// The name of the export in C.
            pub fn export(self) -> &'static str {
                match self {
                    $(Kind::$kind => stringify!($export),)*
                }
            }

            /// The names of the numbers that it takes, in the order of C and of a record.
            pub fn parameters(self) -> &'static [&'static str] {
                match self {
                    $(Kind::$kind => &[$(stringify!($number)),*],)*
                }
            }

            /// The names of what it gives beside its answer.
            pub fn outputs(self) -> &'static [&'static str] {
                match self {
                    $(Kind::$kind => &[$($(stringify!($output)),*)?],)*
                }
            }

            /// What it may do with each buffer.
            pub fn access(self) -> PerBuffer<Access> {
                let mut access = PerBuffer::all(Access::NotLent);
                match self {
                    $(Kind::$kind => {
                        $(access.$buffer = access!($access);)*
                    })*
                }
                access
            }

            /// Every number that it can refuse with, in the order in which they are tested.
            pub fn refusals(self) -> &'static [u32] {
                match self {
                    $(Kind::$kind => &[$(refusals::$refusal.number),*],)*
                }
            }

            /// What a number says, if the call can refuse with it.
            pub fn words(self, number: u32) -> Option<&'static str> {
                let all: &[Refusal] = match self {
                    $(Kind::$kind => &[$(refusals::$refusal),*],)*
                };
                all.iter().find(|refusal| refusal.number == number).map(|refusal| refusal.words)
            }

            /// Its parameters as C declares them.
            pub fn declaration(self) -> &'static [&'static str] {
                match self {
                    $(Kind::$kind => &[
                        $(concat!(pointer!($access u8), stringify!($buffer)), concat!("uint64_t ", stringify!($buffer), "_length"),)*
                        $(concat!("uint32_t ", stringify!($number)),)*
                        $($(concat!(pointer!(mut $type), stringify!($output)),)*)?
                    ],)*
                }
            }
        }
    };
}

crate::table!(kinds);

impl Kind {
    /// The calls that records can say.
    pub fn recorded() -> impl Iterator<Item = Kind> + Clone {
        Kind::ALL.into_iter().filter(|kind| kind.byte().is_some())
    }

    pub fn of_byte(byte: u8) -> Option<Kind> {
        Kind::recorded().find(|kind| kind.byte() == Some(byte))
    }

    pub fn name(self) -> &'static str {
        self.export().trim_start_matches("pagemon_")
    }

    pub fn named(name: &str) -> Option<Kind> {
        Kind::ALL.into_iter().find(|kind| kind.name() == name)
    }

    /// How many numbers it takes.
    pub fn arity(self) -> usize {
        self.parameters().len()
    }

    /// Does it give a byte when it is accepted? That of an acknowledge is the pending byte.
    pub fn gives_byte(self) -> bool {
        self.outputs().iter().any(|output| ["byte", "pending"].contains(output))
    }

    /// Does it give the number of blocks that it hashed?
    pub fn gives_hashed(self) -> bool {
        self.outputs().contains(&"hashed")
    }
}

#[cfg(test)]
mod tests {
    use super::*;

    #[test]
    fn bytes_and_names_lead_back() {
        for (kind, byte) in Kind::recorded().zip(1..) {
            assert_eq!(kind.byte(), Some(byte));
            assert_eq!(Kind::of_byte(byte), Some(kind));
        }
        for kind in Kind::ALL {
            assert_eq!(Kind::named(kind.name()), Some(kind));
        }
        assert_eq!(Kind::of_byte(0), None);
        assert_eq!(Kind::of_byte(Kind::recorded().count() as u8 + 1), None);
        assert_eq!(Kind::named("Begin"), None);
    }

    #[test]
    fn later_calls_have_no_call_byte() {
        let later =
            [Kind::Forget, Kind::BeginKinds, Kind::MapL1Kind, Kind::MapL2Kind, Kind::MapLargeKind, Kind::Acknowledge];
        assert!(later.iter().all(|kind| kind.byte().is_none()));
        assert_eq!(Kind::ALL[16..], later);
        assert_eq!(Kind::recorded().collect::<Vec<Kind>>(), Kind::ALL[..16]);
    }

    #[test]
    fn one_row() {
        assert_eq!(Kind::Read.name(), "read");
        assert_eq!(Kind::Read.parameters(), ["address"]);
        assert!(Kind::Read.gives_byte());
        assert!(!Kind::Write.gives_byte());
        assert!(Kind::MapL2.gives_hashed());
        assert!(!Kind::Read.gives_hashed());
        let lent = |memory, ledger, golden, kinds, registers| PerBuffer { memory, ledger, golden, kinds, registers };
        let (none, reads, writes) = (Access::NotLent, Access::Reads, Access::Writes);
        assert_eq!(Kind::Write.access(), lent(writes, writes, none, none, writes));
        assert_eq!(Kind::Read.access(), lent(reads, reads, none, none, writes));
        assert_eq!(Kind::BeginKinds.access(), lent(reads, writes, none, reads, none));
        assert_eq!(Kind::MapL2Kind.access(), lent(writes, writes, reads, none, none));
        assert_eq!(Kind::Acknowledge.access(), lent(none, none, none, none, writes));
        assert!(Kind::Acknowledge.gives_byte() && Kind::Acknowledge.parameters().is_empty());
        assert_eq!(
            Kind::Acknowledge.declaration(),
            ["uint8_t *registers", "uint64_t registers_length", "uint8_t *pending"]
        );
        assert_eq!(Kind::Acknowledge.refusals(), [1]);
        assert_eq!(Kind::Switch.refusals(), [1, 2, 3, 5]);
        assert_eq!(Kind::Switch.words(5), Some("a block is not of type L1"));
        assert_eq!(Kind::Switch.words(4), None);
    }
}

//! A call with its numbers, and the readable line that stands for it.
use crate::kind::Kind;
use crate::record::RECORD_WORDS;
use std::fmt;

/// The most numbers that a call takes.
pub const NUMBERS: usize = 5;

#[derive(Clone, Copy, PartialEq, Eq, Debug)]
pub struct Call {
    pub kind: Kind,
    /// The numbers that the call takes, then words that it does not use.
    pub arguments: [u32; NUMBERS],
}

impl Call {
    /// The words that are not given are 0.
    pub fn new(kind: Kind, arguments: &[u32]) -> Call {
        let mut all = [0; NUMBERS];
        all[..arguments.len()].copy_from_slice(arguments);
        Call { kind, arguments: all }
    }

    /// The numbers that it takes.
    pub fn numbers(&self) -> &[u32] {
        &self.arguments[..self.kind.arity()]
    }

    /// The words of its record that it does not use.
    pub fn spare_words(&self) -> &[u32] {
        self.arguments[..RECORD_WORDS].get(self.kind.arity()..).unwrap_or(&[])
    }
}

/// The name and the numbers, an address in hexadecimal. Behind a bar the spare words, up to the last that is not 0, if there is one.
impl fmt::Display for Call {
    fn fmt(&self, f: &mut fmt::Formatter) -> fmt::Result {
        write!(f, "{}", self.kind.name())?;
        for (parameter, number) in self.kind.parameters().iter().zip(self.numbers()) {
            match *parameter {
                "address" => write!(f, " {number:#x}")?,
                _ => write!(f, " {number}")?,
            }
        }
        let spare = self.spare_words();
        let Some(last) = spare.iter().rposition(|word| *word != 0) else { return Ok(()) };
        write!(f, " |")?;
        spare[..=last].iter().try_for_each(|word| write!(f, " {word:#x}"))
    }
}

#[cfg(test)]
mod tests {
    use super::*;

    #[test]
    fn addresses_are_hexadecimal() {
        assert_eq!(Call::new(Kind::Write, &[0x5000, 65]).to_string(), "write 0x5000 65");
        assert_eq!(Call::new(Kind::Read, &[0]).to_string(), "read 0x0");
        assert_eq!(Call::new(Kind::Link, &[0, 4095, 4, 3]).to_string(), "link 0 4095 4 3");
    }

    #[test]
    fn spare_words_stand_behind_a_bar() {
        assert_eq!(Call::new(Kind::Begin, &[256, 0, 0, 0]).to_string(), "begin 256");
        assert_eq!(Call::new(Kind::Begin, &[256, 0, 10, 0]).to_string(), "begin 256 | 0x0 0xa");
        assert_eq!(Call::new(Kind::Write, &[0, 1, 2, 3]).to_string(), "write 0x0 1 | 0x2 0x3");
    }
}

//! RULES, registers and acknowledge.
use super::entries::{bits, Level};
use super::refusals::{refusals, Refusal};
use super::View;
use crate::monitor::{Kind, DFAR, DFSR, IFAR, IFSR, PENDING, REGISTERS_BYTES};
use crate::outcome::Outcome;

/// What an access can fault with.
#[derive(Clone, Copy)]
enum Fault {
    Translation,
    Permission,
}

/// registers 2 and 7
fn fault_of(answer: u32) -> Option<Fault> {
    match answer {
        22 => Some(Fault::Translation),
        23 => Some(Fault::Permission),
        _ => None,
    }
}

/// registers 3
fn fault_code(fault: Fault, level: Level) -> u32 {
    match (fault, level) {
        (Fault::Translation, Level::L1) => 0b00101,
        (Fault::Translation, Level::L2) => 0b00111,
        (Fault::Permission, Level::L1) => 0b01101,
        (Fault::Permission, Level::L2) => 0b01111,
    }
}

/// registers 4
fn status_word(code: u32, write: u32) -> u32 {
    bits(code, 3, 0) | bits(code, 4, 4) << 10 | write << 11
}

/// The bytes of a register with this word (registers 1, memory 4).
fn register(at: usize, word: u32) -> impl Iterator<Item = (usize, u8)> {
    (at..).zip(word.to_le_bytes())
}

impl View<'_> {
    /// registers 1, broken.
    pub fn registers_wrong(&self) -> bool {
        self.registers.len() != REGISTERS_BYTES
    }

    /// registers 6 and 7
    pub fn tell_fault(&self, outcome: &mut Outcome) {
        let Some(fault) = fault_of(outcome.answer) else { return };
        let code = fault_code(fault, self.reached_level());
        let [status, address] = self.told_registers();
        outcome.registers.extend(register(status, status_word(code, self.write_bit())));
        outcome.registers.extend(register(address, self.address()));
        outcome.registers.push((PENDING, 1));
    }

    /// registers 4
    fn write_bit(&self) -> u32 {
        u32::from(self.kind == Kind::Write)
    }

    /// registers 6: the two that tell of the access's faults
    fn told_registers(&self) -> [usize; 2] {
        match self.kind {
            Kind::Fetch => [IFSR, IFAR],
            _ => [DFSR, DFAR],
        }
    }

    /// acknowledge list
    pub fn acknowledge_refusals(&self) -> Vec<Refusal<'_>> {
        refusals![1 => self.registers_wrong()]
    }

    /// acknowledge byte, acknowledge leaves
    pub fn acknowledge_leaves(&self, outcome: &mut Outcome) {
        outcome.byte = self.pending();
        outcome.registers.push((PENDING, 0));
    }

    fn pending(&self) -> u8 {
        self.registers.get(PENDING).map_or(0, |byte| *byte)
    }
}

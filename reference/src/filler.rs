//! "Filler bits": the register as the list of the 23 bits yet to come.

use crate::points::{bits_of_number, number_of};

/// The register at reset: d1 to d23 are 1.
pub const RESET: u32 = 8_388_607;

/// A register is valid when it is 1 to 8,388,607.
pub fn register_valid(register: u32) -> bool {
    (1..=RESET).contains(&register)
}

/// The generator; `to_come[j]` is bit j of the register.
pub struct Filler {
    to_come: Vec<bool>,
}

impl Filler {
    pub fn from_register(register: u32) -> Filler {
        Filler {
            to_come: bits_of_number(register as usize, 23),
        }
    }

    pub fn register(&self) -> u32 {
        number_of(&self.to_come) as u32
    }

    /// Gives the next bit dn; the one that enters 23 later is d(n+5) xor dn.
    pub fn draw(&mut self) -> bool {
        let entering = self.to_come[0] ^ self.to_come[5];
        self.to_come.push(entering);
        self.to_come.remove(0)
    }

    /// The two bits of a 0-bit tone, v0 and then v1: a monitored one's label.
    pub fn draw_label(&mut self) -> [bool; 2] {
        let v0 = self.draw();
        let v1 = self.draw();
        [v0, v1]
    }
}

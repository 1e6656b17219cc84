//! Linear equations over the two values, with the 23 bits of the filler register as unknowns.

/// The register's bits.
pub const BITS: usize = 23;

/// The sum (exclusive or) of some of the register's bits: bit j stands for unknown j.
pub type Sum = u32;

/// What a system of equations leaves open.
#[derive(Clone, Copy, Debug, PartialEq, Eq)]
pub enum Solutions {
    /// No valid register solves it.
    None,
    One(u32),
    Many,
}

/// Equations in echelon form: row j, if there is one, has j as its lowest unknown.
#[derive(Clone, Debug, Default)]
pub struct System {
    rows: [Option<(Sum, bool)>; BITS],
    contradicted: bool,
}

impl System {
    /// Adds the equation that this sum has this value. One that contradicts those before is left
    /// out and remembered.
    pub fn add(&mut self, mut sum: Sum, mut value: bool) {
        while sum != 0 {
            let lowest = sum.trailing_zeros() as usize;
            let Some((row, row_value)) = self.rows[lowest] else {
                self.rows[lowest] = Some((sum, value));
                return;
            };
            sum ^= row;
            value ^= row_value;
        }
        self.contradicted |= value;
    }

    /// How many of the equations are independent of each other.
    pub fn rank(&self) -> usize {
        self.rows.iter().flatten().count()
    }

    pub fn is_contradicted(&self) -> bool {
        self.contradicted
    }

    /// The register 0 is none: it draws zeros for ever.
    pub fn solutions(&self) -> Solutions {
        match (self.contradicted, self.rank(), self.solution(0)) {
            (true, _, _) | (_, BITS, 0) => Solutions::None,
            (_, BITS, register) => Solutions::One(register),
            _ => Solutions::Many,
        }
    }

    /// A valid register that solves the equations which were not left out: the only one, or one of
    /// many. None if that would be the register 0.
    pub fn example(&self) -> Option<u32> {
        let ones = (1 << BITS) - 1;
        Some(self.solution(ones)).filter(|&register| register != 0)
    }

    /// Back substitution, the unknowns that are left open taken from `open`.
    fn solution(&self, open: u32) -> u32 {
        let mut register = 0;
        for (unknown, row) in self.rows.iter().enumerate().rev() {
            let bit = match row {
                Some((sum, value)) => (sum & register).count_ones() % 2 == u32::from(!value),
                None => open >> unknown & 1 == 1,
            };
            register |= u32::from(bit) << unknown;
        }
        register
    }
}

/// The register with its bits as sums of the bits it had at the start.
#[derive(Clone, Debug)]
pub struct Register {
    bits: [Sum; BITS],
}

impl Register {
    pub fn start() -> Register {
        Register {
            bits: std::array::from_fn(|bit| 1 << bit),
        }
    }

    /// Draws a filler bit: gives bit 0, shifts down, and sets bit 22 to old bit 0 xor old bit 5.
    pub fn draw(&mut self) -> Sum {
        let (drawn, new) = (self.bits[0], self.bits[0] ^ self.bits[5]);
        self.bits.rotate_left(1);
        self.bits[BITS - 1] = new;
        drawn
    }
}

#[cfg(test)]
mod tests {
    use super::{Register, Solutions, System};
    use crate::register::tests::{numbers, registers};
    use clevisroot_sys::draw;

    #[test]
    fn the_sums_are_the_library_s_draws() {
        for start in registers(7).take(50) {
            let (mut sums, mut register) = (Register::start(), start);
            for _ in 0..200 {
                let (sum, drawn) = (sums.draw(), draw(register));
                assert_eq!((sum & start).count_ones() % 2, drawn.bit);
                register = drawn.reg;
            }
        }
    }

    #[test]
    fn elimination_finds_the_one_solution() {
        let mut random = numbers(11);
        for register in registers(5).take(200) {
            let mut system = System::default();
            while system.solutions() == Solutions::Many {
                assert!(system.example().is_some());
                let sum = random.next().unwrap() % (1 << 23);
                system.add(sum, (sum & register).count_ones() % 2 == 1);
            }
            assert_eq!(system.solutions(), Solutions::One(register));
            assert_eq!(system.example(), Some(register));
        }
    }

    #[test]
    fn a_contradiction_has_no_solution_and_keeps_what_came_before() {
        let mut system = System::default();
        system.add(0b11, true);
        system.add(0b10, true);
        assert_eq!(system.solutions(), Solutions::Many);
        system.add(0b01, true);
        assert_eq!(system.solutions(), Solutions::None);
        assert_eq!(system.example().map(|register| register & 0b11), Some(0b10));
    }

    #[test]
    fn the_register_0_is_no_solution() {
        let mut system = System::default();
        for bit in 0..23 {
            system.add(1 << bit, false);
        }
        assert_eq!(
            (system.solutions(), system.example()),
            (Solutions::None, None)
        );
    }
}

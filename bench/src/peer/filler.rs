//! The filler register, one or two draws at a time.

pub fn register_valid(register: u32) -> bool {
    (1..1 << 23).contains(&register)
}

#[derive(Clone, Copy)]
pub struct Filler(pub u32);

impl Filler {
    pub fn after_one(self) -> Filler {
        self.after(1)
    }

    /// After so many draws, at most 18: the bits that come in depend on old ones only.
    #[inline(always)]
    fn after(self, draws: u32) -> Filler {
        let Filler(r) = self;
        Filler(r >> draws | ((r ^ r >> 5) & ((1 << draws) - 1)) << (23 - draws))
    }

    /// After the draws of so many tones, two for each.
    pub fn after_tones(self, tones: usize) -> Filler {
        let nines = (0..tones / 9).fold(self, |filler, _| filler.after(18));
        nines.after(2 * (tones % 9) as u32)
    }

    /// The point of the next two bits: v0 gives the sign of Y, v1 that of X.
    #[inline]
    pub fn draw_point(&mut self) -> (i16, i16) {
        let (v0, v1) = (self.0 & 1, self.0 >> 1 & 1);
        *self = self.after(2);
        (1 - 2 * v1 as i16, 1 - 2 * v0 as i16)
    }
}

//! Draws from a register that is known, by the library.

use clevisroot_sys as library;

/// The register after so many draws; one that the library refuses stays as it is.
pub fn after_draws(register: u32, draws: usize) -> u32 {
    (0..draws).fold(register, |register, _| library::draw(register).reg)
}

/// The point of a monitored tone that draws its two filler bits now.
pub fn filler_point(register: u32) -> (i16, i16) {
    let v0 = library::draw(register);
    let v1 = library::draw(v0.reg);
    let point = library::map_label(2, v0.bit | v1.bit << 1);
    (point.x, point.y)
}

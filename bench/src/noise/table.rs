//! The rates as text.

use super::Curve;

/// The shares of wrong frames that the curves are compared at.
const SHARES: [f64; 4] = [1e-1, 1e-2, 1e-3, 1e-4];

pub fn print(curves: &[Curve]) {
    println!("dB from the distance of neighbouring points to the noise of a coordinate");
    println!(
        "{:<42}{:>8}{:>8}{:>8}{:>8}",
        "frames wrong", "1e-1", "1e-2", "1e-3", "1e-4"
    );
    for curve in curves {
        print!("{:<42}", curve.way.name);
        for share in SHARES {
            match curve.decibels_at(share) {
                Some(decibels) => print!("{decibels:>8.2}"),
                None => print!("{:>8}", "-"),
            }
        }
        println!();
    }
}

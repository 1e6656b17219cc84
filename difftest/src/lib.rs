//! Differential tests: an implementation of the calls against the reference.
//!
//! [`run::random_cases`] and [`exhaustive`] compare number, place, size, register and the whole of
//! every lent buffer, on success and on refusal; of nearest reading what the rules fix ([`nearest`]). The
//! clip check is held to the implementation's own readings, too ([`clip`]), the plain mapper to the
//! implementation's other mapper ([`plain`]), and a symbol turned by a quarter to the refusal that its tables give ([`quarter`]).

pub mod clip;
pub mod clips;
pub mod compare;
pub mod coverage;
pub mod decisions;
pub mod entries;
pub mod exhaustive;
pub mod first_monitored;
pub mod inputs;
pub mod lent;
pub mod nearest;
pub mod plain;
pub mod points;
pub mod quarter;
pub mod quarters;
pub mod random;
pub mod received;
pub mod rows;
pub mod run;
pub mod runs;
pub mod seen;
pub mod starts;
pub mod tables;
pub mod tallied;
pub mod tally;
pub mod turned;
pub mod under_test;

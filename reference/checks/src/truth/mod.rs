//! Reported distances beside exact ones, by arithmetic that shares nothing with the library: double-double numbers with a proved
//! slack, and whole numbers where these leave it open.

pub mod double;
pub mod draw;
pub mod exact;
pub mod footprint;
pub mod place;
pub mod points;
pub mod walks;
pub mod whole;
pub mod worst;

//! Numbers and sizes as text.

mod numbers;
pub mod pieces;
mod sizes;

pub use numbers::{parse_digits, parse_number, write_hexadecimal};
pub use sizes::{exact_unit, unit_of, write_size, SizeUnit};

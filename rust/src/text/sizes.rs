//! Sizes in units. A size is a number of bytes.

use crate::text::pieces::{put_size, text_from, CAPACITY};

/// A unit of sizes.
#[derive(Clone, Copy)]
pub struct SizeUnit {
    /// Its number of bytes.
    pub bytes: u64,
    /// Its name.
    pub name: &'static str,
}

/// Returns the largest of KiB, MiB, GiB and TiB that divides a number of bytes. For 0 bytes, or if none of them divides the
/// number, the unit is KiB.
///
/// # Proved
///
/// ```text
/// ensures bytes { result.bytes ≡ (sizes.exact_unit bytes).bytes }
/// ensures name { result.name.now ≡ (sizes.exact_unit bytes).name }
/// ensures some { 0 < result.bytes }
/// ensures length { length result.name.now ≡ 3 }
/// ensures ascii { IsAscii result.name.now }
/// ```
#[inline]
pub fn exact_unit(bytes: u64) -> SizeUnit {
    largest_unit(bytes, true)
}

/// Returns the largest of KiB, MiB, GiB and TiB that is at most a number of bytes, or KiB if there is none.
///
/// # Proved
///
/// ```text
/// ensures bytes { result.bytes ≡ (sizes.unit_of bytes).bytes }
/// ensures name { result.name.now ≡ (sizes.unit_of bytes).name }
/// ensures some { 0 < result.bytes }
/// ensures low { result.bytes ≤ 0x100_0000_0000 }
/// ```
#[inline]
pub fn unit_of(bytes: u64) -> SizeUnit {
    largest_unit(bytes, false)
}

/// Returns the largest of TiB, GiB and MiB that is at most a number of bytes and, if it is to be exact, divides it, or KiB
/// if there is none.
fn largest_unit(bytes: u64, exact: bool) -> SizeUnit {
    let (bytes, name) = if serves(1 << 40, bytes, exact) {
        (1 << 40, "TiB")
    } else if serves(1 << 30, bytes, exact) {
        (1 << 30, "GiB")
    } else if serves(1 << 20, bytes, exact) {
        (1 << 20, "MiB")
    } else {
        (1 << 10, "KiB")
    };
    SizeUnit { bytes, name }
}

/// Returns true if a unit is at most a number of bytes and, if it is to be exact, divides it.
#[inline]
fn serves(unit: u64, bytes: u64, exact: bool) -> bool {
    unit <= bytes && (!exact || bytes % unit == 0)
}

/// Writes a number of bytes in the largest of KiB, MiB, GiB and TiB that divides it. Writes 0 bytes as 0KiB, and rounds down
/// to KiB if none of them divides the number.
///
/// # Errors
///
/// The formatter's error if it doesn't take the text.
///
/// # Proved
///
/// ```text
/// ensures { WritesOnOk W.write_str_gives f.old result (sizes.size_text bytes) f.new }
/// ```
#[inline]
pub fn write_size(f: &mut core::fmt::Formatter<'_>, bytes: u64) -> core::fmt::Result {
    let mut line = [0; CAPACITY];
    let start = put_size(&mut line, CAPACITY, bytes);
    f.write_str(text_from(&line, start))
}

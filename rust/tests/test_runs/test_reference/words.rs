//! Entries, as words.

/// The bits of an entry that hold an address.
pub const ADDRESS_MASK: u64 = 0x000f_ffff_ffff_f000;

/// The other bits of an entry.
pub const FLAGS_MASK: u64 = 0xfff0_0000_0000_0fff;

/// PRESENT.
pub const PRESENT: u64 = 0x1;

/// HUGE_PAGE.
pub const HUGE_PAGE: u64 = 0x80;

/// Returns true if a word has PRESENT.
pub fn is_present(word: u64) -> bool {
    word & PRESENT == PRESENT
}

/// Returns true if a word has HUGE_PAGE.
pub fn is_huge(word: u64) -> bool {
    word & HUGE_PAGE == HUGE_PAGE
}

/// Returns true if a word isn't 0, the absent entry.
pub fn is_used(word: u64) -> bool {
    word != 0
}

/// Returns true if a word is used and has HUGE_PAGE.
pub fn is_used_and_huge(word: u64) -> bool {
    is_used(word) && is_huge(word)
}

/// Returns the address that a word holds.
pub fn address(word: u64) -> u64 {
    word & ADDRESS_MASK
}

/// Returns the flags of a word.
pub fn flags(word: u64) -> u64 {
    word & FLAGS_MASK
}

/// Returns true if flags have no address bits.
pub fn no_address(flags: u64) -> bool {
    address(flags) == 0
}

/// Returns the parent flags of a map: those of PRESENT, WRITABLE and USER_ACCESSIBLE that the page's flags have.
pub fn parent_part(flags: u64) -> u64 {
    flags & 0x7
}

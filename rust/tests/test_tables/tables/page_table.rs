//! Tests of flags, entries and tables.
use crate::common::*;

#[test]
fn flags_have_places() {
    let places = [
        (PageTableFlags::PRESENT, 0x1),
        (PageTableFlags::WRITABLE, 0x2),
        (PageTableFlags::USER_ACCESSIBLE, 0x4),
        (PageTableFlags::WRITE_THROUGH, 0x8),
        (PageTableFlags::NO_CACHE, 0x10),
        (PageTableFlags::ACCESSED, 0x20),
        (PageTableFlags::DIRTY, 0x40),
        (PageTableFlags::HUGE_PAGE, 0x80),
        (PageTableFlags::GLOBAL, 0x100),
        (PageTableFlags::BIT_9, 0x200),
        (PageTableFlags::BIT_10, 0x400),
        (PageTableFlags::BIT_11, 0x800),
        (PageTableFlags::BIT_52, 0x0010_0000_0000_0000),
        (PageTableFlags::BIT_53, 0x0020_0000_0000_0000),
        (PageTableFlags::BIT_54, 0x0040_0000_0000_0000),
        (PageTableFlags::BIT_55, 0x0080_0000_0000_0000),
        (PageTableFlags::BIT_56, 0x0100_0000_0000_0000),
        (PageTableFlags::BIT_57, 0x0200_0000_0000_0000),
        (PageTableFlags::BIT_58, 0x0400_0000_0000_0000),
        (PageTableFlags::BIT_59, 0x0800_0000_0000_0000),
        (PageTableFlags::BIT_60, 0x1000_0000_0000_0000),
        (PageTableFlags::BIT_61, 0x2000_0000_0000_0000),
        (PageTableFlags::BIT_62, 0x4000_0000_0000_0000),
        (PageTableFlags::NO_EXECUTE, 0x8000_0000_0000_0000),
    ];
    for (flag, bits) in places {
        assert_equal(flag.bits(), bits);
    }
}

/// Compares the bits of several flags, which are all equal.
fn check_bits(bits: u64, flags: &[PageTableFlags]) {
    for flags in flags {
        assert_equal(flags.bits(), bits);
    }
}

#[test]
fn operators_are_of_bits() {
    let low = PageTableFlags::PRESENT | PageTableFlags::WRITABLE;
    let high = PageTableFlags::WRITABLE | PageTableFlags::NO_EXECUTE;
    let odd = PageTableFlags::from_bits_retain(0x1003);
    check_bits(0x8000_0000_0000_0003, &[low | high, low.union(high)]);
    check_bits(0x2, &[low & high, low.intersection(high)]);
    let only_one = [low ^ high, low.symmetric_difference(high)];
    check_bits(0x8000_0000_0000_0001, &only_one);
    check_bits(0x1, &[low - high, low.difference(high)]);
    check_bits(0xfff0_0000_0000_0ffc, &[!low, low.complement(), !odd]);
    check_bits(0x8000_0000_0000_1003, &[odd | high]);
    check_bits(0x1003, &[odd, odd & odd]);
    check_bits(0x1000, &[odd ^ low, odd - low]);
    check_bits(0x3, &[low, PageTableFlags::from_bits_truncate(0x1003)]);
    check_bits(0x0, &[PageTableFlags::empty()]);
    check_bits(0xfff0_0000_0000_0fff, &[PageTableFlags::all()]);
}

#[test]
fn flags_change_in_place() {
    let low = PageTableFlags::PRESENT | PageTableFlags::WRITABLE;
    let high = PageTableFlags::WRITABLE | PageTableFlags::NO_EXECUTE;
    let (mut or, mut inserted, mut with) = (low, low, low);
    or |= high;
    inserted.insert(high);
    with.set(high, true);
    check_bits(0x8000_0000_0000_0003, &[or, inserted, with]);
    let (mut sub, mut removed, mut without) = (low, low, low);
    sub -= high;
    removed.remove(high);
    without.set(high, false);
    check_bits(0x1, &[sub, removed, without]);
    let (mut xor, mut toggled) = (low, low);
    xor ^= high;
    toggled.toggle(high);
    check_bits(0x8000_0000_0000_0001, &[xor, toggled]);
    let (mut and, mut cleared) = (low, low);
    and &= high;
    cleared.clear();
    let mut truncated = PageTableFlags::from_bits_retain(0x1003);
    truncated.truncate();
    let found = (and.bits(), cleared.bits(), truncated.bits());
    assert_equal(found, (0x2, 0x0, 0x3));
}

/// Bits, and whether they have both low flags, at least one of them, no bit at all, all known flags, and unknown
/// ones.
const ASKED: [(u64, [bool; 5]); 6] = [
    (0x0, [false, false, true, false, false]),
    (0x2, [false, true, false, false, false]),
    (0x83, [true, true, false, false, false]),
    (0x1000, [false, false, false, false, true]),
    (0xfff0_0000_0000_0fff, [true, true, false, true, false]),
    (u64::MAX, [true, true, false, true, true]),
];

#[test]
fn flags_are_asked() {
    let low = PageTableFlags::PRESENT | PageTableFlags::WRITABLE;
    for (bits, answers) in ASKED {
        let flags = PageTableFlags::from_bits_retain(bits);
        let asked = [flags.contains(low), flags.intersects(low), flags.is_empty(), flags.is_all(), flags.contains_unknown_bits()];
        assert_equal_in(bits, asked, answers);
        let read = if answers[4] { None } else { Some(flags) };
        assert_equal_in(bits, PageTableFlags::from_bits(bits), read);
    }
}

/// The address and the flags of an entry, and the frame that it names, or the error.
const ENTRIES: [(u64, u64, Result<u64, FrameError>); 6] = [
    (0x0, 0x0, Err(FrameError::FrameNotPresent)),
    (0x5000, 0x0, Err(FrameError::FrameNotPresent)),
    (0x5000, 0x82, Err(FrameError::FrameNotPresent)),
    (0x5000, 0x8000_0000_0000_0083, Err(FrameError::HugeFrame)),
    (0x6000, 0x3, Ok(0x6000)),
    (0x000f_ffff_ffff_f000, 0x1, Ok(0x000f_ffff_ffff_f000)),
];

/// Returns the parts of an entry: its word, its address and flags, and whether it is unused.
fn parts(entry: &PageTableEntry) -> (u64, u64, u64, bool) {
    let (addr, flags) = (entry.addr().as_u64(), entry.flags().bits());
    (entry.word(), addr, flags, entry.is_unused())
}

#[test]
fn entries_are_words() {
    for (start, bits, frame) in ENTRIES {
        let word = start | bits;
        let addr = frame_at(start).start_address();
        let mut entry = PageTableEntry::new();
        entry.set_addr(addr, PageTableFlags::from_bits_retain(bits));
        assert_equal_in(word, parts(&entry), (word, start, bits, word == 0));
        assert_equal_in(word, entry.frame(), frame.map(frame_at));
        entry.set_flags(PageTableFlags::empty());
        assert_equal_in(word, parts(&entry), (start, start, 0, start == 0));
        assert_equal_in(word, entry.frame(), Err(FrameError::FrameNotPresent));
    }
}

/// Words, and their address and flags.
const WORDS: [(u64, u64, u64); 3] = [
    (0x0, 0x0, 0x0),
    (u64::MAX, 0x000f_ffff_ffff_f000, 0xfff0_0000_0000_0fff),
    (0x8000_0000_0000_1067, 0x1000, 0x8000_0000_0000_0067),
];

#[test]
fn entries_hold_any_word() {
    let mut changed = PageTableEntry::from_word(0x5003);
    for (word, addr, flags) in WORDS {
        changed.set_word(word);
        let found = [parts(&PageTableEntry::from_word(word)), parts(&changed)];
        assert_equal(found, [(word, addr, flags, word == 0); 2]);
    }
}

#[test]
fn entries_are_changed() {
    let mut entry = PageTableEntry::default();
    assert!(entry.is_unused());
    let low = PageTableFlags::PRESENT.union(PageTableFlags::WRITABLE);
    assert!(!low.contains(PageTableFlags::HUGE_PAGE));
    entry.set_frame(frame_at(0x6000), low);
    let copy = entry.clone();
    entry.set_flags(PageTableFlags::NO_EXECUTE);
    let words = (entry.word(), copy.word());
    assert_equal(words, (0x8000_0000_0000_6000, 0x6003));
    entry.set_unused();
    assert!(entry.is_unused());
}

#[test]
fn flags_and_entries_have_texts() {
    let odd = PageTableFlags::from_bits_retain(0x1003);
    let flags = (PageTableFlags::empty(), odd, PageTableFlags::all());
    let wanted =
        "(PageTableFlags(0x0), PageTableFlags(PRESENT | WRITABLE | 0x1000), PageTableFlags(PRESENT | WRITABLE | USER_ACCESSIBLE | WRITE_THROUGH | NO_CACHE | ACCESSED | DIRTY | HUGE_PAGE | GLOBAL | BIT_9 | BIT_10 | BIT_11 | BIT_52 | BIT_53 | BIT_54 | BIT_55 | BIT_56 | BIT_57 | BIT_58 | BIT_59 | BIT_60 | BIT_61 | BIT_62 | NO_EXECUTE))";
    assert_text(&flags, wanted);
    let entry = PageTableEntry::from_word(0x5003);
    let wanted = "PageTableEntry { addr: PhysAddr(0x5000), flags: PageTableFlags(PRESENT | WRITABLE) }";
    assert_text(&entry, wanted);
    let errors = [FrameError::FrameNotPresent, FrameError::HugeFrame];
    assert_text(&errors, "[FrameNotPresent, HugeFrame]");
    let mut table = PageTable::new();
    table[511].set_addr(PhysAddr::new(0x6000), PageTableFlags::WRITABLE);
    let wanted = text_of(&table);
    assert_text(&table, &wanted);
}

#[test]
fn tables_are_lists_of_words() {
    let mut table = PageTable::default();
    assert!(table.is_empty());
    table[1].set_addr(PhysAddr::new(0x5000), PageTableFlags::PRESENT);
    table[PageTableIndex::new(511)].set_addr(PhysAddr::new(0x6000), PageTableFlags::WRITABLE);
    let words = (table[PageTableIndex::new(1)].word(), table[511].word());
    assert_equal(words, (0x5001, 0x6002));
    assert!(!table.is_empty() && table[2].is_unused());
    let copy = table.clone();
    table.zero();
    assert!(table.is_empty());
    assert_equal(copy[511].word(), 0x6002);
}

/// Returns the texts of all entries, separated by commas, in brackets.
fn text_of(table: &PageTable) -> String {
    let mut text = unwrap(format_in!("[{:?}", table[0]));
    for index in 1..512 {
        text = unwrap(format_in!("{text}, {:?}", table[index]));
    }
    unwrap(format_in!("{text}]"))
}

#[test]
fn entries_come_in_order() {
    let mut table = PageTable::new();
    for (index, entry) in table.iter_mut().enumerate() {
        entry.set_word(index as u64);
    }
    let mut entries = table.iter();
    assert_equal(entries.size_hint(), (512, Some(512)));
    for index in 0..512 {
        let entry = unwrap_some(entries.next());
        let words = (entry.word(), table[index].word());
        assert_equal(words, (index as u64, index as u64));
    }
    assert_equal(entries.size_hint(), (0, Some(0)));
    assert!(entries.next().is_none() && entries.next().is_none());
    assert_equal(table.iter().count(), 512);
}

#[test]
fn entries_are_lent_in_order() {
    let mut table = PageTable::new();
    let mut entries = table.iter_mut();
    assert_equal(entries.size_hint(), (512, Some(512)));
    for index in 0..512 {
        let entry = unwrap_some(entries.next());
        assert!(entry.is_unused());
        entry.set_flags(PageTableFlags::from_bits_retain(index));
    }
    assert_equal(entries.size_hint(), (0, Some(0)));
    assert!(entries.next().is_none() && entries.next().is_none());
    assert_equal((table[0].word(), table[511].word()), (0x0, 0x1ff));
}

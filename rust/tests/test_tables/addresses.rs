//! Tests of addresses, levels and indices against independent values: limits, neighbours, sums and texts.

use crate::addr::{FIRST_HIGH, FIRST_HIGH_57, LAST_LOW, LAST_LOW_57};
use crate::common::*;

/// Returns true if two addresses are equal. They are if and only if their positions are equal. A position is an
/// address counted without the gap.
fn are_equal(left: VirtAddr, right: VirtAddr) -> bool {
    left == right
}

/// Returns true if an address is below another one. It is if and only if its position is.
fn is_below(left: VirtAddr, right: VirtAddr) -> bool {
    left < right
}

/// Returns true if a level is below another one. It is if and only if its number is.
fn is_lower(left: PageTableLevel, right: PageTableLevel) -> bool {
    left < right
}

/// Compares the last address below the gap, the first one above it and 0.
fn check_limits<L: LevelCount>(low: VirtAddrIn<L>, high: VirtAddrIn<L>) {
    assert!(low < high && VirtAddrIn::<L>::zero().is_null() && !high.is_null());
}

#[test]
fn addresses_lie_below_the_gap_or_above_it() {
    let (low, high) = (VirtAddr::new(LAST_LOW), VirtAddr::new_unsafe(FIRST_HIGH));
    check_limits(low, high);
    assert!(is_below(low, high) && !are_equal(low, high));
    assert_equal(VirtAddr::try_new(FIRST_HIGH), Ok(high));
    let gap = 1 << 47;
    assert_equal(VirtAddr::try_new(gap), Err(VirtAddrNotValid(gap)));
    assert_equal(high - low, 0xffff_0000_0000_0001);
    let high = VirtAddr57::new_unsafe(FIRST_HIGH_57);
    check_limits(VirtAddr57::new(LAST_LOW_57), high);
    assert_equal(VirtAddr57::try_new(FIRST_HIGH_57), Ok(high));
    let gap = 1 << 56;
    assert_equal(VirtAddr57::try_new(gap), Err(VirtAddr57NotValid(gap)));
    let distance = high - VirtAddr57::new(LAST_LOW_57);
    assert_equal(distance, 0xfe00_0000_0000_0001);
}

/// Numbers, and the physical addresses that they are truncated to.
const PHYSICAL: [(u64, u64); 4] = [(0, 0), (1 << 52, 0), ((1 << 52) + 5, 5), (u64::MAX, (1 << 52) - 1)];

#[test]
fn physical_addresses_have_52_bits() {
    for (number, raw) in PHYSICAL {
        assert_equal_in(number, PhysAddr::new_truncate(number).as_u64(), raw);
    }
    let greatest = PhysAddr::new(0x000f_ffff_ffff_ffff);
    assert_equal(PhysAddr::try_new(0x000f_ffff_ffff_ffff), Ok(greatest));
    assert_equal(PhysAddr::try_new(1 << 52), Err(PhysAddrNotValid(1 << 52)));
    assert!(PhysAddr::zero() < greatest);
    assert!(PhysAddr::new_unsafe(0).is_null() && !greatest.is_null());
    let address = PhysAddr::new(0x1234);
    assert_equal(address.align_up(0x1000), PhysAddr::new(0x2000));
    assert_equal(address.align_down(0x1000), PhysAddr::new(0x1000));
    assert!(address.is_aligned(4) && !address.is_aligned(8) && !address.is_aligned(1 << 63));
}

/// Compares the indices of an address from level four down, and its offset in a page.
fn check_indices<L: LevelCount>(address: VirtAddrIn<L>) {
    let (four, three) = (address.p4_index(), address.p3_index());
    let (two, one) = (address.p2_index(), address.p1_index());
    let wanted = [1, 2, 3, 4].map(PageTableIndex::new_truncate);
    assert_equal([four, three, two, one], wanted);
    assert_equal(address.page_offset(), PageOffset::new_truncate(5));
}

/// Compares levels: for each the one below it and the one above it, the sizes that its tables and its entries span,
/// and its index of an address.
macro_rules! check_levels {
    ($address:expr, $rows:expr) => {
        check_indices($address);
        for (level, lower, higher, table, entry, index) in $rows {
            let found = (
                level.next_lower_level(),
                level.next_higher_level(),
                level.table_address_space_alignment(),
                level.entry_address_space_alignment(),
                u16::from($address.page_table_index(level)),
            );
            assert_equal_in(level, found, (lower, higher, table, entry, index));
        }
    };
}

#[test]
fn levels_have_neighbours_and_addresses_have_indices() {
    let (one, two) = (PageTableLevel::One, PageTableLevel::Two);
    let (three, four) = (PageTableLevel::Three, PageTableLevel::Four);
    let rows = [
        (one, None, Some(two), 0x20_0000, 0x1000, 4),
        (two, Some(one), Some(three), 0x4000_0000, 0x20_0000, 3),
        (three, Some(two), Some(four), 0x80_0000_0000, 0x4000_0000, 2),
        (four, Some(three), None, 0x1_0000_0000_0000, 0x80_0000_0000, 1),
    ];
    let address = VirtAddr::new(0x80_8060_4005);
    check_levels!(address, rows);
    assert!(is_lower(one, two) && is_lower(three, four));
}

#[test]
fn five_levels_have_neighbours_and_addresses_have_five_indices() {
    let (one, two) = (PageTableLevel57::One, PageTableLevel57::Two);
    let (three, four) = (PageTableLevel57::Three, PageTableLevel57::Four);
    let five = PageTableLevel57::Five;
    let (high, highest) = (0x1_0000_0000_0000, 0x200_0000_0000_0000);
    let rows = [
        (one, None, Some(two), 0x20_0000, 0x1000, 4),
        (two, Some(one), Some(three), 0x4000_0000, 0x20_0000, 3),
        (three, Some(two), Some(four), 0x80_0000_0000, 0x4000_0000, 2),
        (four, Some(three), Some(five), high, 0x80_0000_0000, 1),
        (five, Some(four), None, highest, high, 7),
    ];
    let address = VirtAddr57::new(0x0007_0080_8060_4005);
    check_levels!(address, rows);
    assert_equal(address.p5_index(), PageTableIndex::new(7));
}

#[test]
fn indices_and_offsets_are_numbers() {
    let index = PageTableIndex::new_truncate(512 + 510);
    assert_equal(index, PageTableIndex::new(510));
    assert_equal(u16::from(PageTableIndex::new_truncate(513)), 1);
    let numbers = (u32::from(index), u64::from(index), usize::from(index));
    assert_equal(numbers, (510, 510, 510));
    let offset = PageOffset::new_truncate(4096 + 4095);
    assert_equal(offset, PageOffset::new(4095));
    assert_equal(u16::from(offset), 4095);
    let numbers = (u32::from(offset), u64::from(offset), usize::from(offset));
    assert_equal(numbers, (4095, 4095, 4095));
}

#[test]
fn addresses_have_texts() {
    let (low, high) = (VirtAddr::new(0x1000), VirtAddr::new(FIRST_HIGH));
    let wanted = "(VirtAddr(0x1000), VirtAddr(0xffff800000000000))";
    assert_text(&(low, high), wanted);
    let (low, high) = (VirtAddr57::new(0x1000), VirtAddr57::new(FIRST_HIGH_57));
    let wanted = "(VirtAddr57(0x1000), VirtAddr57(0xff00000000000000))";
    assert_text(&(low, high), wanted);
    let addresses = (PhysAddr::new(0x1000), PhysAddr::zero());
    assert_text(&addresses, "(PhysAddr(0x1000), PhysAddr(0x0))");
    let errors = (VirtAddrNotValid(1 << 47), PhysAddrNotValid(1 << 52));
    let wanted = "(VirtAddrNotValid(0x800000000000), PhysAddrNotValid(0x10000000000000))";
    assert_text(&errors, wanted);
    let error = VirtAddr57NotValid(1 << 56);
    assert_text(&error, "VirtAddr57NotValid(0x100000000000000)");
}

/// Compares sums and differences of addresses of a type, from an address on, which ends in 0x000.
macro_rules! check_sums {
    ($Address:ident, $base:expr) => {
        let mut address = $Address::new($base) + 0xfff;
        assert_equal(address, $Address::new($base + 0xfff));
        address += 1;
        assert_equal(address, $Address::new($base + 0x1000));
        address -= 0x1000;
        assert_equal(address - 1, $Address::new($base - 1));
        assert_equal(address - $Address::new($base - 2), 2);
    };
}

#[test]
fn addresses_are_added() {
    check_sums!(VirtAddr, 0x2000);
    check_sums!(VirtAddr57, 0x8000_0000_0000);
    check_sums!(PhysAddr, 0x2000);
}

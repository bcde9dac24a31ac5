//! Tests of pages and frames against independent values: sizes, starts, indices, sums, ranges that are skipped over, and texts.

use crate::common::*;
use crate::page::{closed, LAST, LAST_BUT_ONE, LOWER_LAST, UPPER_FIRST, UPPER_FIRST_57};

/// Returns true if two frames are equal. They are if and only if their start addresses are equal.
fn are_equal<S: PageSize>(left: PhysFrame<S>, right: PhysFrame<S>) -> bool {
    left == right
}

/// Returns true if a frame is below another one. It is if and only if its start address is.
fn is_below<S: PageSize>(left: PhysFrame<S>, right: PhysFrame<S>) -> bool {
    left < right
}

/// Returns true if a page is below another one. It is if and only if its position (the address counted without the
/// gap) is.
fn are_ordered<S: PageSize, L: LevelCount>(left: PageIn<S, L>, right: PageIn<S, L>) -> bool {
    left < right && left != right
}

fn is_below_giant<S: NotGiantPageSize>() -> bool {
    S::SIZE < 0x4000_0000
}

/// Compares a size's level and number of bytes, and the starts of the last page and of the last frame.
fn check_size<S: PageSize>(level: u64, size: u64, last: u64) {
    assert_equal((S::LEVEL, S::SIZE), (level, size));
    let (page, frame) = (page::<S, FourLevels>(u64::MAX), frame::<S>(u64::MAX));
    assert_equal((page.size(), frame.size()), (size, size));
    let (start, address) = (page.start_address(), frame.start_address());
    assert_equal(start, VirtAddr::new_truncate(last));
    assert_equal(address, PhysAddr::new_truncate(last));
    assert_equal(PageIn::from_start_address(start), Ok(page));
    assert_equal(PhysFrame::from_start_address(address), Ok(frame));
    let refused = PageIn::<S, FiveLevels>::from_start_address(VirtAddrIn::new_truncate(1));
    assert_equal(refused, Err(AddressNotAligned));
    let refused = PhysFrame::<S>::from_start_address(PhysAddr::new_truncate(1));
    assert_equal(refused, Err(AddressNotAligned));
}

#[test]
fn pages_and_frames_start_at_multiples() {
    check_size::<Size4KiB>(1, 0x1000, 0xffff_ffff_ffff_f000);
    check_size::<Size2MiB>(2, 0x20_0000, 0xffff_ffff_ffe0_0000);
    check_size::<Size1GiB>(3, 0x4000_0000, 0xffff_ffff_c000_0000);
}

#[test]
fn frames_and_sizes_have_an_order() {
    assert!(is_below_giant::<Size4KiB>() && is_below_giant::<Size2MiB>());
    assert_equal(Page::<Size2MiB>::SIZE, 0x20_0000);
    let first = PhysFrame::<Size2MiB>::from_start_address_unchecked(PhysAddr::zero());
    let second = frame(0x3f_ffff);
    assert!(is_below(first, second) && !are_equal(first, second));
}

#[test]
fn pages_have_indices() {
    let small = page::<Size4KiB, FourLevels>(0x8000_8040_3000);
    let (four, three) = (small.p4_index(), small.p3_index());
    let (two, one) = (small.p2_index(), small.p1_index());
    let wanted = [256, 2, 2, 3].map(PageTableIndex::new_truncate);
    assert_equal([four, three, two, one], wanted);
    let large: Page<Size2MiB> = page(0x8000_8040_3000);
    let index = small.page_table_index(PageTableLevel::Two);
    assert_equal((index, large.p2_index()), (two, two));
    let zero = Page::<Size4KiB>::from_start_address_unchecked(VirtAddr::zero());
    assert!(are_ordered(zero, small) && !are_ordered(small, small));
    let five = page::<Size4KiB, FiveLevels>(0xfffe_ff7f_bfdf_e000);
    let index = five.page_table_index(PageTableLevel57::Five);
    assert_equal([five.p5_index(), index], [PageTableIndex::new(510); 2]);
    let large: Page57<Size2MiB> = page(1 << 48);
    assert_equal(large.p5_index(), PageTableIndex::new(1));
}

#[test]
fn pages_have_given_indices() {
    let [one, two, three, last] = [1, 2, 3, 511].map(PageTableIndex::new_truncate);
    let small = Page::from_page_table_indices(last, one, two, three);
    assert_equal(small, page(0xffff_ff80_4040_3000));
    let large = Page::from_page_table_indices_2mib(one, two, three);
    assert_equal(large, page(0x80_8060_0000));
    let giant = Page::from_page_table_indices_1gib(last, last);
    assert_equal(giant, page(0xffff_ffff_c000_0000));
}

#[test]
fn pages_and_frames_have_texts() {
    let (small, large) = (page::<Size4KiB, FourLevels>(0x4020_1abc), 0x4020_1abc);
    let (large, giant): (Page<Size2MiB>, Page<Size1GiB>) = (page(large), page(large));
    let wanted = "(Page[4KiB](0x40201000), Page[2MiB](0x40200000), Page[1GiB](0x40000000))";
    assert_text(&(small, large, giant), wanted);
    let five: Page57<Size2MiB> = page(UPPER_FIRST_57);
    assert_text(&five, "Page57[2MiB](0xff00000000000000)");
    let (small, large) = (frame::<Size4KiB>(0x4020_1abc), frame::<Size2MiB>(0x20_0000));
    let wanted = "(PhysFrame[4KiB](0x40201000), PhysFrame[2MiB](0x200000))";
    assert_text(&(small, large), wanted);
    let giant = frame::<Size1GiB>(0x4020_1abc);
    assert_text(&giant, "PhysFrame[1GiB](0x40000000)");
    let (error, past) = (AddressNotAligned, PfnNotValid(0x100_0000_0000));
    let text = unwrap(format_in!("{error}: {past}"));
    let wanted = "the given address was not sufficiently aligned: PfnNotValid(0x10000000000)";
    assert_equal(text.as_str(), wanted);
}

/// Compares sums and differences of pages or frames of 2MiB, of which the second is given, and how one is made of its
/// start address.
macro_rules! check_sums {
    ($second:expr, $at:expr) => {
        let mut large = $second;
        assert_equal((large + 2, large - 1), ($at(0x60_0000), $at(0)));
        large += 3;
        assert_equal(large, $at(0x80_0000));
        large -= 2;
        let zero = large - 2;
        assert_equal((large, zero, large - zero), ($at(0x40_0000), $at(0), 2));
    };
}

#[test]
fn pages_and_frames_have_sums() {
    let second = Page::<Size2MiB>::containing_address(VirtAddr::new(0x20_0000));
    check_sums!(second, page::<Size2MiB, FourLevels>);
    let second = Page57::<Size2MiB>::containing_address(VirtAddr57::new(0x20_0000));
    check_sums!(second, page::<Size2MiB, FiveLevels>);
    let second = PhysFrame::<Size2MiB>::containing_address(PhysAddr::new(0x20_0000));
    check_sums!(second, frame::<Size2MiB>);
}

/// Skips pages of the range of all pages, from the front or from the back, and compares the page after them, if any, and
/// the ends of what is left.
fn check_skipped(is_back: bool, count: usize, item: Option<u64>, left: (u64, u64)) {
    let mut range: PageRangeInclusive<Size4KiB> = closed(page(0), page(LAST));
    let found = if is_back { range.nth_back(count) } else { range.nth(count) };
    assert_equal_in(count, found, item.map(page));
    assert_equal_in(count, range, closed(page(left.0), page(left.1)));
}

#[test]
fn pages_and_frames_are_skipped() {
    let left = (UPPER_FIRST + 0x1000, LAST);
    check_skipped(false, 1 << 35, Some(UPPER_FIRST), left);
    check_skipped(false, 1 << 36, None, (LAST, LAST_BUT_ONE));
    let left = (0, LOWER_LAST - 0x1000);
    check_skipped(true, 1 << 35, Some(LOWER_LAST), left);
    check_skipped(true, 1 << 36, None, (0x1000, 0));
    let [second, third, fourth, fifth] = [0x2000, 0x3000, 0x4000, 0x5000].map(frame::<Size4KiB>);
    let mut range = PhysFrame::range(second, fifth);
    assert_equal(range.nth(1), Some(third));
    assert_equal(range, PhysFrame::range(fourth, fifth));
    assert_equal(range.nth(1), None);
    assert_equal(range, PhysFrame::range(fifth, fifth));
    let mut range = PhysFrame::range(second, fifth);
    assert_equal(range.nth_back(1), Some(third));
    assert_equal(range, PhysFrame::range(second, third));
    assert_equal(range.nth_back(1), None);
    assert_equal(range, PhysFrame::range(second, second));
}

#[test]
fn ranges_have_texts() {
    let (start, end) = (page::<Size4KiB, FourLevels>(0), page(0x1000));
    let wanted = "PageRange { start: Page[4KiB](0x0), end: Page[4KiB](0x1000) }";
    assert_text(&Page::range(start, end), wanted);
    let wanted = "PageRangeInclusive { start: Page[4KiB](0x0), end: Page[4KiB](0x1000) }";
    assert_text(&Page::range_inclusive(start, end), wanted);
    let five = Page57::<Size4KiB>::range_inclusive(page(0), page(0x1000));
    let wanted = "PageRangeInclusive57 { start: Page57[4KiB](0x0), end: Page57[4KiB](0x1000) }";
    assert_text(&five, wanted);
    let (start, end) = (frame::<Size2MiB>(0), frame(0x20_0000));
    let wanted = "PhysFrameRange { start: PhysFrame[2MiB](0x0), end: PhysFrame[2MiB](0x200000) }";
    assert_text(&PhysFrame::range(start, end), wanted);
    let closed = PhysFrame::range_inclusive(start, end);
    let wanted = "PhysFrameRangeInclusive { start: PhysFrame[2MiB](0x0), end: PhysFrame[2MiB](0x200000) }";
    assert_text(&closed, wanted);
}

//! The windows of tables that are reached through the recursive index 510.
use crate::prelude::*;
use x86_64_paging::{p1_window, p2_window, p3_window, p4_window_57};

/// Returns the raw start address of a page.
fn start<L: LevelCount>(page: PageIn<Size4KiB, L>) -> u64 {
    page.start_address().as_u64()
}

/// Compares the windows of levels three, two and one on the paths of the pages at an address.
fn check<L: LevelCount>(address: u64, [three, two, one]: [u64; 3]) {
    let (index, small) = (PageTableIndex::new(510), page::<Size4KiB, L>(address));
    let (large, giant) = (page::<Size2MiB, L>(address), page::<Size1GiB, L>(address));
    assert_equal(start(p3_window(small, index)), three);
    assert_equal(start(p2_window(small, index)), two);
    assert_equal(start(p1_window(small, index)), one);
    assert_equal(start(p3_window(large, index)), three);
    assert_equal(start(p2_window(large, index)), two);
    assert_equal(start(p3_window(giant, index)), three);
}

/// Addresses, and how far behind those of the page 0 the windows are.
const PAGES: [(u64, [u64; 3]); 2] = [(0, [0, 0, 0]), (0x4000_0000, [0, 0x1000, 0x20_0000])];

#[test]
fn pages_have_windows() {
    for (address, [three, two, one]) in PAGES {
        let (three, two) = (0xffff_ff7f_bfc0_0000 | three, 0xffff_ff7f_8000_0000 | two);
        check::<FourLevels>(address, [three, two, 0xffff_ff00_0000_0000 | one]);
    }
}

/// These with five levels.
const PAGES_57: [(u64, [u64; 3]); 3] =
    [(0, [0, 0, 0]), (0x80_4000_0000, [0x1000, 0x20_1000, 0x4020_0000]), (0x80_4020_0000, [0x1000, 0x20_1000, 0x4020_1000])];

#[test]
fn pages_of_57_bits_have_windows() {
    let index = PageTableIndex::new(510);
    for (address, [three, two, one]) in PAGES_57 {
        let (three, two) = (0xfffe_ff7f_8000_0000 | three, 0xfffe_ff00_0000_0000 | two);
        check::<FiveLevels>(address, [three, two, 0xfffe_0000_0000_0000 | one]);
        let small = p4_window_57(page::<Size4KiB, _>(address), index);
        assert_equal(start(small), 0xfffe_ff7f_bfc0_0000);
        let giant = p4_window_57(page::<Size1GiB, _>(address), index);
        assert_equal(start(giant), 0xfffe_ff7f_bfc0_0000);
    }
}

//! Common properties of addresses, pages, frames, indices, levels and flags: they can be copied, ordered and hashed.
use crate::prelude::*;
use std::cmp::Ordering;
use std::hash::{BuildHasher, BuildHasherDefault, DefaultHasher, Hash};

/// Returns the hash of a value.
fn hash_of<T: Hash>(value: T) -> u64 {
    BuildHasherDefault::<DefaultHasher>::default().hash_one(value)
}

/// Compares two equal values that were created separately, their hashes, and the clone of the first one.
fn check_equal<T: Debug + Copy + Eq + Hash>(one: T, same: T) {
    let clone = one.clone();
    assert_equal_in(one, (clone, hash_of(one)), (same, hash_of(same)));
}

/// Compares two such values with each other, and with a greater one.
fn check_derives<T: Debug + Copy + Ord + Hash>(one: T, same: T, greater: T) {
    check_equal(one, same);
    let orders = (one.cmp(&same), one.cmp(&greater));
    assert_equal_in(one, orders, (Ordering::Equal, Ordering::Less));
    let orders = (one.partial_cmp(&same), greater.partial_cmp(&one));
    let wanted = (Some(Ordering::Equal), Some(Ordering::Greater));
    assert_equal_in(one, orders, wanted);
    assert!(one != greater);
}

/// Compares the address 0, the first one above the gap and the last one.
fn check_addresses<L: LevelCount>(middle: u64) {
    let high = VirtAddrIn::<L>::new_truncate(middle);
    let same = VirtAddrIn::new_truncate(0_u64.wrapping_sub(middle));
    check_derives(high, same, VirtAddrIn::new_truncate(u64::MAX));
    let same = VirtAddrIn::new_truncate(middle.wrapping_mul(2));
    check_derives(VirtAddrIn::zero(), same, high);
}

#[test]
fn addresses_have_derives() {
    check_addresses::<FourLevels>(1 << 47);
    check_addresses::<FiveLevels>(1 << 56);
    let five = PhysAddr::new_truncate((1 << 52) + 5);
    check_derives(PhysAddr::new(5), five, PhysAddr::new(6));
}

#[test]
fn indices_and_offsets_have_derives() {
    let index = PageTableIndex::new_truncate(513);
    check_derives(PageTableIndex::new(1), index, PageTableIndex::new(511));
    let offset = PageOffset::new_truncate(4097);
    check_derives(PageOffset::new(1), offset, PageOffset::new(4095));
}

#[test]
fn levels_and_flags_have_derives() {
    let (low, high) = (PageTableLevel::Three, PageTableLevel::Four);
    let same = unwrap_some(high.next_lower_level());
    check_derives(low, same, high);
    let (low, high) = (PageTableLevel57::Four, PageTableLevel57::Five);
    let same = unwrap_some(high.next_lower_level());
    check_derives(low, same, high);
    let low = PageTableFlags::PRESENT.union(PageTableFlags::WRITABLE);
    let same = PageTableFlags::from_bits_retain(0x3);
    check_derives(low, same, PageTableFlags::NO_EXECUTE);
}

/// Compares such pages or frames, and ranges of them.
fn check_blocks<B: Block + Debug + Ord + Hash>(start: B, same: B, end: B) {
    check_derives(start, same, end);
    let range = BlockRange { start, end };
    check_equal(range, BlockRange { start: same, end });
    assert!(range != BlockRange { start: end, end });
    let range = BlockRangeInclusive { start, end };
    check_equal(range, BlockRangeInclusive { start: same, end });
    assert!(range != BlockRangeInclusive { start: end, end });
}

/// Compares two values of a size type, which has no others, and pages and frames of this size.
fn check_size<S: PageSize + Debug + Hash>(size: S, same: S) {
    check_equal(size, same);
    let orders = (size.cmp(&same), size.partial_cmp(&same));
    assert_equal(orders, (Ordering::Equal, Some(Ordering::Equal)));
    check_blocks(page::<S, FourLevels>(0), page(0x123), page(0x4000_0000));
    check_blocks(page::<S, FiveLevels>(0), page(0x123), page(0x4000_0000));
    check_blocks(frame::<S>(0), frame(0x123), frame(0x4000_0000));
}

/// The rows of `test_page_is_hash` of the Rust crate, and more.
#[test]
fn test_page_is_hash_and_others_have_derives() {
    check_size(Size4KiB, Size4KiB);
    check_size(Size2MiB, Size2MiB);
    check_size(Size1GiB, Size1GiB);
}

"""The tests of conditions: what a function tests before it begins, since no prover has shown it where a user calls.

A cheap condition is asserted, mostly where the crate `x86_64` panics, and a dearer one with debug assertions alone. Functions are named by
the trait and type, or the file, around them. The conditions that aren't here are told by the documentation: that the hierarchy is valid, and
that the pool fits.
"""

from applied import Rules

TESTS = Rules(
    {
        # as in the crate x86_64
        "align::align_down": ["assert!(align.is_power_of_two());"],
        "align::align_up": [
            "assert!(align.is_power_of_two());",
            "assert!(addr.checked_next_multiple_of(align).is_some());",
        ],
        "VirtAddrIn<L>::is_aligned": ["assert!(align.is_power_of_two());"],
        "PhysAddr::is_aligned": ["assert!(align.is_power_of_two());"],
        "PhysAddr::align_up": ["assert!(Self::try_new(align_up(self.as_u64(), align)).is_ok());"],
        "PhysAddr::new": ["assert!(addr < 1 << 52);"],
        "PhysAddr::new_unsafe": ["debug_assert!(addr < 1 << 52);"],
        "VirtAddrIn<L>::new": ["assert!(Self::checked_new(addr).is_some());"],
        "VirtAddrIn<L>::new_unsafe": ["debug_assert!(Self::checked_new(addr).is_some());"],
        "VirtAddrIn<L>::table_index": ["assert!(1 <= level && level <= L::LEVELS);"],
        "PageIn<S, L>::table_index": ["assert!(1 <= level && level <= L::LEVELS);"],
        "PageTableIndex::new": ["assert!(index < 512);"],
        "PageOffset::new": ["assert!(offset < 4096);"],
        "Add<u64> for PhysAddr::add": ["assert!(self.as_u64().checked_add(rhs).is_some_and(|sum| sum < 1 << 52));"],
        "Sub<u64> for PhysAddr::sub": ["assert!(rhs <= self.as_u64());"],
        "Sub<PhysAddr> for PhysAddr::sub": ["assert!(rhs <= self);"],
        "Add<u64> for VirtAddrIn<L>::add": [
            "assert!(self.as_u64().checked_add(rhs).and_then(Self::checked_new).is_some());",
        ],
        "Sub<u64> for VirtAddrIn<L>::sub": [
            "assert!(self.as_u64().checked_sub(rhs).and_then(Self::checked_new).is_some());",
        ],
        "Sub<VirtAddrIn<L>> for VirtAddrIn<L>::sub": ["assert!(rhs <= self);"],
        "Add<u64> for PhysFrame<S>::add": ["assert!(rhs.checked_mul(S::SIZE).is_some());"],
        "Sub<u64> for PhysFrame<S>::sub": ["assert!(rhs.checked_mul(S::SIZE).is_some());"],
        "Add<u64> for PageIn<S, L>::add": ["assert!(rhs.checked_mul(S::SIZE).is_some());"],
        "Sub<u64> for PageIn<S, L>::sub": ["assert!(rhs.checked_mul(S::SIZE).is_some());"],
        "PhysFrame<S>::from_start_address_unchecked": ["debug_assert!(start_address.is_aligned(S::SIZE));"],
        "PageIn<S, L>::from_start_address_unchecked": ["debug_assert!(start_address.is_aligned(S::SIZE));"],
        "PhysFrame<S>::from_pfn": ["assert!(pfn <= LAST_ADDRESS / S::SIZE);"],
        "PhysFrame<S>::from_pfn_unchecked": ["debug_assert!(pfn <= LAST_ADDRESS / S::SIZE);"],
        "PageTableEntry::set_addr": ["assert!(addr.is_aligned(4096));"],
        "PageTableEntry::set_frame": ["assert!(!flags.contains(PageTableFlags::HUGE_PAGE));"],
        "calls::identity_map": ["assert!(@crate::call_values::identity_page::<S, L>(frame).is_some());"],
        # of this library
        "PageTableEntry::target": ["debug_assert!(1 <= level);"],
        "MapperFlushRangeIn<S, L>::new": [
            "debug_assert!(count == 0 || PageIn::forward_checked(page, (count - 1) as usize).is_some());",
        ],
        "SegmentMapping<'a>::new_unchecked": ["debug_assert!(first_wrong(segments).is_none());"],
        "lent_marks::is_valid_by_marks": ["assert!(marks.len() == memory.len());"],
        "lent_marks::pool_fits_by_marks": ["assert!(marks.len() == memory.len());"],
        "fitting::spaces_fit_by_marks": ["assert!(marks.len() == memory.len());"],
        "fitting::grouped_spaces_fit_by_marks": ["assert!(marks.len() == memory.len());"],
        "fitting::roots_fit_by_marks": ["assert!(marks.len() == memory.len());"],
        "LentPool<'a>::new": [
            "assert!(*count <= entries.len());",
            "debug_assert!(entries[..*count].iter().all(|a| PhysAddr::try_new(*a).is_ok_and(|a| a.is_aligned(4096))));",
        ],
        "FrameDeallocator<Size4KiB> for FramePool::deallocate_frame": [
            "debug_assert!(0 < number_of(frame) && number_of(frame) < self.is_free.len() && !self.contains(frame));",
        ],
        "memory_unit::access": ["assert!(controls.physical_bits <= 52);"],
        "memory_unit::access_and_mark": ["assert!(controls.physical_bits <= 52);"],
        "path::outcome_of": ["assert!(controls.physical_bits <= 52);"],
        "Controls::is_reserved": ["assert!(self.physical_bits <= 52);"],
        "walk::span": ["assert!(1 <= level && level <= 5);"],
        "walk_entries::read_entries": ["assert!(L::LEVELS <= entries.len() as u64);"],
        "ranges::change_range": ["assert!(are_flag_masks(keep, set));"],
        "calls::map_to_with_table_flags": ["debug_assert!(map_allowed(mapper, page, flags, parent_flags));"],
        "calls::create_tables": ["debug_assert!(map_allowed(mapper, page, PageTableFlags::empty(), parent_flags));"],
        "calls::map_to": ["debug_assert!(map_allowed(mapper, page, flags, parent_flags(flags)));"],
        "calls::unmap": ["debug_assert!(@crate::is_outside_window(mapper, page));"],
        "calls::update_flags": ["debug_assert!(@crate::is_outside_window(mapper, page) && !flags.has_address_bits());"],
        "calls::set_table_flags": [
            "debug_assert!(@crate::is_outside_window(mapper, page) && 2 <= level && level <= L::LEVELS && !flags.has_address_bits());",
        ],
        "map_range::map_range": [
            "debug_assert!(@crate::mappers::calls::map_range_allowed::<S, L, M>(mapper, page, count, frame, flags, parent_flags));",
        ],
        "change_range::unmap_range": ["debug_assert!(@crate::mappers::calls::range_allowed(mapper, page, count));"],
        "change_range::update_flags_range": [
            "debug_assert!(@crate::mappers::calls::range_allowed(mapper, page, count) && !flags.has_address_bits());",
        ],
        "loader::load": ["debug_assert!(@crate::loader::segments_allowed(mapper, segments));"],
        "loader::load_large": ["debug_assert!(@crate::loader::segments_allowed(mapper, segments));"],
    }
)

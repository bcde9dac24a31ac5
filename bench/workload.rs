//! The pages that are mapped, and the frames that they are mapped to.
ghost use Rattle.std.specs.Prelude.{◌≡◌, ◌<◌, ◌≤◌};

use crate::listing::SUPERVISOR_RIGHTS;
use rand::seq::SliceRandom;
use rand_pcg::Pcg32;
use std::alloc::{AllocError, Global};
use x86_64::structures::paging::{PageIn, PageSize, PhysFrame};
use x86_64::{LevelCount, PhysAddr, VirtAddrIn};

/// The number of page numbers in a scattered workload.
const SCATTERED_PAGES: u64 = 1 << 22;

/// The number of the first page's frame.
const FIRST_FRAME: u64 = 1 << 20;

/// The pattern of the mapped pages.
#[derive(Clone, Copy)]
pub enum Pattern {
    /// Consecutive pages, from page 0 on.
    Contiguous,
    /// Pages spread over 2^22 page numbers, which is 16GiB of 4KiB pages.
    Scattered,
}

/// The pages and frames, of any size, in the order in which they are mapped.
#[derive(Clone, Copy)]
pub struct Workload {
    /// The number of mapped pages.
    pub pages: u32,
    /// Their pattern.
    pub pattern: Pattern,
}

impl Workload {
    /// Creates a workload with a number of pages.
    pub fn new(pages: u32, pattern: Pattern) -> Workload {
        Workload { pages, pattern }
    }

    /// Returns the `k`-th page.
    pub fn page<S: PageSize, L: LevelCount>(self, k: u32) -> PageIn<S, L> {
        PageIn::containing_address(VirtAddrIn::new_truncate(self.page_start::<S>(k)))
    }

    /// Returns the address of the `k`-th page.
    fn page_start<S: PageSize>(self, k: u32) -> u64 {
        let number = match self.pattern {
            Pattern::Contiguous => u64::from(k),
            Pattern::Scattered => u64::from(k) * 0x9e37_79b1 % SCATTERED_PAGES,
        };
        number.wrapping_mul(S::SIZE)
    }

    /// Returns the frame that the `k`-th page is mapped to.
    pub fn frame<S: PageSize>(self, k: u32) -> PhysFrame<S> {
        let number = FIRST_FRAME + u64::from(k);
        PhysFrame::containing_address(PhysAddr::new_truncate(number.wrapping_mul(S::SIZE)))
    }

    /// Returns the sum of the contents of all mappings.
    pub fn sum<S: PageSize>(self) -> u64 {
        let flags = if S::LEVEL == 1 { 0x3 } else { 0x83 };
        let mut sum = 0_u64;
        for k in 0..self.pages {
            let frame = self.frame::<S>(k).start_address().as_u64();
            let numbers = [
                self.page_start::<S>(k),
                frame,
                S::SIZE,
                flags,
                SUPERVISOR_RIGHTS,
            ];
            for number in numbers {
                sum = sum.wrapping_add(number);
            }
        }
        sum
    }

    /// Returns a bound on the number of places that the hierarchy's tables take, including frame 0 and the root's. A
    /// place is the index of a table in memory. A table maps equally many pages of any size.
    pub fn places(self) -> u64 {
        let lowest_tables = match self.pattern {
            Pattern::Contiguous => u64::from(self.pages) / 512 + 1,
            Pattern::Scattered => SCATTERED_PAGES / 512,
        };
        lowest_tables + lowest_tables / 512 + 8
    }

    /// Returns the numbers of the pages in a shuffled order, which is always the same.
    pub fn shuffled(self, alloc: Global) -> Result<Vec<u32>, AllocError> {
        let mut order = Vec::with_capacity(alloc, self.pages as usize)?;
        for k in 0..self.pages {
            order.push(k)?;
        }
        order.as_mut_slice().shuffle(&mut Pcg32::new(1, 1));
        Ok(order)
    }
}

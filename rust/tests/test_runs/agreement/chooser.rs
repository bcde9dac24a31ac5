//! Calls that a fixed rule chooses.

use crate::call_rows::CallRow::{self, CleanUp, CleanUpRange, Giant, Large, Small, Translate, TranslateAddr};
use crate::call_rows::PageCallRow::{self, IdentityMap, MapTo, MapToWithTableFlags, SetFlags, TranslatePage, Unmap, UpdateFlags};
use crate::more::Pcg32;
use crate::more::Rng;

/// The indices of level five that are chosen, if there is such a level. Frames are below the addresses of index 2.
const LEVEL_5_INDICES: [u64; 10] = [0, 0, 0, 0, 0, 0, 0, 0, 1, 511];

/// The indices of the other levels that are chosen, from level four down. If 1 is the recursive index, the entries of
/// a level are also read with the indices of a lower one.
const INDICES: [&[u64]; 4] = [&[0, 0, 1, 3, 3, 256, 511], &[0, 1, 1, 2], &[0, 1, 1, 2], &[0, 1, 511]];

/// The addresses in frames that are chosen. The last two are too high for identity maps with four levels.
const FRAMES: [u64; 8] =
    [0x0, 0x5000, 0x4020_1000, 0x4020_1000, 0x80_4020_1000, 0x180_8040_0000, 0x8000_0000_0000, 0x000f_ffff_ffff_f000];

/// `PRESENT` and `NO_EXECUTE`.
const NX: u64 = 0x8000_0000_0000_0001;

/// The flags that are chosen. Some have an address bit or `HUGE_PAGE` or lack `PRESENT`, so that some calls aren't
/// allowed.
const FLAGS: [u64; 12] = [0x1, 0x1, 0x3, 0x3, 0x7, 0x0, 0x2, 0x81, 0x83, 0x1003, 0x11, NX];

/// The sizes of pages that are chosen.
const SIZES: [u64; 4] = [0x1000, 0x1000, 0x20_0000, 0x4000_0000];

/// Returns the call on a page of a size.
fn on_page(size: u64, call: PageCallRow) -> CallRow {
    match size {
        0x1000 => Small(call),
        0x20_0000 => Large(call),
        _ => Giant(call),
    }
}

/// A chooser with a generator that starts alike in each run of the test, so that each run makes the same calls.
pub struct Chooser {
    levels: usize,
    generator: Pcg32,
}

impl Chooser {
    /// Creates a chooser for a number of levels.
    pub fn new(levels: usize) -> Chooser {
        Chooser { levels, generator: Pcg32::new(1, 1) }
    }

    /// Chooses one of several items.
    fn choose<T: Copy>(&mut self, items: &[T]) -> T {
        items[self.generator.next_u32() as usize % items.len()]
    }

    /// Chooses indices, from the highest level down, and returns the position of the 4KiB page with these indices.
    fn position(&mut self) -> u64 {
        let mut position = 0;
        if self.levels == 5 {
            position = self.choose(&LEVEL_5_INDICES);
        }
        for indices in INDICES {
            position = position << 9 | self.choose(indices);
        }
        position << 12
    }

    /// Chooses a call. A fourth of the calls unmap a page or clean up a range, so that tables become empty and are
    /// returned. The last page of a range may be below the first one.
    pub fn choice(&mut self) -> CallRow {
        let (first, last) = (self.position(), self.position());
        let size = self.choose(&SIZES);
        let page = first & size.wrapping_neg();
        let range = CleanUpRange(first, last);
        if self.choose(&[true, false, false, false]) {
            let unmap = on_page(size, Unmap(page));
            return self.choose(&[unmap, unmap, unmap, range]);
        }
        let frame = self.choose(&FRAMES) & size.wrapping_neg();
        let (flags, parent_flags) = (self.choose(&FLAGS), self.choose(&FLAGS));
        let calls = [
            on_page(size, MapTo(page, frame, flags)),
            on_page(size, MapToWithTableFlags(page, frame, flags, parent_flags)),
            on_page(size, IdentityMap(frame, flags)),
            on_page(size, Unmap(page)),
            on_page(size, UpdateFlags(page, flags)),
            on_page(size, SetFlags(4, page, flags)),
            on_page(size, SetFlags(3, page, flags)),
            on_page(size, SetFlags(2, page, flags)),
            on_page(size, TranslatePage(page)),
            Translate(first),
            TranslateAddr(first),
            CleanUp,
            range,
            on_page(size, SetFlags(5, page, flags)),
        ];
        if self.levels == 5 {
            return self.choose(&calls);
        }
        self.choose(&calls[..13])
    }
}

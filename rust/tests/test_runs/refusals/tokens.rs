//! TLB flushes.
use super::hoard_past;
use crate::prelude::*;
use x86_64_paging::tables::tokens::MapperFlushIn;
use x86_64_paging::VirtAddr57;

/// The number of items of a recorder. It is so large that further items need a new block.
const ITEM_COUNT: usize = 4096;

/// A call that makes the list of a recorder grow.
#[derive(Clone, Copy, Debug)]
enum Growth {
    FlushPage,
    FlushPage57,
    FlushAll,
    Reserve,
}

const GROWTHS: [Growth; 4] = [Growth::FlushPage, Growth::FlushPage57, Growth::FlushAll, Growth::Reserve];

/// Flushes the page at 0x1000. Asserts that a token that comes back is for this page.
fn flush_page<L: LevelCount>(recorder: &mut FlushRecorder) -> Result<(), AllocError> {
    let page: PageIn<Size4KiB, L> = PageIn::containing_address(VirtAddrIn::new_truncate(0x1000));
    match MapperFlushIn::new(page).record(recorder) {
        Ok(()) => Ok(()),
        Err(token) => {
            let is_same = token.page() == page;
            token.ignore();
            assert!(is_same);
            Err(AllocError)
        }
    }
}

/// Flushes all pages.
fn flush_all(recorder: &mut FlushRecorder) -> Result<(), AllocError> {
    match MapperFlushAll::new().record(recorder) {
        Ok(()) => Ok(()),
        Err(token) => {
            token.ignore();
            Err(AllocError)
        }
    }
}

/// Makes the list of a recorder grow.
fn grow(growth: Growth, recorder: &mut FlushRecorder) -> Result<(), AllocError> {
    match growth {
        Growth::FlushPage => flush_page::<FourLevels>(recorder),
        Growth::FlushPage57 => flush_page::<FiveLevels>(recorder),
        Growth::FlushAll => flush_all(recorder),
        Growth::Reserve => recorder.reserve(ITEM_COUNT),
    }
}

/// Returns the item that is recorded, if there is one.
fn item_of(growth: Growth) -> Option<FlushItem> {
    match growth {
        Growth::FlushPage => Some(FlushItem::Page { start: VirtAddr::new(0x1000), size: 4096 }),
        Growth::FlushPage57 => Some(FlushItem::Page57 { start: VirtAddr57::new(0x1000), size: 4096 }),
        Growth::FlushAll => Some(FlushItem::All),
        Growth::Reserve => None,
    }
}

/// Creates a recorder whose items fill the room that was reserved.
fn full_recorder() -> FlushRecorder {
    let mut recorder = FlushRecorder::new();
    unwrap(recorder.reserve(ITEM_COUNT));
    for _ in 0..ITEM_COUNT {
        unwrap(flush_all(&mut recorder));
    }
    recorder
}

/// Returns true if the recorder has the items that fill it, followed by this one, if there is one.
fn has(recorder: &FlushRecorder, last: Option<FlushItem>) -> bool {
    let items = recorder.items();
    let (first, rest) = items.split_at(items.len().min(ITEM_COUNT));
    first.len() == ITEM_COUNT
        && first.iter().all(|item| *item == FlushItem::All)
        && rest.len() == usize::from(last.is_some())
        && rest.first().copied() == last
}

#[test]
fn flushes_are_recorded_where_there_is_room() {
    for growth in GROWTHS {
        let mut recorder = full_recorder();
        let hoard = hoard_past(&[]);
        let refused = grow(growth, &mut recorder);
        drop(hoard);
        assert_equal_in(growth, refused, Err(AllocError));
        assert!(has(&recorder, None));
        unwrap(grow(growth, &mut recorder));
        assert!(has(&recorder, item_of(growth)));
    }
}

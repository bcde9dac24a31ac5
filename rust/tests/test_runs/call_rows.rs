//! Calls as numbers, so that tables of them can be constants, converted to calls of a list with any number of levels.
use crate::prelude::*;

/// A call on a page, with those of these numbers that it needs: the level of the entry whose flags are set, the page,
/// the frame, the flags and the parent flags.
#[derive(Clone, Copy)]
pub enum PageCallRow {
    MapTo(u64, u64, u64),
    MapToWithTableFlags(u64, u64, u64, u64),
    IdentityMap(u64, u64),
    Unmap(u64),
    UpdateFlags(u64, u64),
    SetFlags(u8, u64, u64),
    TranslatePage(u64),
}

/// A call on a page of 4KiB, 2MiB or 1GiB or on an address, or a clean up of all pages or of those from a first page
/// to a last one.
#[derive(Clone, Copy)]
pub enum CallRow {
    Small(PageCallRow),
    Large(PageCallRow),
    Giant(PageCallRow),
    Translate(u64),
    TranslateAddr(u64),
    CleanUp,
    CleanUpRange(u64, u64),
}

/// Returns the call of a list, or `None` if there is no such call with this number of levels.
pub fn call_of<L: LevelCount, P5: LevelFiveFlags<L>>(call_row: CallRow) -> Option<CallIn<L, P5>> {
    Some(match call_row {
        CallRow::Small(call_row) => CallIn::Of4KiB(size_call(call_row)?),
        CallRow::Large(call_row) => CallIn::Of2MiB(size_call(call_row)?),
        CallRow::Giant(call_row) => CallIn::Of1GiB(size_call(call_row)?),
        CallRow::Translate(addr) => CallIn::Translate(VirtAddrIn::new_truncate(addr)),
        CallRow::TranslateAddr(addr) => CallIn::TranslateAddr(VirtAddrIn::new_truncate(addr)),
        CallRow::CleanUp => CallIn::CleanUp,
        CallRow::CleanUpRange(first, last) => CallIn::CleanUpRange(PageIn::range_inclusive(page_at(first), page_at(last))),
    })
}

/// Returns the call on a page of a size.
fn size_call<S: PageSize, L: LevelCount, P5: LevelFiveFlags<L>>(call_row: PageCallRow) -> Option<SizeCallIn<S, L, P5>> {
    Some(match call_row {
        PageCallRow::MapTo(page, frame, flags) => {
            SizeCallIn::MapTo { page: page_at(page), frame: frame_at(frame), flags: flags_of(flags) }
        }
        PageCallRow::MapToWithTableFlags(page, frame, flags, parent_flags) => SizeCallIn::MapToWithTableFlags {
            page: page_at(page),
            frame: frame_at(frame),
            flags: flags_of(flags),
            parent_flags: flags_of(parent_flags),
        },
        PageCallRow::IdentityMap(frame, flags) => SizeCallIn::IdentityMap { frame: frame_at(frame), flags: flags_of(flags) },
        PageCallRow::Unmap(page) => SizeCallIn::Unmap { page: page_at(page) },
        PageCallRow::UpdateFlags(page, flags) => SizeCallIn::UpdateFlags { page: page_at(page), flags: flags_of(flags) },
        PageCallRow::SetFlags(level, page, flags) => set_flags_call(level, page_at(page), flags)?,
        PageCallRow::TranslatePage(page) => SizeCallIn::TranslatePage { page: page_at(page) },
    })
}

/// Returns the call that sets the flags of the entry of a level on a page's path.
fn set_flags_call<S: PageSize, L: LevelCount, P5: LevelFiveFlags<L>>(
    level: u8,
    page: PageIn<S, L>,
    bits: u64,
) -> Option<SizeCallIn<S, L, P5>> {
    let flags = flags_of(bits);
    Some(match level {
        5 => SizeCallIn::SetFlagsP5 { page, flags: P5::from_page_table_flags(flags)? },
        4 => SizeCallIn::SetFlagsP4 { page, flags },
        3 => SizeCallIn::SetFlagsP3 { page, flags },
        _ => SizeCallIn::SetFlagsP2 { page, flags },
    })
}

//! What has to be flushed after a call, and after an exchange of an entry's word.

use crate::addresses::index::PageTableIndex;
use crate::addresses::level_count::LevelCount;
use crate::bitflags::Flags;
use crate::call_values::{CallIn, LevelFiveFlags, MapperReply, PageReply, ReplyIn, SizeCallIn, SizeReplyIn};
use crate::pages::page::PageSize;
use crate::tables::page_table::{PageTableEntry, PageTableFlags};
use crate::tables::phys_memory::has_flag;

/// What has to be flushed after a call, before what it lets go is used again. Each flush does what those before it do.
///
/// A processor caches translations of pages, and tables that its walks reached. Intel SDM vol. 3A, "Caching Translation
/// Information".
#[derive(Clone, Copy, Debug, PartialEq)]
pub enum Flush {
    /// Nothing.
    Nothing,
    /// All cached tables: execute `INVLPG` of any address, or load CR3, on every processor that uses the root, before a
    /// frame that the call freed is taken by a map or `new_space` with the pool, or is used otherwise. If EFER.TCE is set
    /// (AMD), `INVLPG` isn't enough.
    Tables,
    /// The call's page: execute `INVLPG` of an address in it, on every processor that uses the root, also before a smaller
    /// page is mapped there.
    Page,
    /// Everything, global pages too, on every processor that uses the root: for example clear CR4.PGE and set it again.
    Everything,
}

impl<S: PageSize, L: LevelCount, P5: LevelFiveFlags<L>> SizeCallIn<S, L, P5> {
    /// Returns true if the call marks the entries above its page with `NO_EXECUTE`.
    fn takes_execute(&self) -> bool {
        match self {
            SizeCallIn::MapToWithTableFlags { parent_flags, .. } => parent_flags.contains(PageTableFlags::NO_EXECUTE),
            _ => false,
        }
    }
}

impl<L: LevelCount, P5: LevelFiveFlags<L>> CallIn<L, P5> {
    /// Returns true if the call marks the entries above its page with `NO_EXECUTE`.
    fn takes_execute(&self) -> bool {
        match self {
            CallIn::Of4KiB(call) => call.takes_execute(),
            CallIn::Of2MiB(call) => call.takes_execute(),
            CallIn::Of1GiB(call) => call.takes_execute(),
            _ => false,
        }
    }
}

/// Returns what has to be flushed after a call on a page with this reply. A recursive window shows the entry of a page
/// that isn't small as smaller pages.
fn after_page<S: PageSize, L: LevelCount>(reply: &SizeReplyIn<S, L>, takes_execute: bool, is_shown: bool) -> Flush {
    match reply {
        PageReply::Map(_) if takes_execute => Flush::Everything,
        PageReply::Unmap(Ok(_)) | PageReply::Update(Ok(_)) => {
            if is_shown {
                Flush::Everything
            } else {
                Flush::Page
            }
        }
        PageReply::TableFlags(Ok(())) => Flush::Everything,
        _ => Flush::Nothing,
    }
}

/// Returns what has to be flushed after a call with this reply, given the hierarchy's recursive index, if it has one.
///
/// | call | flush |
/// |---|---|
/// | maps, translations, what isn't allowed | `Nothing` |
/// | maps with `NO_EXECUTE` among the parent flags | `Everything`, even if refused |
/// | `unmap`, `update_flags` | `Page`; with a recursive index and a page of 2MiB or 1GiB `Everything` |
/// | changes to the flags of table entries | `Everything` |
/// | clean ups | `Tables`; with a recursive index `Everything` |
/// | any other call that is refused | `Nothing` |
///
/// If a call is followed by this flush, each access goes with the page walk, with no right more, whatever the processor
/// caches between calls: `laws::flushed_calls_leave_no_stale_item`.
///
/// The reply has to be one to this call; nothing is promised for any other.
///
/// # Proved
///
/// ```text
/// ensures { TellsFlush L.LEVELS (to_call L.LEVELS P5.bits call.now) reply.now recursive_index true result }
/// ```
pub fn flush_after<L: LevelCount, P5: LevelFiveFlags<L>>(
    call: &CallIn<L, P5>,
    reply: &ReplyIn<L>,
    recursive_index: Option<PageTableIndex>,
) -> Flush {
    let recursive = recursive_index.is_some();
    let takes_execute = call.takes_execute();
    match reply {
        MapperReply::Of4KiB(reply) => after_page(reply, takes_execute, false),
        MapperReply::Of2MiB(reply) => after_page(reply, takes_execute, recursive),
        MapperReply::Of1GiB(reply) => after_page(reply, takes_execute, recursive),
        MapperReply::Cleaned if recursive => Flush::Everything,
        MapperReply::Cleaned => Flush::Tables,
        MapperReply::Translate(_) | MapperReply::Address(_) | MapperReply::NotAllowed => Flush::Nothing,
    }
}

/// Returns what has to be flushed after a call with this reply, if the caller knows whether a used entry loses anything:
/// `Nothing` if none does, otherwise what [`flush_after`] returns.
///
/// A used entry loses something if it becomes unused, leads elsewhere, is of another kind, loses a mark, or no longer grants
/// what it granted, as [`loses`] tests for one entry.
///
/// # Proved
///
/// ```text
/// ensures { TellsFlush L.LEVELS (to_call L.LEVELS P5.bits call.now) reply.now recursive_index loses result }
/// ```
pub fn flush_after_change<L: LevelCount, P5: LevelFiveFlags<L>>(
    call: &CallIn<L, P5>,
    reply: &ReplyIn<L>,
    recursive_index: Option<PageTableIndex>,
    loses: bool,
) -> Flush {
    if loses {
        flush_after(call, reply, recursive_index)
    } else {
        Flush::Nothing
    }
}

/// The bits of an entry that say how it is cached, and its protection key: `WRITE_THROUGH`, `NO_CACHE`, `GLOBAL`, 59 to 62.
const KIND_MASK: u64 = 0x7800_0000_0000_0118;

/// Returns true if an entry has a flag that another lacks.
///
/// Requires that the flag has none of the bits 12 to 51.
#[inline]
fn lacks(old: &PageTableEntry, new: &PageTableEntry, flag: PageTableFlags) -> bool {
    has_flag(old, flag) & !has_flag(new, flag)
}

/// Returns true if a used entry loses something by becoming another: it becomes unused, leads elsewhere, is of another kind
/// (`WRITE_THROUGH`, `NO_CACHE`, `GLOBAL`, the protection key in bits 59 to 62), loses a mark (`ACCESSED`, `DIRTY`), or no
/// longer grants what it granted (`PRESENT`, `WRITABLE`, `USER_ACCESSIBLE`, or the lack of `NO_EXECUTE`).
///
/// If a call changes only entries that lose nothing, nothing has to be flushed after it. Until a processor drops what it
/// cached, an access may fault that the entry allows now. Rights of supervisors under SMEP and SMAP aren't counted: there
/// an entry that gets `USER_ACCESSIBLE` takes rights from them, so that its page has to be flushed, too.
///
/// # Proved
///
/// ```text
/// ensures nothing { result ≡ false → used old.now ≡ true → LosesNothing old.now new.now }
/// ensures something { result ≡ true → (used old.now ≡ true) × (LosesNothing old.now new.now → ⊥) }
/// ```
pub fn loses(old: &PageTableEntry, new: &PageTableEntry) -> bool {
    let huge_differs = has_flag(old, PageTableFlags::HUGE_PAGE) != has_flag(new, PageTableFlags::HUGE_PAGE);
    let leads_elsewhere = new.is_unused() | (old.addr() != new.addr()) | huge_differs;
    let is_other_kind = old.word() & KIND_MASK != new.word() & KIND_MASK;
    let loses_mark = lacks(old, new, PageTableFlags::ACCESSED) | lacks(old, new, PageTableFlags::DIRTY);
    let grants_less = lacks(old, new, PageTableFlags::PRESENT)
        | lacks(old, new, PageTableFlags::WRITABLE)
        | lacks(old, new, PageTableFlags::USER_ACCESSIBLE)
        | lacks(new, old, PageTableFlags::NO_EXECUTE);
    !old.is_unused() & (leads_elsewhere | is_other_kind | loses_mark | grants_less)
}

/// Returns what has to be flushed after the word of an entry was exchanged for another one by one atomic instruction, given the level of
/// the entry's table and the hierarchy's recursive index, if it has one. Level one is that of tables whose entries map 4KiB pages.
///
/// | entry | flush |
/// |---|---|
/// | `old` lacks `PRESENT`, or loses nothing by becoming `new` | `Nothing` |
/// | `old` maps a page | `Page`; with a recursive index and a page of 2MiB or 1GiB `Everything` |
/// | `old` names a table | `Everything` |
///
/// No cache holds an entry that lacks `PRESENT`. What an entry loses is what [`loses`] tests; an entry that gets `USER_ACCESSIBLE` counts
/// as one that loses something, too, since under SMEP and SMAP it takes rights from supervisors.
///
/// If an exchange is followed by this flush, each access goes with the page walk, with no right more, whatever the processor caches between
/// exchanges, calls and flushes: the laws `exchanges_may_happen` and `flushes_after_calls_are_enough` of `x86_64_model`, which also say which
/// words may be exchanged. Intel SDM vol. 3A, "Invalidation of TLBs and Paging-Structure Caches".
///
/// # Proved
///
/// ```text
/// ensures { TellsFlushBetween level old.now new.now recursive_index result }
/// ```
pub fn flush_between(level: u64, old: &PageTableEntry, new: &PageTableEntry, recursive_index: Option<PageTableIndex>) -> Flush {
    let is_lost = loses(old, new) | lacks(new, old, PageTableFlags::USER_ACCESSIBLE);
    if !has_flag(old, PageTableFlags::PRESENT) | !is_lost {
        return Flush::Nothing;
    }
    let names_table = !has_flag(old, PageTableFlags::HUGE_PAGE);
    if (level > 1) & (names_table | recursive_index.is_some()) {
        Flush::Everything
    } else {
        Flush::Page
    }
}

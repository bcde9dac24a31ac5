//! The texts of replies.

use x86_64_paging::support::Vec;

use core::fmt::Display;
use x86_64_paging::bitflags::Flags;
use x86_64_paging::structures::paging::mapper::{
    FlagUpdateError, MapToError, MappedFrame, TranslateError, TranslateResult, UnmapError,
};
use x86_64_paging::structures::paging::{PageSize, PhysFrame, Size4KiB};
use x86_64_paging::text::write_hexadecimal;
use x86_64_paging::{LevelCount, MapperReply, PageReply, PhysAddr, ReplyIn, Walked};

/// The reply to a call on a page that is not mapped.
const PAGE_NOT_MAPPED: &str = "page not mapped";

/// The reply to a call on a page that an entry above maps as part of a larger one.
const PARENT_ENTRY_HUGE_PAGE: &str = "parent entry huge page";

/// The reply to a command.
pub enum Reply<L: LevelCount> {
    /// The mapper's answer to a call.
    Answered(ReplyIn<L>),
    /// Where the page walk arrives, or `None` if the address isn't mapped.
    Arrival(Option<Walked>),
    /// A word.
    Word(u64),
    /// The free frames, in order.
    Pool(Vec<PhysFrame<Size4KiB>>),
}

impl<L: LevelCount> Display for Reply<L> {
    fn fmt(&self, f: &mut core::fmt::Formatter<'_>) -> core::fmt::Result {
        match self {
            Reply::Answered(reply) => write_answer(f, reply),
            Reply::Arrival(None) => f.write_str("none"),
            Reply::Arrival(Some(walked)) => write_walked(f, *walked),
            Reply::Word(word) => write_hexadecimal(f, *word),
            Reply::Pool(frames) => write_pool(f, frames),
        }
    }
}

/// Writes where a page walk arrives.
fn write_walked(f: &mut core::fmt::Formatter<'_>, walked: Walked) -> core::fmt::Result {
    let address = walked.address.as_u64();
    let write = u8::from(walked.write);
    let user = u8::from(walked.user);
    write!(f, "0x{address:x} write={write} user={user}")
}

/// Writes the free frames.
fn write_pool(f: &mut core::fmt::Formatter<'_>, frames: &[PhysFrame<Size4KiB>]) -> core::fmt::Result {
    f.write_str("pool")?;
    for frame in frames {
        f.write_str(" ")?;
        write_address(f, frame.start_address())?;
    }
    Ok(())
}

/// Writes the reply to a call.
fn write_answer<L: LevelCount>(f: &mut core::fmt::Formatter<'_>, answer: &ReplyIn<L>) -> core::fmt::Result {
    match answer {
        MapperReply::Of4KiB(reply) => write_page_reply(f, reply),
        MapperReply::Of2MiB(reply) => write_page_reply(f, reply),
        MapperReply::Of1GiB(reply) => write_page_reply(f, reply),
        MapperReply::Translate(translation) => write_translation(f, translation),
        MapperReply::Address(Some(address)) => write_address(f, *address),
        MapperReply::Address(None) => f.write_str("none"),
        MapperReply::Cleaned => f.write_str("ok"),
        MapperReply::NotAllowed => f.write_str("not allowed"),
    }
}

/// Writes the reply to a call on a page.
fn write_page_reply<P, S: PageSize>(f: &mut core::fmt::Formatter<'_>, reply: &PageReply<P, S>) -> core::fmt::Result {
    match reply {
        PageReply::Map(Ok(_)) => f.write_str("ok"),
        PageReply::Map(Err(error)) => write_map_error(f, error),
        PageReply::Unmap(Ok((frame, _))) => write_address(f, frame.start_address()),
        PageReply::Unmap(Err(error)) => write_unmap_error(f, error),
        PageReply::Update(Ok(_)) | PageReply::TableFlags(Ok(())) => f.write_str("ok"),
        PageReply::Update(Err(error)) | PageReply::TableFlags(Err(error)) => write_flags_error(f, error),
        PageReply::Frame(Ok(frame)) => write_address(f, frame.start_address()),
        PageReply::Frame(Err(error)) => write_frame_error(f, error),
    }
}

/// Writes the reason why a page was not mapped.
fn write_map_error<S: PageSize>(f: &mut core::fmt::Formatter<'_>, error: &MapToError<S>) -> core::fmt::Result {
    match error {
        MapToError::FrameAllocationFailed => f.write_str("frame allocation failed"),
        MapToError::ParentEntryHugePage => f.write_str(PARENT_ENTRY_HUGE_PAGE),
        MapToError::PageAlreadyMapped(frame) => {
            f.write_str("page already mapped ")?;
            write_address(f, frame.start_address())
        }
    }
}

/// Writes the reason why a page was not unmapped.
fn write_unmap_error(f: &mut core::fmt::Formatter<'_>, error: &UnmapError) -> core::fmt::Result {
    match error {
        UnmapError::PageNotMapped => f.write_str(PAGE_NOT_MAPPED),
        UnmapError::ParentEntryHugePage => f.write_str(PARENT_ENTRY_HUGE_PAGE),
        UnmapError::InvalidFrameAddress(address) => write_invalid_address(f, *address),
    }
}

/// Writes the reason why flags were not set.
fn write_flags_error(f: &mut core::fmt::Formatter<'_>, error: &FlagUpdateError) -> core::fmt::Result {
    f.write_str(match error {
        FlagUpdateError::PageNotMapped => PAGE_NOT_MAPPED,
        FlagUpdateError::ParentEntryHugePage => PARENT_ENTRY_HUGE_PAGE,
    })
}

/// Writes the reason why a page has no frame.
fn write_frame_error(f: &mut core::fmt::Formatter<'_>, error: &TranslateError) -> core::fmt::Result {
    match error {
        TranslateError::PageNotMapped => f.write_str(PAGE_NOT_MAPPED),
        TranslateError::ParentEntryHugePage => f.write_str(PARENT_ENTRY_HUGE_PAGE),
        TranslateError::InvalidFrameAddress(address) => write_invalid_address(f, *address),
    }
}

/// Writes that the address in a page's entry isn't that of a frame of the page's size.
fn write_invalid_address(f: &mut core::fmt::Formatter<'_>, address: PhysAddr) -> core::fmt::Result {
    f.write_str("invalid frame address ")?;
    write_address(f, address)
}

/// Writes what an address is mapped to.
fn write_translation(f: &mut core::fmt::Formatter<'_>, translation: &TranslateResult) -> core::fmt::Result {
    match translation {
        TranslateResult::Mapped { frame, offset, flags } => {
            let size = size_name(frame);
            let start = frame.start_address().as_u64();
            let offset = *offset;
            let flags = flags.bits();
            write!(f, "mapped {size} 0x{start:x} 0x{offset:x} 0x{flags:x}")
        }
        TranslateResult::NotMapped | TranslateResult::InvalidFrameAddress(_) => f.write_str("not mapped"),
    }
}

/// Returns the name of a frame's size.
fn size_name(frame: &MappedFrame) -> &'static str {
    match frame {
        MappedFrame::Size4KiB(_) => "4KiB",
        MappedFrame::Size2MiB(_) => "2MiB",
        MappedFrame::Size1GiB(_) => "1GiB",
    }
}

/// Writes an address.
fn write_address(f: &mut core::fmt::Formatter<'_>, address: PhysAddr) -> core::fmt::Result {
    write_hexadecimal(f, address.as_u64())
}

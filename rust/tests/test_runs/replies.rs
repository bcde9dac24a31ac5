//! Replies of the plain program, converted to replies to a list with any number of levels.
use crate::call_rows::{CallRow, PageCallRow};
use crate::prelude::*;
use x86_64_paging::structures::paging::mapper::{MapToError, TranslateError, TranslateResult};
use x86_64_paging::SizeReplyIn;

/// Converts the plain program's answer to a map of a page to a mapper's result.
fn map_result<S: PageSize, L: LevelCount>(page: PageIn<S, L>, answer: Answer) -> Option<Result<PageIn<S, L>, MapToError<S>>> {
    match answer {
        Answer::Done(_) => Some(Ok(page)),
        Answer::Refused(Refusal::FrameAllocationFailed) => Some(Err(MapToError::FrameAllocationFailed)),
        Answer::Refused(Refusal::ParentEntryHugePage) => Some(Err(MapToError::ParentEntryHugePage)),
        Answer::Refused(Refusal::PageAlreadyMapped(frame)) => Some(Err(MapToError::PageAlreadyMapped(frame_at(frame)))),
        Answer::Refused(Refusal::PageNotMapped | Refusal::InvalidFrameAddress(_)) => None,
    }
}

/// This for an unmap.
fn unmap_result<S: PageSize, L: LevelCount>(
    page: PageIn<S, L>,
    answer: Answer,
) -> Option<Result<(PhysFrame<S>, PageIn<S, L>), UnmapError>> {
    match answer {
        Answer::Done(frame) => Some(Ok((frame_at(frame), page))),
        Answer::Refused(Refusal::PageNotMapped) => Some(Err(UnmapError::PageNotMapped)),
        Answer::Refused(Refusal::ParentEntryHugePage) => Some(Err(UnmapError::ParentEntryHugePage)),
        Answer::Refused(Refusal::InvalidFrameAddress(frame)) => {
            let address = PhysAddr::new_truncate(frame);
            Some(Err(UnmapError::InvalidFrameAddress(address)))
        }
        Answer::Refused(_) => None,
    }
}

/// This for a change of flags.
fn flags_result(answer: Answer) -> Option<Result<(), FlagUpdateError>> {
    match answer {
        Answer::Done(_) => Some(Ok(())),
        Answer::Refused(Refusal::PageNotMapped) => Some(Err(FlagUpdateError::PageNotMapped)),
        Answer::Refused(Refusal::ParentEntryHugePage) => Some(Err(FlagUpdateError::ParentEntryHugePage)),
        Answer::Refused(_) => None,
    }
}

/// This for the translation of a page.
fn frame_result<S: PageSize>(answer: Answer) -> Option<Result<PhysFrame<S>, TranslateError>> {
    match answer {
        Answer::Done(frame) => Some(Ok(frame_at(frame))),
        Answer::Refused(Refusal::PageNotMapped) => Some(Err(TranslateError::PageNotMapped)),
        Answer::Refused(Refusal::ParentEntryHugePage) => Some(Err(TranslateError::ParentEntryHugePage)),
        Answer::Refused(Refusal::InvalidFrameAddress(frame)) => {
            let address = PhysAddr::new_truncate(frame);
            Some(Err(TranslateError::InvalidFrameAddress(address)))
        }
        Answer::Refused(_) => None,
    }
}

/// This for the translation of an address.
fn translate_result(translated: Translated) -> TranslateResult {
    match translated {
        Translated::NotMapped => TranslateResult::NotMapped,
        Translated::Mapped { size, frame, offset, flags } => {
            let start = PhysAddr::new_truncate(frame);
            let frame = match size {
                0x1000 => MappedFrame::Size4KiB(PhysFrame::containing_address(start)),
                0x20_0000 => MappedFrame::Size2MiB(PhysFrame::containing_address(start)),
                _ => MappedFrame::Size1GiB(PhysFrame::containing_address(start)),
            };
            TranslateResult::Mapped { frame, offset, flags: flags_of(flags) }
        }
    }
}

/// This for a call on a page.
fn size_reply<S: PageSize, L: LevelCount>(call_row: PageCallRow, answer: Answer) -> Option<SizeReplyIn<S, L>> {
    Some(match call_row {
        PageCallRow::MapTo(page, ..) | PageCallRow::MapToWithTableFlags(page, ..) | PageCallRow::IdentityMap(page, _) => {
            PageReply::Map(map_result(page_at(page), answer)?)
        }
        PageCallRow::Unmap(page) => PageReply::Unmap(unmap_result(page_at(page), answer)?),
        PageCallRow::UpdateFlags(page, _) => PageReply::Update(flags_result(answer)?.map(|()| page_at(page))),
        PageCallRow::SetFlags(..) => PageReply::TableFlags(flags_result(answer)?),
        PageCallRow::TranslatePage(_) => PageReply::Frame(frame_result(answer)?),
    })
}

/// Returns the reply of a list for the plain program's reply to a call, or `None` if the reply doesn't fit the call.
pub fn reply_to<L: LevelCount>(call_row: CallRow, plain: PlainReply) -> Option<ReplyIn<L>> {
    match (plain, call_row) {
        (PlainReply::NotAllowed, _) => Some(MapperReply::NotAllowed),
        (PlainReply::Answered(answer), CallRow::Small(call_row)) => Some(MapperReply::Of4KiB(size_reply(call_row, answer)?)),
        (PlainReply::Answered(answer), CallRow::Large(call_row)) => Some(MapperReply::Of2MiB(size_reply(call_row, answer)?)),
        (PlainReply::Answered(answer), CallRow::Giant(call_row)) => Some(MapperReply::Of1GiB(size_reply(call_row, answer)?)),
        (PlainReply::Position(translated), CallRow::Translate(_)) => Some(MapperReply::Translate(translate_result(translated))),
        (PlainReply::Address(address), CallRow::TranslateAddr(_)) => {
            Some(MapperReply::Address(address.map(PhysAddr::new_truncate)))
        }
        (PlainReply::Cleaned, CallRow::CleanUp | CallRow::CleanUpRange(..)) => Some(MapperReply::Cleaned),
        _ => None,
    }
}

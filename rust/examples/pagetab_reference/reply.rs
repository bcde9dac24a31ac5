//! The texts of replies.

use crate::test_reference::{Answer, PlainCall, PlainReply, Refusal, Translated};

/// Returns the line of the reply to a call.
pub fn reply_text(call: &PlainCall, reply: PlainReply) -> String {
    match reply {
        PlainReply::NotAllowed => "not allowed".into(),
        PlainReply::Cleaned => "ok".into(),
        PlainReply::Address(None) => "none".into(),
        PlainReply::Address(Some(address)) => format!("{address:#x}"),
        PlainReply::Position(translated) => translated_text(translated),
        PlainReply::Answered(Answer::Refused(why)) => refusal_text(why),
        PlainReply::Answered(Answer::Done(frame)) => match call {
            PlainCall::Unmap { .. } | PlainCall::TranslatePage { .. } => format!("{frame:#x}"),
            _ => "ok".into(),
        },
    }
}

/// Returns where a position is mapped to.
fn translated_text(translated: Translated) -> String {
    let Translated::Mapped { size, frame, offset, flags } = translated else {
        return "not mapped".into();
    };
    let size = match size {
        0x1000 => "4KiB",
        0x20_0000 => "2MiB",
        _ => "1GiB",
    };
    format!("mapped {size} {frame:#x} {offset:#x} {flags:#x}")
}

/// Returns why a call on a page is refused.
fn refusal_text(why: Refusal) -> String {
    match why {
        Refusal::FrameAllocationFailed => "frame allocation failed".into(),
        Refusal::ParentEntryHugePage => "parent entry huge page".into(),
        Refusal::PageNotMapped => "page not mapped".into(),
        Refusal::PageAlreadyMapped(frame) => format!("page already mapped {frame:#x}"),
        Refusal::InvalidFrameAddress(frame) => format!("invalid frame address {frame:#x}"),
    }
}

/// Returns the line that lists the free frames.
pub fn pool_text(frames: &[u64]) -> String {
    let frames: String = frames.iter().map(|frame| format!(" {frame:#x}")).collect();
    format!("pool{frames}")
}

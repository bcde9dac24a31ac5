//! Runs of the program `pagetab` whose reads and writes fail. `tests/pagetab/` has runs of the built program.

use std::str::FromStr;

use crate::more::MoreOfVec;
use x86_64_paging::support::Vec;
mod refusals;

use crate::pagetab_engine::engine::run;
use crate::prelude::*;
use crate::streams::{Sink, Source, BYTES_AT_ONCE};

/// Returns the words of a text.
pub fn words_of(text: &str) -> Vec<String> {
    let mut words = Vec::new();
    for word in text.split_whitespace() {
        let ran = words.push(unwrap(String::from_str(word)));
        unwrap(ran);
    }
    words
}

/// The root's word for itself, at the index 510.
pub const SELF_ENTRY: &str = "word 0x1000 510 0x1003\n";

/// The words of the fifth table above the 4KiB page 0x1000, and of the one above it.
const FIFTH: &str = "word 0x4000 0 0x8003\nword 0x8000 1 0x5003\n";

/// Arguments for each way to find tables, and the additional words that the image needs: of the root, and of a fifth
/// table.
static MODES: [(&str, &str, &str); 7] = [
    ("direct 8", "", ""),
    ("offset 8 0xffff800000000000", "", ""),
    ("pair 8 510", SELF_ENTRY, ""),
    ("recursive 8 510", SELF_ENTRY, ""),
    ("direct5 16", "", FIFTH),
    ("recursive5 16 510", SELF_ENTRY, FIFTH),
    ("pair5 16 510", SELF_ENTRY, FIFTH),
];

/// The image: four tables, which map the 4KiB page 0x1000 to the frame 0x5000, and two free frames.
const IMAGE: &str = "word 0x1000 0 0x2003\nword 0x2000 0 0x3003\nword 0x3000 0 0x4003\nword 0x4000 1 0x5003\n\
    free 0x6000\nfree 0x7000\n";

/// The commands after it.
const COMMANDS: &str = "translate 0x1abc\nmap 4KiB 0x2000 0x9000 0x1\nwalk 0x1abc\npool\n";

/// The replies to them.
static REPLIES: [&str; 4] = ["mapped 4KiB 0x5000 0xabc 0x3\n", "ok\n", "0x5abc write=1 user=0\n", "pool 0x6000 0x7000\n"];

/// The number of replies.
const REPLY_COUNT: u64 = 4;

/// Returns the first replies.
fn first_replies(count: u64) -> String {
    let mut replies = String::new();
    for (_, reply) in (0..count).zip(&REPLIES) {
        replies.push_str(reply);
    }
    replies
}

/// Returns the number of lines that end in bytes.
fn line_count(bytes: &[u8]) -> u64 {
    bytes.iter().filter(|byte| **byte == b'\n').count() as u64
}

/// Asserts how a run ends whose read and write with these numbers fail, none if they are 0, and that it writes the
/// first replies. Returns the numbers of its reads and writes.
fn assert_run(
    arguments: &str,
    input: &[u8],
    (failing_read, failing_write): (u64, u64),
    ending: Ending,
    reply_count: u64,
) -> (u64, u64) {
    let words = words_of(arguments);
    let mut source = Source::new(input, failing_read);
    let mut sink = Sink::new(Vec::new(), failing_write);
    let found = run(&words, &mut source, &mut sink);
    let replies = first_replies(reply_count);
    assert_equal_in(arguments, found, ending);
    let written = core::str::from_utf8(sink.bytes.as_slice());
    assert_equal_in(arguments, written, Ok(replies.as_str()));
    (source.calls, sink.calls)
}

/// Lets each of a number of reads fail in turn. Nothing is read after it, and the replies to the lines that were read
/// remain.
fn assert_failed_reads(arguments: &str, input: &[u8], reads: u64) {
    let image_lines = line_count(input).saturating_sub(REPLY_COUNT);
    let failed = Ending::Stopped(Fault::Input);
    let mut read_bytes: usize = 0;
    for read in 1..=reads {
        let lines = line_count(&input[..read_bytes.min(input.len())]);
        let replies = lines.saturating_sub(image_lines);
        let (calls, _) = assert_run(arguments, input, (read, 0), failed, replies);
        assert_equal(calls, read);
        read_bytes = read_bytes.saturating_add(BYTES_AT_ONCE);
    }
}

/// Lets each write fail in turn. The replies before it remain.
fn assert_failed_writes(arguments: &str, input: &[u8]) {
    let failed = Ending::Stopped(Fault::Output);
    for write in 1..=REPLY_COUNT {
        assert_run(arguments, input, (0, write), failed, write - 1);
    }
}

#[test]
fn failed_reads_and_writes_end_the_run() {
    for (arguments, first, fifth) in &MODES {
        let input = unwrap(format_in!("{first}{fifth}{IMAGE}{COMMANDS}"));
        let input = input.as_bytes();
        let done = Ending::Done;
        let whole = assert_run(arguments, input, (0, 0), done, REPLY_COUNT);
        assert_equal(whole.1, REPLY_COUNT);
        assert_failed_reads(arguments, input, whole.0);
        assert_failed_writes(arguments, input);
    }
}

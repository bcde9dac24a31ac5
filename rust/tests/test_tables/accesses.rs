//! Tests of accesses: who may do what to a page, and which fault comes otherwise.

use crate::common::*;
use x86_64_paging::access::{access, access_and_mark, Access, AccessKind, Controls, Fault};
use x86_64_paging::{read_entries, EntriesRead, WalkEntry, MOST_LEVELS};

/// A processor with all its protections off, and with all of them on.
const OFF: Controls = Controls {
    write_protect: false,
    no_execute: false,
    smep: false,
    smap: false,
    ac: false,
    physical_bits: 48,
    no_1gib_pages: false,
    global_reserved: false,
};

const ON: Controls = Controls { write_protect: true, no_execute: true, smep: true, smap: true, ..OFF };

const WITH_AC: Controls = Controls { ac: true, ..ON };

/// A processor without pages of 1GiB, and one that reserves `GLOBAL` in the entries of the upper levels.
const WITHOUT_1GIB: Controls = Controls { no_1gib_pages: true, ..ON };

const WITHOUT_GLOBAL: Controls = Controls { global_reserved: true, ..ON };

const USER_READS: Access = Access { kind: AccessKind::Read, user: true };

const USER_WRITES: Access = Access { kind: AccessKind::Write, user: true };

const USER_FETCHES: Access = Access { kind: AccessKind::Fetch, user: true };

const SUPERVISOR_READS: Access = Access { kind: AccessKind::Read, user: false };

const SUPERVISOR_WRITES: Access = Access { kind: AccessKind::Write, user: false };

const SUPERVISOR_FETCHES: Access = Access { kind: AccessKind::Fetch, user: false };

/// What comes of an access: an address, or the code and the level of a page fault.
#[derive(Clone, Copy, Debug, PartialEq)]
enum Outcome {
    At(u64),
    Fault(u64, u64),
    NoTable(u64),
}

/// The words of a walk from level four down, an access, a processor, and what comes of it.
type Row = ([u64; 4], Access, Controls, Outcome);

const OPEN: [u64; 4] = [0x2007, 0x3007, 0x4007, 0x5007];

const KERNEL: [u64; 4] = [0x2007, 0x3007, 0x4007, 0x5003];

const READ_ONLY: [u64; 4] = [0x2007, 0x3005, 0x4007, 0x5007];

const NO_EXECUTE: u64 = 1 << 63;

static ROWS: [Row; 35] = [
    // A user reads, writes and fetches.
    (OPEN, USER_READS, ON, Outcome::At(0x5123)),
    (OPEN, USER_WRITES, ON, Outcome::At(0x5123)),
    (OPEN, USER_FETCHES, ON, Outcome::At(0x5123)),
    // An entry isn't present.
    ([0x2007, 0x3006, 0x4007, 0x5007], USER_READS, ON, Outcome::Fault(0x4, 3)),
    ([0x2006, 0x3007, 0x4007, 0x5007], USER_WRITES, ON, Outcome::Fault(0x6, 4)),
    ([0x2007, 0x3007, 0x4007, 0], SUPERVISOR_READS, ON, Outcome::Fault(0, 1)),
    ([0x2007, 0x3007, 0x4007, 0], USER_FETCHES, ON, Outcome::Fault(0x14, 1)),
    ([0x2007, 0x3007, 0x4007, 0], USER_FETCHES, OFF, Outcome::Fault(0x4, 1)),
    // A reserved bit is set: above a missing entry, and below one.
    ([0x1_0000_0000_2007, 0, 0, 0], SUPERVISOR_READS, ON, Outcome::Fault(0x9, 4)),
    ([0x2007, 0x6, 0x1_0000_0000_4007, 0], SUPERVISOR_READS, ON, Outcome::Fault(0, 3)),
    ([0x2007, 0x1_0000_0000_3007, 0, 0], USER_WRITES, ON, Outcome::Fault(0xf, 3)),
    ([0x2087, 0x3007, 0x4007, 0x5007], USER_READS, ON, Outcome::Fault(0xd, 4)),
    ([0x2007, 0x3007, 0x4007, 0x5087], USER_READS, ON, Outcome::At(0x5123)),
    // Large pages: bit 12 is PAT, the bits above it are reserved.
    ([0x2007, 0x3007, 0x20_1087, 0], SUPERVISOR_READS, OFF, Outcome::At(0x20_0123)),
    ([0x2007, 0x3007, 0x20_2087, 0], SUPERVISOR_READS, OFF, Outcome::Fault(0x9, 2)),
    ([0x2007, 0x4000_1087, 0, 0], SUPERVISOR_READS, OFF, Outcome::At(0x4000_0123)),
    ([0x2007, 0x6000_0087, 0, 0], SUPERVISOR_READS, OFF, Outcome::Fault(0x9, 3)),
    // Some processors have no pages of 1GiB.
    ([0x2007, 0x4000_0087, 0, 0], USER_READS, WITHOUT_1GIB, Outcome::Fault(0xd, 3)),
    ([0x2007, 0x3007, 0x20_0087, 0], USER_READS, WITHOUT_1GIB, Outcome::At(0x20_0123)),
    // GLOBAL in entries that name tables is reserved above level three, or ignored.
    ([0x2107, 0x3007, 0x4007, 0x5007], USER_READS, ON, Outcome::At(0x5123)),
    ([0x2107, 0x3007, 0x4007, 0x5007], USER_READS, WITHOUT_GLOBAL, Outcome::Fault(0xd, 4)),
    ([0x2007, 0x3107, 0x4107, 0x5107], USER_READS, WITHOUT_GLOBAL, Outcome::At(0x5123)),
    // NO_EXECUTE.
    ([0x2007 | NO_EXECUTE, 0x3007, 0x4007, 0x5007], USER_READS, ON, Outcome::At(0x5123)),
    ([0x2007 | NO_EXECUTE, 0x3007, 0x4007, 0x5007], USER_FETCHES, ON, Outcome::Fault(0x15, 1)),
    ([0x2007 | NO_EXECUTE, 0x3007, 0x4007, 0x5007], USER_FETCHES, OFF, Outcome::Fault(0xd, 4)),
    // A user needs USER_ACCESSIBLE in every entry.
    (KERNEL, USER_READS, OFF, Outcome::Fault(0x5, 1)),
    ([0x2003, 0x3007, 0x4007, 0x5007], USER_READS, OFF, Outcome::Fault(0x5, 1)),
    (KERNEL, SUPERVISOR_FETCHES, ON, Outcome::At(0x5123)),
    // A supervisor writes to pages without WRITABLE, unless WP is on.
    (READ_ONLY, SUPERVISOR_WRITES, OFF, Outcome::At(0x5123)),
    (READ_ONLY, SUPERVISOR_WRITES, WITH_AC, Outcome::Fault(0x3, 1)),
    (READ_ONLY, USER_WRITES, OFF, Outcome::Fault(0x7, 1)),
    // SMEP and SMAP.
    (OPEN, SUPERVISOR_FETCHES, WITH_AC, Outcome::Fault(0x11, 1)),
    (OPEN, SUPERVISOR_READS, ON, Outcome::Fault(0x1, 1)),
    (OPEN, SUPERVISOR_READS, WITH_AC, Outcome::At(0x5123)),
    // A table isn't in the memory.
    ([0x2007, 0x9007, 0x4007, 0x5007], USER_READS, ON, Outcome::NoTable(0x9000)),
];

/// Creates the memory of a row: the root in frame 0x1000, and each other table in the next frame.
fn memory_of_row(words: &[u64; 4]) -> PhysMemory {
    let mut memory = memory_of(6, &[]);
    for (n, word) in words.iter().enumerate() {
        set_words(&mut memory, &[0x1000 * (n as u64 + 1), 0, *word]);
    }
    memory
}

fn outcome_of(answer: Result<PhysAddr, Fault>) -> Outcome {
    match answer {
        Ok(address) => Outcome::At(address.as_u64()),
        Err(fault) => outcome_of_fault(fault),
    }
}

fn outcome_of_fault(fault: Fault) -> Outcome {
    match fault {
        Fault::PageFault { code, level } => Outcome::Fault(code.bits(), level),
        Fault::NoMemory { frame } => Outcome::NoTable(frame.start_address().as_u64()),
    }
}

#[test]
fn accesses_arrive_or_fault() {
    for (n, (words, asked, controls, wanted)) in ROWS.iter().enumerate() {
        let mut memory = memory_of_row(words);
        let root = frame_at(0x1000);
        let addr = VirtAddr::new_truncate(0x123);
        let found = access(&memory, &IdentityMapping, root, addr, *asked, controls);
        assert_equal_in(n, outcome_of(found), *wanted);
        let mut read = [WalkEntry::NONE; MOST_LEVELS];
        let EntriesRead { count, .. } = read_entries(&memory, &IdentityMapping, root, addr, &mut read);
        let entries = read.map(|entry| PageTableEntry::from_word(entry.word));
        let along = x86_64_paging::access::outcome_of(&entries[..count], root, addr, *asked, controls);
        assert_equal_in(n, outcome_of(along), *wanted);
        let marked = access_and_mark(&mut memory, &IdentityMapping, root, addr, *asked, controls);
        assert_equal_in(n, outcome_of(marked), *wanted);
    }
}

/// The words of a walk from level four down, an access, and the words after it.
static MARKED: [([u64; 4], Access, [u64; 4]); 5] = [
    (OPEN, USER_READS, [0x2027, 0x3027, 0x4027, 0x5027]),
    (OPEN, USER_WRITES, [0x2027, 0x3027, 0x4027, 0x5067]),
    (KERNEL, USER_READS, KERNEL),
    ([0x2047, 0x3007, 0x20_0087, 0x1], USER_WRITES, [0x2067, 0x3027, 0x20_00e7, 0x1]),
    // The root names itself, and is read at every level.
    ([0x1007, 0x3007, 0x4007, 0x5007], USER_WRITES, [0x1067, 0x3007, 0x4007, 0x5007]),
];

#[test]
fn accesses_mark_the_entries_of_their_walk() {
    for (n, (words, asked, wanted)) in MARKED.iter().enumerate() {
        let mut memory = memory_of_row(words);
        let addr = VirtAddr::new_truncate(0x123);
        let _ = access_and_mark(&mut memory, &IdentityMapping, frame_at(0x1000), addr, *asked, &OFF);
        for (level, word) in wanted.iter().enumerate() {
            let table = unwrap_some(memory.table(FramePlace::new(level as u64 + 1)));
            assert_equal_in((n, level), table[PageTableIndex::new(0)].word(), *word);
        }
    }
}

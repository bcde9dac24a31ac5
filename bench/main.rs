//! Measures maps, translations, lists and unmaps of 4KiB or 2MiB pages, and the clean up of the tables that the
//! unmaps left. It compares several mappers. The first one finds tables by their frames. It is also used over tables
//! that their owner lends, in a memory without every second place (a place is the index of a table in memory), and
//! with five levels. The last mapper reaches tables through the root's entry for itself.
//!
//! Without arguments, it does a small fixed run, and prints the number of times that each operation was done. The
//! arguments are `M contiguous` or `M scattered`, and a size of pages that is 4KiB by default. With these, it maps M
//! pages in each of seven rounds, with one mapper after another. It prints a table of the least processor time of
//! each operation to standard error, with its ratio to the time of the first mapper. For contiguous pages it also maps
//! them, changes their flags and unmaps them one by one and as one range, by the first mapper, and prints both times.
//! Last come the times of a page walk, whose rights are looked at, and of an access for each page.
#![tactic(auto)]

mod listing;
mod lookups;
mod page_calls;
mod ranges;
mod report;
mod rounds;
mod workload;

use crate::lookups::{LOOKUPS, Lookup, measure_lookups};
use crate::ranges::{CHANGES, Way, measure_ranges};
use crate::report::{Measured, report_counts, report_table};
use crate::rounds::{Access, OPERATIONS, measure};
use crate::workload::{Pattern, Workload};
use std::process::ExitCode;
use std::{env, io};
use x86_64::structures::paging::{PageSize, Size2MiB, Size4KiB};

/// The number of rounds.
const ROUNDS: usize = 7;

/// The number of pages of the small run.
const SMALL: u32 = 1000;

fn main(rt: HostRuntime) -> io::Result<ExitCode> {
    let mut words = Vec::new(rt.alloc());
    for word in env::args(&rt)?.skip(1) {
        words.push(word)?;
    }
    let (workload, size) = match words.as_slice() {
        [] => return run_once(&rt),
        [pages, pattern] => (parse_workload(pages.as_str(), pattern.as_str()), "4KiB"),
        [pages, pattern, size] => (
            parse_workload(pages.as_str(), pattern.as_str()),
            size.as_str(),
        ),
        _ => (None, ""),
    };
    match (workload, size.as_bytes()) {
        (Some(workload), b"4KiB") => compare::<Size4KiB>(&rt, workload),
        (Some(workload), b"2MiB") => compare::<Size2MiB>(&rt, workload),
        _ => {
            eprintln!(rt; "usage: tools/bench [PAGES contiguous|scattered [4KiB|2MiB]]")?;
            Ok(ExitCode::from(5))
        }
    }
}

/// Parses the number of pages, and their pattern.
fn parse_workload(pages: &str, pattern: &str) -> Option<Workload> {
    let pattern = match pattern {
        "contiguous" => Pattern::Contiguous,
        "scattered" => Pattern::Scattered,
        _ => return None,
    };
    Some(Workload::new(pages.parse().ok()?, pattern))
}

/// Does one round of a small workload for each size in each way, and prints the number of times that each operation was
/// done.
fn run_once(rt: &HostRuntime) -> io::Result<ExitCode> {
    if !count::<Size4KiB>(rt)? || !count::<Size2MiB>(rt)? {
        return Ok(ExitCode::from(2));
    }
    Ok(ExitCode::from(0))
}

/// Does this with pages of a size. Returns true if the rounds could be done.
fn count<S: PageSize>(rt: &HostRuntime) -> io::Result<bool> {
    let (mut rounds, mut changes) = (Vec::new(rt.alloc()), Vec::new(rt.alloc()));
    let mut lookups = Vec::new(rt.alloc());
    let scattered = Workload::new(SMALL, Pattern::Scattered);
    let contiguous = Workload::new(SMALL, Pattern::Contiguous);
    if !add_rounds::<S>(rt, scattered, &mut rounds)?
        || !add_changes::<S>(rt, contiguous, &mut changes)?
        || !add_lookups::<S>(rt, scattered, &mut lookups)?
    {
        return Ok(false);
    }
    for (by, parts) in &rounds {
        report_counts(rt, by, S::DEBUG_STR, &OPERATIONS, parts)?;
    }
    for (by, parts) in &changes {
        report_counts(rt, by, S::DEBUG_STR, &CHANGES, parts)?;
    }
    for (by, parts) in &lookups {
        report_counts(rt, by, S::DEBUG_STR, &LOOKUPS, parts)?;
    }
    Ok(true)
}

/// Does all rounds with pages of a size, each with one mapper after another, those of changes of contiguous pages, and
/// those of lookups. Prints the time of each operation.
fn compare<S: PageSize>(rt: &HostRuntime, workload: Workload) -> io::Result<ExitCode> {
    let (mut rounds, mut changes) = (Vec::new(rt.alloc()), Vec::new(rt.alloc()));
    for _ in 0..ROUNDS {
        if !add_rounds::<S>(rt, workload, &mut rounds)? {
            return Ok(ExitCode::from(2));
        }
    }
    report_table(rt, Access::ALL.len(), &OPERATIONS[..5], &rounds)?;
    if let Pattern::Contiguous = workload.pattern {
        for _ in 0..ROUNDS {
            if !add_changes::<S>(rt, workload, &mut changes)? {
                return Ok(ExitCode::from(2));
            }
        }
        report_table(rt, Way::ALL.len(), &CHANGES, &changes)?;
    }
    let mut lookups = Vec::new(rt.alloc());
    for _ in 0..ROUNDS {
        if !add_lookups::<S>(rt, workload, &mut lookups)? {
            return Ok(ExitCode::from(2));
        }
    }
    report_table(rt, Lookup::ALL.len(), &LOOKUPS, &lookups)?;
    Ok(ExitCode::from(0))
}

/// Does a round with each mapper. Returns true if all could be done.
fn add_rounds<S: PageSize>(
    rt: &HostRuntime,
    workload: Workload,
    rounds: &mut Vec<Measured>,
) -> io::Result<bool> {
    for (access, name) in Access::ALL {
        let Some(parts) = measure::<S>(rt.alloc(), rt, access, workload)? else {
            return Ok(false);
        };
        rounds.push((name, Vec::from_slice(rt.alloc(), &parts)?))?;
    }
    Ok(true)
}

/// Does a round of changes in each way. Returns true if all could be done.
fn add_changes<S: PageSize>(
    rt: &HostRuntime,
    workload: Workload,
    rounds: &mut Vec<Measured>,
) -> io::Result<bool> {
    for (way, name) in Way::ALL {
        let Some(parts) = measure_ranges::<S>(rt.alloc(), rt, workload, way)? else {
            return Ok(false);
        };
        rounds.push((name, Vec::from_slice(rt.alloc(), &parts)?))?;
    }
    Ok(true)
}

/// Looks addresses up in each way. Returns true if all could be done.
fn add_lookups<S: PageSize>(
    rt: &HostRuntime,
    workload: Workload,
    rounds: &mut Vec<Measured>,
) -> io::Result<bool> {
    for (lookup, name) in Lookup::ALL {
        let Some(parts) = measure_lookups::<S>(rt.alloc(), rt, workload, lookup)? else {
            return Ok(false);
        };
        rounds.push((name, Vec::from_slice(rt.alloc(), &parts)?))?;
    }
    Ok(true)
}

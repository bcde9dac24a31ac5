//! The run of the program.

use crate::pagetab_engine::arguments::Arguments;
use crate::pagetab_engine::ending::{Ending, Fault};
use crate::pagetab_engine::hierarchy::Hierarchy;
use crate::pagetab_engine::lines::Lines;
use crate::pagetab_engine::reply::Reply;
use crate::pagetab_engine::statement::{Command, Statement};
use std::io::{ErrorKind, Read, Write};
use x86_64_paging::addresses::level_count::Levels;
use x86_64_paging::structures::paging::PageTableFlags;
use x86_64_paging::support::AllocError;
use x86_64_paging::{FiveLevels, FourLevels, LevelCount, LevelFiveFlags, NoLevelFive};

/// Runs the program on its arguments. Reads an image and commands from `reader`, and writes a reply to each command.
///
/// The arguments are one of these, for a memory of N places (a place is the index of a table in memory):
///
/// - `direct N`: each frame lies at the place of its number.
/// - `offset N OFF`: the memory is mapped into the virtual address space from the address OFF on.
/// - `recursive N R`: tables are reached through the root's entry for itself at the index R.
/// - `pair N R`: the mappers of `direct` and of `recursive` execute each call together. Each has a memory of its own
///   with the image, and the first one's image lacks the root's word R. A call that names the index R is not allowed,
///   even if it only reads. `walk`, `show` and `pool` read the memory and the free frames of the first mapper.
/// - `direct5 N`, `recursive5 N R`, `pair5 N R`: these with five levels of page tables and 57-bit addresses.
///
/// Each reply is a line, written by one call of `write` if the writer takes it whole. The replies and the ending are
/// those of the transcript, a function of the arguments and the input, unless memory allocation, a read or a write
/// fails. Then the replies written so far are the transcript's first ones, and complete, except for the one whose write
/// failed, of which only a first part is written.
///
/// The input is what the reader has left, if that is known, as for bytes in memory. For a file or a terminal it isn't
/// known, and the contract says that the run is that of some input.
pub fn run<R: Read, W: Write>(words: &[String], reader: &mut R, writer: &mut W) -> Ending {
    match serve(words, reader, writer) {
        Ok(()) => Ending::Done,
        Err(fault) => Ending::Stopped(fault),
    }
}

/// The implementation of [`run`].
fn serve<R: Read, W: Write>(words: &[String], reader: &mut R, writer: &mut W) -> Result<(), Fault> {
    let Some(arguments) = Arguments::parse(words) else {
        return Err(Fault::Usage);
    };
    let mut hierarchy = Hierarchy::new(arguments)?;
    if !hierarchy.is_reached() {
        return Err(Fault::Usage);
    }
    serve_levels(&arguments, &mut hierarchy, reader, writer)
}

/// The part of [`serve`] for an empty hierarchy of the arguments' mode: chooses the types for its number of levels.
fn serve_levels<R: Read, W: Write>(
    arguments: &Arguments,
    hierarchy: &mut Hierarchy,
    reader: &mut R,
    writer: &mut W,
) -> Result<(), Fault> {
    let places = arguments.places;
    match arguments.mode.levels() {
        Levels::Four => serve_lines::<FourLevels, NoLevelFive, R, W>(places, hierarchy, reader, writer),
        Levels::Five => serve_lines::<FiveLevels, PageTableFlags, R, W>(places, hierarchy, reader, writer),
    }
}

/// Loads the image into a hierarchy, which has this number of places, and executes the commands that follow.
fn serve_lines<L: LevelCount, P5: LevelFiveFlags<L>, R: Read, W: Write>(
    places: u64,
    hierarchy: &mut Hierarchy,
    reader: &mut R,
    writer: &mut W,
) -> Result<(), Fault> {
    let mut lines = Lines::new(reader);
    let first = read_image::<L, P5, R>(&mut lines, hierarchy, places)?;
    if !hierarchy.end_image()? {
        return Err(Fault::InvalidHierarchy);
    }
    match first {
        Some(command) => answer_commands(&mut lines, hierarchy, places, command, writer),
        None => Ok(()),
    }
}

/// Loads the image, and returns the command that follows it, or `None` at the end of the input.
fn read_image<L: LevelCount, P5: LevelFiveFlags<L>, R: Read>(
    lines: &mut Lines<'_, R>,
    hierarchy: &mut Hierarchy,
    places: u64,
) -> Result<Option<Command<L, P5>>, Fault> {
    while let Some(statement) = lines.next_statement::<L, P5>(places)? {
        match statement {
            Statement::Image(line) => {
                if hierarchy.load(&line).is_err() {
                    return Err(lines.fault());
                }
            }
            Statement::Command(command) => return Ok(Some(command)),
        }
    }
    Ok(None)
}

/// Executes the first command and those that follow it.
fn answer_commands<L: LevelCount, P5: LevelFiveFlags<L>, R: Read, W: Write>(
    lines: &mut Lines<'_, R>,
    hierarchy: &mut Hierarchy,
    places: u64,
    first: Command<L, P5>,
    writer: &mut W,
) -> Result<(), Fault> {
    write_reply(hierarchy, first, writer)?;
    while let Some(statement) = lines.next_statement::<L, P5>(places)? {
        match statement {
            Statement::Command(command) => write_reply(hierarchy, command, writer)?,
            Statement::Image(_) => return Err(lines.fault()),
        }
    }
    Ok(())
}

/// Executes a command, and writes the reply as a line.
fn write_reply<L: LevelCount, P5: LevelFiveFlags<L>, W: Write>(
    hierarchy: &mut Hierarchy,
    command: Command<L, P5>,
    writer: &mut W,
) -> Result<(), Fault> {
    let reply = answer(hierarchy, command)?;
    let text = format_in!("{reply}\n")?;
    write_line(text.as_bytes(), writer)
}

/// Writes a line, by one call of `write` if the writer takes it whole. An interrupted call is repeated.
///
/// Requires that the line is not empty.
///
/// # Errors
///
/// `Fault::Output` if a write fails or takes no byte. Then a first part of the line is written, but not all of it.
fn write_line<W: Write>(line: &[u8], writer: &mut W) -> Result<(), Fault> {
    let mut rest = line;
    for _ in 0..u64::MAX {
        match writer.write(rest) {
            Ok(0) => return Err(Fault::Output),
            Ok(count) if count == rest.len() => return Ok(()),
            Ok(count) => rest = &rest[count..],
            Err(error) => {
                if error.kind() != ErrorKind::Interrupted {
                    return Err(Fault::Output);
                }
            }
        }
    }
    Err(Fault::Output)
}

/// Executes a command, and returns the reply.
///
/// # Errors
///
/// `AllocError` if memory allocation fails. Then nothing changes.
fn answer<L: LevelCount, P5: LevelFiveFlags<L>>(
    hierarchy: &mut Hierarchy,
    command: Command<L, P5>,
) -> Result<Reply<L>, AllocError> {
    Ok(match command {
        Command::Call(call) => Reply::Answered(hierarchy.answer_call(call)?),
        Command::Walk(address) => Reply::Arrival(hierarchy.frames().walk(address)),
        Command::Show(slot) => Reply::Word(hierarchy.frames().word(slot)),
        Command::Pool => Reply::Pool(hierarchy.frames().free_frames()?),
    })
}

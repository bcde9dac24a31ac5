//! The program `pagetab` over this crate and the standard library, for the transcripts of the repository (`tests/pagetab`).

macro_rules! format_in {
    ($($tokens:tt)*) => { Ok::<String, x86_64_paging::support::AllocError>(format!($($tokens)*)) }
}
#[allow(dead_code, unused_imports, unused_variables)]
mod pagetab_engine;

use pagetab_engine::ending::{Ending, Fault};
use std::fs::File;
use std::io::Write;
use std::os::fd::AsFd;
use std::process::ExitCode;

fn main() -> ExitCode {
    let words: Result<Vec<String>, _> = std::env::args_os().skip(1).map(|word| word.into_string()).collect();
    // without a buffer, so that no byte behind the last command is read
    let input = std::io::stdin().as_fd().try_clone_to_owned().map(File::from);
    let output = std::io::stdout().as_fd().try_clone_to_owned().map(File::from);
    let ending = match (words, input, output) {
        (Ok(words), Ok(mut input), Ok(mut output)) => pagetab_engine::engine::run(&words, &mut input, &mut output),
        _ => Ending::Stopped(Fault::Usage),
    };
    let told = match ending {
        Ending::Done => Ok(()),
        Ending::Stopped(fault) => writeln!(std::io::stderr(), "{fault}"),
    };
    match told {
        Ok(()) => ExitCode::from(ending.status()),
        Err(_) => ExitCode::from(Ending::Stopped(Fault::Output).status()),
    }
}

//! Answers the commands of `pagetab` by the plain slow program: entries by paths, and no tables.
//!
//! It takes the arguments of `pagetab`, reads the same lines, and prints the same replies, so that `tests/agreement` of the repository can
//! compare both programs. It believes its input: it doesn't test that the image is valid, that free frames fit it, or that addresses are
//! canonical and aligned, and it has no command `walk`. If it can't read a line, it prints why and ends with status 1.

// The plain program is made of a proved one; the tests of this crate use more of both modules.
#[macro_use]
#[path = "../../tests/more/mod.rs"]
mod more;
#[allow(dead_code, unused_imports, unused_variables)]
#[path = "../../tests/test_runs/test_reference/mod.rs"]
mod test_reference;

mod hierarchy;
mod line;
mod mode;
mod reply;

use hierarchy::Hierarchy;
use line::{parse_number, Line};
use mode::Mode;
use reply::{pool_text, reply_text};
use std::error::Error;
use std::io::{self, BufWriter, Write};

fn main() -> Result<(), Box<dyn Error>> {
    let words: Vec<String> = std::env::args().skip(1).collect();
    let mut hierarchy = create(&words)?;
    let mut writer = BufWriter::new(io::stdout().lock());
    for (n, text) in io::stdin().lines().enumerate() {
        let text = text?;
        let ended = answer_line(&mut hierarchy, text.trim(), &mut writer);
        ended.map_err(|why| format!("line {}: {why}", n + 1))?;
    }
    Ok(writer.flush()?)
}

/// Creates a hierarchy without entries from the arguments: the mode, the number of places and, if the mode has one, the offset or the
/// recursive index.
fn create(words: &[String]) -> Result<Hierarchy, Box<dyn Error>> {
    let (mode, places, number) = match words {
        [mode, places] => (mode, places, "0"),
        [mode, places, number] => (mode, places, number.as_str()),
        _ => return Err("usage: pagetab_reference MODE PLACES [OFFSET|INDEX]".into()),
    };
    let mode = Mode::parse(mode, parse_number(number)?).ok_or("there is no such mode")?;
    Ok(Hierarchy::new(mode, parse_number(places)?))
}

/// Obeys one line, and writes the reply if it has one.
fn answer_line(hierarchy: &mut Hierarchy, text: &str, writer: &mut impl Write) -> Result<(), Box<dyn Error>> {
    if text.is_empty() {
        return Ok(());
    }
    match Line::parse(hierarchy.mode(), text)? {
        Line::Word { frame, index, word } => hierarchy.set_word(frame, index, word),
        Line::Free(frame) => hierarchy.add_free(frame),
        Line::Show { frame, index } => writeln!(writer, "{:#x}", hierarchy.word(frame, index))?,
        Line::Pool => writeln!(writer, "{}", pool_text(hierarchy.free_frames()))?,
        Line::Call(call) => {
            let reply = hierarchy.answer(&call);
            writeln!(writer, "{}", reply_text(&call, reply))?;
        }
    }
    Ok(())
}

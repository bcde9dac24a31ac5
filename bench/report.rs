//! The output about rounds.
use crate::rounds::Part;
use std::io;

/// The results of a round: the name of what did it, and its parts, in order.
pub type Measured = (&'static str, Vec<Part>);

/// Prints the number of times that each operation was done in a round on pages of a size.
pub fn report_counts(
    out: &impl Print,
    by: &str,
    size: &str,
    names: &[&str],
    parts: &[Part],
) -> io::Result<()> {
    for (name, part) in names.iter().zip(parts) {
        println!(out; "{by} {size} {name} {}", part.count)?;
    }
    Ok(())
}

/// Prints a table of the least time of each operation, in nanoseconds, and its ratio to the time of the first column.
/// The first few rounds are those of the columns in order.
pub fn report_table(
    out: &impl Eprint,
    columns: usize,
    names: &[&str],
    rounds: &[Measured],
) -> io::Result<()> {
    let (columns, _) = rounds.split_at(columns.min(rounds.len()));
    eprint!(out; "{:<10}", "ns")?;
    for (column, _) in columns {
        eprint!(out; "{column:>17}")?;
    }
    eprintln!(out; "")?;
    for (row, name) in names.iter().enumerate() {
        eprint!(out; "{name:<10}")?;
        let first = columns.first().map_or("", |(column, _)| *column);
        for (column, _) in columns {
            let time = least_time(row, column, rounds);
            report_time(out, time, least_time(row, first, rounds))?;
        }
        eprintln!(out; "")?;
    }
    Ok(())
}

/// Prints a time in hundredths of a nanosecond, and its ratio to another one.
fn report_time(out: &impl Eprint, time: u64, other: u64) -> io::Result<()> {
    let ratio = time.saturating_mul(100) / other.max(1);
    eprint!(out;
        "{:>7}.{:02} ({}.{:02})",
        time / 100,
        time % 100,
        ratio / 100,
        ratio % 100
    )
}

/// Returns the least time of an operation by its row, in hundredths of a nanosecond.
fn least_time(row: usize, column: &str, rounds: &[Measured]) -> u64 {
    let mut least = u64::MAX;
    for (by, parts) in rounds {
        if let (true, Some(part)) = (*by == column, parts.get(row)) {
            least = least.min(hundredths_each(*part));
        }
    }
    least
}

/// Returns the time per operation of a part, in hundredths of a nanosecond.
fn hundredths_each(part: Part) -> u64 {
    let nanos = u64::try_from(part.time.as_nanos()).unwrap_or(u64::MAX);
    nanos.saturating_mul(100) / part.count.max(1)
}

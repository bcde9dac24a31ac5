//! Readers and writers in memory.

use crate::more::MoreOfVec;
use std::io::{self, Read, Write};
use x86_64_paging::support::Vec;

/// The maximum number of bytes that a source returns per read.
pub const BYTES_AT_ONCE: usize = 7;

/// A reader that returns its bytes a few at a time, and fails at the call with a given number, counted from 1.
pub struct Source<'a> {
    rest: &'a [u8],
    /// The number of reads.
    pub calls: u64,
    fails_at: u64,
}

impl<'a> Source<'a> {
    /// Creates a source with these bytes. It never fails if the number is 0.
    pub fn new(bytes: &'a [u8], fails_at: u64) -> Source<'a> {
        Source { rest: bytes, calls: 0, fails_at }
    }
}

impl Read for Source<'_> {
    fn read(&mut self, buf: &mut [u8]) -> io::Result<usize> {
        self.calls = self.calls.saturating_add(1);
        if self.calls == self.fails_at {
            return Err(io::Error::from(io::ErrorKind::Other));
        }
        let count = self.rest.len().min(buf.len()).min(BYTES_AT_ONCE);
        let (given, rest) = self.rest.split_at(count);
        buf[..count].copy_from_slice(given);
        self.rest = rest;
        Ok(count)
    }
}

/// A writer that keeps what is written, and fails at the call with a given number, counted from 1.
pub struct Sink {
    /// The bytes that were written.
    pub bytes: Vec<u8>,
    /// The number of writes.
    pub calls: u64,
    fails_at: u64,
}

impl Sink {
    /// Creates a writer that keeps what is written in a vector. It never fails if the number is 0.
    pub fn new(bytes: Vec<u8>, fails_at: u64) -> Sink {
        Sink { bytes, calls: 0, fails_at }
    }
}

impl Write for Sink {
    fn write(&mut self, buf: &[u8]) -> io::Result<usize> {
        self.calls = self.calls.saturating_add(1);
        if self.calls == self.fails_at {
            return Err(io::Error::from(io::ErrorKind::Other));
        }
        self.bytes.extend_from_slice(buf).map_err(|_| io::ErrorKind::OutOfMemory)?;
        Ok(buf.len())
    }

    fn flush(&mut self) -> io::Result<()> {
        Ok(())
    }
}

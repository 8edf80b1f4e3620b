// Written by tools/to-rust from crates/test_support/src/streams.rt: change that.
//! Readers and writers that fail at a call that a test selects.

use dolzhytik::fallible::Vec;
use dolzhytik::fallible::Allocator;
use std::io::{Error, ErrorKind, Read, Result, Write};

/// Counts calls down to the one that fails.
struct Countdown {
    left: u64,
}

impl Countdown {
    /// Fails if this call is the one that is to fail.
    ///
    /// # Proved
    ///
    /// ```text
    /// ensures fails { IsErr result ↔ (self.old.left ≡ 1) }
    /// ensures counts { self.new.left ≡ self.old.left - 1 }
    /// ```
    fn step(&mut self) -> Result<()> {
        let is_failing = self.left == 1;
        self.left = self.left.saturating_sub(1);
        if is_failing {
            return Err(Error::from(ErrorKind::Other));
        }
        Ok(())
    }
}

/// A reader of bytes, which returns them in chunks. One of its reads fails, if a test wants that.
/// A failed read consumes nothing, and the reads after it continue.
pub struct FailingReader<'a> {
    text: &'a [u8],
    chunk: usize,
    countdown: Countdown,
}

impl<'a> FailingReader<'a> {
    /// Returns a reader whose reads return at most `chunk` bytes. The read numbered `failing`
    /// fails, counted from 1; at 0 none does.
    ///
    /// # Asks
    ///
    /// ```text
    /// requires { 0 < chunk }
    /// ```
    ///
    /// # Proved
    ///
    /// ```text
    /// ensures text { result.text.now ≡ text.now }
    /// ensures chunk { result.chunk ≡ chunk }
    /// ensures failing { result.countdown.left ≡ failing }
    /// ```
    pub fn new(text: &'a [u8], chunk: usize, failing: u64) -> FailingReader<'a> {
        FailingReader {
            text,
            chunk,
            countdown: Countdown { left: failing },
        }
    }
}

/// # Defined
///
/// ```text
/// remaining = { λ r. Some r.text.now }
/// ```
impl Read for FailingReader<'_> {
    /// # Proved
    ///
    /// ```text
    /// ensures bound { ReadsAtMost result buf.new }
    /// ensures bytes { ReadConsumes (Some self.old.text.now) (Some self.new.text.now) result
    ///     buf.new }
    /// ensures count { let piece = min (length self.old.text.now) self.old.chunk in
    ///     IfOk result (λ n. n ≡ min piece (length buf.new)) }
    /// ensures fails { IsErr result ↔ (self.old.countdown.left ≡ 1) }
    /// ensures counts { self.new.countdown.left ≡ self.old.countdown.left - 1 }
    /// ensures chunk { self.new.chunk ≡ self.old.chunk }
    /// ```
    fn read(&mut self, buf: &mut [u8]) -> Result<usize> {
        self.countdown.step()?;
        let count = self.text.len().min(self.chunk).min(buf.len());
        buf[..count].copy_from_slice(&self.text[..count]);
        self.text = &self.text[count..];
        Ok(count)
    }
}

/// A reader that never ends: it returns one space at each read, and counts its reads.
pub struct EndlessReader {
    reads: u64,
}

impl EndlessReader {
    /// Returns a reader that has made no read yet.
    ///
    /// # Proved
    ///
    /// ```text
    /// ensures { result.reads ≡ 0 }
    /// ```
    pub fn new() -> EndlessReader {
        EndlessReader { reads: 0 }
    }

    /// Returns the number of reads. It stops at `u64::MAX`.
    ///
    /// # Proved
    ///
    /// ```text
    /// ensures { result ≡ self.now.reads }
    /// ```
    pub fn reads(&self) -> u64 {
        self.reads
    }
}

impl Read for EndlessReader {
    /// # Proved
    ///
    /// ```text
    /// ensures bound { ReadsAtMost result buf.new }
    /// ensures bytes { ReadConsumes None None result buf.new }
    /// ensures count { IsOkAnd result (λ n. n ≡ min 1 (length buf.new)) }
    /// ensures space { buf.new ≡ slice_set buf.old 0 32 }
    /// ensures counts { self.new.reads ≡ min (self.old.reads + 1) u64.MAX }
    /// ```
    fn read(&mut self, buf: &mut [u8]) -> Result<usize> {
        self.reads = self.reads.saturating_add(1);
        match buf.first_mut() {
            Some(first) => {
                *first = b' ';
                Ok(1)
            }
            None => Ok(0),
        }
    }
}

/// A writer that keeps the bytes that are written. One of its writes fails, if a test wants that.
/// A failed write keeps nothing, and the writes after it continue.
pub struct FailingWriter<A: Allocator> {
    written: Vec<u8, A>,
    countdown: Countdown,
}

impl<A: Allocator> FailingWriter<A> {
    /// Returns a writer that keeps its bytes in memory of `alloc`. A write also fails if an
    /// allocation does, and then keeps nothing. The write numbered `failing` fails, counted from 1;
    /// at 0 none does.
    ///
    /// # Proved
    ///
    /// ```text
    /// ensures bytes { result.written.items ≡ [] }
    /// ensures failing { result.countdown.left ≡ failing }
    /// ```
    pub fn new(alloc: A, failing: u64) -> FailingWriter<A> {
        FailingWriter {
            written: Vec::new(alloc),
            countdown: Countdown { left: failing },
        }
    }

    /// Returns the bytes that were written so far.
    ///
    /// # Proved
    ///
    /// ```text
    /// ensures { result.now ≡ self.now.written.items }
    /// ```
    pub fn bytes(&self) -> &[u8] {
        self.written.as_slice()
    }
}

/// # Defined
///
/// ```text
/// contents = { λ w. Some w.written.items }
/// ```
impl<A: Allocator> Write for FailingWriter<A> {
    /// # Proved
    ///
    /// ```text
    /// ensures bound { WritesAtMost result buf.now }
    /// ensures bytes { WriteAppends (Some self.old.written.items) (Some self.new.written.items)
    ///     result buf.now }
    /// ensures whole { IfOk result (λ n. n ≡ length buf.now) }
    /// ensures fails { self.old.countdown.left ≡ 1 → IsErr result }
    /// ensures counts { self.new.countdown.left ≡ self.old.countdown.left - 1 }
    /// ```
    fn write(&mut self, buf: &[u8]) -> Result<usize> {
        self.countdown.step()?;
        self.written.extend_from_slice(buf)?;
        Ok(buf.len())
    }

    /// # Proved
    ///
    /// ```text
    /// ensures bytes { Keeps (Some self.old.written.items) (Some self.new.written.items) }
    /// ensures ok { IsOk result }
    /// ensures same { self.new ≡ self.old }
    /// ```
    fn flush(&mut self) -> Result<()> {
        Ok(())
    }
}

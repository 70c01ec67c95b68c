//! Streams that are careless of what a read or a write answers.

use std::fs::File;
use std::io::{self, Read, Write};
use std::os::fd::FromRawFd;

/// Standard output without what the standard library does for short writes.
pub fn raw_output() -> File {
    // SAFETY: descriptor 1 is open, and this program writes to it here alone.
    unsafe { File::from_raw_fd(1) }
}

/// Takes a failed read for the end.
pub struct FailureIsEnd<R>(pub R);

impl<R: Read> Read for FailureIsEnd<R> {
    fn read(&mut self, bytes: &mut [u8]) -> io::Result<usize> {
        Ok(self.0.read(bytes).unwrap_or(0))
    }
}

/// Gives nothing on before a block is full or the input ends.
pub struct WholeBlocks<R> {
    inner: R,
    block: Vec<u8>,
    given: usize,
}

impl<R> WholeBlocks<R> {
    pub fn of(inner: R) -> Self {
        Self {
            inner,
            block: Vec::new(),
            given: 0,
        }
    }
}

impl<R: Read> Read for WholeBlocks<R> {
    fn read(&mut self, bytes: &mut [u8]) -> io::Result<usize> {
        if self.given == self.block.len() {
            (self.block, self.given) = (Vec::new(), 0);
            let mut rest = self.inner.by_ref().take(1 << 16);
            rest.read_to_end(&mut self.block)?;
        }
        let count = (&self.block[self.given..]).read(bytes)?;
        self.given += count;
        Ok(count)
    }
}

/// Takes a write of some bytes for one of all.
pub struct WrittenOnce<W>(pub W);

impl<W: Write> Write for WrittenOnce<W> {
    fn write(&mut self, bytes: &[u8]) -> io::Result<usize> {
        self.0.write(bytes).map(|_| bytes.len())
    }

    fn flush(&mut self) -> io::Result<()> {
        self.0.flush()
    }
}

/// Takes a failed write for one of all.
pub struct FailureIsWritten<W>(pub W);

impl<W: Write> Write for FailureIsWritten<W> {
    fn write(&mut self, bytes: &[u8]) -> io::Result<usize> {
        let _ = self.0.write_all(bytes);
        Ok(bytes.len())
    }

    fn flush(&mut self) -> io::Result<()> {
        Ok(())
    }
}

/// Writes what it is given only when there is more, or at the end.
pub struct Late<W: Write> {
    inner: W,
    held: Vec<u8>,
}

impl<W: Write> Late<W> {
    pub fn of(inner: W) -> Self {
        let held = Vec::new();
        Self { inner, held }
    }
}

impl<W: Write> Write for Late<W> {
    fn write(&mut self, bytes: &[u8]) -> io::Result<usize> {
        self.inner.write_all(&self.held)?;
        self.held = bytes.to_vec();
        Ok(bytes.len())
    }

    fn flush(&mut self) -> io::Result<()> {
        self.inner.flush()
    }
}

impl<W: Write> Drop for Late<W> {
    fn drop(&mut self) {
        let _ = self.inner.write_all(&self.held);
    }
}

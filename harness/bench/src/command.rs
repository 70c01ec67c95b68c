//! Programs that work through a file.

use std::fs::File;
use std::io::{self, BufRead, BufReader};
use std::path::Path;
use std::process::{Child, ChildStdout, Command, Stdio};

/// Runs a program on a file, and throws its output away.
pub fn work_through(program: &Path, file: &Path) -> io::Result<()> {
    Command::new(program)
        .stdin(File::open(file)?)
        .stdout(Stdio::null())
        .status()?;
    Ok(())
}

/// Whether two programs print the same for a file, be it as long as it may, and end well.
pub fn has_same_output(program: &Path, other: &Path, file: &Path) -> io::Result<bool> {
    let ((mut child, one), (mut other_child, other)) = (start(program, file)?, start(other, file)?);
    let is_same = has_same_content(one, other)?;
    Ok(is_same && child.wait()?.success() && other_child.wait()?.success())
}

fn start(program: &Path, file: &Path) -> io::Result<(Child, ChildStdout)> {
    let mut child = Command::new(program)
        .stdin(File::open(file)?)
        .stdout(Stdio::piped())
        .spawn()?;
    let output = child.stdout.take().expect("standard output is piped");
    Ok((child, output))
}

/// Whether two streams, read to their ends, hold the same bytes.
fn has_same_content(one: impl io::Read, other: impl io::Read) -> io::Result<bool> {
    let (mut one, mut other) = (BufReader::new(one), BufReader::new(other));
    loop {
        let (left, right) = (one.fill_buf()?, other.fill_buf()?);
        let count = left.len().min(right.len());
        if left[..count] != right[..count] {
            return Ok(false);
        }
        if count == 0 {
            return Ok(left.is_empty() && right.is_empty());
        }
        one.consume(count);
        other.consume(count);
    }
}

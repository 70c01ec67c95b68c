//! A program under way, fed and read piece by piece.

use std::io::{self, BufRead, BufReader, Read, Write};
use std::os::unix::process::ExitStatusExt;
use std::process::{Child, ChildStdin, Command, Stdio};
use std::sync::mpsc::{self, Receiver, RecvTimeoutError};
use std::thread;
use std::time::Duration;

/// A running program; it is ended when the session is dropped.
pub struct Session {
    child: Child,
    input: Option<ChildStdin>,
    lines: Receiver<String>,
    errors: Receiver<String>,
    patience: Duration,
}

/// How a program ended.
#[derive(Clone, Debug, Default, PartialEq, Eq)]
pub struct Ended {
    /// What it wrote to standard error.
    pub errors: String,
    /// The signal that ended it, if it was one.
    pub signal: Option<i32>,
}

impl Session {
    /// Starts a program, of which a line that is due may take so long. What of its standard input and
    /// output is given is not the session's.
    pub fn start(
        mut command: Command,
        input: Option<Stdio>,
        output: Option<Stdio>,
        patience: Duration,
    ) -> Result<Self, String> {
        let mut child = command
            .stdin(input.unwrap_or_else(Stdio::piped))
            .stdout(output.unwrap_or_else(Stdio::piped))
            .stderr(Stdio::piped())
            .spawn()
            .map_err(|error| format!("{command:?}: {error}"))?;
        Ok(Self {
            input: child.stdin.take(),
            lines: lines(child.stdout.take()),
            errors: errors(child.stderr.take()),
            child,
            patience,
        })
    }

    /// Writes to its standard input; a program that has ended takes nothing.
    pub fn send(&mut self, bytes: &[u8]) -> Result<(), String> {
        let input = self.input.as_mut().expect("the input is open");
        match input.write_all(bytes) {
            Err(error) if error.kind() != io::ErrorKind::BrokenPipe => Err(error.to_string()),
            _ => Ok(()),
        }
    }

    /// Its standard input, to be written to elsewhere.
    pub fn take_input(&mut self) -> ChildStdin {
        self.input.take().expect("the input is open")
    }

    /// Ends its standard input.
    pub fn close(&mut self) {
        self.input = None;
    }

    /// Its next line with the line end, or nothing at the end of its output.
    pub fn line(&self) -> Result<Option<String>, String> {
        match self.lines.recv_timeout(self.patience) {
            Ok(line) => Ok(Some(line)),
            Err(RecvTimeoutError::Disconnected) => Ok(None),
            Err(RecvTimeoutError::Timeout) => Err("a line that is due does not come".into()),
        }
    }

    /// A line that is there too early, given a moment.
    pub fn early_line(&self) -> Option<String> {
        self.lines.recv_timeout(Duration::from_millis(20)).ok()
    }

    /// Waits for its end, which must be its own and with nothing on standard error.
    pub fn end(self) -> Result<(), String> {
        match self.ended()? {
            Ended { errors, signal } if errors.is_empty() && signal.is_none() => Ok(()),
            ended => Err(format!("{ended:?}")),
        }
    }

    /// Waits for its end.
    pub fn ended(mut self) -> Result<Ended, String> {
        let errors = self.errors.recv_timeout(self.patience);
        let errors = errors.map_err(|_| "the program does not end".to_owned())?;
        let status = self.child.wait().map_err(|error| error.to_string())?;
        Ok(Ended {
            errors,
            signal: status.signal(),
        })
    }
}

impl Drop for Session {
    fn drop(&mut self) {
        // Of a program that has ended this does nothing.
        let _ = self.child.kill();
        let _ = self.child.wait();
    }
}

/// The lines of an output, if there is one, each as soon as it is there.
fn lines(output: Option<impl Read + Send + 'static>) -> Receiver<String> {
    let (sender, lines) = mpsc::channel();
    let Some(output) = output else {
        return lines;
    };
    thread::spawn(move || {
        let mut output = BufReader::new(output);
        let mut line = Vec::new();
        while output.read_until(b'\n', &mut line).is_ok_and(|n| n > 0) {
            let text = String::from_utf8_lossy(&line).into_owned();
            line.clear();
            if sender.send(text).is_err() {
                break;
            }
        }
    });
    lines
}

/// All of standard error, when it ends.
fn errors(output: Option<impl Read + Send + 'static>) -> Receiver<String> {
    let (sender, errors) = mpsc::channel();
    let mut output = output.expect("standard error is piped");
    thread::spawn(move || {
        let mut bytes = Vec::new();
        let _ = output.read_to_end(&mut bytes);
        let _ = sender.send(String::from_utf8_lossy(&bytes).into_owned());
    });
    errors
}

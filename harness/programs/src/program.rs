//! A program that is compared.

use std::ffi::OsString;
use std::io::{self, Write};
use std::path::{Path, PathBuf};
use std::process::{ChildStdin, Command, Stdio};
use std::thread;
use std::time::Duration;

use pairs::Rng;

use crate::session::{Ended, Session};
use crate::Text;

/// A program with its arguments.
#[derive(Clone, Debug)]
pub struct Program {
    /// What it has to print of a pair.
    pub text: Text,
    path: PathBuf,
    arguments: Vec<OsString>,
    faults: Vec<(Fault, usize)>,
    /// How long a line that is due may take, on a busy machine.
    pub patience: Duration,
}

/// The sizes in which an input is delivered.
#[derive(Clone, Copy, Debug)]
pub enum Chunks {
    /// All at once.
    Whole,
    /// Always so many bytes, with short pauses.
    Of(usize),
    /// Random sizes of a seed, with short pauses.
    Random(u64),
}

/// What befalls a program's reads from standard input or its writes to standard output, with a
/// number of bytes.
#[derive(Clone, Copy, Debug, PartialEq, Eq)]
pub enum Fault {
    /// No call reads more.
    ReadMost,
    /// After so many, every call fails.
    ReadFailsAfter,
    /// No call writes more.
    WriteMost,
    /// After so many, every call fails.
    WriteFailsAfter,
}

impl Fault {
    /// The variable that `preload/faulty.rs` knows it by.
    fn variable(self) -> &'static str {
        match self {
            Self::ReadMost => "FAULTY_READ_MOST",
            Self::ReadFailsAfter => "FAULTY_READ_FAILS_AFTER",
            Self::WriteMost => "FAULTY_WRITE_MOST",
            Self::WriteFailsAfter => "FAULTY_WRITE_FAILS_AFTER",
        }
    }
}

impl Program {
    /// The program at a path that has to print such a text.
    pub fn at(text: Text, path: impl AsRef<Path>) -> Self {
        Self {
            text,
            path: path.as_ref().to_owned(),
            arguments: Vec::new(),
            faults: Vec::new(),
            patience: Duration::from_secs(20),
        }
    }

    /// A shell script, in which `$0` is the program.
    pub fn script(&self, script: &str) -> Self {
        Self {
            path: "/bin/sh".into(),
            arguments: vec!["-c".into(), script.into(), self.path.clone().into()],
            ..self.clone()
        }
    }

    /// The same with another argument.
    pub fn argument(&self, argument: &str) -> Self {
        let mut program = self.clone();
        program.arguments.push(argument.into());
        program
    }

    /// The same, started by a shell that ignores SIGPIPE: a write to a closed pipe then fails.
    pub(crate) fn ignoring_sigpipe(&self) -> Self {
        let script = r#"trap '' PIPE; exec "$0" "$@""#;
        let mut arguments = vec!["-c".into(), script.into(), self.path.clone().into()];
        arguments.extend(self.arguments.clone());
        Self {
            path: "/bin/sh".into(),
            arguments,
            ..self.clone()
        }
    }

    /// The same with a fault.
    pub(crate) fn fault(&self, fault: Fault, bytes: usize) -> Self {
        let mut program = self.clone();
        program.faults.push((fault, bytes));
        program
    }

    /// Starts it.
    pub(crate) fn start(&self) -> Result<Session, String> {
        self.start_on(None, None)
    }

    /// Starts it on a standard input and output that are given, or else piped.
    pub(crate) fn start_on(
        &self,
        input: Option<Stdio>,
        output: Option<Stdio>,
    ) -> Result<Session, String> {
        let mut command = Command::new(&self.path);
        command.args(&self.arguments);
        if !self.faults.is_empty() {
            command.env("LD_PRELOAD", env!("FAULTY_LIBRARY"));
        }
        for (fault, bytes) in &self.faults {
            command.env(fault.variable(), bytes.to_string());
        }
        Session::start(command, input, output, self.patience)
    }

    /// Its output for an input that is delivered in chunks; it must end well.
    pub fn output(&self, input: &[u8], chunks: Chunks) -> Result<String, String> {
        match self.run(input, chunks)? {
            (output, ended) if ended == Ended::default() => Ok(output),
            (_, ended) => Err(format!("{ended:?}")),
        }
    }

    /// Its output for an input that is delivered in chunks, and how it ended.
    pub(crate) fn run(&self, input: &[u8], chunks: Chunks) -> Result<(String, Ended), String> {
        let mut session = self.start()?;
        let stdin = session.take_input();
        thread::scope(|scope| {
            scope.spawn(move || deliver(stdin, input, chunks));
            let mut output = String::new();
            while let Some(line) = session.line()? {
                output += &line;
            }
            Ok((output, session.ended()?))
        })
    }
}

/// Writes the input in chunks; a program that has ended takes no more.
fn deliver(mut stdin: ChildStdin, input: &[u8], chunks: Chunks) -> io::Result<()> {
    let mut rng = Rng::new(match chunks {
        Chunks::Random(seed) => seed,
        _ => 0,
    });
    let mut rest = input;
    while !rest.is_empty() {
        let size = match chunks {
            Chunks::Whole => rest.len(),
            Chunks::Of(size) => size,
            Chunks::Random(_) => 1 + rng.below(2000),
        };
        let (chunk, after) = rest.split_at(size.min(rest.len()));
        stdin.write_all(chunk)?;
        rest = after;
        if !rest.is_empty() {
            thread::sleep(Duration::from_micros(20));
        }
    }
    Ok(())
}

/// The built program of this repository that prints such a text, or the one that FELMUGO_ROWDESK or
/// FELMUGO_FAULTS names.
pub fn built(text: Text) -> PathBuf {
    let repository = Path::new(env!("CARGO_MANIFEST_DIR"))
        .ancestors()
        .nth(2)
        .expect("this crate lies two folders down");
    let variable = match text {
        Text::Counts => "FELMUGO_ROWDESK",
        Text::Faults => "FELMUGO_FAULTS",
    };
    std::env::var_os(variable).map_or_else(
        || repository.join("target/bin").join(text.program()),
        PathBuf::from,
    )
}

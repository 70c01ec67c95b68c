//! Copies of the Rust, built and asked.

use std::io::Write;
use std::path::{Path, PathBuf};
use std::process::{Command, Output, Stdio};
use std::sync::atomic::{AtomicUsize, Ordering};
use std::thread;

use olavm::Reference;
use pairs::Rng;
use symbolic::Point;

use crate::outcome::{Checked, Outcome};
use crate::source::{Alteration, Source};

/// At how many points a copy is asked for its answers.
const POINTS: usize = 8;
/// The residues of a point.
const RESIDUES: usize = 219;

/// Where copies are built: one at a time for each processor.
pub struct Workshop<'a> {
    source: &'a Source,
    folder: PathBuf,
    workers: usize,
    /// The residues of the points, a line each.
    points: String,
    /// What the Rust answers at each point.
    due: Vec<Vec<u64>>,
    copies: AtomicUsize,
}

impl<'a> Workshop<'a> {
    /// A workshop in which the unaltered source is the Rust.
    pub fn new(rust: Reference, source: &'a Source) -> Result<Self, String> {
        let mut rng = Rng::new(1);
        let residues: Vec<u64> = (0..POINTS * RESIDUES).map(|_| rng.residue()).collect();
        let mut rest = residues.iter();
        let mut next = || *rest.next().expect("as many as it takes");
        let points = (0..POINTS).map(|_| Point::draw(&mut next));
        let workshop = Self {
            source,
            folder: harness().join("target/altered"),
            workers: thread::available_parallelism().map_or(1, usize::from),
            due: points.map(|point| point.answers(rust)).collect(),
            points: residues.iter().map(|n| format!("{n}\n")).collect(),
            copies: AtomicUsize::new(0),
        };
        match workshop.outcome(0, None)? {
            Outcome::AltersNothing => Ok(workshop),
            outcome => Err(format!("the unaltered source: {outcome}")),
        }
    }

    /// What becomes of each copy.
    pub fn outcomes(&self, alterations: &[Alteration]) -> Result<Vec<Outcome>, String> {
        let next = AtomicUsize::new(0);
        let work = |worker: usize| {
            let mut outcomes = Vec::new();
            loop {
                let i = next.fetch_add(1, Ordering::Relaxed);
                let Some(alteration) = alterations.get(i) else {
                    return Ok(outcomes);
                };
                outcomes.push((i, self.outcome(worker, Some(alteration))?));
            }
        };
        let all: Result<Vec<_>, String> = thread::scope(|scope| {
            let workers = (0..self.workers).map(|worker| scope.spawn(move || work(worker)));
            let workers: Vec<_> = workers.collect();
            let done = workers.into_iter().map(|worker| worker.join());
            done.map(|outcomes| outcomes.expect("no worker panics"))
                .collect()
        });
        let mut all: Vec<_> = all?.into_iter().flatten().collect();
        all.sort_by_key(|(i, _)| *i);
        Ok(all.into_iter().map(|(_, outcome)| outcome).collect())
    }

    /// Writes, builds and asks one copy.
    fn outcome(&self, worker: usize, alteration: Option<&Alteration>) -> Result<Outcome, String> {
        // A folder of its own, so that cargo cannot take one copy for another.
        let number = self.copies.fetch_add(1, Ordering::Relaxed);
        let copy = self.folder.join(format!("copy-{number}"));
        let target = self.folder.join(format!("worker-{worker}"));
        self.source.write(&copy, alteration)?;
        if !build(&copy, &target) {
            return Ok(Outcome::NotBuilt);
        }
        let program = target.join("altered/symbolic");
        let checked = ask(&program, &["check"], "")?;
        let answered = ask(&program, &["answers", &POINTS.to_string()], &self.points)?;
        let checked = Checked {
            is_same: checked.status.success(),
            text: String::from_utf8_lossy(&checked.stdout).into_owned(),
        };
        Ok(Outcome::of(
            &checked,
            answers(&answered).as_deref(),
            &self.due,
        ))
    }
}

fn harness() -> &'static Path {
    let manifest = Path::new(env!("CARGO_MANIFEST_DIR"));
    manifest.parent().expect("this crate lies in the harness")
}

/// Builds the program symbolic over a copy; whether that compiles.
fn build(copy: &Path, target: &Path) -> bool {
    let mut cargo = Command::new("cargo");
    cargo
        .args(["build", "--quiet", "--offline", "--locked"])
        .args(["--profile", "altered", "--package", "symbolic"])
        .arg("--target-dir")
        .arg(target)
        .current_dir(harness())
        .env("FELMUGO_RUST_SOURCE", copy);
    cargo.output().is_ok_and(|output| output.status.success())
}

fn ask(program: &Path, arguments: &[&str], input: &str) -> Result<Output, String> {
    let mut child = Command::new(program)
        .args(arguments)
        .stdin(Stdio::piped())
        .stdout(Stdio::piped())
        .stderr(Stdio::piped())
        .spawn()
        .map_err(|error| error.to_string())?;
    // A copy that panics leaves its input unread.
    let mut stdin = child.stdin.take().expect("it is piped");
    let _ = stdin.write_all(input.as_bytes());
    drop(stdin);
    child.wait_with_output().map_err(|error| error.to_string())
}

/// The answers at each point, a line each, or nothing where the copy panicked.
fn answers(answered: &Output) -> Option<Vec<Vec<u64>>> {
    let text = String::from_utf8_lossy(&answered.stdout);
    let numbers = |line: &str| -> Option<Vec<u64>> {
        let words = line.split_whitespace();
        words.map(|word| word.parse().ok()).collect()
    };
    let answers = text.lines().map(numbers).collect();
    answered.status.success().then_some(answers)?
}

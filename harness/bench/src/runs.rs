//! Times runs of 65,536 rows: the report, and the programs rowdesk and faults.

use std::fs;
use std::io;
use std::path::{Path, PathBuf};

use fields::Plonky2Style;
use olavm::Reference;
use pairs::columns::FILTER_SCCALL_END;
use pairs::{cells, Rng, Run, MAX_ROWS};
use programs::{built, input, Text};

use crate::clock::{self, Work};
use crate::command::{has_same_output, work_through};
use crate::table;

/// Rounds of this much work.
const ROUNDS: usize = 7;

/// Prints the time for a pair of a run's report, and for whole runs through the programs: a run that
/// keeps every rule, one with few values that are not 0, and one of random rows, with few that are.
pub fn report(rust: Reference) {
    let mut rng = Rng::new(0);
    let kept = Run::draw(&mut rng, MAX_ROWS);
    reports(rust, &kept);
    program("rowdesk, seconds", Text::Counts, &kept);
    let mut few = kept;
    for row in few.rows.iter_mut().step_by(1000) {
        row[FILTER_SCCALL_END] = 2;
    }
    program("faults, few, seconds", Text::Faults, &few);
    let mut all = few;
    for row in &mut all.rows {
        *row = cells::row(&mut rng, Rng::residue);
    }
    program("faults, all, seconds", Text::Faults, &all);
}

fn reports(rust: Reference, run: &Run) {
    let words = run.words();
    let by_rust = || compare::model::report::<Plonky2Style>(rust, run.pairs());
    let by_entry = || felmugo::flat::run_report(&words, &run.masks);
    assert_eq!(by_rust(), by_entry(), "the reports differ");
    let mut contestants: [Work; 2] = [
        Box::new(|| _ = std::hint::black_box(by_rust())),
        Box::new(|| _ = std::hint::black_box(by_entry())),
    ];
    let ns = clock::least(ROUNDS, &mut contestants);
    let [rust, ours] = [ns[0], ns[1]].map(|ns| ns / MAX_ROWS as f64);
    table::head(&format!("best of {ROUNDS}"));
    table::line("report, ns a pair", rust, ours);
}

/// Prints the times of a program in plain Rust and of ours on a run.
fn program(name: &str, text: Text, run: &Run) {
    match timed(text, run) {
        Ok([rust, ours]) => table::line(name, rust, ours),
        Err(error) => println!("{} is not timed: {error}", text.program()),
    }
}

/// The seconds that both programs take on the run's file.
fn timed(text: Text, run: &Run) -> io::Result<[f64; 2]> {
    let programs = [plain(text)?, built(text)];
    let [plain, ours] = &programs;
    if let Some(missing) = programs.iter().find(|path| !path.is_file()) {
        return Err(io::Error::other(format!(
            "{} is not built",
            missing.display()
        )));
    }
    let file = std::env::temp_dir().join(format!("felmugo-{}.run", std::process::id()));
    fs::write(&file, input::of_run(run))?;
    assert!(has_same_output(plain, ours, &file)?, "the outputs differ");
    let work = |path: &Path| work_through(path, &file).expect("the program runs");
    let mut contestants: [Work; 2] = [Box::new(|| work(plain)), Box::new(|| work(ours))];
    let ns = clock::least(ROUNDS, &mut contestants);
    drop(contestants);
    fs::remove_file(&file)?;
    Ok([ns[0] / 1e9, ns[1] / 1e9])
}

/// The program in plain Rust, which is built beside this one.
fn plain(text: Text) -> io::Result<PathBuf> {
    let name = format!("plain_{}", text.program());
    Ok(std::env::current_exe()?.with_file_name(name))
}

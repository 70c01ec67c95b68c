//! Inputs that are compared: fixed ones, and random ones of a seed.

use fields::P;
use olavm::{Row, COLUMNS, MASKS};
use pairs::columns::FILTER_SCCALL_END;
use pairs::{cells, masks, Rng, Run};

use crate::input::{bytes, of_run, MASK_BYTES, ROW_BYTES};
use crate::{chosen, Text};

/// An input and what it is.
#[derive(Clone, Debug)]
pub struct Case {
    /// What is special about the input.
    pub name: String,
    /// The bytes on standard input.
    pub input: Vec<u8>,
}

impl Case {
    pub(crate) fn new(name: impl Into<String>, input: Vec<u8>) -> Self {
        let name = name.into();
        Self { name, input }
    }
}

/// The small inputs of every sort, for the program that prints such a text.
pub fn fixed(text: Text) -> Vec<Case> {
    sorts(text).concat()
}

/// One small input of each sort.
pub fn one_of_each_sort(text: Text) -> Vec<Case> {
    let last = |mut cases: Vec<Case>| cases.pop().expect("a sort has a case");
    sorts(text).into_iter().map(last).collect()
}

fn sorts(text: Text) -> Vec<Vec<Case>> {
    let mut sorts = vec![
        few_masks(),
        bad_masks(),
        few_rows(),
        bad_rows(),
        whole_runs(),
    ];
    if text == Text::Faults {
        sorts.extend([lines_before_refusals(), chosen::fixed()]);
    }
    sorts
}

/// A damaged run of which every other pair, from the first on, has a value that is not 0.
pub fn broken(rng: &mut Rng, rows: usize) -> Run {
    let mut run = Run::draw(rng, rows);
    run.damage(rng);
    for row in run.rows.iter_mut().step_by(2) {
        // Value 223 is made of this column alone.
        row[FILTER_SCCALL_END] = 2;
    }
    run
}

/// A random input of 1 to `rows` rows: kept or damaged, and some with a fault in reading.
pub fn random(seed: u64, rows: usize) -> Case {
    let mut rng = Rng::new(seed);
    let length = 1 + rng.below(rows);
    let mut run = Run::draw(&mut rng, length);
    let mut name = format!("seed {seed}, {length} rows");
    if rng.flip() {
        name += ", damaged";
        run.damage(&mut rng);
    }
    if rng.one_in(6) {
        name += ", a value not below p";
        let (row, column) = (rng.below(length), rng.below(COLUMNS));
        run.rows[row][column] = P + rng.below(1 << 31) as u64;
    }
    let mut input = of_run(&run);
    if rng.one_in(6) {
        name += ", cut";
        input.truncate(rng.below(input.len()));
    }
    Case::new(name, input)
}

/// A run of zero rows under the masks 2^0 to 2^24.
pub(crate) fn zero_run(rows: usize) -> Run {
    Run {
        masks: masks::plain(),
        rows: vec![[0; COLUMNS]; rows],
    }
}

fn few_masks() -> Vec<Case> {
    let whole = of_run(&zero_run(1));
    [0, 1, 8, MASK_BYTES - 8, MASK_BYTES - 1]
        .map(|count| Case::new(format!("{count} bytes"), whole[..count].to_vec()))
        .into_iter()
        .chain([Case::new("24 masks that are bad", bytes(&[P; MASKS - 1]))])
        .collect()
}

fn bad_masks() -> Vec<Case> {
    let with = |name: &str, place: usize, mask: u64, rows: usize| {
        let mut run = zero_run(rows);
        run.masks[place] = mask;
        Case::new(format!("mask {place} {name}"), of_run(&run))
    };
    let mut partial = with("is p, and a partial row", 1, P, 1);
    partial.input.pop();
    let mut cases = vec![partial];
    for place in [0, 4, 12, MASKS - 1] {
        cases.push(with("is p", place, P, 1));
        cases.push(with("is p - 1", place, P - 1, 1));
        cases.push(with("is 2^64 - 1, and no row", place, u64::MAX, 0));
    }
    for (place, other) in [(0, 1), (0, 4), (3, 4), (2, 1), (4, 5), (24, 0), (24, 23)] {
        cases.push(with(&format!("is mask {other}"), place, 1 << other, 1));
    }
    cases
}

fn few_rows() -> Vec<Case> {
    let mut cases = vec![Case::new("no row", of_run(&zero_run(0)))];
    let run = Run::draw(&mut Rng::new(7), 4);
    for rows in 0..3 {
        for part in [1, 7, 8, 376, ROW_BYTES - 1] {
            let count = MASK_BYTES + rows * ROW_BYTES + part;
            let name = format!("{rows} rows and {part} bytes");
            cases.push(Case::new(name, of_run(&run)[..count].to_vec()));
        }
    }
    cases
}

fn bad_rows() -> Vec<Case> {
    let with = |name: &str, row: usize, column: usize, value: u64| {
        let mut run = Run::draw(&mut Rng::new(8), 4);
        run.rows[row][column] = value;
        Case::new(format!("row {row} column {column} {name}"), of_run(&run))
    };
    let mut cases = Vec::new();
    for row in 0..4 {
        for column in [0, 50, COLUMNS - 1] {
            cases.push(with("is p", row, column, P));
            cases.push(with("is p - 1", row, column, P - 1));
        }
        cases.push(with("is 2^64 - 1", row, 1, u64::MAX));
        let mut cut = with("is p, and the last row partial", row, 2, P);
        cut.input.truncate(MASK_BYTES + 4 * ROW_BYTES - 8);
        cases.push(cut);
    }
    cases
}

/// Runs of which the first pairs have values that are not 0, refused at each row after them.
fn lines_before_refusals() -> Vec<Case> {
    let run = broken(&mut Rng::new(10), 4);
    let mut cases = Vec::new();
    for row in 1..4 {
        let mut bad = run.clone();
        bad.rows[row][COLUMNS - 1] = P;
        cases.push(Case::new(format!("bad row {row}"), of_run(&bad)));
        let mut part = of_run(&run);
        part.truncate(MASK_BYTES + row * ROW_BYTES + 1);
        cases.push(Case::new(format!("{row} rows and a byte"), part));
    }
    cases
}

fn whole_runs() -> Vec<Case> {
    let mut rng = Rng::new(9);
    let mut cases = Vec::new();
    for rows in 1..=3 {
        cases.push(Case::new(
            format!("{rows} zero rows"),
            of_run(&zero_run(rows)),
        ));
    }
    let sorts: [fn(&mut Rng) -> u64; 3] = [Rng::residue, cells::limit, cells::any];
    for (name, sort) in std::iter::zip(["random", "limits", "mixed"], sorts) {
        let rows: Vec<Row> = (0..5).map(|_| cells::row(&mut rng, sort)).collect();
        let masks = masks::any(&mut rng);
        cases.push(Case::new(
            format!("{name} rows"),
            of_run(&Run { masks, rows }),
        ));
    }
    for rows in [1, 2, 3, 8, 12] {
        let mut run = Run::draw(&mut rng, rows);
        cases.push(Case::new(format!("{rows} kept rows"), of_run(&run)));
        run.damage(&mut rng);
        cases.push(Case::new(format!("{rows} damaged rows"), of_run(&run)));
    }
    cases
}

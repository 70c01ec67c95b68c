//! docs/ROWS.md beside the listed Rust: the numbers of the values, their groups, their weights and
//! the columns that they read.

mod names;
mod page;

use std::collections::BTreeSet;

use names::Names;
use olavm::{Pair, Reference, COLUMNS, MASKS, VALUES};
use page::Line;
use pairs::{cells, masks, Rng};

/// Document 01's "Value numbers".
const GROUPS: [(char, usize, usize); 14] = [
    ('A', 1, 7),
    ('B', 8, 38),
    ('C', 39, 50),
    ('D', 51, 75),
    ('E', 76, 82),
    ('F', 83, 105),
    ('G', 106, 108),
    ('H', 109, 144),
    ('I', 145, 146),
    ('J', 147, 149),
    ('K', 150, 159),
    ('L', 160, 163),
    ('M', 164, 184),
    ('N', 185, 226),
];

/// What a value depends on.
#[derive(Clone, Debug, Default, PartialEq, Eq)]
struct Reads {
    /// Columns of the current row, and of the next.
    current: BTreeSet<usize>,
    next: BTreeSet<usize>,
    masks: bool,
    z_last: bool,
    lagrange_basis_first: bool,
}

/// The word that stands among the columns where a value depends on the masks.
const MASKS_WORD: &str = "masks";

impl Reads {
    /// What the page says of the `i`-th value of a line.
    fn told(line: &Line, i: usize, names: &Names) -> Self {
        let columns = |is_next: bool| {
            let cells = line.reads.iter().filter(|cell| *cell != MASKS_WORD);
            cells
                .filter(|cell| cell.ends_with('\'') == is_next)
                .flat_map(|cell| names.columns(cell.trim_end_matches('\''), i))
                .collect()
        };
        Self {
            current: columns(false),
            next: columns(true),
            masks: line.reads.iter().any(|cell| cell == MASKS_WORD),
            z_last: line.holds == "all but last",
            lagrange_basis_first: line.holds == "first",
        }
    }
}

/// What each value depends on: the values that change with a cell, in a pair of random residues.
fn found(rust: Reference) -> Vec<Reads> {
    let mut rng = Rng::new(0);
    let mut found = vec![Reads::default(); VALUES];
    for _ in 0..3 {
        let pair = Pair {
            masks: masks::random(&mut rng),
            lv: cells::row(&mut rng, Rng::residue),
            nv: cells::row(&mut rng, Rng::residue),
            z_last: rng.residue(),
            lagrange_basis_first: rng.residue(),
        };
        let values = rust.values(&pair);
        let mut alter = |set: &dyn Fn(&mut Pair, u64), note: &dyn Fn(&mut Reads)| {
            let mut altered = pair;
            set(&mut altered, rng.residue());
            let altered = rust.values(&altered);
            for i in (0..VALUES).filter(|i| altered[*i] != values[*i]) {
                note(&mut found[i]);
            }
        };
        for c in 0..COLUMNS {
            alter(&|p, n| p.lv[c] = n, &|r| _ = r.current.insert(c));
            alter(&|p, n| p.nv[c] = n, &|r| _ = r.next.insert(c));
        }
        for i in 0..MASKS {
            alter(&|p, n| p.masks[i] = n, &|r| r.masks = true);
        }
        alter(&|p, n| p.z_last = n, &|r| r.z_last = true);
        alter(&|p, n| p.lagrange_basis_first = n, &|r| {
            r.lagrange_basis_first = true
        });
    }
    found
}

#[test]
fn every_value_has_one_line_in_its_group() {
    let mut numbers = Vec::new();
    for line in page::values() {
        for number in line.numbers {
            let (group, ..) = GROUPS.into_iter().find(|g| number <= g.2).expect("a group");
            assert_eq!(line.group, group.to_string(), "value {number}");
            numbers.push(number);
        }
    }
    numbers.sort_unstable();
    assert_eq!(numbers, Vec::from_iter(1..=VALUES));
    assert!(GROUPS.windows(2).all(|pair| pair[0].2 + 1 == pair[1].1));
}

#[test]
fn every_value_reads_the_columns_of_its_line() {
    let Some(rust) = Reference::find() else {
        return;
    };
    let (names, found) = (Names::read(), found(rust));
    for line in page::values() {
        assert!(["all", "all but last", "first"].contains(&line.holds.as_str()));
        for (i, number) in line.numbers.iter().enumerate() {
            let told = Reads::told(&line, i, &names);
            assert_eq!(found[number - 1], told, "value {number}");
        }
    }
}

#[test]
fn every_column_has_its_name() {
    let names = Names::read();
    let mut listed = Vec::new();
    for (numbers, name) in page::columns() {
        let base = name.split('[').next().expect("a name");
        let all = match name.contains('[') {
            true => names.columns(&format!("{base}[*]"), 0),
            false => names.columns(base, 0),
        };
        assert_eq!(numbers, all, "{name}");
        listed.extend(numbers);
    }
    listed.sort_unstable();
    assert_eq!(listed, Vec::from_iter(0..COLUMNS));
}

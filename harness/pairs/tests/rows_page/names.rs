//! The names of the columns, as crates/table/specs/Columns.antt has them.

use std::collections::BTreeMap;

/// The first column of each name, and how many there are.
pub struct Names(BTreeMap<String, (usize, usize)>);

impl Names {
    /// Reads the definitions `COL-NAME = NUMBER`; `START` and `END` of a name make a range.
    pub fn read() -> Self {
        let path = concat!(
            env!("CARGO_MANIFEST_DIR"),
            "/../../crates/table/specs/Columns.antt"
        );
        let text = std::fs::read_to_string(path).expect("the definitions are there");
        let numbers: BTreeMap<String, usize> = text.lines().filter_map(definition).collect();
        let mut names = BTreeMap::new();
        for (name, start) in &numbers {
            names.insert(name.clone(), (*start, 1));
            let Some(base) = name.strip_suffix("_START") else {
                continue;
            };
            let end = numbers[&format!("{base}_END")];
            let base = base.trim_end_matches("_RANGE").to_owned();
            names.insert(base, (*start, end - start));
        }
        let selectors = (
            numbers["S_SIMPLE_ARITHMATIC_OP"],
            numbers["NUM_OP_SELECTOR"],
        );
        names.insert("SELECTORS".into(), selectors);
        Self(names)
    }

    /// The columns of `NAME`, `NAME[*]`, `NAME[i]`, `NAME[4 + i]` or `NAME[4]`.
    pub fn columns(&self, cell: &str, i: usize) -> Vec<usize> {
        let (name, place) = match cell.trim_end_matches(']').split_once('[') {
            Some((name, place)) => (name, Some(place)),
            None => (cell, None),
        };
        let (start, count) = *self.0.get(name).unwrap_or_else(|| panic!("no {name}"));
        let Some(place) = place else {
            assert_eq!(count, 1, "{name} is a range");
            return vec![start];
        };
        if place == "*" {
            return (start..start + count).collect();
        }
        let term = |term: &str| match term {
            "i" => i,
            number => number.parse().expect("a number"),
        };
        let place: usize = place.split(" + ").map(term).sum();
        assert!(place < count, "{cell}");
        vec![start + place]
    }
}

/// The name without `COL-`, with _ for -, and the number of a line `NAME = NUMBER`.
fn definition(line: &str) -> Option<(String, usize)> {
    let (name, number) = line.split_once(" = ")?;
    let name = name.trim_start_matches("COL-").replace('-', "_");
    Some((name, number.parse().ok()?))
}

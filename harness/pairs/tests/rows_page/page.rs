//! The tables of docs/ROWS.md.

/// A line of the table of values.
pub struct Line {
    pub numbers: Vec<usize>,
    pub group: String,
    pub holds: String,
    pub reads: Vec<String>,
}

/// The lines of the table of values.
pub fn values() -> Vec<Line> {
    rows("## The values")
        .into_iter()
        .map(|cells| Line {
            numbers: numbers(&cells[0]),
            group: cells[1].clone(),
            holds: cells[2].clone(),
            reads: cells[4].split(", ").map(str::to_owned).collect(),
        })
        .collect()
}

/// The table of columns: their numbers, and the name.
pub fn columns() -> Vec<(Vec<usize>, String)> {
    let rows = rows("## The columns").into_iter();
    rows.flat_map(|cells| {
        [
            (cells[0].clone(), cells[1].clone()),
            (cells[2].clone(), cells[3].clone()),
        ]
    })
    .map(|(column, name)| (numbers(&column), name))
    .collect()
}

/// The cells of the rows that begin with a number, of a section's table.
fn rows(section: &str) -> Vec<Vec<String>> {
    let path = concat!(env!("CARGO_MANIFEST_DIR"), "/../../docs/ROWS.md");
    let page = std::fs::read_to_string(path).expect("docs/ROWS.md is there");
    let (_, rest) = page.split_once(section).expect("the section is there");
    let section = rest.split("\n## ").next().expect("a text has a first part");
    let rows = section.lines().filter_map(|line| line.strip_prefix("| "));
    rows.filter(|row| row.starts_with(|c: char| c.is_ascii_digit()))
        .map(|row| {
            let cells = row.trim_end_matches('|').split('|');
            cells.map(|cell| cell.trim().to_owned()).collect()
        })
        .collect()
}

/// The numbers of `7`, `13–22` or `41, 43`.
fn numbers(cell: &str) -> Vec<usize> {
    let number = |text: &str| text.parse().expect("a number");
    match cell.split_once('–') {
        Some((from, to)) => (number(from)..=number(to)).collect(),
        None => cell.split(", ").map(number).collect(),
    }
}

//! Whether the page names every public function, and what of it is wrong.

use std::collections::BTreeSet;

use crate::crates::Library;
use crate::page::{Page, Row, HEADING};
use crate::source::Function;

/// What is wrong with the page, with the line that would be right; nothing where all is well.
pub fn wrong(page: &Page, libraries: &[Library]) -> Vec<String> {
    let mut found = Vec::new();
    for row in &page.rows {
        if !libraries.iter().any(|library| library.name == row.name) {
            found.push(format!(
                "no library crate is `{}`: take its row away",
                row.name
            ));
        }
    }
    for library in libraries {
        let rows = rows(page, library);
        let mut faults = faults(page, library, &rows);
        if rows.len() > 1 {
            faults.push(format!("it has {} rows, not one", rows.len()));
        }
        if !faults.is_empty() {
            let line = match row(page, library) {
                Some(line) => format!("its row under \"{HEADING}\" has to be\n    {line}"),
                None => format!("it has no row under \"{HEADING}\""),
            };
            let faults = faults.join("\n  ");
            found.push(format!("crate `{}`:\n  {faults}\n  {line}", library.name));
        }
    }
    found
}

/// A crate's row as it has to be: what the page has as entries stays one where it is a function
/// that asks nothing, and the rest is core. A crate without public functions has none.
pub fn row(page: &Page, library: &Library) -> Option<String> {
    let rows = rows(page, library);
    let is_entry = |f: &Function| !f.asks && rows.iter().any(|row| row.entries.contains(&f.name));
    let list = |is_in: &dyn Fn(&Function) -> bool| {
        let names = library.functions.iter().filter(|f| is_in(f));
        let names: Vec<String> = names.map(|f| format!("`{}`", f.name)).collect();
        match names.is_empty() {
            true => " ".to_owned(),
            false => format!(" {} ", names.join(", ")),
        }
    };
    let entries = list(&is_entry);
    let free = list(&|f| !f.asks && !is_entry(f));
    let asking = list(&|f| f.asks);
    let row = format!("| `{}` |{entries}|{free}|{asking}|", library.name);
    (!library.functions.is_empty()).then_some(row)
}

fn rows<'a>(page: &'a Page, library: &Library) -> Vec<&'a Row> {
    let rows = page.rows.iter();
    rows.filter(|row| row.name == library.name).collect()
}

/// What is wrong with a crate's rows.
fn faults(page: &Page, library: &Library, rows: &[&Row]) -> Vec<String> {
    let mut faults = Vec::new();
    let mut seen = BTreeSet::new();
    let columns = rows.iter().flat_map(|row| {
        let entries = row.entries.iter().map(|name| (name, Column::Entry));
        let free = row.free.iter().map(|name| (name, Column::Free));
        let asking = row.asking.iter().map(|name| (name, Column::Asking));
        entries.chain(free).chain(asking)
    });
    for (name, column) in columns {
        let function = library.functions.iter().find(|f| f.name == *name);
        match (function.map(|f| f.asks), column) {
            (None, _) => faults.push(format!("it has no public function `{name}`")),
            (Some(true), Column::Entry) => {
                faults.push(format!("the entry `{name}` has a `requires`"));
            }
            (Some(true), Column::Free) => faults.push(format!("`{name}` has a `requires`")),
            (Some(false), Column::Asking) => faults.push(format!("`{name}` has no `requires`")),
            (Some(false), Column::Entry) if !page.describes(&library.name, name) => {
                faults.push(format!(
                    "no section whose heading has crates/{}/ describes the entry `{name}`",
                    library.name
                ));
            }
            _ => {}
        }
        if !seen.insert(name) {
            faults.push(format!("`{name}` is listed twice"));
        }
    }
    for function in library.functions.iter().filter(|f| !seen.contains(&f.name)) {
        faults.push(format!(
            "`{}` is named neither as an entry nor as core; below it stands as core (an entry needs \
             a section too)",
            function.name
        ));
    }
    faults
}

#[derive(Clone, Copy)]
enum Column {
    Entry,
    Free,
    Asking,
}

//! docs/CONTRACTS.md: its table of the public functions, and the sections that describe the entries.

use std::collections::BTreeSet;

/// The heading of the table.
pub const HEADING: &str = "## Public surface";

/// The page.
#[derive(Clone, Debug, Default)]
pub struct Page {
    /// The table's rows.
    pub rows: Vec<Row>,
    /// The sections: the heading, and the words within code marks.
    sections: Vec<(String, BTreeSet<String>)>,
}

/// A crate's row: the names that stand in each column.
#[derive(Clone, Debug, Default, PartialEq, Eq)]
pub struct Row {
    /// The crate.
    pub name: String,
    /// The functions that callers are meant to call.
    pub entries: Vec<String>,
    /// The core functions without `requires`.
    pub free: Vec<String>,
    /// The core functions with `requires`.
    pub asking: Vec<String>,
}

impl Page {
    /// Reads the page's text.
    pub fn read(text: &str) -> Result<Self, String> {
        let mut page = Self::default();
        for section in text.split("\n## ").skip(1) {
            let (heading, body) = section.split_once('\n').unwrap_or((section, ""));
            if HEADING.ends_with(heading) {
                let is_row = |line: &&str| line.starts_with('|');
                let rows = body.lines().filter(is_row).filter(|line| !is_head(line));
                page.rows = rows.map(row).collect::<Result<_, _>>()?;
            } else {
                page.sections.push((heading.into(), words(body)));
            }
        }
        Ok(page)
    }

    /// Whether a section whose heading names the crate's folder names the function too.
    pub fn describes(&self, crate_name: &str, function: &str) -> bool {
        let folder = format!("crates/{crate_name}/");
        let name = function.rsplit("::").next().unwrap_or(function);
        let is_of_crate = |heading: &str| heading.contains(&folder);
        let mut sections = self.sections.iter();
        sections.any(|(heading, words)| is_of_crate(heading) && words.contains(name))
    }
}

/// Whether a line of a table is its head, or the line below it.
fn is_head(line: &str) -> bool {
    line.starts_with("| Crate |") || line.starts_with("|-")
}

/// A line `| crate | entries | core | core |`, in which a cell is a list of code marks.
fn row(line: &str) -> Result<Row, String> {
    let cells: Vec<&str> = line.trim().split('|').map(str::trim).collect();
    let ["", name, entries, free, asking, ""] = cells[..] else {
        return Err(format!("not four cells: {line}"));
    };
    let list = |cell| list(cell).ok_or_else(|| format!("not a list of `name`, `name`: {line}"));
    Ok(Row {
        name: name.trim_matches('`').into(),
        entries: list(entries)?,
        free: list(free)?,
        asking: list(asking)?,
    })
}

fn list(cell: &str) -> Option<Vec<String>> {
    if cell.is_empty() {
        return Some(Vec::new());
    }
    // `<Type as Trait>::name` alone has spaces.
    let is_name = |name: &&str| {
        !name.is_empty() && !name.contains('`') && (name.starts_with('<') || !name.contains(' '))
    };
    let bare = |mark: &str| {
        let name = mark.strip_prefix('`')?.strip_suffix('`');
        name.filter(is_name).map(str::to_owned)
    };
    cell.split(", ").map(bare).collect()
}

/// The words within a text's code marks.
fn words(text: &str) -> BTreeSet<String> {
    let codes = text.split('`').skip(1).step_by(2);
    let words = codes.flat_map(|code| code.split(|c: char| !(c.is_alphanumeric() || c == '_')));
    words.map(str::to_owned).collect()
}

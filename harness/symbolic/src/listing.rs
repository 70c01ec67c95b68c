//! The file `crates/table_program/specs/Listing.antt`.

use crate::program::Program;

const HEAD: &str = "\
-- The table's program: constants and words, made of the Rust's expressions by `harness/run listing` (do not edit).
use Rattle.std.specs.Prelude.{List, [], ◌∷◌, ℕ}
";
/// The longest line of a list.
const WIDTH: usize = 120;

/// The text of a program's file.
pub fn write(program: &Program) -> String {
    let [constants, code] = [("constants", &program.constants), ("code", &program.words)]
        .map(|(name, numbers)| list(name, numbers));
    format!("{HEAD}\n{constants}\n{code}")
}

/// The lines before a list's numbers.
fn declaration(name: &str) -> String {
    format!("unfoldable pub {name} : List ℕ\n{name} =\n")
}

fn list(name: &str, numbers: &[u64]) -> String {
    let mut text = declaration(name);
    let mut line = String::from("   ");
    for number in numbers {
        let element = format!(" {number} ∷");
        if line.chars().count() + element.chars().count() > WIDTH {
            text += &line;
            text += "\n";
            line = String::from("   ");
        }
        line += &element;
    }
    text + &line + " []\n"
}

/// The program of a file's text.
pub fn read(text: &str) -> Result<Program, String> {
    Ok(Program {
        constants: numbers(text, "constants")?,
        words: numbers(text, "code")?,
    })
}

fn numbers(text: &str, name: &str) -> Result<Vec<u64>, String> {
    let declaration = format!("\n{}", declaration(name));
    let [_, rest] = text.split(&declaration).collect::<Vec<_>>()[..] else {
        return Err(format!("{name} does not stand once"));
    };
    let (list, _) = rest
        .split_once(" ∷ []\n")
        .ok_or(format!("{name} has no end"))?;
    let number = |word: &str| {
        let number = word.trim().parse();
        number.map_err(|_| format!("in {name}: no number: {word}"))
    };
    list.split('∷').map(number).collect()
}

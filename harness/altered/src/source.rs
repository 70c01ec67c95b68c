//! The listed files, and what can be altered in them.

use std::fs;
use std::ops::Range;
use std::path::Path;

use crate::places::Place;

/// The listed files that are evaluated: the module, where the part that is evaluated begins, and
/// where it ends.
const PARTS: [(&str, &str, &str); 6] = [
    (
        "cpu--columns",
        "pub(crate) const COL_TX_IDX",
        "pub(crate) const NUM_CPU_COLS",
    ),
    (
        "cpu--cpu_stark",
        "impl<F: RichField, const D: usize> CpuStark<F, D> {",
        "    fn eval_ext_circuit(",
    ),
    (
        "cpu--simple_arithmatic_op",
        "pub(crate) fn eval_packed_generic",
        "",
    ),
    ("cpu--tape", "pub(crate) fn eval_packed_generic", ""),
    ("cpu--call_sc", "pub(crate) fn eval_packed_generic", ""),
    (
        "stark--constraint_consumer",
        "impl<P: PackedField> ConstraintConsumer<P> {",
        "pub struct RecursiveConstraintConsumer",
    ),
];
/// The listed file that has nothing to evaluate.
const UNALTERED: &str = "stark--vars";

/// The listed files.
pub struct Source {
    /// The texts of the parts' files.
    texts: Vec<String>,
    unaltered: String,
}

/// Something else in the place of what stands in a file.
pub struct Alteration<'a> {
    /// The place.
    pub place: &'a Place,
    /// What is put there.
    pub new: &'a str,
}

impl Source {
    /// The files of a folder.
    pub fn read(folder: &Path) -> Result<Self, String> {
        let read = |module: &str| {
            fs::read_to_string(folder.join(name(module))).map_err(|e| format!("{module}: {e}"))
        };
        let texts = PARTS.iter().map(|(module, ..)| read(module));
        Ok(Self {
            texts: texts.collect::<Result<_, _>>()?,
            unaltered: read(UNALTERED)?,
        })
    }

    /// Writes the files to a folder, altered or not.
    pub fn write(&self, folder: &Path, alteration: Option<&Alteration>) -> Result<(), String> {
        fs::create_dir_all(folder).map_err(|e| e.to_string())?;
        let write = |module: &str, text: &str| {
            fs::write(folder.join(name(module)), text).map_err(|e| format!("{module}: {e}"))
        };
        write(UNALTERED, &self.unaltered)?;
        for (file, ((module, ..), text)) in PARTS.iter().zip(&self.texts).enumerate() {
            let mut text = text.clone();
            if let Some(Alteration { place, new }) = alteration {
                if place.file == file {
                    text.replace_range(place.range.clone(), new);
                }
            }
            write(module, &text)?;
        }
        Ok(())
    }

    /// The files' texts, each with the range of its part.
    pub fn parts(&self) -> impl Iterator<Item = (&str, Range<usize>)> {
        PARTS
            .iter()
            .zip(&self.texts)
            .map(|((_, begin, end), text)| {
                let start = text.find(begin).expect("a part begins");
                let length = match end {
                    &"" => text.len() - start,
                    end => text[start..].find(end).expect("a part ends"),
                };
                (text.as_str(), start..start + length)
            })
    }

    /// The names of the columns, and those of the ranges of columns.
    pub fn columns(&self) -> [Vec<String>; 2] {
        let names = |of_ranges: bool| {
            let definitions = self.texts[0].lines().filter_map(|line| {
                let definition = line.strip_prefix("pub(crate) const ")?;
                definition.split_once(": ")
            });
            let named = definitions.filter(|(_, rest)| rest.starts_with("Range") == of_ranges);
            named.map(|(name, _)| name.to_owned()).collect()
        };
        [false, true].map(names)
    }

    /// An alteration in a line: its class, where it is and what it exchanges for what.
    pub fn told(&self, Alteration { place, new }: &Alteration) -> String {
        let (module, text) = (PARTS[place.file].0, &self.texts[place.file]);
        let line = text[..place.range.start].matches('\n').count() + 1;
        let old = &text[place.range.clone()];
        match old.contains('\n') {
            true => format!("{}, {module}:{line}: two statements exchanged", place.class),
            false => format!("{}, {module}:{line}: {old} -> {new}", place.class),
        }
    }
}

fn name(module: &str) -> String {
    format!("src--circuits--src--{module}.rs.txt")
}

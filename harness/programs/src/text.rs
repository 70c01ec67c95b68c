//! What a program prints of a pair, which is all that the programs differ in.

use fields::signed;
use olavm::Values;

/// The text of a pair.
#[derive(Clone, Copy, Debug, PartialEq, Eq)]
pub enum Text {
    /// rowdesk's: one line with the pair's index, the count of its nonzero values and the lowest of
    /// their numbers or 0.
    Counts,
    /// That of faults: for each nonzero value, numbers rising, a line with the pair's index, the
    /// value's number and the value as a signed number.
    Faults,
}

impl Text {
    /// Both.
    pub const ALL: [Self; 2] = [Self::Counts, Self::Faults];

    /// The text that the program of this name prints.
    pub fn printed_by(program: &str) -> Option<Self> {
        Self::ALL.into_iter().find(|text| text.program() == program)
    }

    /// The name of the program that prints it.
    pub fn program(self) -> &'static str {
        match self {
            Self::Counts => "rowdesk",
            Self::Faults => "faults",
        }
    }

    /// The text of the pair with this index and these values.
    pub fn of_pair(self, index: usize, values: &Values) -> String {
        match self {
            Self::Counts => counts(index, values),
            Self::Faults => faults(index, values),
        }
    }
}

fn counts(index: usize, values: &Values) -> String {
    let count = values.iter().filter(|v| **v != 0).count();
    let lowest = values.iter().position(|v| *v != 0).map_or(0, |i| i + 1);
    format!("{index} {count} {lowest}\n")
}

fn faults(index: usize, values: &Values) -> String {
    let numbered = (1..).zip(values);
    let nonzero = numbered.filter(|(_, value)| **value != 0);
    nonzero
        .map(|(number, value)| format!("{index} {number} {}\n", signed(*value)))
        .collect()
}

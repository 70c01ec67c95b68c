//! Why a call is turned back.

use std::error::Error;
use std::fmt;

/// The reason for which a call is turned back, as documents 01 and 02 number them.
///
/// Where several apply, the lowest number is answered, and what was lent to the call is as it was.
#[derive(Clone, Copy, Debug, PartialEq, Eq, PartialOrd, Ord, Hash)]
#[repr(u64)]
pub enum Refusal {
    /// 1: a row not 94 values; a run not 1 to 65,536 whole rows.
    RowLength = 1,
    /// 2: masks not 25 values.
    MaskCount = 2,
    /// 3: a value buffer under 226 values.
    ValueBuffer = 3,
    /// 4: alphas not 1 to 8, or accumulators differ in count.
    AlphaCount = 4,
    /// 5: a mask not below p, or two of the first five equal.
    MaskContents = 5,
    /// 6: a value of a row not below p.
    RowContents = 6,
    /// 7: a weight, an alpha, an accumulator, a lone operand or a folded value not below p; a
    /// signed number outside the range.
    NotBelowP = 7,
    /// 8: the judge's flags not plain.
    FlagsNotPlain = 8,
    /// 9: a consumer's fold that would pass a count of 4,294,967,295.
    FoldCount = 9,
}

impl Refusal {
    /// Every refusal, in the order of the numbers.
    pub const ALL: [Self; 9] = [
        Self::RowLength,
        Self::MaskCount,
        Self::ValueBuffer,
        Self::AlphaCount,
        Self::MaskContents,
        Self::RowContents,
        Self::NotBelowP,
        Self::FlagsNotPlain,
        Self::FoldCount,
    ];

    /// The number, 1 to 9.
    pub fn number(self) -> u64 {
        self as u64
    }

    /// The refusal of a number, if there is one.
    pub fn from_number(number: u64) -> Option<Self> {
        Self::ALL.into_iter().find(|r| r.number() == number)
    }

    /// What an answer with this number is: accepted with `answer`, or refused.
    ///
    /// The library's contract has no other numbers than 0 to 9.
    pub(crate) fn or<T>(number: u64, answer: T) -> Result<T, Self> {
        if number == 0 {
            return Ok(answer);
        }
        Err(Self::from_number(number)
            .unwrap_or_else(|| panic!("the library answered with the number {number}")))
    }
}

impl fmt::Display for Refusal {
    fn fmt(&self, f: &mut fmt::Formatter) -> fmt::Result {
        f.write_str(match self {
            Self::RowLength => "rows: a row not 94 values; a run not 1 to 65,536 whole rows",
            Self::MaskCount => "masks: not 25 values",
            Self::ValueBuffer => "value buffer: under 226 values",
            Self::AlphaCount => "alphas: not 1 to 8, or accumulators differ in count",
            Self::MaskContents => "masks: one not below p, or two of the first five equal",
            Self::RowContents => "row contents: one not below p",
            Self::NotBelowP => {
                "weights, alphas, accumulators, a lone operand or folded value: one not below p; \
                 a signed number outside the range"
            }
            Self::FlagsNotPlain => "judge: flags not plain",
            Self::FoldCount => "consumer: a fold that would pass a count of 4,294,967,295",
        })
    }
}

impl Error for Refusal {}

//! The constraint values of pairs of CPU rows, their signed forms, folds, verdicts and reports, and
//! the consumer that takes values one by one: the safe functions over `libffi.a`, whose code is
//! proved to meet its contracts.
//!
//! p is [`P`], 2^64 − 2^32 + 1. A row is 94 values, a list of masks 25, and the values of a pair
//! are 226, all below p. As a signed number a residue is one of −[`GREATEST`] to [`GREATEST`]
//! ([`signed`], [`unsigned`]). A call that is not answered is refused by a [`Refusal`]: of the
//! reasons that apply, the lowest number. A refused call leaves lent memory as it was.
//!
//! `examples/pair.rs` works out a pair of zero rows, `examples/consumer.rs` folds it into a
//! [`ConstraintConsumer`].

mod answers;
mod consumer;
pub mod flat;
mod refusal;

pub use answers::{Report, Spot, Verdict};
pub use consumer::ConstraintConsumer;
pub use refusal::Refusal;

/// p: every value is a number below it.
pub const P: u64 = 0xffff_ffff_0000_0001;
/// The greatest signed number, half of p − 1; the least is its negative.
pub const GREATEST: i64 = 9223372034707292160;
/// The values of a row.
pub const ROW: usize = 94;
/// The masks of a list.
pub const MASKS: usize = 25;
/// The constraint values of a pair.
pub const VALUES: usize = 226;
/// The most rows that a run may have.
pub const MAX_ROWS: usize = 65_536;
/// The most alphas that a fold may have.
pub const MAX_ALPHAS: usize = 8;
/// The greatest count of folded values that a consumer reaches.
pub const MAX_FOLDED: u64 = 4_294_967_295;

/// `a + b` modulo p, below p.
///
/// Refuses an operand not below p ([`Refusal::NotBelowP`]).
pub fn add(a: u64, b: u64) -> Result<u64, Refusal> {
    flat::add(a, b).into()
}

/// `a − b` modulo p, below p.
///
/// Refuses an operand not below p ([`Refusal::NotBelowP`]).
pub fn sub(a: u64, b: u64) -> Result<u64, Refusal> {
    flat::sub(a, b).into()
}

/// `a · b` modulo p, below p.
///
/// Refuses an operand not below p ([`Refusal::NotBelowP`]).
pub fn mul(a: u64, b: u64) -> Result<u64, Refusal> {
    flat::mul(a, b).into()
}

/// The signed form of a residue: itself up to [`GREATEST`], a larger one minus p. [`unsigned`] is
/// the way back.
///
/// Refuses a residue not below p ([`Refusal::NotBelowP`]).
pub fn signed(residue: u64) -> Result<i64, Refusal> {
    flat::signed(residue).into()
}

/// The residue of a signed number: itself, a negative one plus p. [`signed`] is the way back.
///
/// Refuses a number outside −[`GREATEST`] to [`GREATEST`] ([`Refusal::NotBelowP`]).
pub fn unsigned(value: i64) -> Result<u64, Refusal> {
    flat::unsigned(value).into()
}

/// Writes the 226 values of the pair of rows `lv` (current) and `nv` (next) to the first places
/// of `out`, each with its weight applied: a transition value times `z_last`, a first-row value
/// times `lagrange_basis_first`. Further places of `out` stay as they were.
///
/// Refuses, in this order:
/// 1. a row that is not 94 values ([`Refusal::RowLength`]);
/// 2. masks that are not 25 ([`Refusal::MaskCount`]);
/// 3. an `out` under 226 values ([`Refusal::ValueBuffer`]);
/// 4. a mask not below p, or two of the first five equal ([`Refusal::MaskContents`]);
/// 5. a value of a row not below p ([`Refusal::RowContents`]);
/// 6. a weight not below p ([`Refusal::NotBelowP`]).
///
/// A refused call leaves `out` as it was.
pub fn pair_values(
    masks: &[u64],
    lv: &[u64],
    nv: &[u64],
    z_last: u64,
    lagrange_basis_first: u64,
    out: &mut [u64],
) -> Result<(), Refusal> {
    let number = flat::pair_values(masks, lv, nv, z_last, lagrange_basis_first, out);
    Refusal::or(number, ())
}

/// Folds the 226 values of the pair, those of [`pair_values`], into each accumulator `accs[i]`
/// under `alphas[i]`: value after value, the accumulator a becomes a · alpha + value.
///
/// Refuses, in this order:
/// 1. a row that is not 94 values ([`Refusal::RowLength`]);
/// 2. masks that are not 25 ([`Refusal::MaskCount`]);
/// 3. alphas that are not 1 to 8, or accumulators that differ in count ([`Refusal::AlphaCount`]);
/// 4. a mask not below p, or two of the first five equal ([`Refusal::MaskContents`]);
/// 5. a value of a row not below p ([`Refusal::RowContents`]);
/// 6. a weight, an alpha or an accumulator not below p ([`Refusal::NotBelowP`]).
///
/// A refused call leaves `accs` as it was.
pub fn pair_fold(
    masks: &[u64],
    lv: &[u64],
    nv: &[u64],
    z_last: u64,
    lagrange_basis_first: u64,
    alphas: &[u64],
    accs: &mut [u64],
) -> Result<(), Refusal> {
    let number = flat::pair_fold(masks, lv, nv, z_last, lagrange_basis_first, alphas, accs);
    Refusal::or(number, ())
}

/// Judges the pair by the rules, for a current row that is the run's first or not, its last or
/// not: exactly the pairs whose values are all 0 keep every rule.
///
/// Refuses, in this order:
/// 1. a row that is not 94 values ([`Refusal::RowLength`]);
/// 2. masks that are not 25 ([`Refusal::MaskCount`]);
/// 3. a mask not below p, or two of the first five equal ([`Refusal::MaskContents`]);
/// 4. a value of a row not below p ([`Refusal::RowContents`]);
/// 5. flags that are not plain ([`Refusal::FlagsNotPlain`]): of the current row IS_EXT_LINE,
///    IS_ENTRY_SC, IS_NEXT_LINE_DIFF_INST and IS_NEXT_LINE_SAME_TX are 0 or 1, of the next row
///    IS_EXT_LINE and IS_PADDING, and exactly one of its 19 instruction selectors is 1, the
///    others 0.
pub fn pair_judge(
    masks: &[u64],
    lv: &[u64],
    nv: &[u64],
    first: bool,
    last: bool,
) -> Result<Verdict, Refusal> {
    flat::pair_judge(masks, lv, nv, first, last).into()
}

/// Reports on a run of rows, one after the other in `run`: pair i is rows i and i + 1, and the
/// last pair returns to row 0. `z_last` is 0 on the last pair, else 1; `lagrange_basis_first` is
/// 1 on pair 0, else 0. A pair fails when one of its values is not 0.
///
/// Refuses, in this order:
/// 1. a run that is not 1 to 65,536 whole rows ([`Refusal::RowLength`]);
/// 2. masks that are not 25 ([`Refusal::MaskCount`]);
/// 3. a mask not below p, or two of the first five equal ([`Refusal::MaskContents`]);
/// 4. a value of a row not below p ([`Refusal::RowContents`]).
pub fn run_report(run: &[u64], masks: &[u64]) -> Result<Report, Refusal> {
    flat::run_report(run, masks).into()
}

//! What a call has to answer: a refusal of document 01's table, else what the listed Rust's
//! values are or tell.

use fields::{Plain, Residue, GREATEST, P};
use olavm::{Pair, Reference, Row, Values, COLUMNS, MASKS, VALUES};
use pairs::columns::*;
use pairs::masks::are_accepted;
use pairs::{Run, MAX_ROWS};
use plonky2::field::types::Field;

use crate::{Call, FelmugoReport, FelmugoResidue, FelmugoSigned, FelmugoVerdict, Rows};

mod consumer;
pub use consumer::*;

/// The values of a pair, or the number of the refusal.
pub fn pair_values(rust: Reference, call: Call, buffer: usize) -> Result<Values, u64> {
    match values_refusal(call, buffer) {
        0 => Ok(rust.values(&pair(call))),
        number => Err(number),
    }
}

/// The accumulators after the fold of a pair, or the number of the refusal.
pub fn pair_fold(
    rust: Reference,
    call: Call,
    alphas: &[u64],
    accs: &[u64],
) -> Result<Vec<u64>, u64> {
    match fold_refusal(call, alphas, accs) {
        0 => Ok(rust.fold::<Plain>(&pair(call), alphas, accs)),
        number => Err(number),
    }
}

/// The verdict on a pair: it keeps every rule where all its values are 0.
pub fn pair_judge(rust: Reference, call: Call) -> FelmugoVerdict {
    let number = judge_refusal(call);
    let weighted = Call {
        z_last: (!call.is_last()).into(),
        lagrange_basis_first: call.is_first().into(),
        ..call
    };
    let keeps = number == 0 && rust.values(&pair(weighted)).iter().all(|v| *v == 0);
    FelmugoVerdict {
        number,
        keeps: keeps.into(),
    }
}

/// The report on a run over its pairs' values, computed over the field `F`.
pub fn run_report<F: Residue>(rust: Reference, run: &[u64], masks: &[u64]) -> FelmugoReport {
    match run_refusal(run, masks) {
        0 => report::<F>(rust, Run::of_words(masks, run).pairs()),
        number => FelmugoReport {
            number,
            ..FelmugoReport::default()
        },
    }
}

/// The report on pairs.
pub fn report<F: Residue>(rust: Reference, pairs: impl Iterator<Item = Pair>) -> FelmugoReport {
    let mut report = FelmugoReport::default();
    for pair in pairs {
        let values = rust.values_over::<F>(&pair);
        if let Some(place) = values.iter().position(|v| *v != 0) {
            report.failing += 1;
            if report.found == 0 {
                (report.found, report.pair, report.value) = (1, report.pairs, place as u64 + 1);
            }
        }
        report.pairs += 1;
    }
    report
}

/// What an operation on residues answers.
pub fn operation(a: u64, b: u64, meant: Operation) -> FelmugoResidue {
    if is_not_canonical(&[a, b]) {
        return FelmugoResidue {
            number: 7,
            value: 0,
        };
    }
    let of = Plain::from_canonical_u64;
    FelmugoResidue {
        number: 0,
        value: meant(of(a), of(b)).canonical(),
    }
}

/// An operation's meaning.
pub type Operation = fn(Plain, Plain) -> Plain;

/// The signed form of a number, if that is a residue.
pub fn signed(residue: u64) -> FelmugoSigned {
    if is_not_canonical(&[residue]) {
        return FelmugoSigned {
            number: 7,
            value: 0,
        };
    }
    let value = fields::signed(residue);
    FelmugoSigned {
        number: 0,
        value: value.try_into().expect("it is in the range"),
    }
}

/// The residue of a signed number, if that is in the range: "A signed number outside the range is
/// refused with 7."
pub fn unsigned(value: i64) -> FelmugoResidue {
    let value = i128::from(value);
    if !(-GREATEST..=GREATEST).contains(&value) {
        return FelmugoResidue {
            number: 7,
            value: 0,
        };
    }
    FelmugoResidue {
        number: 0,
        value: fields::unsigned(value),
    }
}

/// The number with which a call for the values of a pair is refused, or 0.
pub fn values_refusal(call: Call, buffer: usize) -> u64 {
    let others = [(3, buffer < VALUES), (7, has_wrong_weight(call))];
    pair_refusal(call.rows(), &others)
}

/// The number with which a call for the fold of a pair is refused, or 0.
pub fn fold_refusal(call: Call, alphas: &[u64], accs: &[u64]) -> u64 {
    let are_counted = (1..=8).contains(&alphas.len()) && accs.len() == alphas.len();
    let has_wrong = has_wrong_weight(call) || is_not_canonical(alphas) || is_not_canonical(accs);
    pair_refusal(call.rows(), &[(4, !are_counted), (7, has_wrong)])
}

/// The number with which a call of the judge is refused, or 0.
pub fn judge_refusal(call: Call) -> u64 {
    pair_refusal(call.rows(), &[(8, !has_plain_flags(call))])
}

/// The number with which a call for the report on a run is refused, or 0.
pub fn run_refusal(run: &[u64], masks: &[u64]) -> u64 {
    let rows = run.len() / COLUMNS;
    let are_whole = run.len().is_multiple_of(COLUMNS) && (1..=MAX_ROWS).contains(&rows);
    masks_refusal(masks, &[(1, !are_whole), (6, is_not_canonical(run))])
}

/// The number with which a pair is refused, for what all calls refuse or for other conditions.
fn pair_refusal(Rows { masks, lv, nv }: Rows, others: &[(u64, bool)]) -> u64 {
    let has_wrong_row = lv.len() != COLUMNS || nv.len() != COLUMNS;
    let has_wrong_content = is_not_canonical(lv) || is_not_canonical(nv);
    let rows = [(1, has_wrong_row), (6, has_wrong_content)];
    masks_refusal(masks, &[&rows, others].concat())
}

/// The number with which masks are refused, or for other conditions.
fn masks_refusal(masks: &[u64], others: &[(u64, bool)]) -> u64 {
    let masks = [(2, masks.len() != MASKS), (5, !are_accepted(masks))];
    lowest(&[&masks, others].concat())
}

/// The lowest number whose condition holds, or 0.
fn lowest(conditions: &[(u64, bool)]) -> u64 {
    let holding = conditions.iter().filter(|(_, holds)| *holds);
    holding.map(|(number, _)| *number).min().unwrap_or(0)
}

fn has_wrong_weight(call: Call) -> bool {
    is_not_canonical(&[call.z_last, call.lagrange_basis_first])
}

fn is_not_canonical(numbers: &[u64]) -> bool {
    numbers.iter().any(|n| *n >= P)
}

/// "IS_EXT_LINE, entry, diff, same are 0 or 1; IS_EXT_LINE' and pad' too; exactly one next
/// selector is 1, others 0."
fn has_plain_flags(call: Call) -> bool {
    let (Ok(lv), Ok(nv)) = (Row::try_from(call.lv), Row::try_from(call.nv)) else {
        return false;
    };
    let flags = [
        lv[IS_EXT_LINE],
        lv[IS_ENTRY_SC],
        lv[IS_NEXT_LINE_DIFF_INST],
        lv[IS_NEXT_LINE_SAME_TX],
        nv[IS_EXT_LINE],
        nv[IS_PADDING],
    ];
    let selectors = &nv[SELECTORS];
    let bits = |numbers: &[u64]| numbers.iter().all(|n| *n <= 1);
    bits(&flags) && bits(selectors) && selectors.iter().filter(|n| **n == 1).count() == 1
}

/// The pair of a call whose lengths are right.
fn pair(call: Call) -> Pair {
    let right = "the lengths are right";
    Pair {
        masks: call.masks.try_into().expect(right),
        lv: call.lv.try_into().expect(right),
        nv: call.nv.try_into().expect(right),
        z_last: call.z_last,
        lagrange_basis_first: call.lagrange_basis_first,
    }
}

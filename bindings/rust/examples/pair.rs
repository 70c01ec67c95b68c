//! The pair of zero rows that document 01 works out: its values, folds, verdict and report.

use felmugo::{pair_fold, pair_judge, pair_values, run_report, signed};
use felmugo::{Refusal, MASKS, ROW, VALUES};

const ROW_OF_ZEROS: [u64; ROW] = [0; ROW];

/// The weights of a row that is the first and the last of its run.
const Z_LAST: u64 = 0;
const LAGRANGE_BASIS_FIRST: u64 = 1;

fn main() -> Result<(), Refusal> {
    let masks: [u64; MASKS] = std::array::from_fn(|i| 1 << i);
    print_values(&masks)?;
    print_folds(&masks)?;
    print_verdict(&masks);
    print_report(&masks)
}

fn print_values(masks: &[u64]) -> Result<(), Refusal> {
    let row = &ROW_OF_ZEROS;
    let mut values = [0; VALUES];
    pair_values(masks, row, row, Z_LAST, LAGRANGE_BASIS_FIRST, &mut values)?;
    for (i, value) in values.iter().enumerate().filter(|(_, value)| **value != 0) {
        println!("value {} is {value}, signed {}", i + 1, signed(*value)?);
    }
    Ok(())
}

fn print_folds(masks: &[u64]) -> Result<(), Refusal> {
    let row = &ROW_OF_ZEROS;
    let alphas = [0, 1, 2];
    let mut accs = [0; 3];
    pair_fold(
        masks,
        row,
        row,
        Z_LAST,
        LAGRANGE_BASIS_FIRST,
        &alphas,
        &mut accs,
    )?;
    for (alpha, acc) in alphas.iter().zip(accs) {
        println!("under alpha {alpha} it folds from 0 to {acc}");
    }
    Ok(())
}

/// No selector of a zero row is 1, so its flags are not plain.
fn print_verdict(masks: &[u64]) {
    match pair_judge(masks, &ROW_OF_ZEROS, &ROW_OF_ZEROS, true, true) {
        Ok(verdict) => println!("the judge says {verdict:?}"),
        Err(refusal) => println!("the judge refuses with {}, {refusal}", refusal.number()),
    }
}

fn print_report(masks: &[u64]) -> Result<(), Refusal> {
    let report = run_report(&ROW_OF_ZEROS, masks)?;
    println!("of {} pairs {} fail", report.pairs, report.failing);
    if let Some(spot) = report.spot {
        println!("the first at pair {}, value {}", spot.pair, spot.value);
    }
    Ok(())
}

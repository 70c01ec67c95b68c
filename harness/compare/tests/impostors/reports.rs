//! Impostors of the report on a run.

use compare::{model, Entries, FelmugoReport};
use fields::Plain;
use olavm::{Pair, COLUMNS};
use pairs::Run;

use crate::actors::{is_found, Faithful};

fn is_misreporting_found(answer: impl Fn(&Faithful, &[u64], &[u64]) -> FelmugoReport) -> bool {
    is_found(|impostor| impostor.report = Some(&answer))
}

/// Whether the comparison finds who takes other pairs, refusing as it should.
fn is_mispairing_found(pair: impl Fn(&Run, usize) -> Pair) -> bool {
    is_misreporting_found(|faithful, run, masks| {
        if model::run_refusal(run, masks) != 0 {
            return faithful.run_report(run, masks);
        }
        let run = Run::of_words(masks, run);
        model::report::<Plain>(faithful.0, (0..run.rows.len()).map(|i| pair(&run, i)))
    })
}

#[test]
fn the_right_pairs_are_not_found() {
    assert!(olavm::Reference::find().is_none() || !is_mispairing_found(Run::pair));
}

#[test]
fn a_report_after_the_first_pair_is_found() {
    assert!(is_misreporting_found(|faithful, run, masks| {
        let report = faithful.run_report(run, masks);
        if report.found == 1 && report.pair > 0 {
            return FelmugoReport {
                pairs: report.pairs,
                ..FelmugoReport::default()
            };
        }
        FelmugoReport {
            failing: report.found,
            ..report
        }
    }));
}

#[test]
fn a_total_not_counted_from_the_values_is_found() {
    let totals: [fn(&FelmugoReport) -> u64; 3] = [
        |report| report.found,
        |report| report.found * report.pairs,
        |report| report.found * (report.pairs - report.pair),
    ];
    for total in totals {
        assert!(is_misreporting_found(|faithful, run, masks| {
            let report = faithful.run_report(run, masks);
            let failing = total(&report);
            FelmugoReport { failing, ..report }
        }));
    }
}

#[test]
fn none_failing_with_no_row_read_is_found() {
    assert!(is_misreporting_found(|_, run, masks| {
        let number = model::run_refusal(run, masks);
        let pairs = if number == 0 { run.len() / COLUMNS } else { 0 };
        FelmugoReport {
            number,
            pairs: pairs as u64,
            ..FelmugoReport::default()
        }
    }));
}

#[test]
fn a_last_pair_that_does_not_return_to_row_0_is_found() {
    let others: [fn(&Run, usize) -> usize; 3] = [
        |_, i| i,
        |run, i| (i + 2) % run.rows.len(),
        |run, i| (run.rows.len() - 1).min(i + 1),
    ];
    for other in others {
        assert!(is_mispairing_found(|run, i| Pair {
            nv: run.rows[other(run, i)],
            ..run.pair(i)
        }));
    }
}

#[test]
fn weights_of_first_and_last_exchanged_are_found() {
    assert!(is_mispairing_found(|run, i| Pair {
        z_last: (i != 0).into(),
        lagrange_basis_first: (i + 1 == run.rows.len()).into(),
        ..run.pair(i)
    }));
}

#[test]
fn a_dropped_weight_is_found() {
    assert!(is_mispairing_found(|run, i| Pair {
        z_last: 1,
        ..run.pair(i)
    }));
    assert!(is_mispairing_found(|run, i| Pair {
        lagrange_basis_first: 0,
        ..run.pair(i)
    }));
}

#[test]
fn number_one_for_everybody_is_found() {
    assert!(is_misreporting_found(|_, _, _| FelmugoReport {
        number: 1,
        ..FelmugoReport::default()
    }));
}

#[test]
fn a_report_in_a_refusal_is_found() {
    assert!(is_misreporting_found(|faithful, run, masks| {
        let report = faithful.run_report(run, masks);
        FelmugoReport {
            pairs: (run.len() / COLUMNS) as u64,
            ..report
        }
    }));
}

#[test]
fn the_highest_number_is_found() {
    assert!(is_misreporting_found(|faithful, run, masks| {
        let number = match faithful.run_report(run, masks).number {
            1 if masks.len() != 25 => 2,
            number => number,
        };
        FelmugoReport {
            number,
            ..faithful.run_report(run, masks)
        }
    }));
}

#[test]
fn another_spot_is_found() {
    assert!(is_misreporting_found(|faithful, run, masks| {
        let report = faithful.run_report(run, masks);
        FelmugoReport {
            pair: report.pair + report.found,
            ..report
        }
    }));
    assert!(is_misreporting_found(|faithful, run, masks| {
        let report = faithful.run_report(run, masks);
        FelmugoReport {
            value: report.value.saturating_sub(1),
            ..report
        }
    }));
}

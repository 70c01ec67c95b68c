//! Impostors of the consumer.

use compare::model::{self, MAX_FOLDED};
use compare::{Call, Entries, FelmugoConsumer, FelmugoOutcome, Rows, Yielded};
use fields::P;
use olavm::{Form, Reference, VALUES};

use crate::actors::{is_found, Faithful};

fn is_misfolding_found(answer: impl Fn(&Faithful, &mut FelmugoConsumer, Yielded) -> u64) -> bool {
    is_found(|impostor| impostor.consume = Some(&answer))
}

fn is_misgiving_found(answer: impl Fn(&Faithful, &FelmugoConsumer, &mut [u64]) -> u64) -> bool {
    is_found(|impostor| impostor.hand_over = Some(&answer))
}

/// Whether the comparison finds who alters what an accepted call leaves.
fn is_leaving_found(alter: impl Fn(FelmugoConsumer, &mut FelmugoConsumer)) -> bool {
    is_misfolding_found(|faithful, consumer, yielded| {
        let before = *consumer;
        let number = faithful.consumer_fold(consumer, yielded);
        if number == 0 {
            alter(before, consumer);
        }
        number
    })
}

/// Whether the comparison finds who alters a consumer where it refuses.
fn is_refusing_found(alter: impl Fn(u64, &mut FelmugoConsumer)) -> bool {
    is_misfolding_found(|faithful, consumer, yielded| {
        let number = faithful.consumer_fold(consumer, yielded);
        if number != 0 {
            alter(number, consumer);
        }
        number
    })
}

/// How many values are yielded.
fn values(yielded: Yielded) -> u64 {
    match yielded {
        Yielded::Value(..) => 1,
        Yielded::Pair(_) => VALUES as u64,
    }
}

/// Folds what is refused with 9 alone.
fn fold_on(faithful: &Faithful, consumer: &mut FelmugoConsumer, yielded: Yielded) -> u64 {
    let folded = consumer.folded;
    consumer.folded = 0;
    let number = faithful.consumer_fold(consumer, yielded);
    consumer.folded = folded.wrapping_add(consumer.folded);
    number
}

/// Folds the first values of a pair that is not refused, one by one.
fn fold_first(faithful: &Faithful, consumer: &mut FelmugoConsumer, rows: Rows, count: usize) {
    let Rows { masks, lv, nv } = rows;
    let call = Call {
        masks,
        lv,
        nv,
        z_last: consumer.z_last,
        lagrange_basis_first: consumer.lagrange_basis_first,
    };
    let mut weighted = [0; VALUES];
    faithful.pair_values(call, &mut weighted);
    for value in &weighted[..count] {
        faithful.consumer_fold(consumer, Yielded::Value(Form::Plain, *value));
    }
}

#[test]
fn a_count_that_does_not_grow_is_found() {
    assert!(is_leaving_found(|before, left| left.folded = before.folded));
}

#[test]
fn a_pair_counted_as_one_value_is_found() {
    assert!(is_leaving_found(|before, left| {
        left.folded = before.folded + 1;
    }));
}

#[test]
fn a_count_that_grows_in_a_refusal_is_found() {
    for refused in [1, 2, 4, 5, 6, 7, 9] {
        assert!(is_refusing_found(|number, consumer| {
            if number == refused {
                consumer.folded = consumer.folded.wrapping_add(1);
            }
        }));
    }
}

#[test]
fn a_record_altered_by_a_refused_call_is_found() {
    let alterations: [fn(&mut FelmugoConsumer); 5] = [
        |consumer| consumer.alphas[0] = 0,
        |consumer| consumer.constraint_accs[0] = 0,
        |consumer| consumer.constraint_accs[7] = 0,
        |consumer| consumer.count = consumer.count.clamp(1, 8),
        |consumer| consumer.lagrange_basis_last = 0,
    ];
    for alter in alterations {
        assert!(is_refusing_found(|_, consumer| alter(consumer)));
    }
}

#[test]
fn number_9_before_another_is_found() {
    for later in [1, 2, 4, 5, 6, 7] {
        assert!(is_misfolding_found(|faithful, consumer, yielded| {
            match faithful.consumer_fold(consumer, yielded) {
                number if number == later && consumer.folded > MAX_FOLDED => 9,
                number => number,
            }
        }));
    }
}

#[test]
fn number_9_one_value_too_early_is_found() {
    for is_pair in [false, true] {
        assert!(is_misfolding_found(|faithful, consumer, yielded| {
            match model::consumer_refusal(consumer, yielded) {
                0 if matches!(yielded, Yielded::Pair(_)) == is_pair
                    && consumer.folded + values(yielded) == MAX_FOLDED =>
                {
                    9
                }
                _ => faithful.consumer_fold(consumer, yielded),
            }
        }));
    }
}

#[test]
fn number_9_one_value_too_late_is_found() {
    for is_pair in [false, true] {
        assert!(is_misfolding_found(|faithful, consumer, yielded| {
            let is_next = consumer.folded == MAX_FOLDED + 1 - values(yielded);
            match matches!(yielded, Yielded::Pair(_)) == is_pair && is_next {
                true => fold_on(faithful, consumer, yielded),
                false => faithful.consumer_fold(consumer, yielded),
            }
        }));
    }
}

#[test]
fn a_count_that_wraps_is_found() {
    assert!(is_misfolding_found(|faithful, consumer, yielded| {
        match consumer.folded.checked_add(values(yielded)) {
            None => fold_on(faithful, consumer, yielded),
            Some(_) => faithful.consumer_fold(consumer, yielded),
        }
    }));
}

#[test]
fn another_weight_for_the_last_row_is_found() {
    for form in [Form::Plain, Form::Transition, Form::FirstRow] {
        assert!(is_misfolding_found(|faithful, consumer, yielded| {
            let yielded = match yielded {
                Yielded::Value(Form::LastRow, value) => Yielded::Value(form, value),
                yielded => yielded,
            };
            faithful.consumer_fold(consumer, yielded)
        }));
    }
}

#[test]
fn a_pair_folded_in_part_is_found() {
    let is_found = |count: usize| {
        is_misfolding_found(|faithful, consumer, yielded| {
            match (yielded, model::consumer_refusal(consumer, yielded)) {
                (Yielded::Pair(rows), 0) => {
                    fold_first(faithful, consumer, rows, count);
                    consumer.folded += (VALUES - count) as u64;
                    0
                }
                _ => faithful.consumer_fold(consumer, yielded),
            }
        })
    };
    assert!(is_found(VALUES - 1));
    assert!(Reference::find().is_none() || !is_found(VALUES));
}

#[test]
fn a_pair_folded_as_far_as_the_count_goes_is_found() {
    assert!(is_misfolding_found(|faithful, consumer, yielded| {
        match (yielded, model::consumer_refusal(consumer, yielded)) {
            (Yielded::Pair(rows), 9) => {
                let left = MAX_FOLDED.saturating_sub(consumer.folded);
                fold_first(faithful, consumer, rows, left as usize);
                9
            }
            _ => faithful.consumer_fold(consumer, yielded),
        }
    }));
}

#[test]
fn a_place_past_the_count_that_is_altered_is_found() {
    assert!(is_leaving_found(|before, left| {
        left.constraint_accs[before.count..].fill(0);
    }));
    assert!(is_leaving_found(|before, left| {
        left.alphas[before.count..].fill(0);
    }));
}

#[test]
fn a_place_past_the_count_that_is_tested_is_found() {
    assert!(is_misfolding_found(|faithful, consumer, yielded| {
        let places = consumer.alphas.iter().chain(&consumer.constraint_accs);
        match model::consumer_refusal(consumer, yielded) {
            0 if places.copied().any(|n| n >= P) => 7,
            _ => faithful.consumer_fold(consumer, yielded),
        }
    }));
}

#[test]
fn the_first_alpha_only_is_found() {
    assert!(is_leaving_found(|before, left| {
        left.constraint_accs[1..].copy_from_slice(&before.constraint_accs[1..]);
    }));
}

#[test]
fn accumulators_handed_back_untouched_are_found() {
    assert!(is_leaving_found(|before, left| {
        left.constraint_accs = before.constraint_accs;
    }));
}

#[test]
fn number_one_for_everybody_is_found() {
    assert!(is_misfolding_found(|_, _, _| 1));
    assert!(is_misgiving_found(|_, _, _| 1));
}

#[test]
fn accumulators_without_the_test_are_found() {
    for untested in [4, 7] {
        assert!(is_misgiving_found(|faithful, consumer, out| {
            match faithful.consumer_accumulators(consumer, out) {
                number if number == untested => {
                    let count = out.len().min(8);
                    out[..count].copy_from_slice(&consumer.constraint_accs[..count]);
                    0
                }
                number => number,
            }
        }));
    }
}

#[test]
fn accumulators_withheld_for_the_count_are_found() {
    assert!(is_misgiving_found(|faithful, consumer, out| {
        match consumer.folded > MAX_FOLDED {
            true => 9,
            false => faithful.consumer_accumulators(consumer, out),
        }
    }));
}

#[test]
fn accumulators_written_in_a_refusal_are_found() {
    assert!(is_misgiving_found(|faithful, consumer, out| {
        let number = faithful.consumer_accumulators(consumer, out);
        if number != 0 {
            out.fill(0);
        }
        number
    }));
}

#[test]
fn a_consumer_that_is_made_otherwise_is_found() {
    let alterations: [fn(&mut FelmugoOutcome); 5] = [
        |made| made.consumer.folded += 1,
        |made| made.consumer.count = made.consumer.count.max(1),
        |made| made.consumer.alphas[7] = made.consumer.alphas[7].max(1),
        |made| made.consumer.lagrange_basis_last = made.consumer.lagrange_basis_first,
        |made| made.number = made.number.min(4),
    ];
    for alter in alterations {
        let make = |faithful: &Faithful, alphas: &[u64], accs: &[u64], weights: [u64; 3]| {
            let mut made = faithful.consumer_new(alphas, accs, weights);
            alter(&mut made);
            made
        };
        assert!(is_found(|impostor| impostor.make = Some(&make)));
    }
}

//! Impostors of the fold of a pair.

use compare::{model, Call, Entries};

use crate::actors::{is_found, Faithful};

fn is_misfolding_found(answer: impl Fn(&Faithful, Call, &[u64], &mut [u64]) -> u64) -> bool {
    is_found(|impostor| impostor.fold = Some(&answer))
}

#[test]
fn the_first_alpha_only_is_found() {
    assert!(is_misfolding_found(|faithful, call, alphas, accs| {
        let mut folded = accs.to_vec();
        let number = faithful.pair_fold(call, alphas, &mut folded);
        if let (Some(first), Some(acc)) = (folded.first(), accs.first_mut()) {
            *acc = *first;
        }
        number
    }));
}

#[test]
fn accumulators_handed_back_untouched_are_found() {
    assert!(is_misfolding_found(|_, call, alphas, accs| {
        model::fold_refusal(call, alphas, accs)
    }));
}

#[test]
fn exchanged_weights_are_found() {
    assert!(is_misfolding_found(|faithful, call, alphas, accs| {
        let exchanged = Call {
            z_last: call.lagrange_basis_first,
            lagrange_basis_first: call.z_last,
            ..call
        };
        faithful.pair_fold(exchanged, alphas, accs)
    }));
}

#[test]
fn a_ninth_alpha_is_found() {
    assert!(is_misfolding_found(|faithful, call, alphas, accs| {
        match faithful.pair_fold(call, alphas, accs) {
            4 if alphas.len() == 9 && accs.len() == 9 => 0,
            number => number,
        }
    }));
}

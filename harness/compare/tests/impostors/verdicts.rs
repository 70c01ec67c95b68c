//! Impostors of the judge.

use compare::{Call, Entries, FelmugoVerdict};

use crate::actors::{is_found, Faithful};

fn is_misjudging_found(answer: impl Fn(&Faithful, Call) -> FelmugoVerdict) -> bool {
    is_found(|impostor| impostor.judge = Some(&answer))
}

#[test]
fn keeps_to_all_is_found() {
    assert!(is_misjudging_found(|faithful, call| {
        let FelmugoVerdict { number, .. } = faithful.pair_judge(call);
        let keeps = (number == 0).into();
        FelmugoVerdict { number, keeps }
    }));
}

#[test]
fn breaks_to_all_is_found() {
    assert!(is_misjudging_found(|faithful, call| FelmugoVerdict {
        keeps: 0,
        ..faithful.pair_judge(call)
    }));
}

#[test]
fn a_verdict_on_flags_that_are_not_plain_is_found() {
    assert!(is_misjudging_found(|faithful, call| {
        match faithful.pair_judge(call) {
            FelmugoVerdict { number: 8, .. } => FelmugoVerdict {
                number: 0,
                keeps: 0,
            },
            verdict => verdict,
        }
    }));
}

#[test]
fn first_and_last_exchanged_are_found() {
    assert!(is_misjudging_found(|faithful, call| {
        faithful.pair_judge(Call {
            z_last: (!call.is_first()).into(),
            lagrange_basis_first: call.is_last().into(),
            ..call
        })
    }));
}

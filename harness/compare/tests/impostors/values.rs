//! Impostors of the values of a pair.

use compare::{model, Call, Entries};
use fields::{Plain, Residue, P};
use olavm::{COLUMNS, VALUES};
use pairs::columns::{IS_EXT_LINE, PC};
use pairs::kinds::Kind;
use plonky2::field::types::Field;

use crate::actors::{is_found, Faithful};

fn is_misvaluing_found(answer: impl Fn(&Faithful, Call, &mut [u64]) -> u64) -> bool {
    is_found(|impostor| impostor.values = Some(&answer))
}

#[test]
fn number_one_for_everybody_is_misvaluing_found() {
    assert!(is_misvaluing_found(|_, _, _| 1));
}

#[test]
fn the_zero_rows_values_for_every_pair_are_found() {
    assert!(is_misvaluing_found(|faithful, call, out| {
        let zero = [0; COLUMNS];
        let number = model::values_refusal(call, out.len());
        if number == 0 {
            let call = Call {
                lv: &zero,
                nv: &zero,
                ..call
            };
            faithful.pair_values(call, out);
        }
        number
    }));
}

#[test]
fn a_buffer_written_in_a_refusal_is_misvaluing_found() {
    assert!(is_misvaluing_found(|faithful, call, out| {
        let number = faithful.pair_values(call, out);
        if number != 0 {
            out.fill(0);
        }
        number
    }));
}

#[test]
fn a_place_written_past_the_values_is_misvaluing_found() {
    assert!(is_misvaluing_found(|faithful, call, out| {
        let number = faithful.pair_values(call, out);
        if number == 0 && out.len() > VALUES {
            out[VALUES] = 0;
        }
        number
    }));
}

#[test]
fn a_forgotten_weight_is_misvaluing_found() {
    assert!(is_misvaluing_found(|faithful, call, out| {
        let z_last = if call.z_last < P {
            call.z_last.min(1)
        } else {
            P
        };
        faithful.pair_values(Call { z_last, ..call }, out)
    }));
}

#[test]
fn a_result_that_is_not_canonical_is_misvaluing_found() {
    assert!(is_misvaluing_found(|faithful, call, out| {
        let number = faithful.pair_values(call, out);
        for value in out.iter_mut().filter(|value| number == 0 && **value == 0) {
            *value = P;
        }
        number
    }));
}

#[test]
fn the_pc_in_value_147_is_misvaluing_found() {
    assert!(is_misvaluing_found(|faithful, call, out| {
        let number = faithful.pair_values(call, out);
        if number == 0 {
            let of = |row: &[u64], column: usize| Plain::from_canonical_u64(row[column]);
            let (lv, nv) = (call.lv, call.nv);
            let end = of(nv, Kind::End.selector());
            let mended = of(nv, IS_EXT_LINE) * (Plain::ONE - end) * (of(nv, PC) - of(lv, PC));
            out[147 - 1] = mended.canonical();
        }
        number
    }));
}

#[test]
fn the_highest_number_is_misvaluing_found() {
    assert!(is_misvaluing_found(|faithful, call, out| {
        match faithful.pair_values(call, out) {
            6 if call.z_last.max(call.lagrange_basis_first) >= P => 7,
            number => number,
        }
    }));
}

#[test]
fn an_accepted_p_is_misvaluing_found() {
    assert!(is_misvaluing_found(|faithful, call, out| {
        let nv: Vec<u64> = call
            .nv
            .iter()
            .map(|n| if *n == P { 0 } else { *n })
            .collect();
        faithful.pair_values(Call { nv: &nv, ..call }, out)
    }));
}

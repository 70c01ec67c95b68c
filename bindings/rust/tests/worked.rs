//! The worked pairs of document 01, and each refusal once.

use felmugo::flat::FelmugoConsumer;
use felmugo::*;

/// The value 1 of column `column` in a row of zeros.
fn row_with(column: usize) -> [u64; ROW] {
    std::array::from_fn(|i| (i == column).into())
}

fn masks() -> [u64; MASKS] {
    std::array::from_fn(|i| 1 << i)
}

#[test]
fn residues_are_canonical_or_refused() {
    assert_eq!(mul(P - 1, P - 1), Ok(1));
    assert_eq!(mul(1 << 32, 1 << 32), Ok(4294967295));
    assert_eq!(sub(0, 1), Ok(P - 1));
    assert_eq!(add(P - 1, 1), Ok(0));
    assert_eq!(add(P, 0), Err(Refusal::NotBelowP));
    assert_eq!(sub(0, P), Err(Refusal::NotBelowP));
    assert_eq!(mul(u64::MAX, 0), Err(Refusal::NotBelowP));
}

#[test]
fn signed_numbers_and_residues_map_to_each_other() {
    for (residue, value) in [
        (0, 0),
        (1, 1),
        (9223372034707292160, 9223372034707292160),
        (9223372034707292161, -9223372034707292160),
        (P - 1, -1),
    ] {
        assert_eq!(signed(residue), Ok(value));
        assert_eq!(unsigned(value), Ok(residue));
    }
    for not_below_p in [P, P + 1, u64::MAX] {
        assert_eq!(signed(not_below_p), Err(Refusal::NotBelowP));
    }
    for outside in [GREATEST + 1, -GREATEST - 1, i64::MAX, i64::MIN] {
        assert_eq!(unsigned(outside), Err(Refusal::NotBelowP));
    }
}

#[test]
fn the_zero_row_has_two_values() {
    let row = [0; ROW];
    let mut out = [7; VALUES + 1];
    assert_eq!(pair_values(&masks(), &row, &row, 0, 1, &mut out), Ok(()));
    let mut due = [0; VALUES + 1];
    (due[104 - 1], due[148 - 1], due[VALUES]) = (1, P - 1, 7);
    assert_eq!(out, due);
}

#[test]
fn the_zero_row_folds_as_worked_out() {
    let row = [0; ROW];
    let mut accs = [0; 3];
    let folded = pair_fold(&masks(), &row, &row, 0, 1, &[0, 1, 2], &mut accs);
    assert_eq!(folded, Ok(()));
    assert_eq!(accs, [0, 0, 18446673700603314177]);
}

#[test]
fn the_judge_wants_plain_flags() {
    let (end, mov) = (row_with(74), row_with(67));
    let judge = |lv: &[u64], nv: &[u64]| pair_judge(&masks(), lv, nv, true, true);
    assert_eq!(judge(&[0; ROW], &[0; ROW]), Err(Refusal::FlagsNotPlain));
    assert_eq!(judge(&end, &mov), Ok(Verdict::Breaks));
    // END of an entry, on a padding row that returns to itself: OPCODE and INST hold END's mask.
    let mut kept = end;
    (kept[28], kept[26], kept[85], kept[93]) = (1 << 15, 1 << 15, 1, 1);
    assert_eq!(judge(&kept, &kept), Ok(Verdict::Keeps));
}

#[test]
fn the_zero_row_is_reported() {
    let spot = Spot {
        pair: 0,
        value: 104,
    };
    let report = Report {
        pairs: 1,
        failing: 1,
        spot: Some(spot),
    };
    assert_eq!(run_report(&[0; ROW], &masks()), Ok(report));
    let mut kept = row_with(74);
    (kept[28], kept[26], kept[85], kept[93]) = (1 << 15, 1 << 15, 1, 1);
    let clean = Report {
        pairs: 1,
        failing: 0,
        spot: None,
    };
    assert_eq!(run_report(&kept, &masks()), Ok(clean));
}

#[test]
fn each_refusal_has_its_number() {
    let (row, masks) = ([0; ROW], masks());
    let values = |masks: &[u64], lv: &[u64], z_last, room: usize| {
        let mut out = vec![7; room];
        let answer = pair_values(masks, lv, &row, z_last, 0, &mut out);
        assert!(out.iter().all(|n| *n == 7), "a refused call writes nothing");
        answer
    };
    assert_eq!(values(&masks, &row[1..], 0, 0), Err(Refusal::RowLength));
    assert_eq!(values(&masks[1..], &row, 0, 0), Err(Refusal::MaskCount));
    assert_eq!(values(&masks, &row, P, 225), Err(Refusal::ValueBuffer));
    assert_eq!(
        values(&[1; MASKS], &row, P, 226),
        Err(Refusal::MaskContents)
    );
    assert_eq!(values(&masks, &[P; ROW], P, 226), Err(Refusal::RowContents));
    assert_eq!(values(&masks, &row, P, 226), Err(Refusal::NotBelowP));
    let mut accs = [7; 9];
    let folded = pair_fold(&masks, &row, &row, 0, 0, &[0; 9], &mut accs);
    assert_eq!((folded, accs), (Err(Refusal::AlphaCount), [7; 9]));
    assert_eq!(run_report(&[], &masks), Err(Refusal::RowLength));
    for (i, refusal) in Refusal::ALL.into_iter().enumerate() {
        assert_eq!(refusal.number(), i as u64 + 1);
        assert_eq!(Refusal::from_number(i as u64 + 1), Some(refusal));
    }
    assert_eq!(Refusal::from_number(0), None);
    assert_eq!(Refusal::from_number(10), None);
}

/// A consumer of one alpha, whose weights differ, by which so many values were folded.
fn counted(folded: u64) -> ConstraintConsumer {
    let made = ConstraintConsumer::new(&[2], &[5], 3, 11, 13);
    let record = made.expect("all are below p").into();
    FelmugoConsumer { folded, ..record }.into()
}

/// The accumulator of a consumer of one alpha.
fn acc(consumer: &ConstraintConsumer) -> u64 {
    let mut out = [0];
    assert_eq!(consumer.accumulators(&mut out), Ok(()));
    out[0]
}

#[test]
fn a_consumer_folds_the_zero_pair_as_worked_out() {
    let row = [0; ROW];
    let mut consumer = ConstraintConsumer::new(&[0, 1, 2], &[0; 3], 0, 1, 0).expect("canonical");
    assert_eq!((consumer.count(), consumer.folded()), (3, 0));
    assert_eq!(consumer.pair(&masks(), &row, &row), Ok(()));
    let mut accs = [7; 3];
    assert_eq!(consumer.accumulators(&mut accs), Ok(()));
    assert_eq!(accs, [0, 0, 18446673700603314177]);
    assert_eq!((consumer.count(), consumer.folded()), (3, 226));
}

#[test]
fn each_kind_of_value_has_its_weight() {
    let mut consumer = counted(0);
    assert_eq!(consumer.constraint(7), Ok(()));
    assert_eq!(acc(&consumer), 5 * 2 + 7);
    assert_eq!(consumer.constraint_transition(7), Ok(()));
    assert_eq!(acc(&consumer), 17 * 2 + 7 * 3);
    assert_eq!(consumer.constraint_first_row(7), Ok(()));
    assert_eq!(acc(&consumer), 55 * 2 + 7 * 11);
    assert_eq!(consumer.constraint_last_row(7), Ok(()));
    assert_eq!(acc(&consumer), 187 * 2 + 7 * 13);
    assert_eq!(consumer.folded(), 4);
}

#[test]
fn a_stored_record_goes_on_where_it_was() {
    let mut consumer = counted(0);
    assert_eq!(consumer.constraint(7), Ok(()));
    let record = FelmugoConsumer::from(consumer.clone());
    let due = FelmugoConsumer {
        alphas: [2, 0, 0, 0, 0, 0, 0, 0],
        constraint_accs: [17, 0, 0, 0, 0, 0, 0, 0],
        count: 1,
        z_last: 3,
        lagrange_basis_first: 11,
        lagrange_basis_last: 13,
        folded: 1,
    };
    assert_eq!(record, due);
    let mut again = ConstraintConsumer::from(record);
    assert_eq!(
        again.constraint_last_row(1),
        consumer.constraint_last_row(1)
    );
    assert_eq!(again, consumer);
}

#[test]
fn a_count_of_4294967295_is_reached_and_not_passed() {
    let row = [0; ROW];
    let mut consumer = counted(MAX_FOLDED - 1);
    assert_eq!(consumer.constraint_last_row(1), Ok(()));
    assert_eq!(consumer.folded(), MAX_FOLDED);
    for folded in [MAX_FOLDED, MAX_FOLDED + 1, u64::MAX] {
        let mut consumer = counted(folded);
        let before = consumer.clone();
        assert_eq!(consumer.constraint(1), Err(Refusal::FoldCount));
        assert_eq!(consumer.constraint_transition(1), Err(Refusal::FoldCount));
        assert_eq!(consumer.constraint_first_row(1), Err(Refusal::FoldCount));
        assert_eq!(consumer.constraint_last_row(1), Err(Refusal::FoldCount));
        assert_eq!(consumer, before);
        assert_eq!(acc(&consumer), 5);
    }
    let mut consumer = counted(MAX_FOLDED - VALUES as u64);
    assert_eq!(consumer.pair(&masks(), &row, &row), Ok(()));
    assert_eq!(consumer.folded(), MAX_FOLDED);
    let mut consumer = counted(MAX_FOLDED - VALUES as u64 + 1);
    let before = consumer.clone();
    let pair = consumer.pair(&masks(), &row, &row);
    assert_eq!((pair, consumer), (Err(Refusal::FoldCount), before));
}

#[test]
fn a_consumer_refuses_in_order() {
    let (row, masks) = ([0; ROW], masks());
    let new = |accs: &[u64], z_last| ConstraintConsumer::new(&[2], accs, z_last, 0, 0);
    assert_eq!(new(&[], P), Err(Refusal::AlphaCount));
    assert_eq!(new(&[0], P), Err(Refusal::NotBelowP));
    let mut out = [7; 2];
    assert_eq!(counted(0).accumulators(&mut out), Err(Refusal::AlphaCount));
    assert_eq!(out, [7; 2]);
    assert_eq!(counted(u64::MAX).constraint(P), Err(Refusal::NotBelowP));

    // A record as no call leaves it, of which everything is refused that can be.
    let record = FelmugoConsumer {
        count: 9,
        z_last: P,
        folded: u64::MAX,
        ..counted(0).into()
    };
    let pair = |record: FelmugoConsumer, masks: &[u64], lv: &[u64]| {
        let mut consumer = ConstraintConsumer::from(record);
        let answer = consumer.pair(masks, lv, &row);
        assert_eq!(FelmugoConsumer::from(consumer), record);
        answer
    };
    assert_eq!(pair(record, &[], &[]), Err(Refusal::RowLength));
    assert_eq!(pair(record, &[], &row), Err(Refusal::MaskCount));
    let alike = [1; MASKS];
    assert_eq!(pair(record, &alike, &row), Err(Refusal::AlphaCount));
    let record = FelmugoConsumer { count: 1, ..record };
    assert_eq!(pair(record, &alike, &[P; ROW]), Err(Refusal::MaskContents));
    assert_eq!(pair(record, &masks, &[P; ROW]), Err(Refusal::RowContents));
    assert_eq!(pair(record, &masks, &row), Err(Refusal::NotBelowP));
    let record = FelmugoConsumer {
        z_last: 0,
        ..record
    };
    assert_eq!(pair(record, &masks, &row), Err(Refusal::FoldCount));
}

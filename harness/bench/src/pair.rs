//! Times a pair: the listed Rust's evaluation and fold, and the exported entries.

use std::hint::black_box;

use felmugo::ConstraintConsumer;
use fields::{Plonky2Style, Residue};
use olavm::{Masks, Pair, Reference, COLUMNS, VALUES};
use pairs::{Class, Rng};
use plonky2::field::types::Field;

use crate::clock::{self, Work};
use crate::table;

/// The pairs of a round.
const PAIRS: u64 = 32;

/// The numbers of alphas.
const ALPHAS: [usize; 3] = [1, 2, 8];

/// A pair over plonky2's arithmetic.
struct FieldPair {
    masks: Masks,
    lv: [Plonky2Style; COLUMNS],
    nv: [Plonky2Style; COLUMNS],
}

impl From<&Pair> for FieldPair {
    fn from(pair: &Pair) -> Self {
        let of = Plonky2Style::from_canonical_u64;
        Self {
            masks: pair.masks,
            lv: pair.lv.map(of),
            nv: pair.nv.map(of),
        }
    }
}

/// Prints the time for a pair with each number of alphas, of the Rust, of the entry and of a lent
/// consumer, and the entries' times for its values and its verdict. All take turns.
pub fn report(rust: Reference) {
    let mut rng = Rng::new(0);
    let drawn: Vec<Pair> = (0..PAIRS)
        .map(|n| Class::in_turn(n).draw(&mut rng))
        .collect();
    let pairs: Vec<FieldPair> = drawn.iter().map(FieldPair::from).collect();
    let alphas = ALPHAS.map(|count| (0..count).map(|_| rng.residue()).collect::<Vec<u64>>());
    let mut theirs = ALPHAS.map(|count| vec![Plonky2Style::ZERO; count]);
    let mut ours = ALPHAS.map(|count| vec![0; count]);
    let mut consumers = alphas.each_ref().map(|alphas| consumer(alphas));

    let mut contestants: Vec<Work> = Vec::new();
    for (alphas, accs) in alphas.iter().zip(&mut theirs) {
        let (pairs, alphas) = (&pairs, elements(alphas));
        contestants.push(Box::new(move || by_rust(rust, pairs, &alphas, accs)));
    }
    for (alphas, accs) in alphas.iter().zip(&mut ours) {
        let drawn = &drawn;
        contestants.push(Box::new(move || by_entry(drawn, alphas, accs)));
    }
    for consumer in &mut consumers {
        let drawn = &drawn;
        contestants.push(Box::new(move || by_consumer(drawn, consumer)));
    }
    contestants.push(Box::new(|| values(&drawn)));
    contestants.push(Box::new(|| judged(&drawn)));
    let least = clock::least(clock::ROUNDS, &mut contestants);
    drop(contestants);
    let due = theirs.map(|accs| accs.into_iter().map(Residue::canonical).collect::<Vec<_>>());
    assert_eq!(ours, due, "the folds differ");
    assert_eq!(consumers.map(held), due, "the consumers' folds differ");
    print(&least.iter().map(|ns| ns / PAIRS as f64).collect::<Vec<_>>());
}

fn print(ns: &[f64]) {
    table::head("ns a pair");
    for (i, count) in ALPHAS.into_iter().enumerate() {
        let name = format!("folded, alphas: {count}");
        table::line(&name, ns[i], ns[ALPHAS.len() + i]);
        table::line("  into a consumer", ns[i], ns[2 * ALPHAS.len() + i]);
    }
    println!("against the Rust's fold with one alpha:");
    table::line("values", ns[0], ns[3 * ALPHAS.len()]);
    table::line("judged", ns[0], ns[3 * ALPHAS.len() + 1]);
}

fn elements(words: &[u64]) -> Vec<Plonky2Style> {
    let of = Plonky2Style::from_canonical_u64;
    words.iter().copied().map(of).collect()
}

fn by_rust(
    rust: Reference,
    pairs: &[FieldPair],
    alphas: &[Plonky2Style],
    accs: &mut [Plonky2Style],
) {
    for pair in pairs {
        let rows = [&pair.lv, &pair.nv];
        let weights = [Plonky2Style::ONE, Plonky2Style::ONE, Plonky2Style::ZERO];
        let folded = rust.fold_rows(&pair.masks, rows, weights, alphas, Some(accs));
        accs.copy_from_slice(&folded);
    }
}

fn by_entry(drawn: &[Pair], alphas: &[u64], accs: &mut [u64]) {
    for pair in drawn {
        felmugo::pair_fold(&pair.masks, &pair.lv, &pair.nv, 1, 1, alphas, accs)
            .expect("a drawn pair is accepted");
    }
}

/// A consumer of the weights of the other folds, from 0.
fn consumer(alphas: &[u64]) -> ConstraintConsumer {
    ConstraintConsumer::new(alphas, &vec![0; alphas.len()], 1, 1, 0).expect("all are below p")
}

fn by_consumer(drawn: &[Pair], consumer: &mut ConstraintConsumer) {
    for pair in drawn {
        consumer
            .pair(&pair.masks, &pair.lv, &pair.nv)
            .expect("a drawn pair is accepted, and the rounds are few");
    }
}

/// What a consumer's accumulators are at the end.
fn held(consumer: ConstraintConsumer) -> Vec<u64> {
    let mut accs = vec![0; consumer.count()];
    let handed = consumer.accumulators(&mut accs);
    handed.expect("a buffer of the count");
    accs
}

fn values(drawn: &[Pair]) {
    let mut out = [0; VALUES];
    for pair in drawn {
        felmugo::pair_values(&pair.masks, &pair.lv, &pair.nv, 1, 1, &mut out)
            .expect("a drawn pair is accepted");
        black_box(&out);
    }
}

/// Pairs whose flags are not plain are refused after they were looked at.
fn judged(drawn: &[Pair]) {
    for pair in drawn {
        let verdict = felmugo::pair_judge(&pair.masks, &pair.lv, &pair.nv, false, false);
        let _ = black_box(verdict);
    }
}

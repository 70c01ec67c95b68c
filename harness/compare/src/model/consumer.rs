//! What a consumer's calls have to answer, and leave.
//!
//! The accumulators are what the listed Rust's consumer folds. It counts no values and refuses
//! nothing: the count and number 9 are document 02's, and said here in plain numbers.

use olavm::{Consumer, Reference, VALUES};

use super::{is_not_canonical, lowest, pair_refusal};
use crate::{FelmugoConsumer, FelmugoOutcome, Rows, Yielded};

/// "It refuses with 9 a fold that would pass a count of 4,294,967,295."
pub const MAX_FOLDED: u64 = 4_294_967_295;

/// A new consumer, or the number of the refusal with a consumer of zeros.
pub fn consumer_new(alphas: &[u64], accs: &[u64], weights: [u64; 3]) -> FelmugoOutcome {
    let are_counted = (1..=8).contains(&alphas.len()) && accs.len() == alphas.len();
    let has_wrong = [alphas, accs, &weights].into_iter().any(is_not_canonical);
    let mut outcome = FelmugoOutcome {
        number: lowest(&[(4, !are_counted), (7, has_wrong)]),
        ..FelmugoOutcome::default()
    };
    if outcome.number == 0 {
        let consumer = &mut outcome.consumer;
        consumer.alphas[..alphas.len()].copy_from_slice(alphas);
        consumer.constraint_accs[..accs.len()].copy_from_slice(accs);
        consumer.count = alphas.len();
        consumer.z_last = weights[0];
        consumer.lagrange_basis_first = weights[1];
        consumer.lagrange_basis_last = weights[2];
    }
    outcome
}

/// The number of a fold into a consumer, and the consumer that it leaves.
pub fn consumer_fold(
    rust: Reference,
    consumer: FelmugoConsumer,
    yielded: Yielded,
) -> (u64, FelmugoConsumer) {
    match consumer_refusal(&consumer, yielded) {
        0 => {
            let mut theirs = lend(rust, &consumer);
            yield_to(&mut theirs, yielded);
            (0, left(consumer, yielded, &theirs.folded()))
        }
        number => (number, consumer),
    }
}

/// A consumer's accumulators, or the number of the refusal, for a buffer of a length.
pub fn consumer_accumulators(consumer: &FelmugoConsumer, length: usize) -> Result<Vec<u64>, u64> {
    let is_counted = is_counted(consumer) && length == consumer.count;
    match lowest(&[(4, !is_counted), (7, has_wrong_content(consumer))]) {
        0 => Ok(consumer.constraint_accs[..length].to_vec()),
        number => Err(number),
    }
}

/// The number with which a fold into a consumer is refused, or 0.
pub fn consumer_refusal(consumer: &FelmugoConsumer, yielded: Yielded) -> u64 {
    let folded = u128::from(consumer.folded) + u128::from(values(yielded));
    let record = [
        (4, !is_counted(consumer)),
        (7, has_wrong_content(consumer)),
        (9, folded > MAX_FOLDED.into()),
    ];
    match yielded {
        Yielded::Value(_, value) => {
            lowest(&[&record[..], &[(7, is_not_canonical(&[value]))]].concat())
        }
        Yielded::Pair(rows) => pair_refusal(rows, &record),
    }
}

/// How many values are yielded.
fn values(yielded: Yielded) -> u64 {
    match yielded {
        Yielded::Value(..) => 1,
        Yielded::Pair(_) => VALUES as u64,
    }
}

fn is_counted(consumer: &FelmugoConsumer) -> bool {
    (1..=8).contains(&consumer.count)
}

/// Places past the count are not looked at.
fn has_wrong_content(consumer: &FelmugoConsumer) -> bool {
    let alphas = consumer.alphas.iter().take(consumer.count);
    let accs = consumer.constraint_accs.iter().take(consumer.count);
    let in_use: Vec<u64> = alphas.chain(accs).copied().collect();
    is_not_canonical(&in_use) || is_not_canonical(&weights(consumer))
}

fn weights(consumer: &FelmugoConsumer) -> [u64; 3] {
    [
        consumer.z_last,
        consumer.lagrange_basis_first,
        consumer.lagrange_basis_last,
    ]
}

/// The Rust's consumer of what a record, which is not refused, has in use.
pub(crate) fn lend(rust: Reference, consumer: &FelmugoConsumer) -> Consumer {
    let alphas = &consumer.alphas[..consumer.count];
    let accs = &consumer.constraint_accs[..consumer.count];
    rust.consumer(weights(consumer), alphas, accs)
}

/// Yields what is not refused to the Rust's consumer.
pub(crate) fn yield_to(theirs: &mut Consumer, yielded: Yielded) {
    let right = "the lengths are right";
    match yielded {
        Yielded::Value(form, value) => theirs.yield_value(form, value),
        Yielded::Pair(Rows { masks, lv, nv }) => theirs.yield_pair(
            masks.try_into().expect(right),
            lv.try_into().expect(right),
            nv.try_into().expect(right),
        ),
    }
}

/// What a fold leaves of a consumer, by the Rust's accumulators and the plain count.
pub(crate) fn left(
    mut consumer: FelmugoConsumer,
    yielded: Yielded,
    accs: &[u64],
) -> FelmugoConsumer {
    consumer.constraint_accs[..accs.len()].copy_from_slice(accs);
    consumer.folded += values(yielded);
    consumer
}

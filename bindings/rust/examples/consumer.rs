//! The pair of zero rows of document 01, folded into a consumer that is stored between two calls.

use felmugo::flat::FelmugoConsumer;
use felmugo::{ConstraintConsumer, Refusal, MASKS, ROW};

const ROW_OF_ZEROS: [u64; ROW] = [0; ROW];

fn main() -> Result<(), Refusal> {
    let masks: [u64; MASKS] = std::array::from_fn(|i| 1 << i);
    // The row is the first and the last of its run.
    let (z_last, lagrange_basis_first, lagrange_basis_last) = (0, 1, 1);
    let mut consumer = ConstraintConsumer::new(
        &[0, 1, 2],
        &[0; 3],
        z_last,
        lagrange_basis_first,
        lagrange_basis_last,
    )?;
    consumer.pair(&masks, &ROW_OF_ZEROS, &ROW_OF_ZEROS)?;
    print(&consumer)?;
    // A value of a later table, which holds on the last row.
    let record = FelmugoConsumer::from(consumer);
    let mut consumer = ConstraintConsumer::from(record);
    consumer.constraint_last_row(5)?;
    print(&consumer)
}

fn print(consumer: &ConstraintConsumer) -> Result<(), Refusal> {
    let mut accs = vec![0; consumer.count()];
    consumer.accumulators(&mut accs)?;
    println!("after {} values: {accs:?}", consumer.folded());
    Ok(())
}

//! Writes a sample of the listed Rust's answers to standard output, to be replayed elsewhere.
//!
//! A record is a series of 64-bit words, low byte first: the masks, the current row, the next
//! row, z_last, lagrange_basis_first and the values.

use std::io::{self, Write};

use olavm::{Pair, Reference, Values, COLUMNS, SOURCE_MISSING};
use pairs::kinds::Kind;
use pairs::{masks, Class, Rng};

fn main() -> io::Result<()> {
    let Some(rust) = Reference::find() else {
        eprintln!("{SOURCE_MISSING}");
        return Ok(());
    };
    let mut out = io::BufWriter::new(io::stdout().lock());
    for pair in sampled_pairs() {
        for word in record(&pair, &rust.values(&pair)) {
            out.write_all(&word.to_le_bytes())?;
        }
    }
    out.flush()
}

/// The zero rows under plain masks, then pairs of every class and kind.
fn sampled_pairs() -> impl Iterator<Item = Pair> {
    let zero = Pair {
        masks: masks::plain(),
        lv: [0; COLUMNS],
        nv: [0; COLUMNS],
        z_last: 1,
        lagrange_basis_first: 1,
    };
    let others = [
        Class::Random,
        Class::Random,
        Class::Limits,
        Class::Limits,
        Class::Mixed,
        Class::Mixed,
        Class::PlainFlags,
        Class::PlainFlags,
        Class::Run,
    ];
    let classes = (Kind::ALL.into_iter().map(Class::Kept))
        .chain(Kind::ALL.into_iter().map(Class::Damaged))
        .chain(others);
    let mut rng = Rng::new(0);
    std::iter::once(zero).chain(classes.map(move |class| class.draw(&mut rng)))
}

fn record(pair: &Pair, values: &Values) -> Vec<u64> {
    [
        &pair.masks[..],
        &pair.lv,
        &pair.nv,
        &[pair.z_last, pair.lagrange_basis_first],
        values,
    ]
    .concat()
}

#[cfg(test)]
mod tests {
    use super::*;

    #[test]
    fn there_are_48_records_of_441_words() {
        let records = sampled_pairs().map(|pair| record(&pair, &[0; olavm::VALUES]));
        let lengths: Vec<usize> = records.map(|record| record.len()).collect();
        assert_eq!(lengths, [441; 48]);
    }
}

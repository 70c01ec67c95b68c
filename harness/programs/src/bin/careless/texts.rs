//! Texts that are not quite those of faults.

use std::fmt::Display;

use fields::{signed, GREATEST, P};
use olavm::Values;

type OfPair = fn(usize, &Values) -> String;

/// The text of a sort, if there is such a sort.
pub fn of_sort(sort: &str) -> Option<OfPair> {
    let of_pair: OfPair = match sort {
        "first" => |pair, values| lines(pair, nonzero(values).take(1), signed),
        "zeros" => |pair, values| {
            let is_clean = nonzero(values).next().is_none();
            lines(pair, numbered(values).filter(|_| !is_clean), signed)
        },
        "falling" => |pair, values| lines(pair, nonzero(values).rev(), signed),
        "twice" => |pair, values| lines(pair, nonzero(values).flat_map(|v| [v, v]), signed),
        "from 0" => |pair, values| lines(pair, nonzero(values).map(|(n, v)| (n - 1, v)), signed),
        "other pair" => |pair, values| lines(pair + 1, nonzero(values), signed),
        "residues" => |pair, values| lines(pair, nonzero(values), |residue| residue),
        "no sign" => |pair, values| lines(pair, nonzero(values), |residue| signed(residue).abs()),
        "minus 2^64" => |pair, values| lines(pair, nonzero(values), |residue| residue as i64),
        "bound below" => |pair, values| lines(pair, nonzero(values), |v| bounded(v, GREATEST - 1)),
        "bound above" => |pair, values| lines(pair, nonzero(values), |v| bounded(v, GREATEST + 1)),
        "bound of i64" => {
            |pair, values| lines(pair, nonzero(values), |v| bounded(v, i64::MAX.into()))
        }
        _ => return None,
    };
    Some(of_pair)
}

/// The values with their numbers.
fn numbered(values: &Values) -> impl DoubleEndedIterator<Item = (usize, u64)> + '_ {
    values.iter().enumerate().map(|(i, value)| (i + 1, *value))
}

/// Those that are not 0.
fn nonzero(values: &Values) -> impl DoubleEndedIterator<Item = (usize, u64)> + '_ {
    numbered(values).filter(|(_, value)| *value != 0)
}

/// A line for each number and value, which is printed in a form.
fn lines<T: Display>(
    pair: usize,
    values: impl Iterator<Item = (usize, u64)>,
    form: impl Fn(u64) -> T,
) -> String {
    values
        .map(|(number, value)| format!("{pair} {number} {}\n", form(value)))
        .collect()
}

/// A residue up to a bound as it is, a larger one as itself minus p.
fn bounded(residue: u64, bound: i128) -> i128 {
    match i128::from(residue) {
        residue if residue <= bound => residue,
        residue => residue - i128::from(P),
    }
}

//! Compares one call with what it has to answer.

use olavm::{Values, VALUES};
use pairs::Rng;

use crate::{Call, Entries};

/// Calls into a buffer of the given length and random content, of which a refused call may
/// alter nothing and an accepted one only the first places.
pub(crate) fn compare(
    entries: &dyn Entries,
    call: Call,
    expected: &Result<Values, u64>,
    buffer: usize,
    rng: &mut Rng,
) -> Result<(), String> {
    let mut due: Vec<u64> = (0..buffer).map(|_| rng.word()).collect();
    let mut out = due.clone();
    let number = entries.pair_values(call, &mut out);
    let due_number = match expected {
        Ok(values) => {
            due[..VALUES].copy_from_slice(values);
            0
        }
        Err(number) => *number,
    };
    if number != due_number {
        return Err(format!("the number is {number}, not {due_number}"));
    }
    match (0..buffer).find(|i| out[*i] != due[*i]) {
        Some(i) => Err(format!("value {} is {}, not {}", i + 1, out[i], due[i])),
        None => Ok(()),
    }
}

//! Inputs of the programs: masks, then rows, each value 8 bytes, low byte first.

use olavm::{COLUMNS, MASKS};
use pairs::Run;

/// The bytes of a value.
pub const VALUE_BYTES: usize = 8;
/// The bytes of the masks.
pub const MASK_BYTES: usize = MASKS * VALUE_BYTES;
/// The bytes of a row.
pub const ROW_BYTES: usize = COLUMNS * VALUE_BYTES;

/// The bytes of numbers.
pub fn bytes(numbers: &[u64]) -> Vec<u8> {
    numbers.iter().flat_map(|n| n.to_le_bytes()).collect()
}

/// The numbers of bytes, as many as are whole.
pub fn numbers(bytes: &[u8]) -> Vec<u64> {
    let number = |bytes: &[u8]| u64::from_le_bytes(bytes.try_into().expect("8 bytes"));
    bytes.chunks_exact(VALUE_BYTES).map(number).collect()
}

/// The input of a run.
pub fn of_run(run: &Run) -> Vec<u8> {
    let mut input = bytes(&run.masks);
    input.extend(run.rows.iter().flat_map(|row| bytes(row)));
    input
}

//! Inputs of which values are chosen numbers, for a program that prints values.

use fields::{signed, unsigned, GREATEST};
use pairs::columns::{CALL_SC_CNT, CLK, ENV_IDX, FILTER_SCCALL_END, IS_EXT_LINE, PC, REGS};
use pairs::kinds::Kind;
use pairs::{cells, masks, Rng, Run};

use crate::cases::{zero_run, Case};
use crate::input::of_run;

/// The numbers of a row that are chosen.
const IN_A_ROW: usize = 14;

/// The rows with values that are not 0 wherever a value can be: so many that the output is no longer
/// than a stored case may be.
const MANY: usize = 9;

/// The small inputs.
pub fn fixed() -> Vec<Case> {
    let mut cases = vec![many_faults(), longest_line()];
    for number in [-1, GREATEST - 1, GREATEST, -GREATEST, 1 - GREATEST] {
        let name = format!("one row with a value {number}");
        cases.push(Case::new(name, of_run(&run(&[unsigned(number)]))));
    }
    cases.push(Case::new("edges", of_run(&run(&edges()))));
    cases
}

/// A random input of 1 to 6 rows with chosen values at the edges or near them, mostly where the sign
/// changes.
pub fn random(seed: u64) -> Case {
    let mut rng = Rng::new(seed);
    let edges = edges();
    let count = 1 + rng.below(6 * IN_A_ROW);
    let mut near = || {
        let edge = match rng.flip() {
            true => rng.pick(&[0, GREATEST]),
            false => signed(rng.pick(&edges)),
        };
        unsigned(edge + rng.below(5) as i128 - 2)
    };
    let numbers: Vec<u64> = (0..count).map(|_| near()).collect();
    let name = format!("seed {seed}, {count} numbers near the edges");
    Case::new(name, of_run(&run(&numbers)))
}

/// Where the sign changes, or the count of digits, and where the top bit of a number does.
pub fn edges() -> Vec<u64> {
    let powers = (1..=18).map(|n| 10i128.pow(n));
    let digits = powers.flat_map(|power| [power - 1, power]);
    let above = digits.chain([1, 2, GREATEST - 1, GREATEST]);
    let both = above.flat_map(|n| [unsigned(n), unsigned(-n)]);
    let top = 1 << 63;
    both.chain([top - 1, top, top + 1]).collect()
}

/// A run of rows that are zero but for the chosen numbers. Each is a value of its own: in the first
/// row, of pair 0 (values 9 to 22); in another, of the pair before (values 24, 25 and 27 to 38), since no
/// row says that the next one is of the same transaction.
pub fn run(numbers: &[u64]) -> Run {
    let columns = || [ENV_IDX, CALL_SC_CNT, CLK, PC].into_iter().chain(REGS);
    let mut run = zero_run(numbers.len().div_ceil(IN_A_ROW));
    for (row, numbers) in run.rows.iter_mut().zip(numbers.chunks(IN_A_ROW)) {
        for (column, number) in columns().zip(numbers) {
            row[column] = *number;
        }
    }
    run
}

/// Random rows: of the first pair no value is 0.
fn many_faults() -> Case {
    let mut rng = Rng::new(1);
    let masks = masks::random(&mut rng);
    let rows = (0..MANY).map(|_| cells::row(&mut rng, Rng::residue));
    let run = Run {
        masks,
        rows: rows.collect(),
    };
    Case::new(format!("{MANY} random rows"), of_run(&run))
}

/// The last value is 1 − FILTER_SCCALL_END in an extension row of END: here it is the least number.
fn longest_line() -> Case {
    let mut run = zero_run(1);
    let row = &mut run.rows[0];
    row[Kind::End.selector()] = 1;
    row[IS_EXT_LINE] = 1;
    row[FILTER_SCCALL_END] = unsigned(1 + GREATEST);
    Case::new("the least number as the last value", of_run(&run))
}

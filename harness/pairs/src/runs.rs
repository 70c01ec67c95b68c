//! Whole runs that keep every rule.

use olavm::{Masks, Pair, Row, COLUMNS};

use crate::columns::*;
use crate::current::complete;
use crate::demands::Demands;
use crate::kinds::Kind;
use crate::plan::{plan, Step};
use crate::rng::Rng;
use crate::scenario::Scenario;
use crate::{cells, context, masks, next};

/// The most rows of a run.
pub const MAX_ROWS: usize = 65_536;

/// The rows of a run under their masks.
#[derive(Clone, Debug)]
pub struct Run {
    /// The supplied masks.
    pub masks: Masks,
    /// One row or more.
    pub rows: Vec<Row>,
}

impl Run {
    /// A run of `length` rows all of whose pairs have only values that are 0.
    pub fn draw(rng: &mut Rng, length: usize) -> Self {
        let masks = masks::any(rng);
        let plan = plan(rng, length);
        let ends_in_call = plan[length - 1].kind == Kind::CallSc;

        let mut row = cells::row(rng, cells::any);
        context::clear(&mut row);
        if ends_in_call {
            row[TP] = CALL_SC_TAPE;
        }
        let mut rows: Vec<Row> = Vec::with_capacity(length);
        for i in 0..length {
            let scenario = scenario(rng, &plan, i);
            if ends_in_call && scenario.last {
                for column in ADDR_STORAGE.chain(ADDR_CODE) {
                    row[column] = rows[0][column];
                }
            }
            let demands = demands(rng, &plan[i], &scenario, &row);
            complete(rng, &scenario, &masks, demands, &mut row);
            rows.push(row);
            row = next::draw(rng, &scenario, &row);
        }
        Self { masks, rows }
    }

    /// The run of 25 masks and of whole rows one after the other.
    pub fn of_words(masks: &[u64], rows: &[u64]) -> Self {
        let row = |row: &[u64]| row.try_into().expect("rows are whole");
        Self {
            masks: masks.try_into().expect("there are 25 masks"),
            rows: rows.chunks(COLUMNS).map(row).collect(),
        }
    }

    /// The pair of row `i` and the row after it; the last row's pair returns to row 0.
    pub fn pair(&self, i: usize) -> Pair {
        let last = i + 1 == self.rows.len();
        Pair {
            masks: self.masks,
            lv: self.rows[i],
            nv: self.rows[if last { 0 } else { i + 1 }],
            z_last: (!last).into(),
            lagrange_basis_first: (i == 0).into(),
        }
    }

    /// The rows one after the other.
    pub fn words(&self) -> Vec<u64> {
        self.rows.concat()
    }

    /// Alters a few cells, or puts random rows or copies in the place of a few.
    pub fn damage(&mut self, rng: &mut Rng) {
        let rows = &mut self.rows;
        let many = 1 + rows.len() / 8;
        for _ in 0..1 + rng.below(many) {
            let (i, other) = (rng.below(rows.len()), rng.below(rows.len()));
            match rng.below(8) {
                0 => rows[i] = cells::row(rng, cells::any),
                1 => rows[i] = rows[other],
                2 => rows.swap(i, other),
                _ => {
                    let column = rng.below(COLUMNS);
                    cells::alter(rng, &mut rows[i][column]);
                }
            }
        }
    }

    /// The pairs of all rows.
    pub fn pairs(&self) -> impl Iterator<Item = Pair> + '_ {
        (0..self.rows.len()).map(|i| self.pair(i))
    }
}

/// How far CALL_SC moves TP.
const CALL_SC_TAPE: u64 = 12;

fn scenario(rng: &mut Rng, plan: &[Step], i: usize) -> Scenario {
    let last = i + 1 == plan.len();
    let (step, next) = (plan[i], plan[if last { 0 } else { i + 1 }]);
    let ends_tx = step.kind == Kind::End && step.entry;
    Scenario {
        kind: step.kind,
        ext: step.ext,
        pad: step.pad,
        entry: step.entry,
        diff: !next.ext,
        same: !last && (!ends_tx || next.pad && rng.flip()),
        op1_imm: step.op1_imm,
        taken: step.taken,
        next_kind: next.kind,
        next_ext: next.ext,
        next_pad: next.pad,
        first: i == 0,
        last,
    }
}

fn demands(rng: &mut Rng, step: &Step, scenario: &Scenario, row: &Row) -> Demands {
    let count = step.ext_rows as u64;
    match step.kind {
        Kind::Tstore => Demands {
            op1: Some(count),
            ..Demands::default()
        },
        Kind::Tload if count == 1 && rng.flip() => Demands {
            op0: Some(0),
            ..Demands::default()
        },
        Kind::Tload => Demands {
            op0: Some(1),
            op1: Some(count),
            ..Demands::default()
        },
        // DST is a register of row 0.
        _ if scenario.last => Demands {
            dst: Some(0),
            ..Demands::default()
        },
        _ => Demands::draw(rng, scenario, row),
    }
}

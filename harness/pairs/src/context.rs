//! The context of a kept pair's current row: the columns that the next row takes over.

use fields::P;
use olavm::Row;

use crate::cells;
use crate::columns::*;
use crate::kinds::Kind;
use crate::rng::Rng;
use crate::scenario::Scenario;

/// A row of random residues with a context from which the scenario's next row can be reached.
pub fn draw(rng: &mut Rng, s: &Scenario) -> Row {
    let mut row = cells::row(rng, cells::any);
    if s.first {
        clear(&mut row);
    }
    // ENV_IDX' is 0, and a copy.
    if s.entry || s.starts_tx() {
        if s.enters_callee() {
            row[CALL_SC_CNT] = 0;
        } else if s.keeps_env_idx() {
            row[ENV_IDX] = 0;
        }
    }
    // CALL_SC_CNT' is 0, and a copy.
    if s.starts_tx() && s.kind == Kind::CallSc {
        row[CALL_SC_CNT] = 0;
    }
    // CLK' is 0, and a copy.
    if (s.starts_tx() || s.enters_callee()) && s.keeps_clk() {
        row[CLK] = 0;
    }
    // PC' is 0, and a copy or the next place.
    if s.starts_tx() && s.keeps_pc() {
        row[PC] = 0;
    } else if s.starts_tx() && s.sets_pc() && !s.jumps() {
        row[PC] = P - s.size();
    }
    // A register' is 0, and a copy.
    if s.starts_tx() {
        for (i, column) in REGS.enumerate() {
            if !s.frees_register(i) {
                row[column] = 0;
            }
        }
    }
    set_tp(rng, s, &mut row);
    row
}

/// Sets to 0 what is 0 on a run's first row.
pub fn clear(row: &mut Row) {
    for column in [TX_IDX, ENV_IDX, CALL_SC_CNT, CLK, PC]
        .into_iter()
        .chain(REGS)
    {
        row[column] = 0;
    }
}

/// TP where TP' is both a copy of it and something else.
fn set_tp(rng: &mut Rng, s: &Scenario, row: &mut Row) {
    let is_kept = s.next_kind == Kind::CallSc || s.kind == Kind::Tstore && s.next_ext;
    if s.starts_tx() {
        if s.kind == Kind::CallSc && s.ext {
            row[TP] = P - 12;
        } else if is_kept {
            row[TP] = 0;
        }
    } else if s.ties_tp_to_r0() && is_kept {
        row[TP] = 1 + rng.below(2) as u64;
    }
}

//! The next row of a kept pair: what the current row tells of it, the rest random.

use olavm::Row;

use crate::cells;
use crate::columns::*;
use crate::current::choose;
use crate::kinds::Kind;
use crate::residues::{add, sub};
use crate::rng::Rng;
use crate::scenario::Scenario;

/// A row that may follow the completed row `lv`.
pub fn draw(rng: &mut Rng, s: &Scenario, lv: &Row) -> Row {
    let mut nv = cells::row(rng, cells::any);
    nv[IS_EXT_LINE] = s.next_ext.into();
    nv[IS_PADDING] = s.next_pad.into();
    choose(&mut nv, SELECTORS, Some(s.next_kind as usize));
    set_transaction(s, lv, &mut nv);
    set_addresses(s, lv, &mut nv);
    set_tp(s, lv, &mut nv);
    set_clk_and_pc(s, lv, &mut nv);
    set_registers(s, lv, &mut nv);
    if s.next_ext {
        set_ext(s, lv, &mut nv);
    }
    match s.kind {
        Kind::Tload | Kind::Tstore => set_tape(s, lv, &mut nv),
        Kind::CallSc if !s.ext => set_caller(lv, &mut nv),
        Kind::End if !s.last && !s.diff => {
            nv[AUX0] = lv[ENV_IDX];
            nv[AUX1] = lv[CLK];
        }
        _ => {}
    }
    nv
}

fn keep(lv: &Row, nv: &mut Row, columns: impl IntoIterator<Item = usize>) {
    for column in columns {
        nv[column] = lv[column];
    }
}

/// TX_IDX, ENV_IDX and CALL_SC_CNT.
fn set_transaction(s: &Scenario, lv: &Row, nv: &mut Row) {
    if s.same && !(s.last && s.next_pad) {
        nv[TX_IDX] = lv[TX_IDX];
    } else if s.starts_tx() && !s.next_pad {
        nv[TX_IDX] = add(lv[TX_IDX], 1);
    }

    if s.entry || s.starts_tx() {
        nv[ENV_IDX] = 0;
    } else if s.enters_callee() {
        nv[ENV_IDX] = lv[CALL_SC_CNT];
    } else if s.keeps_env_idx() {
        nv[ENV_IDX] = lv[ENV_IDX];
    }

    if s.starts_tx() {
        nv[CALL_SC_CNT] = 0;
    } else if s.enters_callee() {
        nv[CALL_SC_CNT] = add(lv[CALL_SC_CNT], 1);
    } else if !s.last || s.kind == Kind::CallSc {
        nv[CALL_SC_CNT] = lv[CALL_SC_CNT];
    }
}

fn set_addresses(s: &Scenario, lv: &Row, nv: &mut Row) {
    if s.enters_callee() || !s.last && !s.next_pad && s.stays_in_env() {
        keep(lv, nv, ADDR_STORAGE.chain(ADDR_CODE));
    }
}

fn set_tp(s: &Scenario, lv: &Row, nv: &mut Row) {
    if s.sets_tp() {
        nv[TP] = add(lv[S_OP0.start], 1);
    } else if s.kind == Kind::CallSc && s.ext {
        nv[TP] = add(lv[TP], 12);
    } else if s.starts_tx() {
        nv[TP] = 0;
    } else if s.same || s.kind == Kind::Tstore || s.next_kind == Kind::CallSc {
        nv[TP] = lv[TP];
    }
}

fn set_clk_and_pc(s: &Scenario, lv: &Row, nv: &mut Row) {
    let restarts = s.starts_tx() || s.enters_callee();

    if restarts {
        nv[CLK] = 0;
    } else if s.keeps_clk() {
        nv[CLK] = lv[CLK];
    } else if s.same && s.stays_in_env() {
        nv[CLK] = add(lv[CLK], 1);
    }

    if restarts {
        nv[PC] = 0;
    } else if s.keeps_pc() {
        nv[PC] = lv[PC];
    } else if s.sets_pc() {
        nv[PC] = match s.kind {
            Kind::Ret => lv[DST],
            _ if s.jumps() => lv[OP1],
            _ => add(lv[PC], s.size()),
        };
    }
}

fn set_registers(s: &Scenario, lv: &Row, nv: &mut Row) {
    for (i, register) in REGS.enumerate() {
        let is_dst = lv[S_DST.start + i] == 1;
        if s.starts_tx() || s.enters_callee() {
            nv[register] = 0;
        } else if is_dst && !s.ext {
            nv[register] = lv[DST];
        } else if !is_dst && !s.last && !s.frees_register(i) {
            nv[register] = lv[register];
        }
    }
}

/// What every extension row takes over.
fn set_ext(s: &Scenario, lv: &Row, nv: &mut Row) {
    keep(lv, nv, [OPCODE, OP1_IMM]);
    if s.kind.is_ext_kind() {
        nv[EXT_CNT] = add(lv[EXT_CNT], 1);
    }
}

/// What TLOAD and TSTORE tell of the next row.
fn set_tape(s: &Scenario, lv: &Row, nv: &mut Row) {
    if s.next_ext {
        keep(lv, nv, [OP0, OP1]);
    }
    if s.ext {
        if s.next_ext {
            nv[AUX0] = add(lv[AUX0], 1);
            nv[S_OP0.start] = add(lv[S_OP0.start], 1);
        }
    } else if s.kind == Kind::Tstore {
        nv[AUX0] = lv[OP0];
        nv[S_OP0.start] = lv[TP];
    } else {
        nv[AUX0] = lv[DST];
        nv[S_OP0.start] = match lv[OP0] {
            0 => lv[OP1],
            _ => sub(lv[TP], lv[OP1]),
        };
    }
}

/// What a main row of CALL_SC tells of the next row.
fn set_caller(lv: &Row, nv: &mut Row) {
    let limbs = ADDR_STORAGE.len();
    for i in 0..limbs {
        nv[S_OP0.start + i] = lv[ADDR_STORAGE.start + i];
        nv[S_OP0.start + limbs + i] = lv[ADDR_CODE.start + i];
    }
    keep(lv, nv, [OP0, OP1]);
}

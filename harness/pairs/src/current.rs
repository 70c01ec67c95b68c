//! The current row of a kept pair: its own columns, solved from its context.

use std::ops::Range;

use olavm::{Masks, Row};

use crate::cells;
use crate::columns::*;
use crate::demands::Demands;
use crate::kinds::Kind;
use crate::masks;
use crate::residues::{add, div, mul, sub};
use crate::rng::Rng;
use crate::scenario::Scenario;

/// Completes a row whose context is given, and of an extension row also what its
/// predecessor tells.
pub fn complete(rng: &mut Rng, s: &Scenario, masks: &Masks, demands: Demands, row: &mut Row) {
    let opcodes = s.kind.masks();
    let opcode = opcodes.start + rng.below(opcodes.len());
    row[OPCODE] = masks[opcode];
    set_flags(s, row);
    if s.ext {
        complete_ext(s, row);
    } else {
        complete_main(rng, s, opcode, demands, row);
    }
    if s.closes() {
        row[EXT_CNT] = length(s, row);
    } else if s.kind.is_ext_kind() && !s.ext {
        row[EXT_CNT] = 0;
    }
}

fn set_flags(s: &Scenario, row: &mut Row) {
    row[IS_EXT_LINE] = s.ext.into();
    row[IS_PADDING] = s.pad.into();
    row[IS_ENTRY_SC] = s.entry.into();
    row[IS_NEXT_LINE_DIFF_INST] = s.diff.into();
    row[IS_NEXT_LINE_SAME_TX] = s.same.into();
    row[OP1_IMM] = s.op1_imm.into();
    row[FILTER_TAPE_LOOKING] = (s.ext && s.kind.is_tape_kind()).into();
    row[IS_SCCALL_EXT_LINE] = (s.ext && s.kind == Kind::CallSc).into();
    row[FILTER_SCCALL_END] = (s.ext && s.kind == Kind::End).into();
    let has_immediate = s.op1_imm || matches!(s.kind, Kind::Mload | Kind::Mstore);
    if s.pad == s.ext && has_immediate {
        row[FILTER_LOOKING_PROG_IMM] = 1;
    }
    choose(row, SELECTORS, Some(s.kind as usize));
}

/// Sets one column of a group to 1, the others to 0.
pub fn choose(row: &mut Row, group: Range<usize>, chosen: Option<usize>) {
    for (i, column) in group.enumerate() {
        row[column] = (chosen == Some(i)).into();
    }
}

fn complete_ext(s: &Scenario, row: &mut Row) {
    // TP' is one more than S_OP0[0], and either 0 or a copy.
    if s.sets_tp() && s.starts_tx() {
        row[S_OP0.start] = sub(0, 1);
    } else if s.sets_tp() && s.next_kind == Kind::CallSc {
        row[S_OP0.start] = sub(row[TP], 1);
    }
}

fn complete_main(rng: &mut Rng, s: &Scenario, opcode: usize, demands: Demands, row: &mut Row) {
    let regs = &row[REGS];
    let mut op0 = Operand::draw(rng, regs, demands.op0);
    let op1 = match opcode {
        masks::ASSERT => Operand::draw(rng, regs, Some(1)),
        masks::EQ | masks::NEQ if rng.one_in(4) => Operand::draw(rng, regs, Some(op0.value)),
        _ => Operand::draw(rng, regs, demands.op1),
    };
    // TP' is one more than r0's selector, and a copy.
    if s.ties_tp_to_r0() && s.next_kind == Kind::CallSc {
        op0 = match row[TP] {
            2 => Operand {
                value: regs[0],
                register: Some(0),
            },
            _ => Operand {
                register: None,
                ..op0
            },
        };
    }
    row[OP0] = op0.value;
    row[OP1] = op1.value;
    if s.op1_imm {
        row[IMM_VAL] = op1.value;
    }
    set_dst(rng, s, opcode, demands.dst, row);
    // DST is a register of the next row, where they may be 0.
    let may_have_dst = !s.starts_tx() || row[DST] == 0;
    let dst_register = (may_have_dst && !rng.one_in(4)).then(|| rng.below(REGS.len()));
    choose(row, S_OP0, op0.register);
    choose(row, S_OP1, op1.register);
    choose(row, S_DST, dst_register);
    row[INST] = instruction(row);
}

/// An operand, and the register that it is read from.
#[derive(Clone, Copy)]
struct Operand {
    value: u64,
    register: Option<usize>,
}

impl Operand {
    /// The demanded value, or that of a register, or any; with a register that holds it.
    fn draw(rng: &mut Rng, regs: &[u64], demanded: Option<u64>) -> Self {
        let value = demanded.unwrap_or_else(|| {
            if rng.flip() {
                rng.pick(regs)
            } else {
                cells::any(rng)
            }
        });
        let start = rng.below(regs.len());
        let register = (0..regs.len())
            .map(|i| (start + i) % regs.len())
            .find(|i| regs[*i] == value)
            .filter(|_| !rng.one_in(4));
        Self { value, register }
    }
}

/// DST, with AUX0 where the two are tied.
fn set_dst(rng: &mut Rng, s: &Scenario, opcode: usize, demanded: Option<u64>, row: &mut Row) {
    let (op0, op1) = (row[OP0], row[OP1]);
    row[DST] = match opcode {
        masks::ADD => add(op0, op1),
        masks::MUL => mul(op0, op1),
        masks::EQ | masks::NEQ => {
            let (equal, aux0) = equality(rng, sub(op0, op1), row[AUX0]);
            row[AUX0] = aux0;
            if opcode == masks::EQ {
                equal
            } else {
                sub(1, equal)
            }
        }
        _ => demanded.unwrap_or_else(|| match s.starts_tx() && rng.flip() {
            true => 0,
            false => cells::any(rng),
        }),
    };
}

/// A result r and AUX0 with r·d + (1 − r)(1 − d·AUX0) = 0. For d not 0 the rules let r be
/// any number but 1; mostly it is the 0 that is meant.
fn equality(rng: &mut Rng, d: u64, aux0: u64) -> (u64, u64) {
    if d == 0 {
        return (1, aux0);
    }
    let result = match cells::any(rng) {
        odd if odd != 1 && rng.one_in(4) => odd,
        _ => 0,
    };
    let share = div(mul(result, d), sub(1, result));
    (result, div(add(1, share), d))
}

/// G: the instruction word of a main row.
fn instruction(row: &Row) -> u64 {
    let bits = |group: Range<usize>, shift: usize| {
        (0..group.len()).map(move |i| mul(row[group.start + i], 1 << (shift + i)))
    };
    [mul(row[OP1_IMM], 1 << 62), row[OPCODE]]
        .into_iter()
        .chain(bits(S_OP0, 52))
        .chain(bits(S_OP1, 42))
        .chain(bits(S_DST, 32))
        .fold(0, add)
}

/// The number of extension rows that the row's kind has.
fn length(s: &Scenario, row: &Row) -> u64 {
    match s.kind {
        Kind::Sload | Kind::Sstore | Kind::CallSc => 1,
        Kind::Tload => sub(add(mul(row[OP0], row[OP1]), 1), row[OP0]),
        Kind::Tstore => row[OP1],
        Kind::End => (!s.entry).into(),
        _ => 0,
    }
}

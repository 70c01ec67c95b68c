//! What is decided of a kept pair before its columns are solved.

use crate::kinds::Kind;
use crate::rng::Rng;

/// The register that K treats apart.
const FRAME_POINTER: usize = 9;

/// The kind and the flags of a pair, and where it stands in its run.
#[derive(Clone, Copy, Debug, PartialEq, Eq)]
pub struct Scenario {
    /// Kind of the current row.
    pub kind: Kind,
    /// The current row is an extension row.
    pub ext: bool,
    /// The current row is padding.
    pub pad: bool,
    /// IS_ENTRY_SC.
    pub entry: bool,
    /// IS_NEXT_LINE_DIFF_INST.
    pub diff: bool,
    /// IS_NEXT_LINE_SAME_TX.
    pub same: bool,
    /// OP1_IMM.
    pub op1_imm: bool,
    /// OP0 of a CJMP.
    pub taken: bool,
    /// Kind of the next row.
    pub next_kind: Kind,
    /// The next row is an extension row.
    pub next_ext: bool,
    /// The next row is padding.
    pub next_pad: bool,
    /// The current row is the first of its run.
    pub first: bool,
    /// The current row is the last of its run.
    pub last: bool,
}

impl Scenario {
    /// A scenario of the kind that some pair keeps.
    pub fn draw(rng: &mut Rng, kind: Kind) -> Self {
        loop {
            let next_ext = rng.flip();
            let scenario = Self {
                kind,
                ext: kind.is_ext_kind() && rng.flip(),
                pad: kind == Kind::End && rng.flip(),
                entry: rng.flip(),
                diff: rng.flip(),
                same: rng.flip(),
                op1_imm: rng.flip(),
                taken: rng.flip(),
                next_kind: if next_ext || rng.one_in(4) {
                    kind
                } else {
                    rng.pick(&Kind::ALL)
                },
                next_ext,
                next_pad: rng.one_in(3),
                first: rng.one_in(4),
                last: rng.one_in(4),
            };
            if scenario.is_possible() {
                return scenario;
            }
        }
    }

    /// Whether some pair of this scenario keeps every rule.
    fn is_possible(&self) -> bool {
        let end = self.kind == Kind::End;
        let call_sc = self.kind == Kind::CallSc;
        let impossible = [
            // D: only ext kinds have ext rows, and a row before an ext row has its kind.
            self.ext && !self.kind.is_ext_kind(),
            self.next_ext && self.next_kind != self.kind,
            // A: padding rows are END and reach to the end of the run.
            self.pad && !end,
            !self.last && self.pad && !self.next_pad,
            // B, C: TX_IDX cannot both stay and grow.
            !self.last && !self.next_pad && !end && !self.same,
            !self.last && !self.next_pad && end && self.entry && self.same,
            // A, D: EXT_CNT of a main row is 0, so that a length of 1 is not reached there.
            !self.ext && self.closes() && self.is_length_one(),
            // B, E: ENV_IDX' and CALL_SC_CNT' cannot both be 0.
            self.enters_callee() && self.starts_tx(),
            // M: TP' cannot both stay and grow by 12.
            call_sc && self.ext && self.same && self.next_kind != Kind::CallSc,
            // M: TP' is r0's selector plus 1, so not 0.
            self.ties_tp_to_r0() && self.starts_tx(),
            // B, J: PC' is the size, so not 0.
            self.first && self.starts_tx() && self.sets_pc() && !self.jumps(),
        ];
        !impossible.contains(&true)
    }

    /// B: the next row begins a transaction, so that its context is 0.
    pub fn starts_tx(&self) -> bool {
        !self.last && !self.same
    }

    /// E, N: the next row is a callee's first.
    pub fn enters_callee(&self) -> bool {
        self.kind == Kind::CallSc && self.diff
    }

    /// A, D: EXT_CNT has to be the kind's length.
    pub fn closes(&self) -> bool {
        self.diff || self.kind.is_ext_kind() && !self.next_ext
    }

    fn is_length_one(&self) -> bool {
        match self.kind {
            Kind::Sload | Kind::Sstore | Kind::CallSc => true,
            Kind::End => !self.entry,
            _ => false,
        }
    }

    /// Neither END nor CALL_SC: the row's context goes on.
    pub fn stays_in_env(&self) -> bool {
        !matches!(self.kind, Kind::End | Kind::CallSc)
    }

    /// E: ENV_IDX' is ENV_IDX.
    pub fn keeps_env_idx(&self) -> bool {
        match self.kind {
            Kind::CallSc => !self.diff,
            Kind::End => self.ext,
            _ => true,
        }
    }

    /// N: an END row that goes on keeps PC and CLK.
    pub fn keeps_pc(&self) -> bool {
        self.kind == Kind::End && self.ext && !self.diff
    }

    /// I, N: CLK' is CLK.
    pub fn keeps_clk(&self) -> bool {
        self.keeps_pc() || self.next_ext && self.kind != Kind::End
    }

    /// J: PC' is told by the instruction.
    pub fn sets_pc(&self) -> bool {
        !self.next_ext && self.stays_in_env()
    }

    /// J: PC' is an operand, not PC plus the size.
    pub fn jumps(&self) -> bool {
        match self.kind {
            Kind::Jmp | Kind::Call | Kind::Ret => true,
            Kind::Cjmp => self.taken,
            _ => false,
        }
    }

    /// J: how far PC advances.
    pub fn size(&self) -> u64 {
        match self.kind {
            Kind::Mload | Kind::Mstore => 2,
            _ => 1 + self.op1_imm as u64,
        }
    }

    /// K: the register may change whatever S_DST says.
    pub fn frees_register(&self, register: usize) -> bool {
        let frame_pointer = register == FRAME_POINTER;
        match self.kind {
            Kind::CallSc => self.diff,
            Kind::End => frame_pointer || !self.ext,
            Kind::Ret => frame_pointer,
            Kind::Sload | Kind::Poseidon => !frame_pointer,
            _ => false,
        }
    }

    /// M: a TSTORE followed by a main row makes TP' one more than S_OP0\[0\].
    pub fn sets_tp(&self) -> bool {
        self.kind == Kind::Tstore && !self.next_ext
    }

    /// M: the same on a main row, where S_OP0\[0\] is a selector.
    pub fn ties_tp_to_r0(&self) -> bool {
        self.sets_tp() && !self.ext
    }
}

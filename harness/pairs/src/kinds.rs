//! The 19 instruction kinds.

use std::ops::Range;

use crate::columns::SELECTORS;

/// An instruction kind, in the source's order of the selectors.
#[allow(missing_docs)]
#[derive(Clone, Copy, Debug, PartialEq, Eq)]
pub enum Kind {
    Arithmetic,
    Mov,
    Jmp,
    Cjmp,
    Call,
    Ret,
    Mload,
    Mstore,
    End,
    Rc,
    Bitwise,
    Not,
    Gte,
    Poseidon,
    Sload,
    Sstore,
    Tload,
    Tstore,
    CallSc,
}

impl Kind {
    /// Every kind.
    pub const ALL: [Self; 19] = [
        Self::Arithmetic,
        Self::Mov,
        Self::Jmp,
        Self::Cjmp,
        Self::Call,
        Self::Ret,
        Self::Mload,
        Self::Mstore,
        Self::End,
        Self::Rc,
        Self::Bitwise,
        Self::Not,
        Self::Gte,
        Self::Poseidon,
        Self::Sload,
        Self::Sstore,
        Self::Tload,
        Self::Tstore,
        Self::CallSc,
    ];

    /// The kind's selector column.
    pub fn selector(self) -> usize {
        SELECTORS.start + self as usize
    }

    /// The places in the mask list that the kind's OPCODE may come from.
    pub fn masks(self) -> Range<usize> {
        match self as usize {
            0 => 0..5,
            10 => 5..8,
            k @ 1..=9 => k + 7..k + 8,
            k => k + 6..k + 7,
        }
    }

    /// Whether the kind may have extension rows.
    pub fn is_ext_kind(self) -> bool {
        matches!(
            self,
            Self::Sload | Self::Sstore | Self::Tload | Self::Tstore | Self::CallSc | Self::End
        )
    }

    /// Whether the kind is one of the two tape kinds.
    pub fn is_tape_kind(self) -> bool {
        matches!(self, Self::Tload | Self::Tstore)
    }
}

//! The columns of a row, as document 01 numbers them.

#![allow(missing_docs)]

use std::ops::Range;

pub const TX_IDX: usize = 0;
pub const ENV_IDX: usize = 1;
pub const CALL_SC_CNT: usize = 2;
pub const ADDR_STORAGE: Range<usize> = 3..7;
pub const ADDR_CODE: Range<usize> = 7..11;
pub const TP: usize = 11;
pub const CLK: usize = 12;
pub const PC: usize = 13;
pub const IS_EXT_LINE: usize = 14;
pub const EXT_CNT: usize = 15;
pub const REGS: Range<usize> = 16..26;
pub const INST: usize = 26;
pub const OP1_IMM: usize = 27;
pub const OPCODE: usize = 28;
pub const IMM_VAL: usize = 29;
pub const OP0: usize = 30;
pub const OP1: usize = 31;
pub const DST: usize = 32;
pub const AUX0: usize = 33;
pub const AUX1: usize = 34;
pub const IDX_STORAGE: usize = 35;
pub const S_OP0: Range<usize> = 36..46;
pub const S_OP1: Range<usize> = 46..56;
pub const S_DST: Range<usize> = 56..66;
/// The 19 instruction selectors.
pub const SELECTORS: Range<usize> = 66..85;
pub const IS_ENTRY_SC: usize = 85;
pub const IS_NEXT_LINE_DIFF_INST: usize = 86;
pub const IS_NEXT_LINE_SAME_TX: usize = 87;
pub const FILTER_TAPE_LOOKING: usize = 88;
pub const IS_SCCALL_EXT_LINE: usize = 89;
pub const IS_STORAGE_EXT_LINE: usize = 90;
pub const FILTER_SCCALL_END: usize = 91;
pub const FILTER_LOOKING_PROG_IMM: usize = 92;
pub const IS_PADDING: usize = 93;

//! The columns' names, beside those of the listed Rust.

use olavm::Reference;
use pairs::columns::*;
use pairs::kinds::Kind;

#[test]
fn the_columns_are_those_of_the_rust() {
    let Some(rust) = Reference::find() else {
        return;
    };
    let names = rust.column_names();
    let columns = [
        (TX_IDX, "tx_idx"),
        (ENV_IDX, "env_idx"),
        (CALL_SC_CNT, "call_sc_cnt"),
        (ADDR_STORAGE.start, "addr_storage_0"),
        (ADDR_STORAGE.end - 1, "addr_storage_3"),
        (ADDR_CODE.start, "addr_code_0"),
        (ADDR_CODE.end - 1, "addr_code_3"),
        (TP, "tp"),
        (CLK, "clk"),
        (PC, "pc"),
        (IS_EXT_LINE, "is_ext_line"),
        (EXT_CNT, "ext_cnt"),
        (REGS.start, "r0"),
        (REGS.end - 1, "r9"),
        (INST, "inst"),
        (OP1_IMM, "op1_imm"),
        (OPCODE, "opcode"),
        (IMM_VAL, "imm_val"),
        (OP0, "op0"),
        (OP1, "op1"),
        (DST, "dst"),
        (AUX0, "aux0"),
        (AUX1, "aux1"),
        (IDX_STORAGE, "idx_storage"),
        (S_OP0.start, "sel_op0_r0"),
        (S_OP0.end - 1, "sel_op0_r9"),
        (S_OP1.start, "sel_op1_r0"),
        (S_OP1.end - 1, "sel_op1_r9"),
        (S_DST.start, "sel_dst_r0"),
        (S_DST.end - 1, "sel_dst_r9"),
        (SELECTORS.start, "s_simple_arith_op"),
        (SELECTORS.end - 1, "s_call_sc"),
        (IS_ENTRY_SC, "is_entry_sc"),
        (IS_NEXT_LINE_DIFF_INST, "is_next_line_diff_inst"),
        (IS_NEXT_LINE_SAME_TX, "is_next_line_same_tx"),
        (FILTER_TAPE_LOOKING, "filter_tape_looking"),
        (IS_SCCALL_EXT_LINE, "is_sccall_ext_line"),
        (IS_STORAGE_EXT_LINE, "is_storage_ext_line"),
        (FILTER_SCCALL_END, "filter_sccall_end"),
        (FILTER_LOOKING_PROG_IMM, "filter_looking_prog_imm"),
        (IS_PADDING, "is_padding"),
    ];
    for (column, name) in columns {
        assert_eq!(names[column], name);
    }
}

#[test]
fn the_selectors_are_those_of_the_rust() {
    let Some(rust) = Reference::find() else {
        return;
    };
    let names = rust.column_names();
    let selectors = [
        "simple_arith_op",
        "mov",
        "jmp",
        "cjmp",
        "call",
        "ret",
        "mload",
        "mstore",
        "end",
        "rc",
        "bitwise",
        "not",
        "gte",
        "psdn",
        "sload",
        "sstore",
        "tload",
        "tstore",
        "call_sc",
    ];
    for (kind, name) in std::iter::zip(Kind::ALL, selectors) {
        assert_eq!(names[kind.selector()], format!("s_{name}"));
    }
}

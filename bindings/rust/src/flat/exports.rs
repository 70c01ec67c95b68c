//! The exported functions and their structs, as `include/felmugo.h` has them for C.

use crate::MAX_ALPHAS;

/// A residue, or the number of the refusal with the value 0.
#[repr(C)]
#[derive(Clone, Copy, Debug, Default, PartialEq, Eq)]
pub struct FelmugoResidue {
    /// 0, or the refusal's number.
    pub number: u64,
    /// The result, or 0.
    pub value: u64,
}

/// A signed number, or the number of the refusal with the value 0.
#[repr(C)]
#[derive(Clone, Copy, Debug, Default, PartialEq, Eq)]
pub struct FelmugoSigned {
    /// 0, or the refusal's number.
    pub number: u64,
    /// The signed number, or 0.
    pub value: i64,
}

/// A verdict, or the number of the refusal.
#[repr(C)]
#[derive(Clone, Copy, Debug, Default, PartialEq, Eq)]
pub struct FelmugoVerdict {
    /// 0, or the refusal's number.
    pub number: u64,
    /// 1 for "keeps", else 0.
    pub keeps: u64,
}

/// A run's report, or the number of the refusal with a zero report.
#[repr(C)]
#[derive(Clone, Copy, Debug, Default, PartialEq, Eq)]
pub struct FelmugoReport {
    /// 0, or the refusal's number.
    pub number: u64,
    /// The pairs of the run.
    pub pairs: u64,
    /// The pairs of which a value is not 0.
    pub failing: u64,
    /// 1 if there is a first failing spot, else 0.
    pub found: u64,
    /// The spot's pair, counted from 0, or 0.
    pub pair: u64,
    /// The number of the spot's value, 1 to 226, or 0.
    pub value: u64,
}

/// A consumer: each accumulator in use folds, under its alpha, the values that are yielded.
///
/// Places past the count are neither tested nor altered.
#[repr(C)]
#[derive(Clone, Copy, Debug, Default, PartialEq, Eq)]
pub struct FelmugoConsumer {
    /// The alphas, in the first places.
    pub alphas: [u64; MAX_ALPHAS],
    /// Their accumulators, in the same places.
    pub constraint_accs: [u64; MAX_ALPHAS],
    /// How many places of both are in use.
    pub count: usize,
    /// The weight of a transition value.
    pub z_last: u64,
    /// The weight of a first-row value.
    pub lagrange_basis_first: u64,
    /// The weight of a last-row value.
    pub lagrange_basis_last: u64,
    /// The values folded since the accumulators were lent.
    pub folded: u64,
}

/// A consumer, or the number of the refusal with a consumer of zeros, which no call accepts: its
/// count is 0.
#[repr(C)]
#[derive(Clone, Copy, Debug, Default, PartialEq, Eq)]
pub struct FelmugoOutcome {
    /// 0, or the refusal's number.
    pub number: u64,
    /// The consumer, or zeros.
    pub consumer: FelmugoConsumer,
}

// A slice is handed over as its pointer and then its length, a consumer as a reference.
extern "C" {
    pub fn felmugo_add(a: u64, b: u64) -> FelmugoResidue;
    pub fn felmugo_sub(a: u64, b: u64) -> FelmugoResidue;
    pub fn felmugo_mul(a: u64, b: u64) -> FelmugoResidue;
    pub fn felmugo_signed(residue: u64) -> FelmugoSigned;
    pub fn felmugo_unsigned(value: i64) -> FelmugoResidue;
    pub fn felmugo_pair_values(
        masks: *const u64,
        masks_len: usize,
        lv: *const u64,
        lv_len: usize,
        nv: *const u64,
        nv_len: usize,
        z_last: u64,
        lagrange_basis_first: u64,
        out: *mut u64,
        out_len: usize,
    ) -> u64;
    pub fn felmugo_pair_fold(
        masks: *const u64,
        masks_len: usize,
        lv: *const u64,
        lv_len: usize,
        nv: *const u64,
        nv_len: usize,
        z_last: u64,
        lagrange_basis_first: u64,
        alphas: *const u64,
        alphas_len: usize,
        accs: *mut u64,
        accs_len: usize,
    ) -> u64;
    pub fn felmugo_pair_judge(
        masks: *const u64,
        masks_len: usize,
        lv: *const u64,
        lv_len: usize,
        nv: *const u64,
        nv_len: usize,
        first: bool,
        last: bool,
    ) -> FelmugoVerdict;
    pub fn felmugo_run_report(
        run: *const u64,
        run_len: usize,
        masks: *const u64,
        masks_len: usize,
    ) -> FelmugoReport;
    pub fn felmugo_consumer_new(
        alphas: *const u64,
        alphas_len: usize,
        accs: *const u64,
        accs_len: usize,
        z_last: u64,
        lagrange_basis_first: u64,
        lagrange_basis_last: u64,
    ) -> FelmugoOutcome;
    pub fn felmugo_consumer_constraint(consumer: &mut FelmugoConsumer, value: u64) -> u64;
    pub fn felmugo_consumer_constraint_transition(
        consumer: &mut FelmugoConsumer,
        value: u64,
    ) -> u64;
    pub fn felmugo_consumer_constraint_first_row(consumer: &mut FelmugoConsumer, value: u64)
        -> u64;
    pub fn felmugo_consumer_constraint_last_row(consumer: &mut FelmugoConsumer, value: u64) -> u64;
    pub fn felmugo_consumer_pair(
        consumer: &mut FelmugoConsumer,
        masks: *const u64,
        masks_len: usize,
        lv: *const u64,
        lv_len: usize,
        nv: *const u64,
        nv_len: usize,
    ) -> u64;
    pub fn felmugo_consumer_accumulators(
        consumer: &FelmugoConsumer,
        out: *mut u64,
        out_len: usize,
    ) -> u64;
}

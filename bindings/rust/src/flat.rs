//! The answers as the library gives them: a number, or numbers in a flat struct.
//!
//! For who compares them or hands them on; the functions beside this module say the same in
//! types. The number is 0 or the refusal's; a refused call's other numbers are 0. A consumer is a
//! record that may be stored and handed in again; every call tests what it is handed.

mod exports;

pub use exports::{FelmugoConsumer, FelmugoOutcome};
pub use exports::{FelmugoReport, FelmugoResidue, FelmugoSigned, FelmugoVerdict};

// SAFETY, for every call below: the functions take any numbers, read and write only within
// the lengths that they are given, and keep no pointer.

/// The answer of [`add`](crate::add).
pub fn add(a: u64, b: u64) -> FelmugoResidue {
    unsafe { exports::felmugo_add(a, b) }
}

/// The answer of [`sub`](crate::sub).
pub fn sub(a: u64, b: u64) -> FelmugoResidue {
    unsafe { exports::felmugo_sub(a, b) }
}

/// The answer of [`mul`](crate::mul).
pub fn mul(a: u64, b: u64) -> FelmugoResidue {
    unsafe { exports::felmugo_mul(a, b) }
}

/// The answer of [`signed`](crate::signed).
pub fn signed(residue: u64) -> FelmugoSigned {
    unsafe { exports::felmugo_signed(residue) }
}

/// The answer of [`unsigned`](crate::unsigned).
pub fn unsigned(value: i64) -> FelmugoResidue {
    unsafe { exports::felmugo_unsigned(value) }
}

/// The number of [`pair_values`](crate::pair_values).
pub fn pair_values(
    masks: &[u64],
    lv: &[u64],
    nv: &[u64],
    z_last: u64,
    lagrange_basis_first: u64,
    out: &mut [u64],
) -> u64 {
    unsafe {
        exports::felmugo_pair_values(
            masks.as_ptr(),
            masks.len(),
            lv.as_ptr(),
            lv.len(),
            nv.as_ptr(),
            nv.len(),
            z_last,
            lagrange_basis_first,
            out.as_mut_ptr(),
            out.len(),
        )
    }
}

/// The number of [`pair_fold`](crate::pair_fold).
pub fn pair_fold(
    masks: &[u64],
    lv: &[u64],
    nv: &[u64],
    z_last: u64,
    lagrange_basis_first: u64,
    alphas: &[u64],
    accs: &mut [u64],
) -> u64 {
    unsafe {
        exports::felmugo_pair_fold(
            masks.as_ptr(),
            masks.len(),
            lv.as_ptr(),
            lv.len(),
            nv.as_ptr(),
            nv.len(),
            z_last,
            lagrange_basis_first,
            alphas.as_ptr(),
            alphas.len(),
            accs.as_mut_ptr(),
            accs.len(),
        )
    }
}

/// The answer of [`pair_judge`](crate::pair_judge).
pub fn pair_judge(
    masks: &[u64],
    lv: &[u64],
    nv: &[u64],
    first: bool,
    last: bool,
) -> FelmugoVerdict {
    unsafe {
        exports::felmugo_pair_judge(
            masks.as_ptr(),
            masks.len(),
            lv.as_ptr(),
            lv.len(),
            nv.as_ptr(),
            nv.len(),
            first,
            last,
        )
    }
}

/// The answer of [`run_report`](crate::run_report).
pub fn run_report(run: &[u64], masks: &[u64]) -> FelmugoReport {
    unsafe { exports::felmugo_run_report(run.as_ptr(), run.len(), masks.as_ptr(), masks.len()) }
}

/// The answer of [`ConstraintConsumer::new`](crate::ConstraintConsumer::new).
pub fn consumer_new(
    alphas: &[u64],
    accs: &[u64],
    z_last: u64,
    lagrange_basis_first: u64,
    lagrange_basis_last: u64,
) -> FelmugoOutcome {
    unsafe {
        exports::felmugo_consumer_new(
            alphas.as_ptr(),
            alphas.len(),
            accs.as_ptr(),
            accs.len(),
            z_last,
            lagrange_basis_first,
            lagrange_basis_last,
        )
    }
}

/// The number of [`ConstraintConsumer::constraint`](crate::ConstraintConsumer::constraint).
pub fn consumer_constraint(consumer: &mut FelmugoConsumer, value: u64) -> u64 {
    unsafe { exports::felmugo_consumer_constraint(consumer, value) }
}

/// The number of
/// [`ConstraintConsumer::constraint_transition`](crate::ConstraintConsumer::constraint_transition).
pub fn consumer_constraint_transition(consumer: &mut FelmugoConsumer, value: u64) -> u64 {
    unsafe { exports::felmugo_consumer_constraint_transition(consumer, value) }
}

/// The number of
/// [`ConstraintConsumer::constraint_first_row`](crate::ConstraintConsumer::constraint_first_row).
pub fn consumer_constraint_first_row(consumer: &mut FelmugoConsumer, value: u64) -> u64 {
    unsafe { exports::felmugo_consumer_constraint_first_row(consumer, value) }
}

/// The number of
/// [`ConstraintConsumer::constraint_last_row`](crate::ConstraintConsumer::constraint_last_row).
pub fn consumer_constraint_last_row(consumer: &mut FelmugoConsumer, value: u64) -> u64 {
    unsafe { exports::felmugo_consumer_constraint_last_row(consumer, value) }
}

/// The number of [`ConstraintConsumer::pair`](crate::ConstraintConsumer::pair).
pub fn consumer_pair(consumer: &mut FelmugoConsumer, masks: &[u64], lv: &[u64], nv: &[u64]) -> u64 {
    unsafe {
        exports::felmugo_consumer_pair(
            consumer,
            masks.as_ptr(),
            masks.len(),
            lv.as_ptr(),
            lv.len(),
            nv.as_ptr(),
            nv.len(),
        )
    }
}

/// The number of [`ConstraintConsumer::accumulators`](crate::ConstraintConsumer::accumulators).
pub fn consumer_accumulators(consumer: &FelmugoConsumer, out: &mut [u64]) -> u64 {
    unsafe { exports::felmugo_consumer_accumulators(consumer, out.as_mut_ptr(), out.len()) }
}

//! Impostors of the operations on residues.

use compare::Entries;
use fields::P;

use crate::actors::is_found;

#[test]
fn a_reduced_operand_is_found() {
    assert!(is_found(|impostor| {
        impostor.add = Some(&|faithful, a, b| faithful.add(a % P, b % P));
    }));
}

//! Times our residue operations, pairs and runs against plonky2's arithmetic and the listed Rust.

mod clock;
mod command;
#[cfg(libtiming)]
mod linked;
mod loops;
mod pair;
mod residues;
mod runs;
mod table;

use std::marker::PhantomData;

use loops::{AsPlonky2, Baseline, Canonical, Loops};
use olavm::{Reference, SOURCE_MISSING};

fn main() {
    let Some(rust) = Reference::find() else {
        println!("{SOURCE_MISSING}");
        return;
    };
    let plonky2 = Baseline::<AsPlonky2>(PhantomData);
    let canonical = Baseline::<Canonical>(PhantomData);

    println!("best of {} rounds in turn", clock::ROUNDS);
    let mut contestants: Vec<(&str, &dyn Loops)> =
        vec![("plonky2", &plonky2), ("canonical", &canonical)];
    match linked() {
        Some(linked) => contestants.push(("felmugo", linked)),
        None => println!("target/staticlib/libtiming.a is not built: only baselines"),
    }
    residues::report(&contestants);
    pair::report(rust);
    runs::report(rust);
}

/// The loops of the linked library, if it was there when this was built.
fn linked() -> Option<&'static dyn Loops> {
    #[cfg(libtiming)]
    return Some(&linked::Linked);
    #[cfg(not(libtiming))]
    None
}

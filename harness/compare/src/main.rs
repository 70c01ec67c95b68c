//! `compare short` and `compare long N [SEED]`: see the harness's README.

use std::process::ExitCode;

use compare::{Amounts, Comparison, Linked};
use olavm::{Reference, SOURCE_MISSING};
use tally::{Asked, NOT_COMPARED};

/// What a short comparison compares.
const SHORT: Amounts = Amounts {
    operands: 100_000,
    signed: 1_000_000,
    rounds: 50,
    pairs: 200_000,
    consumers: 20_000,
    runs: 1_000,
    rows: 2_000,
    limits: true,
};

fn main() -> ExitCode {
    let arguments: Vec<String> = std::env::args().skip(1).collect();
    let arguments: Vec<&str> = arguments.iter().map(String::as_str).collect();
    let Some(Asked { count, seed }) = Asked::of(&arguments) else {
        eprintln!("usage: compare short | compare long N [SEED]");
        return ExitCode::from(2);
    };
    let amounts = count.map_or(SHORT, long);
    let Some(rust) = Reference::find() else {
        println!("{NOT_COMPARED}{SOURCE_MISSING}");
        return ExitCode::SUCCESS;
    };

    println!(
        "seed {seed}, {} pairs, {} consumers, {} runs",
        amounts.pairs, amounts.consumers, amounts.runs
    );
    let tally = Comparison::everything(&Linked, rust, seed, amounts);
    println!("{tally}");
    println!("{}", tally.told("answers of functions"));
    tally.status()
}

/// So many pairs, a consumer for each 10 of them, and a run for each 200.
fn long(pairs: u64) -> Amounts {
    Amounts {
        pairs,
        consumers: pairs.div_ceil(10),
        runs: pairs.div_ceil(200),
        ..SHORT
    }
}

//! The comparison itself: it passes what answers as it should, and finds who does not.

mod actors;
mod consumers;
mod folds;
mod reports;
mod residues;
mod signed;
mod values;
mod verdicts;

use actors::{compare, Faithful};
use olavm::Reference;

#[test]
fn the_faithful_pass() {
    let Some(rust) = Reference::find() else {
        return;
    };
    let tally = compare(&Faithful(rust), rust);
    assert_eq!(tally.failed(), 0, "{tally}");
    assert!(tally.passed() > 2000, "{tally}");
}

//! The plan of a run: the instructions of its rows.

use crate::kinds::Kind;
use crate::rng::Rng;

/// What a row of a run is.
#[derive(Clone, Copy)]
pub struct Step {
    pub kind: Kind,
    /// A main row of a tape kind has this many extension rows.
    pub ext_rows: usize,
    pub ext: bool,
    pub entry: bool,
    pub pad: bool,
    pub op1_imm: bool,
    pub taken: bool,
}

impl Step {
    fn main(rng: &mut Rng, kind: Kind) -> Self {
        Self {
            kind,
            ext_rows: 0,
            ext: false,
            entry: false,
            pad: false,
            op1_imm: rng.flip(),
            taken: rng.flip(),
        }
    }

    /// The end of a transaction.
    fn end(rng: &mut Rng) -> Self {
        Self {
            entry: true,
            ..Self::main(rng, Kind::End)
        }
    }

    fn padding(rng: &mut Rng) -> Self {
        Self {
            pad: true,
            ..Self::end(rng)
        }
    }
}

/// Transactions, then either padding rows or a call, which the rules let stand only there:
/// row 0's TP is then what it makes of a later transaction's 0.
pub fn plan(rng: &mut Rng, length: usize) -> Vec<Step> {
    let mut steps = Vec::with_capacity(length);
    let closing = if length >= 4 && rng.one_in(4) {
        let call = Step::main(rng, Kind::CallSc);
        let ext = Step { ext: true, ..call };
        vec![Step::main(rng, Kind::Mov), call, ext]
    } else {
        let count = rng.below(length + 1);
        (0..count).map(|_| Step::padding(rng)).collect()
    };
    let active = length - closing.len();
    while steps.len() + 1 < active {
        let room = active - 1 - steps.len();
        steps.extend(instruction(rng, room));
    }
    if active > 0 {
        steps.push(Step::end(rng));
    }
    steps.extend(closing);
    steps
}

/// The rows of one instruction, at most `room`.
fn instruction(rng: &mut Rng, room: usize) -> Vec<Step> {
    let kind = rng.pick(&Kind::ALL);
    let mut step = Step::main(rng, kind);
    step.entry = step.kind == Kind::End && rng.flip();
    step.ext_rows = match step.kind {
        Kind::Sload | Kind::Sstore => 1,
        Kind::Tload | Kind::Tstore => 1 + rng.below(4),
        Kind::End => (!step.entry).into(),
        Kind::CallSc => room,
        _ => 0,
    };
    if step.ext_rows >= room {
        step = Step::main(rng, Kind::Arithmetic);
    }
    let ext = Step { ext: true, ..step };
    let mut steps = vec![step];
    steps.resize(1 + step.ext_rows, ext);
    steps
}

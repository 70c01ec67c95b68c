//! What a kept pair demands of its main row's operands.

use olavm::Row;

use crate::cells;
use crate::columns::TP;
use crate::kinds::Kind;
use crate::residues::{div, sub};
use crate::rng::Rng;
use crate::scenario::Scenario;

/// The operands that are not free.
#[derive(Clone, Copy, Debug, Default)]
pub struct Demands {
    pub op0: Option<u64>,
    pub op1: Option<u64>,
    pub dst: Option<u64>,
}

impl Demands {
    /// The demands of a main row in the scenario.
    pub fn draw(rng: &mut Rng, s: &Scenario, row: &Row) -> Self {
        let mut demands = match s.kind {
            Kind::Tload => tload(rng, s, row[TP]),
            Kind::Tstore if s.closes() => Self {
                op1: Some(0),
                ..Self::default()
            },
            Kind::Cjmp => Self {
                op0: Some(s.taken as u64),
                ..Self::default()
            },
            _ => Self::default(),
        };
        // PC' is 0, and an operand.
        if s.starts_tx() && s.sets_pc() && s.jumps() {
            match s.kind {
                Kind::Ret => demands.dst = Some(0),
                _ => demands.op1 = Some(0),
            }
        }
        demands
    }
}

/// M wants two different sums for OP0 other than 0 and 1, so that OP1 is then half of TP;
/// where the length must be 0, OP0·(1 − OP1) is 1.
fn tload(rng: &mut Rng, s: &Scenario, tp: u64) -> Demands {
    let half = div(tp, 2);
    let (op0, op1) = if !s.closes() {
        match rng.below(3) {
            0 => (0, cells::any(rng)),
            1 => (1, cells::any(rng)),
            _ => (cells::any(rng), half),
        }
    } else if half == 1 || rng.flip() {
        (1, 0)
    } else {
        (div(1, sub(1, half)), half)
    };
    Demands {
        op0: Some(op0),
        op1: Some(op1),
        dst: None,
    }
}

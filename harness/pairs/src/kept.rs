//! Pairs that keep every rule.

use olavm::Pair;

use crate::current::complete;
use crate::demands::Demands;
use crate::kinds::Kind;
use crate::rng::Rng;
use crate::scenario::Scenario;
use crate::{cells, context, masks, next};

/// A pair of the kind all of whose values are 0, and the scenario it was solved for.
pub fn draw(rng: &mut Rng, kind: Kind) -> (Scenario, Pair) {
    let scenario = Scenario::draw(rng, kind);
    let masks = masks::any(rng);
    let mut lv = context::draw(rng, &scenario);
    let demands = Demands::draw(rng, &scenario, &lv);
    complete(rng, &scenario, &masks, demands, &mut lv);
    let nv = next::draw(rng, &scenario, &lv);
    let weight = if rng.flip() { 1 } else { cells::nonzero(rng) };
    let pair = Pair {
        masks,
        lv,
        nv,
        z_last: if scenario.last { 0 } else { weight },
        lagrange_basis_first: if scenario.first { weight } else { 0 },
    };
    (scenario, pair)
}

//! Mask lists that document 01 accepts.

use fields::P;
use olavm::Masks;

use crate::rng::Rng;

/// The place of ADD's mask.
pub const ADD: usize = 0;
/// The place of MUL's mask.
pub const MUL: usize = 1;
/// The place of EQ's mask.
pub const EQ: usize = 2;
/// The place of NEQ's mask.
pub const NEQ: usize = 3;
/// The place of ASSERT's mask.
pub const ASSERT: usize = 4;
/// The number of arithmetic masks, which stand first and must differ from each other.
pub const ARITHMETIC: usize = 5;

/// The masks 2^0 to 2^24.
pub fn plain() -> Masks {
    std::array::from_fn(|i| 1 << i)
}

/// Random masks, all different.
pub fn random(rng: &mut Rng) -> Masks {
    loop {
        let masks: Masks = std::array::from_fn(|_| rng.residue());
        if are_distinct(&masks) {
            return masks;
        }
    }
}

/// Masks with as many equalities as are accepted: the first five differ, the others are
/// often 0, limits, one another or one of the first five.
pub fn degenerate(rng: &mut Rng) -> Masks {
    let limits = [0, 1, 2, P - 2, P - 1];
    loop {
        let mut masks: Masks = std::array::from_fn(|_| match rng.below(3) {
            0 => rng.residue(),
            _ => rng.pick(&limits),
        });
        let arithmetic = rng.pick(&masks[..ARITHMETIC]);
        let common = rng.pick(&[0, P - 1, arithmetic]);
        for mask in &mut masks[ARITHMETIC..] {
            if rng.flip() {
                *mask = common;
            }
        }
        if are_distinct(&masks[..ARITHMETIC]) {
            return masks;
        }
    }
}

/// One of the three.
pub fn any(rng: &mut Rng) -> Masks {
    match rng.below(3) {
        0 => plain(),
        1 => random(rng),
        _ => degenerate(rng),
    }
}

/// Whether document 01 accepts the contents: all below p, the first five different.
pub fn are_accepted(masks: &[u64]) -> bool {
    masks.iter().all(|mask| *mask < P) && are_distinct(&masks[..ARITHMETIC.min(masks.len())])
}

fn are_distinct(masks: &[u64]) -> bool {
    (1..masks.len()).all(|i| !masks[..i].contains(&masks[i]))
}

#[cfg(test)]
mod tests {
    use super::*;

    #[test]
    fn every_list_is_accepted() {
        let mut rng = Rng::new(1);
        for _ in 0..10_000 {
            assert!(are_accepted(&any(&mut rng)));
        }
    }

    #[test]
    fn degenerate_lists_repeat_masks() {
        let mut rng = Rng::new(2);
        let repeats = (0..1000).filter(|_| !are_distinct(&degenerate(&mut rng)));
        assert!(repeats.count() > 990);
    }
}

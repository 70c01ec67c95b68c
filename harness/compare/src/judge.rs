//! Compares the judge's verdicts on pairs of every class.

use pairs::kinds::Kind;
use pairs::{Class, Rng};
use tally::{same, With};

use crate::comparison::seeds;
use crate::{model, Call, Comparison, FelmugoVerdict};

/// The least share that each verdict must have among the pairs that are made of a kind.
const LEAST_SHARE: u64 = 8;

/// Pairs of one kind by verdict.
#[derive(Clone, Copy, Default)]
struct Shares {
    keeps: u64,
    breaks: u64,
    refused: u64,
}

impl Comparison<'_> {
    /// Compares the verdicts on `count` pairs.
    pub(crate) fn verdicts(&mut self, first_seed: u64, count: u64) {
        let mut shares = [Shares::default(); Kind::ALL.len()];
        for seed in seeds(first_seed, count) {
            let class = Class::in_turn(seed);
            let mut rng = Rng::new(seed);
            let mut pair = class.draw(&mut rng);
            // Some pairs are judged for another place in the run than they were made for.
            if rng.one_in(3) {
                pair.z_last = rng.flip().into();
                pair.lagrange_basis_first = rng.flip().into();
            }
            let call = Call::from(&pair);
            let expected = model::pair_judge(self.rust, call);
            if let Class::Kept(kind) | Class::Damaged(kind) = class {
                *shares[kind as usize].of(expected) += 1;
            }
            let outcome = same(self.entries.pair_judge(call), expected)
                .map_err(|difference| format!("seed {seed}: {difference}\n{call:?}"));
            let class = format!("judged, {}, {}", name(expected), place(call));
            let with = With::answer(expected.number);
            self.tally.note(&class, with, outcome);
        }
        if count >= 20_000 {
            for (kind, shares) in Kind::ALL.iter().zip(shares) {
                let outcome = shares.are_healthy(*kind);
                self.tally
                    .note("both verdicts, every kind", With::TheHarness, outcome);
            }
        }
    }
}

fn place(call: Call) -> &'static str {
    match (call.is_first(), call.is_last()) {
        (true, true) => "first and last",
        (true, false) => "first",
        (false, true) => "last",
        (false, false) => "neither",
    }
}

fn name(verdict: FelmugoVerdict) -> &'static str {
    match (verdict.number, verdict.keeps) {
        (0, 0) => "breaks",
        (0, _) => "keeps",
        _ => "refused",
    }
}

impl Shares {
    fn of(&mut self, verdict: FelmugoVerdict) -> &mut u64 {
        match name(verdict) {
            "breaks" => &mut self.breaks,
            "keeps" => &mut self.keeps,
            _ => &mut self.refused,
        }
    }

    /// Neither verdict is rare.
    fn are_healthy(self, kind: Kind) -> Result<(), String> {
        let Self {
            keeps,
            breaks,
            refused,
        } = self;
        let least = (keeps + breaks + refused) / LEAST_SHARE;
        if keeps.min(breaks) >= least {
            Ok(())
        } else {
            Err(format!(
                "{kind:?}: {keeps} keep, {breaks} break, {refused} are refused"
            ))
        }
    }
}

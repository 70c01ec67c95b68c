//! The classes of pairs, drawn in a fixed mix.

use std::fmt;

use olavm::{Pair, Row, COLUMNS};

use crate::columns::*;
use crate::current::choose;
use crate::kinds::Kind;
use crate::rng::Rng;
use crate::runs::Run;
use crate::{cells, kept, masks};

/// What a pair is made of.
#[derive(Clone, Copy, Debug, PartialEq, Eq)]
pub enum Class {
    /// Random residues.
    Random,
    /// Only 0, 1 and p − 1.
    Limits,
    /// Residues of any sort.
    Mixed,
    /// Residues of any sort, with plain flags.
    PlainFlags,
    /// A pair that keeps every rule.
    Kept(Kind),
    /// The same with one to three columns altered, and perhaps the weights.
    Damaged(Kind),
    /// Two neighbouring rows of a run that keeps every rule.
    Run,
}

impl Class {
    /// The class that the `n`-th of a series of pairs has; every kind comes in turn.
    pub fn in_turn(n: u64) -> Self {
        let kind = Kind::ALL[(n / 16) as usize % Kind::ALL.len()];
        match n % 16 {
            0 => Self::Random,
            1 => Self::Limits,
            2 => Self::Mixed,
            3 | 4 => Self::PlainFlags,
            5 => Self::Run,
            6..=10 => Self::Kept(kind),
            _ => Self::Damaged(kind),
        }
    }

    /// A pair of any class.
    pub fn any(rng: &mut Rng) -> Pair {
        Self::in_turn(rng.word()).draw(rng)
    }

    /// A pair of this class.
    pub fn draw(self, rng: &mut Rng) -> Pair {
        match self {
            Self::Random => rows(rng, Rng::residue),
            Self::Limits => rows(rng, cells::limit),
            Self::Mixed => rows(rng, cells::any),
            Self::PlainFlags => plain_flags(rng),
            Self::Kept(kind) => kept::draw(rng, kind).1,
            Self::Damaged(kind) => damaged(rng, kind),
            Self::Run => {
                let length = 1 + rng.below(12);
                let run = Run::draw(rng, length);
                run.pair(rng.below(length))
            }
        }
    }
}

impl fmt::Display for Class {
    fn fmt(&self, f: &mut fmt::Formatter) -> fmt::Result {
        match self {
            Self::Random => write!(f, "random"),
            Self::Limits => write!(f, "limits"),
            Self::Mixed => write!(f, "mixed"),
            Self::PlainFlags => write!(f, "plain flags"),
            Self::Kept(kind) => write!(f, "kept {kind:?}"),
            Self::Damaged(kind) => write!(f, "damaged {kind:?}"),
            Self::Run => write!(f, "kept runs"),
        }
    }
}

fn rows(rng: &mut Rng, sort: impl Fn(&mut Rng) -> u64) -> Pair {
    Pair {
        masks: masks::any(rng),
        lv: cells::row(rng, &sort),
        nv: cells::row(rng, &sort),
        z_last: cells::weight(rng),
        lagrange_basis_first: cells::weight(rng),
    }
}

/// Document 01's plain flags; half the time also a current row of one kind.
fn plain_flags(rng: &mut Rng) -> Pair {
    let mut pair = rows(rng, cells::any);
    let mut set = |row: &mut Row, column: usize| row[column] = rng.flip().into();
    for column in [
        IS_EXT_LINE,
        IS_ENTRY_SC,
        IS_NEXT_LINE_DIFF_INST,
        IS_NEXT_LINE_SAME_TX,
    ] {
        set(&mut pair.lv, column);
    }
    set(&mut pair.nv, IS_EXT_LINE);
    set(&mut pair.nv, IS_PADDING);
    let next_kind = rng.pick(&Kind::ALL);
    choose(&mut pair.nv, SELECTORS, Some(next_kind as usize));
    if rng.flip() {
        let kind = if rng.flip() {
            next_kind
        } else {
            rng.pick(&Kind::ALL)
        };
        choose(&mut pair.lv, SELECTORS, Some(kind as usize));
        pair.lv[OPCODE] = pair.masks[kind.masks().start];
    }
    pair
}

fn damaged(rng: &mut Rng, kind: Kind) -> Pair {
    let (_, mut pair) = kept::draw(rng, kind);
    for _ in 0..1 + rng.below(3) {
        let row = if rng.flip() {
            &mut pair.lv
        } else {
            &mut pair.nv
        };
        let column = rng.below(COLUMNS);
        cells::alter(rng, &mut row[column]);
    }
    if rng.one_in(4) {
        pair.z_last = cells::weight(rng);
        pair.lagrange_basis_first = cells::weight(rng);
    }
    pair
}

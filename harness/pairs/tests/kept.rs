//! Kept pairs and runs, judged by the listed Rust.

use olavm::{Pair, Reference, Row, COLUMNS};
use pairs::columns::*;
use pairs::kinds::Kind;
use pairs::scenario::Scenario;
use pairs::{kept, masks, Rng, Run};

fn nonzero(rust: Reference, pair: &Pair) -> Vec<usize> {
    let values = rust.values(pair);
    (1..=values.len())
        .filter(|number| values[number - 1] != 0)
        .collect()
}

#[test]
fn a_kept_pair_has_only_values_that_are_zero() {
    let Some(rust) = Reference::find() else {
        return;
    };
    for kind in Kind::ALL {
        for seed in 0..1000 {
            let (scenario, pair) = kept::draw(&mut Rng::new(seed), kind);
            assert_eq!(nonzero(rust, &pair), [], "seed {seed}, {scenario:?}");
        }
    }
}

#[test]
fn a_kept_run_has_only_values_that_are_zero() {
    let Some(rust) = Reference::find() else {
        return;
    };
    for length in (1..=24).chain([100]) {
        for seed in 0..50 {
            let run = Run::draw(&mut Rng::new(seed), length);
            assert_eq!(run.rows.len(), length);
            for (i, pair) in run.pairs().enumerate() {
                let found = nonzero(rust, &pair);
                assert_eq!(found, [], "seed {seed}, pair {i} of {length}");
            }
        }
    }
}

/// A row of a kind with numbers in some columns, and 0 in every other.
fn row(kind: Kind, cells: &[(usize, u64)]) -> Row {
    let mut row = [0; COLUMNS];
    row[kind.selector()] = 1;
    for (column, number) in cells {
        row[*column] = *number;
    }
    row
}

/// The run of crates/worked/specs/Kept.antt, which is proved to keep every rule.
fn worked_run() -> Run {
    let (tstore, end) = (1 << 23, 1 << 15);
    let imm = [(OP1_IMM, 1), (IS_NEXT_LINE_SAME_TX, 1)];
    let add = [
        (INST, (1 << 62) + 1 + (1 << 52) + (1 << 33)),
        (OPCODE, 1),
        (IMM_VAL, 5),
        (OP1, 5),
        (DST, 5),
        (S_OP0.start, 1),
        (S_DST.start + 1, 1),
        (IS_NEXT_LINE_DIFF_INST, 1),
        (FILTER_LOOKING_PROG_IMM, 1),
    ];
    let stored = [
        (CLK, 1),
        (PC, 2),
        (REGS.start + 1, 5),
        (OPCODE, tstore),
        (OP0, 5),
        (OP1, 1),
    ];
    let stores = [
        (INST, (1 << 62) + tstore + (1 << 53)),
        (IMM_VAL, 1),
        (S_OP0.start + 1, 1),
        (FILTER_LOOKING_PROG_IMM, 1),
    ];
    let extends = [
        (IS_EXT_LINE, 1),
        (EXT_CNT, 1),
        (AUX0, 5),
        (IS_NEXT_LINE_DIFF_INST, 1),
        (FILTER_TAPE_LOOKING, 1),
    ];
    let ends = [
        (INST, end),
        (OPCODE, end),
        (IS_ENTRY_SC, 1),
        (IS_NEXT_LINE_DIFF_INST, 1),
    ];
    let leaves = [(TP, 1), (CLK, 2), (PC, 4), (REGS.start + 1, 5)];
    let padding = row(Kind::End, &[&ends[..], &[(IS_PADDING, 1)]].concat());
    Run {
        masks: masks::plain(),
        rows: vec![
            row(Kind::Arithmetic, &[&imm[..], &add].concat()),
            row(Kind::Tstore, &[&imm[..], &stored, &stores].concat()),
            row(Kind::Tstore, &[&imm[..], &stored, &extends].concat()),
            row(Kind::End, &[ends, leaves].concat()),
            padding,
            padding,
        ],
    }
}

#[test]
fn the_worked_run_has_only_values_that_are_zero() {
    let Some(rust) = Reference::find() else {
        return;
    };
    let mut lone_padding = worked_run();
    lone_padding.rows.drain(..5);
    for run in [worked_run(), lone_padding] {
        for (i, pair) in run.pairs().enumerate() {
            assert_eq!(nonzero(rust, &pair), [], "pair {i} of {}", run.rows.len());
        }
    }
}

#[test]
fn runs_have_every_kind() {
    let mut rng = Rng::new(0);
    let runs: Vec<Run> = (0..100).map(|_| Run::draw(&mut rng, 40)).collect();
    for kind in Kind::ALL {
        let rows = runs.iter().flat_map(|run| &run.rows);
        let count = rows.filter(|row| row[kind.selector()] == 1).count();
        assert!(count >= 20, "{kind:?}: {count} rows");
    }
}

/// What a scenario may decide, and the kinds that may decide it either way.
type Choice = (&'static str, fn(&Scenario) -> bool, fn(Kind) -> bool);

#[test]
fn scenarios_of_every_kind_go_either_way() {
    let every: fn(Kind) -> bool = |_| true;
    let choices: [Choice; 12] = [
        ("ext", |s| s.ext, Kind::is_ext_kind),
        ("pad", |s| s.pad, |kind| kind == Kind::End),
        ("entry", |s| s.entry, every),
        ("diff", |s| s.diff, every),
        ("same", |s| s.same, every),
        ("next_ext", |s| s.next_ext, every),
        ("next_pad", |s| s.next_pad, every),
        ("kinds differ", |s| s.kind != s.next_kind, every),
        ("first only", |s| s.first && !s.last, every),
        ("last only", |s| !s.first && s.last, every),
        ("first and last", |s| s.first && s.last, every),
        ("neither", |s| !s.first && !s.last, every),
    ];
    let mut rng = Rng::new(0);
    for kind in Kind::ALL {
        let scenarios: Vec<Scenario> = (0..2000).map(|_| Scenario::draw(&mut rng, kind)).collect();
        for (name, choice, may) in choices {
            let share = scenarios.iter().filter(|s| choice(s)).count() as f64 / 2000.0;
            if may(kind) {
                assert!((0.03..0.97).contains(&share), "{kind:?}, {name}: {share}");
            }
        }
    }
}

//! Times the operations on residues.

use std::hint::black_box;

use fields::P;
use pairs::Rng;

use crate::clock::{self, Work};
use crate::loops::Loops;

/// The operations of a round.
const STEPS: u64 = 1 << 14;

/// The length of the arrays, which stay in the nearest cache.
const LENGTH: usize = 1 << 10;

/// What the loops work on.
#[derive(Clone, Debug, PartialEq, Eq)]
struct Operands {
    a: u64,
    b: u64,
    c: u64,
    x: Vec<u64>,
    y: Vec<u64>,
    z: Vec<u64>,
}

impl Operands {
    fn draw(rng: &mut Rng) -> Self {
        let mut array = || (0..LENGTH).map(|_| rng.residue()).collect();
        let (x, y, z) = (array(), array(), array());
        Self {
            a: rng.residue(),
            b: rng.residue(),
            c: rng.residue(),
            x,
            y,
            z,
        }
    }

    /// The same with the results reduced.
    fn reduced(mut self) -> Self {
        self.a %= P;
        self.x.iter_mut().for_each(|x| *x %= P);
        self
    }
}

type Operation = fn(&dyn Loops, &mut Operands);

const OPERATIONS: [(&str, Operation); 8] = [
    ("mul chain", |l, o| o.a = l.mul_chain(STEPS, o.a, o.b)),
    ("mul_add chain", |l, o| {
        o.a = l.mul_add_chain(STEPS, o.a, o.b, o.c);
    }),
    ("add chain", |l, o| o.a = l.add_chain(STEPS, o.a, o.b)),
    ("sub chain", |l, o| o.a = l.sub_chain(STEPS, o.a, o.b)),
    ("mul each", |l, o| passes(|| l.mul_each(&mut o.x, &o.y))),
    ("mul_add each", |l, o| {
        passes(|| l.mul_add_each(&mut o.x, &o.y, &o.z));
    }),
    ("add each", |l, o| passes(|| l.add_each(&mut o.x, &o.y))),
    ("sub each", |l, o| passes(|| l.sub_each(&mut o.x, &o.y))),
];

/// As many passes over the arrays as make up a round.
fn passes(mut pass: impl FnMut()) {
    for _ in 0..STEPS / LENGTH as u64 {
        pass();
    }
}

/// Prints each contestant's time, and the last one's ratio to every other.
pub fn report(contestants: &[(&str, &dyn Loops)]) {
    let (last, others) = contestants.split_last().expect("there are some");
    print!("{:<14}", "ns each");
    contestants.iter().for_each(|c| print!(" {:>10}", c.0));
    others
        .iter()
        .for_each(|c| print!(" {:>20}", format!("{} / {}", last.0, c.0)));
    println!();

    let mut rng = Rng::new(0);
    for (name, operation) in OPERATIONS {
        let mut operands = vec![Operands::draw(&mut rng); contestants.len()];
        let mut works: Vec<Work> = contestants
            .iter()
            .zip(&mut operands)
            .map(|((_, loops), operands)| -> Work {
                Box::new(move || operation(*loops, black_box(operands)))
            })
            .collect();
        let least = clock::least(clock::ROUNDS, &mut works);
        drop(works);
        let results: Vec<Operands> = operands.into_iter().map(Operands::reduced).collect();
        assert!(
            results.iter().all(|result| *result == results[0]),
            "{name}: the results differ"
        );

        print!("{name:<14}");
        let each: Vec<f64> = least.iter().map(|ns| ns / STEPS as f64).collect();
        each.iter().for_each(|ns| print!(" {ns:>10.3}"));
        let (last, others) = each.split_last().expect("there are some");
        others.iter().for_each(|ns| print!(" {:>20.3}", last / ns));
        println!();
    }
}

//! Times of contestants that work in turns.

use std::time::Instant;

/// Many short rounds, so that some are undisturbed on a busy machine.
pub const ROUNDS: usize = 2000;

/// What a contestant does in a round.
pub type Work<'a> = Box<dyn FnMut() + 'a>;

/// The least nanoseconds that each contestant's work took in a round.
pub fn least(rounds: usize, contestants: &mut [Work]) -> Vec<f64> {
    let mut least = vec![f64::INFINITY; contestants.len()];
    for _ in 0..rounds {
        for (work, least) in contestants.iter_mut().zip(&mut least) {
            let start = Instant::now();
            work();
            *least = least.min(start.elapsed().as_secs_f64() * 1e9);
        }
    }
    least
}

//! Alterations drawn by a seed, of every class in turn and none twice.

use std::collections::HashSet;

use pairs::Rng;

use crate::places::{places, Class, Place};
use crate::source::{Alteration, Source};

/// Draws alterations.
pub struct Draw {
    rng: Rng,
    places: Vec<Vec<Place>>,
    turn: usize,
    drawn: HashSet<(usize, usize, usize)>,
}

impl Draw {
    /// The alterations of a seed.
    pub fn new(source: &Source, seed: u64) -> Self {
        let mut by_class: Vec<Vec<Place>> = Class::ALL.iter().map(|_| Vec::new()).collect();
        for place in places(source) {
            let class = Class::ALL.iter().position(|class| *class == place.class);
            by_class[class.expect("every class is listed")].push(place);
        }
        Self {
            rng: Rng::new(seed),
            places: by_class,
            turn: 0,
            drawn: HashSet::new(),
        }
    }

    /// As many as are asked for, or fewer where chance finds no other.
    pub fn some(&mut self, count: usize) -> Vec<Alteration<'_>> {
        let mut keys = Vec::new();
        for _ in 0..100 * count {
            if keys.len() == count {
                break;
            }
            let class = self.turn % self.places.len();
            self.turn += 1;
            let place = self.rng.below(self.places[class].len());
            let choice = self.rng.below(self.places[class][place].choices.len());
            if self.drawn.insert((class, place, choice)) {
                keys.push((class, place, choice));
            }
        }
        let alteration = |(class, place, choice): (usize, usize, usize)| {
            let place = &self.places[class][place];
            Alteration {
                place,
                new: &place.choices[choice],
            }
        };
        keys.into_iter().map(alteration).collect()
    }
}

//! What a comparison is asked for on its command line.

/// How much is asked for, and the first seed.
#[derive(Clone, Copy, Debug, PartialEq, Eq)]
pub struct Asked {
    /// How much, or nothing where it is as much as a short comparison has.
    pub count: Option<u64>,
    /// The first seed.
    pub seed: u64,
}

impl Asked {
    /// What `short` or `long N [SEED]` asks for; the seed is 0 where none is given.
    pub fn of(arguments: &[&str]) -> Option<Self> {
        let (count, seed) = match arguments {
            ["short"] => (None, 0),
            ["long", count] => (Some(count.parse().ok()?), 0),
            ["long", count, seed] => (Some(count.parse().ok()?), seed.parse().ok()?),
            _ => return None,
        };
        Some(Self { count, seed })
    }
}

#[cfg(test)]
mod tests {
    use super::*;

    #[test]
    fn arguments_are_read() {
        let asked = |count, seed| Some(Asked { count, seed });
        assert_eq!(Asked::of(&["short"]), asked(None, 0));
        assert_eq!(Asked::of(&["long", "12"]), asked(Some(12), 0));
        assert_eq!(Asked::of(&["long", "12", "7"]), asked(Some(12), 7));
        for wrong in [
            &[][..],
            &["long"],
            &["short", "12"],
            &["long", "x"],
            &["long", "12", "x"],
            &["long", "12", "7", "7"],
        ] {
            assert_eq!(Asked::of(wrong), None, "{wrong:?}");
        }
    }
}

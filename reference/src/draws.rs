//! A fixed source of numbers, so that generated sheets are the same in every run.

/// Linear congruential generator: each draw sets the state s to
/// s × 1,664,525 + 1,013,904,223 modulo 2^32 and yields s divided by 65,536.
pub struct Draws {
    state: u32,
}

impl Draws {
    pub fn new(seed: u32) -> Self {
        Draws { state: seed }
    }

    pub fn draw(&mut self) -> u32 {
        self.state = self
            .state
            .wrapping_mul(1_664_525)
            .wrapping_add(1_013_904_223);
        self.state >> 16
    }

    /// A number from 0 to `bound` − 1, of one draw; of two where one has too few values.
    pub fn below(&mut self, bound: u32) -> u32 {
        let draw = self.draw();
        if bound <= 1 << 16 {
            return draw % bound;
        }
        (draw << 16 | self.draw()) % bound
    }

    /// A number from `low` to `high`, both included.
    pub fn between(&mut self, low: u32, high: u32) -> u32 {
        low + self.below(high - low + 1)
    }

    /// An index of a list that is not empty.
    pub fn index(&mut self, length: usize) -> usize {
        self.below(length as u32) as usize
    }

    /// True once in `bound` draws.
    pub fn one_in(&mut self, bound: u32) -> bool {
        self.below(bound) == 0
    }
}

#[cfg(test)]
mod tests {
    use super::*;

    /// Up to 65,536 values are had from one draw, and more from two.
    #[test]
    fn narrow_and_wide_draws() {
        let (mut one, mut two) = (Draws::new(1), Draws::new(1));
        assert_eq!(one.below(1 << 16), two.draw());
        assert_eq!(one.below(7), two.draw() % 7);
        assert_eq!(
            one.below(250_000),
            (two.draw() * 65_536 + two.draw()) % 250_000
        );
        assert_eq!(one.draw(), two.draw());
        let wide: Vec<u32> = (0..1_000).map(|_| one.between(1, 250_000)).collect();
        assert!(wide.iter().all(|n| (1..=250_000).contains(n)));
        for quarter in 0..4 {
            let within = |n: &&u32| (**n - 1) / 62_500 == quarter;
            assert!(wide.iter().filter(within).count() > 150);
        }
    }
}

//! A small source of random numbers: the same seed gives the same numbers.

use crate::Numbers;

pub struct Random {
    state: u64,
}

impl Random {
    pub fn new(seed: u64) -> Random {
        Random { state: seed }
    }

    /// A source of its own for the case of this number.
    pub fn of_case(seed: u64, number: u64) -> Random {
        let start = Random::new(seed).draw();
        Random::new(Random::new(start ^ number).draw())
    }

    /// The next 64 bits (splitmix64).
    pub fn draw(&mut self) -> u64 {
        self.state = self.state.wrapping_add(0x9E37_79B9_7F4A_7C15);
        let mut mixed = self.state;
        mixed = (mixed ^ (mixed >> 30)).wrapping_mul(0xBF58_476D_1CE4_E5B9);
        mixed = (mixed ^ (mixed >> 27)).wrapping_mul(0x94D0_49BB_1331_11EB);
        mixed ^ (mixed >> 31)
    }

    /// A number below `bound`; 0 where there is none.
    pub fn below(&mut self, bound: usize) -> usize {
        if bound == 0 {
            return 0;
        }
        (self.draw() % bound as u64) as usize
    }

    /// A number from `low` to `high`, both included.
    pub fn between(&mut self, low: usize, high: usize) -> usize {
        low + self.below(high - low + 1)
    }

    /// Yes once in `times`.
    pub fn one_in(&mut self, times: usize) -> bool {
        self.below(times) == 0
    }

    /// One of the choices, which are not empty.
    pub fn pick<T: Copy>(&mut self, choices: &[T]) -> T {
        choices[self.below(choices.len())]
    }

    /// Brings random items to the first `count` spots.
    pub fn shuffle<T>(&mut self, items: &mut [T], count: usize) {
        let last = items.len().saturating_sub(1);
        for spot in 0..count.min(items.len()) {
            items.swap(spot, self.between(spot, last));
        }
    }

    /// `count` of the choices, or all where there are fewer.
    pub fn some_of(&mut self, choices: &Numbers, count: usize) -> Numbers {
        let mut shuffled: Vec<usize> = choices.iter().copied().collect();
        self.shuffle(&mut shuffled, count);
        shuffled.into_iter().take(count).collect()
    }
}

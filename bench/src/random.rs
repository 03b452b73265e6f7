//! Seeded numbers: the same seed gives the same streams on every machine.

/// A generator of numbers (splitmix64).
#[derive(Clone, Debug)]
pub struct Random {
    state: u64,
}

impl Random {
    /// The generator of one stream of a seed.
    pub fn of(seed: u64, stream: u64) -> Random {
        let mut random = Random { state: seed };
        random.state = random.number() ^ stream.wrapping_mul(0x9e37_79b9_7f4a_7c15);
        random
    }

    /// The next number.
    pub fn number(&mut self) -> u64 {
        self.state = self.state.wrapping_add(0x9e37_79b9_7f4a_7c15);
        let mut mixed = self.state;
        mixed = (mixed ^ mixed >> 30).wrapping_mul(0xbf58_476d_1ce4_e5b9);
        mixed = (mixed ^ mixed >> 27).wrapping_mul(0x94d0_49bb_1331_11eb);
        mixed ^ mixed >> 31
    }

    /// A number from 0 below a bound, 0 for the bound 0.
    pub fn below(&mut self, bound: u64) -> u64 {
        self.number() % bound.max(1)
    }

    /// A number from the first to the last, both allowed.
    pub fn between(&mut self, first: u64, last: u64) -> u64 {
        first + self.below(last.saturating_sub(first) + 1)
    }

    /// Yes, so many times in a hundred.
    pub fn chance(&mut self, percent: u64) -> bool {
        self.below(100) < percent
    }

    /// One of the choices; there must be one.
    pub fn pick<T: Copy>(&mut self, choices: &[T]) -> T {
        choices[self.below(choices.len() as u64) as usize]
    }

    /// One of the choices, none where there are none.
    pub fn any<T: Copy>(&mut self, choices: &[T]) -> Option<T> {
        (!choices.is_empty()).then(|| self.pick(choices))
    }

    /// So many arbitrary bytes.
    pub fn bytes(&mut self, count: usize) -> Vec<u8> {
        (0..count).map(|_| self.number() as u8).collect()
    }

    /// A length from the first to the last, short ones as often as long ones.
    pub fn length(&mut self, first: usize, last: usize) -> usize {
        let doublings = (last / first.max(1)).max(1).ilog2() + 1;
        let top = first.max(1) << self.below(u64::from(doublings) + 1);
        self.between(first as u64, top.clamp(first, last) as u64) as usize
    }
}

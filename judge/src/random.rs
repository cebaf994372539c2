//! A small generator of numbers (splitmix64), the same on every machine.

#[derive(Clone, Debug)]
pub struct Random(u64);

impl Random {
    pub fn new(seed: u64) -> Self {
        Self(seed)
    }

    pub fn draw(&mut self) -> u64 {
        self.0 = self.0.wrapping_add(0x9e37_79b9_7f4a_7c15);
        let mut z = self.0;
        z = (z ^ (z >> 30)).wrapping_mul(0xbf58_476d_1ce4_e5b9);
        z = (z ^ (z >> 27)).wrapping_mul(0x94d0_49bb_1331_11eb);
        z ^ (z >> 31)
    }

    /// A number below `n`.
    pub fn below(&mut self, n: usize) -> usize {
        (self.draw() % n as u64) as usize
    }

    /// True once in `n` times.
    pub fn once_in(&mut self, n: usize) -> bool {
        self.below(n) == 0
    }

    pub fn pick<'a, T>(&mut self, from: &'a [T]) -> &'a T {
        &from[self.below(from.len())]
    }

    /// An id: small, around a power of two, or any.
    pub fn id(&mut self) -> i64 {
        match self.below(4) {
            0 => self.draw() as i64,
            1 => {
                let power = 1u64 << self.below(64);
                let near = power.wrapping_add(self.draw() % 5).wrapping_sub(2) as i64;
                if self.once_in(2) { near.wrapping_neg() } else { near }
            }
            _ => self.below(21) as i64 - 10,
        }
    }
}

/// The seed and the length of a run: TORVASKIN_SEED (1 where unset), and TORVASKIN_ROUNDS, which
/// multiplies the number of random inputs (1 where unset).
pub fn seed_and_rounds() -> (u64, u64) {
    (number("TORVASKIN_SEED").unwrap_or(1), number("TORVASKIN_ROUNDS").unwrap_or(1))
}

/// The longest event sequence from a level: TORVASKIN_DEPTH, 2 where unset.
pub fn depth() -> usize {
    number("TORVASKIN_DEPTH").map_or(2, |n| n as usize)
}

fn number(name: &str) -> Option<u64> {
    let text = std::env::var(name).ok()?;
    let number = text.parse().ok();
    Some(number.unwrap_or_else(|| panic!("{name} is no number: {text}")))
}

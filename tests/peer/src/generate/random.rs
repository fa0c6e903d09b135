//! A small xorshift generator, so that cases depend on nothing but the seed.

pub struct Random(u64);

impl Random {
    pub fn new(seed: u64) -> Random {
        // Neighbouring seeds are spread apart, and zero, where xorshift would
        // stay for ever, is avoided.
        let spread = seed.wrapping_add(1).wrapping_mul(0x9E37_79B9_7F4A_7C15);
        let mut random = Random(if spread == 0 { 1 } else { spread });
        for _ in 0..8 {
            random.next();
        }
        random
    }

    fn next(&mut self) -> u64 {
        self.0 ^= self.0 >> 12;
        self.0 ^= self.0 << 25;
        self.0 ^= self.0 >> 27;
        self.0.wrapping_mul(0x2545_F491_4F6C_DD1D)
    }

    /// A number from 0 up to `count`, which is not 0.
    pub fn below(&mut self, count: usize) -> usize {
        (((self.next() >> 32) * count as u64) >> 32) as usize
    }

    /// A number between both, each included.
    pub fn between(&mut self, least: usize, most: usize) -> usize {
        least + self.below(most - least + 1)
    }

    pub fn chance(&mut self, percent: usize) -> bool {
        self.below(100) < percent
    }

    pub fn pick<T: Copy>(&mut self, from: &[T]) -> T {
        from[self.below(from.len())]
    }

    /// A word: mostly small, often at an edge, seldom any.
    pub fn word(&mut self) -> i32 {
        match self.below(20) {
            0..=9 => self.below(17) as i32 - 8,
            10..=13 => self.below(201) as i32 - 100,
            14..=16 => self.edge(),
            17..=18 => self.pick(&[46341, -46341, 65536, -65536, 1 << 30, 1000, -1000]),
            _ => self.any(),
        }
    }

    /// A word where arithmetic turns.
    pub fn edge(&mut self) -> i32 {
        self.pick(&[i32::MIN, i32::MAX, 0, -1, 1, i32::MIN + 1, i32::MAX - 1])
    }

    pub fn any(&mut self) -> i32 {
        self.next() as i32
    }

    /// Ends in order.
    pub fn ends(&mut self) -> (i32, i32) {
        let (a, b) = (self.word(), self.word());
        (a.min(b), a.max(b))
    }
}

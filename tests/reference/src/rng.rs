//! A small deterministic generator (splitmix64).

#[derive(Clone)]
pub struct Rng(u64);

impl Rng {
    pub fn new(seed: u64) -> Rng {
        Rng(seed)
    }

    /// A stream of its own for each (seed, index).
    pub fn stream(seed: u64, index: u64) -> Rng {
        let mut rng = Rng(seed ^ 0x6c61_6e65_7374_6f72);
        let mixed = rng.draw() ^ index.wrapping_mul(0xd134_2543_de82_ef95);
        Rng(mixed)
    }

    pub fn draw(&mut self) -> u64 {
        self.0 = self.0.wrapping_add(0x9e37_79b9_7f4a_7c15);
        let mut z = self.0;
        z = (z ^ (z >> 30)).wrapping_mul(0xbf58_476d_1ce4_e5b9);
        z = (z ^ (z >> 27)).wrapping_mul(0x94d0_49bb_1331_11eb);
        z ^ (z >> 31)
    }

    /// 0 to bound - 1.
    pub fn below(&mut self, bound: usize) -> usize {
        ((u128::from(self.draw()) * bound as u128) >> 64) as usize
    }

    pub fn byte_below(&mut self, bound: u8) -> u8 {
        self.below(usize::from(bound)) as u8
    }

    /// low to high, both included.
    pub fn between(&mut self, low: usize, high: usize) -> usize {
        low + self.below(high - low + 1)
    }

    pub fn byte(&mut self) -> u8 {
        self.draw() as u8
    }

    pub fn chance(&mut self, percent: usize) -> bool {
        self.below(100) < percent
    }

    pub fn pick<T: Copy>(&mut self, from: &[T]) -> T {
        from[self.below(from.len())]
    }

    /// An index, each in proportion to its weight.
    pub fn weighted(&mut self, weights: &[usize]) -> usize {
        let mut at = self.below(weights.iter().sum());
        for (i, &weight) in weights.iter().enumerate() {
            if at < weight {
                return i;
            }
            at -= weight;
        }
        unreachable!("weights have a sum above 0")
    }

    /// A word value: the edges often, else any.
    pub fn value(&mut self) -> u32 {
        let any = self.draw() as u32;
        self.pick(&[0, 1, u32::MAX, 0x8000_0000, any & 0xff, any, any, any])
    }

    pub fn words(&mut self) -> [u32; 4] {
        [self.value(), self.value(), self.value(), self.value()]
    }
}

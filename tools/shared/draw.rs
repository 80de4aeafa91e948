// Numbers from a seed, the same on every machine (splitmix64).
pub struct Draw(pub u64);

impl Draw {
    pub fn bits(&mut self) -> u64 {
        self.0 = self.0.wrapping_add(0x9E3779B97F4A7C15);
        let x = (self.0 ^ (self.0 >> 30)).wrapping_mul(0xBF58476D1CE4E5B9);
        let x = (x ^ (x >> 27)).wrapping_mul(0x94D049BB133111EB);
        x ^ (x >> 31)
    }

    // from a to b, both included
    pub fn between(&mut self, a: usize, b: usize) -> usize {
        a + ((self.bits() >> 11) % (b - a + 1) as u64) as usize
    }

    pub fn one_in(&mut self, k: usize) -> bool {
        self.between(1, k) == 1
    }

    pub fn of<'a, T>(&mut self, xs: &'a [T]) -> &'a T {
        &xs[self.between(0, xs.len() - 1)]
    }
}

// A lent slice full of rubbish, with rubbish on both sides. What it held is computed again, not kept.
const GUARD: usize = 8;

pub trait Rubbish: Copy + PartialEq {
    fn from_bits(bits: u64) -> Self;
}
impl Rubbish for i32 {
    fn from_bits(bits: u64) -> i32 {
        bits as i32
    }
}
impl Rubbish for i64 {
    fn from_bits(bits: u64) -> i64 {
        bits as i64
    }
}
impl Rubbish for u64 {
    fn from_bits(bits: u64) -> u64 {
        bits
    }
}

// Four kinds of rubbish: any bits, small numbers (they could be rows), -1, one number everywhere.
fn rubbish(salt: u64, at: usize) -> u64 {
    let bits = (salt ^ at as u64).wrapping_mul(0x9E3779B97F4A7C15);
    match salt % 4 {
        0 => bits ^ (bits >> 29),
        1 => (bits >> 40) % 64,
        2 => u64::MAX,
        _ => salt >> 3,
    }
}

pub struct Lent<T> {
    cells: Vec<T>,
    salt: u64,
}

impl<T: Rubbish> Lent<T> {
    pub fn new(len: usize, salt: u64) -> Lent<T> {
        Lent { cells: (0..len + 2 * GUARD).map(|at| T::from_bits(rubbish(salt, at))).collect(), salt }
    }

    pub fn part(&mut self) -> &mut [T] {
        let end = self.cells.len() - GUARD;
        &mut self.cells[GUARD..end]
    }

    // nothing has changed but, perhaps, the first `free` cells of the part
    pub fn kept_after(&self, free: usize) -> bool {
        let mut cells = self.cells.iter().enumerate();
        cells.all(|(at, &x)| (at >= GUARD && at < GUARD + free) || x == T::from_bits(rubbish(self.salt, at)))
    }
}

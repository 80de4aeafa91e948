// Document 01's table of answers, written once more, from the document alone: first line that applies.
use crate::case::Case;

fn bad_multiplier(m: f64) -> bool {
    // four times a finite number of this size is exact
    m.is_nan() || m.is_infinite() || m > 1000.0 || (!(m < 0.0) && (m * 4.0).fract() != 0.0)
}

fn bad_pointers(c: &Case) -> bool {
    let n = c.n as usize;
    c.pointers.len() != n + 1
        || c.pointers[0] != 0
        || (0..n).any(|k| c.pointers[k + 1] < c.pointers[k])
        || c.pointers[n] > 20_000_000
        || c.pointers[n] as usize > c.rows.len()
}

pub fn answer(c: &Case) -> i32 {
    if c.n < 0 || c.n > 2_000_000 {
        return 2;
    }
    if bad_multiplier(c.multiplier) {
        return 3;
    }
    let n = c.n as usize;
    if c.permutation != n || c.inverse != n {
        return 4;
    }
    if bad_pointers(c) {
        return 5;
    }
    let nnz = c.pointers[n] as usize;
    if c.rows[..nnz].iter().any(|&r| r < 0 || r >= c.n) {
        return 6;
    }
    if c.lists < 2 * nnz + n || c.scratch < nnz + 16 * n + 16 {
        return 7;
    }
    let column = |k: usize| &c.rows[c.pointers[k] as usize..c.pointers[k + 1] as usize];
    (0..n).any(|k| column(k).windows(2).any(|w| w[1] <= w[0])) as i32
}

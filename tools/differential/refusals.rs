// Every refusal, at its boundary and beside it, and several at once. What is expected is in expected.rs.
use crate::case::Case;
use crate::draw::Draw;
use crate::large::ring;
use crate::patterns::{columns_of, drawn_edges, grid, packed, Pattern, STORAGES};
use crate::small::Give;

const SIZES: [i32; 8] = [i32::MIN, -2, -1, 0, 1_999_999, 2_000_000, 2_000_001, i32::MAX];

fn multipliers() -> Vec<f64> {
    let mut xs = vec![f64::NAN, -f64::NAN, f64::INFINITY, f64::NEG_INFINITY, f64::MAX, f64::MIN, f64::MIN_POSITIVE, -f64::MIN_POSITIVE];
    for x in [0.0, -0.0, 0.25, 0.5, 1.0, 10.0, 999.75, 1000.0, 1000.25, -0.25, -1.0, -1000.25, 4503599627370497.5] {
        // and the numbers next to it
        for bits in [f64::to_bits(x).wrapping_sub(1), f64::to_bits(x), f64::to_bits(x) + 1] {
            xs.push(f64::from_bits(bits));
        }
    }
    xs.extend([0.1, 0.3, 0.125, 0.2, 3.3, 5e-324, -5e-324, -0.3, -0.1, 1001.0, 1e300, -1e300]);
    xs
}

// a length, one less and one more
fn about(len: usize) -> impl Iterator<Item = usize> {
    len.saturating_sub(1)..len + 2
}

// Each part of a good case changed by one, everywhere it can be.
fn edges_of(good: &Case, give: Give) {
    let n = good.n as usize;
    let nnz = good.pointers[n] as usize;
    let mut with = |change: &dyn Fn(&mut Case)| {
        let mut case = good.clone();
        change(&mut case);
        give(case);
    };
    for size in SIZES.iter().copied().chain([good.n - 1, good.n + 1]) {
        with(&|c| c.n = size);
        // with outputs of that length, so that only the rest is wrong
        if (0..=2_000_001).contains(&size) {
            with(&|c| (c.n, c.permutation, c.inverse) = (size, size as usize, size as usize));
        }
    }
    for multiplier in multipliers() {
        with(&|c| c.multiplier = multiplier);
    }
    for a in about(n) {
        for b in about(n) {
            with(&|c| (c.permutation, c.inverse) = (a, b));
        }
    }
    with(&|c| c.pointers.truncate(n));
    with(&|c| c.pointers.push(nnz as i32));
    with(&|c| c.pointers.clear());
    for k in 0..=n {
        for by in [-1, 1] {
            with(&|c| c.pointers[k] += by);
        }
        for value in [-1, i32::MIN, i32::MAX, 20_000_000, 20_000_001] {
            with(&|c| c.pointers[k] = value);
        }
    }
    for by in 0..2 {
        // one row fewer than the last pointer says, and exactly as many
        with(&|c| c.rows.truncate(nnz.saturating_sub(by)));
    }
    for k in 0..nnz {
        for value in [-1, 0, n as i32 - 1, n as i32, i32::MIN, i32::MAX] {
            with(&|c| c.rows[k] = value);
        }
    }
    // past the last pointer nobody looks
    for value in [-1, n as i32, i32::MIN] {
        with(&|c| c.rows.insert(nnz, value));
    }
    for lists in about(good.lists).chain([0]) {
        for scratch in about(good.scratch).chain([0]) {
            with(&|c| (c.lists, c.scratch) = (lists, scratch));
        }
    }
    for statistics in 0..10 {
        with(&|c| c.statistics = statistics);
        with(&|c| (c.statistics, c.lists) = (statistics, 0));
    }
}

pub fn boundaries(draw: &mut Draw, give: Give) {
    for n in 0..=12usize {
        for turn in 0..12 {
            let edges = if n > 1 { drawn_edges(0, n - 1, n, draw) } else { Vec::new() };
            let columns = columns_of(n, &edges, STORAGES[turn % 5], draw);
            edges_of(&Case::new(packed(&columns), 10.0, turn % 2 == 0), give);
        }
    }
    edges_of(&Case::new(packed(&columns_of(100, &grid(10, 10), STORAGES[2], draw)), 10.0, true), give);
}

fn damage(case: &mut Case, draw: &mut Draw) {
    let off = |x: usize, draw: &mut Draw| if draw.one_in(2) { x + 1 } else { x.saturating_sub(1) };
    match draw.between(0, 13) {
        0 => case.n = *draw.of(&SIZES),
        1 => case.multiplier = *draw.of(&multipliers()),
        2 => case.permutation = off(case.permutation, draw),
        3 => case.inverse = off(case.inverse, draw),
        4 => case.pointers.truncate(draw.between(0, case.pointers.len())),
        5 => case.pointers.push(*draw.of(&[0, case.rows.len() as i32])),
        6 | 7 if !case.pointers.is_empty() => {
            let k = draw.between(0, case.pointers.len() - 1);
            let off_by_one = case.pointers[k].wrapping_add(*draw.of(&[-1, 1]));
            case.pointers[k] = *draw.of(&[off_by_one, off_by_one, off_by_one, -1, 0, i32::MAX, i32::MIN]);
        }
        8 | 9 if !case.rows.is_empty() => {
            let k = draw.between(0, case.rows.len() - 1);
            case.rows[k] = *draw.of(&[-1, case.n, case.n.wrapping_sub(1), 0, i32::MAX, i32::MIN]);
        }
        10 => case.rows.truncate(draw.between(case.rows.len() / 2, case.rows.len())),
        11 => case.lists = off(case.lists, draw),
        12 => case.scratch = off(case.scratch, draw),
        _ => case.statistics = draw.between(0, 9),
    }
}

// one to four faults in one case, of any kind
pub fn several(draw: &mut Draw, give: Give) {
    for _ in 0..150_000 {
        let n = draw.between(0, 24);
        let edges = if n > 1 { drawn_edges(0, n - 1, draw.between(0, 2 * n), draw) } else { Vec::new() };
        let storage = *draw.of(&STORAGES);
        let mut columns = columns_of(n, &edges, storage, draw);
        if n > 0 && draw.one_in(3) {
            let row = draw.between(0, n - 1) as i32;
            columns[draw.between(0, n - 1)].push(row);
        }
        let aggressive = draw.one_in(2);
        let mut case = Case::new(packed(&columns), 10.0, aggressive);
        for _ in 0..draw.between(1, 4) {
            damage(&mut case, draw);
        }
        give(case);
    }
}

// the limits of n and nnz, and one past them, on patterns of that size
pub fn limits(_: &mut Draw, give: Give) {
    let empty = |n: usize| Case::new(Pattern { pointers: vec![0; n + 1], rows: vec![] }, 10.0, true);
    for n in [1_999_999, 2_000_000, 2_000_001] {
        give(empty(n));
        for (lists, scratch) in [(1, 0), (0, 1)] {
            let mut case = empty(n);
            case.lists -= lists;
            case.scratch -= scratch;
            give(case);
        }
    }
    // 20,000,000 entries in 1,000 columns: every row of every column twenty times
    let repeated: Vec<Vec<i32>> = (0..1_000).map(|_| (0..20_000).map(|i| i / 20).collect()).collect();
    let full = Case::new(packed(&repeated), 10.0, true);
    give(full.clone());
    for (lists, scratch) in [(1, 0), (0, 1)] {
        let mut case = full.clone();
        case.lists -= lists;
        case.scratch -= scratch;
        give(case);
    }
    let mut over = repeated;
    over[999].push(0);
    give(Case::new(packed(&over), 10.0, true));
    // the last row of twenty million is bad
    let mut case = Case::new(ring(2_000_000, 10), 10.0, true);
    case.rows[19_999_999] = 2_000_000;
    give(case.clone());
    case.rows.pop();
    give(case);
}

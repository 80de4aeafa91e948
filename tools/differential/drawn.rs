// Patterns drawn from the seed. Where nothing else is said the multiplier is 10.
use crate::case::Case;
use crate::draw::Draw;
use crate::patterns::{columns_of, drawn_edges, grid, packed, Edge, Storage, STORAGES};
use crate::small::Give;

const MULTIPLIERS: [f64; 12] = [10.0, 10.0, 10.0, -1.0, 0.0, -0.0, 0.25, 0.5, 1.25, 2.0, 1000.0, -0.3];

fn with_diagonal(columns: &mut Vec<Vec<i32>>, draw: &mut Draw) {
    for k in 0..columns.len() {
        if !draw.one_in(4) {
            columns[k].push(k as i32);
            columns[k].sort();
        }
    }
}

// rows past the last pointer, which nobody looks at, and more room now and then; sometimes another number of statistics fits
fn lend(columns: &[Vec<i32>], multiplier: f64, aggressive: bool, draw: &mut Draw) -> Case {
    let mut case = Case::new(packed(columns), multiplier, aggressive);
    if draw.one_in(4) {
        for _ in 0..draw.between(1, 3) {
            case.rows.push(draw.bits() as i32);
        }
    }
    if draw.one_in(8) {
        case.statistics = draw.between(0, 9);
    }
    let more = *draw.of(&[0, 0, 0, 1, 2, 7, 100]);
    let scratch = *draw.of(&[0, 0, 1, 50]);
    case.roomier(more, scratch)
}

fn drawn_columns(n: usize, per_row: usize, draw: &mut Draw) -> Vec<Vec<i32>> {
    let edges = drawn_edges(0, n - 1, n * per_row / 2, draw);
    let storage = *draw.of(&STORAGES);
    let mut columns = columns_of(n, &edges, storage, draw);
    if draw.one_in(4) {
        with_diagonal(&mut columns, draw);
    }
    columns
}

fn sized(least: usize, most: usize, count: usize, draw: &mut Draw, give: Give) {
    for _ in 0..count {
        let n = draw.between(least, most);
        let per_row = *draw.of(&[1, 2, 3, 4, 6, 8, 12]);
        let columns = drawn_columns(n, per_row, draw);
        let (multiplier, aggressive) = (*draw.of(&MULTIPLIERS), draw.one_in(2));
        give(lend(&columns, multiplier, aggressive, draw));
    }
}

pub fn small(draw: &mut Draw, give: Give) {
    sized(1, 60, 100_000, draw, give);
}

pub fn middle(draw: &mut Draw, give: Give) {
    sized(61, 400, 8_000, draw, give);
}

pub fn thousands(draw: &mut Draw, give: Give) {
    sized(500, 3_000, 150, draw, give);
}

// out of order, with repeats, or both
pub fn jumbled(draw: &mut Draw, give: Give) {
    for _ in 0..40_000 {
        let n = draw.between(1, 60);
        let per_row = draw.between(1, 8);
        let mut columns = drawn_columns(n, per_row, draw);
        for column in &mut columns {
            if !column.is_empty() && draw.one_in(2) {
                for _ in 0..draw.between(0, 3) {
                    column.push(*draw.of(&column.clone()));
                }
                for k in 0..column.len() {
                    let other = draw.between(k, column.len() - 1);
                    column.swap(k, other);
                }
            }
        }
        let (multiplier, aggressive) = (*draw.of(&MULTIPLIERS), draw.one_in(2));
        give(lend(&columns, multiplier, aggressive, draw));
    }
}

// hubs whose degrees stand about the threshold, which for small multipliers is 16
pub fn dense(draw: &mut Draw, give: Give) {
    for _ in 0..30_000 {
        let n = draw.between(17, 150);
        let multiplier = *draw.of(&[-1.0, -1.0, -0.3, 0.0, -0.0, 0.25, 1.0, 1.25, 1.5, 1.75, 2.0, 3.25]);
        let start = if multiplier < 0.0 { n - 2 } else { (multiplier * multiplier * n as f64).sqrt() as usize };
        let threshold = start.max(16).min(n);
        let mut edges = drawn_edges(0, n - 1, n * draw.between(0, 4) / 2, draw);
        for _ in 0..draw.between(1, 4) {
            let hub = draw.between(0, n - 1);
            let degree = (threshold + draw.between(0, 3)).saturating_sub(1).min(n - 1);
            let from = draw.between(0, n - 1);
            for k in 0..degree {
                let other = (from + k) % n;
                if other != hub {
                    edges.push((hub.min(other), hub.max(other)));
                }
            }
        }
        let storage = *draw.of(&STORAGES);
        let columns = columns_of(n, &edges, storage, draw);
        let aggressive = draw.one_in(2);
        give(lend(&columns, multiplier, aggressive, draw));
    }
}

// Each edge stored once, so that the room is tight; every room from the least on to 11 more.
pub fn tight(draw: &mut Draw, give: Give) {
    for _ in 0..2_500 {
        let n = draw.between(8, 160);
        let edges = drawn_edges(0, n - 1, n * draw.between(3, 10) / 2, draw);
        let storage = *draw.of(&[Storage::Upper, Storage::Lower, Storage::Mixed]);
        let columns = columns_of(n, &edges, storage, draw);
        let aggressive = draw.one_in(2);
        for more in 0..12 {
            give(Case::new(packed(&columns), 10.0, aggressive).roomier(more, 0));
        }
    }
}

fn family(kind: usize, m: usize) -> (usize, Vec<Edge>) {
    match kind {
        0 => (m, (1..m).map(|k| (k - 1, k)).collect()),
        1 => (m, (1..m).map(|k| (k - 1, k)).chain(if m > 2 { Some((0, m - 1)) } else { None }).collect()),
        2 => (m, (1..m).map(|k| (0, k)).collect()),
        3 => (m, (0..m - 1).map(|k| (k, m - 1)).collect()),
        4 => (m, (1..m).map(|k| ((k - 1) / 2, k)).collect()),
        5 => (m, (0..m).flat_map(|j| (0..j).map(move |i| (i, j))).collect()),
        6 => (m + m / 2, (0..m).flat_map(|i| (m..m + m / 2).map(move |j| (i, j))).collect()),
        7 => (m * (m / 3 + 1), grid(m, m / 3 + 1)),
        8 => (m, (0..m).flat_map(|i| (i + 1..m.min(i + 4)).map(move |j| (i, j))).collect()),
        _ => (1 << (m % 7), (0..1usize << (m % 7)).flat_map(|i| (0..m % 7).map(move |b| (i, i ^ 1 << b))).filter(|e| e.0 < e.1).collect()),
    }
}

// Paths, cycles, stars from either end, trees, complete and bipartite graphs, grids, bands, cubes: to 40 rows a side, as they are and renumbered.
pub fn families(draw: &mut Draw, give: Give) {
    for kind in 0..10 {
        for m in 1..=40 {
            for turn in 0..10 {
                let (n, mut edges) = family(kind, m);
                if turn >= 5 {
                    let mut names: Vec<usize> = (0..n).collect();
                    for k in 0..n {
                        let other = draw.between(k, n - 1);
                        names.swap(k, other);
                    }
                    edges = edges.iter().map(|&(i, j)| (names[i].min(names[j]), names[i].max(names[j]))).collect();
                }
                let columns = columns_of(n, &edges, STORAGES[turn % 5], draw);
                for multiplier in [10.0, -1.0, 0.0] {
                    for aggressive in [true, false] {
                        give(lend(&columns, multiplier, aggressive, draw));
                    }
                }
            }
        }
    }
}

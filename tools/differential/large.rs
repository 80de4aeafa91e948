// A few large patterns, to n = 100,000 and nnz = 2,000,000; and what larger ones are made of.
use crate::case::Case;
use crate::draw::Draw;
use crate::patterns::{columns_of, drawn_graph, grid, packed, Edge, Pattern, Storage};
use crate::small::Give;

const MOST: usize = 100_000;

// each column has the `width` rows after it, around the end: n·width entries
pub fn ring(n: usize, width: usize) -> Pattern {
    let mut columns: Vec<Vec<i32>> = (0..n).map(|k| (1..=width).map(|d| ((k + d) % n) as i32).collect()).collect();
    columns.iter_mut().for_each(|c| c.sort());
    packed(&columns)
}

pub fn stored(n: usize, edges: &[Edge], storage: Storage) -> Pattern {
    packed(&columns_of(n, edges, storage, &mut Draw(1)))
}

// row 0 and the rows from `first` on
pub fn star(first: usize, n: usize) -> Vec<Edge> {
    (first..n).map(|k| (0, k)).collect()
}

// jumbled: every column out of order, its first row twice
pub fn backwards(n: usize) -> Pattern {
    packed(&(0..n).map(|k| vec![((k + 3) % n) as i32, (k / 2) as i32, (k / 3) as i32, ((k + 3) % n) as i32]).collect::<Vec<_>>())
}

pub fn large(draw: &mut Draw, give: Give) {
    for n in [5_000, 10_000, 50_000] {
        let edges = drawn_graph(n, 8, draw);
        for (storage, aggressive) in [(Storage::Both, true), (Storage::Mixed, false), (Storage::Upper, true)] {
            if n < 50_000 || storage != Storage::Mixed {
                give(Case::new(stored(n, &edges, storage), 10.0, aggressive));
            }
        }
    }
    give(Case::new(stored(MOST, &drawn_graph(MOST, 8, draw), Storage::Both), 10.0, true));
    give(Case::new(stored(MOST, &drawn_graph(MOST, 4, draw), Storage::Any), 10.0, false));
    for (storage, aggressive) in [(Storage::Both, true), (Storage::Lower, false)] {
        give(Case::new(stored(90_000, &grid(300, 300), storage), 10.0, aggressive));
    }
    // a star of 70,000 leaves, whose sum of rows passes 2^32
    let star = star(30_000, MOST);
    for multiplier in [-1.0, 1000.0, 10.0] {
        give(Case::new(stored(MOST, &star, Storage::Upper), multiplier, true));
    }
    give(Case::new(stored(MOST, &[], Storage::Upper), 10.0, true));
    let path: Vec<Edge> = (1..MOST).map(|k| (k - 1, k)).collect();
    give(Case::new(stored(MOST, &path, Storage::Both), 0.0, true));
    let full = ring(MOST, 20);
    for multiplier in [10.0, 0.0] {
        give(Case::new(full.clone(), multiplier, true));
    }
    give(Case::new(backwards(MOST), 10.0, true));
}

// Small patterns, all of a kind.
use crate::case::Case;
use crate::draw::Draw;
use crate::patterns::{columns_of, packed, Edge, Storage};

pub type Give<'a> = &'a mut dyn FnMut(Case);

// Every pattern of n to 4 columns: each place of the n by n square, the diagonal too, has an entry or none. 1 + 2 + 16 + 512 + 65,536 patterns.
pub fn every_pattern(_: &mut Draw, give: Give) {
    for n in 0..=4usize {
        for code in 0u32..1 << (n * n) {
            let column = |k: usize| (0..n).filter(|i| code >> (k * n + i) & 1 == 1).map(|i| i as i32).collect();
            let pattern = packed(&(0..n).map(column).collect::<Vec<Vec<i32>>>());
            for multiplier in [10.0, 0.0, -1.0] {
                for aggressive in [true, false] {
                    give(Case::new(pattern.clone(), multiplier, aggressive));
                }
            }
        }
    }
}

// Every column that can be written with at most `most` rows below n, in any order and with repeats.
fn every_column(n: usize, most: usize) -> Vec<Vec<i32>> {
    let mut columns: Vec<Vec<i32>> = vec![vec![]];
    let mut from = 0;
    for _ in 0..most {
        let end = columns.len();
        for at in from..end {
            for row in 0..n {
                let mut longer = columns[at].clone();
                longer.push(row as i32);
                columns.push(longer);
            }
        }
        from = end;
    }
    columns
}

// Every pattern of 1 to 3 columns with at most three rows a column, jumbled or not. 4 + 225 + 64,000 patterns.
pub fn every_jumble(_: &mut Draw, give: Give) {
    for n in 1..=3 {
        let columns = every_column(n, 3);
        for code in 0..columns.len().pow(n as u32) {
            let column = |k: usize| columns[code / columns.len().pow(k as u32) % columns.len()].clone();
            let pattern = packed(&(0..n).map(column).collect::<Vec<_>>());
            for aggressive in [true, false] {
                give(Case::new(pattern.clone(), 10.0, aggressive).roomier(code % 3, code % 2));
            }
        }
    }
}

// Every graph on 5 rows in three storages, every graph on 6 rows stored in the upper triangle. 3·1,024 + 32,768 patterns.
pub fn every_graph(draw: &mut Draw, give: Give) {
    for (n, storages) in [(5, &[Storage::Upper, Storage::Lower, Storage::Both][..]), (6, &[Storage::Upper][..])] {
        let pairs: Vec<Edge> = (0..n).flat_map(|j| (0..j).map(move |i| (i, j))).collect();
        for code in 0u32..1 << pairs.len() {
            let edges: Vec<Edge> = pairs.iter().enumerate().filter(|(k, _)| code >> k & 1 == 1).map(|(_, &e)| e).collect();
            for &storage in storages {
                let pattern = packed(&columns_of(n, &edges, storage, draw));
                for aggressive in [true, false] {
                    give(Case::new(pattern.clone(), 10.0, aggressive));
                }
            }
        }
    }
}

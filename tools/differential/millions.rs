// Patterns of 1,000,000 to 2,000,000 rows, to the limits of n and nnz.
use crate::case::Case;
use crate::draw::Draw;
use crate::large::{backwards, ring, star, stored};
use crate::patterns::{drawn_graph, grid, packed, Pattern, Storage};
use crate::small::Give;

const MOST: usize = 2_000_000;

// each column has the `width` rows after it that there are
fn band(n: usize, width: usize) -> Pattern {
    packed(&(0..n).map(|k| (k + 1..n.min(k + width + 1)).map(|i| i as i32).collect()).collect::<Vec<_>>())
}

pub fn grids(_: &mut Draw, give: Give) {
    for (m, k, storage, aggressive) in [
        (1_000, 1_000, Storage::Both, true),
        (1_414, 1_414, Storage::Both, true),
        (1_000, 2_000, Storage::Lower, false),
        (20, 100_000, Storage::Upper, true),
    ] {
        give(Case::new(stored(m * k, &grid(m, k), storage), 10.0, aggressive));
    }
}

// Four and eight neighbours a row in the mean; aggressive, without which the elements of so large a front pile up and a run takes a quarter of an hour.
pub fn random(draw: &mut Draw, give: Give) {
    for (n, degree, storage) in [(1_000_000, 4, Storage::Both), (MOST, 4, Storage::Any), (1_000_000, 8, Storage::Mixed), (MOST, 8, Storage::Both)] {
        give(Case::new(stored(n, &drawn_graph(n, degree, draw), storage), 10.0, true));
    }
}

// Stars whose hub is just not dense, 14,142 leaves at multiplier 10 and 707,106 at 500, or just dense, one leaf more, 1,414,214 at 1000 and n - 1 at -1. A hub
// that stays is read once for each pivot beside it: of many leaves the two other cases would take hours, and at 500 the leaves stand in complete blocks,
// each of which is eliminated at once.
pub fn stars(_: &mut Draw, give: Give) {
    for (leaves, block, multiplier) in [
        (14_142, 1, 10.0),
        (14_143, 1, 10.0),
        (707_106, 50, 500.0),
        (707_107, 50, 500.0),
        (1_414_214, 1, 1000.0),
        (MOST - 1, 1, -1.0),
    ] {
        let mut edges = star(MOST - leaves, MOST);
        for j in MOST - leaves..MOST {
            edges.extend((j - (j - (MOST - leaves)) % block..j).map(|i| (i, j)));
        }
        give(Case::new(stored(MOST, &edges, Storage::Upper), multiplier, true));
    }
}

// 20,000,000 entries, in the least room and one cell above it; bands; nothing at all; out of order and with repeats
pub fn full(_: &mut Draw, give: Give) {
    let ring = ring(MOST, 10);
    give(Case::new(ring.clone(), 10.0, true));
    give(Case::new(ring, 10.0, false).roomier(1, 0));
    give(Case::new(band(MOST, 1), 0.0, true));
    give(Case::new(band(1_500_000, 6), 10.0, true));
    give(Case::new(stored(MOST, &[], Storage::Upper), 10.0, true));
    give(Case::new(backwards(MOST), 10.0, true));
}

// Every row of a ring is dense at multiplier 0. From 1,664,512 dense rows on the Rust's product wraps; in the last case 300,000 rows are not dense.
pub fn wraps(_: &mut Draw, give: Give) {
    for n in [1_664_511, 1_664_512, MOST] {
        give(Case::new(ring(n, 9), 0.0, true));
    }
    let (mut some, path) = (ring(1_700_000, 9), band(300_000, 1));
    let before = some.rows.len() as i32;
    some.pointers.extend(path.pointers[1..].iter().map(|p| p + before));
    some.rows.extend(path.rows.iter().map(|i| i + 1_700_000));
    give(Case::new(some, 0.0, true));
}

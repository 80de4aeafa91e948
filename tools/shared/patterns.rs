// Patterns: graphs as lists of edges, and how a graph is stored in columns.
use crate::draw::Draw;

#[derive(Clone)]
pub struct Pattern {
    pub pointers: Vec<i32>,
    pub rows: Vec<i32>,
}

// an edge has its smaller end first
pub type Edge = (usize, usize);

#[derive(Clone, Copy, PartialEq)]
pub enum Storage {
    Upper,
    Lower,
    Both,
    // each edge in one triangle, drawn
    Mixed,
    // each edge in one triangle or in both, drawn
    Any,
}

pub const STORAGES: [Storage; 5] = [Storage::Upper, Storage::Lower, Storage::Both, Storage::Mixed, Storage::Any];

// the columns as they are
pub fn packed(columns: &[Vec<i32>]) -> Pattern {
    let mut pointers = vec![0];
    let mut rows = Vec::new();
    for column in columns {
        rows.extend_from_slice(column);
        pointers.push(rows.len() as i32);
    }
    Pattern { pointers, rows }
}

pub fn columns_of(n: usize, edges: &[Edge], storage: Storage, draw: &mut Draw) -> Vec<Vec<i32>> {
    let mut columns = vec![Vec::new(); n];
    for &(i, j) in edges {
        let (upper, lower) = match storage {
            Storage::Upper => (true, false),
            Storage::Lower => (false, true),
            Storage::Both => (true, true),
            Storage::Mixed => *draw.of(&[(true, false), (false, true)]),
            Storage::Any => *draw.of(&[(true, false), (false, true), (true, true)]),
        };
        if upper {
            columns[j].push(i as i32);
        }
        if lower {
            columns[i].push(j as i32);
        }
    }
    for column in &mut columns {
        column.sort();
        column.dedup();
    }
    columns
}

// The m by k grid in which each point has four neighbours.
pub fn grid(m: usize, k: usize) -> Vec<Edge> {
    let mut edges = Vec::new();
    for i in 0..m {
        for j in 0..k {
            let at = i * k + j;
            if j + 1 < k {
                edges.push((at, at + 1));
            }
            if i + 1 < m {
                edges.push((at, at + k));
            }
        }
    }
    edges
}

// `count` edges between rows from a to b, drawn; an edge may come twice
pub fn drawn_edges(a: usize, b: usize, count: usize, draw: &mut Draw) -> Vec<Edge> {
    let mut edges = Vec::new();
    for _ in 0..count {
        let (i, j) = (draw.between(a, b), draw.between(a, b));
        if i != j {
            edges.push((i.min(j), i.max(j)));
        }
    }
    edges
}

// n·degree/2 different edges, drawn
pub fn drawn_graph(n: usize, degree: usize, draw: &mut Draw) -> Vec<Edge> {
    let mut seen = std::collections::HashSet::new();
    let mut edges = Vec::new();
    while edges.len() < n * degree / 2 {
        let (i, j) = (draw.between(0, n - 1), draw.between(0, n - 1));
        if i < j && seen.insert((i, j)) {
            edges.push((i, j));
        }
    }
    edges
}

// How time and memory grow with n, to the limit of 2,000,000: a table in Markdown. Each run has a process of its own, so that its memory can be told. See docs/SPEED.md.
use crate::draw::Draw;
use crate::patterns::{drawn_graph, grid, Edge, Pattern};
use crate::{median, room, run_ours, run_rust, symmetric, timed};
use std::fs::{read_to_string, remove_file, File};
use std::io::{BufReader, BufWriter, Read, Write};
use std::process::{exit, Command};

// a side of a grid, or the rows of a random pattern, and the rounds
const GRIDS: [(usize, usize); 4] = [(100, 15), (316, 9), (1_000, 5), (1_414, 5)];
const RANDOMS: [(usize, usize); 4] = [(10_000, 15), (100_000, 5), (1_000_000, 1), (2_000_000, 1)];

fn save(p: &Pattern, path: &str) {
    let mut to = BufWriter::new(File::create(path).unwrap());
    for x in [p.pointers.len() as i32, p.rows.len() as i32].iter().chain(&p.pointers).chain(&p.rows) {
        to.write_all(&x.to_le_bytes()).unwrap();
    }
}

fn numbers(read: &mut impl Read, count: usize) -> Vec<i32> {
    let mut four = [0; 4];
    let mut next = || {
        read.read_exact(&mut four).unwrap();
        i32::from_le_bytes(four)
    };
    (0..count).map(|_| next()).collect()
}

fn load(path: &str) -> Pattern {
    let mut from = BufReader::new(File::open(path).unwrap());
    let sizes = numbers(&mut from, 2);
    Pattern { pointers: numbers(&mut from, sizes[0] as usize), rows: numbers(&mut from, sizes[1] as usize) }
}

// the outcome in one number
fn digest(permutation: &[i32], inverse: &[i32], six: &[u64]) -> u64 {
    let all = permutation.iter().chain(inverse).map(|&x| x as u64).chain(six.iter().copied());
    all.fold(0xCBF29CE484222325, |h, x| (h ^ x).wrapping_mul(0x100000001B3))
}

// `speed alone FILE WHO`: of one run on the pattern in a file, its ms, those that our room took to allocate and touch, the most memory of the process in MB, lnz and a digest.
pub fn alone(path: &str, who: &str) {
    let p = load(path);
    let (ms, room_ms, lnz, digest) = match who {
        "rust" => {
            let (t, (permutation, inverse, i)) = timed(|| run_rust(&p));
            let six = [i.lnz, i.n_div, i.n_mult_subs_ldl, i.n_mult_subs_lu, i.n_dense, i.d_max].map(|x| x as u64);
            (t, 0.0, six[0], digest(&permutation, &inverse, &six))
        }
        "ours" => {
            let (room_ms, mut r) = timed(|| {
                let mut r = room(&p);
                r.lists.fill(1);
                r.scratch.fill(1);
                r
            });
            let (t, answer) = timed(|| run_ours(&p, &mut r));
            assert!(answer == 0);
            (t, room_ms, r.statistics[0], digest(&r.permutation, &r.inverse, &r.statistics[..6]))
        }
        _ => (0.0, 0.0, 0, 0),
    };
    let status = read_to_string("/proc/self/status").unwrap();
    let peak = status.lines().find(|l| l.starts_with("VmHWM")).unwrap().split_whitespace().nth(1).unwrap();
    println!("{} {} {:.0} {} {}", ms, room_ms, peak.parse::<f64>().unwrap() * 1.024 / 1e3, lnz, digest);
}

// the words that `alone` prints
fn told(path: &str, who: &str) -> Vec<String> {
    let out = Command::new(std::env::current_exe().unwrap()).args(["alone", path, who]).output().unwrap();
    assert!(out.status.success(), "a run failed");
    String::from_utf8(out.stdout).unwrap().split_whitespace().map(|w| w.to_string()).collect()
}

fn line(name: &str, n: usize, edges: &[Edge], rounds: usize, path: &str) {
    let p = symmetric(n, edges);
    save(&p, path);
    let nnz = p.rows.len();
    drop(p);
    let (mut rust, mut ours, mut fresh) = (vec![], vec![], vec![]);
    let (mut theirs, mut us) = (vec![], vec![]);
    let number = |w: &String| w.parse::<f64>().unwrap();
    for _ in 0..rounds {
        theirs = told(path, "rust");
        us = told(path, "ours");
        if theirs[3..] != us[3..] {
            println!("{}, n = {}: the two orderings differ; the pattern is in {}", name, n, path);
            exit(1);
        }
        rust.push(number(&theirs[0]));
        ours.push(number(&us[0]));
        fresh.push(number(&us[0]) + number(&us[1]));
    }
    let (rust, ours, fresh) = (median(&rust), median(&ours), median(&fresh));
    println!(
        "| {} | {} | {} | {} | {:.4} | {:.4} | **{:.2}** | {:.2} | {:.2} | {} | {} | {} | {} | {} | {} |",
        name,
        n,
        nnz,
        rounds,
        rust / 1e3,
        ours / 1e3,
        ours / rust,
        fresh / rust,
        ours * 1e3 / n as f64,
        us[3],
        crate::ours::least_lists(n, nnz),
        crate::ours::least_scratch(n, nnz),
        told(path, "nobody")[2],
        us[2],
        theirs[2]
    );
}

// `speed growth FILE`: FILE is written, and removed again.
pub fn growth(path: &str) {
    println!("| Case | n | nnz | Rounds | Rust, s | Ours, s | Ratio | Ratio, room allocated too | Ours, µs a row | lnz | Cells of lists | Cells of scratch | Peak MB, pattern alone | Ours | Rust |");
    println!("|---|---|---|---|---|---|---|---|---|---|---|---|---|---|---|");
    for (side, rounds) in GRIDS {
        line("grid", side * side, &grid(side, side), rounds, path);
    }
    for (n, rounds) in RANDOMS {
        line("random", n, &drawn_graph(n, 8, &mut Draw(n as u64)), rounds, path);
    }
    remove_file(path).unwrap();
}

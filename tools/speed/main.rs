// speed [ROUNDS]: times the exported ordering and the Rust's `order` in alternating rounds of one process, and prints a table in Markdown.
// speed growth FILE: how time and memory grow with n; FILE is written for `speed alone FILE WHO`, one run in a process of its own, and removed.
// speed once CASE WHO: one run, of `rust`, `ours` or `zeroing`, inside the function `measured`, for a counter of instructions.
// See docs/SPEED.md.
mod aat;
mod amd;
mod amd_1;
mod amd_2;
mod draw;
mod growth;
mod internal;
mod ours;
mod patterns;
mod post_tree;
mod postorder;
mod preprocess;
mod theirs;
mod valid;

use draw::Draw;
use patterns::{columns_of, drawn_graph, grid, packed, Edge, Pattern, Storage};
use std::hint::black_box;

const SETTINGS: (f64, bool) = (10.0, true);
// a name, and how many times fewer rounds it gets
const CASES: [(&str, usize); 4] = [("grid 300 by 300", 1), ("random, n = 10,000", 1), ("random, n = 50,000", 3), ("random, n = 100,000", 7)];

// both triangles stored, no diagonal
fn symmetric(n: usize, edges: &[Edge]) -> Pattern {
    packed(&columns_of(n, edges, Storage::Both, &mut Draw(0)))
}

// four neighbours in the grid, eight entries a row in the mean in the others
fn pattern(case: usize) -> Pattern {
    let (n, edges) = match case {
        0 => (90_000, grid(300, 300)),
        k => {
            let n = [10_000, 50_000, 100_000][k - 1];
            (n, drawn_graph(n, 8, &mut Draw(k as u64)))
        }
    };
    symmetric(n, &edges)
}

struct Room {
    permutation: Vec<i32>,
    inverse: Vec<i32>,
    lists: Vec<i64>,
    scratch: Vec<i64>,
    statistics: [u64; 7],
}

// the least room
fn room(p: &Pattern) -> Room {
    let (n, nnz) = (p.pointers.len() - 1, p.rows.len());
    Room {
        permutation: vec![0; n],
        inverse: vec![0; n],
        lists: vec![0; ours::least_lists(n, nnz)],
        scratch: vec![0; ours::least_scratch(n, nnz)],
        statistics: [0; 7],
    }
}

fn run_ours(p: &Pattern, r: &mut Room) -> i32 {
    let n = p.pointers.len() as i32 - 1;
    ours::order(n, &p.pointers, &p.rows, SETTINGS.0, SETTINGS.1, &mut r.permutation, &mut r.inverse, &mut r.lists, &mut r.scratch, &mut r.statistics)
}

fn run_rust(p: &Pattern) -> (Vec<i32>, Vec<i32>, whole::Info) {
    let n = p.pointers.len() as i32 - 1;
    whole::order(n, &p.pointers, &p.rows, &whole::Control { dense: SETTINGS.0, aggressive: SETTINGS.1 }).unwrap()
}

fn zero(r: &mut Room) {
    black_box(&mut r.lists).fill(0);
    black_box(&mut r.scratch).fill(0);
    black_box(&mut *r);
}

#[repr(C)]
struct Clock {
    seconds: i64,
    nanoseconds: i64,
}

extern "C" {
    fn clock_gettime(clock: i32, time: *mut Clock) -> i32;
}

// this thread's processor time, in ms
fn now() -> f64 {
    let mut c = Clock { seconds: 0, nanoseconds: 0 };
    unsafe { clock_gettime(3, &mut c) };
    c.seconds as f64 * 1e3 + c.nanoseconds as f64 / 1e6
}

fn timed<T>(run: impl FnOnce() -> T) -> (f64, T) {
    let began = now();
    let result = run();
    (now() - began, result)
}

fn median(xs: &[f64]) -> f64 {
    let mut xs = xs.to_vec();
    xs.sort_by(|a, b| a.partial_cmp(b).unwrap());
    xs[xs.len() / 2]
}

fn line(case: usize, rounds: usize) -> String {
    let p = pattern(case);
    let mut r = room(&p);
    let (mut rust, mut warm, mut fresh, mut zeroing) = (vec![], vec![], vec![], vec![]);
    let mut collections = (0, 0);
    for _ in 0..rounds {
        let (t, (permutation, inverse, info)) = timed(|| run_rust(&p));
        rust.push(t);
        let (t, answer) = timed(|| run_ours(&p, &mut r));
        warm.push(t);
        // what is timed must be the same work
        let same = permutation == r.permutation && inverse == r.inverse && info.lnz as u64 == r.statistics[0] && answer == 0;
        if !same {
            println!("{}: the two orderings differ", CASES[case].0);
            std::process::exit(1);
        }
        collections = (info.n_cmp_a, r.statistics[6]);
        fresh.push(timed(|| run_ours(&p, &mut room(&p))).0);
        zeroing.push(timed(|| zero(&mut r)).0);
    }
    let ratios: Vec<f64> = warm.iter().zip(&rust).map(|(a, b)| a / b).collect();
    let least = ratios.iter().cloned().fold(f64::MAX, f64::min);
    let most = ratios.iter().cloned().fold(0.0, f64::max);
    let (rust, warm, fresh, zeroing) = (median(&rust), median(&warm), median(&fresh), median(&zeroing));
    format!(
        "| {} | {} | {} | {} | {:.1} | {:.1} | **{:.2}** | {:.2} to {:.2} | {:.2} | {:.1} % | {:.2} | {}, {} |",
        CASES[case].0,
        p.pointers.len() - 1,
        p.rows.len(),
        rounds,
        rust,
        warm,
        warm / rust,
        least,
        most,
        zeroing,
        100.0 * zeroing / warm,
        fresh / rust,
        collections.0,
        collections.1
    )
}

// The counter is told to count inside this function alone.
#[no_mangle]
#[inline(never)]
pub extern "C" fn measured(work: &mut dyn FnMut()) {
    work();
}

fn once(case: usize, who: &str) {
    let p = pattern(case);
    let mut r = room(&p);
    match who {
        "rust" => measured(&mut || drop(black_box(run_rust(&p)))),
        "ours" => measured(&mut || drop(black_box(run_ours(&p, &mut r)))),
        _ => measured(&mut || zero(&mut r)),
    }
}

fn main() {
    let args: Vec<String> = std::env::args().skip(1).collect();
    match args.first().map_or("", |a| a) {
        "growth" => return growth::growth(&args[1]),
        "alone" => return growth::alone(&args[1], &args[2]),
        "once" => return once(args[1].parse().unwrap(), &args[2]),
        _ => (),
    }
    let rounds: usize = args.first().map_or(21, |a| a.parse().expect("ROUNDS is a number"));
    println!("| Case | n | nnz | Rounds | Rust, ms | Ours, ms | Ratio | Ratio in a round | Zeroing, ms | Part of ours | Ratio, room allocated too | Collections: Rust, ours |");
    println!("|---|---|---|---|---|---|---|---|---|---|---|---|");
    for (case, (_, fewer)) in CASES.iter().enumerate() {
        // odd, so that the median is one of them
        println!("{}", line(case, (rounds / fewer).max(3) | 1));
    }
}

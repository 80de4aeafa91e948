// A case a line on standard input, an answer a line on standard output; empty lines and lines that start with # are passed over.
//   case    ROOM MULTIPLIER AGGRESSIVE|pointers|rows
//           ROOM is a number of cells (the iwlen of amd_1), or `order`: lib.rs's own function, which chooses it. AGGRESSIVE is 0 or 1.
//   answer  ANSWER|permutation|inverse|lnz n_div n_mult_subs_ldl n_mult_subs_lu n_dense d_max n_cmp_a
//           ANSWER is 0, or 1 for a jumbled pattern. Or `invalid`, or `panic FILE:LINE`.
mod aat;
mod amd;
mod amd_1;
mod amd_2;
mod internal;
mod post_tree;
mod postorder;
mod preprocess;
mod theirs;
mod valid;

use std::io::BufRead;
use theirs::Theirs;

fn numbers(text: &str) -> Vec<i32> {
    text.split_whitespace().map(|x| x.parse().unwrap()).collect()
}

fn words<T: ToString>(xs: &[T]) -> String {
    xs.iter().map(|x| x.to_string()).collect::<Vec<_>>().join(" ")
}

fn answer(line: &str) -> String {
    let parts: Vec<&str> = line.split('|').collect();
    let head: Vec<&str> = parts[0].split_whitespace().collect();
    let (dense, aggressive) = (head[1].parse().unwrap(), head[2] == "1");
    let (pointers, rows) = (numbers(parts[1]), numbers(parts[2]));
    let n = pointers.len() as i32 - 1;
    let theirs = match head[0] {
        "order" => theirs::order(n, &pointers, &rows, dense, aggressive),
        room => theirs::order_in(room.parse().unwrap(), n, &pointers, &rows, dense, aggressive),
    };
    match theirs {
        Theirs::Told(t) => format!("{}|{}|{}|{}", t.jumbled as u8, words(&t.permutation), words(&t.inverse), words(&t.statistics)),
        Theirs::Invalid => "invalid".to_string(),
        Theirs::Panic(place) => format!("panic {}", place),
    }
}

fn main() {
    theirs::keep_panics();
    for line in std::io::stdin().lock().lines() {
        let line = line.unwrap();
        if !line.is_empty() && !line.starts_with('#') {
            println!("{}", answer(&line));
        }
    }
}

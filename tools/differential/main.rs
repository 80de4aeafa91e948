// differential PATTERNS [SEED [WORD]]: runs the proved ordering and the Rust side by side and compares all that both tell; see docs/DIFFERENTIAL.md.
// PATTERNS is the folder tools/patterns; with WORD only the cases whose name has it, without one all but those of millions of rows, which take half an hour.
// Ends with 1 where anything differs, and prints the first such case in full.
mod aat;
mod amd;
mod amd_1;
mod amd_2;
mod case;
mod draw;
mod drawn;
mod expected;
mod files;
mod internal;
mod large;
mod lent;
mod millions;
mod ours;
mod patterns;
mod post_tree;
mod postorder;
mod preprocess;
mod refusals;
mod small;
mod tally;
mod theirs;
mod trial;
mod valid;

use case::Case;
use draw::Draw;
use small::Give;
use tally::Tally;

fn main() {
    let args: Vec<String> = std::env::args().skip(1).collect();
    if args.is_empty() {
        println!("usage: differential PATTERNS [SEED [WORD]]");
        std::process::exit(2);
    }
    let seed: u64 = args.get(1).map_or(1, |s| s.parse().expect("SEED is a number"));
    theirs::keep_panics();
    let mut tally = Tally::new();
    let mut salt = seed;
    let mut run = |tally: &mut Tally, case: Case| {
        salt = salt.wrapping_mul(6364136223846793005).wrapping_add(1442695040888963407);
        let trial = trial::run(&case, salt >> 20);
        tally.add(&case, trial);
    };
    let hard = files::cases(&format!("{}/hard.txt", args[0]));
    let panics = files::cases(&format!("{}/panics.txt", args[0]));
    let suites: [(&str, &dyn Fn(&mut Draw, Give)); 23] = [
        ("every pattern, n to 4", &small::every_pattern),
        ("every column of 3, n to 3", &small::every_jumble),
        ("every graph, n 5 and 6", &small::every_graph),
        ("families", &drawn::families),
        ("drawn, n to 60", &drawn::small),
        ("drawn, n to 400", &drawn::middle),
        ("drawn, n to 3,000", &drawn::thousands),
        ("jumbled", &drawn::jumbled),
        ("dense", &drawn::dense),
        ("tight rooms", &drawn::tight),
        ("large, n to 100,000", &large::large),
        ("one off the boundary", &refusals::boundaries),
        ("several faults", &refusals::several),
        ("limits of n and nnz", &refusals::limits),
        ("patterns/hard.txt", &|_, give| files::as_they_are(&hard, give)),
        ("near patterns/hard.txt", &|draw, give| files::nearby(&hard, draw, give)),
        ("patterns/panics.txt", &|_, give| files::as_they_are(&panics, give)),
        ("near patterns/panics.txt", &|draw, give| files::nearby(&panics, draw, give)),
        ("millions: grids", &millions::grids),
        ("millions: random", &millions::random),
        ("millions: stars", &millions::stars),
        ("millions: full", &millions::full),
        ("millions: products that wrap", &millions::wraps),
    ];
    let wanted = |name: &str| args.get(2).map_or(!name.starts_with("millions"), |word| name.contains(word.as_str()));
    for (k, (name, suite)) in suites.iter().enumerate().filter(|s| wanted((s.1).0)) {
        tally.begin(name);
        suite(&mut Draw(seed.wrapping_mul(1_000).wrapping_add(k as u64)), &mut |case| run(&mut tally, case));
    }
    println!("seed {}\n", seed);
    tally.print();
    std::process::exit(if tally.mismatches() == 0 { 0 } else { 1 });
}

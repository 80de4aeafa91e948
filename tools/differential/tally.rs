// Counts of a run, as tables in Markdown.
use crate::case::{words, Case};
use crate::trial::Trial;
use std::collections::BTreeMap;

#[derive(Clone, Default)]
struct Line {
    name: String,
    cases: u64,
    orderly: u64,
    jumbled: u64,
    refused: u64,
    largest: usize,
    dense: u64,
    collected: u64,
    most_collections: u64,
    panics_in_room: u64,
    panics_in_order: u64,
    mismatches: u64,
    seconds: f64,
}

pub struct Tally {
    lines: Vec<Line>,
    began: std::time::Instant,
    // by answer: cases, and what the Rust's order says of them
    refusals: BTreeMap<i32, BTreeMap<&'static str, u64>>,
    // by place: how often, and the smallest such case
    panics: BTreeMap<String, (u64, usize, String)>,
    // cases in which the Rust's product wraps, with both sides' statistics
    wraps: Vec<String>,
    first: Option<String>,
}

impl Tally {
    pub fn new() -> Tally {
        Tally { lines: Vec::new(), began: std::time::Instant::now(), refusals: BTreeMap::new(), panics: BTreeMap::new(), wraps: Vec::new(), first: None }
    }

    fn end_line(&mut self) {
        if let Some(line) = self.lines.last_mut() {
            line.seconds = self.began.elapsed().as_secs_f64();
        }
    }

    pub fn begin(&mut self, name: &str) {
        self.end_line();
        self.began = std::time::Instant::now();
        eprintln!("{} ..", name);
        self.lines.push(Line { name: name.to_string(), ..Line::default() });
    }

    fn panicked(&mut self, whose: &str, place: &str, case: &Case, answer: i32) {
        let size = case.pointers.len() + case.rows.len();
        let told = if answer < 2 { "accepted" } else { "refused" };
        let entry = self.panics.entry(format!("{}, {}, {} here", place, whose, told)).or_insert((0, usize::MAX, String::new()));
        entry.0 += 1;
        if size < entry.1 {
            entry.1 = size;
            entry.2 = case.text();
        }
    }

    pub fn add(&mut self, case: &Case, trial: Trial) {
        if let Some(place) = &trial.panic_in_room {
            self.panicked("at equal room", place, case, trial.answer);
        }
        if let Some(place) = &trial.panic_in_order {
            self.panicked("in `order`", place, case, trial.answer);
        }
        if let Some(told) = trial.wrapped {
            self.wraps.push(format!("n {}, {} rows stored\n    ours {}\n    Rust {}", case.n, case.rows.len(), words(&trial.statistics), words(&told)));
        }
        let line = self.lines.last_mut().unwrap();
        line.cases += 1;
        line.orderly += (trial.answer == 0) as u64;
        line.jumbled += (trial.answer == 1) as u64;
        line.refused += (trial.answer > 1) as u64;
        if trial.answer < 2 {
            line.largest = line.largest.max(case.n as usize);
        }
        line.dense += (trial.statistics[4] > 0) as u64;
        line.collected += (trial.statistics[6] > 0) as u64;
        line.most_collections = line.most_collections.max(trial.statistics[6]);
        line.panics_in_room += trial.panic_in_room.is_some() as u64;
        line.panics_in_order += (trial.answer < 2 && trial.panic_in_order.is_some()) as u64;
        if trial.answer > 1 {
            *self.refusals.entry(trial.answer).or_default().entry(trial.rust_says).or_default() += 1;
        }
        if !trial.faults.is_empty() {
            line.mismatches += 1;
            if self.first.is_none() {
                self.first = Some(format!("{}\n{}", trial.faults.join("\n"), case.text()));
            }
        }
    }

    pub fn mismatches(&self) -> u64 {
        self.lines.iter().map(|l| l.mismatches).sum()
    }

    fn print_suites(&self) {
        println!("| Cases | Number | Answer 0 | Answer 1 | Refused | Largest n | Dense rows | Collections | Most | Panics at equal room | Panics in `order` | Mismatches | Seconds |");
        println!("|---|---|---|---|---|---|---|---|---|---|---|---|---|");
        let mut all = Line { name: "**all**".to_string(), ..Line::default() };
        for l in &self.lines {
            all.cases += l.cases;
            all.orderly += l.orderly;
            all.jumbled += l.jumbled;
            all.refused += l.refused;
            all.largest = all.largest.max(l.largest);
            all.dense += l.dense;
            all.collected += l.collected;
            all.most_collections = all.most_collections.max(l.most_collections);
            all.panics_in_room += l.panics_in_room;
            all.panics_in_order += l.panics_in_order;
            all.mismatches += l.mismatches;
            all.seconds += l.seconds;
        }
        for l in self.lines.iter().chain(Some(&all)) {
            println!(
                "| {} | {} | {} | {} | {} | {} | {} | {} | {} | {} | {} | {} | {:.1} |",
                l.name, l.cases, l.orderly, l.jumbled, l.refused, l.largest, l.dense, l.collected, l.most_collections, l.panics_in_room, l.panics_in_order, l.mismatches, l.seconds
            );
        }
    }

    pub fn print(&mut self) {
        self.end_line();
        self.print_suites();
        println!("\n| Refusal | Cases | Rust: invalid | Rust: accepts | Rust: panics | Rust not run |");
        println!("|---|---|---|---|---|---|");
        for (answer, says) in &self.refusals {
            let of = |word: &str| says.get(word).copied().unwrap_or(0);
            println!("| {} | {} | {} | {} | {} | {} |", answer, says.values().sum::<u64>(), of("invalid"), of("accepts"), of("panics"), of(""));
        }
        println!("\nPanics of the Rust, and the smallest input of each kind:\n");
        for (kind, (count, _, text)) in &self.panics {
            println!("{}: {}\n    {}", kind, count, text.replace('\n', "\n    "));
        }
        println!("\nCases in which the Rust's product wraps: {}", self.wraps.len());
        for text in &self.wraps {
            println!("{}", text);
        }
        if let Some(first) = &self.first {
            println!("\nThe first mismatch:\n{}", first);
        }
        println!("\n{} cases, {} mismatches", self.lines.iter().map(|l| l.cases).sum::<u64>(), self.mismatches());
    }
}

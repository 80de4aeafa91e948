// Runs a case on both sides and says what is wrong.
use crate::case::{words, Case};
use crate::expected;
use crate::lent::Lent;
use crate::ours;
use crate::theirs::{self, Theirs, Told};

pub struct Trial {
    pub answer: i32,
    pub faults: Vec<String>,
    // ours
    pub statistics: [u64; 7],
    // the Rust's panics: in the same room, and in the room that its `order` chooses
    pub panic_in_room: Option<String>,
    pub panic_in_order: Option<String>,
    // what the Rust's statistics were in the same room before they were put right
    pub wrapped: Option<[u64; 7]>,
    // of a refused case: `invalid`, `accepts` or `panics`; empty where the Rust was not run
    pub rust_says: &'static str,
}

// The Rust makes (f-1)·f·(2f-1) whole before it divides, which wraps from f = 1,664,512 on (docs/DIFFERENCES.md, part 3). Of so many dense rows its two
// totals are put right: what it added for them goes, and what they are is added.
fn unwrapped(mut told: Told) -> Told {
    let f = told.statistics[4] as i64;
    let q = ((f - 1) * f / 2) as u64;
    let added = ((f - 1).wrapping_mul(f).wrapping_mul(2 * f - 1) / 6) as u64;
    let right = ((f as i128 - 1) * f as i128 * (2 * f as i128 - 1) / 6) as u64;
    let put = |total: u64, added: u64, right: u64| total.wrapping_sub(added).wrapping_add(right);
    told.statistics[2] = put(told.statistics[2], added.wrapping_add(q) / 2, (right + q) / 2);
    told.statistics[3] = put(told.statistics[3], added, right);
    told
}

fn in_order(case: &Case) -> Theirs {
    theirs::order(case.n, &case.pointers, &case.rows, case.multiplier, case.aggressive)
}

fn in_room(case: &Case, room: usize) -> Theirs {
    theirs::order_in(room, case.n, &case.pointers, &case.rows, case.multiplier, case.aggressive)
}

impl Trial {
    fn must(&mut self, holds: bool, what: &str) {
        if !holds {
            self.faults.push(what.to_string());
        }
    }

    fn same<T: PartialEq + ToString>(&mut self, what: &str, which: &str, ours: &[T], told: &[T]) {
        if ours != told {
            self.faults.push(format!("{} differs from the Rust's ({})\n  ours {}\n  Rust {}", what, which, words(ours), words(told)));
        }
    }

    // `count` of the statistics are compared: 7 in one room, 6 in two
    fn agree(&mut self, told: Told, count: usize, ours: &Told, fit: usize, which: &str) {
        let was = told.statistics;
        let told = unwrapped(told);
        if was != told.statistics {
            self.wrapped.get_or_insert(was);
        }
        self.same("jumbled", which, &[ours.jumbled], &[told.jumbled]);
        self.same("permutation", which, &ours.permutation, &told.permutation);
        self.same("inverse", which, &ours.inverse, &told.inverse);
        let count = count.min(fit);
        self.same("statistics", which, &ours.statistics[..count], &told.statistics[..count]);
    }

    // A panic leaves nothing to compare: then the Rust in its own room, or in twice the room, is asked for all but the collections.
    fn compare(&mut self, case: &Case, ours: &Told, fit: usize) {
        let own = in_order(case);
        let same_room = if case.n == 0 { Theirs::Invalid } else { in_room(case, case.lists) };
        match same_room {
            Theirs::Told(told) => self.agree(told, 7, ours, fit, "same room"),
            Theirs::Panic(place) => self.panic_in_room = Some(place),
            Theirs::Invalid => self.must(case.n == 0, "the Rust refuses what is accepted here"),
        }
        match own {
            Theirs::Told(told) => self.agree(told, if case.n == 0 { 7 } else { 6 }, ours, fit, "its own room"),
            Theirs::Panic(place) => self.panic_in_order = Some(place),
            Theirs::Invalid => self.must(false, "the Rust's order refuses what is accepted here"),
        }
        if self.panic_in_room.is_some() && self.panic_in_order.is_some() {
            match in_room(case, 2 * case.lists) {
                Theirs::Told(told) => self.agree(told, 6, ours, fit, "twice the room"),
                _ => self.must(false, "the Rust panics in three rooms: nothing was compared"),
            }
        }
    }
}

pub fn run(case: &Case, salt: u64) -> Trial {
    let (pointers, rows) = (case.pointers.clone(), case.rows.clone());
    let mut permutation: Lent<i32> = Lent::new(case.permutation, salt);
    let mut inverse: Lent<i32> = Lent::new(case.inverse, salt + 1);
    let mut lists: Lent<i64> = Lent::new(case.lists, salt + 2);
    let mut scratch: Lent<i64> = Lent::new(case.scratch, salt + 3);
    let mut statistics: Lent<u64> = Lent::new(case.statistics, salt + 4);
    let answer = ours::order(
        case.n,
        &pointers,
        &rows,
        case.multiplier,
        case.aggressive,
        permutation.part(),
        inverse.part(),
        lists.part(),
        scratch.part(),
        statistics.part(),
    );

    let fit = case.statistics.min(7);
    let mut told = [0; 7];
    told[..fit].copy_from_slice(&statistics.part()[..fit]);
    let expected = expected::answer(case);
    let accepted = expected < 2;
    let mut t = Trial { answer: expected, faults: Vec::new(), statistics: told, panic_in_room: None, panic_in_order: None, wrapped: None, rust_says: "" };

    if answer != expected {
        t.faults.push(format!("answer {}, and the table says {}", answer, expected));
    }
    t.must(pointers == case.pointers && rows == case.rows, "an input slice was changed");
    let all = |len: usize| if accepted { len } else { 0 };
    t.must(permutation.kept_after(all(case.permutation)), "permutation was changed on a refusal, or a cell beside it");
    t.must(inverse.kept_after(all(case.inverse)), "inverse was changed on a refusal, or a cell beside it");
    t.must(lists.kept_after(all(case.lists)), "lists was changed on a refusal, or a cell beside it");
    t.must(scratch.kept_after(all(case.scratch)), "scratch was changed on a refusal, or a cell beside it");
    t.must(statistics.kept_after(fit), "a cell past the statistics was changed");
    if accepted {
        t.must(lists.part().iter().all(|&x| x == 0), "lists is not wholly zero");
        t.must(scratch.part().iter().all(|&x| x == 0), "scratch is not wholly zero");
    } else {
        t.must(told[..fit] == [0; 7][..fit], "a statistic is not zero on a refusal");
    }

    if accepted && answer == expected {
        let ours = Told { jumbled: answer == 1, permutation: permutation.part().to_vec(), inverse: inverse.part().to_vec(), statistics: told };
        let back = |k: usize| ours.inverse.get(ours.permutation[k] as usize) == Some(&(k as i32));
        t.must((0..case.n as usize).all(back), "permutation and inverse do not undo each other");
        t.compare(case, &ours, fit);
    } else if !accepted && case.pointers.len() <= 2_000 {
        t.rust_says = match in_order(case) {
            Theirs::Invalid => "invalid",
            Theirs::Told(_) => "accepts",
            Theirs::Panic(place) => {
                t.panic_in_order = Some(place);
                "panics"
            }
        };
    }
    t
}

// A case: everything that a call is given, but for what the lent slices hold before.
use crate::ours::{least_lists, least_scratch};
use crate::patterns::Pattern;

#[derive(Clone)]
pub struct Case {
    pub n: i32,
    pub pointers: Vec<i32>,
    pub rows: Vec<i32>,
    pub multiplier: f64,
    pub aggressive: bool,
    // lengths of the lent slices
    pub permutation: usize,
    pub inverse: usize,
    pub lists: usize,
    pub scratch: usize,
    pub statistics: usize,
}

impl Case {
    // at the least room
    pub fn new(pattern: Pattern, multiplier: f64, aggressive: bool) -> Case {
        let n = pattern.pointers.len() - 1;
        let nnz = pattern.pointers[n] as usize;
        Case {
            n: n as i32,
            pointers: pattern.pointers,
            rows: pattern.rows,
            multiplier,
            aggressive,
            permutation: n,
            inverse: n,
            lists: least_lists(n, nnz),
            scratch: least_scratch(n, nnz),
            statistics: 7,
        }
    }

    pub fn roomier(mut self, lists: usize, scratch: usize) -> Case {
        self.lists += lists;
        self.scratch += scratch;
        self
    }

    // The second line is a case of tools/oracle/main.rs.
    pub fn text(&self) -> String {
        format!(
            "n {}, multiplier {:?}, aggressive {}, lengths: permutation {}, inverse {}, lists {}, scratch {}, statistics {}\n{} {:?} {}|{}|{}",
            self.n,
            self.multiplier,
            self.aggressive,
            self.permutation,
            self.inverse,
            self.lists,
            self.scratch,
            self.statistics,
            self.lists,
            self.multiplier,
            self.aggressive as u8,
            words(&self.pointers),
            words(&self.rows)
        )
    }
}

// of very many only the first
pub fn words<T: ToString>(xs: &[T]) -> String {
    let told = xs.iter().take(100_000).map(|x| x.to_string()).collect::<Vec<_>>().join(" ");
    if xs.len() > 100_000 { told + " .." } else { told }
}

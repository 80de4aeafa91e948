// The unchanged Rust: its own `order`, and the same steps in a room of a chosen number of cells. A panic is caught and told by its place.
use crate::{aat, amd, amd_1, preprocess, valid};
use std::panic;
use std::sync::Mutex;

#[derive(Clone)]
pub struct Told {
    pub jumbled: bool,
    pub permutation: Vec<i32>,
    pub inverse: Vec<i32>,
    // lnz n_div n_mult_subs_ldl n_mult_subs_lu n_dense d_max n_cmp_a
    pub statistics: [u64; 7],
}

pub enum Theirs {
    Told(Told),
    Invalid,
    // FILE:LINE
    Panic(String),
}

// where the last panic was
static PLACE: Mutex<String> = Mutex::new(String::new());

// Panics are kept and not printed, those of a program's own code too: a program that calls this prints its faults by itself.
pub fn keep_panics() {
    panic::set_hook(Box::new(|i| {
        let place = i.location().unwrap();
        *PLACE.lock().unwrap() = format!("{}:{}", place.file().rsplit('/').next().unwrap(), place.line());
    }));
}

fn caught(run: impl FnOnce() -> Option<Told>) -> Theirs {
    match panic::catch_unwind(panic::AssertUnwindSafe(run)) {
        Ok(Some(told)) => Theirs::Told(told),
        Ok(None) => Theirs::Invalid,
        Err(_) => Theirs::Panic(PLACE.lock().unwrap().clone()),
    }
}

// The two crates have an Info each, of the same fields.
macro_rules! told {
    ($jumbled:expr, $p:expr, $p_inv:expr, $i:expr) => {
        Told {
            jumbled: $jumbled,
            permutation: $p,
            inverse: $p_inv,
            statistics: [$i.lnz, $i.n_div, $i.n_mult_subs_ldl, $i.n_mult_subs_lu, $i.n_dense, $i.d_max, $i.n_cmp_a].map(|x| x as u64),
        }
    };
}

// lib.rs's own function, which chooses the room
pub fn order(n: i32, pointers: &[i32], rows: &[i32], dense: f64, aggressive: bool) -> Theirs {
    caught(|| match whole::order(n, pointers, rows, &whole::Control { dense, aggressive }) {
        Err(_) => None,
        Ok((p, p_inv, i)) => Some(told!(i.status == whole::Status::OkButJumbled, p, p_inv, i)),
    })
}

// what `order` does, in a room of iwlen cells, for n of 1 or more
pub fn order_in(iwlen: usize, n: i32, pointers: &[i32], rows: &[i32], dense: f64, aggressive: bool) -> Theirs {
    caught(|| {
        let mut info = amd::Info::new(n as usize);
        let status = valid::valid(n, n, pointers, rows);
        if status == amd::Status::Invalid {
            return None;
        }
        let jumbled = status == amd::Status::OkButJumbled;
        let (c_p, c_i) = if jumbled { preprocess::preprocess(n, pointers, rows) } else { (pointers.to_vec(), rows.to_vec()) };
        let (_nzaat, mut len) = aat::aat(n, &c_p, &c_i, &mut info);
        let (p, p_inv) = amd_1::amd_1(n, &c_p, &c_i, &mut len, iwlen, &amd::Control { dense, aggressive }, &mut info);
        Some(told!(jumbled, p, p_inv, info))
    })
}

// The proved ordering, as `probe_c` exports it. A slice crosses as a pointer and a length; nothing compares this declaration with crates/probe_c.
#[link(name = "probe", kind = "static")]
extern "C" {
    fn order_probe(
        n: i32,
        pointers: *const i32,
        pointers_len: usize,
        rows: *const i32,
        rows_len: usize,
        multiplier: f64,
        aggressive: bool,
        permutation: *mut i32,
        permutation_len: usize,
        inverse: *mut i32,
        inverse_len: usize,
        lists: *mut i64,
        lists_len: usize,
        scratch: *mut i64,
        scratch_len: usize,
        statistics: *mut u64,
        statistics_len: usize,
    ) -> i32;
}

pub fn least_lists(n: usize, nnz: usize) -> usize {
    2 * nnz + n
}

pub fn least_scratch(n: usize, nnz: usize) -> usize {
    nnz + 16 * n + 16
}

// document 01's number
pub fn order(
    n: i32,
    pointers: &[i32],
    rows: &[i32],
    multiplier: f64,
    aggressive: bool,
    permutation: &mut [i32],
    inverse: &mut [i32],
    lists: &mut [i64],
    scratch: &mut [i64],
    statistics: &mut [u64],
) -> i32 {
    unsafe {
        order_probe(
            n,
            pointers.as_ptr(),
            pointers.len(),
            rows.as_ptr(),
            rows.len(),
            multiplier,
            aggressive,
            permutation.as_mut_ptr(),
            permutation.len(),
            inverse.as_mut_ptr(),
            inverse.len(),
            lists.as_mut_ptr(),
            lists.len(),
            scratch.as_mut_ptr(),
            scratch.len(),
            statistics.as_mut_ptr(),
            statistics.len(),
        )
    }
}

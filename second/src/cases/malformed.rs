//! Malformed requests: at each of them a desk ends the stream.

use crate::desk::{MOST_BYTES, MOST_WORDS};

/// Words that begin no request, or not all of one.
pub fn malformed() -> Vec<Vec<u64>> {
    [no_such_call(), cut_short(), too_large(), too_long()].concat()
}

fn no_such_call() -> Vec<Vec<u64>> {
    vec![vec![0], vec![13], vec![1 << 32 | 1], vec![u64::MAX]]
}

/// Within the numbers, a length, elements, or before a further slice.
fn cut_short() -> Vec<Vec<u64>> {
    vec![
        vec![1],
        vec![1, 2],
        vec![1, 2, 1],
        vec![2, 1, 0, 0, 0, 1, 2, 7, 7],
        vec![4, 1, 0, 0, 0, 0, 0, 0, 0, 0, 0],
        vec![9, 1, 0, 0, 3, 63, 63],
        vec![9, 1, 0, 0, 0, 3, 63, 63],
        vec![9, 1, 0, 0, 0, 0, 3, 63, 63],
        vec![9, 1, 0, 0, 0, 0],
        vec![11],
        vec![11, u64::MAX, 9],
        vec![11, 0, 2, 46],
        vec![11, 0, 1, 46, 9, 46],
        vec![12],
        vec![12, 2, 46],
        vec![12, 1, 46, 2, 7],
    ]
}

/// Numbers and elements too large for their width.
fn too_large() -> Vec<Vec<u64>> {
    let too_wide = 1 << 32;
    vec![
        vec![1, too_wide, 0],
        vec![1, 2, 1, too_wide],
        vec![1, 2, 2, 0, u64::MAX],
        vec![2, 1, too_wide, 0, 0, 0, 0, 0],
        vec![2, 1, 0, too_wide, 0, 0, 0, 0],
        vec![5, 1, too_wide, 0, 0],
        vec![7, 1, 0, 1, 5, 5, 0, too_wide, 1, 7, 1, 0],
        vec![8, 1, 256, 0],
        vec![8, 1, too_wide | 46, 0],
        vec![9, 1, 0, 0, 1, 256],
        vec![9, 1, 0, 0, 0, 1, 256],
        vec![9, 1, 0, 0, 0, 0, 1, 256],
        vec![11, 0, 1, 256, 0],
        vec![11, 0, 0, 1, u64::MAX],
        vec![12, 1, 256, 0],
        vec![12, 0, 1, too_wide],
    ]
}

/// Slices too long.
fn too_long() -> Vec<Vec<u64>> {
    vec![
        vec![1, 2, MOST_WORDS + 1],
        vec![1, 2, 1 << 61],
        vec![1, 2, u64::MAX],
        vec![8, MOST_BYTES + 1],
        vec![9, 1, 0, 0, MOST_BYTES + 1],
        vec![11, 0, MOST_BYTES + 1],
        vec![11, 0, 0, MOST_BYTES + 1],
        vec![12, MOST_BYTES + 1],
        vec![12, 0, MOST_WORDS + 1],
    ]
}

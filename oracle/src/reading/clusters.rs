//! Open, Row and Close on the cluster table: n, contacts, the cutoff's bits, then n parents, n degrees, n marks.

use super::*;
use original::properties::opened::access as rust;

/// The words before the parents.
pub const HEAD: usize = 3;

pub fn open(table: &mut [u32], n: usize, cutoff: f32) -> Answer<[u32; 0]> {
    if n > COPIES {
        return Err(5);
    }
    if cutoff_refused(cutoff) {
        return Err(16);
    }
    if table.len() < HEAD + 3 * n {
        return Err(7);
    }
    table[0] = n as u32;
    table[1] = 0;
    table[2] = cutoff.to_bits();
    for i in 0..n {
        table[HEAD + i] = i as u32;
        table[HEAD + n + i] = 0;
        table[HEAD + 2 * n + i] = 0;
    }
    Ok([])
}

/// What is true of a table that is long enough for n copies and yet unsound. Its cutoff may be any word.
pub(crate) fn table_unsound(table: &[u32], n: usize) -> bool {
    let parents = &table[HEAD..HEAD + n];
    let degrees = &table[HEAD + n..HEAD + 2 * n];
    let marks = &table[HEAD + 2 * n..HEAD + 3 * n];
    if table[0] as usize != n || table[1] as usize > n * n.saturating_sub(1) / 2 {
        return true;
    }
    if parents.iter().any(|&p| p as usize >= n)
        || degrees.iter().any(|&d| d as usize >= n)
        || marks.iter().any(|&m| m > 1)
    {
        return true;
    }
    // Walk up from each copy; `known` copies reach their root.
    let mut known: Vec<bool> = parents.iter().enumerate().map(|(i, &p)| p as usize == i).collect();
    for i in 0..n {
        let mut path = Vec::new();
        let mut at = i;
        while !known[at] && path.len() < n {
            path.push(at);
            at = parents[at] as usize;
        }
        if !known[at] {
            return true;
        }
        for seen in path {
            known[seen] = true;
        }
    }
    false
}

/// The joining of one row, on a table known to be sound; `touch` says whether two copies touch.
pub(crate) fn scan_row(table: &mut [u32], n: usize, i: usize, touch: &mut dyn FnMut(usize, usize) -> bool) {
    let mut parent: Vec<usize> = table[HEAD..HEAD + n].iter().map(|&p| p as usize).collect();
    for j in i + 1..n {
        if touch(i, j) {
            rust::union(&mut parent, i, j);
            table[HEAD + n + i] += 1;
            table[HEAD + n + j] += 1;
            table[1] += 1;
        }
    }
    for (k, p) in parent.into_iter().enumerate() {
        table[HEAD + k] = p as u32;
    }
    table[HEAD + 2 * n + i] = 1;
}

/// `picked` is what `Picked::read` answered for this call's lists, a refusal too; `touch` is at this call's cutoff.
pub fn row(
    picked: &Answer<Picked>,
    cutoff: f32,
    table: &mut [u32],
    i: usize,
    touch: &mut dyn FnMut(usize, usize) -> bool,
) -> Answer<[u32; 0]> {
    let n = match picked {
        Ok(p) => p.n(),
        Err(number) => return Err(*number),
    };
    if cutoff_refused(cutoff) {
        return Err(16);
    }
    if table.len() < HEAD + 3 * n {
        return Err(7);
    }
    if table_unsound(table, n) {
        return Err(9);
    }
    if cutoff.to_bits() != table[2] {
        return Err(17);
    }
    if i >= n {
        return Err(10);
    }
    if table[HEAD + 2 * n + i] == 1 {
        return Err(11);
    }
    scan_row(table, n, i, touch);
    Ok([])
}

pub(crate) fn fractions(table: &[u32], n: usize) -> [u32; 3] {
    if n < 2 {
        return [0, 0, 0];
    }
    let mut parent: Vec<usize> = table[HEAD..HEAD + n].iter().map(|&p| p as usize).collect();
    let mut sizes = vec![0usize; n];
    for i in 0..n {
        sizes[rust::root(&mut parent, i)] += 1;
    }
    let largest = sizes.into_iter().max().unwrap();
    let contacted = table[HEAD + n..HEAD + 2 * n].iter().filter(|&&d| d > 0).count();
    let of = |a: usize, b: usize| (a as f32 / b as f32).to_bits();
    [
        of(largest - 1, n - 1),
        of(contacted, n),
        of(table[1] as usize, n * (n - 1) / 2),
    ]
}

/// Largest, contacted and pair fraction, as bits. The cutoff is not looked at.
pub fn close(table: &[u32]) -> Answer<[u32; 3]> {
    if table.len() < HEAD {
        return Err(7);
    }
    let n = table[0] as usize;
    if table.len() < HEAD + 3 * n {
        return Err(7);
    }
    if n > COPIES || table_unsound(table, n) {
        return Err(9);
    }
    if table[HEAD + 2 * n..HEAD + 3 * n].contains(&0) {
        return Err(12);
    }
    Ok(fractions(table, n))
}

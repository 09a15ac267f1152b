//! Damaged pick lists and cluster tables, and sound ones that no call gives.

use super::parts::rows;
use crate::case::{Case, RowCall};
use crate::rng::Rng;
use reading::{CUTOFF, HEAD};

/// Sound lists of the frame as it is now, or small ones.
fn sound_lists(c: &Case) -> (Vec<u32>, Vec<u32>) {
    let kept = reading::select_by_words(&c.solutes, c.per, &c.indices);
    let mut starts = vec![0];
    let mut picks = Vec::new();
    for copy in kept.iter().take(reading::COPIES) {
        picks.extend(copy);
        starts.push(picks.len() as u32);
    }
    (starts, picks)
}

pub fn pick_lists(c: &mut Case, rng: &mut Rng) -> &'static str {
    let (mut starts, mut picks) = sound_lists(c);
    let last = starts.len() - 1;
    let what = match rng.below(14) {
        0 => {
            starts.clear();
            "starts is empty"
        }
        1 => {
            starts[0] = 1;
            "starts begins at 1"
        }
        2 => {
            let at = rng.below(starts.len());
            starts[at] = starts[at.saturating_sub(1)];
            "two starts are equal"
        }
        3 => {
            starts.reverse();
            "starts falls"
        }
        4 => {
            starts[last] = starts[last].wrapping_add(rng.pick(&[1, u32::MAX, 1 << 31]));
            "starts does not end at the picks"
        }
        5 => {
            picks.push(0);
            "a pick past the last start"
        }
        6 => {
            picks.pop();
            "a pick too few"
        }
        7 if !picks.is_empty() => {
            let at = rng.below(picks.len());
            picks[at] = rng.pick(&[c.atoms() as u32, u32::MAX, 1 << 30, 0x5555_5556]);
            "a pick names no atom"
        }
        8 if !picks.is_empty() && c.atoms() > 0 => {
            let atom = picks[rng.below(picks.len())] as usize % c.atoms();
            c.solutes[3 * atom + rng.below(3)] = rng.pick(&[f32::NAN, f32::INFINITY]);
            "a pick names an atom that is not finite"
        }
        9 => {
            (starts, picks) = (vec![0], vec![]);
            "no copies, soundly"
        }
        10 if c.atoms() > 0 && rng.one_in(25) => {
            let n = rng.pick(&[4_096, 4_097]);
            starts = (0..=n).collect();
            picks = vec![rng.below(c.atoms()) as u32; n as usize];
            c.rows = [0, 4_095, 4_096].map(RowCall::from).to_vec();
            "4,096 copies or one more"
        }
        11 if c.atoms() > 0 && rng.one_in(10) => {
            let n = rng.pick(&[65_536, 65_537]);
            starts = vec![0, 1, n];
            picks = vec![rng.below(c.atoms()) as u32; n as usize];
            c.rows = vec![];
            "65,536 picks or one more"
        }
        12 if c.atoms() > 0 => {
            // Sound lists that no Select gives: any atoms, any order, shared between copies.
            let n = rng.between(1, 8);
            starts = vec![0];
            picks.clear();
            for _ in 0..n {
                for _ in 0..rng.between(1, 4) {
                    picks.push(rng.below(c.atoms()) as u32);
                }
                starts.push(picks.len() as u32);
            }
            c.rows = rows(n, rng);
            "lists of no Select"
        }
        _ => {
            let at = rng.below(starts.len());
            starts[at] = rng.next() as u32;
            "a start is anything"
        }
    };
    c.lists = Some((starts, picks));
    what
}

/// A cluster table that a scan may or may not have made, then perhaps damaged.
pub fn cluster_table(c: &mut Case, rng: &mut Rng) -> &'static str {
    let (starts, _) = c.lists.clone().unwrap_or_else(|| sound_lists(c));
    let n = starts.len().saturating_sub(1).min(reading::COPIES);
    let small = n.max(1) as u32;
    let mut t = vec![n as u32, 0, CUTOFF.to_bits()];
    match rng.below(3) {
        // A forest: every parent is lower, or every parent is higher, or each its own.
        0 => t.extend((0..n).map(|i| rng.below(i + 1) as u32)),
        1 => t.extend((0..n).map(|i| (i + rng.below(n - i)) as u32)),
        _ => t.extend((0..n as u32).map(|i| if rng.one_in(2) { i } else { 0 })),
    }
    t.extend((0..n).map(|_| rng.below(n) as u32));
    t.extend((0..n).map(|_| rng.pick(&[0, 0, 1])));
    t[1] = rng.below(n * n.saturating_sub(1) / 2 + 1) as u32;
    if rng.one_in(8) {
        t.truncate(HEAD + 2 * n);
        t.extend(vec![1; n]);
    }
    let what = match rng.below(14) {
        0 => {
            t[0] = t[0].wrapping_add(rng.pick(&[1, u32::MAX, 1 << 16, 0x5555_5555, 0x5555_5556]));
            "the table's n is another"
        }
        1 if n > 0 => {
            t[HEAD + rng.below(n)] = rng.pick(&[small, small + 1, u32::MAX]);
            "a parent is not below n"
        }
        2 if n > 1 => {
            let (a, b) = (rng.below(n), rng.below(n));
            t[HEAD + a] = b as u32;
            t[HEAD + b] = a as u32;
            "perhaps a cycle of two"
        }
        3 if n > 2 => {
            for i in 0..n {
                t[HEAD + i] = ((i + 1) % n) as u32;
            }
            if rng.one_in(2) {
                t[HEAD + rng.below(n)] = rng.below(n) as u32;
            }
            "a ring, perhaps with a way out"
        }
        4 if n > 0 => {
            for i in 0..n {
                t[HEAD + i] = rng.below(n) as u32;
            }
            "parents are any copies"
        }
        5 if n > 0 => {
            t[HEAD + n + rng.below(n)] = rng.pick(&[small, small + 1, u32::MAX]);
            "a degree is not below n"
        }
        6 if n > 0 => {
            t[HEAD + 2 * n + rng.below(n)] = rng.pick(&[2, 3, u32::MAX]);
            "a mark is above 1"
        }
        7 => {
            t[1] = (n * n.saturating_sub(1) / 2) as u32 + rng.pick(&[0, 1, 1, 1 << 31]);
            "as many contacts as pairs, or more"
        }
        8 => {
            t.truncate(rng.below(t.len() + 1));
            "the table is cut off"
        }
        9 => {
            t = (0..rng.below(3 * n + 9)).map(|_| rng.pick(&[0, 1, 2, small, u32::MAX])).collect();
            "the table is anything"
        }
        11 if rng.one_in(6) => {
            // Long enough and sound in every entry, but for its n.
            let n = rng.pick(&[4_096, 4_097, 5_000]);
            t = vec![n, 0, CUTOFF.to_bits()];
            t.extend(0..n);
            t.extend(vec![0; n as usize]);
            t.extend(vec![1; n as usize]);
            "a table of 4,096 copies or more"
        }
        10 if n > 0 => {
            // Chains as long as they get: sound, and slow for a test that walks each to its end.
            for i in 0..n {
                t[HEAD + i] = i.saturating_sub(1) as u32;
            }
            "one chain"
        }
        _ => "a table of no scan",
    };
    t.extend((0..rng.pick(&[0, 0, 1, 9])).map(|i| 40 + i));
    c.table = Some(t);
    c.rows = rows(n, rng);
    c.rows.truncate(40);
    what
}

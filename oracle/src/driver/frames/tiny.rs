//! Exhaustive groups: cluster tables of up to five copies, and frames of up to three atoms and two waters.

use super::parts::{fill, rows, slack};
use crate::case::Case;
use crate::rng::Rng;
use reading::CUTOFF;

/// Takes the digits of a number, the last base first.
struct Digits(u64);

impl Digits {
    fn take(&mut self, base: u64) -> usize {
        let digit = self.0 % base;
        self.0 /= base;
        digit as usize
    }
}

/// A list of up to `longest` of `kinds` things, as a number below `lists(kinds, longest)`.
fn lists(kinds: u64, longest: u32) -> u64 {
    (0..=longest).map(|len| kinds.pow(len)).sum()
}

fn list(mut number: u64, kinds: u64) -> Vec<usize> {
    let mut len = 0;
    while number >= kinds.pow(len) {
        number -= kinds.pow(len);
        len += 1;
    }
    let mut digits = Digits(number);
    (0..len).map(|_| digits.take(kinds)).collect()
}

const PLACES: [[f32; 3]; 5] = [
    [2.0, 2.0, 2.0],
    [6.2, 2.0, 2.0],
    [-0.0, 0.0, 10.0],
    [9.0, 9.5, 2.0],
    [f32::NAN, 1.0, 1.0],
];
const WATERS: [[f32; 3]; 3] = [[6.0, 6.0, 6.0], [2.0, 2.5, -1.0], [1.0, f32::INFINITY, 0.0]];
const INDICES: [&[u32]; 7] = [&[], &[0], &[1], &[0, 0], &[1, 0], &[9], &[9, 1]];
const CELLS: [[f32; 6]; 3] = [
    [0.0, 0.0, 0.0, 16.0, 16.0, 16.0],
    [-5.0, -5.0, -5.0, 5.0, 5.0, 5.0],
    [0.0, -1.0, 0.0, 9.0, 20.0, 1.7881393e-7],
];

pub fn frame(number: u64, rng: &mut Rng) -> Option<Case> {
    let mut d = Digits(number);
    let cell = CELLS[d.take(3)];
    let per = d.take(4);
    let indices = INDICES[d.take(7)].to_vec();
    let waters = list(d.take(lists(3, 2)) as u64, 3);
    let solutes = list(d.take(lists(5, 3)) as u64, 5);
    if d.0 > 0 {
        return None;
    }
    let solutes: Vec<f32> = solutes.into_iter().flat_map(|p| PLACES[p]).collect();
    let kept = reading::select_by_words(&solutes, per, &indices).len();
    Some(Case {
        shape: "tiny".into(),
        cell,
        per,
        indices,
        waters: waters.into_iter().flat_map(|p| WATERS[p]).collect(),
        rows: rows(kept, rng),
        pairs: if kept > 1 { vec![(0, 1, CUTOFF)] } else { vec![] },
        slack: slack(rng),
        fill: fill(rng),
        solutes,
        ..Case::default()
    })
}

/// Words that a table of n copies is made of: n, contacts, parents, degrees and marks from small sets.
pub fn table(number: u64, rng: &mut Rng) -> Option<Case> {
    let mut d = Digits(number);
    // Each n has its own stretch of numbers: first the sets of its words, then how many there are.
    for (n, parents, degrees, marks, contacts, words) in [
        (0u64, 1u64, 1u64, 1u64, 2u64, 2u64),
        (1, 3, 3, 3, 3, 3),
        (2, 3, 3, 3, 3, 4),
        (3, 4, 3, 3, 3, 2),
        (4, 5, 1, 1, 1, 1),
        (5, 6, 1, 1, 1, 1),
    ] {
        let n_u32 = n as u32;
        let all = (parents * degrees * marks).pow(n_u32) * contacts * words * (n + 1);
        if d.0 >= all {
            d.0 -= all;
            continue;
        }
        let most = n_u32 * n_u32.saturating_sub(1) / 2;
        let row = d.take(n + 1);
        let word = [n_u32, n_u32 + 1, n_u32.saturating_sub(1), 0x5555_5555][d.take(words)];
        let contact = [0, most, most + 1][d.take(contacts)];
        let mut t = vec![word, contact, CUTOFF.to_bits()];
        t.extend((0..n).map(|_| d.take(parents) as u32));
        t.extend((0..n).map(|_| [0, n_u32 - 1, n_u32][d.take(degrees)]));
        t.extend((0..n).map(|_| d.take(marks) as u32));
        let extra = rng.below(3) as u32;
        t.extend((0..extra).map(|i| i + 7));
        let solutes = (0..n).flat_map(|i| [4.0 * i as f32, 0.0, 0.0]).collect();
        let starts = (0..=n_u32).collect();
        let picks = (0..n_u32).collect();
        return Some(Case {
            shape: "cluster table".into(),
            cell: [0.0, 0.0, 0.0, 32.0, 32.0, 32.0],
            solutes,
            per: 1,
            lists: Some((starts, picks)),
            table: Some(t),
            rows: vec![row.into()],
            fill: 3,
            clusters_only: true,
            ..Case::default()
        });
    }
    None
}

//! What frames are made of: cells, points, copies, index lists, rows, room in the tables.

use crate::case::RowCall;
use crate::rng::Rng;

// Cells.

pub const EPS: f32 = f32::EPSILON;

pub fn cube(low: f32, high: f32) -> [f32; 6] {
    [low, low, low, high, high, high]
}

/// A valid cell of some shape.
pub fn cell(reach: f32, rng: &mut Rng) -> [f32; 6] {
    match rng.below(14) {
        0..=2 => cube(0.0, rng.pick(&[8.0, 10.0, 16.0, 20.0, 32.0, 64.0])),
        3..=4 => {
            let half = rng.float(2.5, 40.0);
            cube(-half, half)
        }
        5..=7 => {
            let mut c = [0.0; 6];
            for axis in 0..3 {
                c[axis] = rng.float(-100.0, 100.0);
                c[axis + 3] = c[axis] + rng.float(3.0, 60.0);
            }
            c
        }
        8 => cube(0.0, rng.float(5.0, 200.0)),
        9 => cube(-0.0, rng.float(5.0, 50.0)),
        _ => odd_cell(reach, rng),
    }
}

/// Flat, tiny, huge, far off and few-ulp cells, and those that the cutoff `reach` just fits in; valid all of them.
pub fn odd_cell(reach: f32, rng: &mut Rng) -> [f32; 6] {
    let mut c = cube(0.0, rng.pick(&[10.0, 16.0, 30.0]));
    match rng.below(7) {
        0 => {
            // One or two flat axes.
            for _ in 0..rng.between(1, 2) {
                let axis = rng.below(3);
                c[axis] = 0.0;
                c[axis + 3] = rng.pick(&[1.5 * EPS, 2.0 * EPS, 1e-6, 1e-3, 0.1, 0.75, 0.7500001]);
            }
        }
        1 => {
            let side = rng.pick(&[1.5 * EPS, 2.0 * EPS, 1e-6, 1e-3, 0.1, 0.75, 1.0, 1.5]);
            let low = rng.pick(&[0.0, -0.0, -side / 2.0]);
            c = cube(low, low + side);
            if !c.iter().all(|b| b.is_finite()) || c[3] - c[0] <= EPS {
                c = cube(0.0, side);
            }
        }
        2 => c = cube(-65_536.0, 65_536.0),
        3 => c = [-65_536.0, 0.0, 0.0, 65_536.0, rng.float(1.0, 20.0), rng.float(1.0, 20.0)],
        4 => {
            // A few ulps wide, far from zero, beside wide axes: boxes of no width come about.
            let axis = rng.below(3);
            let low = rng.pick(&[65_535.0_f32, 60_000.0, -65_536.0, 1_024.0, 8.0]);
            let mut high = low;
            for _ in 0..rng.between(1, 6) {
                high = high.next_up();
            }
            c[axis] = low;
            c[axis + 3] = high;
        }
        5 => {
            let low = rng.float(-65_000.0, 65_000.0);
            c = cube(low, low + rng.float(4.0, 500.0));
        }
        _ => {
            let side = rng.pick(&[2.0 * reach, (2.0 * reach).next_up(), reach, 12.6, reach / 2.0]);
            c = cube(0.0, side);
        }
    }
    if (0..3).all(|a| c[a + 3] - c[a] > EPS) { c } else { cube(0.0, 16.0) }
}

// Points.

pub fn nudge(x: f32, rng: &mut Rng) -> f32 {
    match rng.below(4) {
        0 => x.next_up(),
        1 => x.next_down(),
        _ => x,
    }
}

/// A coordinate that some comparison of the frame hangs on.
pub fn edge(cell: &[f32; 6], axis: usize, rng: &mut Rng) -> f32 {
    let (low, high) = (cell[axis], cell[axis + 3]);
    match rng.below(8) {
        0 => low,
        1 => high,
        2 => nudge(low, rng),
        3 => nudge(high, rng),
        4 => {
            // A plane between two boxes.
            let parts = (1u32 << rng.between(1, 6)) as f32;
            let k = rng.below(parts as usize) as f32;
            nudge(low + (high - low) * (k / parts), rng)
        }
        5 => rng.pick(&[0.0, -0.0, 1e-45, -1e-45, -9.094947e-13, EPS, -EPS]),
        6 => nudge((low + high) * 0.5, rng),
        _ => low - (high - low) * rng.between(0, 3) as f32,
    }
}

/// Within the limits, but up to very far from the cell.
pub fn far(rng: &mut Rng) -> f32 {
    match rng.below(4) {
        0 => rng.pick(&[1_048_576.0, -1_048_576.0, 1_048_575.9, -1_048_575.0]),
        1 => rng.float(-1_000_000.0, 1_000_000.0),
        2 => rng.float(-65_536.0, 65_536.0),
        _ => rng.float(-1_000.0, 1_000.0),
    }
}

/// Where points of a frame lie.
#[derive(Clone, Copy, PartialEq)]
pub enum Spread {
    Inside,
    Edges,
    Around,
    Far,
    Mixed,
}

pub fn point(cell: &[f32; 6], spread: Spread, rng: &mut Rng) -> [f32; 3] {
    let mut p = [0.0; 3];
    for (axis, x) in p.iter_mut().enumerate() {
        let (low, high) = (cell[axis], cell[axis + 3]);
        let kind = if spread == Spread::Mixed {
            rng.pick(&[Spread::Inside, Spread::Inside, Spread::Edges, Spread::Around, Spread::Far])
        } else {
            spread
        };
        *x = match kind {
            Spread::Edges => edge(cell, axis, rng),
            Spread::Around => rng.float(low - 2.0 * (high - low), high + 2.0 * (high - low)),
            Spread::Far => far(rng),
            _ => rng.float(low, high),
        };
    }
    limit(p)
}

pub fn limit(p: [f32; 3]) -> [f32; 3] {
    p.map(|x| x.clamp(-1_048_576.0, 1_048_576.0))
}

/// A point near `from`, at about the cutoff `reach` from it as often as not.
pub fn neighbour(from: [f32; 3], reach: f32, rng: &mut Rng) -> [f32; 3] {
    let mut d = [0.0f32; 3];
    match rng.below(4) {
        0 => d[rng.below(3)] = nudge(rng.pick(&[reach, -reach]), rng),
        1 => {
            let raw = [rng.float(-1.0, 1.0), rng.float(-1.0, 1.0), rng.float(-1.0, 1.0)];
            let size = raw.iter().map(|x| x * x).sum::<f32>().sqrt().max(1e-3);
            d = raw.map(|x| x * (reach / size));
        }
        2 => d = [rng.float(-3.0, 3.0), rng.float(-3.0, 3.0), rng.float(-3.0, 3.0)],
        _ => d = [rng.float(-0.5, 0.5), rng.float(-0.5, 0.5), rng.float(-0.5, 0.5)],
    }
    limit([nudge(from[0] + d[0], rng), from[1] + d[1], from[2] + d[2]])
}

pub fn spoil(p: &mut [f32], rng: &mut Rng) {
    let bad = [f32::NAN, f32::INFINITY, f32::NEG_INFINITY, f32::from_bits(0xFFC0_0001), f32::from_bits(0x7FA0_0000)];
    let at = rng.below(p.len());
    p[at] = rng.pick(&bad);
}

pub fn points(n: usize, cell: &[f32; 6], spread: Spread, spoiled: usize, rng: &mut Rng) -> Vec<f32> {
    let mut list = Vec::with_capacity(3 * n);
    for _ in 0..n {
        let mut p = point(cell, spread, rng);
        if spoiled > 0 && rng.one_in(spoiled) {
            spoil(&mut p, rng);
        }
        list.extend(p);
    }
    list
}

/// `copies` copies of `per` atoms, each a blob; bases by the spread, or near the base before.
#[allow(clippy::too_many_arguments)]
pub fn copies(
    copies: usize,
    per: usize,
    cell: &[f32; 6],
    spread: Spread,
    crowded: usize,
    spoiled: usize,
    reach: f32,
    rng: &mut Rng,
) -> Vec<f32> {
    let mut list = Vec::new();
    let mut base = point(cell, spread, rng);
    let width = rng.pick(&[0.0, 0.5, 1.0, 3.0]);
    for _ in 0..copies {
        base = if rng.below(10) < crowded { neighbour(base, reach, rng) } else { point(cell, spread, rng) };
        for atom in 0..per {
            let mut p = base;
            if atom > 0 {
                for x in &mut p {
                    *x += rng.float(-width, width);
                }
            }
            let mut p = limit(p);
            if spoiled > 0 && rng.one_in(spoiled) {
                spoil(&mut p, rng);
            }
            list.extend(p);
        }
    }
    list
}

pub fn indices(per: usize, rng: &mut Rng) -> Vec<u32> {
    let small = per.clamp(1, 16);
    match rng.below(8) {
        0..=2 => vec![],
        3 => vec![rng.below(small) as u32],
        4 => (0..rng.between(1, 4)).map(|_| rng.below(small) as u32).collect(),
        5 => (0..rng.between(1, 6)).map(|_| rng.below(small + 2) as u32).collect(),
        6 => (0..rng.between(1, 3))
            .map(|_| rng.pick(&[small as u32, 9, 255, 65_536, 1 << 31, u32::MAX]))
            .collect(),
        _ => (0..small as u32).rev().collect(),
    }
}

/// Rows in some order, some of them twice or out of range.
pub fn rows(n: usize, rng: &mut Rng) -> Vec<RowCall> {
    let mut list: Vec<usize> = (0..n).collect();
    match rng.below(5) {
        0 | 1 => {}
        2 => list.reverse(),
        _ => {
            for i in (1..n).rev() {
                list.swap(i, rng.below(i + 1));
            }
        }
    }
    if rng.one_in(4) && n > 0 {
        for _ in 0..rng.between(1, 3) {
            let at = rng.below(list.len() + 1);
            let other = rng.pick(&[0, n - 1, n, n + 1, usize::MAX, 1 << 32, (1 << 32) + n - 1]);
            list.insert(at, other);
        }
    }
    if rng.one_in(6) {
        list.truncate(rng.below(list.len() + 1));
    }
    list.into_iter().map(RowCall::from).collect()
}

/// Room in the lent tables: just enough, more, or now and then one word short.
pub fn slack(rng: &mut Rng) -> [i32; 10] {
    let mut s = [0; 10];
    match rng.below(4) {
        0 => {}
        1 | 2 => s = std::array::from_fn(|_| rng.pick(&[0, 1, 5, 7, 8, 20])),
        _ => {
            s = std::array::from_fn(|_| rng.pick(&[0, 3, 16]));
            let at = rng.below(10);
            s[at] = rng.pick(&[-1, -1, -2, -7, -8, -16, -100_000]);
        }
    }
    s
}

pub fn fill(rng: &mut Rng) -> u64 {
    match rng.below(8) {
        at @ 0..=2 => at as u64,
        _ => rng.next() | 8,
    }
}

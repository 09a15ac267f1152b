//! Frames with separations at multiples of half an extent, give or take some ulps: where the minimum image goes over from one whole
//! number to the next (odd multiples), and where it comes to nothing (even ones).

use super::parts::{EPS, indices, limit, spoil};
use crate::case::Case;
use crate::rng::Rng;
use lin_alg::f32::Vec3;
use reading::CUTOFF;

/// At most four ulps up or down, none or one more often than not.
fn ulps(x: f32, rng: &mut Rng) -> f32 {
    let n = rng.pick(&[0, 0, 0, 1, 1, 2, 3, 4]);
    let up = rng.one_in(2);
    (0..n).fold(x, |x, _| if up { x.next_up() } else { x.next_down() })
}

/// Round, of any bits, tiny, large, or such that half of it on one, two or three axes is the cutoff `reach`, or 4.2 if that is tiny.
fn extent(reach: f32, rng: &mut Rng) -> f32 {
    let any = rng.unit();
    match rng.below(10) {
        0..=2 => rng.pick(&[1.0, 8.0, 10.0, 16.0, 53.0, 125.0]),
        3..=4 => {
            let side = 2.0 * if reach > 1e-3 { reach } else { CUTOFF };
            ulps(rng.pick(&[side, side / 2.0_f32.sqrt(), side / 3.0_f32.sqrt()]), rng)
        }
        5..=6 => 1.0 + 19.0 * any,
        7 => 20.0 + 130.0 * any,
        8 => rng.pick(&[EPS.next_up(), 1.5 * EPS, 1e-6, 1e-3, 0.001 + any]),
        _ => rng.pick(&[65_536.0, 131_072.0, 1_000.0 + 130_000.0 * any]),
    }
}

/// A valid cell: all axes alike, or each of its own.
fn cell(reach: f32, rng: &mut Rng) -> [f32; 6] {
    let mut c = [0.0; 6];
    let (cube, e) = (rng.one_in(2), extent(reach, rng));
    for axis in 0..3 {
        let e = if cube { e } else { extent(reach, rng) };
        let low = match rng.below(4) {
            0 => -e / 2.0,
            1 if (1.0..1_000.0).contains(&e) => rng.pick(&[-0.0, 0.25, -2.5, 8.0, -100.0]),
            _ => 0.0,
        };
        let low = if low + e > 65_536.0 { -e / 2.0 } else { low };
        (c[axis], c[axis + 3]) = (low, low + e);
    }
    c
}

/// Zero, at a sixteenth of the cell, or anywhere in it: from the first two a separation is often exact.
fn base(low: f32, e: f32, rng: &mut Rng) -> f32 {
    match rng.below(6) {
        0..=1 => rng.pick(&[0.0, -0.0]),
        2..=3 => low + e * (rng.below(16) as f32 / 16.0),
        _ => rng.float(low, low + e),
    }
}

/// A coordinate at a multiple of half the extent from x: as often as not the least ones, now and then as far as the limit allows.
fn beside(x: f32, e: f32, rng: &mut Rng) -> f32 {
    let room = ((1_048_576.0 - x.abs()) / e) as usize;
    let most = rng.pick(&[0, 0, 0, 0, 20, 20, 20, 1 << 24]).min(room.saturating_sub(1));
    let whole = rng.below(2 * most + 2) as f64 - most as f64;
    let d = e as f64 * if rng.one_in(3) { whole * rng.pick(&[1.0, -1.0]) } else { whole - 0.5 };
    if rng.one_in(2) { x + ulps(d as f32, rng) } else { ulps((x as f64 + d) as f32, rng) }
}

/// A point beside `from` on most axes.
fn point(from: [f32; 3], cell: &[f32; 6], rng: &mut Rng) -> [f32; 3] {
    let mut p = from;
    for (axis, x) in p.iter_mut().enumerate() {
        let (low, high) = (cell[axis], cell[axis + 3]);
        match rng.below(6) {
            0 => {}
            1 => *x = base(low, high - low, rng),
            _ => *x = beside(*x, high - low, rng),
        }
    }
    limit(p)
}

/// Copies beside one of a few points, or there; their other atoms beside where the first one wraps to, beside that point, or there.
fn solutes(n: usize, per: usize, cell: &[f32; 6], rng: &mut Rng) -> Vec<f32> {
    let within = reading::simbox(*cell);
    let places: Vec<[f32; 3]> = (0..rng.between(1, 2 + n / 1_000))
        .map(|_| [0, 1, 2].map(|axis| base(cell[axis], cell[axis + 3] - cell[axis], rng)))
        .collect();
    let mut list = Vec::with_capacity(3 * n * per);
    for _ in 0..n {
        let place = places[rng.below(places.len())];
        let first = if rng.one_in(4) { place } else { point(place, cell, rng) };
        let anchor = within.wrap(Vec3::new(first[0], first[1], first[2]));
        list.extend(first);
        for _ in 1..per {
            list.extend(match rng.below(4) {
                0 => first,
                1 => point(place, cell, rng),
                _ => point([anchor.x, anchor.y, anchor.z], cell, rng),
            });
        }
    }
    list
}

/// Waters where the tree's boxes have their centers, which are half an extent from one another, or beside an atom.
fn waters(n: usize, cell: &[f32; 6], solutes: &[f32], rng: &mut Rng) -> Vec<f32> {
    let mut list = Vec::with_capacity(3 * n);
    for _ in 0..n {
        let atom = 3 * rng.below(solutes.len() / 3);
        list.extend(limit([0, 1, 2].map(|axis| {
            let (low, e) = (cell[axis], cell[axis + 3] - cell[axis]);
            let parts = 1 << rng.pick(&[1, 2, 2, 2, 3, 3, 4]);
            let center = low as f64 + e as f64 * (2 * rng.below(parts / 2) + 1) as f64 / parts as f64;
            match rng.below(8) {
                0..=3 => ulps(center as f32, rng),
                4 => beside(center as f32, e, rng),
                5 => ulps(rng.pick(&[low, cell[axis + 3]]), rng),
                6 => beside(solutes[atom + axis], e, rng),
                _ => rng.float(low, low + e),
            }
        })));
    }
    list
}

/// So many copies, atoms of each and waters, in a cell of its own.
pub fn frame(n: usize, per: usize, w: usize, reach: f32, rng: &mut Rng) -> Case {
    let cell = cell(reach, rng);
    let solutes = solutes(n, per, &cell, rng);
    let waters = waters(w, &cell, &solutes, rng);
    Case { shape: "halves of extents".into(), cell, solutes, per, waters, ..Case::default() }
}

/// A frame of the group `small`; one copy alone has the whole cell for its leaf.
pub fn small(reach: f32, rng: &mut Rng) -> Case {
    let per = rng.pick(&[1, 1, 1, 2, 2, 3]);
    let mut c = frame(rng.between(1, 8), per, rng.between(1, 8), reach, rng);
    if rng.one_in(4) {
        c.indices = indices(per, rng);
    }
    if rng.one_in(16) {
        spoil(&mut c.solutes, rng);
    }
    c
}

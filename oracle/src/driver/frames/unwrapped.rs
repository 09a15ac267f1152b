//! Unwrapped frames: copies, single atoms and waters moved by whole numbers of extents, as in a trajectory that nobody has wrapped.

use super::parts::{Spread, cell as any_cell, indices, limit, neighbour, nudge, point, points, spoil};
use crate::case::Case;
use crate::rng::Rng;
use lin_alg::f32::Vec3;
use reading::{COORDINATE, CUTOFF};

/// How many images away at most: 1, 3 or 20, now and then more, or as far as the limit of a coordinate allows.
pub fn most(rng: &mut Rng) -> usize {
    rng.pick(&[1, 1, 1, 3, 3, 3, 20, 20, 20, 100, 2_000, 1 << 24])
}

fn extent(cell: &[f32; 6], axis: usize) -> f32 {
    cell[axis + 3] - cell[axis]
}

/// A whole number from -most to most, such that a coordinate as large as x and moved by so many extents is within its limit.
fn turns(x: f32, e: f32, most: usize, rng: &mut Rng) -> f32 {
    let most = most.min(((COORDINATE - x.abs()) / e) as usize);
    rng.below(2 * most + 1) as f32 - most as f32
}

/// What is moved of a frame, and how.
pub struct Moves {
    most: usize,
    axes: [bool; 3],
    /// One of so many copies is moved as one, one of so many atoms and waters alone; 0 for none.
    copies: usize,
    atoms: usize,
    waters: usize,
}

impl Moves {
    /// Each copy as one, and each water.
    pub fn molecules(most: usize) -> Moves {
        Moves { most, axes: [true; 3], copies: 1, atoms: 0, waters: 1 }
    }

    pub fn atoms(most: usize) -> Moves {
        Moves { atoms: 1, copies: 0, ..Moves::molecules(most) }
    }

    fn any(most: usize, rng: &mut Rng) -> Moves {
        let (copies, atoms) = rng.pick(&[(1, 0), (1, 0), (1, 0), (2, 0), (4, 0), (0, 1), (0, 4), (1, 4)]);
        let waters = rng.pick(&[0, 1, 1, 3]);
        let only = rng.below(12);
        Moves { most, axes: [0, 1, 2].map(|axis| only > 2 || only == axis), copies, atoms, waters }
    }

    /// The points as one; says whether they were moved. What is not finite stays so.
    fn shift(&self, list: &mut [f32], cell: &[f32; 6], rng: &mut Rng) -> bool {
        let mut moved = false;
        for axis in (0..3).filter(|&axis| self.axes[axis]) {
            let widest = list.iter().skip(axis).step_by(3).filter(|x| x.is_finite()).fold(0.0, |w: f32, x| w.max(x.abs()));
            let e = extent(cell, axis);
            let k = turns(widest, e, self.most, rng);
            for x in list.iter_mut().skip(axis).step_by(3).filter(|x| x.is_finite()) {
                moved |= k != 0.0;
                *x = (*x + k * e).clamp(-COORDINATE, COORDINATE);
            }
        }
        moved
    }

    fn each(&self, list: &mut [f32], chunk: usize, one_in: usize, cell: &[f32; 6], rng: &mut Rng) -> bool {
        let mut moved = false;
        if one_in > 0 {
            for chunk in list.chunks_mut(3 * chunk) {
                if rng.one_in(one_in) {
                    moved |= self.shift(chunk, cell, rng);
                }
            }
        }
        moved
    }

    pub fn make(&self, c: &mut Case, rng: &mut Rng) {
        let per = c.per.clamp(1, c.atoms().max(1));
        c.unwrapped |= self.each(&mut c.solutes, per, self.copies, &c.cell, rng);
        c.unwrapped |= self.each(&mut c.solutes, 1, self.atoms, &c.cell, rng);
        c.unwrapped |= self.each(&mut c.waters, 1, self.waters, &c.cell, rng);
    }
}

/// The frame with some of it moved, all else as it was.
pub fn moved(mut c: Case, rng: &mut Rng) -> Case {
    Moves::any(most(rng), rng).make(&mut c, rng);
    c.shape += ", unwrapped";
    c
}

/// Where full-size copies stand.
#[derive(Clone, Copy)]
pub enum Place {
    /// Anywhere in a cell so wide, as in a box of water.
    Box(f32),
    /// Blobs on a lattice in which they are the cutoff apart, or just more.
    Lattice,
    /// All in one place: each has picks on the same lattice of the cutoff times this.
    Together(f32),
    /// All in one place: flat, one above the other, the cutoff apart or just more.
    Slabs,
}

/// A full-size frame: so many copies and atoms of each, moved by up to `most` images.
pub fn large(n: usize, per: usize, place: Place, most: usize, reach: f32, rng: &mut Rng) -> Case {
    // A tiny cutoff gives no cell.
    let reach = if reach > 0.5 { reach } else { CUTOFF };
    let beyond = rng.pick(&[1.0, 1.000_01, 1.001]);
    let mut solutes = Vec::with_capacity(3 * n * per);
    let cell: [f32; 6] = match place {
        Place::Box(side) => {
            let wide = if rng.one_in(4) { side } else { 3.0 };
            for _ in 0..n {
                let base = [rng.float(0.0, side), rng.float(0.0, side), rng.float(0.0, side)];
                let width = if rng.one_in(8) { wide } else { 3.0 };
                solutes.extend(base);
                (1..per).for_each(|_| solutes.extend(base.map(|x| x + rng.float(-width, width))));
            }
            [0.0, 0.0, 0.0, side, side, side]
        }
        Place::Lattice => {
            let across = (n as f32).cbrt().ceil() as usize;
            let step = reach * beyond + 3.0;
            for at in 0..n {
                let base = [at % across, at / across % across, at / across / across].map(|k| step * k as f32);
                // On two of three axes an atom is on a face of its blob.
                (0..per).for_each(|_| solutes.extend(base.map(|x| x + if rng.one_in(3) { 3.0 * rng.unit() } else { rng.pick(&[0.0, 3.0]) })));
            }
            let side = step * across as f32;
            [0.0, 0.0, 0.0, side, side, side]
        }
        Place::Together(times) => {
            let step = reach * times;
            let (x, y) = (64, 32);
            let mut whose: Vec<usize> = (0..n * per).collect();
            (1..n * per).rev().for_each(|i| whose.swap(i, rng.below(i + 1)));
            solutes.extend(whose.iter().flat_map(|at| [at % x, at / x % y, at / x / y].map(|k| step * k as f32)));
            let z = (n * per).div_ceil(x * y);
            [0.0, 0.0, 0.0, step * x as f32, step * y as f32, step * z as f32]
        }
        Place::Slabs => {
            let (side, step) = (rng.pick(&[53.0, 160.0]), reach * beyond);
            for at in 0..n * per {
                solutes.extend([rng.float(0.0, side), rng.float(0.0, side), step * (at / per) as f32]);
            }
            [0.0, 0.0, 0.0, side, side, step * n as f32]
        }
    };
    let waters = points(3_000, &cell, Spread::Mixed, 50, rng);
    let mut c = Case { cell, solutes, per, waters, ..Case::default() };
    let moves = if rng.one_in(4) { Moves::atoms(most) } else { Moves::molecules(most) };
    moves.make(&mut c, rng);
    c
}

/// A frame of few copies, made and then moved; waters from 1 to 8. Some pairs of copies are then put at the cutoff `reach`, images apart.
pub fn few(copies: usize, reach: f32, rng: &mut Rng) -> Case {
    let (n, per) = match rng.below(128) {
        0 => (rng.between(2, 4), rng.between(65, 300)),
        1..=4 => (rng.between(2, copies), rng.between(17, 40)),
        5..=20 => (rng.between(2, copies), rng.between(5, 16)),
        _ => (rng.between(2, copies), rng.pick(&[1, 1, 2, 2, 3, 4])),
    };
    let cell = if rng.one_in(2) { narrow(reach, rng) } else { any_cell(reach, rng) };
    let solutes = solutes(n, per, &cell, reach, rng);
    let spread = rng.pick(&[Spread::Inside, Spread::Inside, Spread::Edges, Spread::Mixed]);
    let waters = points(rng.between(1, 8), &cell, spread, 0, rng);
    let mut c = Case { shape: "unwrapped".into(), cell, solutes, per, waters, ..Case::default() };
    if rng.one_in(4) {
        c.indices = indices(per, rng);
    }
    let most = most(rng);
    Moves::any(most, rng).make(&mut c, rng);
    for _ in 0..rng.below(n) {
        pair_at_the_cutoff(&mut c, n, most, reach, rng);
    }
    if rng.one_in(16) {
        spoil(&mut c.solutes, rng);
    }
    c
}

/// A valid cell with extents from less than the cutoff `reach` to five times of it, each of its own, or as the cell of a small run.
fn narrow(reach: f32, rng: &mut Rng) -> [f32; 6] {
    let reach = if reach > 0.1 { reach } else { CUTOFF };
    let mut c = [0.0; 6];
    for axis in 0..3 {
        let some = rng.float(0.5, 5.0);
        let times = rng.pick(&[0.5, 0.9, 1.0, 1.5, 1.9, 2.0, 2.0, 2.1, 3.0, 4.0, some, some]);
        let e = if rng.one_in(4) { rng.pick(&[12.6, 16.0, 53.0]) } else { nudge(reach * times, rng) };
        let low = rng.pick(&[0.0, 0.0, -0.0, -e / 2.0, 8.0, -100.0]);
        (c[axis], c[axis + 3]) = (low, low + e);
    }
    c
}

/// Copies anywhere, beside the one before at about the cutoff, or half an extent from it: blobs, lines up to three extents long, and two
/// groups half an extent apart, so that the copies' boxes and what lies between them straddle halves of extents.
fn solutes(n: usize, per: usize, cell: &[f32; 6], reach: f32, rng: &mut Rng) -> Vec<f32> {
    let mut list = Vec::with_capacity(3 * n * per);
    let mut base = point(cell, Spread::Inside, rng);
    let shape = rng.below(6);
    for _ in 0..n {
        base = match rng.below(6) {
            0..=2 => neighbour(base, reach, rng),
            3 => limit([0, 1, 2].map(|axis| nudge(base[axis] + rng.pick(&[0.0, 0.5, -0.5]) * extent(cell, axis), rng))),
            _ => point(cell, Spread::Inside, rng),
        };
        let width = rng.pick(&[0.0, 0.5, 1.0, 3.0]);
        let long = rng.float(0.3, 3.0);
        let axis = rng.below(3);
        for atom in 0..per {
            let mut p = base;
            if atom > 0 {
                p = p.map(|x| x + rng.float(-width, width));
                match shape {
                    0..=1 => p[axis] += long * extent(cell, axis) * atom as f32 / per as f32,
                    2 if rng.one_in(2) => p[axis] = nudge(p[axis] + 0.5 * extent(cell, axis), rng),
                    _ => {}
                }
            }
            list.extend(limit(p));
        }
    }
    list
}

/// Moves an atom of one copy, or all of that copy, such that it stands at the cutoff from an atom of another by the minimum image, up to
/// `most` images away; where its coordinate is stepped to the last that touches or the first that does not, if these are near.
fn pair_at_the_cutoff(c: &mut Case, n: usize, most: usize, reach: f32, rng: &mut Rng) {
    let (a, b) = (rng.below(n), rng.below(n));
    let (atom_a, atom_b) = (a * c.per + rng.below(c.per), b * c.per + rng.below(c.per));
    let at = |c: &Case, atom: usize| [0, 1, 2].map(|axis| c.solutes[3 * atom + axis]);
    let (from, old) = (at(c, atom_a), at(c, atom_b));
    if a == b {
        return;
    }
    let near = neighbour(from, reach, rng);
    let cell = c.cell;
    let turns = [0, 1, 2].map(|axis| turns(near[axis], extent(&cell, axis), most, rng));
    let mut to = limit([0, 1, 2].map(|axis| near[axis] + turns[axis] * extent(&cell, axis)));
    step_to_the_edge(from, &mut to, &cell, reach, rng);
    let whole = rng.one_in(2);
    for k in 0..c.per {
        let atom = b * c.per + k;
        for axis in 0..3 {
            let x = &mut c.solutes[3 * atom + axis];
            if atom == atom_b {
                *x = to[axis];
            } else if whole {
                *x = (*x + (to[axis] - old[axis])).clamp(-COORDINATE, COORDINATE);
            }
        }
    }
    c.unwrapped |= turns != [0.0; 3];
}

fn step_to_the_edge(from: [f32; 3], to: &mut [f32; 3], cell: &[f32; 6], reach: f32, rng: &mut Rng) {
    let within = reading::simbox(*cell);
    let apart = |to: [f32; 3]| within.min_image(Vec3::new(to[0], to[1], to[2]) - Vec3::new(from[0], from[1], from[2]));
    let touches = |to: [f32; 3]| apart(to).magnitude_squared() <= reach * reach;
    // The axis on which a step does most.
    let d = apart(*to);
    let d = [d.x.abs(), d.y.abs(), d.z.abs()];
    let axis = (0..3).max_by(|&a, &b| d[a].total_cmp(&d[b])).unwrap();
    let first = touches(*to);
    for up in [true, false] {
        let mut here = *to;
        for _ in 0..12 {
            let before = here;
            here[axis] = if up { here[axis].next_up() } else { here[axis].next_down() };
            if touches(here) != first {
                *to = limit(if rng.one_in(2) { here } else { before });
                return;
            }
        }
    }
}

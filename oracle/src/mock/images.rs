//! The calls that take minimum images, with another rounding in these.

use dynamics::SimBox;
use lin_alg::f32::Vec3;
use original::properties::opened::access as rust;
use reading::Picked;

type Round = fn(f32) -> f32;

/// Right, but for the number below a half: its sum with a half rounds to 1.
pub fn half_added(q: f32) -> f32 {
    (q.abs() + 0.5).floor().copysign(q)
}

fn image(cell: &SimBox, d: Vec3, round: Round) -> Vec3 {
    let axis = |d: f32, e: f32| d - e * round(d / e);
    Vec3::new(axis(d.x, cell.extent.x), axis(d.y, cell.extent.y), axis(d.z, cell.extent.z))
}

pub fn touch(p: &Picked, cutoff: f32, i: usize, j: usize, round: Round) -> bool {
    let near = |a, b| image(&p.cell, b - a, round).magnitude_squared() <= cutoff * cutoff;
    p.mols[i].iter().any(|&a| p.mols[j].iter().any(|&b| near(a, b)))
}

/// Right for copies of few or very many picks, and where the first picks are at most an extent apart on every axis; else all picks are
/// moved by as many extents as these.
pub fn touch_by_first(p: &Picked, cutoff: f32, i: usize, j: usize) -> bool {
    let d = p.mols[j][0] - p.mols[i][0];
    let e = p.cell.extent;
    let some = |i: usize| (9..=64).contains(&p.mols[i].len());
    if !some(i) || !some(j) || d.x.abs() <= e.x && d.y.abs() <= e.y && d.z.abs() <= e.z {
        return p.touch(cutoff, i, j);
    }
    let turned = Vec3::new(e.x * (d.x / e.x).round(), e.y * (d.y / e.y).round(), e.z * (d.z / e.z).round());
    let near = |a: Vec3, b: Vec3| (b - a - turned).magnitude_squared() <= cutoff * cutoff;
    p.mols[i].iter().any(|&a| p.mols[j].iter().any(|&b| near(a, b)))
}

pub fn center(p: &Picked, mol: &[Vec3], round: Round) -> Vec3 {
    let anchor = p.cell.wrap(mol[0]);
    let mut sum = Vec3::new_zero();
    mol.iter().for_each(|&m| sum += anchor + image(&p.cell, m - anchor, round));
    p.cell.wrap(sum / mol.len() as f32)
}

/// Of two copies or more.
pub fn dispersion(p: &Picked, round: Round) -> f32 {
    let centers = rust::centers(&p.mols, &p.cell);
    let (mut sum, mut pairs) = (0.0, 0);
    for (i, &a) in centers.iter().enumerate() {
        for &b in &centers[i + 1..] {
            sum += image(&p.cell, b - a, round).magnitude_squared() as f64;
            pairs += 1;
        }
    }
    let uniform = (p.cell.extent.magnitude_squared() / 12.0).sqrt();
    if uniform <= f32::EPSILON {
        return 0.0;
    }
    ((sum / pairs as f64).sqrt() as f32 / uniform).clamp(0.0, 1.0)
}

/// The waters in the shell, so wide, of a leaf whose box begins `sides`.
pub fn shell(cell: &SimBox, sides: &[u32], waters: &[f32], width: f32, round: Round) -> u32 {
    let side = |k: usize| f32::from_bits(sides[k]);
    let (low, high) = (Vec3::new(side(0), side(1), side(2)), Vec3::new(side(3), side(4), side(5)));
    let half = (high - low) * 0.5 + Vec3::splat(width);
    let within = |d: f32, half: f32, e: f32| d.abs() <= half.min(e * 0.5);
    let inside = |p: &Vec3| {
        let d = image(cell, cell.wrap(*p) - (low + high) * 0.5, round);
        within(d.x, half.x, cell.extent.x) && within(d.y, half.y, cell.extent.y) && within(d.z, half.z, cell.extent.z)
    };
    reading::points(waters).iter().filter(|p| reading::finite(**p) && inside(p)).count() as u32
}

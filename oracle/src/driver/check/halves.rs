//! How many separations of a frame lie within 4 ulps of an odd multiple of half an extent, axis by axis.

use lin_alg::f32::Vec3;
use original::properties::opened::access as rust;
use reading::FrameWork;

/// Of the picks, boxes and waters of a frame no more than this many are looked at.
const MOST: usize = 4_096;

fn near(d: f32, e: f32) -> u64 {
    let d = d.abs();
    let q = d / e;
    // Of a larger multiple too many numbers are within 4 ulps.
    if q >= 1_000.0 {
        return 0;
    }
    let odd = q as i32 as f32 + 0.5;
    if (q - odd).abs() > 0.001 {
        return 0;
    }
    let off = (d as f64 - odd as f64 * e as f64).abs();
    (off <= 4.0 * (d.next_up() - d) as f64) as u64
}

/// Those of Row (picks of two copies), Centers (a pick from its copy's anchor), Dispersion (two centers) and Report (a water from the
/// center of a leaf's box).
pub fn near_halves(w: &FrameWork, waters: &[f32]) -> [u64; 4] {
    let (cell, mols) = (&w.picked.cell, &w.picked.mols);
    let e = cell.extent;
    let axes = |d: Vec3| near(d.x, e.x) + near(d.y, e.y) + near(d.z, e.z);
    let mut counts = [0; 4];
    let picks: Vec<(usize, Vec3)> = mols.iter().enumerate().flat_map(|(i, mol)| mol.iter().map(move |&p| (i, p))).take(MOST).collect();
    for (at, &(i, p)) in picks.iter().enumerate() {
        counts[0] += picks[at + 1..].iter().filter(|(j, _)| *j != i).map(|&(_, q)| axes(q - p)).sum::<u64>();
    }
    for mol in mols {
        let anchor = cell.wrap(mol[0]);
        counts[1] += mol.iter().map(|&p| axes(p - anchor)).sum::<u64>();
    }
    let centers = rust::centers(mols, cell);
    for (i, &a) in centers.iter().enumerate() {
        counts[2] += centers[i + 1..].iter().map(|&b| axes(b - a)).sum::<u64>();
    }
    let waters = reading::points(waters).into_iter().filter(|&p| reading::finite(p)).take(MOST);
    let waters: Vec<Vec3> = waters.map(|p| cell.wrap(p)).collect();
    for leaf in w.worked.leaves.chunks_exact(8).take(MOST) {
        let at = 6 * leaf[0] as usize;
        let side = |k: usize| f32::from_bits(w.worked.built.boxes[at + k]);
        let center = (Vec3::new(side(0), side(1), side(2)) + Vec3::new(side(3), side(4), side(5))) * 0.5;
        counts[3] += waters.iter().map(|&p| axes(p - center)).sum::<u64>();
    }
    counts
}

//! Where the cases come from: every group gives its case number N of a seed, the same each time.

use crate::case::Case;
use crate::rng::Rng;
use parts::*;
use reading::CUTOFF;

mod cutoffs;
mod damage;
mod full;
mod halves;
mod lists;
mod parts;
mod tiny;
mod unwrapped;

pub use full::FULL;

/// `small` stands last, so that the others give the same cases as before it came.
pub const GROUPS: [&str; 7] = ["tables", "tiny", "random", "damaged", "degenerate", "full", "small"];

/// Case `number` of a group; None past the end of a group that ends.
pub fn case(group: &str, seed: u64, number: u64) -> Option<Case> {
    let at = GROUPS.iter().position(|g| *g == group)? as u64;
    let (mut rng, mut own) = (Rng::new(seed, at, number), Rng::new(seed, 300 + at, number));
    let reach = cutoffs::reach(group, &mut own);
    let mut case = match group {
        "tables" => tiny::table(number, &mut rng)?,
        "tiny" => tiny::frame(number, &mut rng)?,
        "random" => random(reach, &mut rng),
        "damaged" => damage::damaged(reach, &mut rng),
        "degenerate" => degenerate(reach, &mut rng),
        "small" => small(reach, &mut rng),
        _ => full::full(number, reach, &mut rng),
    };
    // From random numbers of their own, so that the other three of four cases are the same whatever is drawn here.
    let mut images = Rng::new(seed, 400 + at, number);
    if ["random", "small"].contains(&group) && images.one_in(4) {
        case = unwrapped(group, case, reach, &mut images);
    }
    cutoffs::give(&mut case, reach, &mut own);
    Some(case)
}

/// Everything around a frame but the cutoffs: rows, pairs, tables.
fn around(mut c: Case, rng: &mut Rng) -> Case {
    let kept = reading::select_by_words(&c.solutes, c.per, &c.indices).len();
    if kept <= reading::COPIES {
        c.rows = rows(kept, rng);
        if kept > 0 {
            for _ in 0..rng.between(0, 4) {
                c.pairs.push((rng.below(kept), rng.below(kept), CUTOFF));
            }
        }
    }
    c.slack = slack(rng);
    c.fill = fill(rng);
    c
}

/// In place of a case: the same with some of its frame moved by images, or another that is made for it.
fn unwrapped(group: &str, case: Case, reach: f32, rng: &mut Rng) -> Case {
    match group {
        _ if rng.one_in(2) => unwrapped::moved(case, rng),
        "small" => with_room(unwrapped::few(8, reach, rng), rng),
        _ => around(unwrapped::few(rng.pick(&[6, 12, 12, 24]), reach, rng), rng),
    }
}

/// Copies beside one another are placed by the cutoff `reach`.
pub fn random(reach: f32, rng: &mut Rng) -> Case {
    let cell = cell(reach, rng);
    let size = rng.below(40);
    let (n, w) = match size {
        0 => (rng.between(100, 300), rng.between(0, 500)),
        1..=4 => (rng.between(13, 60), rng.between(0, 100)),
        _ => (rng.between(0, 12), rng.between(0, 20)),
    };
    let per = rng.pick(&[1, 1, 1, 2, 3, 4, 6]);
    let spread = rng.pick(&[Spread::Inside, Spread::Inside, Spread::Edges, Spread::Around, Spread::Far, Spread::Mixed]);
    let spoiled = rng.pick(&[0, 0, 0, 10, 2]);
    let crowded = rng.pick(&[0, 3, 6, 9]);
    let mut solutes = copies(n, per, &cell, spread, crowded, spoiled, reach, rng);
    if rng.one_in(4) {
        // A trailing short chunk.
        let extra = points(rng.below(per), &cell, spread, 0, rng);
        solutes.extend(extra);
    }
    let waters = points(w, &cell, spread, spoiled, rng);
    let per = match rng.below(60) {
        0 => rng.pick(&[0, usize::MAX, 1 << 32, (1 << 32) + 1, 1 << 63, 65_537]),
        1 => rng.between(0, 8),
        _ => per,
    };
    let indices = indices(per, rng);
    let case = Case { shape: "random".into(), cell, solutes, per, indices, waters, ..Case::default() };
    around(case, rng)
}

/// Up to eight copies and one to eight waters in tables with room, so that many frames are answered in a short time. One case of three
/// has separations at halves of the extents. Tree and Report are called alone in one case of sixteen.
fn small(reach: f32, rng: &mut Rng) -> Case {
    let case = if rng.one_in(3) { halves::small(reach, rng) } else { scattered(reach, rng) };
    with_room(case, rng)
}

fn with_room(case: Case, rng: &mut Rng) -> Case {
    let mut case = around(case, rng);
    case.slack = case.slack.map(|s| s.max(0));
    case.trees_in_frame = !rng.one_in(16);
    case
}

fn scattered(reach: f32, rng: &mut Rng) -> Case {
    let cell = cell(reach, rng);
    let n = rng.between(2, 8);
    let w = rng.between(1, 8);
    let per = rng.pick(&[1, 1, 1, 2, 3]);
    let spread = rng.pick(&[Spread::Inside, Spread::Inside, Spread::Edges, Spread::Around, Spread::Far, Spread::Mixed]);
    let spoiled = rng.pick(&[0, 0, 0, 0, 10]);
    let crowded = rng.pick(&[0, 3, 6, 9]);
    let solutes = copies(n, per, &cell, spread, crowded, spoiled, reach, rng);
    let waters = points(w, &cell, spread, spoiled, rng);
    let indices = indices(per, rng);
    Case { shape: "small".into(), cell, solutes, per, indices, waters, ..Case::default() }
}

pub fn degenerate(reach: f32, rng: &mut Rng) -> Case {
    let mut cell = if rng.one_in(2) { odd_cell(reach, rng) } else { cell(reach, rng) };
    let n = rng.between(0, 24);
    let w = rng.between(0, 30);
    let per = rng.pick(&[1, 1, 2, 3]);
    let kind = rng.below(11);
    let (shape, solutes, waters) = match kind {
        0 => {
            let p = point(&cell, Spread::Mixed, rng);
            let solutes: Vec<f32> = p.repeat(n * per);
            let waters = if rng.one_in(2) { p.repeat(w) } else { points(w, &cell, Spread::Inside, 0, rng) };
            ("all copies in one place", solutes, waters)
        }
        1 => {
            let places = [point(&cell, Spread::Edges, rng), point(&cell, Spread::Edges, rng)];
            let solutes = (0..n * per).flat_map(|_| places[rng.below(2)]).collect();
            ("two places", solutes, points(w, &cell, Spread::Edges, 0, rng))
        }
        2 => {
            let step = rng.pick(&[4.0, reach, reach.next_down().next_down(), 4.3, -4.0, -reach]);
            let start = point(&cell, Spread::Inside, rng);
            let axis = rng.below(3);
            let mut solutes = Vec::new();
            for i in 0..n * per {
                let mut p = start;
                p[axis] += step * (i / per) as f32;
                solutes.extend(limit(p));
            }
            ("a line", solutes, points(w, &cell, Spread::Around, 0, rng))
        }
        3 => {
            cell = cube(rng.pick(&[-1.0, -0.0, 0.0]), rng.pick(&[1.0, 10.0]));
            let zeros = |k: usize, rng: &mut Rng| (0..3 * k).map(|_| rng.pick(&[0.0, -0.0, 1e-45, -1e-45])).collect();
            ("both zeros", zeros(n * per, rng), zeros(w, rng))
        }
        4 => ("far outside", points(n * per, &cell, Spread::Far, 0, rng), points(w, &cell, Spread::Far, 0, rng)),
        5 => ("hardly a finite atom", points(n * per, &cell, Spread::Mixed, 1 + rng.below(2), rng), points(w, &cell, Spread::Mixed, 1, rng)),
        6 => ("no waters", points(n * per, &cell, Spread::Mixed, 0, rng), vec![]),
        7 => ("no solutes", vec![], points(w, &cell, Spread::Mixed, 0, rng)),
        8 => {
            // Copies so close that a path of boxes goes down to the least width.
            let mut solutes = Vec::new();
            for _ in 0..n {
                let p = point(&cell, Spread::Inside, rng);
                let tiny = rng.pick(&[0.0, 1e-6, 1e-3, 0.1, 0.7]);
                for _ in 0..2 * per {
                    solutes.extend(limit(p.map(|x| x + tiny * rng.unit())));
                }
            }
            ("close pairs", solutes, points(w, &cell, Spread::Inside, 0, rng))
        }
        9 => {
            let n = rng.between(2, 40);
            let solutes = points(n * per, &cell, Spread::Edges, 0, rng);
            ("only edges", solutes, points(w, &cell, Spread::Edges, 0, rng))
        }
        _ => {
            // Copies on a lattice of the cutoff: many contacts exactly at the edge.
            let step = rng.pick(&[reach, reach / 2.0, reach.next_up(), reach.next_down()]);
            let mut solutes = Vec::new();
            for _ in 0..n * per {
                solutes.extend([0, 1, 2].map(|axis| cell[axis] + step * rng.below(4) as f32));
            }
            let solutes = solutes.into_iter().map(|x: f32| x.clamp(-1_048_576.0, 1_048_576.0)).collect();
            ("a lattice of the cutoff", solutes, points(w, &cell, Spread::Inside, 0, rng))
        }
    };
    let indices = if rng.one_in(3) { indices(per, rng) } else { vec![] };
    let case = Case { shape: shape.into(), cell, solutes, per, indices, waters, ..Case::default() };
    around(case, rng)
}

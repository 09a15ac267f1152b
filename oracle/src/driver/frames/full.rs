//! Full-size frames: 4,096 copies, 65,536 picks, 65,536 waters, and one more of each; and large frames that are unwrapped.

use super::parts::{Spread, copies, cube, point, points};
use super::unwrapped::{Place, large};
use super::{around, halves};
use crate::case::{Case, Lent, RowCall};
use crate::rng::Rng;
use reading::CUTOFF;

/// What a round of the group holds, with about how many seconds a case takes.
pub const FULL: [(&str, u64); 34] = [
    ("4,097 copies", 1),
    ("65,792 picks", 1),
    ("4,096 copies uniform, 5,000 waters", 3),
    ("4,096 copies at halves of extents, 3,000 waters", 3),
    ("512 copies of 8 picks at halves of extents, 3,000 waters", 1),
    ("4,096 copies in one place, 65,536 waters", 4),
    ("a line of 4,096 copies, rows rising", 4),
    ("a line of 4,096 copies, rows falling", 4),
    ("4,096 copies uniform, 65,536 waters, a node table one record short", 6),
    ("2,048 close pairs in the widest cell", 6),
    ("256 copies of 256 picks, repeated and crowded", 5),
    ("512 copies of 16 picks, 65,536 waters", 8),
    ("4,096 copies of 16 picks, crowded", 15),
    ("4,096 copies of 4 picks, 65,536 waters", 20),
    ("1 copy of 65,536 picks", 3),
    ("4,096 copies of 16 picks, 65,536 waters", 150),
    // Unwrapped from here on: as UNWRAPPED has them, by up to 1, 3 and 20 images, then the dear ones.
    ("4,096 copies unwrapped by up to 1 image", 3),
    ("4,096 copies unwrapped by up to 3 images", 3),
    ("4,096 copies unwrapped by up to 20 images", 3),
    ("512 copies of 16 picks unwrapped by up to 1 image", 3),
    ("512 copies of 16 picks unwrapped by up to 3 images", 3),
    ("512 copies of 16 picks unwrapped by up to 20 images", 3),
    ("1,000 copies of 30 picks unwrapped by up to 1 image", 12),
    ("1,000 copies of 30 picks unwrapped by up to 3 images", 12),
    ("1,000 copies of 30 picks unwrapped by up to 20 images", 12),
    ("4 copies of 16,384 picks in one place, touching, unwrapped by up to 1 image", 3),
    ("4 copies of 16,384 picks in one place, touching, unwrapped by up to 3 images", 3),
    ("4 copies of 16,384 picks in one place, touching, unwrapped by up to 20 images", 3),
    ("4 copies of 4,096 picks in one place, about the cutoff apart, unwrapped by up to 1 image", 5),
    ("4 copies of 4,096 picks in one place, about the cutoff apart, unwrapped by up to 3 images", 5),
    ("4 copies of 4,096 picks in one place, about the cutoff apart, unwrapped by up to 20 images", 5),
    ("4,096 copies of 16 picks, crowded and unwrapped", 10),
    ("4,096 copies of 16 picks, about the cutoff apart and unwrapped", 100),
    ("4 copies of 16,384 picks in one place, about the cutoff apart and unwrapped", 80),
];

/// Where the unwrapped ones begin, what those by 1, 3 and 20 images are, and the dear ones, which take one of the three.
const FIRST_UNWRAPPED: usize = 16;
const IMAGES: [usize; 3] = [1, 3, 20];
const UNWRAPPED: [(usize, usize, Kind); 5] =
    [(4_096, 1, Kind::Box), (512, 16, Kind::Box), (1_000, 30, Kind::Box), (4, 16_384, Kind::Touching), (4, 4_096, Kind::Apart)];
const DEAR: [(usize, usize, Kind); 3] = [(4_096, 16, Kind::Crowded), (4_096, 16, Kind::Lattice), (4, 16_384, Kind::Apart)];

#[derive(Clone, Copy)]
enum Kind {
    Box,
    Crowded,
    Lattice,
    Touching,
    Apart,
}

fn unwrapped(at: usize, reach: f32, rng: &mut Rng) -> Case {
    let ((n, per, kind), images) = match UNWRAPPED.get(at / IMAGES.len()) {
        Some(&size) => (size, IMAGES[at % IMAGES.len()]),
        None => (DEAR[at - IMAGES.len() * UNWRAPPED.len()], rng.pick(&IMAGES)),
    };
    let place = match kind {
        Kind::Box => Place::Box(rng.pick(&[53.0, 125.0, 160.0])),
        Kind::Crowded => Place::Box(rng.pick(&[12.0, 20.0])),
        Kind::Lattice => Place::Lattice,
        Kind::Touching => Place::Together(rng.pick(&[0.5, 0.999, 1.0])),
        Kind::Apart => rng.pick(&[Place::Together(1.000_01), Place::Together(1.001), Place::Slabs]),
    };
    large(n, per, place, images, reach, rng)
}

pub fn full(number: u64, reach: f32, rng: &mut Rng) -> Case {
    let at = number as usize % FULL.len();
    let cell = cube(0.0, 160.0);
    let plain = |n: usize, per: usize, rng: &mut Rng| copies(n, per, &cell, Spread::Inside, 0, 0, reach, rng);
    // Now and then a water is not finite; else there are as many finite ones as may be.
    let spoiled = if at % 2 == 0 { 50 } else { 0 };
    let waters = |n: usize, rng: &mut Rng| points(n, &cell, Spread::Mixed, spoiled, rng);
    let mut c = Case { shape: FULL[at].0.into(), cell, per: 1, ..Case::default() };
    match at {
        0 => {
            c.solutes = plain(4_097, 1, rng);
            c.waters = waters(10, rng);
        }
        1 => {
            c.solutes = plain(257, 1, rng);
            c.indices = vec![0; 256];
            c.waters = waters(10, rng);
        }
        2 => {
            c.solutes = plain(4_096, 1, rng);
            c.waters = waters(5_000, rng);
        }
        3 => c = Case { shape: c.shape, ..halves::frame(4_096, 1, 3_000, reach, rng) },
        4 => c = Case { shape: c.shape, ..halves::frame(512, 8, 3_000, reach, rng) },
        5 => {
            c.solutes = [80.5, 3.25, 159.9].repeat(4_096);
            c.waters = waters(65_536, rng);
        }
        6 | 7 => {
            // In the original's scan each row joins the next copy: chains without rank get long.
            c.cell = [0.0, 0.0, 0.0, 60_000.0, 30.0, 30.0];
            let step = if (1.0..15.0).contains(&reach) { reach / CUTOFF * 4.0 } else { 4.0 };
            for i in 0..4_096 {
                let x = if at == 6 { i } else { 4_095 - i };
                c.solutes.extend([step * x as f32, 1.0, 29.0]);
            }
            c.waters = points(2_000, &c.cell, Spread::Inside, 0, rng);
        }
        8 => {
            c.solutes = copies(4_096, 1, &cell, Spread::Mixed, 3, 0, reach, rng);
            c.waters = waters(65_536, rng);
        }
        9 => {
            c.cell = cube(-65_536.0, 65_536.0);
            for _ in 0..2_048 {
                let p = point(&c.cell, Spread::Inside, rng);
                c.solutes.extend(p);
                c.solutes.extend(p.map(|x| x + 3.0 * rng.unit()));
            }
            c.waters = points(3_000, &c.cell, Spread::Inside, 0, rng);
        }
        10 => {
            c.per = 4;
            c.cell = cube(-3.0, 3.0);
            c.solutes = copies(256, 4, &c.cell, Spread::Around, 2, 0, reach, rng);
            c.indices = (0..256).map(|i| i % 4).collect();
            c.waters = points(1_000, &c.cell, Spread::Mixed, 50, rng);
        }
        11 => {
            c.per = 16;
            c.solutes = plain(512, 16, rng);
            c.waters = waters(65_536, rng);
        }
        12 => {
            c.per = 16;
            c.cell = cube(0.0, 10.0);
            c.solutes = copies(4_096, 16, &c.cell, Spread::Inside, 9, 0, reach, rng);
            c.waters = points(5_000, &c.cell, Spread::Inside, 0, rng);
        }
        13 => {
            c.per = 4;
            c.solutes = plain(4_096, 4, rng);
            c.waters = waters(65_536, rng);
        }
        14 => {
            c.per = 65_536;
            c.solutes = points(65_536, &cell, Spread::Mixed, 0, rng);
            c.waters = waters(65_536, rng);
        }
        15 => {
            c.per = 16;
            c.solutes = plain(4_096, 16, rng);
            c.waters = waters(65_536, rng);
        }
        _ => c = Case { shape: c.shape, ..unwrapped(at - FIRST_UNWRAPPED, reach, rng) },
    }
    let mut c = around(c, rng);
    let n = c.atoms() / c.per;
    c.rows = (0..n).map(RowCall::from).collect();
    if at == 7 {
        c.rows.reverse();
    }
    // Tables of just the right size or longer; the small ones have had the short tables.
    c.slack = c.slack.map(|s| s.max(0));
    if at == 8 {
        let node_tables = [(Lent::Records, -8), (Lent::Boxes, -6), (Lent::Leaves, -8)];
        let (short, by) = node_tables[number as usize / FULL.len() % 3];
        c.slack[short as usize] = by;
    }
    if n > reading::COPIES {
        c.rows = vec![];
    }
    c
}

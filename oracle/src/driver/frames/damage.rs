//! Frames, pick lists and tables damaged on purpose, so that each refusal comes and several meet in one call.

use super::lists::{cluster_table, pick_lists};
use super::parts::{Spread, points};
use super::{around, random};
use crate::case::{Case, Lent};
use crate::rng::Rng;

pub fn damaged(reach: f32, rng: &mut Rng) -> Case {
    let mut c = random(reach, rng);
    // Mostly small frames, so that many are tried.
    while c.atoms() > 60 {
        c = random(reach, rng);
    }
    c.shape = "damaged:".into();
    c.table = None;
    for _ in 0..rng.pick(&[1, 1, 1, 2, 2, 3]) {
        let what = match rng.below(24) {
            0 => uneven(&mut c, rng),
            1..=2 => over_limit(&mut c, rng),
            3..=4 => bound(&mut c, rng),
            5..=6 => coordinate(&mut c, rng),
            7..=8 => invalid_cell(&mut c, rng),
            9..=10 => short_table(&mut c, rng),
            11..=14 => pick_lists(&mut c, rng),
            15..=20 => cluster_table(&mut c, rng),
            21 => row_number(&mut c, rng),
            22 => open_number(&mut c, rng),
            _ => many(&mut c, rng),
        };
        c.shape = format!("{} {what};", c.shape);
    }
    c
}

fn uneven(c: &mut Case, rng: &mut Rng) -> &'static str {
    let list = if rng.one_in(2) { &mut c.solutes } else { &mut c.waters };
    for _ in 0..rng.between(1, 2) {
        list.push(1.0);
    }
    "a list's length is no multiple of three"
}

fn over_limit(c: &mut Case, rng: &mut Rng) -> &'static str {
    match rng.below(100) {
        0 => {
            c.solutes = [1.0, 2.0, 3.0].repeat(65_537);
            c.per = rng.pick(&[65_537, 16, 1]);
            c.rows.truncate(2);
            "65,537 atoms"
        }
        1 => {
            c.waters = [1.0, 2.0, 3.0].repeat(65_537);
            "65,537 waters"
        }
        2..=25 => {
            c.indices = (0..256).map(|i| i % 3).collect();
            "256 indices"
        }
        _ => {
            c.indices = (0..257).map(|i| i % 3).collect();
            "257 indices"
        }
    }
}

fn bound(c: &mut Case, rng: &mut Rng) -> &'static str {
    let over = [65_536.0_f32.next_up(), -65_536.0_f32.next_up(), 1e6, -3e38, f32::MAX];
    c.cell[rng.below(6)] = rng.pick(&over);
    if rng.one_in(3) {
        c.cell[rng.below(6)] = rng.pick(&[f32::NAN, f32::INFINITY, f32::NEG_INFINITY]);
    }
    "a bound over its limit"
}

fn coordinate(c: &mut Case, rng: &mut Rng) -> &'static str {
    let over = [1_048_576.0_f32.next_up(), -1_048_576.0_f32.next_up(), 1e7, f32::MAX, f32::MIN];
    let list = if rng.one_in(2) { &mut c.solutes } else { &mut c.waters };
    if list.is_empty() {
        list.extend([0.0, 0.0, 0.0]);
    }
    let at = rng.below(list.len());
    list[at] = rng.pick(&over);
    if rng.one_in(3) {
        // The same atom is not finite: the coordinate counts all the same.
        let first = at - at % 3;
        let beside = first + (at - first + 1) % 3;
        if beside < list.len() {
            list[beside] = f32::NAN;
        }
    }
    "a coordinate over its limit"
}

fn invalid_cell(c: &mut Case, rng: &mut Rng) -> &'static str {
    let axis = rng.below(3);
    match rng.below(5) {
        0 => {
            c.cell[axis] = 0.0;
            c.cell[axis + 3] = f32::EPSILON;
        }
        1 => c.cell.swap(axis, axis + 3),
        2 => c.cell[axis + 3] = c.cell[axis],
        3 => c.cell[rng.below(6)] = rng.pick(&[f32::NAN, f32::INFINITY, f32::NEG_INFINITY]),
        _ => {
            c.cell[axis] = 1.0;
            c.cell[axis + 3] = 1.0 + f32::EPSILON;
        }
    }
    "the cell is not valid"
}

fn short_table(c: &mut Case, rng: &mut Rng) -> &'static str {
    for _ in 0..rng.between(1, 3) {
        let at = rng.below(10);
        c.slack[at] = rng.pick(&[-1, -1, -2, -6, -8, -9, -100_000]);
    }
    "a table is short"
}

fn row_number(c: &mut Case, rng: &mut Rng) -> &'static str {
    let at = rng.below(c.rows.len() + 1);
    let i = rng.pick(&[c.rows.len(), 4_095, 4_096, usize::MAX, 1 << 32, 1 << 63]);
    c.rows.insert(at, i.into());
    "a row past the copies"
}

fn open_number(c: &mut Case, rng: &mut Rng) -> &'static str {
    let n = rng.pick(&[0, 1, 4_095, 4_096, 4_097, 65_536, 1 << 32, (1 << 32) + 1, 0x5555_5555, usize::MAX]);
    c.open = Some(n);
    c.slack[Lent::Clusters as usize] = rng.pick(&[0, 1, -1, -12_000]);
    c.rows.truncate(2);
    "Open with its own n"
}

/// Too many copies or picks, or just as many as may be.
fn many(c: &mut Case, rng: &mut Rng) -> &'static str {
    let kind = rng.below(150);
    if kind > 3 {
        c.waters = if rng.one_in(2) { vec![] } else { vec![f32::NAN, 0.0, 0.0] };
        return "no finite water";
    }
    let cell = c.cell;
    let mut d = Case { shape: c.shape.clone(), cell, waters: c.waters.clone(), ..Case::default() };
    let what = match kind {
        0 => {
            d.solutes = points(4_097, &cell, Spread::Inside, 0, rng);
            d.per = 1;
            "4,097 copies"
        }
        1 => {
            d.solutes = points(4_200, &cell, Spread::Inside, 20, rng);
            d.per = 1;
            "about 4,000 copies kept of 4,200"
        }
        2 => {
            d.solutes = points(257, &cell, Spread::Inside, 0, rng);
            d.per = 1;
            d.indices = vec![0; 256];
            "65,792 picks"
        }
        _ => {
            d.solutes = points(rng.between(4_097, 5_000), &cell, Spread::Inside, 0, rng);
            d.per = 1;
            d.waters = vec![f32::INFINITY, 0.0, 0.0];
            "too many copies and no finite water"
        }
    };
    *c = around(d, rng);
    c.rows.truncate(3);
    what
}

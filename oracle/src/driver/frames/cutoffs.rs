//! Cutoffs: the one that a frame is placed by, and those that the calls of a case bring. They are drawn from random numbers of their own,
//! so that a frame at 4.2 is the same whatever is drawn here.

use super::parts::nudge;
use crate::case::{Case, RowCall};
use crate::rng::Rng;
use lin_alg::f32::Vec3;
use reading::{COPIES, CUTOFF, GREATEST_CUTOFF, PICKS, cutoff_refused};

/// The greatest number whose square rounds to 0, and the least whose square is no subnormal.
const SQUARE_ZERO: f32 = f32::from_bits(0x1A00_0000);
const SQUARE_NORMAL: f32 = f32::from_bits(0x2000_0000);

/// An accepted cutoff that copies can be placed by: 4.2 in half of the cases. Full-size frames are few, and have a wide one, so that they
/// have contacts.
pub fn reach(group: &str, rng: &mut Rng) -> f32 {
    let wide = rng.float(1.0, GREATEST_CUTOFF);
    match rng.below(8) {
        0..=3 => CUTOFF,
        4..=6 if group == "full" => rng.pick(&[wide, wide, 2.1, 8.4, GREATEST_CUTOFF]),
        _ => other(rng),
    }
}

/// Accepted, and hardly ever 4.2.
fn other(rng: &mut Rng) -> f32 {
    let any = rng.unit();
    match rng.below(16) {
        0 => f32::from_bits(1),
        1 => f32::from_bits(rng.pick(&[2, 3, 0x40_0000, 0x7F_FFFF, (any * 8_388_607.0) as u32 + 1])),
        2 => nudge(rng.pick(&[SQUARE_ZERO, SQUARE_ZERO, f32::MIN_POSITIVE]), rng),
        3 => rng.pick(&[SQUARE_NORMAL.next_down(), SQUARE_NORMAL, SQUARE_NORMAL * any.max(1e-3)]),
        4 => rng.pick(&[1e-10, 1e-6, 1e-3, 0.1]),
        5 => GREATEST_CUTOFF,
        6 => rng.pick(&[GREATEST_CUTOFF.next_down(), 15.999]),
        7 => rng.pick(&[CUTOFF.next_up(), CUTOFF.next_down()]),
        8..=9 => rng.pick(&[0.5, 1.0, 2.0, 2.1, 4.0, 6.0, 8.0, 8.4, 12.0]),
        _ => (GREATEST_CUTOFF * any).max(f32::from_bits(1)),
    }
}

/// 16: zeros, below zero, above 16, not finite.
fn refused(rng: &mut Rng) -> f32 {
    let nan = rng.pick(&[0x7FC0_0000, 0xFFC0_0000, 0x7F80_0001, 0xFFFF_FFFF, 0x7FC0_1234]);
    let over = [GREATEST_CUTOFF.next_up(), GREATEST_CUTOFF.next_up(), 17.0, f32::MAX];
    match rng.below(5) {
        0 => rng.pick(&[0.0, -0.0]),
        1 => rng.pick(&[-CUTOFF, -f32::from_bits(1), -GREATEST_CUTOFF, f32::MIN]),
        2 => rng.pick(&over),
        3 => rng.pick(&[f32::INFINITY, f32::NEG_INFINITY]),
        _ => f32::from_bits(nan),
    }
}

/// Beside k, of the other sign, another that is accepted, or a refused one.
fn another(k: f32, rng: &mut Rng) -> f32 {
    match rng.below(8) {
        0 => k.next_up(),
        1 => k.next_down(),
        2 => -k,
        3 => nudge(CUTOFF, rng),
        4..=5 => other(rng),
        _ => refused(rng),
    }
}

/// The distance of two atoms, give or take an ulp, if it can be a cutoff.
fn distance(c: &Case, a: usize, b: usize, rng: &mut Rng) -> Option<f32> {
    let atom = |at: usize| c.solutes.chunks_exact(3).nth(at).map(|p| Vec3::new(p[0], p[1], p[2]));
    let d = reading::simbox(c.cell).min_image(atom(b)? - atom(a)?);
    let k = nudge(d.magnitude_squared().sqrt(), rng);
    (!cutoff_refused(k)).then_some(k)
}

/// Such a distance of two copies' atoms, if one is found soon.
fn some_distance(c: &Case, rng: &mut Rng) -> Option<f32> {
    let atoms = c.atoms().max(1);
    let pairs = [(); 8].map(|_| (rng.below(atoms), rng.below(atoms)));
    let per = c.per.max(1);
    pairs.into_iter().filter(|(a, b)| a / per != b / per).find_map(|(a, b)| distance(c, a, b, rng))
}

/// Cutoffs for every call. The scan, the pairs and the whole frame go on at one that is accepted, `reach` or a distance in the frame;
/// calls at others come beside these, so that no answer is lost to a refusal.
pub fn give(c: &mut Case, reach: f32, rng: &mut Rng) {
    let at_a_distance = reach != CUTOFF && rng.one_in(3);
    let k = if at_a_distance { some_distance(c, rng).unwrap_or(reach) } else { reach };
    c.cutoffs().for_each(|cutoff| *cutoff = k);
    opens(c, k, rng);
    table_word(c, k, rng);
    rows_beside(c, k, rng);
    for at in 0..c.pairs.len() {
        let (a, b, _) = c.pairs[at];
        c.pairs[at].2 = match rng.below(4) {
            0 => distance(c, a.saturating_mul(c.per), b.saturating_mul(c.per), rng).unwrap_or(k),
            1 if k != CUTOFF => other(rng),
            _ => k,
        };
    }
    frames(c, k, rng);
}

fn opens(c: &mut Case, k: f32, rng: &mut Rng) {
    c.opens = match rng.below(32) {
        0..=1 => vec![refused(rng), k],
        2..=3 => vec![k, refused(rng)],
        4 => vec![another(k, rng), k],
        // Every row then brings another cutoff than the table's.
        5 => vec![another(k, rng)],
        _ => vec![k],
    };
    if c.open.is_some() && rng.one_in(3) {
        c.opens.push(refused(rng));
    }
}

/// A given table that was made with 4.2 for its cutoff gets the case's, or now and then any word; its first row is then called at that too.
fn table_word(c: &mut Case, k: f32, rng: &mut Rng) {
    let Some(word) = c.table.as_mut().and_then(|t| t.get_mut(2)).filter(|w| **w == CUTOFF.to_bits()) else { return };
    *word = k.to_bits();
    if rng.one_in(8) {
        let any = rng.next() as u32;
        *word = if rng.one_in(3) { rng.pick(&[any, any, 0, u32::MAX]) } else { another(k, rng).to_bits() };
        let cutoff = f32::from_bits(*word);
        if let Some(&first) = c.rows.first() {
            c.rows.push(RowCall { cutoff, ..first });
        }
    }
}

/// Rows at other cutoffs before, between and after the case's own; their numbers are out of range or repeated as often as these.
fn rows_beside(c: &mut Case, k: f32, rng: &mut Rng) {
    if !rng.one_in(3) {
        return;
    }
    for _ in 0..rng.between(1, 3) {
        let i = if c.rows.is_empty() { rng.below(3) } else { c.rows[rng.below(c.rows.len())].i };
        let cutoff = another(k, rng);
        c.rows.insert(rng.below(c.rows.len() + 1), RowCall { i, cutoff });
    }
}

fn frames(c: &mut Case, k: f32, rng: &mut Rng) {
    let (copies, small) = (c.atoms() / c.per.max(1), c.atoms() <= 100);
    c.frames = match rng.below(16) {
        0..=1 => vec![refused(rng), k],
        2 if small => vec![k, other(rng)],
        3 if small => vec![other(rng)],
        _ => vec![k],
    };
    // Frames that 5 or 6 refuses are rare.
    if copies > COPIES || copies * c.indices.len() > PICKS {
        c.frames.push(refused(rng));
    }
}

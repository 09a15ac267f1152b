//! The whole frame.

use super::*;
use clusters::{fractions, scan_row};
use original::properties::opened::access as rust;
use select::{count, write_lists};
use tree::fill_tree;

pub struct FrameInput<'a> {
    pub cell: [f32; 6],
    pub cutoff: f32,
    pub solutes: &'a [f32],
    pub per: usize,
    pub indices: &'a [u32],
    pub waters: &'a [f32],
}

impl FrameInput<'_> {
    /// The first of 1, 2, 3 and 4.
    fn refusal(&self) -> Answer<()> {
        if uneven(self.solutes) || uneven(self.waters) {
            return Err(1);
        }
        if self.solutes.len() / 3 > ATOMS
            || self.waters.len() / 3 > WATERS
            || self.indices.len() > INDICES
        {
            return Err(2);
        }
        if bound_over(self.cell) {
            return Err(3);
        }
        if coordinate_over(self.solutes) || coordinate_over(self.waters) {
            return Err(4);
        }
        Ok(())
    }
}

/// What a frame is, before any table is looked at: a refusal of 1, 2, 3, 4, 5, 6 and 16 (blank coming between 4 and 5), blank
/// (None), or its picks. The frame's rows and tree can be worked out from it once and used by several calls.
pub fn frame_picks(f: &FrameInput) -> Answer<Option<(Vec<Vec<u32>>, Picked)>> {
    f.refusal()?;
    if cell_invalid(f.cell) || f.solutes.is_empty() || f.waters.is_empty() {
        return Ok(None);
    }
    let kept = select_all(f.solutes, f.per, f.indices);
    if kept.is_empty() || finite_waters(f.waters) == 0 {
        return Ok(None);
    }
    if kept.len() > COPIES {
        return Err(5);
    }
    if count(&kept) > PICKS {
        return Err(6);
    }
    if cutoff_refused(f.cutoff) {
        return Err(16);
    }
    let atoms = points(f.solutes);
    let mols = kept
        .iter()
        .map(|picked| picked.iter().map(|&p| atoms[p as usize]).collect())
        .collect();
    let picked = Picked { cell: simbox(f.cell), mols };
    Ok(Some((kept, picked)))
}

/// What the whole frame's answers need beyond its input.
pub struct FrameWork {
    pub kept: Vec<Vec<u32>>,
    pub picked: Picked,
    pub scanned: Vec<u32>,
    pub dispersion: u32,
    pub worked: Worked,
}

impl FrameWork {
    /// `cutoff` is one that is not refused, and `touch` is at it.
    pub fn new(
        kept: Vec<Vec<u32>>,
        picked: Picked,
        cutoff: f32,
        waters: &[f32],
        touch: &mut dyn FnMut(&Picked, usize, usize) -> bool,
    ) -> FrameWork {
        let n = picked.n();
        let mut scanned = vec![0; HEAD + 3 * n];
        open(&mut scanned, n, cutoff).unwrap();
        for i in 0..n {
            scan_row(&mut scanned, n, i, &mut |i, j| touch(&picked, i, j));
        }
        let dispersion = rust::dispersion(&picked.mols, &picked.cell).to_bits();
        let worked = Worked::new(&picked, waters, true);
        FrameWork { kept, picked, scanned, dispersion, worked }
    }

    /// Largest, contacted and pair fraction, as bits.
    pub fn fractions(&self) -> [u32; 3] {
        fractions(&self.scanned, self.picked.n())
    }
}

/// 7 of the whole frame: starts, picks, clusters, center order, water order of these lengths are too short.
pub fn frame_short(kept: &[Vec<u32>], waters: usize, lengths: [usize; 5]) -> bool {
    let n = kept.len();
    let needed = [n + 1, count(kept), HEAD + 3 * n, n, waters];
    lengths.iter().zip(needed).any(|(&length, need)| length < need)
}

/// blank, copies, picks, largest, contacted, pair, dispersion, nodes, depth, leaves, dry.
/// `work` is what `frame_picks` led to: a refusal, blank (None) or the work.
pub fn frame(
    work: &Answer<Option<FrameWork>>,
    starts: &mut [u32],
    picks: &mut [u32],
    clusters: &mut [u32],
    t: &mut TreeTables,
) -> Answer<[u32; 11]> {
    let w = match work {
        Err(number) => return Err(*number),
        Ok(None) => return Ok([1, 0, 0, 0, 0, 0, 0, 0, 0, 0, 0]),
        Ok(Some(w)) => w,
    };
    let n = w.kept.len();
    let points = (n, w.worked.built.water_order.len());
    let lengths =
        [starts.len(), picks.len(), clusters.len(), t.center_order.len(), t.water_order.len()];
    if frame_short(&w.kept, points.1, lengths) {
        return Err(7);
    }
    write_lists(&w.kept, starts, picks);
    clusters[..HEAD + 3 * n].copy_from_slice(&w.scanned);
    let four = fill_tree(&w.worked, points, t)?;
    let three = w.fractions();
    Ok([
        0,
        n as u32,
        count(&w.kept) as u32,
        three[0],
        three[1],
        three[2],
        w.dispersion,
        four[0],
        four[1],
        four[2],
        four[3],
    ])
}

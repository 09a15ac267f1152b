//! Pick lists: what sound ones are (8), and the copies that they name.

use super::*;
use original::properties::opened::access as rust;

fn lists_unsound(solutes: &[f32], starts: &[u32], picks: &[u32]) -> bool {
    let atoms = points(solutes);
    if starts.is_empty() || starts.len() - 1 > COPIES || picks.len() > PICKS || starts[0] != 0 {
        return true;
    }
    if starts.windows(2).any(|w| w[0] >= w[1]) {
        return true;
    }
    if *starts.last().unwrap() as usize != picks.len() {
        return true;
    }
    picks.iter().any(|&p| match atoms.get(p as usize) {
        Some(&atom) => !finite(atom),
        None => true,
    })
}

/// Solutes, cell and pick lists that passed the tests 1, 2, 3, 4, 15 and 8, with the copies' positions.
pub struct Picked {
    pub cell: SimBox,
    pub mols: Vec<Vec<Vec3>>,
}

impl Picked {
    /// `waters` is empty for a call that takes none.
    pub fn read(
        cell: [f32; 6],
        solutes: &[f32],
        waters: &[f32],
        starts: &[u32],
        picks: &[u32],
    ) -> Answer<Picked> {
        if uneven(solutes) || uneven(waters) {
            return Err(1);
        }
        if solutes.len() / 3 > ATOMS || waters.len() / 3 > WATERS {
            return Err(2);
        }
        if bound_over(cell) {
            return Err(3);
        }
        if coordinate_over(solutes) || coordinate_over(waters) {
            return Err(4);
        }
        if cell_invalid(cell) {
            return Err(15);
        }
        if lists_unsound(solutes, starts, picks) {
            return Err(8);
        }
        let atoms = points(solutes);
        let mols = starts
            .windows(2)
            .map(|w| picks[w[0] as usize..w[1] as usize].iter().map(|&p| atoms[p as usize]).collect())
            .collect();
        Ok(Picked { cell: simbox(cell), mols })
    }

    pub fn n(&self) -> usize {
        self.mols.len()
    }

    /// At 4.2 the original's own answer. The driver holds `near` against it there.
    pub fn touch(&self, cutoff: f32, i: usize, j: usize) -> bool {
        if cutoff.to_bits() == CUTOFF.to_bits() {
            rust::touch(&self.mols[i], &self.mols[j], &self.cell)
        } else {
            self.near(cutoff, i, j)
        }
    }

    /// The original's `solute_mols_touch`, with the caller's cutoff in the place of its constant. The product may be 0.
    pub fn near(&self, cutoff: f32, i: usize, j: usize) -> bool {
        let cutoff_d2 = cutoff * cutoff;
        for &pa in &self.mols[i] {
            for &pb in &self.mols[j] {
                let d2 = self.cell.min_image(pb - pa).magnitude_squared();
                if d2.is_finite() && d2 <= cutoff_d2 {
                    return true;
                }
            }
        }
        false
    }
}

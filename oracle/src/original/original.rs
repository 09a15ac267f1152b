//! The crate root around the original file. The build puts beside it, in the folder `properties`:
//! `mixing_analysis.rs`, a link to the original; `opened.rs`, the original's bytes with access.rs after them.

#![allow(dead_code)]

pub mod properties {
    use dynamics::SimBox;
    use lin_alg::f32::Vec3;

    // The original, unchanged: only what it lets its parent module see can be called.
    mod mixing_analysis;
    // The same text with a module of doors at its end, for its private functions.
    pub mod opened;

    /// solute_dispersion, largest, contacted and pair fraction of `compute_solubility_diagnostics`.
    pub fn diagnostics(
        solutes: &[Vec3],
        per: usize,
        indices: &[usize],
        waters: &[Vec3],
        cell: &SimBox,
    ) -> [f32; 4] {
        let d = mixing_analysis::compute_solubility_diagnostics(solutes, per, indices, waters, cell);
        [
            d.solute_dispersion,
            d.largest_cluster_fraction,
            d.contacted_fraction,
            d.contact_pair_fraction,
        ]
    }

    /// `compute_solubility_cell_list`: one number that every word of the leaf table goes into.
    pub fn cell_list(
        solutes: &[Vec3],
        per: usize,
        indices: &[usize],
        waters: &[Vec3],
        cell: &SimBox,
    ) -> f32 {
        mixing_analysis::compute_solubility_cell_list(solutes, per, indices, waters, cell)
    }
}

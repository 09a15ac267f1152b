
// What follows is not the original's: doors to its private functions, one each, that change nothing.
pub mod access {
    use super::*;

    pub const SHELL: f32 = SOLUBILITY_BH_HYDRATION_SHELL_A;
    pub const WATER_FLOOR: f32 = SOLUBILITY_BH_EXPECTED_WATER_FLOOR;

    pub fn valid_cell(cell: &SimBox) -> bool {
        valid_solubility_cell(cell)
    }

    pub fn selected(posits: &[Vec3F32], per: usize, indices: &[usize]) -> Vec<Vec<Vec3F32>> {
        selected_solute_mols(posits, per, indices)
    }

    #[inline]
    pub fn touch(a: &[Vec3F32], b: &[Vec3F32], cell: &SimBox) -> bool {
        solute_mols_touch(a, b, cell)
    }

    pub fn union(parent: &mut [usize], a: usize, b: usize) {
        union_roots(parent, a, b)
    }

    pub fn root(parent: &mut [usize], i: usize) -> usize {
        find_root(parent, i)
    }

    /// Largest, contacted and pair fraction.
    pub fn fractions(mols: &[Vec<Vec3F32>], cell: &SimBox) -> [f32; 3] {
        let a = solute_aggregation_diagnostics(mols, cell);
        [a.largest_cluster_fraction, a.contacted_fraction, a.contact_pair_fraction]
    }

    pub fn centers(mols: &[Vec<Vec3F32>], cell: &SimBox) -> Vec<Vec3F32> {
        solute_mol_centers(mols, cell)
    }

    pub fn dispersion(mols: &[Vec<Vec3F32>], cell: &SimBox) -> f32 {
        solute_center_dispersion_score(mols, cell)
    }

    pub fn occupancy_score(observed: usize, expected: f32) -> f32 {
        occupancy_count_score(observed, expected)
    }

    pub fn reference_volume(cell_volume: f32, copies: usize) -> f32 {
        reference_octree_leaf_volume(cell_volume, copies)
    }

    pub fn partition(leaf_volume: f32, reference: f32, centers: usize) -> f32 {
        partition_size_score(leaf_volume, reference, centers)
    }

    pub fn leaf_score(mols: &[Vec<Vec3F32>], waters: &[Vec3F32], cell: &SimBox) -> f32 {
        local_solute_water_mixing_score_barnes_hut(mols, waters, cell)
    }

    pub fn log_score(raw: f32) -> f32 {
        log_expanded_solubility_score(raw)
    }

    pub struct Tree(MixingOctree);

    impl Tree {
        pub fn new(mols: &[Vec<Vec3F32>], waters: &[Vec3F32], cell: &SimBox) -> Self {
            Self(MixingOctree::new(mols, waters, cell))
        }

        pub fn nodes(&self) -> usize {
            self.0.nodes.len()
        }

        pub fn finite_waters(&self) -> usize {
            self.0.water_posits.len()
        }

        pub fn children(&self, node: usize) -> &[usize] {
            &self.0.nodes[node].children
        }

        pub fn centers(&self, node: usize) -> &[usize] {
            &self.0.nodes[node].solute_indices
        }

        pub fn waters(&self, node: usize) -> &[usize] {
            &self.0.nodes[node].water_indices
        }

        pub fn low(&self, node: usize) -> Vec3F32 {
            self.0.nodes[node].bounds.low
        }

        pub fn high(&self, node: usize) -> Vec3F32 {
            self.0.nodes[node].bounds.high
        }

        pub fn volume(&self, node: usize) -> f32 {
            self.0.nodes[node].bounds.volume()
        }

        pub fn expanded_volume(&self, node: usize) -> f32 {
            self.0.nodes[node].bounds.expanded_volume(SHELL, &self.0.cell)
        }

        pub fn shell_waters(&self, node: usize) -> usize {
            self.0.water_count_in_expanded_bounds(&self.0.nodes[node].bounds, SHELL)
        }
    }
}

//! Tree and Report: node records, boxes, order lists and the leaf table.

use super::*;
use original::properties::opened::access as rust;

/// A built tree as the tables hold it, with no limit on them, and the reported leaves.
pub struct Built {
    pub nodes: usize,
    pub depth: u32,
    pub records: Vec<u32>,
    pub boxes: Vec<u32>,
    pub center_order: Vec<u32>,
    pub water_order: Vec<u32>,
    tree: rust::Tree,
}

impl Built {
    pub fn new(picked: &Picked, waters: &[f32]) -> Built {
        let tree = rust::Tree::new(&picked.mols, &points(waters), &picked.cell);
        let nodes = tree.nodes();
        let mut b = Built {
            nodes,
            depth: 0,
            records: vec![0; 8 * nodes],
            boxes: vec![0; 6 * nodes],
            center_order: Vec::new(),
            water_order: Vec::new(),
            tree,
        };
        if nodes > 0 {
            let after = b.place(0, 0);
            assert_eq!(after, nodes, "the original's nodes stand in preorder");
        }
        b
    }

    /// Writes the record and box of a node and all below it; answers the node after its subtree.
    fn place(&mut self, node: usize, depth: u32) -> usize {
        self.depth = self.depth.max(depth);
        let first_center = self.center_order.len();
        let first_water = self.water_order.len();
        let children = self.tree.children(node).to_vec();
        let mut after = node + 1;
        for &child in &children {
            assert_eq!(child, after, "the original's nodes stand in preorder");
            after = self.place(child, depth + 1);
        }
        if children.is_empty() {
            self.center_order.extend(self.tree.centers(node).iter().map(|&c| c as u32));
            self.water_order.extend(self.tree.waters(node).iter().map(|&w| w as u32));
        }
        let record = [
            depth,
            first_center as u32,
            self.tree.centers(node).len() as u32,
            first_water as u32,
            self.tree.waters(node).len() as u32,
            children.len() as u32,
            after as u32,
            0,
        ];
        self.records[8 * node..8 * node + 8].copy_from_slice(&record);
        let (low, high) = (self.tree.low(node), self.tree.high(node));
        let sides = [low.x, low.y, low.z, high.x, high.y, high.z].map(f32::to_bits);
        self.boxes[6 * node..6 * node + 6].copy_from_slice(&sides);
        after
    }

    fn reported(&self, node: usize) -> bool {
        self.tree.children(node).is_empty() && !self.tree.centers(node).is_empty()
    }

    /// Eight words for each reported leaf.
    pub fn leaves(&self, picked: &Picked) -> Vec<u32> {
        let cell_volume = picked.cell.volume().max(f32::EPSILON);
        let density = self.tree.finite_waters() as f32 / cell_volume;
        let reference = rust::reference_volume(cell_volume, picked.n());
        let mut words = Vec::new();
        for node in (0..self.nodes).filter(|&node| self.reported(node)) {
            let centers = self.tree.centers(node).len();
            let waters = self.tree.waters(node).len();
            let shell = self.tree.shell_waters(node);
            let volume = self.tree.volume(node);
            words.extend([
                node as u32,
                centers as u32,
                waters as u32,
                occupancy(waters, density * volume),
                shell as u32,
                occupancy(shell, density * self.tree.expanded_volume(node)),
                rust::partition(volume, reference, centers).to_bits(),
                0,
            ]);
        }
        words
    }
}

/// Dry as 0, else the ratio's bits: observed over expected, expected being at least 0.75.
pub(crate) fn occupancy(observed: usize, expected: f32) -> u32 {
    if observed == 0 {
        return 0;
    }
    (observed as f32 / expected.max(rust::WATER_FLOOR)).to_bits()
}

/// The number that `compute_solubility_cell_list` would answer, worked out from a leaf table alone.
pub fn score_of_leaves(leaves: &[u32]) -> f32 {
    let at_expected = 1.0 - (-1.0_f32).exp();
    let score = |bits: u32| match bits {
        0 => 0.0,
        b => ((1.0 - (-f32::from_bits(b)).exp()) / at_expected).clamp(0.0, 1.0),
    };
    let mut weighted = 0.0;
    let mut weight = 0usize;
    for leaf in leaves.chunks_exact(8) {
        let hydration = (0.25 * score(leaf[3]) + 0.55 * score(leaf[5])) / 0.80;
        let leaf_score = hydration * (0.80 + 0.20 * f32::from_bits(leaf[6]));
        weighted += leaf_score * leaf[1] as f32;
        weight += leaf[1] as usize;
    }
    if weight == 0 {
        return rust::log_score(0.0);
    }
    rust::log_score((weighted / weight as f32).clamp(0.0, 1.0))
}

pub(crate) fn count_from_zero(list: &mut [u32], points: usize) {
    for (i, entry) in list.iter_mut().take(points).enumerate() {
        *entry = i as u32;
    }
}

/// The lent tables of Tree (leaves is None) and of Report.
pub struct TreeTables<'a> {
    pub center_order: &'a mut [u32],
    pub water_order: &'a mut [u32],
    pub records: &'a mut [u32],
    pub boxes: &'a mut [u32],
    pub leaves: Option<&'a mut [u32]>,
}

/// A tree and its leaves, worked out once for the calls on one frame. `leaves` is empty until a report needs it.
pub struct Worked {
    pub built: Built,
    pub leaves: Vec<u32>,
}

impl Worked {
    pub fn new(picked: &Picked, waters: &[f32], with_leaves: bool) -> Worked {
        let built = Built::new(picked, waters);
        let leaves = if with_leaves { built.leaves(picked) } else { Vec::new() };
        Worked { built, leaves }
    }
}

/// Tree and Report after all their tests before 7: 7, 13, or the tables and Report's four numbers.
pub(crate) fn fill_tree(worked: &Worked, points: (usize, usize), t: &mut TreeTables) -> Answer<[u32; 4]> {
    let b = &worked.built;
    if t.center_order.len() < points.0 || t.water_order.len() < points.1 {
        return Err(7);
    }
    let mut room = (t.records.len() / 8).min(t.boxes.len() / 6);
    if let Some(leaves) = &t.leaves {
        room = room.min(leaves.len() / 8);
    }
    if b.nodes > room {
        t.records.fill(0);
        t.boxes.fill(0);
        if let Some(leaves) = &mut t.leaves {
            leaves.fill(0);
        }
        count_from_zero(t.center_order, points.0);
        count_from_zero(t.water_order, points.1);
        return Err(13);
    }
    t.center_order[..points.0].copy_from_slice(&b.center_order);
    t.water_order[..points.1].copy_from_slice(&b.water_order);
    t.records[..8 * b.nodes].copy_from_slice(&b.records);
    t.boxes[..6 * b.nodes].copy_from_slice(&b.boxes);
    if let Some(leaves) = &mut t.leaves {
        leaves[..worked.leaves.len()].copy_from_slice(&worked.leaves);
    }
    let dry = worked.leaves.chunks_exact(8).filter(|leaf| leaf[2] == 0).count();
    Ok([b.nodes as u32, b.depth, (worked.leaves.len() / 8) as u32, dry as u32])
}

/// Nodes and greatest depth. `worked` is there whenever `picked` is no refusal.
pub fn tree(
    picked: &Answer<Picked>,
    worked: Option<&Worked>,
    waters: &[f32],
    t: &mut TreeTables,
) -> Answer<[u32; 2]> {
    let p = picked.as_ref().map_err(|e| *e)?;
    let four = fill_tree(worked.unwrap(), (p.n(), finite_waters(waters)), t)?;
    Ok([four[0], four[1]])
}

/// Nodes, greatest depth, reported leaves, dry leaves.
pub fn report(
    picked: &Answer<Picked>,
    worked: Option<&Worked>,
    waters: &[f32],
    t: &mut TreeTables,
) -> Answer<[u32; 4]> {
    let p = picked.as_ref().map_err(|e| *e)?;
    fill_tree(worked.unwrap(), (p.n(), finite_waters(waters)), t)
}

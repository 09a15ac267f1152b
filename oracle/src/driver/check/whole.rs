//! The whole frame, and the second reading against the unchanged original.

use super::clusters::Touches;
use super::halves::near_halves;
use super::lent::{Pair, settle};
use super::{Checked, Checker, WHOLE_ORIGINAL};
use crate::case::Lent;
use crate::library;
use crate::stats::{BLANK, Call};
use dynamics::SimBox;
use lin_alg::f32::Vec3;
use original::properties;
use original::properties::opened::access as rust;
use reading::{Answer, CUTOFF, FrameInput, FrameWork, HEAD, Picked};

/// The least and the greatest coordinates of a copy's picks.
fn bounds(mol: &[Vec3]) -> [Vec3; 2] {
    mol.iter().fold([mol[0]; 2], |[low, high], p| {
        [Vec3::new(low.x.min(p.x), low.y.min(p.y), low.z.min(p.z)), Vec3::new(high.x.max(p.x), high.y.max(p.y), high.z.max(p.z))]
    })
}

/// On some axis there is more than an extent between the two boxes.
fn apart([a_low, a_high]: &[Vec3; 2], [b_low, b_high]: &[Vec3; 2], e: Vec3) -> bool {
    let (up, down) = (*b_low - *a_high, *a_low - *b_high);
    up.x.max(down.x) > e.x || up.y.max(down.y) > e.y || up.z.max(down.z) > e.z
}

impl Checker<'_> {
    /// The whole frame at each of its cutoffs.
    pub(super) fn frames(&mut self, touches: Option<&mut Touches>) -> Checked {
        let mut own = Touches::new(0);
        let touches = touches.unwrap_or(&mut own);
        for &cutoff in &self.case.frames {
            self.frame(cutoff, touches)?;
        }
        Ok(())
    }

    fn frame(&mut self, cutoff: f32, touches: &mut Touches) -> Checked {
        let case = self.case;
        let input = FrameInput {
            cell: case.cell,
            cutoff,
            solutes: &case.solutes,
            per: case.per,
            indices: &case.indices,
            waters: &case.waters,
        };
        let mut boxes = Vec::new();
        let (mut touching, mut images_apart) = (0, 0);
        let mut ask = |p: &Picked, i: usize, j: usize| {
            let touch = match touches.n {
                0 => p.touch(cutoff, i, j),
                _ => touches.ask(p, cutoff, i, j),
            };
            if touch {
                if boxes.is_empty() {
                    boxes = p.mols.iter().map(|mol| bounds(mol)).collect();
                }
                touching += 1;
                images_apart += apart(&boxes[i], &boxes[j], p.cell.extent) as u64;
            }
            touch
        };
        let work: Answer<Option<FrameWork>> = reading::frame_picks(&input).map(|some| {
            some.map(|(kept, picked)| FrameWork::new(kept, picked, cutoff, &case.waters, &mut ask))
        });
        self.stats.touching += touching;
        self.stats.images_apart += images_apart;
        if self.wants(Call::Original) {
            self.original_agrees(cutoff, &work)?;
        }
        if self.wants(Call::Frame) {
            self.whole_frame(cutoff, &work)?;
        }
        Ok(())
    }

    fn whole_frame(&mut self, cutoff: f32, work: &Answer<Option<FrameWork>>) -> Checked {
        let case = self.case;
        let some = work.as_ref().ok().and_then(Option::as_ref);
        let copies = some.map_or(3, |w| w.kept.len());
        let n: usize = some.map_or(3, |w| w.kept.iter().map(Vec::len).sum());
        let nodes = some.map_or(3, |w| w.worked.built.nodes);
        let mut starts = Pair::new(case, "starts", Lent::Starts, copies + 1);
        let mut picks = Pair::new(case, "picks", Lent::Picks, n);
        let mut clusters = Pair::new(case, "clusters", Lent::Clusters, HEAD + 3 * copies);
        let mut center_order = Pair::new(case, "center order", Lent::CenterOrder, copies);
        let waters = reading::finite_waters(&case.waters);
        let mut water_order = Pair::new(case, "water order", Lent::WaterOrder, waters);
        let mut records = Pair::new(case, "records", Lent::Records, 8 * nodes);
        let mut boxes = Pair::new(case, "boxes", Lent::Boxes, 6 * nodes);
        let mut leaves = Pair::new(case, "leaves", Lent::Leaves, 8 * nodes);
        let mut answers = Pair::new(case, "answers", Lent::Answers, 11);
        let mut tables = reading::TreeTables {
            center_order: &mut center_order.expected,
            water_order: &mut water_order.expected,
            records: &mut records.expected,
            boxes: &mut boxes.expected,
            leaves: Some(&mut leaves.expected),
        };
        let answer = reading::frame(
            work,
            &mut starts.expected,
            &mut picks.expected,
            &mut clusters.expected,
            &mut tables,
        );
        let expected = settle(&answer, &mut answers);
        let found = library::frame(
            &self.with(&[], &[]),
            cutoff,
            case.per,
            &case.indices,
            &mut library::FrameTables {
                starts: &mut starts.lent,
                picks: &mut picks.lent,
                clusters: &mut clusters.lent,
            },
            &mut library::TreeTables {
                center_order: &mut center_order.lent,
                water_order: &mut water_order.lent,
                records: &mut records.lent,
                boxes: &mut boxes.lent,
            },
            &mut leaves.lent,
            &mut answers.lent,
        );
        let tables = [
            &starts, &picks, &clusters, &center_order, &water_order, &records, &boxes, &leaves, &answers,
        ];
        self.stats.count_cutoff(Call::Frame, cutoff);
        self.compare(Call::Frame, &format!(" at {cutoff:?}"), expected, found, &tables)?;
        if matches!(answer, Ok(a) if a[0] == 1) {
            // Counted as blank instead of as a success.
            *self.stats.answers.get_mut(&Call::Frame).unwrap().get_mut(&0).unwrap() -= 1;
            self.stats.count(Call::Frame, BLANK);
        } else if expected == 0 {
            self.stats.whole += 1;
            if let Some(w) = some {
                self.stats.add_halves(near_halves(w, &case.waters));
            }
            if let (true, Some(w)) = (case.trees_in_frame, some) {
                self.seen(&w.worked, waters);
            }
        }
        Ok(())
    }

    /// The second reading's frame against the unchanged original's own numbers. At another cutoff than 4.2 the original's three
    /// fractions are of other contacts, and only what does not depend on it is compared.
    fn original_agrees(&mut self, cutoff: f32, work: &Answer<Option<FrameWork>>) -> Checked {
        let case = self.case;
        let Ok(some) = work else { return Ok(()) };
        let cell = reading::simbox(case.cell);
        let solutes = reading::points(&case.solutes);
        let waters = reading::points(&case.waters);
        let indices: Vec<usize> = case.indices.iter().map(|&i| i as usize).collect();
        let (expected, leaves): ([u32; 4], &[u32]) = match some {
            None => ([0; 4], &[]),
            Some(w) => {
                let [largest, contacted, pair] = w.fractions();
                ([w.dispersion, largest, contacted, pair], &w.worked.leaves)
            }
        };
        let n: usize = some.as_ref().map_or(0, |w| w.kept.iter().map(Vec::len).sum());
        let same_cutoff = some.is_none() || cutoff.to_bits() == CUTOFF.to_bits();
        let found = match some {
            Some(w) if n * (n + waters.len()) > WHOLE_ORIGINAL => {
                let fractions = if same_cutoff { rust::fractions(&w.picked.mols, &w.picked.cell) } else { [0.0; 3] };
                let [largest, contacted, pair] = fractions;
                [f32::from_bits(w.dispersion), largest, contacted, pair]
            }
            _ => {
                if let Some(w) = some {
                    self.touch_agrees(&w.picked)?;
                }
                properties::diagnostics(&solutes, case.per, &indices, &waters, &cell)
            }
        };
        self.stats.count(Call::Original, 0);
        let compared = if same_cutoff { 4 } else { 1 };
        if found.map(f32::to_bits)[..compared] != expected[..compared] {
            return self.differ(
                Call::Original,
                format!("the original's dispersion and fractions {found:?}, the reading's bits {expected:08X?}"),
            );
        }
        let score = properties::cell_list(&solutes, case.per, &indices, &waters, &cell);
        let of_leaves = if some.is_some() { reading::score_of_leaves(leaves) } else { 0.0 };
        if score.to_bits() != of_leaves.to_bits() {
            return self.differ(
                Call::Original,
                format!("the original's cell list score {score:?}, from the leaf table {of_leaves:?}"),
            );
        }
        Ok(())
    }

    /// The touch that stands behind other cutoffs, whatever the case's: at 4.2 against the original's, and at 8.4 and 2.1 against the
    /// original's on the frame at half and at twice its size, for a power of two changes no rounding.
    fn touch_agrees(&self, p: &Picked) -> Checked {
        for size in [1.0, 0.5, 2.0] {
            let cutoff = CUTOFF / size;
            let cell = SimBox::new(p.cell.bounds_low * size, p.cell.bounds_high * size);
            let mols: Vec<Vec<Vec3>> = p.mols.iter().map(|mol| mol.iter().map(|&atom| atom * size).collect()).collect();
            for i in 0..p.n() {
                for j in i + 1..p.n() {
                    let (ours, original) = (p.near(cutoff, i, j), rust::touch(&mols[i], &mols[j], &cell));
                    if ours != original {
                        let what = format!("copies {i} and {j} touch at {cutoff}: the original says {original}, the reading {ours}");
                        return self.differ(Call::Original, what);
                    }
                }
            }
        }
        Ok(())
    }
}

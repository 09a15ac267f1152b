//! Runs one case through the library and through the second reading, and compares every answer and every entry of
//! every lent table, those that must keep their values too. Stops at the first difference.

mod clusters;
mod halves;
mod lent;
mod whole;

use crate::case::{Case, Lent};
use crate::library;
use crate::stats::{Call, Stats};
use clusters::Touches;
use lent::{Pair, settle};
use original::properties::opened::access as rust;
use reading::{Answer, Picked, Worked};

pub struct Difference {
    pub call: Call,
    pub what: String,
}

/// Up to this many distance pairs the original's whole `compute_solubility_diagnostics` is run; beyond, its parts.
const WHOLE_ORIGINAL: usize = 30_000;

type Checked = Result<(), Difference>;

struct Checker<'a> {
    case: &'a Case,
    only: Option<Call>,
    stats: &'a mut Stats,
    solutes: Vec<u32>,
    waters: Vec<u32>,
}

pub fn check(case: &Case, only: Option<Call>, stats: &mut Stats) -> Checked {
    let bits = |list: &[f32]| list.iter().map(|x| x.to_bits()).collect::<Vec<u32>>();
    let mut c = Checker {
        case,
        only,
        stats,
        solutes: bits(&case.solutes),
        waters: bits(&case.waters),
    };
    c.all()?;
    for (name, list, before) in [("solutes", &c.solutes, &case.solutes), ("waters", &c.waters, &case.waters)] {
        if list.iter().zip(before).any(|(now, then)| *now != then.to_bits()) {
            return Err(Difference { call: Call::Frame, what: format!("the list of {name} was written to") });
        }
    }
    Ok(())
}

impl Checker<'_> {
    fn wants(&self, call: Call) -> bool {
        if self.case.clusters_only && !matches!(call, Call::Open | Call::Row | Call::Close) {
            return false;
        }
        library::present(call) && self.only.is_none_or(|only| only == call)
    }

    fn differ<T>(&self, call: Call, what: String) -> Result<T, Difference> {
        Err(Difference { call, what })
    }

    /// The answer's number, then every table.
    fn compare(&mut self, call: Call, note: &str, expected: u32, found: u32, tables: &[&Pair]) -> Checked {
        self.stats.count(call, expected);
        let name = format!("{call:?}").to_lowercase();
        if expected != found {
            return self.differ(call, format!("{name}{note} answered {found}, expected {expected}"));
        }
        for table in tables {
            match table.compare() {
                Ok(entries) => self.stats.entries += entries,
                Err(what) => {
                    return self.differ(call, format!("{name}{note} (answer {expected}), {what}"));
                }
            }
        }
        Ok(())
    }

    fn all(&mut self) -> Checked {
        let case = self.case;
        let kept = reading::select_all(&case.solutes, case.per, &case.indices);
        if self.wants(Call::Original) {
            self.selection_agrees(&kept)?;
        }
        if self.wants(Call::Select) {
            self.select(&kept)?;
        }
        let (starts, picks) = self.lists(&kept);
        let plain = Picked::read(case.cell, &case.solutes, &[], &starts, &picks);
        let mut touches = Touches::new(plain.as_ref().map_or(0, Picked::n));
        self.clusters(&starts, &picks, &plain, &mut touches)?;
        if self.wants(Call::Touch) {
            self.touch(&starts, &picks, &plain)?;
        }
        if self.wants(Call::Centers) {
            self.centers(&starts, &picks, &plain)?;
        }
        if self.wants(Call::Dispersion) {
            self.dispersion(&starts, &picks, &plain)?;
        }
        let with_waters = if case.waters.is_empty() {
            plain
        } else {
            Picked::read(case.cell, &case.solutes, &case.waters, &starts, &picks)
        };
        if !case.trees_in_frame && (self.wants(Call::Tree) || self.wants(Call::Report)) {
            let worked = with_waters.as_ref().ok().map(|p| Worked::new(p, &case.waters, true));
            self.trees(&starts, &picks, &with_waters, worked)?;
        }
        if self.wants(Call::Frame) || self.wants(Call::Original) {
            let same = case.lists.is_none() && touches.n == kept.len();
            self.frames(same.then_some(&mut touches))?;
        }
        Ok(())
    }

    /// Select's lists with all the room they need, or none where it refuses.
    fn lists(&self, kept: &[Vec<u32>]) -> (Vec<u32>, Vec<u32>) {
        if let Some(lists) = &self.case.lists {
            return lists.clone();
        }
        let case = self.case;
        let mut starts = vec![0; kept.len() + 1];
        let mut picks = vec![0; kept.iter().map(Vec::len).sum()];
        match reading::select(&case.solutes, case.per, &case.indices, &mut starts, &mut picks) {
            Ok(_) => (starts, picks),
            Err(_) => (vec![0], vec![]),
        }
    }

    fn selection_agrees(&mut self, kept: &[Vec<u32>]) -> Checked {
        let case = self.case;
        if kept != reading::select_by_words(&case.solutes, case.per, &case.indices) {
            return self.differ(Call::Original, "selection: the rules' words and the original part".into());
        }
        let atoms = reading::points(&case.solutes);
        let indices: Vec<usize> = case.indices.iter().map(|&i| i as usize).collect();
        let posits = rust::selected(&atoms, case.per, &indices);
        let bits = |p: lin_alg::f32::Vec3| [p.x.to_bits(), p.y.to_bits(), p.z.to_bits()];
        let same = posits.len() == kept.len()
            && posits.iter().zip(kept).all(|(mol, picked)| {
                mol.len() == picked.len()
                    && mol.iter().zip(picked).all(|(&p, &a)| bits(p) == bits(atoms[a as usize]))
            });
        self.stats.count(Call::Original, 0);
        if same { Ok(()) } else { self.differ(Call::Original, "selection: positions part".into()) }
    }

    fn select(&mut self, kept: &[Vec<u32>]) -> Checked {
        let case = self.case;
        let n: usize = kept.iter().map(Vec::len).sum();
        let mut starts = Pair::new(case, "starts", Lent::Starts, kept.len() + 1);
        let mut picks = Pair::new(case, "picks", Lent::Picks, n);
        let mut answers = Pair::new(case, "answers", Lent::Answers, 2);
        let answer =
            reading::select(&case.solutes, case.per, &case.indices, &mut starts.expected, &mut picks.expected);
        let expected = settle(&answer, &mut answers);
        let found = library::select(
            &self.solutes,
            case.per,
            &case.indices,
            &mut starts.lent,
            &mut picks.lent,
            &mut answers.lent,
        );
        if expected == 0 {
            self.stats.most_copies = self.stats.most_copies.max(kept.len() as u32);
            self.stats.most_picks = self.stats.most_picks.max(n as u32);
        }
        self.compare(Call::Select, "", expected, found, &[&starts, &picks, &answers])
    }

    fn with<'b>(&'b self, starts: &'b [u32], picks: &'b [u32]) -> library::Lists<'b> {
        library::Lists {
            cell: self.case.cell,
            solutes: &self.solutes,
            waters: &self.waters,
            starts,
            picks,
        }
    }

    fn centers(&mut self, starts: &[u32], picks: &[u32], picked: &Answer<Picked>) -> Checked {
        let n = picked.as_ref().map_or(3, Picked::n);
        let mut table = Pair::new(self.case, "centers", Lent::Centers, 3 * n);
        let expected = reading::centers(picked, &mut table.expected).err().unwrap_or(0);
        let found = library::centers(&self.with(starts, picks), &mut table.lent);
        self.compare(Call::Centers, "", expected, found, &[&table])
    }

    fn dispersion(&mut self, starts: &[u32], picks: &[u32], picked: &Answer<Picked>) -> Checked {
        let mut answers = Pair::new(self.case, "answers", Lent::Answers, 1);
        let expected = settle(&reading::dispersion(picked), &mut answers);
        let found = library::dispersion(&self.with(starts, picks), &mut answers.lent);
        self.compare(Call::Dispersion, "", expected, found, &[&answers])
    }

    /// Tree, then Report, each in tables of its own.
    fn trees(
        &mut self,
        starts: &[u32],
        picks: &[u32],
        picked: &Answer<Picked>,
        worked: Option<Worked>,
    ) -> Checked {
        let case = self.case;
        let n = picked.as_ref().map_or(3, Picked::n);
        let nodes = worked.as_ref().map_or(3, |w| w.built.nodes);
        let waters = reading::finite_waters(&case.waters);
        for call in [Call::Tree, Call::Report] {
            if !self.wants(call) {
                continue;
            }
            let mut center_order = Pair::new(case, "center order", Lent::CenterOrder, n);
            let mut water_order = Pair::new(case, "water order", Lent::WaterOrder, waters);
            let mut records = Pair::new(case, "records", Lent::Records, 8 * nodes);
            let mut boxes = Pair::new(case, "boxes", Lent::Boxes, 6 * nodes);
            let mut leaves = Pair::new(case, "leaves", Lent::Leaves, 8 * nodes);
            let need = if call == Call::Tree { 2 } else { 4 };
            let mut answers = Pair::new(case, "answers", Lent::Answers, need);
            let mut tables = reading::TreeTables {
                center_order: &mut center_order.expected,
                water_order: &mut water_order.expected,
                records: &mut records.expected,
                boxes: &mut boxes.expected,
                leaves: (call == Call::Report).then_some(&mut leaves.expected),
            };
            let expected = if call == Call::Tree {
                settle(&reading::tree(picked, worked.as_ref(), &case.waters, &mut tables), &mut answers)
            } else {
                settle(&reading::report(picked, worked.as_ref(), &case.waters, &mut tables), &mut answers)
            };
            let mut lent = library::TreeTables {
                center_order: &mut center_order.lent,
                water_order: &mut water_order.lent,
                records: &mut records.lent,
                boxes: &mut boxes.lent,
            };
            let found = if call == Call::Tree {
                library::tree(&self.with(starts, picks), &mut lent, &mut answers.lent)
            } else {
                library::report(&self.with(starts, picks), &mut lent, &mut leaves.lent, &mut answers.lent)
            };
            let tables = [&center_order, &water_order, &records, &boxes, &leaves, &answers];
            self.compare(call, "", expected, found, &tables)?;
            if call == Call::Report && expected == 0 {
                self.seen(worked.as_ref().unwrap(), waters);
            }
        }
        Ok(())
    }

    fn seen(&mut self, worked: &Worked, waters: usize) {
        let s = &mut *self.stats;
        let leaves = worked.leaves.len() as u64 / 8;
        let dry = worked.leaves.chunks_exact(8).filter(|leaf| leaf[2] == 0).count() as u64;
        s.frames += 1;
        s.with_split += (worked.built.nodes > 1) as u64;
        s.with_dry += (dry > 0) as u64;
        s.with_wet += (leaves > dry) as u64;
        s.dry_leaves += dry;
        s.wet_leaves += leaves - dry;
        s.most_nodes = s.most_nodes.max(worked.built.nodes as u32);
        s.greatest_depth = s.greatest_depth.max(worked.built.depth);
        s.most_waters = s.most_waters.max(waters as u32);
    }
}

//! What was compared, by call and answer, and what the frames were like.

use std::collections::BTreeMap;

#[derive(Clone, Copy, PartialEq, Eq, PartialOrd, Ord, Debug)]
pub enum Call {
    Select,
    Open,
    Touch,
    Row,
    Close,
    Centers,
    Dispersion,
    Tree,
    Report,
    Frame,
    /// The second reading against the original's own whole functions.
    Original,
    /// The program `frame` against the second reading's listing.
    Program,
}

/// In the place of a refusal's number: a blank frame.
pub const BLANK: u32 = 1000;

#[derive(Default, Clone)]
pub struct Stats {
    pub answers: BTreeMap<Call, BTreeMap<u32, u64>>,
    /// The cutoffs that calls brought: 4.2, others accepted, refused.
    pub cutoffs: BTreeMap<Call, [u64; 3]>,
    pub entries: u64,
    pub groups: BTreeMap<&'static str, u64>,
    /// Whole frames that were neither blank nor refused, and these by group.
    pub whole: u64,
    pub whole_by_group: BTreeMap<&'static str, u64>,
    /// Separations near an odd multiple of half an extent in these: Row's, Centers', Dispersion's and Report's.
    pub halves: [u64; 4],
    pub with_halves: u64,
    /// Cases with something moved by a whole number of extents, by group.
    pub unwrapped: BTreeMap<&'static str, u64>,
    /// Pairs of copies that touch in a whole frame, and of these the ones that stand over an extent apart.
    pub touching: u64,
    pub images_apart: u64,
    pub frames: u64,
    pub with_contacts: u64,
    pub with_split: u64,
    pub with_dry: u64,
    pub with_wet: u64,
    pub dry_leaves: u64,
    pub wet_leaves: u64,
    pub contacts: u64,
    pub most_nodes: u32,
    pub greatest_depth: u32,
    pub most_copies: u32,
    pub most_picks: u32,
    pub most_waters: u32,
}

impl Stats {
    pub fn count(&mut self, call: Call, answer: u32) {
        *self.answers.entry(call).or_default().entry(answer).or_default() += 1;
    }

    pub fn count_cutoff(&mut self, call: Call, cutoff: f32) {
        let class = match cutoff {
            k if reading::cutoff_refused(k) => 2,
            k if k.to_bits() != reading::CUTOFF.to_bits() => 1,
            _ => 0,
        };
        self.cutoffs.entry(call).or_default()[class] += 1;
    }

    pub fn add_halves(&mut self, counts: [u64; 4]) {
        self.with_halves += (counts != [0; 4]) as u64;
        for (sum, n) in self.halves.iter_mut().zip(counts) {
            *sum += n;
        }
    }

    pub fn print(&self) {
        println!("frames and tables by group:");
        for (group, n) in &self.groups {
            println!("  {group:<12} {n}");
        }
        println!("calls compared, by answer (0 success, else the refusal):");
        for (call, answers) in &self.answers {
            let total: u64 = answers.values().sum();
            let each: Vec<String> = answers
                .iter()
                .map(|(&a, n)| if a == BLANK { format!("blank: {n}") } else { format!("{a}: {n}") })
                .collect();
            println!("  {:<12} {total:>10}   {}", format!("{call:?}").to_lowercase(), each.join("  "));
        }
        println!("cutoffs that these calls brought:");
        for (call, [original, other, refused]) in &self.cutoffs {
            let name = format!("{call:?}").to_lowercase();
            println!("  {name:<12} 4.2: {original}  others accepted: {other}  refused: {refused}");
        }
        let each: Vec<String> = self.whole_by_group.iter().map(|(group, n)| format!("{group}: {n}")).collect();
        println!("whole frames neither blank nor refused: {}   {}", self.whole, each.join("  "));
        let [row, centers, dispersion, report] = self.halves;
        println!(
            "separations within 4 ulps of an odd multiple of half an extent: {}, in {} of these   \
             row: {row}  centers: {centers}  dispersion: {dispersion}  report: {report}",
            self.halves.iter().sum::<u64>(),
            self.with_halves
        );
        let each: Vec<String> = self.unwrapped.iter().map(|(group, n)| format!("{group}: {n}")).collect();
        println!("unwrapped frames: {}   {}", self.unwrapped.values().sum::<u64>(), each.join("  "));
        println!("pairs of copies that touch in whole frames: {}, over an extent apart: {}", self.touching, self.images_apart);
        println!("table entries compared: {}", self.entries);
        println!(
            "scans: {} with contacts ({} contacts)",
            self.with_contacts, self.contacts
        );
        println!(
            "reports: {} accepted, {} with a split node, {} with dry leaves ({}), {} with wet leaves ({})",
            self.frames, self.with_split, self.with_dry, self.dry_leaves, self.with_wet, self.wet_leaves
        );
        println!(
            "greatest: {} copies, {} picks, {} waters, {} nodes, depth {}",
            self.most_copies, self.most_picks, self.most_waters, self.most_nodes, self.greatest_depth
        );
    }
}

//! One test case: a frame, the tables lent to each call, and what was damaged on purpose.

use crate::rng::mix;
use reading::CUTOFF;

/// The lent tables, by which `Case::slack` is indexed.
#[derive(Clone, Copy, PartialEq, Eq, Debug)]
pub enum Lent {
    Starts,
    Picks,
    Clusters,
    Centers,
    CenterOrder,
    WaterOrder,
    Records,
    Boxes,
    Leaves,
    Answers,
}

pub const LENT: [Lent; 10] = [
    Lent::Starts,
    Lent::Picks,
    Lent::Clusters,
    Lent::Centers,
    Lent::CenterOrder,
    Lent::WaterOrder,
    Lent::Records,
    Lent::Boxes,
    Lent::Leaves,
    Lent::Answers,
];

/// A call of Row: the row's number, and the cutoff that the call brings.
#[derive(Clone, Copy, Debug)]
pub struct RowCall {
    pub i: usize,
    pub cutoff: f32,
}

impl From<usize> for RowCall {
    fn from(i: usize) -> RowCall {
        RowCall { i, cutoff: CUTOFF }
    }
}

#[derive(Clone, Debug, Default)]
pub struct Case {
    pub shape: String,
    pub cell: [f32; 6],
    pub solutes: Vec<f32>,
    pub per: usize,
    pub indices: Vec<u32>,
    pub waters: Vec<f32>,
    /// A copy, an atom or a water was moved by a whole number of extents.
    pub unwrapped: bool,
    /// Starts and picks for Row and the calls after it, in place of Select's.
    pub lists: Option<(Vec<u32>, Vec<u32>)>,
    /// Open's copies, in place of the pick lists'.
    pub open: Option<usize>,
    /// The cutoffs of the Open calls, made in this order on one table.
    pub opens: Vec<f32>,
    /// The cluster table before the first row, in place of the opened one.
    pub table: Option<Vec<u32>>,
    /// The rows called, in this order.
    pub rows: Vec<RowCall>,
    /// Pairs of copies whose touch is asked for by a Row on the two alone, at a cutoff that is not refused.
    pub pairs: Vec<(usize, usize, f32)>,
    /// The cutoffs of the whole-frame calls, each in tables of its own.
    pub frames: Vec<f32>,
    /// Words of each lent table beyond what a full answer needs; below 0, too few.
    pub slack: [i32; 10],
    /// What the tables hold before a call.
    pub fill: u64,
    /// Only Open, Row and Close are called.
    pub clusters_only: bool,
    /// Tree and Report are called only as parts of the whole frame, whose tables have all of theirs.
    pub trees_in_frame: bool,
}

impl Case {
    pub fn lent(&self, which: Lent, need: usize) -> usize {
        (need as i64 + self.slack[which as usize] as i64).max(0) as usize
    }

    /// A table of this length as it stands before the call: zeros, ones, counted, or mixed words.
    pub fn filled(&self, which: Lent, len: usize) -> Vec<u32> {
        let seed = mix(self.fill ^ ((which as u64) << 56));
        match self.fill {
            0 => vec![0; len],
            1 => vec![u32::MAX; len],
            2 => (0..len as u32).collect(),
            _ => (0..len as u64).map(|i| mix(seed.wrapping_add(i)) as u32).collect(),
        }
    }

    pub fn atoms(&self) -> usize {
        self.solutes.len() / 3
    }

    /// Every cutoff that a call brings.
    pub fn cutoffs(&mut self) -> impl Iterator<Item = &mut f32> {
        let rows = self.rows.iter_mut().map(|r| &mut r.cutoff);
        let pairs = self.pairs.iter_mut().map(|p| &mut p.2);
        self.opens.iter_mut().chain(rows).chain(pairs).chain(&mut self.frames)
    }

    /// One cutoff in the place of another in every call, and as the third word of a given table.
    pub fn exchange_cutoff(&mut self, bits: u32, new: f32) {
        self.cutoffs().filter(|k| k.to_bits() == bits).for_each(|k| *k = new);
        if let Some(word) = self.table.as_mut().and_then(|t| t.get_mut(2)).filter(|w| **w == bits) {
            *word = new.to_bits();
        }
    }

    fn floats(name: &str, list: &[f32], out: &mut String) {
        use std::fmt::Write;
        writeln!(out, "{name}: {} numbers", list.len()).unwrap();
        for point in list.chunks(3) {
            let shown: Vec<String> = point.iter().map(|x| format!("{x:?}")).collect();
            let bits: Vec<String> = point.iter().map(|x| format!("{:08X}", x.to_bits())).collect();
            writeln!(out, "  {}   [{}]", shown.join(" "), bits.join(" ")).unwrap();
        }
    }

    fn shown(x: f32) -> String {
        format!("{x:?} [{:08X}]", x.to_bits())
    }

    fn calls(name: &str, cutoffs: &[f32], out: &mut String) {
        use std::fmt::Write;
        let each: Vec<String> = cutoffs.iter().map(|&k| Self::shown(k)).collect();
        if !each.is_empty() {
            writeln!(out, "{name} called at: {}", each.join(", ")).unwrap();
        }
    }

    fn shown_rows(&self, out: &mut String) {
        use std::fmt::Write;
        // Stretches of one cutoff.
        for calls in self.rows.chunk_by(|a, b| a.cutoff.to_bits() == b.cutoff.to_bits()) {
            let numbers: Vec<usize> = calls.iter().map(|r| r.i).collect();
            writeln!(out, "rows called at {}: {numbers:?}", Self::shown(calls[0].cutoff)).unwrap();
        }
    }

    /// The whole case in words.
    pub fn describe(&self) -> String {
        use std::fmt::Write;
        let mut out = String::new();
        writeln!(out, "shape: {}", self.shape).unwrap();
        Self::floats("cell, low then high", &self.cell, &mut out);
        writeln!(out, "atoms per copy: {}", self.per).unwrap();
        writeln!(out, "indices: {:?}", self.indices).unwrap();
        Self::floats("solutes", &self.solutes, &mut out);
        Self::floats("waters", &self.waters, &mut out);
        match &self.lists {
            Some((starts, picks)) => writeln!(out, "starts: {starts:?}\npicks: {picks:?}").unwrap(),
            None => writeln!(out, "pick lists: those of Select").unwrap(),
        }
        if let Some(n) = self.open {
            writeln!(out, "copies given to Open: {n}").unwrap();
        }
        Self::calls("Open", &self.opens, &mut out);
        if let Some(table) = &self.table {
            writeln!(out, "cluster table before the first row: {table:?}").unwrap();
        }
        self.shown_rows(&mut out);
        for &(a, b, cutoff) in &self.pairs {
            writeln!(out, "pair touched at {}: {a}, {b}", Self::shown(cutoff)).unwrap();
        }
        Self::calls("whole frame", &self.frames, &mut out);
        for which in LENT {
            let slack = self.slack[which as usize];
            if slack != 0 {
                writeln!(out, "table {which:?}: {slack:+} words beside what the answer needs").unwrap();
            }
        }
        let fill = match self.fill {
            0 => "zeros".to_string(),
            1 => "ones".to_string(),
            2 => "0, 1, 2, ..".to_string(),
            other => format!("words mixed from {other}"),
        };
        writeln!(out, "tables hold before a call: {fill}").unwrap();
        out
    }
}

//! One frame in a box of water, ready for each call on either side: the original's functions, and the library's calls over tables of
//! the lengths that they need. Used by `bench` and `counts`.

use crate::library::{self, FrameTables, Lists, Table, TreeTables};
use crate::rng::Rng;
use dynamics::SimBox;
use lin_alg::f32::Vec3;
use original::properties::opened::access as rust;
use reading::{CUTOFF, HEAD};
use std::hint::black_box;

/// Waters, and the side in angstrom of a cube that so many fill at the density of water.
pub const WATERS: [(usize, f32); 2] = [(5_000, 53.0), (65_536, 125.0)];

/// So many extents from the cell a coordinate is still within its limit.
pub const MOST_IMAGES: usize = 8_000;

/// What is run on a side, and its name in the tables.
#[derive(Clone, Copy, PartialEq)]
pub enum Work {
    Select,
    /// Open, every Row and Close; the original's two nested loops.
    Scan,
    Dispersion,
    Tree,
    Report,
    Frame,
    /// The library's tests of solutes, cell and pick lists alone: Centers refuses a table with no room after them.
    Tests,
}

impl Work {
    pub fn named(name: &str) -> Option<Work> {
        use Work::*;
        [Select, Scan, Dispersion, Tree, Report, Frame, Tests].into_iter().find(|w| w.name() == name)
    }

    pub fn name(self) -> &'static str {
        match self {
            Work::Select => "select",
            Work::Scan => "scan",
            Work::Dispersion => "dispersion",
            Work::Tree => "tree",
            Work::Report => "report",
            Work::Frame => "frame",
            Work::Tests => "tests",
        }
    }
}

/// What both sides should answer alike: the first words of the answer, zeros where there are fewer. Report has none, as the original
/// goes on to a score of its own, and the tests, which the original does not make.
pub type Words = [u32; 3];

pub struct Frame {
    pub cell: [f32; 6],
    pub copies: usize,
    pub per: usize,
    pub solutes: Vec<u32>,
    pub waters: Vec<u32>,
}

impl Frame {
    /// Copies are blobs of 3 angstrom with their bases anywhere in the cell, as in a well mixed box; then each copy as one, and each
    /// water, is moved by a whole number of extents on each axis, at most `images` either way.
    pub fn new(copies: usize, per: usize, waters: usize, side: f32, images: usize, seed: u64) -> Frame {
        let mut rng = Rng::new(seed, copies as u64, (per * 100_000 + waters) as u64);
        let mut solutes = Vec::new();
        for _ in 0..copies {
            let base = [rng.float(0.0, side), rng.float(0.0, side), rng.float(0.0, side)];
            for atom in 0..per {
                let width = if atom == 0 { 0.0 } else { 3.0 };
                solutes.extend(base.map(|x| (x + rng.float(-width, width)).to_bits()));
            }
        }
        let mut waters: Vec<u32> = (0..3 * waters).map(|_| rng.float(0.0, side).to_bits()).collect();
        if images > 0 {
            // The numbers above come first, so that it is the same frame, moved.
            for molecule in solutes.chunks_mut(3 * per).chain(waters.chunks_mut(3)) {
                let cells = [(); 3].map(|_| rng.below(2 * images + 1) as f32 - images as f32);
                for (at, x) in molecule.iter_mut().enumerate() {
                    *x = (f32::from_bits(*x) + cells[at % 3] * side).to_bits();
                }
            }
        }
        Frame { cell: [0.0, 0.0, 0.0, side, side, side], copies, per, solutes, waters }
    }

    /// The same copies in the same cell, with the first water alone.
    pub fn with_one_water(&self) -> Frame {
        let (solutes, waters) = (self.solutes.clone(), self.waters[..3].to_vec());
        Frame { solutes, waters, ..*self }
    }
}

fn points(bits: &[u32]) -> Vec<Vec3> {
    let x = |b: u32| f32::from_bits(b);
    bits.chunks_exact(3).map(|p| Vec3::new(x(p[0]), x(p[1]), x(p[2]))).collect()
}

pub struct Original {
    cell: SimBox,
    per: usize,
    atoms: Vec<Vec3>,
    waters: Vec<Vec3>,
    mols: Vec<Vec<Vec3>>,
}

impl Original {
    pub fn new(f: &Frame) -> Original {
        let atoms = points(&f.solutes);
        let mols = rust::selected(&atoms, f.per, &[]);
        Original { cell: reading::simbox(f.cell), per: f.per, atoms, waters: points(&f.waters), mols }
    }

    pub fn run(&self, work: Work) -> Words {
        let mols = black_box(&self.mols);
        match work {
            Work::Select => [black_box(rust::selected(black_box(&self.atoms), self.per, &[])).len() as u32, 0, 0],
            Work::Scan => rust::fractions(mols, &self.cell).map(f32::to_bits),
            Work::Dispersion => [rust::dispersion(mols, &self.cell).to_bits(), 0, 0],
            Work::Tree => [black_box(rust::Tree::new(mols, &self.waters, &self.cell)).nodes() as u32, 0, 0],
            Work::Report => {
                black_box(rust::leaf_score(mols, &self.waters, &self.cell));
                [0; 3]
            }
            Work::Frame => self.frame(),
            Work::Tests => [0; 3],
        }
    }

    /// The original's parts that the port holds; its sum of Gaussians is left out on both sides.
    fn frame(&self) -> Words {
        let mols = rust::selected(black_box(&self.atoms), self.per, &[]);
        let finite: Vec<Vec3> = self.waters.iter().copied().filter(|&p| reading::finite(p)).collect();
        let fractions = black_box(rust::fractions(&mols, &self.cell));
        black_box(rust::dispersion(&mols, &self.cell));
        black_box(rust::leaf_score(&mols, &finite, &self.cell));
        fractions.map(f32::to_bits)
    }
}

/// The lent tables of every call, as long as the frame needs them.
struct Tables {
    starts: Table,
    picks: Table,
    clusters: Table,
    center_order: Table,
    water_order: Table,
    records: Table,
    boxes: Table,
    leaves: Table,
    answers: Table,
}

impl Tables {
    fn new(f: &Frame, nodes: usize) -> Tables {
        let zeros = |len: usize| Table::new(&vec![0; len]);
        Tables {
            starts: zeros(f.copies + 1),
            picks: zeros(f.copies * f.per),
            clusters: zeros(HEAD + 3 * f.copies),
            center_order: zeros(f.copies),
            water_order: zeros(f.waters.len() / 3),
            records: zeros(8 * nodes),
            boxes: zeros(6 * nodes),
            leaves: zeros(8 * nodes),
            answers: zeros(11),
        }
    }
}

pub struct Library<'a> {
    frame: &'a Frame,
    /// The pick lists, for the calls that take them.
    starts: Vec<u32>,
    picks: Vec<u32>,
    tables: Tables,
}

impl<'a> Library<'a> {
    pub fn new(frame: &'a Frame, original: &Original) -> Library<'a> {
        let nodes = original.run(Work::Tree)[0] as usize;
        let mut new = Library { frame, starts: Vec::new(), picks: Vec::new(), tables: Tables::new(frame, nodes) };
        new.run(Work::Select);
        (new.starts, new.picks) = (new.tables.starts.words().to_vec(), new.tables.picks.words().to_vec());
        new
    }

    pub fn run(&mut self, work: Work) -> Words {
        let Library { frame: f, starts, picks, tables: t } = self;
        let l = Lists { cell: f.cell, solutes: &f.solutes, waters: &f.waters, starts, picks };
        match work {
            Work::Select => select(f, t),
            Work::Scan => scan(&l, t),
            Work::Dispersion => {
                assert_eq!(library::dispersion(&l, &mut t.answers), 0);
                [t.answers.words()[0], 0, 0]
            }
            Work::Tree => tree(&l, t),
            Work::Report => report(&l, t),
            Work::Frame => whole(&l, f.per, t),
            Work::Tests => {
                assert_eq!(library::centers(&l, &mut Table::new(&[])), 7);
                [0; 3]
            }
        }
    }
}

fn select(f: &Frame, t: &mut Tables) -> Words {
    assert_eq!(library::select(&f.solutes, f.per, &[], &mut t.starts, &mut t.picks, &mut t.answers), 0);
    [t.answers.words()[0], 0, 0]
}

fn scan(l: &Lists, t: &mut Tables) -> Words {
    let n = l.starts.len() - 1;
    assert_eq!(library::open(&mut t.clusters, n, CUTOFF), 0);
    for i in 0..n {
        assert_eq!(library::row(l, CUTOFF, &mut t.clusters, i), 0);
    }
    assert_eq!(library::close(t.clusters.words(), &mut t.answers), 0);
    first(&t.answers.words()[..3])
}

fn tree(l: &Lists, t: &mut Tables) -> Words {
    let Tables { center_order, water_order, records, boxes, answers, .. } = t;
    let mut lent = TreeTables { center_order, water_order, records, boxes };
    assert_eq!(library::tree(l, &mut lent, answers), 0);
    [answers.words()[0], 0, 0]
}

fn report(l: &Lists, t: &mut Tables) -> Words {
    let Tables { center_order, water_order, records, boxes, leaves, answers, .. } = t;
    let mut lent = TreeTables { center_order, water_order, records, boxes };
    assert_eq!(library::report(l, &mut lent, leaves, answers), 0);
    [0; 3]
}

fn whole(l: &Lists, per: usize, t: &mut Tables) -> Words {
    let Tables { starts, picks, clusters, center_order, water_order, records, boxes, leaves, answers } = t;
    let mut lists = FrameTables { starts, picks, clusters };
    let mut lent = TreeTables { center_order, water_order, records, boxes };
    assert_eq!(library::frame(l, CUTOFF, per, &[], &mut lists, &mut lent, leaves, answers), 0);
    assert_eq!(answers.words()[0], 0, "the frame is not blank");
    first(&answers.words()[3..6])
}

fn first(words: &[u32]) -> Words {
    [words[0], words[1], words[2]]
}

//! A second reading of the rules (docs/RULES.md): every call with its refusals, tables and answers, in plain Rust.
//! Written from the paper behind them, not from the Rattle code; where the original decides (touch at 4.2, joining, centers, dispersion, tree, leaf
//! counts) the original's own functions are called. Float tables are held as bits. Assumes nothing of its input.

pub mod block;
mod clusters;
mod frame;
mod picked;
mod select;
mod spread;
mod tree;

pub use clusters::{HEAD, close, open, row};
pub use frame::{FrameInput, FrameWork, frame, frame_picks, frame_short};
pub use picked::Picked;
pub use select::{select, select_all, select_by_words};
pub use spread::{centers, dispersion};
pub use tree::{Built, TreeTables, Worked, report, score_of_leaves, tree};

use dynamics::SimBox;
use lin_alg::f32::Vec3;

pub const ATOMS: usize = 65_536;
pub const WATERS: usize = 65_536;
pub const INDICES: usize = 256;
pub const COPIES: usize = 4_096;
pub const PICKS: usize = 65_536;
pub const BOUND: f32 = 65_536.0;
pub const COORDINATE: f32 = 1_048_576.0;
/// The original's cutoff, which the program `frame` uses, and the greatest that a call accepts.
pub const CUTOFF: f32 = 4.2;
pub const GREATEST_CUTOFF: f32 = 16.0;

/// A refusal: its number alone.
pub type Answer<T> = Result<T, u32>;

pub fn simbox(cell: [f32; 6]) -> SimBox {
    SimBox::new(
        Vec3::new(cell[0], cell[1], cell[2]),
        Vec3::new(cell[3], cell[4], cell[5]),
    )
}

/// The points of a coordinate list; a trailing short one is no point.
pub fn points(list: &[f32]) -> Vec<Vec3> {
    list.chunks_exact(3).map(|c| Vec3::new(c[0], c[1], c[2])).collect()
}

pub fn finite(p: Vec3) -> bool {
    p.x.is_finite() && p.y.is_finite() && p.z.is_finite()
}

pub fn finite_waters(waters: &[f32]) -> usize {
    points(waters).into_iter().filter(|&p| finite(p)).count()
}

// The tests that several calls share, each true if it refuses.

fn uneven(list: &[f32]) -> bool {
    list.len() % 3 != 0
}

fn bound_over(cell: [f32; 6]) -> bool {
    cell.iter().any(|b| b.is_finite() && b.abs() > BOUND)
}

fn coordinate_over(list: &[f32]) -> bool {
    list.iter().any(|c| c.is_finite() && c.abs() > COORDINATE)
}

/// 16.
pub fn cutoff_refused(cutoff: f32) -> bool {
    !(cutoff.is_finite() && cutoff > 0.0 && cutoff <= GREATEST_CUTOFF)
}

fn cell_invalid(cell: [f32; 6]) -> bool {
    let e = [cell[3] - cell[0], cell[4] - cell[1], cell[5] - cell[2]];
    !e.iter().all(|e| e.is_finite() && *e > f32::EPSILON)
}

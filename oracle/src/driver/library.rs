//! The library under test, through its C interface: a slice is a pointer and a length. A lent table stands between
//! guard words, so that a write outside of it is seen.

use crate::stats::Call;

#[cfg(mock)]
extern crate mock as _;

unsafe extern "C" {
    fn baithrum_select(
        solutes: *const u32, solutes_len: usize, per: usize, indices: *const u32, indices_len: usize,
        starts: *mut u32, starts_len: usize, picks: *mut u32, picks_len: usize,
        answers: *mut u32, answers_len: usize,
    ) -> u32;
    fn baithrum_open(table: *mut u32, table_len: usize, n: usize, cutoff: f32) -> u32;
    fn baithrum_row(
        lx: f32, ly: f32, lz: f32, hx: f32, hy: f32, hz: f32, cutoff: f32, solutes: *const u32, solutes_len: usize,
        starts: *const u32, starts_len: usize, picks: *const u32, picks_len: usize,
        table: *mut u32, table_len: usize, i: usize,
    ) -> u32;
    fn baithrum_close(table: *const u32, table_len: usize, answers: *mut u32, answers_len: usize) -> u32;
    fn baithrum_centers(
        lx: f32, ly: f32, lz: f32, hx: f32, hy: f32, hz: f32, solutes: *const u32, solutes_len: usize,
        starts: *const u32, starts_len: usize, picks: *const u32, picks_len: usize,
        centers: *mut u32, centers_len: usize,
    ) -> u32;
    fn baithrum_dispersion(
        lx: f32, ly: f32, lz: f32, hx: f32, hy: f32, hz: f32, solutes: *const u32, solutes_len: usize,
        starts: *const u32, starts_len: usize, picks: *const u32, picks_len: usize,
        answers: *mut u32, answers_len: usize,
    ) -> u32;
    fn baithrum_tree(
        lx: f32, ly: f32, lz: f32, hx: f32, hy: f32, hz: f32, solutes: *const u32, solutes_len: usize,
        waters: *const u32, waters_len: usize, starts: *const u32, starts_len: usize,
        picks: *const u32, picks_len: usize, center_order: *mut u32, center_order_len: usize,
        water_order: *mut u32, water_order_len: usize, records: *mut u32, records_len: usize,
        boxes: *mut u32, boxes_len: usize, answers: *mut u32, answers_len: usize,
    ) -> u32;
    fn baithrum_report(
        lx: f32, ly: f32, lz: f32, hx: f32, hy: f32, hz: f32, solutes: *const u32, solutes_len: usize,
        waters: *const u32, waters_len: usize, starts: *const u32, starts_len: usize,
        picks: *const u32, picks_len: usize, center_order: *mut u32, center_order_len: usize,
        water_order: *mut u32, water_order_len: usize, records: *mut u32, records_len: usize,
        boxes: *mut u32, boxes_len: usize, leaves: *mut u32, leaves_len: usize,
        answers: *mut u32, answers_len: usize,
    ) -> u32;
    fn baithrum_frame(
        lx: f32, ly: f32, lz: f32, hx: f32, hy: f32, hz: f32, cutoff: f32, solutes: *const u32, solutes_len: usize,
        per: usize, indices: *const u32, indices_len: usize, waters: *const u32, waters_len: usize,
        starts: *mut u32, starts_len: usize, picks: *mut u32, picks_len: usize,
        clusters: *mut u32, clusters_len: usize, center_order: *mut u32, center_order_len: usize,
        water_order: *mut u32, water_order_len: usize, records: *mut u32, records_len: usize,
        boxes: *mut u32, boxes_len: usize, leaves: *mut u32, leaves_len: usize,
        answers: *mut u32, answers_len: usize,
    ) -> u32;
}

/// A function that the library does not have yet: the build says so, and the driver leaves its call out.
macro_rules! missing {
    ($($cfg:ident $name:ident $call:ident),*) => {
        mod missing {
            $(
                #[cfg($cfg)]
                #[unsafe(no_mangle)]
                extern "C" fn $name() -> u32 {
                    unreachable!()
                }
            )*
        }

        pub fn present(call: Call) -> bool {
            match call {
                $(Call::$call => !cfg!($cfg),)*
                Call::Touch => !cfg!(missing_row),
                Call::Original | Call::Program => true,
            }
        }
    };
}

missing!(
    missing_select baithrum_select Select,
    missing_open baithrum_open Open,
    missing_row baithrum_row Row,
    missing_close baithrum_close Close,
    missing_centers baithrum_centers Centers,
    missing_dispersion baithrum_dispersion Dispersion,
    missing_tree baithrum_tree Tree,
    missing_report baithrum_report Report,
    missing_frame baithrum_frame Frame
);

const GUARD: usize = 16;
const GUARD_WORD: u32 = 0xA5C3_5A3C;

/// A lent table of words (floats as bits) between guards.
#[derive(Clone)]
pub struct Table(Vec<u32>);

impl Table {
    pub fn new(words: &[u32]) -> Table {
        let mut all = vec![GUARD_WORD; GUARD];
        all.extend_from_slice(words);
        all.extend([GUARD_WORD; GUARD]);
        Table(all)
    }

    pub fn words(&self) -> &[u32] {
        &self.0[GUARD..self.0.len() - GUARD]
    }

    pub fn guards_hold(&self) -> bool {
        let end = self.0.len() - GUARD;
        self.0[..GUARD].iter().chain(&self.0[end..]).all(|&w| w == GUARD_WORD)
    }

    fn len(&self) -> usize {
        self.0.len() - 2 * GUARD
    }

    fn lend(&mut self) -> *mut u32 {
        // The pointer may reach the guards too, so that a write there is seen and harms nothing.
        unsafe { self.0.as_mut_ptr().add(GUARD) }
    }
}

/// Solutes, cell and pick lists as a call takes them; coordinates as bits.
pub struct Lists<'a> {
    pub cell: [f32; 6],
    pub solutes: &'a [u32],
    pub waters: &'a [u32],
    pub starts: &'a [u32],
    pub picks: &'a [u32],
}

pub struct TreeTables<'a> {
    pub center_order: &'a mut Table,
    pub water_order: &'a mut Table,
    pub records: &'a mut Table,
    pub boxes: &'a mut Table,
}

pub fn select(
    solutes: &[u32],
    per: usize,
    indices: &[u32],
    starts: &mut Table,
    picks: &mut Table,
    answers: &mut Table,
) -> u32 {
    unsafe {
        baithrum_select(
            solutes.as_ptr(), solutes.len(), per, indices.as_ptr(), indices.len(),
            starts.lend(), starts.len(), picks.lend(), picks.len(), answers.lend(), answers.len(),
        )
    }
}

pub fn open(table: &mut Table, n: usize, cutoff: f32) -> u32 {
    unsafe { baithrum_open(table.lend(), table.len(), n, cutoff) }
}

pub fn row(l: &Lists, cutoff: f32, table: &mut Table, i: usize) -> u32 {
    let c = l.cell;
    unsafe {
        baithrum_row(
            c[0], c[1], c[2], c[3], c[4], c[5], cutoff, l.solutes.as_ptr(), l.solutes.len(),
            l.starts.as_ptr(), l.starts.len(), l.picks.as_ptr(), l.picks.len(),
            table.lend(), table.len(), i,
        )
    }
}

pub fn close(table: &[u32], answers: &mut Table) -> u32 {
    unsafe { baithrum_close(table.as_ptr(), table.len(), answers.lend(), answers.len()) }
}

pub fn centers(l: &Lists, centers: &mut Table) -> u32 {
    let c = l.cell;
    unsafe {
        baithrum_centers(
            c[0], c[1], c[2], c[3], c[4], c[5], l.solutes.as_ptr(), l.solutes.len(),
            l.starts.as_ptr(), l.starts.len(), l.picks.as_ptr(), l.picks.len(),
            centers.lend(), centers.len(),
        )
    }
}

pub fn dispersion(l: &Lists, answers: &mut Table) -> u32 {
    let c = l.cell;
    unsafe {
        baithrum_dispersion(
            c[0], c[1], c[2], c[3], c[4], c[5], l.solutes.as_ptr(), l.solutes.len(),
            l.starts.as_ptr(), l.starts.len(), l.picks.as_ptr(), l.picks.len(),
            answers.lend(), answers.len(),
        )
    }
}

pub fn tree(l: &Lists, t: &mut TreeTables, answers: &mut Table) -> u32 {
    let c = l.cell;
    unsafe {
        baithrum_tree(
            c[0], c[1], c[2], c[3], c[4], c[5], l.solutes.as_ptr(), l.solutes.len(),
            l.waters.as_ptr(), l.waters.len(), l.starts.as_ptr(), l.starts.len(),
            l.picks.as_ptr(), l.picks.len(), t.center_order.lend(), t.center_order.len(),
            t.water_order.lend(), t.water_order.len(), t.records.lend(), t.records.len(),
            t.boxes.lend(), t.boxes.len(), answers.lend(), answers.len(),
        )
    }
}

pub fn report(l: &Lists, t: &mut TreeTables, leaves: &mut Table, answers: &mut Table) -> u32 {
    let c = l.cell;
    unsafe {
        baithrum_report(
            c[0], c[1], c[2], c[3], c[4], c[5], l.solutes.as_ptr(), l.solutes.len(),
            l.waters.as_ptr(), l.waters.len(), l.starts.as_ptr(), l.starts.len(),
            l.picks.as_ptr(), l.picks.len(), t.center_order.lend(), t.center_order.len(),
            t.water_order.lend(), t.water_order.len(), t.records.lend(), t.records.len(),
            t.boxes.lend(), t.boxes.len(), leaves.lend(), leaves.len(),
            answers.lend(), answers.len(),
        )
    }
}

/// The lent lists and cluster table of the whole frame, beside the tree's.
pub struct FrameTables<'a> {
    pub starts: &'a mut Table,
    pub picks: &'a mut Table,
    pub clusters: &'a mut Table,
}

/// `l.starts` and `l.picks` are not taken.
pub fn frame(
    l: &Lists,
    cutoff: f32,
    per: usize,
    indices: &[u32],
    f: &mut FrameTables,
    t: &mut TreeTables,
    leaves: &mut Table,
    answers: &mut Table,
) -> u32 {
    let c = l.cell;
    unsafe {
        baithrum_frame(
            c[0], c[1], c[2], c[3], c[4], c[5], cutoff, l.solutes.as_ptr(), l.solutes.len(),
            per, indices.as_ptr(), indices.len(), l.waters.as_ptr(), l.waters.len(),
            f.starts.lend(), f.starts.len(), f.picks.lend(), f.picks.len(),
            f.clusters.lend(), f.clusters.len(), t.center_order.lend(), t.center_order.len(),
            t.water_order.lend(), t.water_order.len(), t.records.lend(), t.records.len(),
            t.boxes.lend(), t.boxes.len(), leaves.lend(), leaves.len(),
            answers.lend(), answers.len(),
        )
    }
}

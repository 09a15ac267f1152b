//! Baithrum from Rust: the nine calls, the numbers and the sizes of include/baithrum.h, in its order and with its names, the constants
//! without their prefix. The header has each promise in words, and what a caller owes.
//!
//! A slice is a pointer and its length. Rust's pointer of an empty slice is dangling, but aligned and not null, which is allowed.

// A program uses what it needs.
#![allow(dead_code)]

/// The version of include/baithrum.h that this follows, 0.2.1.
pub const VERSION: u32 = 201;

// What a call results in. A number keeps its meaning in every call.
pub const DONE: u32 = 0;
pub const RAGGED: u32 = 1;
pub const LONG: u32 = 2;
pub const BOUND: u32 = 3;
pub const COORDINATE: u32 = 4;
pub const COPIES: u32 = 5;
pub const PICKS: u32 = 6;
pub const SHORT: u32 = 7;
pub const LISTS: u32 = 8;
pub const TABLE: u32 = 9;
pub const NO_ROW: u32 = 10;
pub const ROW_AGAIN: u32 = 11;
pub const ROW_LEFT: u32 = 12;
pub const NODES: u32 = 13;
pub const BLOCK: u32 = 14;
pub const CELL: u32 = 15;
pub const REACH: u32 = 16;
pub const OTHER_CUTOFF: u32 = 17;

/// The sentence for a result.
pub const fn sentence(number: u32) -> &'static str {
    match number {
        DONE => "done",
        RAGGED => "the length of a coordinate list is no multiple of three",
        LONG => "a list is over its limit: 65,536 solute atoms, 65,536 waters, 256 indices",
        BOUND => "a finite bound of the cell is over 65,536 angstrom in magnitude",
        COORDINATE => "a finite coordinate is over 1,048,576 angstrom in magnitude",
        COPIES => "there are over 4,096 copies",
        PICKS => "there are over 65,536 picks",
        SHORT => "a lent table is too short for the answer",
        LISTS => "the pick lists are unsound",
        TABLE => "the cluster table is unsound",
        NO_ROW => "the row is not below the number of copies",
        ROW_AGAIN => "the row was scanned before",
        ROW_LEFT => "some row was not scanned",
        NODES => "the tree has more nodes than the smallest node table has whole records",
        BLOCK => "the block is not one that the program `frame` reads",
        CELL => "the cell is not valid: an extent is not finite or not above 2^-23 angstrom",
        REACH => "the cutoff is not finite, not above 0 or above 16 angstrom",
        OTHER_CUTOFF => "the row's cutoff differs in bits from the table's",
        _ => "no result of this library",
    }
}

// The limits: solute atoms, and waters; indices; kept copies; picks; a finite bound of the cell and a finite coordinate, in magnitude, in
// angstrom; the cutoff, in angstrom.
pub const MAX_ATOMS: usize = 65_536;
pub const MAX_INDICES: usize = 256;
pub const MAX_COPIES: usize = 4_096;
pub const MAX_PICKS: usize = 65_536;
pub const MAX_BOUND: f32 = 65_536.0;
pub const MAX_COORDINATE: f32 = 1_048_576.0;
pub const MAX_REACH: f32 = 16.0;

/// The original's cutoff, in angstrom, which the program `frame` uses.
pub const CUTOFF: f32 = 4.2;

/// Words of starts for n copies.
pub const fn starts(n: usize) -> usize {
    n + 1
}

/// Words of the cluster table for n copies.
pub const fn cluster_words(n: usize) -> usize {
    3 + 3 * n
}

/// Floats of centers for n copies.
pub const fn center_floats(n: usize) -> usize {
    3 * n
}

/// Node records that are never refused 13, for n copies and so many waters.
pub const fn enough_records(n: usize, waters: usize) -> usize {
    8 * n + waters
}

// Entries for each node: words of its record, floats of its box, words of the leaf table (room for a leaf is asked for each node).
pub const RECORD_WORDS: usize = 8;
pub const BOX_FLOATS: usize = 6;
pub const LEAF_WORDS: usize = 8;

// How many answers each call has that has any, and where they stand. Fractions and dispersion are bits of an f32, for `f32::from_bits`.
pub const SELECT_ANSWERS: usize = 2;
pub const CLOSE_ANSWERS: usize = 3;
pub const DISPERSION_ANSWERS: usize = 1;
pub const TREE_ANSWERS: usize = 2;
pub const REPORT_ANSWERS: usize = 4;
pub const FRAME_ANSWERS: usize = 11;

pub const SELECT_COPIES: usize = 0;
pub const SELECT_PICKS: usize = 1;

pub const CLOSE_LARGEST: usize = 0;
pub const CLOSE_CONTACTED: usize = 1;
pub const CLOSE_PAIR: usize = 2;

pub const TREE_NODES: usize = 0;
pub const TREE_DEPTH: usize = 1;

pub const REPORT_NODES: usize = 0;
pub const REPORT_DEPTH: usize = 1;
pub const REPORT_LEAVES: usize = 2;
pub const REPORT_DRY: usize = 3;

pub const FRAME_BLANK: usize = 0;
pub const FRAME_COPIES: usize = 1;
pub const FRAME_PICKS: usize = 2;
pub const FRAME_LARGEST: usize = 3;
pub const FRAME_CONTACTED: usize = 4;
pub const FRAME_PAIR: usize = 5;
pub const FRAME_DISPERSION: usize = 6;
pub const FRAME_NODES: usize = 7;
pub const FRAME_DEPTH: usize = 8;
pub const FRAME_LEAVES: usize = 9;
pub const FRAME_DRY: usize = 10;

// The words of a cluster table of n copies: n, the contacts, the cutoff's bits, then n parents, n degrees and n marks.
pub const CLUSTER_COPIES: usize = 0;
pub const CLUSTER_CONTACTS: usize = 1;
pub const CLUSTER_CUTOFF: usize = 2;
pub const CLUSTER_PARENTS: usize = 3;

pub const fn cluster_degrees(n: usize) -> usize {
    3 + n
}

pub const fn cluster_marks(n: usize) -> usize {
    3 + 2 * n
}

// The words of a node record; the eighth is 0.
pub const RECORD_DEPTH: usize = 0;
pub const RECORD_FIRST_CENTER: usize = 1;
pub const RECORD_CENTERS: usize = 2;
pub const RECORD_FIRST_WATER: usize = 3;
pub const RECORD_WATERS: usize = 4;
pub const RECORD_CHILDREN: usize = 5;
pub const RECORD_AFTER: usize = 6;

// The words of a leaf; the eighth is 0. Both occupancies and the partition score are bits of an f32, a dry occupancy is 0.
pub const LEAF_NODE: usize = 0;
pub const LEAF_CENTERS: usize = 1;
pub const LEAF_WATERS: usize = 2;
pub const LEAF_BOX_OCCUPANCY: usize = 3;
pub const LEAF_SHELL_WATERS: usize = 4;
pub const LEAF_SHELL_OCCUPANCY: usize = 5;
pub const LEAF_PARTITION: usize = 6;

unsafe extern "C" {
    pub fn baithrum_select(
        solutes: *const f32, solutes_len: usize, per: usize, indices: *const u32, indices_len: usize,
        starts: *mut u32, starts_len: usize, picks: *mut u32, picks_len: usize,
        answers: *mut u32, answers_len: usize,
    ) -> u32;

    pub fn baithrum_open(table: *mut u32, table_len: usize, n: usize, cutoff: f32) -> u32;

    pub fn baithrum_row(
        lx: f32, ly: f32, lz: f32, hx: f32, hy: f32, hz: f32, cutoff: f32, solutes: *const f32, solutes_len: usize,
        starts: *const u32, starts_len: usize, picks: *const u32, picks_len: usize,
        table: *mut u32, table_len: usize, i: usize,
    ) -> u32;

    pub fn baithrum_close(table: *const u32, table_len: usize, answers: *mut u32, answers_len: usize) -> u32;

    pub fn baithrum_centers(
        lx: f32, ly: f32, lz: f32, hx: f32, hy: f32, hz: f32, solutes: *const f32, solutes_len: usize,
        starts: *const u32, starts_len: usize, picks: *const u32, picks_len: usize,
        centers: *mut f32, centers_len: usize,
    ) -> u32;

    pub fn baithrum_dispersion(
        lx: f32, ly: f32, lz: f32, hx: f32, hy: f32, hz: f32, solutes: *const f32, solutes_len: usize,
        starts: *const u32, starts_len: usize, picks: *const u32, picks_len: usize,
        answers: *mut u32, answers_len: usize,
    ) -> u32;

    pub fn baithrum_tree(
        lx: f32, ly: f32, lz: f32, hx: f32, hy: f32, hz: f32, solutes: *const f32, solutes_len: usize,
        waters: *const f32, waters_len: usize, starts: *const u32, starts_len: usize,
        picks: *const u32, picks_len: usize, center_order: *mut u32, center_order_len: usize,
        water_order: *mut u32, water_order_len: usize, records: *mut u32, records_len: usize,
        boxes: *mut f32, boxes_len: usize, answers: *mut u32, answers_len: usize,
    ) -> u32;

    pub fn baithrum_report(
        lx: f32, ly: f32, lz: f32, hx: f32, hy: f32, hz: f32, solutes: *const f32, solutes_len: usize,
        waters: *const f32, waters_len: usize, starts: *const u32, starts_len: usize,
        picks: *const u32, picks_len: usize, center_order: *mut u32, center_order_len: usize,
        water_order: *mut u32, water_order_len: usize, records: *mut u32, records_len: usize,
        boxes: *mut f32, boxes_len: usize, leaves: *mut u32, leaves_len: usize,
        answers: *mut u32, answers_len: usize,
    ) -> u32;

    pub fn baithrum_frame(
        lx: f32, ly: f32, lz: f32, hx: f32, hy: f32, hz: f32, cutoff: f32, solutes: *const f32, solutes_len: usize,
        per: usize, indices: *const u32, indices_len: usize, waters: *const f32, waters_len: usize,
        starts: *mut u32, starts_len: usize, picks: *mut u32, picks_len: usize,
        clusters: *mut u32, clusters_len: usize, center_order: *mut u32, center_order_len: usize,
        water_order: *mut u32, water_order_len: usize, records: *mut u32, records_len: usize,
        boxes: *mut f32, boxes_len: usize, leaves: *mut u32, leaves_len: usize,
        answers: *mut u32, answers_len: usize,
    ) -> u32;
}

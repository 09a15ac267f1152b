//! One block of each kind that the rules speak of (docs/RULES.md).

use crate::rng::Rng;
use reading::block::Block;
use reading::{FrameInput, Worked};

fn cube(side: f32) -> [f32; 6] {
    [0.0, 0.0, 0.0, side, side, side]
}

pub fn scattered(n: usize, side: f32, rng: &mut Rng) -> Vec<f32> {
    (0..3 * n).map(|_| rng.float(0.0, side)).collect()
}

fn plain(solutes: Vec<f32>, waters: Vec<f32>) -> Block {
    Block { per: 1, cell: cube(16.0), indices: vec![], solutes, waters }
}

/// The listed frame.
fn listed() -> Block {
    plain(vec![2.0, 2.0, 2.0, 4.0, 2.0, 2.0], vec![6.0, 6.0, 6.0])
}

fn nodes(b: &Block) -> usize {
    let input = FrameInput {
        cell: b.cell,
        cutoff: reading::CUTOFF,
        solutes: &b.solutes,
        per: b.per as usize,
        indices: &b.indices,
        waters: &b.waters,
    };
    match reading::frame_picks(&input) {
        Ok(Some((_, picked))) => Worked::new(&picked, &b.waters, false).built.nodes,
        _ => 0,
    }
}

/// A frame of just this many nodes: a water more gives at most one node more.
fn of_nodes(wanted: usize, rng: &mut Rng) -> Block {
    let mut b = plain(vec![], vec![1.0, 1.0, 1.0]);
    b.cell = cube(4_000.0);
    while nodes(&b) + 40 < wanted {
        let p = [rng.float(0.0, 4_000.0), rng.float(0.0, 4_000.0), rng.float(0.0, 4_000.0)];
        b.solutes.extend(p);
        b.solutes.extend(p.map(|x| x + rng.unit()));
    }
    while nodes(&b) < wanted {
        let near = 3 * rng.below(b.solutes.len() / 3);
        let p: Vec<f32> = b.solutes[near..near + 3].iter().map(|x| x + rng.float(-30.0, 30.0)).collect();
        let before = nodes(&b);
        b.waters.extend(p);
        if nodes(&b) == before {
            b.waters.truncate(b.waters.len() - 3);
        }
    }
    b
}

fn words(bytes: &mut [u8], at: usize, value: u32) {
    bytes[at..at + 4].copy_from_slice(&value.to_le_bytes());
}

/// The kinds by name, in the order of their numbers.
pub fn special(number: usize, rng: &mut Rng) -> Option<(&'static str, Vec<u8>)> {
    let nan = f32::NAN;
    let mut b = listed();
    let sound = |name: &'static str, b: Block| Some((name, b.write()));
    let mut raw = listed().write();
    let damaged = |name: &'static str, raw: Vec<u8>| Some((name, raw));
    match number {
        0 => sound("listed frame", b),
        1 => {
            b.per = 0;
            sound("zero per copy", b)
        }
        2 => {
            b.cell = cube(f32::EPSILON);
            sound("extents of EPSILON", b)
        }
        3 => {
            b.cell = cube(1.5 * f32::EPSILON);
            sound("extents of 1.5 EPSILON", b)
        }
        4 => sound("no solutes", plain(vec![], b.waters)),
        5 => sound("no waters", plain(b.solutes, vec![])),
        6 => sound("no finite water", plain(b.solutes, vec![nan, 0.0, 0.0, 0.0, f32::INFINITY, 1.0])),
        7 => sound("no finite atom", plain(vec![nan, 0.0, 0.0, 1.0, 1.0, f32::NEG_INFINITY], b.waters)),
        8 => {
            b.cell[4] = nan;
            sound("a bound is NaN", b)
        }
        9 => {
            b.cell = [16.0, 0.0, 0.0, 0.0, 16.0, 16.0];
            sound("a cell turned round", b)
        }
        10 => {
            b.per = 3;
            b.solutes = scattered(5, 16.0, rng);
            sound("three per copy, five atoms", b)
        }
        11 => {
            b.per = 3;
            b.indices = vec![0, 0];
            b.solutes = scattered(6, 16.0, rng);
            sound("indices 0, 0", b)
        }
        12 => {
            b.per = 3;
            b.indices = vec![9];
            b.solutes = scattered(6, 16.0, rng);
            sound("index 9 alone", b)
        }
        13..=14 => {
            b.solutes = scattered(number - 5, 16.0, rng);
            sound("8 or 9 copies", b)
        }
        15 => {
            b.solutes = vec![nan, 2.0, 2.0, 4.0, 2.0, 2.0, 1.0, nan, 1.0, 14.0, 2.0, 2.0];
            b.per = 2;
            b.indices = vec![0];
            sound("picks fall back on the finite atoms", b)
        }
        16 => {
            b.indices = vec![0; 257];
            sound("257 indices", b)
        }
        17 => {
            b.indices = vec![0; 256];
            sound("256 indices", b)
        }
        18 => {
            b.cell[3] = 65_536.0_f32.next_up();
            sound("a bound over its limit", b)
        }
        19 => {
            b.cell[1] = -65_537.0;
            b.cell[2] = nan;
            sound("a bound over its limit beside a NaN", b)
        }
        20 => {
            b.solutes[3] = 1_048_576.0_f32.next_up();
            sound("a coordinate over its limit", b)
        }
        21 => {
            b.solutes[1] = -1e30;
            b.solutes[2] = nan;
            sound("a coordinate over its limit in an atom that is not finite", b)
        }
        22 => {
            b.waters[0] = 2e6;
            b.per = 0;
            sound("a water over its limit in a frame without copies", b)
        }
        23 => {
            b.cell[0] = 70_000.0;
            b.solutes[0] = 2e6;
            b.indices = vec![1; 257];
            sound("2 before 3 before 4", b)
        }
        24 => {
            b.solutes = scattered(4_097, 16.0, rng);
            sound("4,097 copies", b)
        }
        25 => {
            b.solutes = scattered(4_097, 16.0, rng);
            b.waters = vec![nan, 0.0, 0.0];
            sound("4,097 copies and no finite water", b)
        }
        26 => {
            b.solutes = [3.0, 3.0, 3.0].repeat(4_096);
            sound("4,096 copies in one place", b)
        }
        27 => {
            b.solutes = scattered(4_096, 16.0, rng);
            sound("4,096 copies apart", b)
        }
        28 => {
            b.solutes = scattered(257, 16.0, rng);
            b.indices = vec![0; 256];
            sound("65,792 picks", b)
        }
        29 => {
            b.solutes = scattered(256, 16.0, rng);
            b.indices = vec![0; 256];
            sound("65,536 picks", b)
        }
        30 => {
            b.solutes = scattered(65, 16.0, rng);
            b.indices = vec![0; 256];
            sound("16,640 picks", b)
        }
        31 => {
            b.solutes = scattered(64, 16.0, rng);
            b.indices = vec![0; 256];
            sound("16,384 picks", b)
        }
        32 => sound("2,048 nodes", of_nodes(2_048, rng)),
        33 => sound("2,049 nodes", of_nodes(2_049, rng)),
        34 => {
            // As long as a sound block can be.
            b.solutes = [3.0, 3.0, 3.0].repeat(96);
            b.waters = scattered(4_900, 16.0, rng);
            sound("59,998 bytes", b)
        }
        35 => {
            b.solutes = [3.0, 3.0, 3.0].repeat(96);
            b.waters = scattered(4_900, 16.0, rng);
            b.indices = vec![0];
            sound("60,002 bytes", b)
        }
        36 => damaged("nothing", vec![]),
        37 => damaged("three bytes", vec![42, 0, 0]),
        38 => damaged("a length word alone", vec![0, 0, 0, 0]),
        39 => {
            raw.truncate(45);
            damaged("a header cut off", raw)
        }
        40 => {
            raw.pop();
            damaged("a byte too few", raw)
        }
        41 => {
            raw.push(0);
            damaged("a byte too many", raw)
        }
        42..=43 => {
            words(&mut raw, 0, if number == 42 { 77 } else { 79 });
            damaged("a length off by one", raw)
        }
        44..=47 => {
            raw[4..6].copy_from_slice(&[[0, 0], [2, 0], [1, 1], [0, 1]][number - 44]);
            damaged("another kind", raw)
        }
        48 => {
            // 12 x 2^30 is 0 in 32 bits.
            words(&mut raw, 10, 2 + (1 << 30));
            damaged("solutes that come round", raw)
        }
        49 => {
            words(&mut raw, 14, 1 << 30);
            damaged("indices that come round", raw)
        }
        50 => {
            words(&mut raw, 18, 1 + (1 << 30));
            damaged("waters that come round", raw)
        }
        51 => {
            words(&mut raw, 10, 1 << 31);
            words(&mut raw, 18, (1 << 31) + 3);
            damaged("solutes and waters that come round", raw)
        }
        52 => {
            words(&mut raw, 10, 1);
            words(&mut raw, 18, 1);
            damaged("an atom less than the length says", raw)
        }
        53 => {
            // The sum is right, the atoms are only shared out otherwise.
            words(&mut raw, 10, 1);
            words(&mut raw, 18, 2);
            damaged("one solute and two waters", raw)
        }
        54 => {
            words(&mut raw, 14, 3);
            words(&mut raw, 18, 0);
            damaged("a water read as three indices", raw)
        }
        55 => {
            words(&mut raw, 0, u32::MAX);
            damaged("the longest length", raw)
        }
        56 => {
            b.solutes = [3.0, 3.0, 3.0].repeat(4_995);
            let mut raw = b.write();
            raw.extend([0, 0, 0]);
            damaged("more than 60,000 bytes that end wrong", raw)
        }
        57 => {
            b.solutes = vec![1_048_576.0, -1_048_576.0, 0.0, -0.0, 1e-45, -1e-45];
            b.waters = vec![-1_048_576.0, 1_048_576.0, -9.094947e-13, 1_000_000.0, 3.0, -0.0];
            sound("coordinates at their limits", b)
        }
        58 => {
            b.cell = [-65_536.0, -65_536.0, -65_536.0, 65_536.0, 65_536.0, 65_536.0];
            sound("bounds at their limits", b)
        }
        59 => {
            // 10 wraps to 0, -2^-40 to 10, and the tree's second wrap takes a center there to 0.
            b.cell = cube(10.0);
            b.solutes = vec![-9.094947e-13, 10.0, 5.0, 5.0, -5.0, 10.0];
            b.waters = vec![-9.094947e-13, 10.0, 5.0, 10.0, 10.0, 10.0];
            sound("wrapping at the faces", b)
        }
        60 => {
            b.solutes = (0..200).flat_map(|i| [4.0 * i as f32, 1.0, 1.0]).collect();
            b.cell = [0.0, 0.0, 0.0, 2_000.0, 9.0, 9.0];
            b.waters = scattered(60, 9.0, rng);
            sound("a line of 200 copies", b)
        }
        _ => None,
    }
}

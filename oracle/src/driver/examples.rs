//! The checked frames of docs/RULES.md, and some cutoffs, tried on the stand-ins and the second reading before anything else is compared.

use lin_alg::f32::Vec3;
use original::properties::opened::access as rust;
use reading::block::{Block, listing};
use reading::{CUTOFF, Picked, cutoff_refused};
use std::process::exit;

const LISTED: &str = "\
clusters 2 3F800000 3F800000 3F800000
dispersion 3E800000
nodes 6 depth 3
leaf 3 1 0 dry 1 3FAAAAAB 3E000000
leaf 4 1 0 dry 1 3FAAAAAB 3E000000
dryleaves 2
";

fn cube(side: f32) -> [f32; 6] {
    [0.0, 0.0, 0.0, side, side, side]
}

fn picks(atoms: usize, per: usize, indices: &[u32]) -> (Vec<u32>, Vec<u32>) {
    let mut starts = vec![9; 10];
    let mut picks = vec![9; 10];
    let [copies, n] = reading::select(&vec![1.0; 3 * atoms], per, indices, &mut starts, &mut picks).unwrap();
    starts.truncate(copies as usize + 1);
    picks.truncate(n as usize);
    (starts, picks)
}

fn refusal(copies: usize) -> u32 {
    let mut starts = vec![0; copies + 1];
    let mut picks = vec![0; copies];
    reading::select(&vec![1.0; 3 * copies], 1, &[], &mut starts, &mut picks).err().unwrap_or(0)
}

fn two_copies(cell: [f32; 6]) -> Vec<u8> {
    let solutes = vec![2.0, 2.0, 2.0, 4.0, 2.0, 2.0];
    Block { per: 1, cell, indices: vec![], solutes, waters: vec![6.0, 6.0, 6.0] }.write()
}

/// A scan at 6 in a table of 16 words with every refusal of Open and Row that a cutoff comes before or after; each answer, then the table.
fn scan_at_six() -> (Vec<u32>, Vec<u32>) {
    let solutes = [2.0, 2.0, 2.0, 4.0, 2.0, 2.0, 8.0, 2.0, 2.0, 2.0, 8.0, 2.0];
    let picked = Picked::read(cube(16.0), &solutes, &[], &[0, 1, 2, 3, 4], &[0, 1, 2, 3]);
    let mut t = vec![9; 16];
    let open = |t: &mut [u32], n: usize, k: f32| reading::open(t, n, k).err().unwrap_or(0);
    let row = |t: &mut [u32], i: usize, k: f32| {
        reading::row(&picked, k, t, i, &mut |i, j| picked.as_ref().is_ok_and(|p| p.touch(k, i, j))).err().unwrap_or(0)
    };
    let mut answers = vec![open(&mut t, 4, 6.0)];
    for (i, k) in [
        (0, CUTOFF),
        (0, 0.0),
        (0, -6.0),
        (4, f32::NAN),
        (0, f32::INFINITY),
        (0, 16.0_f32.next_up()),
        (4, 6.0_f32.next_up()),
        (4, 6.0),
        (0, 6.0),
        (0, 6.0),
    ] {
        answers.push(row(&mut t, i, k));
    }
    answers.push(reading::close(&t).err().unwrap_or(0));
    answers.extend([open(&mut t, 4_097, 0.0), open(&mut t, 5, 0.0), open(&mut t, 5, 6.0)]);
    answers.extend([1, 2, 3].map(|i| row(&mut t, i, 6.0)));
    (answers, t)
}

pub fn hold() {
    let ten = reading::simbox(cube(10.0));
    let wrapped = |x: f32| ten.wrap(Vec3::splat(x)).x;
    let image = |x: f32| ten.min_image(Vec3::splat(x)).x;
    let eps = f32::EPSILON;
    let cutoff = |x: f32| rust::touch(&[Vec3::new_zero()], &[Vec3::new(x, 0.0, 0.0)], &reading::simbox(cube(16.0)));
    let none_per_copy = {
        let mut bytes = two_copies(cube(16.0));
        bytes[6] = 0;
        listing(&bytes)
    };
    let accepted = |bits: u32| !cutoff_refused(f32::from_bits(bits));
    let answered = vec![0, 17, 16, 16, 16, 16, 16, 17, 10, 0, 11, 12, 5, 16, 7, 0, 0, 0];
    let scanned = vec![4, 4, 0x40C0_0000, 0, 0, 0, 0, 3, 2, 2, 1, 1, 1, 1, 1, 9];
    let examples = [
        ("-2^-40 wraps to 10", wrapped(-(2.0_f32.powi(-40))) == 10.0),
        ("10 wraps to 0", wrapped(10.0) == 0.0),
        ("the minimum image of 5 is -5", image(5.0) == -5.0),
        ("the minimum image of -5 is 5", image(-5.0) == 5.0),
        ("the minimum image of 4 is 4", image(4.0) == 4.0),
        ("extents of 2^-23 are blank", listing(&two_copies(cube(eps))) == "blank\n"),
        ("extents of 1.5 x 2^-23 have dispersion 0", listing(&two_copies(cube(1.5 * eps))).contains("dispersion 00000000\n")),
        ("three per copy, five atoms: one copy", picks(5, 3, &[]) == (vec![0, 3], vec![0, 1, 2])),
        ("zero per copy is blank", none_per_copy == "blank\n"),
        ("indices 0, 0 pick atom 0 twice", picks(3, 3, &[0, 0]) == (vec![0, 2], vec![0, 0])),
        ("index 9 alone picks all three", picks(3, 3, &[9]) == (vec![0, 3], vec![0, 1, 2])),
        ("8 copies: over 8", rust::reference_volume(512.0, 8) == 64.0),
        ("9 copies: over 64", rust::reference_volume(512.0, 9) == 8.0),
        ("the root of 2", 2.0_f32.sqrt().to_bits() == 0x3FB5_04F3),
        ("partition 8 of 512, one center", rust::partition(8.0, 512.0, 1) == 0.125),
        ("4.2 touches and the next number does not", cutoff(4.2) && !cutoff(4.2_f32.next_up())),
        ("4.2 is 40866666", CUTOFF.to_bits() == 0x4086_6666),
        ("the least cutoff is the least subnormal", accepted(1) && !accepted(0) && !accepted(0x8000_0001)),
        ("the greatest cutoff is 16", accepted(0x4180_0000) && !accepted(0x4180_0001)),
        ("a scan at 6", scan_at_six() == (answered, scanned)),
        ("4,096 copies are accepted", refusal(4_096) == 0),
        ("4,097 copies are refused", refusal(4_097) == 5),
        ("the listed frame", listing(&two_copies(cube(16.0))) == LISTED),
    ];
    for (name, holds) in examples {
        if !holds {
            println!("DIFFERENCE: a checked frame does not hold of the second reading: {name}");
            exit(1);
        }
    }
    println!("checked frames: {} hold of the second reading", examples.len());
}

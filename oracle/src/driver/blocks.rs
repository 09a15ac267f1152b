//! Input bytes for the program `frame`: first one of each kind that the rules speak of, then random ones.

mod special;

use crate::case::Case;
use crate::frames;
use crate::rng::Rng;
use reading::CUTOFF;
use reading::block::{BLOCK, Block, HEADER};
use special::scattered;

pub use special::special;

/// A case as a block, if it can be one.
fn of_case(c: &Case) -> Option<Block> {
    let even = c.solutes.len() % 3 == 0 && c.waters.len() % 3 == 0;
    let length = 4 + HEADER + 4 * (c.indices.len() + c.solutes.len() + c.waters.len());
    (even && c.per <= u32::MAX as usize && length <= BLOCK).then(|| Block {
        per: c.per as u32,
        cell: c.cell,
        indices: c.indices.clone(),
        solutes: c.solutes.clone(),
        waters: c.waters.clone(),
    })
}

/// A random or degenerate frame of at most `most` bytes.
pub fn random(rng: &mut Rng, most: usize) -> Vec<u8> {
    loop {
        let case = if rng.one_in(3) { frames::degenerate(CUTOFF, rng) } else { frames::random(CUTOFF, rng) };
        if let Some(bytes) = of_case(&case).map(|b| b.write()).filter(|b| b.len() <= most) {
            return bytes;
        }
    }
}

/// A sound block of a frame that is refused: 2, 3, 4, 6 or 7, or two of them at once.
pub fn refused(rng: &mut Rng) -> Vec<u8> {
    let mut b = Block::read(&random(rng, 900)).unwrap();
    for _ in 0..rng.between(1, 2) {
        match rng.below(4) {
            0 => b.indices = (0..rng.between(257, 300) as u32).collect(),
            1 => b.cell[rng.below(6)] = rng.pick(&[65_536.0_f32.next_up(), -65_537.0, 1e9, f32::MIN]),
            2 => {
                let list = if rng.one_in(2) { &mut b.solutes } else { &mut b.waters };
                list.extend([0.0; 3]);
                let at = rng.below(list.len());
                list[at] = rng.pick(&[1_048_576.0_f32.next_up(), -1_048_577.0, f32::MAX]);
            }
            _ => {
                b.per = 1;
                b.solutes = scattered(rng.between(65, 300), 16.0, rng);
                b.indices = vec![0; 256];
            }
        }
    }
    b.write()
}

/// A sound block with some bytes changed, most of them in its header.
pub fn spoiled(rng: &mut Rng) -> Vec<u8> {
    let mut bytes = random(rng, 600);
    for _ in 0..rng.between(1, 3) {
        let at = if rng.one_in(3) { rng.below(bytes.len()) } else { rng.below(22) };
        bytes[at] = rng.next() as u8;
    }
    match rng.below(4) {
        0 => bytes.truncate(rng.below(bytes.len())),
        1 => bytes.extend([1, 2, 3, 4]),
        _ => {}
    }
    bytes
}

//! The program `frame`, read from the rules: its block and its listing.

use super::{CUTOFF, FrameInput, FrameWork, HEAD, Picked, TreeTables, finite_waters, frame, frame_picks, frame_short};
use std::fmt::Write;

/// With its length word.
pub const BLOCK: usize = 60_000;
pub const HEADER: usize = 42;
pub const PICKS_LENT: usize = 16_384;
pub const RECORDS_LENT: usize = 2_048;

/// What a block says, floats as they stand in it.
#[derive(Clone, Default, Debug)]
pub struct Block {
    pub per: u32,
    pub cell: [f32; 6],
    pub indices: Vec<u32>,
    pub solutes: Vec<f32>,
    pub waters: Vec<f32>,
}

impl Block {
    pub fn write(&self) -> Vec<u8> {
        let mut out = Vec::new();
        let atoms = self.solutes.len() / 3 + self.waters.len() / 3;
        let length = HEADER + 4 * self.indices.len() + 12 * atoms;
        out.extend((length as u32).to_le_bytes());
        out.extend(1u16.to_le_bytes());
        for count in [self.per as usize, self.solutes.len() / 3, self.indices.len(), self.waters.len() / 3] {
            out.extend((count as u32).to_le_bytes());
        }
        for x in &self.cell {
            out.extend(x.to_bits().to_le_bytes());
        }
        for i in &self.indices {
            out.extend(i.to_le_bytes());
        }
        for x in self.solutes.iter().chain(&self.waters) {
            out.extend(x.to_bits().to_le_bytes());
        }
        out
    }

    /// None where the program answers 14.
    pub fn read(bytes: &[u8]) -> Option<Block> {
        if bytes.len() > BLOCK || bytes.len() < 4 + HEADER {
            return None;
        }
        let word = |at: usize| u32::from_le_bytes(bytes[at..at + 4].try_into().unwrap());
        let length = word(0) as u128;
        let kind = u16::from_le_bytes(bytes[4..6].try_into().unwrap());
        let (per, s, k, w) = (word(6), word(10), word(14), word(18));
        let needed = HEADER as u128 + 4 * k as u128 + 12 * (s as u128 + w as u128);
        if kind != 1 || length != needed || bytes.len() as u128 != 4 + length {
            return None;
        }
        let mut cell = [0.0; 6];
        for (axis, x) in cell.iter_mut().enumerate() {
            *x = f32::from_bits(word(22 + 4 * axis));
        }
        let words: Vec<u32> = (46..bytes.len()).step_by(4).map(word).collect();
        let (k, s) = (k as usize, 3 * s as usize);
        let floats = |part: &[u32]| part.iter().map(|&b| f32::from_bits(b)).collect();
        Some(Block {
            per,
            cell,
            indices: words[..k].to_vec(),
            solutes: floats(&words[k..k + s]),
            waters: floats(&words[k + s..]),
        })
    }
}

/// What the program prints for these input bytes.
pub fn listing(bytes: &[u8]) -> String {
    let Some(block) = Block::read(bytes) else {
        return "refused 14\n".to_string();
    };
    let input = FrameInput {
        cell: block.cell,
        cutoff: CUTOFF,
        solutes: &block.solutes,
        per: block.per as usize,
        indices: &block.indices,
        waters: &block.waters,
    };
    let atoms = BLOCK / 12;
    let mut starts = vec![0; atoms + 1];
    let mut picks = vec![0; PICKS_LENT];
    let mut clusters = vec![0; HEAD + 3 * atoms];
    let (mut center_order, mut water_order) = (vec![0; atoms], vec![0; atoms]);
    let mut records = vec![0; 8 * RECORDS_LENT];
    let mut boxes = vec![0; 6 * RECORDS_LENT];
    let mut leaves = vec![0; 8 * RECORDS_LENT];
    let lengths = [starts.len(), picks.len(), clusters.len(), atoms, atoms];
    let work = match frame_picks(&input) {
        Err(number) => Err(number),
        Ok(None) => Ok(None),
        // Before the work, which can be long for so many picks.
        Ok(Some((kept, _))) if frame_short(&kept, finite_waters(input.waters), lengths) => Err(7),
        Ok(Some((kept, picked))) => {
            let mut touch = |p: &Picked, i: usize, j: usize| p.touch(CUTOFF, i, j);
            Ok(Some(FrameWork::new(kept, picked, CUTOFF, input.waters, &mut touch)))
        }
    };
    let mut tables = TreeTables {
        center_order: &mut center_order,
        water_order: &mut water_order,
        records: &mut records,
        boxes: &mut boxes,
        leaves: Some(&mut leaves),
    };
    let a = match frame(&work, &mut starts, &mut picks, &mut clusters, &mut tables) {
        Err(number) => return format!("refused {number}\n"),
        Ok(a) if a[0] == 1 => return "blank\n".to_string(),
        Ok(a) => a,
    };
    let mut text = String::new();
    writeln!(text, "clusters {} {:08X} {:08X} {:08X}", a[1], a[3], a[4], a[5]).unwrap();
    writeln!(text, "dispersion {:08X}", a[6]).unwrap();
    writeln!(text, "nodes {} depth {}", a[7], a[8]).unwrap();
    for leaf in leaves.chunks_exact(8).take(a[9] as usize) {
        writeln!(
            text,
            "leaf {} {} {} {} {} {} {:08X}",
            leaf[0],
            leaf[1],
            leaf[2],
            ratio(leaf[3]),
            leaf[4],
            ratio(leaf[5]),
            leaf[6]
        )
        .unwrap();
    }
    writeln!(text, "dryleaves {}", a[10]).unwrap();
    text
}

fn ratio(bits: u32) -> String {
    if bits == 0 { "dry".to_string() } else { format!("{bits:08X}") }
}

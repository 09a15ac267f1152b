//! Reads a block from standard input (docs/RULES.md, 'Program `frame`'), judges it by one call and prints the answers, `blank`, or the refusal.
//! The cutoff, in angstrom, is its argument, or 4.2 where it has none. Built by examples/rust/build.

mod baithrum;

use baithrum::*;
use std::io::Read;
use std::process::ExitCode;

const BLOCK_BYTES: usize = 60_000;
const HEAD: usize = 46;

/// Node records lent at first. A 13 doubles them.
const FIRST_RECORDS: usize = 64;

struct Frame {
    cell: [f32; 6],
    per: usize,
    indices: Vec<u32>,
    solutes: Vec<f32>,
    waters: Vec<f32>,
}

/// What the whole frame writes beside its answers.
struct Tables {
    starts: Vec<u32>,
    picks: Vec<u32>,
    clusters: Vec<u32>,
    center_order: Vec<u32>,
    water_order: Vec<u32>,
    records: Vec<u32>,
    boxes: Vec<f32>,
    leaves: Vec<u32>,
}

impl Tables {
    /// Enough for every frame with so many waters, but for its nodes.
    fn new(waters: usize, records: usize) -> Tables {
        let mut tables = Tables {
            starts: vec![0; starts(MAX_COPIES)],
            picks: vec![0; MAX_PICKS],
            clusters: vec![0; cluster_words(MAX_COPIES)],
            center_order: vec![0; MAX_COPIES],
            water_order: vec![0; waters],
            records: vec![],
            boxes: vec![],
            leaves: vec![],
        };
        tables.lend_records(records);
        tables
    }

    fn lend_records(&mut self, records: usize) {
        self.records.resize(RECORD_WORDS * records, 0);
        self.boxes.resize(BOX_FLOATS * records, 0.0);
        self.leaves.resize(LEAF_WORDS * records, 0);
    }
}

/// The call over slices. It is safe: a slice is aligned, not null and good for its length, and what is borrowed for writing overlaps
/// nothing. It takes 1.29 MB of stack; a thread that Rust starts has 2 MB.
fn judge(frame: &Frame, cutoff: f32, tables: &mut Tables, answers: &mut [u32]) -> u32 {
    let [lx, ly, lz, hx, hy, hz] = frame.cell;
    let (f, t) = (frame, tables);
    unsafe {
        baithrum_frame(
            lx, ly, lz, hx, hy, hz, cutoff, f.solutes.as_ptr(), f.solutes.len(),
            f.per, f.indices.as_ptr(), f.indices.len(), f.waters.as_ptr(), f.waters.len(),
            t.starts.as_mut_ptr(), t.starts.len(), t.picks.as_mut_ptr(), t.picks.len(),
            t.clusters.as_mut_ptr(), t.clusters.len(), t.center_order.as_mut_ptr(), t.center_order.len(),
            t.water_order.as_mut_ptr(), t.water_order.len(), t.records.as_mut_ptr(), t.records.len(),
            t.boxes.as_mut_ptr(), t.boxes.len(), t.leaves.as_mut_ptr(), t.leaves.len(),
            answers.as_mut_ptr(), answers.len(),
        )
    }
}

fn words(bytes: &[u8]) -> Vec<u32> {
    bytes.chunks_exact(4).map(|b| u32::from_le_bytes([b[0], b[1], b[2], b[3]])).collect()
}

fn floats(bytes: &[u8]) -> Vec<f32> {
    words(bytes).into_iter().map(f32::from_bits).collect()
}

/// A block as a frame, if it is one.
fn read(block: &[u8]) -> Option<Frame> {
    if block.len() < HEAD || block.len() > BLOCK_BYTES || block[4..6] != [1, 0] {
        return None;
    }
    let (head, rest) = block.split_at(HEAD);
    let length = words(&head[..4])[0] as usize;
    let [per, s, k, w] = words(&head[6..22])[..] else { return None };
    // 64-bit sums, so that no count comes round to a true length
    let (s, k, w) = (s as u64, k as u64, w as u64);
    if length != block.len() - 4 || rest.len() as u64 != 4 * k + 12 * (s + w) {
        return None;
    }
    let (indices, points) = rest.split_at(4 * k as usize);
    let (solutes, waters) = points.split_at(12 * s as usize);
    Some(Frame {
        cell: floats(&head[22..]).try_into().ok()?,
        per: per as usize,
        indices: words(indices),
        solutes: floats(solutes),
        waters: floats(waters),
    })
}

fn refused(what: &str, number: u32) -> ExitCode {
    println!("{what}: refused {number}, {}", sentence(number));
    ExitCode::FAILURE
}

fn main() -> ExitCode {
    let cutoff = match std::env::args().nth(1).map(|word| word.parse()) {
        None => CUTOFF,
        Some(Ok(cutoff)) => cutoff,
        Some(Err(_)) => {
            eprintln!("usage: frame_rust [CUTOFF] < BLOCK");
            return ExitCode::FAILURE;
        }
    };
    let mut block = vec![];
    if let Err(error) = std::io::stdin().take(BLOCK_BYTES as u64 + 1).read_to_end(&mut block) {
        eprintln!("standard input: {error}");
        return ExitCode::FAILURE;
    }
    let Some(frame) = read(&block) else { return refused("block", BLOCK) };

    let mut records = FIRST_RECORDS;
    let mut tables = Tables::new(frame.waters.len() / 3, records);
    let mut answers = [0; FRAME_ANSWERS];
    let mut number = judge(&frame, cutoff, &mut tables, &mut answers);
    while number == NODES {
        records *= 2;
        tables.lend_records(records);
        number = judge(&frame, cutoff, &mut tables, &mut answers);
    }
    if number != DONE {
        return refused("frame", number);
    }
    if answers[FRAME_BLANK] == 1 {
        println!("blank");
        return ExitCode::SUCCESS;
    }
    println!("copies {}, picks {}", answers[FRAME_COPIES], answers[FRAME_PICKS]);
    for (name, at) in [
        ("largest", FRAME_LARGEST),
        ("contacted", FRAME_CONTACTED),
        ("pair", FRAME_PAIR),
        ("dispersion", FRAME_DISPERSION),
    ] {
        println!("{name} {}", f32::from_bits(answers[at]));
    }
    println!("nodes {}, depth {}", answers[FRAME_NODES], answers[FRAME_DEPTH]);
    println!("leaves {}, dry {}", answers[FRAME_LEAVES], answers[FRAME_DRY]);
    ExitCode::SUCCESS
}

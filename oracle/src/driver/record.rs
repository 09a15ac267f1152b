//! Writes recorded answers: input blocks of the program `frame` with the listings that the second reading gives, in one
//! file. u32 count; then for each block u32 length and the input bytes, u32 length and the listing. Little-endian.
//! With `--listing` in the place of a file: what `frame` should print for the block on standard input.

#![allow(dead_code, unused_imports)]

mod blocks;
mod case;
mod frames;
mod rng;

use rng::Rng;
use std::collections::BTreeMap;
use std::io::Read;
use std::process::exit;

fn main() {
    let words: Vec<String> = std::env::args().skip(1).collect();
    let number = |at: usize, other: u64| match words.get(at) {
        None => other,
        Some(w) => w.parse().unwrap_or_else(|_| {
            eprintln!("record: {w} is no number");
            exit(2)
        }),
    };
    let Some(out) = words.first().cloned() else {
        eprintln!("record: OUT [SEED [COUNT]], or --listing");
        exit(2)
    };
    if out == "--listing" {
        let mut bytes = Vec::new();
        std::io::stdin().read_to_end(&mut bytes).expect("standard input");
        print!("{}", reading::block::listing(&bytes));
        return;
    }
    let (seed, count) = (number(1, 1), number(2, 300));
    // The original's find_root recurses once for each link of a chain.
    let work = move || write(&out, seed, count);
    std::thread::Builder::new().stack_size(64 << 20).spawn(work).unwrap().join().unwrap();
}

fn write(out: &str, seed: u64, count: u64) {
    let mut file = Vec::new();
    let mut kinds: BTreeMap<String, u64> = BTreeMap::new();
    file.extend((count as u32).to_le_bytes());
    for number in 0..count {
        let mut rng = Rng::new(seed, 200, number);
        let bytes = match blocks::special(number as usize, &mut rng) {
            Some((_, bytes)) => bytes,
            None => match rng.below(30) {
                0 => blocks::random(&mut rng, 20_000),
                1..=3 => blocks::spoiled(&mut rng),
                4..=6 => blocks::refused(&mut rng),
                _ => blocks::random(&mut rng, 1_200),
            },
        };
        let text = reading::block::listing(&bytes);
        let first = text.split(' ').next().unwrap_or("");
        let kind = if first == "refused" { text.trim().to_string() } else { first.trim().to_string() };
        *kinds.entry(kind).or_default() += 1;
        file.extend((bytes.len() as u32).to_le_bytes());
        file.extend(&bytes);
        file.extend((text.len() as u32).to_le_bytes());
        file.extend(text.as_bytes());
    }
    println!("{count} blocks, {} bytes, seed {seed}:", file.len());
    for (kind, n) in &kinds {
        println!("  {kind:<12} {n}");
    }
    for needed in [2, 3, 4, 5, 6, 7, 13, 14].map(|n| format!("refused {n}")).iter().chain([&"blank".to_string()]) {
        if !kinds.contains_key(needed) {
            eprintln!("record: no block is '{needed}'");
            exit(1);
        }
    }
    if let Err(e) = std::fs::write(out, file) {
        eprintln!("record: {out}: {e}");
        exit(1);
    }
}

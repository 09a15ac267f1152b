//! The program `frame` itself, if its path was given: input bytes in, its listing against the second reading's.

use crate::blocks;
use crate::rng::Rng;
use crate::stats::{BLANK, Call, Stats};
use std::io::Write;
use std::process::{Command, Stdio, exit};

fn run(program: &str, bytes: &[u8]) -> String {
    let mut child = Command::new(program)
        .stdin(Stdio::piped())
        .stdout(Stdio::piped())
        .spawn()
        .unwrap_or_else(|e| {
            eprintln!("oracle: {program}: {e}");
            exit(2)
        });
    // A program that stops reading early closes the pipe; its answer counts all the same.
    let _ = child.stdin.take().unwrap().write_all(bytes);
    String::from_utf8_lossy(&child.wait_with_output().unwrap().stdout).into_owned()
}

pub fn try_block(program: &str, seed: u64, number: u64, stats: &mut Stats) {
    let mut rng = Rng::new(seed, 100, number);
    let special = blocks::special(number as usize, &mut rng).map(|(_, bytes)| bytes);
    let bytes = special.unwrap_or_else(|| match rng.below(8) {
        0 => blocks::spoiled(&mut rng),
        1 => blocks::refused(&mut rng),
        2..=3 => blocks::random(&mut rng, 60_000),
        _ => blocks::random(&mut rng, 2_000),
    });
    let expected = reading::block::listing(&bytes);
    let found = run(program, &bytes);
    let refusal = expected.strip_prefix("refused ").and_then(|n| n.trim().parse().ok());
    stats.count(Call::Program, if expected == "blank\n" { BLANK } else { refusal.unwrap_or(0) });
    if expected != found {
        println!("DIFFERENCE in the program's listing, block {number}, seed {seed}:");
        println!("expected:\n{expected}found:\n{found}input ({} bytes):", bytes.len());
        let hex: Vec<String> = bytes.iter().take(2_000).map(|b| format!("{b:02X}")).collect();
        println!("{}", hex.join(" "));
        exit(1);
    }
}

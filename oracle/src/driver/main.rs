//! The driver: `oracle check` compares the library with the original, `oracle bench` times the two side by side,
//! `oracle counts CALL COPIES WATERS SIDE` makes one call for a count of its instructions.
//! It is run by the scripts `run`, `bench`, `counts` and `selftest`, which build it.

mod bench;
mod blocks;
mod case;
mod check;
mod counts;
mod examples;
mod frames;
mod library;
mod program;
mod reduce;
mod rng;
mod sides;
mod signals;
mod stats;

use stats::Stats;
use std::process::exit;
use std::time::{Duration, Instant};

/// The groups that have as many cases as there is time for.
const OPEN: [&str; 4] = ["random", "damaged", "degenerate", "small"];

struct Options {
    seed: u64,
    seconds: u64,
    groups: Vec<String>,
    case: Option<u64>,
    program: Option<String>,
    dump: String,
    reduce_seconds: u64,
    dearest: u64,
    runs: usize,
    most_picks: usize,
    images: usize,
    sizes: Vec<(usize, usize)>,
    calls: Vec<sides::Work>,
}

fn usage(what: &str) -> ! {
    eprintln!("oracle: {what}");
    eprintln!("see oracle/README.md for the options");
    exit(2)
}

fn list<T>(value: &str, read: fn(&str) -> Option<T>, wants: &str) -> Vec<T> {
    value.split(',').map(|word| read(word).unwrap_or_else(|| usage(wants))).collect()
}

fn options(words: &[String]) -> Options {
    let mut o = Options {
        seed: 1,
        seconds: 60,
        groups: frames::GROUPS.iter().map(|g| g.to_string()).collect(),
        case: None,
        program: None,
        dump: "difference.txt".into(),
        reduce_seconds: 60,
        dearest: u64::MAX,
        runs: 5,
        most_picks: reading::PICKS,
        images: 0,
        sizes: bench::SIZES.to_vec(),
        calls: bench::CALLS.to_vec(),
    };
    let mut words = words.iter();
    while let Some(word) = words.next() {
        let value = words.next().unwrap_or_else(|| usage(&format!("{word} wants a value")));
        let number = || value.parse::<u64>().unwrap_or_else(|_| usage(&format!("{word} wants a number")));
        match word.as_str() {
            "--seed" => o.seed = number(),
            "--seconds" => o.seconds = number(),
            "--groups" => o.groups = value.split(',').map(str::to_string).collect(),
            "--case" => o.case = Some(number()),
            "--program" => o.program = Some(value.clone()),
            "--dump" => o.dump = value.clone(),
            "--reduce-seconds" => o.reduce_seconds = number(),
            "--dearest" => o.dearest = number(),
            "--runs" => o.runs = number().max(1) as usize,
            "--most-picks" => o.most_picks = number() as usize,
            "--images" => o.images = number() as usize,
            "--sizes" => o.sizes = list(value, bench::size, "--sizes wants copies x picks, as 512x16,4096x1"),
            "--calls" => o.calls = list(value, bench::call, "--calls wants some of select,scan,dispersion,tree,report,frame"),
            #[cfg(mock)]
            "--fault" => mock::set_fault(number() as u32),
            _ => usage(&format!("no option {word}")),
        }
    }
    for group in &o.groups {
        if !frames::GROUPS.contains(&group.as_str()) {
            usage(&format!("no group {group}; there are {}", frames::GROUPS.join(", ")));
        }
    }
    if o.images > sides::MOST_IMAGES {
        usage(&format!("--images is at most {}", sides::MOST_IMAGES));
    }
    o
}

fn main() {
    let words: Vec<String> = std::env::args().skip(1).collect();
    // The original's find_root recurses once for each link of a chain.
    let run = move || match words.first().map(String::as_str) {
        Some("check") => compare(&options(&words[1..])),
        Some("bench") => {
            let o = options(&words[1..]);
            every_call();
            let sizes: Vec<_> = o.sizes.iter().copied().filter(|(n, per)| n * per <= o.most_picks).collect();
            bench::bench(o.seed, o.runs, &sizes, &o.calls, o.images);
        }
        Some("counts") => {
            every_call();
            count(&words[1..]).unwrap_or_else(|| usage("counts CALL COPIES WATERS SIDE: see oracle/counts"));
        }
        #[cfg(mock)]
        Some("faults") => mock::FAULTS.iter().for_each(|f| println!("{f}")),
        _ => usage("the first word is check, bench or counts"),
    };
    let done = std::thread::Builder::new().stack_size(64 << 20).spawn(run).unwrap().join();
    if done.is_err() {
        exit(3);
    }
}

fn every_call() {
    use stats::Call::*;
    if ![Select, Open, Row, Close, Centers, Dispersion, Tree, Report, Frame].into_iter().all(library::present) {
        usage("the library does not have every call of the benchmark");
    }
}

fn count(words: &[String]) -> Option<()> {
    let [call, copies, waters, side, rest @ ..] = words else { return None };
    let o = options(rest);
    counts::counts(sides::Work::named(call)?, copies.parse().ok()?, waters.parse().ok()?, side, o.images, o.seed)
}

/// Runs the case, and at a difference reduces it, prints it and ends the program.
fn try_case(group: &'static str, number: u64, case: case::Case, o: &Options, stats: &mut Stats) {
    signals::now(group, number, o.seed);
    *stats.groups.entry(group).or_default() += 1;
    if case.unwrapped {
        *stats.unwrapped.entry(group).or_default() += 1;
    }
    let whole = stats.whole;
    let checked = check::check(&case, None, stats);
    *stats.whole_by_group.entry(group).or_default() += stats.whole - whole;
    if let Err(found) = checked {
        println!("DIFFERENCE in group {group}, case {number}, seed {}:", o.seed);
        println!("  {}", found.what);
        println!("again: --seed {} --groups {group} --case {number}", o.seed);
        signals::patience(0);
        let (small, found, tries) = reduce::reduce(case, found, o.reduce_seconds);
        let text = small.describe();
        println!("reduced in {tries} tries to:");
        println!("  {}", found.what);
        for line in text.lines().take(60) {
            let shown: String = line.chars().take(300).collect();
            println!("{shown}{}", if shown.len() < line.len() { " .." } else { "" });
        }
        if text.lines().count() > 60 {
            println!("  .. (the rest is in the dump)");
        }
        match std::fs::write(&o.dump, format!("{}\n{text}", found.what)) {
            Ok(()) => println!("dump: {}", o.dump),
            Err(e) => println!("no dump: {e}"),
        }
        exit(1);
    }
}

fn compare(o: &Options) {
    let start = Instant::now();
    let end = start + Duration::from_secs(o.seconds);
    let mut stats = Stats::default();
    signals::watch();
    examples::hold();
    let groups: Vec<&'static str> = frames::GROUPS.iter().copied().filter(|g| o.groups.iter().any(|w| w == g)).collect();
    if let Some(number) = o.case {
        for group in groups {
            match frames::case(group, o.seed, number) {
                Some(case) => try_case(group, number, case, o, &mut stats),
                None => println!("group {group} has no case {number}"),
            }
        }
        return finish(start, o, &stats);
    }
    // The groups that end, whole, whatever the time.
    for group in groups.iter().copied().filter(|g| ["tables", "tiny"].contains(g)) {
        let mut number = 0;
        while let Some(case) = frames::case(group, o.seed, number) {
            try_case(group, number, case, o, &mut stats);
            number += 1;
        }
        println!("group {group}: all {number} cases agree ({:.1} s)", start.elapsed().as_secs_f64());
    }
    // Full-size frames take up to half of what is left, the cheap ones of a round first, while the next one fits.
    if groups.contains(&"full") {
        let open = groups.iter().any(|g| OPEN.contains(g));
        let left = end.saturating_duration_since(Instant::now());
        let until = Instant::now() + if open { left / 2 } else { left };
        let mut number = 0;
        let mut skipped = 0;
        // How this machine compares with the one that the costs were taken on.
        let (mut spent, mut planned) = (1.0, 1.0);
        let mut order: Vec<usize> = (0..frames::FULL.len()).collect();
        order.sort_by_key(|&at| frames::FULL[at].1);
        while Instant::now() < until && skipped < frames::FULL.len() {
            let at = order[number as usize % order.len()];
            let (name, cost) = frames::FULL[at];
            let begin = Instant::now();
            if cost > o.dearest {
                skipped += 1;
            } else if begin + Duration::from_secs_f64(cost as f64 * spent / planned) <= until {
                let number = number - number % order.len() as u64 + at as u64;
                let case = frames::case("full", o.seed, number).unwrap();
                try_case("full", number, case, o, &mut stats);
                println!("  {name}: {:.1} s", begin.elapsed().as_secs_f64());
                spent += begin.elapsed().as_secs_f64();
                planned += cost as f64;
                skipped = 0;
            } else {
                skipped += 1;
            }
            number += 1;
        }
        println!("group full: done ({:.1} s)", start.elapsed().as_secs_f64());
    }
    // The open groups in turn, until the time is over.
    let open: Vec<&'static str> =
        groups.iter().copied().filter(|g| OPEN.contains(g)).collect();
    let mut number = 0;
    while !open.is_empty() && (Instant::now() < end || number == 0) {
        for group in &open {
            let case = frames::case(group, o.seed, number).unwrap();
            try_case(group, number, case, o, &mut stats);
        }
        if let Some(program) = &o.program {
            program::try_block(program, o.seed, number, &mut stats);
        }
        number += 1;
    }
    finish(start, o, &stats)
}

fn finish(start: Instant, o: &Options, stats: &Stats) {
    stats.print();
    println!("no difference; seed {}, {:.1} s", o.seed, start.elapsed().as_secs_f64());
}

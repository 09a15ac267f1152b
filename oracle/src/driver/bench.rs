//! The original and the library timed side by side in one process, on the same frames, by processor time.

use crate::sides::{Frame, Library, Original, WATERS, Work};

/// Copies and picks of each.
pub const SIZES: [(usize, usize); 6] = [(512, 1), (4_096, 1), (512, 16), (1_000, 30), (4_096, 4), (4_096, 16)];
/// The scan stands for both of its lines.
pub const CALLS: [Work; 6] = [Work::Select, Work::Scan, Work::Dispersion, Work::Tree, Work::Report, Work::Frame];
/// One line gets no more than about this many seconds: long runs are repeated less often.
const SECONDS: f64 = 120.0;
/// Milliseconds of one run at least: a short call is repeated in it.
const LEAST: f64 = 20.0;
/// Milliseconds of whole frames in one run of the scan inside of them, which as a difference wants more; and how many at most.
const FRAMES: f64 = 2_000.0;
const MOST_FRAMES: f64 = 100.0;

#[repr(C)]
struct Time {
    seconds: i64,
    nanoseconds: i64,
}

unsafe extern "C" {
    fn clock_gettime(clock: i32, time: *mut Time) -> i32;
}

/// Milliseconds that this thread has had a processor: other programs on the machine do not count.
fn cpu() -> f64 {
    let mut t = Time { seconds: 0, nanoseconds: 0 };
    const THREAD: i32 = 3;
    unsafe { clock_gettime(THREAD, &mut t) };
    t.seconds as f64 * 1e3 + t.nanoseconds as f64 / 1e6
}

/// Milliseconds of the call, made once.
fn once(call: impl FnOnce()) -> f64 {
    let begin = cpu();
    call();
    cpu() - begin
}

/// Milliseconds of the call: the mean of so many that they take LEAST together.
fn time(mut call: impl FnMut()) -> f64 {
    let mut n = 1;
    loop {
        let all = once(|| (0..n).for_each(|_| call()));
        if all >= LEAST {
            return all / n as f64;
        }
        n *= 2;
    }
}

fn median(mut times: Vec<f64>) -> f64 {
    times.sort_by(f64::total_cmp);
    times[times.len() / 2]
}

struct Line<'a> {
    size: &'a str,
    waters: usize,
    images: &'a str,
    runs: usize,
}

impl Line<'_> {
    /// The calls in turn, each of which says its time, up to `runs` times: the median of each, and the number of runs.
    fn medians<const N: usize>(&self, mut calls: [&mut dyn FnMut() -> f64; N]) -> ([f64; N], usize) {
        let mut times = [const { Vec::new() }; N];
        let begin = cpu();
        while times[0].len() < self.runs {
            let run = cpu();
            for (call, times) in calls.iter_mut().zip(&mut times) {
                times.push(call());
            }
            let end = cpu();
            if (end - begin + (end - run)) / 1e3 > SECONDS {
                break;
            }
        }
        let runs = times[0].len();
        (times.map(median), runs)
    }

    fn print(&self, what: &str, rust: f64, ours: f64, runs: usize) {
        let (size, waters, images, ratio) = (self.size, self.waters, self.images, ours / rust);
        println!("| {size} | {waters} | {images} | {what} | {rust:.3} | {ours:.3} | {ratio:.3} | {runs} |");
    }

    /// Both sides in turn, and a line of the table with the medians.
    fn both(&self, work: Work, original: &Original, library: &mut Library) {
        let (mut expected, mut found) = ([0; 3], [0; 3]);
        let ([rust, ours], runs) = self.medians([
            &mut || time(|| expected = original.run(work)),
            &mut || time(|| found = library.run(work)),
        ]);
        assert_eq!(expected, found, "{} agrees", work.name());
        self.print(work.name(), rust, ours, runs);
    }
}

/// A size as 512x16, within the limits.
pub fn size(word: &str) -> Option<(usize, usize)> {
    let (n, per) = word.split_once('x')?;
    let (n, per) = (n.trim().parse().ok()?, per.trim().parse().ok()?);
    ((1..=reading::COPIES).contains(&n) && (1..=reading::PICKS / n).contains(&per)).then_some((n, per))
}

pub fn call(word: &str) -> Option<Work> {
    Work::named(word).filter(|work| CALLS.contains(work))
}

pub fn bench(seed: u64, runs: usize, sizes: &[(usize, usize)], calls: &[Work], images: usize) {
    let moved = if images == 0 { "0".to_string() } else { format!("±{images}") };
    println!("| picks | waters | images | call | Rust, CPU ms | library, CPU ms | library / Rust | runs |");
    println!("|---|---|---|---|---|---|---|---|");
    for &(n, per) in sizes {
        for (waters, side) in WATERS {
            let line = Line { size: &format!("{n} x {per}"), waters, images: &moved, runs };
            one(&line, &Frame::new(n, per, waters, side, images, seed), calls);
        }
    }
}

fn one(line: &Line, f: &Frame, calls: &[Work]) {
    let original = Original::new(f);
    let mut library = Library::new(f, &original);
    for work in CALLS.into_iter().filter(|work| calls.contains(work)) {
        match work {
            Work::Scan => scans(line, f, &original, &mut library),
            _ => line.both(work, &original, &mut library),
        }
    }
}

/// The original's two nested loops beside the library's two scans: Open, every Row and Close; and the scan inside the whole frame.
fn scans(line: &Line, f: &Frame, original: &Original, library: &mut Library) {
    let few = f.with_one_water();
    let mut inside = Library::new(&few, &Original::new(&few));
    let rounds = (FRAMES / once(|| _ = inside.run(Work::Frame))).ceil().min(MOST_FRAMES) as usize;
    let (mut expected, mut found) = ([0; 3], [0; 3]);
    let ([rust, rows, framed], runs) = line.medians([
        &mut || time(|| expected = original.run(Work::Scan)),
        &mut || time(|| found = library.run(Work::Scan)),
        &mut || median((0..rounds).map(|_| scan_inside(&mut inside)).collect()),
    ]);
    assert_eq!(expected, found, "the scans agree");
    assert_eq!(expected, inside.run(Work::Frame), "the scan in the frame agrees");
    line.print("scan", rust, rows, runs);
    line.print("scan in frame", rust, framed, runs);
}

/// Milliseconds of the scan inside the whole frame, which no call makes alone: what the frame's time is over Select's, Dispersion's
/// and Report's. The frame has one water, so that Report is small. Dispersion and Report test their input when they are called, and
/// inside of the frame they do not, so the time of these tests is not taken off.
fn scan_inside(library: &mut Library) -> f64 {
    let works = [Work::Frame, Work::Select, Work::Dispersion, Work::Report, Work::Tests];
    let [frame, select, dispersion, report, tests] = works.map(|work| once(|| _ = library.run(work)));
    frame - select - (dispersion - tests) - (report - tests)
}

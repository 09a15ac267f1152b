//! If the library ends the process or does not come back, say which case was under way.

use std::sync::atomic::{AtomicPtr, AtomicU64, Ordering};

unsafe extern "C" {
    fn signal(number: i32, handler: usize) -> usize;
    fn alarm(seconds: u32) -> u32;
    fn write(file: i32, bytes: *const u8, len: usize) -> isize;
    fn _exit(status: i32) -> !;
}

static GROUP: AtomicPtr<u8> = AtomicPtr::new(std::ptr::null_mut());
static GROUP_LEN: AtomicU64 = AtomicU64::new(0);
static NUMBER: AtomicU64 = AtomicU64::new(0);
static SEED: AtomicU64 = AtomicU64::new(0);

const SIGALRM: i32 = 14;
/// Illegal instruction, trap, abort, bus, floating point, segment, alarm.
const WATCHED: [i32; 7] = [4, 5, 6, 7, 8, 11, SIGALRM];
/// No case takes this long; a full-size one takes minutes.
const PATIENCE: u32 = 900;

pub fn now(group: &'static str, number: u64, seed: u64) {
    GROUP.store(group.as_ptr() as *mut u8, Ordering::Relaxed);
    GROUP_LEN.store(group.len() as u64, Ordering::Relaxed);
    NUMBER.store(number, Ordering::Relaxed);
    SEED.store(seed, Ordering::Relaxed);
    if number % 64 == 0 || group == "full" {
        patience(PATIENCE);
    }
}

/// Seconds until the process gives up; 0 for never.
pub fn patience(seconds: u32) {
    unsafe {
        alarm(seconds);
    }
}

pub fn watch() {
    for number in WATCHED {
        unsafe {
            signal(number, stopped as *const () as usize);
        }
    }
}

/// Only what may be called in a handler: no allocation.
extern "C" fn stopped(number: i32) {
    let say = |bytes: &[u8]| unsafe {
        write(1, bytes.as_ptr(), bytes.len());
    };
    let digits = |mut n: u64| {
        let mut buffer = [0u8; 20];
        let mut at = 20;
        loop {
            at -= 1;
            buffer[at] = b'0' + (n % 10) as u8;
            n /= 10;
            if n == 0 {
                break;
            }
        }
        say(&buffer[at..]);
    };
    say(b"\nDIFFERENCE: stopped by signal ");
    digits(number as u64);
    say(if number == SIGALRM { b" (no answer came)" } else { b"" });
    say(b"\nagain: --seed ");
    digits(SEED.load(Ordering::Relaxed));
    say(b" --groups ");
    let group = GROUP.load(Ordering::Relaxed);
    if !group.is_null() {
        let len = GROUP_LEN.load(Ordering::Relaxed) as usize;
        say(unsafe { std::slice::from_raw_parts(group, len) });
    }
    say(b" --case ");
    digits(NUMBER.load(Ordering::Relaxed));
    say(b"\n");
    unsafe { _exit(1) }
}

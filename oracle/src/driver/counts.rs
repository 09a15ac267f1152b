//! One call of one side, once, on one frame of fixed seed, for a tool that counts its instructions (oracle/counts).

use crate::sides::{Frame, Library, Original, WATERS, Work, Words};
use std::hint::black_box;

/// What is counted is what runs inside of this function, which the tool knows by its name.
#[unsafe(no_mangle)]
#[inline(never)]
fn oracle_counted(call: &mut dyn FnMut() -> Words) -> Words {
    // Through a box for the answer, so that the call does not become a jump.
    black_box(call())
}

/// Runs the call on so many copies of one atom each, and prints what both sides should answer alike. The side is `rust`, `library`,
/// or `inside`, the library with one water in place of all, for the scan inside the whole frame.
pub fn counts(work: Work, copies: usize, waters: usize, side: &str, images: usize, seed: u64) -> Option<()> {
    let (_, width) = WATERS.into_iter().find(|w| w.0 == waters)?;
    let mut frame = Frame::new(copies, 1, waters, width, images, seed);
    if side == "inside" {
        frame = frame.with_one_water();
    }
    let original = Original::new(&frame);
    let words = match side {
        "rust" => oracle_counted(&mut || original.run(work)),
        "library" | "inside" => {
            let mut library = Library::new(&frame, &original);
            oracle_counted(&mut || library.run(work))
        }
        _ => return None,
    };
    println!("{words:08X?}");
    Some(())
}

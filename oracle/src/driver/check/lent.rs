//! A lent table twice: as it must be after the call, and as the library left it.

use crate::case::{Case, Lent};
use crate::library::Table;
use reading::Answer;

/// One lent table of a call: what it must hold afterwards, and the library's.
pub struct Pair {
    pub name: &'static str,
    pub expected: Vec<u32>,
    pub lent: Table,
}

impl Pair {
    pub fn new(case: &Case, name: &'static str, which: Lent, need: usize) -> Pair {
        Pair::of(name, case.filled(which, case.lent(which, need)))
    }

    pub fn of(name: &'static str, words: Vec<u32>) -> Pair {
        let lent = Table::new(&words);
        Pair { name, expected: words, lent }
    }

    pub fn compare(&self) -> Result<u64, String> {
        if !self.lent.guards_hold() {
            return Err(format!("table {}: a word outside of it was written", self.name));
        }
        let found = self.lent.words();
        for (i, (e, f)) in self.expected.iter().zip(found).enumerate() {
            if e != f {
                return Err(format!(
                    "table {} ({} entries), entry {i}: {f:08X} ({f}), expected {e:08X} ({e})",
                    self.name,
                    found.len()
                ));
            }
        }
        Ok(found.len() as u64)
    }
}

/// The expected number, and the answers table filled as a success fills it.
pub fn settle<const N: usize>(answer: &Answer<[u32; N]>, answers: &mut Pair) -> u32 {
    match answer {
        Ok(values) => {
            for (entry, value) in answers.expected.iter_mut().zip(values) {
                *entry = *value;
            }
            0
        }
        Err(number) => *number,
    }
}

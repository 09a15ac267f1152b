//! Open, Row, Close and, through Row, touch.

use super::lent::{Pair, settle};
use super::{Checked, Checker};
use crate::case::{Lent, RowCall};
use crate::library::{self, Table};
use crate::stats::Call;
use reading::{Answer, CUTOFF, HEAD, Picked};

/// Touches of a case's copies at one cutoff, each asked for once.
pub struct Touches {
    pub n: usize,
    cutoff: f32,
    known: Vec<u8>,
}

impl Touches {
    pub fn new(n: usize) -> Touches {
        Touches { n, cutoff: CUTOFF, known: vec![0; n * n] }
    }

    pub fn ask(&mut self, picked: &Picked, cutoff: f32, i: usize, j: usize) -> bool {
        if cutoff.to_bits() != self.cutoff.to_bits() {
            *self = Touches { cutoff, ..Touches::new(self.n) };
        }
        let at = i * self.n + j;
        if self.known[at] == 0 {
            self.known[at] = 1 + picked.touch(cutoff, i, j) as u8;
        }
        self.known[at] == 2
    }
}

impl Checker<'_> {
    /// Open, the rows in the case's order with the whole table compared after each, Close before, between and after.
    pub(super) fn clusters(
        &mut self,
        starts: &[u32],
        picks: &[u32],
        picked: &Answer<Picked>,
        touches: &mut Touches,
    ) -> Checked {
        let case = self.case;
        if !(self.wants(Call::Open) || self.wants(Call::Row) || self.wants(Call::Close)) {
            return Ok(());
        }
        let n = case.open.unwrap_or(starts.len().saturating_sub(1));
        let mut table = Pair::new(case, "clusters", Lent::Clusters, HEAD + 3 * n.min(5_000));
        let mut opened = false;
        for (at, &cutoff) in case.opens.iter().enumerate() {
            let answer = reading::open(&mut table.expected, n, cutoff);
            opened |= answer.is_ok();
            if self.wants(Call::Open) {
                let found = library::open(&mut table.lent, n, cutoff);
                self.stats.count_cutoff(Call::Open, cutoff);
                let note = format!(" of {n} at {cutoff:?} (call {at} of the list)");
                self.compare(Call::Open, &note, answer.err().unwrap_or(0), found, &[&table])?;
            }
        }
        if let Some(given) = &case.table {
            table.expected = given.clone();
        }
        table.lent = Table::new(&table.expected);
        self.close(&table.expected)?;
        for (at, &RowCall { i, cutoff }) in case.rows.iter().enumerate() {
            let answer = reading::row(picked, cutoff, &mut table.expected, i, &mut |i, j| {
                touches.ask(picked.as_ref().unwrap_or_else(|_| unreachable!()), cutoff, i, j)
            });
            if self.wants(Call::Row) {
                let found = library::row(&self.with(starts, picks), cutoff, &mut table.lent, i);
                self.stats.count_cutoff(Call::Row, cutoff);
                let note = format!(" {i} at {cutoff:?} (call {at} of the list)");
                self.compare(Call::Row, &note, answer.err().unwrap_or(0), found, &[&table])?;
            }
            if starts.len() < 10 {
                self.close(&table.expected)?;
            }
        }
        if !case.rows.is_empty() {
            self.close(&table.expected)?;
        }
        if let Some(&contacts) = table.expected.get(1) {
            if picked.is_ok() && case.table.is_none() && opened && contacts > 0 {
                self.stats.with_contacts += 1;
                self.stats.contacts += contacts as u64;
            }
        }
        Ok(())
    }

    pub(super) fn close(&mut self, table: &[u32]) -> Checked {
        if !self.wants(Call::Close) {
            return Ok(());
        }
        let mut answers = Pair::new(self.case, "answers", Lent::Answers, 3);
        let expected = settle(&reading::close(table), &mut answers);
        let given = table.to_vec();
        let found = library::close(&given, &mut answers.lent);
        if given != table {
            return self.differ(Call::Close, "close wrote to its table".into());
        }
        self.compare(Call::Close, "", expected, found, &[&answers])
    }

    /// The touch of two copies, both ways round: a Row on pick lists that hold the two alone.
    pub(super) fn touch(&mut self, starts: &[u32], picks: &[u32], picked: &Answer<Picked>) -> Checked {
        let Ok(all) = picked else { return Ok(()) };
        for &(a, b, cutoff) in &self.case.pairs {
            for (a, b) in [(a, b), (b, a)] {
                // A case that is being reduced may come to these.
                if a >= all.n() || b >= all.n() || reading::cutoff_refused(cutoff) {
                    continue;
                }
                let of = |i: usize| &picks[starts[i] as usize..starts[i + 1] as usize];
                let two_picks = [of(a), of(b)].concat();
                if two_picks.len() > reading::PICKS {
                    continue;
                }
                let two_starts = [0, of(a).len() as u32, two_picks.len() as u32];
                let two = Picked::read(self.case.cell, &self.case.solutes, &[], &two_starts, &two_picks);
                let mut words = self.case.filled(Lent::Clusters, HEAD + 7);
                reading::open(&mut words, 2, cutoff).unwrap();
                let mut table = Pair::of("clusters", words);
                let answer = reading::row(&two, cutoff, &mut table.expected, 0, &mut |_, _| all.touch(cutoff, a, b));
                let found = library::row(&self.with(&two_starts, &two_picks), cutoff, &mut table.lent, 0);
                self.stats.count_cutoff(Call::Touch, cutoff);
                let note = format!(" of copies {a} and {b} at {cutoff:?}");
                self.compare(Call::Touch, &note, answer.err().unwrap_or(0), found, &[&table])?;
            }
        }
        Ok(())
    }
}

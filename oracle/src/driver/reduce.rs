//! Makes a case that shows a difference smaller, as long as the same call still differs.

use crate::case::{Case, RowCall};
use crate::check::{Difference, check};
use crate::stats::{Call, Stats};
use reading::CUTOFF;
use std::time::{Duration, Instant};

struct Reducer {
    call: Call,
    best: Case,
    found: Difference,
    until: Instant,
    tries: u64,
}

pub fn reduce(case: Case, found: Difference, seconds: u64) -> (Case, Difference, u64) {
    let call = found.call;
    let until = Instant::now() + Duration::from_secs(seconds);
    let mut r = Reducer { call, best: case, found, until, tries: 0 };
    loop {
        let before = r.size();
        r.settings();
        r.cutoffs();
        r.copies();
        r.stretches(|c| c.opens.len(), |c, from, to| drop(c.opens.drain(from..to)));
        r.stretches(|c| c.frames.len(), |c, from, to| drop(c.frames.drain(from..to)));
        r.stretches(|c| c.rows.len(), |c, from, to| drop(c.rows.drain(from..to)));
        r.stretches(|c| c.pairs.len(), |c, from, to| drop(c.pairs.drain(from..to)));
        r.stretches(|c| c.indices.len(), |c, from, to| drop(c.indices.drain(from..to)));
        r.stretches(|c| c.waters.len() / 3, |c, from, to| drop(c.waters.drain(3 * from..3 * to)));
        r.stretches(|c| c.atoms(), |c, from, to| drop(c.solutes.drain(3 * from..3 * to)));
        r.atoms_per_copy();
        r.numbers();
        if r.size() == before || Instant::now() > r.until {
            return (r.best, r.found, r.tries);
        }
    }
}

/// How plain a number is: 0, then small whole numbers, then few bits.
fn weight(x: f32) -> u64 {
    if x.to_bits() == 0 {
        0
    } else if x == x.trunc() && x.abs() <= 64.0 {
        1
    } else {
        2 + (23 - x.to_bits().trailing_zeros().min(23)) as u64
    }
}

/// How plain a cutoff is: 4.2 first.
fn cutoff_weight(x: f32) -> u64 {
    if x.to_bits() == CUTOFF.to_bits() { 0 } else { 1 + weight(x) }
}

impl Reducer {
    fn size(&self) -> (usize, u64) {
        let c = &self.best;
        let lists = c.lists.as_ref().map_or(0, |(s, p)| s.len() + p.len() + 1);
        let table = c.table.as_ref().map_or(0, |t| t.len() + 1);
        let lengths = c.solutes.len() + c.waters.len() + c.indices.len() + c.rows.len() + c.pairs.len() + c.opens.len() + c.frames.len();
        let slack = c.slack.iter().filter(|s| **s != 0).count();
        let table = table + c.table.iter().flatten().filter(|w| **w != 0).count();
        let numbers: u64 = c.solutes.iter().chain(&c.waters).chain(&c.cell).map(|&x| weight(x)).sum();
        let plain = numbers + c.clone().cutoffs().map(|k| cutoff_weight(*k)).sum::<u64>();
        (lengths + lists + table + slack + c.per.min(1_000) + (c.fill.min(4)) as usize, plain)
    }

    /// Keeps the candidate if the same call still differs.
    fn try_case(&mut self, candidate: Case) -> bool {
        if Instant::now() > self.until {
            return false;
        }
        self.tries += 1;
        match check(&candidate, Some(self.call), &mut Stats::default()) {
            Err(found) if found.call == self.call => {
                self.best = candidate;
                self.found = found;
                true
            }
            _ => false,
        }
    }

    fn change(&mut self, edit: impl FnOnce(&mut Case)) -> bool {
        let mut candidate = self.best.clone();
        edit(&mut candidate);
        self.try_case(candidate)
    }

    fn settings(&mut self) {
        if self.best.lists.is_some() {
            self.change(|c| c.lists = None);
        }
        if self.best.table.is_some() {
            self.change(|c| c.table = None);
        }
        self.table_words();
        if self.best.open.is_some() {
            self.change(|c| c.open = None);
        }
        for at in 0..self.best.slack.len() {
            if self.best.slack[at] != 0 {
                let _ = self.change(|c| c.slack[at] = 0)
                    || self.change(|c| c.slack[at] = c.slack[at].signum());
            }
        }
        for fill in 0..3 {
            if self.best.fill > fill {
                self.change(|c| c.fill = fill);
            }
        }
    }

    /// Each cutoff, wherever it comes and in a given table too: 4.2 if that will do, else a plainer one.
    fn cutoffs(&mut self) {
        let mut all: Vec<u32> = self.best.cutoffs().map(|k| k.to_bits()).collect();
        all.sort();
        all.dedup();
        for bits in all {
            let k = f32::from_bits(bits);
            for plain in [CUTOFF, 0.0, 1.0, 16.0, k.round(), (k * 16.0).round() / 16.0] {
                if cutoff_weight(plain) < cutoff_weight(k) && self.change(|c| c.exchange_cutoff(bits, plain)) {
                    break;
                }
            }
        }
    }

    /// Zeros in a given cluster table, if it is small.
    fn table_words(&mut self) {
        let len = self.best.table.as_ref().map_or(0, Vec::len);
        for at in 0..if len <= 100 { len } else { 0 } {
            let word = |c: &Case| c.table.as_ref().map_or(0, |t| t[at]);
            if word(&self.best) != 0 {
                self.change(|c| c.table.as_mut().unwrap()[at] = 0);
            }
        }
    }

    /// Takes stretches out of a list, halves first, then ever smaller ones.
    fn stretches(&mut self, len: impl Fn(&Case) -> usize, cut: impl Fn(&mut Case, usize, usize)) {
        let mut step = len(&self.best).div_ceil(2);
        while step > 0 {
            let mut at = 0;
            while at < len(&self.best) {
                let to = (at + step).min(len(&self.best));
                if !self.change(|c| cut(c, at, to)) {
                    at += step;
                }
                if Instant::now() > self.until {
                    return;
                }
            }
            step /= 2;
        }
    }

    /// Whole copies, with the rows that then name others.
    fn copies(&mut self) {
        let per = self.best.per;
        if per == 0 || self.best.atoms() < per {
            return;
        }
        self.stretches(
            |c| c.atoms() / per,
            |c, from, to| {
                c.solutes.drain(3 * per * from..3 * per * to);
                let gone = to - from;
                let moved = |i: usize| match i {
                    i if i < from => Some(i),
                    i if i < to => None,
                    i => Some(i - gone),
                };
                c.rows = c.rows.iter().filter_map(|r| Some(RowCall { i: moved(r.i)?, ..*r })).collect();
                c.pairs = c.pairs.iter().filter_map(|&(a, b, k)| Some((moved(a)?, moved(b)?, k))).collect();
                if let (Some((starts, picks)), 1) = (&mut c.lists, per) {
                    // Lists of one pick a copy shrink with the frame; others are left for the call to judge.
                    if picks.len() + 1 == starts.len() && to <= picks.len() {
                        picks.truncate(picks.len() - gone);
                        starts.truncate(starts.len() - gone);
                    }
                }
            },
        );
    }

    fn atoms_per_copy(&mut self) {
        while self.best.per > 1 && self.best.per <= 1_000 {
            let per = self.best.per;
            let mut done = false;
            for drop in (0..per).rev() {
                done = self.change(|c| {
                    let keep = |at: usize| at / 3 % per != drop || at / 3 / per >= c.solutes.len() / 3 / per;
                    c.solutes = (0..c.solutes.len()).filter(|&at| keep(at)).map(|at| c.solutes[at]).collect();
                    c.per = per - 1;
                });
                if done {
                    break;
                }
            }
            if !done {
                return;
            }
        }
    }

    /// Plainer numbers, one at a time; only where few are left.
    fn numbers(&mut self) {
        if self.best.solutes.len() + self.best.waters.len() > 600 {
            return;
        }
        self.change(|c| c.cell = [0.0, 0.0, 0.0, 16.0, 16.0, 16.0]);
        for which in 0..3 {
            let mut at = 0;
            loop {
                let now = match which {
                    0 => self.best.cell.get(at).copied(),
                    1 => self.best.solutes.get(at).copied(),
                    _ => self.best.waters.get(at).copied(),
                };
                let Some(x) = now else { break };
                let cut = |bits: u32| f32::from_bits(x.to_bits() & !((1 << bits) - 1));
                for plain in [0.0, x.round(), (x * 16.0).round() / 16.0, cut(16), cut(8), cut(4)] {
                    if weight(plain) >= weight(x) || !plain.is_finite() {
                        continue;
                    }
                    let done = self.change(|c| match which {
                        0 => c.cell[at] = plain,
                        1 => c.solutes[at] = plain,
                        _ => c.waters[at] = plain,
                    });
                    if done {
                        break;
                    }
                }
                at += 1;
                if Instant::now() > self.until {
                    return;
                }
            }
        }
    }
}

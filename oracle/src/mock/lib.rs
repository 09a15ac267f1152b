//! A mock of the library: the C interface answered by the second reading, so that the driver can be tried without
//! the library. `mock_fault` chooses one of the mistakes that the driver must catch; 0 is none.

#![allow(clippy::missing_safety_doc, clippy::too_many_arguments)]

mod images;
mod whole;

use reading::{Answer, CUTOFF, GREATEST_CUTOFF, HEAD, Picked, cutoff_refused};
use std::sync::atomic::{AtomicU32, Ordering};

/// The mistakes, by number less one; `oracle/selftest` tries each.
pub const FAULTS: [&str; 69] = [
    "select: picks are sorted",
    "select: 4 is tested for whole atoms, not coordinate by coordinate",
    "select: 5 counts vanished copies too",
    "select: the entry after the last start is written",
    "open: the marks keep their values",
    "row: no degree where the roots already agree",
    "row: the mark is forgotten",
    "row: a chain is not shortened",
    "row: a repeated row is accepted",
    "row: the row's number is cut to 32 bits",
    "row: the cutoff itself does not touch",
    "row: 9 before 7",
    "row: a cycle of parents is taken as sound",
    "close: largest over copies",
    "close: answers with a mark 0",
    "close: n over 4,096 is 7",
    "centers: picks are averaged without the minimum image",
    "centers: a second wrap",
    "dispersion: one unit in the last place",
    "dispersion: 15 before 4",
    "tree: 13 where nodes and records are equal in number",
    "tree: 13 zeroes the whole records only",
    "tree: 13 leaves the order lists",
    "tree: the node after the subtree is the last one in it",
    "report: the leaf table is no node table",
    "report: dry leaves are those with a dry shell",
    "frame: 5 before blank",
    "frame: a blank frame writes its tables",
    "frame: at 13 the clusters are not filled",
    "frame: a word past the answers is written",
    "frame: the process ends at 13",
    "row: the minimum image rounds halves to even",
    "centers: the minimum image rounds halves to even",
    "centers: half an extent stays as it is",
    "dispersion: the minimum image rounds the number below a half up",
    "report: the minimum image rounds the number below a half up",
    "open: 16 before 5",
    "open: 16 after 7",
    "open: the bits of 4.2 whatever the cutoff",
    "open: the cutoff 16 is refused",
    "open: a subnormal cutoff is refused",
    "open: a refused cutoff is written",
    "row: 16 before 8",
    "row: 16 after 7",
    "row: 16 after 9",
    "row: 17 before 9",
    "row: 17 after 10",
    "row: 17 after 11",
    "row: 9 where the table's cutoff is none",
    "row: the cutoff 16 is refused",
    "row: the sign of its cutoff is dropped",
    "row: a cutoff one ulp from the table's is accepted",
    "row: another cutoff than the table's is accepted",
    "row: the cutoff is not squared",
    "row: the cutoff is squared in f64",
    "row: the distance's root against the cutoff",
    "row: a cutoff whose square is 0 touches nothing",
    "close: a table of two words is long enough",
    "close: 9 where the table's cutoff is none",
    "frame: its cutoff is not looked at, 4.2 is used",
    "frame: contacts at 4.2 whatever the cutoff",
    "frame: the table has the bits of 4.2 whatever the cutoff",
    "frame: shells are as wide as the cutoff",
    "frame: 16 before blank",
    "frame: 16 before 5 and 6",
    "frame: 16 after 7",
    "row: the minimum image goes one extent at most",
    "row: copies of 9 to 64 picks, over an extent apart, are turned as their first picks are",
    "row: of a copy's picks only the first 64 are looked at",
];

static FAULT: AtomicU32 = AtomicU32::new(0);

pub fn set_fault(n: u32) {
    FAULT.store(n, Ordering::Relaxed);
}

fn fault(what: &str) -> bool {
    let n = FAULT.load(Ordering::Relaxed);
    n > 0 && FAULTS[n as usize - 1] == what
}

unsafe fn lent<'a>(p: *mut u32, len: usize) -> &'a mut [u32] {
    unsafe { std::slice::from_raw_parts_mut(p, len) }
}

unsafe fn given<'a, T>(p: *const T, len: usize) -> &'a [T] {
    unsafe { std::slice::from_raw_parts(p, len) }
}

fn give<const N: usize>(answer: Answer<[u32; N]>, answers: &mut [u32]) -> u32 {
    match answer {
        Ok(values) => {
            for (entry, value) in answers.iter_mut().zip(values) {
                *entry = value;
            }
            0
        }
        Err(number) => number,
    }
}

#[unsafe(no_mangle)]
pub unsafe extern "C" fn baithrum_select(
    solutes: *const f32, solutes_len: usize, per: usize, indices: *const u32, indices_len: usize,
    starts: *mut u32, starts_len: usize, picks: *mut u32, picks_len: usize,
    answers: *mut u32, answers_len: usize,
) -> u32 {
    let (solutes, indices) = unsafe { (given(solutes, solutes_len), given(indices, indices_len)) };
    let (starts, picks) = unsafe { (lent(starts, starts_len), lent(picks, picks_len)) };
    let mut answer = reading::select(solutes, per, indices, starts, picks);
    if fault("select: picks are sorted") {
        if let Ok([copies, _]) = answer {
            for i in 0..copies as usize {
                picks[starts[i] as usize..starts[i + 1] as usize].sort();
            }
        }
    }
    if fault("select: 4 is tested for whole atoms, not coordinate by coordinate") && answer == Err(4) {
        let tame: Vec<f32> = reading::points(solutes)
            .into_iter()
            .flat_map(|p| if reading::finite(p) { [p.x, p.y, p.z] } else { [f32::NAN; 3] })
            .collect();
        answer = reading::select(&tame, per, indices, starts, picks);
    }
    if fault("select: 5 counts vanished copies too") && per > 0 && solutes_len / 3 / per > 4_096 && answer.is_ok() {
        return 5;
    }
    if fault("select: the entry after the last start is written") {
        if let Ok([copies, _]) = answer {
            if let Some(entry) = starts.get_mut(copies as usize + 1) {
                *entry = 0;
            }
        }
    }
    give(answer, unsafe { lent(answers, answers_len) })
}

#[unsafe(no_mangle)]
pub unsafe extern "C" fn baithrum_open(table: *mut u32, table_len: usize, n: usize, cutoff: f32) -> u32 {
    let table = unsafe { lent(table, table_len) };
    let before = table.to_vec();
    let answer = reading::open(table, n, cutoff);
    match answer {
        Ok(_) => {
            if fault("open: the marks keep their values") {
                table[HEAD + 2 * n..HEAD + 3 * n].copy_from_slice(&before[HEAD + 2 * n..HEAD + 3 * n]);
            }
            if fault("open: the bits of 4.2 whatever the cutoff") {
                table[2] = CUTOFF.to_bits();
            }
            if fault("open: the cutoff 16 is refused") && cutoff == GREATEST_CUTOFF
                || fault("open: a subnormal cutoff is refused") && cutoff.is_subnormal()
            {
                table.copy_from_slice(&before);
                return 16;
            }
        }
        Err(5) if fault("open: 16 before 5") && cutoff_refused(cutoff) => return 16,
        Err(16) if fault("open: 16 after 7") && table_len < HEAD + 3 * n => return 7,
        Err(16) if fault("open: a refused cutoff is written") && table_len >= HEAD => table[2] = cutoff.to_bits(),
        _ => {}
    }
    give(answer, &mut [])
}

/// Mistakes in whether a squared distance and a cutoff touch.
const TOUCHES: [(&str, fn(f32, f32) -> bool); 5] = [
    ("row: the cutoff itself does not touch", |d2, k| d2 < k * k),
    ("row: the cutoff is not squared", |d2, k| d2 <= k),
    ("row: the cutoff is squared in f64", |d2, k| d2 as f64 <= k as f64 * k as f64),
    ("row: the distance's root against the cutoff", |d2, k| d2.sqrt() <= k),
    ("row: a cutoff whose square is 0 touches nothing", |d2, k| k * k > 0.0 && d2 <= k * k),
];

#[unsafe(no_mangle)]
pub unsafe extern "C" fn baithrum_row(
    lx: f32, ly: f32, lz: f32, hx: f32, hy: f32, hz: f32, cutoff: f32, solutes: *const f32, solutes_len: usize,
    starts: *const u32, starts_len: usize, picks: *const u32, picks_len: usize,
    table: *mut u32, table_len: usize, i: usize,
) -> u32 {
    let solutes = unsafe { given(solutes, solutes_len) };
    let (starts, picks) = unsafe { (given(starts, starts_len), given(picks, picks_len)) };
    let table = unsafe { lent(table, table_len) };
    let i = if fault("row: the row's number is cut to 32 bits") { i as u32 as usize } else { i };
    let cutoff = if fault("row: the sign of its cutoff is dropped") { cutoff.abs() } else { cutoff };
    let picked = Picked::read([lx, ly, lz, hx, hy, hz], solutes, &[], starts, picks);
    let before = table.to_vec();
    let mut touch = |i: usize, j: usize| {
        let p = picked.as_ref().ok().unwrap();
        if fault("row: the minimum image rounds halves to even") {
            return images::touch(p, cutoff, i, j, f32::round_ties_even);
        }
        if fault("row: the minimum image goes one extent at most") {
            return images::touch(p, cutoff, i, j, |q| q.round().clamp(-1.0, 1.0));
        }
        if fault("row: copies of 9 to 64 picks, over an extent apart, are turned as their first picks are") {
            return images::touch_by_first(p, cutoff, i, j);
        }
        if fault("row: of a copy's picks only the first 64 are looked at") {
            let few = |i: usize| p.mols[i].iter().copied().take(64).collect();
            return Picked { cell: p.cell, mols: vec![few(i), few(j)] }.touch(cutoff, 0, 1);
        }
        let d2 = |a, b| p.cell.min_image(b - a).magnitude_squared();
        let any = |near: fn(f32, f32) -> bool| p.mols[i].iter().any(|&a| p.mols[j].iter().any(|&b| near(d2(a, b), cutoff)));
        for (name, near) in TOUCHES {
            if fault(name) {
                return any(near);
            }
        }
        p.touch(cutoff, i, j)
    };
    let mut answer = reading::row(&picked, cutoff, table, i, &mut touch);
    let n = starts_len.saturating_sub(1);
    if picked.is_ok() && cutoff == GREATEST_CUTOFF && fault("row: the cutoff 16 is refused") {
        table.copy_from_slice(&before);
        return 16;
    }
    match answer {
        Ok(_) => {
            let joined = |t: &[u32], mut a: usize| {
                while t[HEAD + a] as usize != a {
                    a = t[HEAD + a] as usize;
                }
                a
            };
            if fault("row: no degree where the roots already agree") {
                for j in i + 1..n {
                    if touch(i, j) && joined(&before, i) == joined(&before, j) {
                        table[HEAD + n + i] -= 1;
                        table[HEAD + n + j] -= 1;
                    }
                }
            }
            if fault("row: the mark is forgotten") {
                table[HEAD + 2 * n + i] = 0;
            }
            if fault("row: a chain is not shortened") {
                for k in 0..n {
                    if before[HEAD + k] as usize != k {
                        table[HEAD + k] = before[HEAD + k];
                    }
                }
            }
        }
        Err(8) if fault("row: 16 before 8") && cutoff_refused(cutoff) => return 16,
        Err(16) if fault("row: 16 after 7") && table_len < HEAD + 3 * n => return 7,
        Err(16) if fault("row: 16 after 9") => {
            if reading::row(&picked, CUTOFF, &mut before.clone(), i, &mut touch) == Err(9) {
                return 9;
            }
        }
        Err(9) if fault("row: 17 before 9") && cutoff.to_bits() != table[2] => return 17,
        Err(17) => {
            let own = f32::from_bits(table[2]);
            if fault("row: 17 after 10") && i >= n {
                return 10;
            }
            if fault("row: 17 after 11") && i < n && table[HEAD + 2 * n + i] == 1 {
                return 11;
            }
            if fault("row: 9 where the table's cutoff is none") && cutoff_refused(own) {
                return 9;
            }
            if fault("row: another cutoff than the table's is accepted")
                || fault("row: a cutoff one ulp from the table's is accepted") && own.to_bits().abs_diff(cutoff.to_bits()) == 1
            {
                table[2] = cutoff.to_bits();
                answer = reading::row(&picked, cutoff, table, i, &mut touch);
                table[2] = own.to_bits();
            }
        }
        Err(11) if fault("row: a repeated row is accepted") => {
            table[HEAD + 2 * n + i] = 0;
            answer = reading::row(&picked, cutoff, table, i, &mut touch);
        }
        Err(7) if fault("row: 9 before 7") && table.first().is_some_and(|&t| t as usize != n) => return 9,
        Err(9) if fault("row: a cycle of parents is taken as sound") && table[0] as usize == n => {
            // Every parent of a cycle's copy is below n; all else is sound if it is with plain parents.
            if table[HEAD..HEAD + n].iter().all(|&p| (p as usize) < n) {
                let mut plain = table.to_vec();
                plain[HEAD..HEAD + n].copy_from_slice(&(0..n as u32).collect::<Vec<_>>());
                if reading::row(&picked, cutoff, &mut plain, i, &mut touch).is_ok() {
                    table[HEAD + 2 * n + i] = 1;
                    return 0;
                }
            }
        }
        _ => {}
    }
    give(answer, &mut [])
}

#[unsafe(no_mangle)]
pub unsafe extern "C" fn baithrum_close(
    table: *const u32, table_len: usize, answers: *mut u32, answers_len: usize,
) -> u32 {
    let table = unsafe { given(table, table_len) };
    let mut answer = reading::close(table);
    if fault("close: largest over copies") {
        if let Ok(a) = &mut answer {
            let n = table[0] as f32;
            if n >= 2.0 {
                a[0] = ((f32::from_bits(a[0]) * (n - 1.0) + 1.0) / n).to_bits();
            }
        }
    }
    if fault("close: answers with a mark 0") && answer == Err(12) {
        let n = table[0] as usize;
        let mut marked = table.to_vec();
        marked[HEAD + 2 * n..HEAD + 3 * n].fill(1);
        answer = reading::close(&marked);
    }
    if fault("close: a table of two words is long enough") && table.len() == 2 && table[0] == 0 {
        answer = Ok([0; 3]);
    }
    if fault("close: 9 where the table's cutoff is none") && answer.is_ok() && cutoff_refused(f32::from_bits(table[2])) {
        answer = Err(9);
    }
    if fault("close: n over 4,096 is 7") && answer == Err(9) && table[0] > 4_096 {
        answer = Err(7);
    }
    give(answer, unsafe { lent(answers, answers_len) })
}

#[unsafe(no_mangle)]
pub unsafe extern "C" fn baithrum_centers(
    lx: f32, ly: f32, lz: f32, hx: f32, hy: f32, hz: f32, solutes: *const f32, solutes_len: usize,
    starts: *const u32, starts_len: usize, picks: *const u32, picks_len: usize,
    centers: *mut u32, centers_len: usize,
) -> u32 {
    let solutes = unsafe { given(solutes, solutes_len) };
    let (starts, picks) = unsafe { (given(starts, starts_len), given(picks, picks_len)) };
    let picked = Picked::read([lx, ly, lz, hx, hy, hz], solutes, &[], starts, picks);
    let table = unsafe { lent(centers, centers_len) };
    let answer = reading::centers(&picked, table);
    if let (Ok(_), Ok(p)) = (answer, &picked) {
        for (k, mol) in p.mols.iter().enumerate() {
            let c = [3 * k, 3 * k + 1, 3 * k + 2].map(|at| f32::from_bits(table[at]));
            let mut c = lin_alg::f32::Vec3::new(c[0], c[1], c[2]);
            if fault("centers: picks are averaged without the minimum image") {
                let mut sum = lin_alg::f32::Vec3::new_zero();
                mol.iter().for_each(|&m| sum += p.cell.wrap(m));
                c = p.cell.wrap(sum / mol.len() as f32);
            }
            if fault("centers: the minimum image rounds halves to even") {
                c = images::center(p, mol, f32::round_ties_even);
            }
            if fault("centers: half an extent stays as it is") {
                c = images::center(p, mol, |q| if q.abs() == 0.5 { 0.0 } else { q.round() });
            }
            if fault("centers: a second wrap") {
                c = p.cell.wrap(c);
            }
            for (at, x) in [c.x, c.y, c.z].into_iter().enumerate() {
                table[3 * k + at] = x.to_bits();
            }
        }
    }
    give(answer, &mut [])
}

#[unsafe(no_mangle)]
pub unsafe extern "C" fn baithrum_dispersion(
    lx: f32, ly: f32, lz: f32, hx: f32, hy: f32, hz: f32, solutes: *const f32, solutes_len: usize,
    starts: *const u32, starts_len: usize, picks: *const u32, picks_len: usize,
    answers: *mut u32, answers_len: usize,
) -> u32 {
    let solutes = unsafe { given(solutes, solutes_len) };
    let (starts, picks) = unsafe { (given(starts, starts_len), given(picks, picks_len)) };
    let cell = [lx, ly, lz, hx, hy, hz];
    let picked = Picked::read(cell, solutes, &[], starts, picks);
    let mut answer = reading::dispersion(&picked);
    if fault("dispersion: one unit in the last place") && starts_len > 3 {
        answer = answer.map(|[bits]| [if bits > 0 && bits < 0x3F80_0000 { bits - 1 } else { bits }]);
    }
    if fault("dispersion: the minimum image rounds the number below a half up") && starts_len > 2 {
        answer = picked.as_ref().map(|p| [images::dispersion(p, images::half_added).to_bits()]).map_err(|e| *e);
    }
    if fault("dispersion: 15 before 4") && answer == Err(4) {
        if let Err(15) = Picked::read(cell, &[], &[], &[0], &[]) {
            answer = Err(15);
        }
    }
    give(answer, unsafe { lent(answers, answers_len) })
}

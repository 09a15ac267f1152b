//! Tree, Report and the whole frame of the mock.

use super::{fault, give, given, images, lent};
use original::properties::opened::access as rust;
use reading::{Answer, CUTOFF, FrameInput, FrameWork, Picked, TreeTables, Worked};

/// Tree (`leaves` is None) and Report.
fn grow<const N: usize>(
    cell: [f32; 6],
    solutes: &[f32],
    waters: &[f32],
    starts: &[u32],
    picks: &[u32],
    t: &mut TreeTables,
    call: fn(&Answer<Picked>, Option<&Worked>, &[f32], &mut TreeTables) -> Answer<[u32; N]>,
) -> Answer<[u32; N]> {
    let picked = Picked::read(cell, solutes, waters, starts, picks);
    let worked = picked.as_ref().ok().map(|p| Worked::new(p, waters, t.leaves.is_some()));
    let nodes = worked.as_ref().map_or(0, |w| w.built.nodes);
    let orders = (t.center_order.to_vec(), t.water_order.to_vec());
    let ends = (t.records.to_vec(), t.boxes.to_vec());
    let answer = call(&picked, worked.as_ref(), waters, t);
    if fault("tree: 13 where nodes and records are equal in number")
        && answer.is_ok()
        && nodes > 0
        && (t.records.len() / 8).min(t.boxes.len() / 6) == nodes
    {
        return Err(13);
    }
    if answer == Err(13) {
        if fault("tree: 13 zeroes the whole records only") {
            let whole = (8 * (t.records.len() / 8), 6 * (t.boxes.len() / 6));
            t.records[whole.0..].copy_from_slice(&ends.0[whole.0..]);
            t.boxes[whole.1..].copy_from_slice(&ends.1[whole.1..]);
        }
        if fault("tree: 13 leaves the order lists") {
            t.center_order.copy_from_slice(&orders.0);
            t.water_order.copy_from_slice(&orders.1);
        }
    }
    if fault("tree: the node after the subtree is the last one in it") && answer.is_ok() {
        for node in 0..nodes {
            t.records[8 * node + 6] -= 1;
        }
    }
    answer
}

#[unsafe(no_mangle)]
pub unsafe extern "C" fn baithrum_tree(
    lx: f32, ly: f32, lz: f32, hx: f32, hy: f32, hz: f32, solutes: *const f32, solutes_len: usize,
    waters: *const f32, waters_len: usize, starts: *const u32, starts_len: usize,
    picks: *const u32, picks_len: usize, center_order: *mut u32, center_order_len: usize,
    water_order: *mut u32, water_order_len: usize, records: *mut u32, records_len: usize,
    boxes: *mut u32, boxes_len: usize, answers: *mut u32, answers_len: usize,
) -> u32 {
    unsafe {
        let mut t = TreeTables {
            center_order: lent(center_order, center_order_len),
            water_order: lent(water_order, water_order_len),
            records: lent(records, records_len),
            boxes: lent(boxes, boxes_len),
            leaves: None,
        };
        let answer = grow(
            [lx, ly, lz, hx, hy, hz],
            given(solutes, solutes_len),
            given(waters, waters_len),
            given(starts, starts_len),
            given(picks, picks_len),
            &mut t,
            reading::tree,
        );
        give(answer, lent(answers, answers_len))
    }
}

#[unsafe(no_mangle)]
pub unsafe extern "C" fn baithrum_report(
    lx: f32, ly: f32, lz: f32, hx: f32, hy: f32, hz: f32, solutes: *const f32, solutes_len: usize,
    waters: *const f32, waters_len: usize, starts: *const u32, starts_len: usize,
    picks: *const u32, picks_len: usize, center_order: *mut u32, center_order_len: usize,
    water_order: *mut u32, water_order_len: usize, records: *mut u32, records_len: usize,
    boxes: *mut u32, boxes_len: usize, leaves: *mut u32, leaves_len: usize,
    answers: *mut u32, answers_len: usize,
) -> u32 {
    unsafe {
        let unlimited = fault("report: the leaf table is no node table");
        let mut long = vec![0; if unlimited { 8 * records_len } else { 0 }];
        let mut t = TreeTables {
            center_order: lent(center_order, center_order_len),
            water_order: lent(water_order, water_order_len),
            records: lent(records, records_len),
            boxes: lent(boxes, boxes_len),
            leaves: Some(if unlimited { &mut long } else { lent(leaves, leaves_len) }),
        };
        let mut answer = grow(
            [lx, ly, lz, hx, hy, hz],
            given(solutes, solutes_len),
            given(waters, waters_len),
            given(starts, starts_len),
            given(picks, picks_len),
            &mut t,
            reading::report,
        );
        if unlimited {
            let own = lent(leaves, leaves_len);
            if let Ok(a) = answer {
                let words = (8 * a[2] as usize).min(leaves_len);
                own[..words].copy_from_slice(&long[..words]);
            } else if answer == Err(13) {
                own.fill(0);
            }
        } else if fault("report: dry leaves are those with a dry shell") {
            if let (Ok(a), Some(table)) = (&mut answer, &t.leaves) {
                a[3] = table.chunks(8).take(a[2] as usize).filter(|leaf| leaf[4] == 0).count() as u32;
            }
        } else if fault("report: the minimum image rounds the number below a half up") {
            if let (Ok(a), Some(table)) = (&answer, &mut t.leaves) {
                let cell = reading::simbox([lx, ly, lz, hx, hy, hz]);
                for leaf in table.chunks_mut(8).take(a[2] as usize) {
                    let sides = &t.boxes[6 * leaf[0] as usize..];
                    leaf[4] = images::shell(&cell, sides, given(waters, waters_len), rust::SHELL, images::half_added);
                }
            }
        }
        give(answer, lent(answers, answers_len))
    }
}

#[unsafe(no_mangle)]
pub unsafe extern "C" fn baithrum_frame(
    lx: f32, ly: f32, lz: f32, hx: f32, hy: f32, hz: f32, cutoff: f32, solutes: *const f32, solutes_len: usize,
    per: usize, indices: *const u32, indices_len: usize, waters: *const f32, waters_len: usize,
    starts: *mut u32, starts_len: usize, picks: *mut u32, picks_len: usize,
    clusters: *mut u32, clusters_len: usize, center_order: *mut u32, center_order_len: usize,
    water_order: *mut u32, water_order_len: usize, records: *mut u32, records_len: usize,
    boxes: *mut u32, boxes_len: usize, leaves: *mut u32, leaves_len: usize,
    answers: *mut u32, answers_len: usize,
) -> u32 {
    unsafe {
        let cutoff = if fault("frame: its cutoff is not looked at, 4.2 is used") { CUTOFF } else { cutoff };
        let input = FrameInput {
            cell: [lx, ly, lz, hx, hy, hz],
            cutoff,
            solutes: given(solutes, solutes_len),
            per,
            indices: given(indices, indices_len),
            waters: given(waters, waters_len),
        };
        let work = reading::frame_picks(&input).map(|some| {
            let at = if fault("frame: contacts at 4.2 whatever the cutoff") { CUTOFF } else { cutoff };
            let mut touch = |p: &Picked, i: usize, j: usize| p.touch(at, i, j);
            some.map(|(kept, picked)| FrameWork::new(kept, picked, cutoff, input.waters, &mut touch))
        });
        let mut t = TreeTables {
            center_order: lent(center_order, center_order_len),
            water_order: lent(water_order, water_order_len),
            records: lent(records, records_len),
            boxes: lent(boxes, boxes_len),
            leaves: Some(lent(leaves, leaves_len)),
        };
        let table = lent(clusters, clusters_len);
        let before = table.to_vec();
        let answer = reading::frame(&work, lent(starts, starts_len), lent(picks, picks_len), table, &mut t);
        if reading::cutoff_refused(cutoff) {
            if fault("frame: 16 before blank") && matches!(answer, Ok([1, ..])) {
                return 16;
            }
            if fault("frame: 16 before 5 and 6") && matches!(answer, Err(5 | 6)) {
                return 16;
            }
            if fault("frame: 16 after 7") && answer == Err(16) {
                let (kept, _) = reading::frame_picks(&FrameInput { cutoff: CUTOFF, ..input }).unwrap().unwrap();
                let lengths = [starts_len, picks_len, clusters_len, center_order_len, water_order_len];
                if reading::frame_short(&kept, reading::finite_waters(input.waters), lengths) {
                    return 7;
                }
            }
        }
        if let Ok([0, .., leaves, _]) = answer {
            if fault("frame: the table has the bits of 4.2 whatever the cutoff") {
                table[2] = CUTOFF.to_bits();
            }
            if fault("frame: shells are as wide as the cutoff") {
                let cell = reading::simbox(input.cell);
                for leaf in t.leaves.as_mut().unwrap().chunks_mut(8).take(leaves as usize) {
                    leaf[4] = images::shell(&cell, &t.boxes[6 * leaf[0] as usize..], input.waters, cutoff, f32::round);
                }
            }
        }
        if let Ok([1, ..]) = answer {
            if fault("frame: 5 before blank")
                && reading::select_by_words(input.solutes, per, input.indices).len() > 4_096
            {
                return 5;
            }
            if fault("frame: a blank frame writes its tables") {
                t.records.fill(0);
            }
        }
        if answer == Err(13) && fault("frame: the process ends at 13") {
            std::process::abort();
        }
        if answer == Err(13) && fault("frame: at 13 the clusters are not filled") {
            table.copy_from_slice(&before);
        }
        if fault("frame: a word past the answers is written") && answers_len > 0 {
            *answers.add(answers_len) = 0;
        }
        give(answer, lent(answers, answers_len))
    }
}

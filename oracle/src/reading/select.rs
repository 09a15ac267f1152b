//! Select: kept copies and their picks.

use super::*;
use original::properties::opened::access as rust;

/// The atom numbers picked from each kept copy, with no limit on them, by the original: it looks at nothing but
/// whether an atom is finite, so each finite atom is given its own number as a coordinate.
pub fn select_all(solutes: &[f32], per: usize, indices: &[u32]) -> Vec<Vec<u32>> {
    let numbered: Vec<Vec3> = points(solutes)
        .into_iter()
        .enumerate()
        .map(|(i, p)| {
            if finite(p) {
                Vec3::new(i as f32, 0.0, 0.0)
            } else {
                Vec3::new(f32::NAN, 0.0, 0.0)
            }
        })
        .collect();
    let indices: Vec<usize> = indices.iter().map(|&i| i as usize).collect();
    let selected = rust::selected(&numbered, per, &indices);
    selected
        .into_iter()
        .map(|mol| mol.into_iter().map(|p| p.x as u32).collect())
        .collect()
}

/// The same by the rules' words, without the original. The driver holds the two together.
pub fn select_by_words(solutes: &[f32], per: usize, indices: &[u32]) -> Vec<Vec<u32>> {
    let atoms = points(solutes);
    let mut kept = Vec::new();
    if per == 0 {
        return kept;
    }
    for copy in 0..atoms.len() / per {
        let first = copy * per;
        let mut picked = Vec::new();
        for &index in indices {
            if (index as usize) < per && finite(atoms[first + index as usize]) {
                picked.push((first + index as usize) as u32);
            }
        }
        if picked.is_empty() {
            picked.extend((first..first + per).filter(|&a| finite(atoms[a])).map(|a| a as u32));
        }
        if !picked.is_empty() {
            kept.push(picked);
        }
    }
    kept
}

pub(crate) fn write_lists(kept: &[Vec<u32>], starts: &mut [u32], picks: &mut [u32]) {
    let mut at = 0;
    starts[0] = 0;
    for (copy, picked) in kept.iter().enumerate() {
        for &p in picked {
            picks[at] = p;
            at += 1;
        }
        starts[copy + 1] = at as u32;
    }
}

pub(crate) fn count(kept: &[Vec<u32>]) -> usize {
    kept.iter().map(Vec::len).sum()
}

pub fn select(
    solutes: &[f32],
    per: usize,
    indices: &[u32],
    starts: &mut [u32],
    picks: &mut [u32],
) -> Answer<[u32; 2]> {
    if uneven(solutes) {
        return Err(1);
    }
    if solutes.len() / 3 > ATOMS || indices.len() > INDICES {
        return Err(2);
    }
    if coordinate_over(solutes) {
        return Err(4);
    }
    let kept = select_all(solutes, per, indices);
    if kept.len() > COPIES {
        return Err(5);
    }
    if count(&kept) > PICKS {
        return Err(6);
    }
    if starts.len() < kept.len() + 1 || picks.len() < count(&kept) {
        return Err(7);
    }
    write_lists(&kept, starts, picks);
    Ok([kept.len() as u32, count(&kept) as u32])
}

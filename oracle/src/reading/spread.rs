//! Centers and dispersion.

use super::*;
use original::properties::opened::access as rust;

pub fn centers(picked: &Answer<Picked>, table: &mut [u32]) -> Answer<[u32; 0]> {
    let p = picked.as_ref().map_err(|e| *e)?;
    if table.len() < 3 * p.n() {
        return Err(7);
    }
    for (i, c) in rust::centers(&p.mols, &p.cell).into_iter().enumerate() {
        table[3 * i] = c.x.to_bits();
        table[3 * i + 1] = c.y.to_bits();
        table[3 * i + 2] = c.z.to_bits();
    }
    Ok([])
}

pub fn dispersion(picked: &Answer<Picked>) -> Answer<[u32; 1]> {
    let p = picked.as_ref().map_err(|e| *e)?;
    Ok([rust::dispersion(&p.mols, &p.cell).to_bits()])
}

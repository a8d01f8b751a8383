//! Document 02's rules for counting from the middle key (W1): what the degree, the pitch and the run of keys should be, refusals and their
//! order included. They share nothing with the proved library, and where the Rust has a mapping that counts so it must say the same.

use crate::ffi_kbm::Mapping;
use crate::ffi_scl::{Columns, Item};
use crate::kbm_use::is_wrong;
use crate::rules::UNMAPPED;
use crate::rules_tuning::{Answer, is_pitch, items_in, reach, relative};

/// "Middle is the exact sum of reference and offset."
pub fn middle(m: Mapping) -> i64 {
    i64::from(m.reference) + i64::from(m.offset)
}

/// The entries of a lent table, or 10.
pub fn entries(m: Mapping, map: &[i32]) -> Answer<&[i32]> {
    map.get(..m.count.into()).filter(|entries| !entries.iter().any(|&entry| is_wrong(entry))).ok_or(10)
}

fn held(z: i64) -> Answer<i32> {
    i32::try_from(z).map_err(|_| 11)
}

/// Octaves and entry at so many keys from the middle key: d = q*size + r, 0 <= r < size.
pub fn split(d: i64, size: i64) -> (i64, i64) {
    let r = (d % size + size) % size;
    ((d - r) / size, r)
}

/// The degree at so many keys from the middle key: "11 for d", the number of an unmapped entry, "11".
fn at(m: Mapping, entries: &[i32], d: i64, unmapped: u64) -> Answer<i32> {
    let degree = held(d)?;
    if entries.is_empty() {
        return Ok(degree);
    }
    let (q, r) = split(d, entries.len() as i64);
    match entries[r as usize] {
        UNMAPPED => Err(unmapped),
        entry => held(i64::from(entry) + q * i64::from(m.octave)),
    }
}

fn key_degree(m: Mapping, entries: &[i32], key: i32) -> Answer<i32> {
    if key < m.start || m.end <= key {
        return Err(16);
    }
    at(m, entries, i64::from(key) - middle(m), 17)
}

/// "The range doesn't limit the reference key." "For the reference key 11 for d, 19, 11."
pub fn reference_degree(m: Mapping, entries: &[i32]) -> Answer<i32> {
    at(m, entries, i64::from(m.reference) - middle(m), 19)
}

/// "d is key minus middle key"; the rest as document 01 has it: 10, 16, 11 for d, 17, 11.
pub fn degree(m: Mapping, map: &[i32], key: i32) -> Answer<i32> {
    key_degree(m, entries(m, map)?, key)
}

/// "The pitch is reference pitch divided by the relative pitch of the reference key's own degree, times that of the key's degree."
fn sounded(items: &[Item], m: Mapping, entries: &[i32], key: i32) -> Answer<f64> {
    let degree = key_degree(m, entries, key)?;
    let own = reference_degree(m, entries)?;
    let root = reach(m.pitch() / relative(items, own)?)?;
    reach(root * relative(items, degree)?)
}

/// All that is 10: the items, the table, the root's pitch.
fn usable<'a>(c: &Columns, count: u16, m: Mapping, map: &'a [i32]) -> Answer<(Vec<Item>, &'a [i32])> {
    let items = items_in(c, count).filter(|_| is_pitch(m.pitch())).ok_or(10u64)?;
    Ok((items, entries(m, map)?))
}

pub fn pitch(c: &Columns, count: u16, m: Mapping, map: &[i32], key: i32) -> Answer<f64> {
    let (items, entries) = usable(c, count, m, map)?;
    sounded(&items, m, entries, key)
}

/// A run of keys into so many places: 10, then 12, then each key for itself, 11 where there is none.
pub fn run(c: &Columns, count: u16, m: Mapping, map: &[i32], first: i32, keys: u32, places: usize) -> Answer<Vec<Answer<f64>>> {
    let (items, entries) = usable(c, count, m, map)?;
    if keys as usize > places {
        return Err(12);
    }
    let asked = (0..i64::from(keys)).map(|k| held(i64::from(first) + k));
    Ok(asked.map(|key| sounded(&items, m, entries, key?)).collect())
}

//! Inputs for counting from the middle key: mappings with offsets around 0, the size of the table, 127 and the ends of 32 bits, with
//! reference keys inside and outside the range; their keys; scales; and random ones.

use crate::ffi_kbm::Mapping;
use crate::ffi_scl::Push::{self, Cents, Fraction, Int};
use crate::inputs::{Random, drawn, fixed};
use crate::lent::Float;
use crate::rules::UNMAPPED;
use crate::rules_middle::middle;
use crate::rust_kbm;
use crate::tuning::{self, BAD_HZ, Built};
use std::collections::BTreeSet;

/// A mapping, and the table that is lent beside it.
pub type Lent = (Mapping, Vec<i32>);

const X: i32 = UNMAPPED;
const MIN: i32 = i32::MIN;
const MAX: i32 = i32::MAX;

const TABLES: [&[i32]; 8] = [
    &[],
    &[0],
    &[X],
    &[0, X, 2],
    &[X, 0],
    &[6, 5, 4, 3, 2, 1, 0],
    &[X, X, X, X, -7],
    &[4, X, -3, X, 32_767, -32_768, X, 0, 0, X, 1, 2],
];

const RANGES: [(i32, i32); 7] = [(57, 66), (-3, 2), (0, 16), (MAX - 4, MAX), (MIN, MIN + 4), (61, 60), (MIN, MAX)];

/// Below, at and above both ends of a range, far from it, and at the ends of 32 bits.
fn references((start, end): (i32, i32)) -> BTreeSet<i32> {
    let within = ((i64::from(start) + i64::from(end)) / 2) as i32;
    let near = [start.saturating_sub(1), start, within, end.saturating_sub(1), end];
    near.into_iter().chain([start.saturating_sub(140), end.saturating_add(70_001), MIN, 0, MAX]).collect()
}

fn offsets(size: i32) -> BTreeSet<i32> {
    let ways = [0, 1, 2, size - 1, size, size + 1, 126, 127, 128, 70_000, MAX - 1, MAX];
    ways.into_iter().flat_map(|steps| [steps, -steps]).chain([MIN]).collect()
}

/// Every table with every range, reference key and offset, each with another formal octave.
fn combined() -> impl Iterator<Item = Lent> {
    let tables = TABLES.into_iter().flat_map(|map| RANGES.into_iter().map(move |range| (map, range)));
    let rooted = tables.flat_map(|(map, range)| references(range).into_iter().map(move |reference| (map, range, reference)));
    let all = rooted.flat_map(|(map, range, reference)| {
        offsets(map.len() as i32).into_iter().map(move |offset| (map, range, reference, offset))
    });
    all.enumerate().map(|(k, (map, (start, end), reference, offset))| {
        let octave = [map.len() as i16, 5, 32_767, -7, 0, -32_768, 1, 12, -1][k % 9];
        let hz = Float::of([440.0, 261.6256, 2f64.powi(20), 2f64.powi(-10), 27.5][k % 5]);
        (Mapping { count: map.len() as u16, start, end, reference, hz, offset, octave }, map.to_vec())
    })
}

/// Mappings for every key from 0 to 127.
fn played() -> impl Iterator<Item = Lent> {
    let rooted = TABLES.into_iter().flat_map(|map| [60, 69, 140].into_iter().map(move |reference| (map, reference)));
    rooted.flat_map(|(map, reference)| {
        [-9, -7, 0, 2, 12].into_iter().map(move |offset| {
            let (hz, octave) = (Float::of(440.0), map.len() as i16);
            (Mapping { count: map.len() as u16, start: 0, end: 128, reference, hz, offset, octave }, map.to_vec())
        })
    })
}

/// A reference key whose own degree is -2147483648, so that minus it is no number of 32 bits; with the middle key 0 and beyond 32 bits.
fn unturned() -> impl Iterator<Item = Lent> {
    let keys = [(65_536, -65_536, 0, 16), (MIN, -65_536, MIN, MIN + 4)];
    keys.into_iter().map(|(reference, offset, start, end)| {
        let hz = Float::of(440.0);
        (Mapping { count: 1, start, end, reference, hz, offset, octave: -32_768 }, vec![0])
    })
}

/// The largest tables, with gaps: 256 and 65,535 entries.
fn wide() -> impl Iterator<Item = Lent> {
    let sizes = [256, 65_535].into_iter().flat_map(|size: u16| [-9, 0, 40_000].into_iter().map(move |offset| (size, offset)));
    sizes.map(|(size, offset)| {
        let map = (0..i32::from(size)).map(|k| if k % 7 == 3 { X } else { k % 30_000 }).collect();
        (Mapping { count: size, start: 0, end: 128, reference: 60, hz: Float::of(440.0), offset, octave: 12 }, map)
    })
}

const SIZES: [usize; 8] = [0, 1, 2, 3, 5, 7, 12, 31];

/// A mapping as files have it, or of any numbers, or with its middle key near an end of 32 bits, or with all its keys there.
pub fn random(random: &mut Random) -> Lent {
    let size = SIZES[random.next() as usize % 8];
    of_size(random, size)
}

/// The same, and some with 300 or 3,000 entries.
fn larger(random: &mut Random) -> Lent {
    let size = match random.next() as usize % 200 {
        0 => 3_000,
        1..=6 => 300,
        k => SIZES[k % 8],
    };
    of_size(random, size)
}

fn of_size(random: &mut Random, size: usize) -> Lent {
    let (mut m, mut map) = rust_kbm::random(random, size);
    let mut small = |most: i32| random.next() as i32 % most;
    let kind = small(8);
    match kind {
        0 | 1 => {}
        2 => {
            let end = if m.reference < 0 { MIN } else { MAX };
            m.offset = end.wrapping_sub(m.reference).wrapping_add(small(9));
        }
        3 => (m.start, m.end, m.reference, m.offset) = (MAX - 20, MAX, MAX - small(20).abs(), small(40)),
        4 => (m.start, m.end, m.reference, m.offset) = (MIN, MIN + 20, MIN + small(20).abs(), small(40)),
        _ => (m.start, m.end, m.reference, m.offset) = (small(40), 128 + small(40), 60 + small(80), small(40)),
    }
    if kind > 2 {
        m.octave = size as i16 + small(3) as i16;
        map.iter_mut().enumerate().filter(|(_, entry)| **entry != X).for_each(|(k, entry)| *entry = k as i32);
    }
    // a table may have more places than the mapping has entries
    if small(5) == 0 {
        map.push([40_000, X, 7][small(3).unsigned_abs() as usize]);
    }
    (m, map)
}

/// Mappings that cannot be used: a root's pitch, where a degree is answered as ever, and tables, where every call says 10.
fn unusable(seed: u64) -> impl Iterator<Item = Lent> {
    let mut stream = Random::new(seed);
    (0..400).map(move |k| {
        let (mut m, mut map) = random(&mut stream);
        match k % 4 {
            0 | 1 => m.hz = Float::of(BAD_HZ[k / 4 % BAD_HZ.len()]),
            2 => m.count += 1 + k as u16 % 3,
            _ => {
                map.insert(k / 4 % (map.len() + 1), [32_768, -32_769, 40_000, UNMAPPED + 1, MAX][k % 5]);
                m.count += 1;
            }
        }
        (m, map)
    })
}

/// The mappings of the comparison: so many are random.
pub fn mappings(seed: u64, count: usize) -> impl Iterator<Item = Lent> {
    let mut stream = Random::new(seed);
    let named = fixed(combined().chain(played()).chain(unturned()).chain(wide()));
    named.chain(drawn(count).map(move |_| larger(&mut stream))).chain(unusable(seed + 10))
}

/// Every key of a short range and two beside it, the ends of a long one, and keys at the reference key, the middle key and the ends of 32
/// bits.
pub fn keys(m: Mapping) -> BTreeSet<i32> {
    let (start, end) = (i64::from(m.start), i64::from(m.end));
    let short = (start..start + 40).contains(&end) || (start, end) == (0, 128);
    let range = if short { start - 2..end + 3 } else { start - 2..start + 3 };
    let near = [end, i64::from(m.reference), middle(m)].into_iter().flat_map(|key| key - 2..key + 3);
    range.chain(near).chain([MIN, MAX].map(i64::from)).filter_map(|key| key.try_into().ok()).collect()
}

/// Scales: none, one and more items, periods of 1/1 and below, and some that no build leaves.
pub fn scales() -> Vec<Built> {
    let unbuilt: [&[Push]; 6] = [
        &[Fraction(3, 2), Int(1)],
        &[Int(12), Cents(-239.922), Cents(0.0)],
        &[Cents(38_400.0)],
        &[Fraction(5, 4), Cents(-38_400.0)],
        &[Fraction(7, 5), Int(2)],
        &[Cents(-344.486), Fraction(12, 17), Fraction(1, 40), Cents(397.129), Int(3), Fraction(13, 37)],
    ];
    tuning::named().into_iter().chain(unbuilt.into_iter().map(Built::lent)).collect()
}

/// The same, and random ones of up to 100 items.
pub fn more_scales() -> Vec<Built> {
    scales().into_iter().chain(tuning::scales().take(300)).collect()
}

//! Document 01's rules for pitches and searches in lent tables: what every call should answer, the refusals that the Rust lacks (10,
//! 11, 18) included. It shares nothing with the proved library, and inside the Rust's domain the Rust must say the same.

use crate::ffi_kbm::Mapping;
use crate::ffi_scl::{Columns, Entry, Item};
use crate::{rules, rules_scl};
use tune::powers;

/// A value, or the number of a refusal; every detail is 0.
pub type Answer<T> = Result<T, u64>;

/// A root: reference key, pitch, and the steps up to the middle key.
#[derive(Clone, Copy, Debug)]
pub struct Root {
    pub reference: i32,
    pub hz: f64,
    pub offset: i32,
}

/// The items of a lent table, place 0 among them, or none where it is 10.
pub fn items_in(c: &Columns, count: u16) -> Option<Vec<Item>> {
    let places = usize::from(count) + 1;
    let (kind, cents, numer, denom) = (c.kind.get(..places)?, c.cents.get(..places)?, c.numer.get(..places)?, c.denom.get(..places)?);
    (0..places)
        .map(|k| match kind[k] {
            0 => Some(Item::Cents(cents[k])),
            1 => Some(Item::Fraction(numer[k], Some(denom[k]))),
            2 => Some(Item::Fraction(numer[k], None)),
            _ => None,
        })
        .map(|item| item.filter(|&item| rules_scl::usable(item)))
        .collect()
}

/// The entries of a lent list, or none where it is 10: "list ratios lie in 2^-900..2^900 and never fall, with places within the count".
pub fn list_in(c: &Columns, count: u16) -> Option<Vec<Entry>> {
    let places = usize::from(count) + 1;
    let (place, ratio, wraps) = (c.place.get(..places)?, c.ratio.get(..places)?, c.wraps.get(..places)?);
    let ratios: Vec<f64> = ratio.iter().map(|&bits| f64::from_bits(bits)).collect();
    let usable = ratios.iter().all(|&x| is_in_reach(x)) && ratios.windows(2).all(|two| two[0] <= two[1]) && place.iter().all(|&p| p <= u32::from(count));
    usable.then(|| (0..places).map(|k| (place[k], ratio[k], wraps[k])).collect())
}

fn is_in_reach(x: f64) -> bool {
    (2f64.powi(-900)..=2f64.powi(900)).contains(&x)
}

pub fn is_searched(x: f64) -> bool {
    (2f64.powi(-64)..=2f64.powi(64)).contains(&x)
}

pub fn is_pitch(x: f64) -> bool {
    (2f64.powi(-10)..=2f64.powi(20)).contains(&x)
}

/// "A computed pitch or ratio outside 2^-900..2^900 gives 18 at that step."
pub fn reach(x: f64) -> Answer<f64> {
    if is_in_reach(x) { Ok(x) } else { Err(18) }
}

fn ratio(item: Item) -> f64 {
    rules_scl::ratio(item).unwrap()
}

pub fn period(items: &[Item]) -> f64 {
    ratio(items[items.len() - 1])
}

/// Periods and place of a degree.
fn split(items: &[Item], degree: i32) -> (i32, usize) {
    match items.len() as i32 - 1 {
        0 => (0, 0),
        count => (degree.div_euclid(count), degree.rem_euclid(count) as usize),
    }
}

fn stretched(items: &[Item], periods: i32, ratio: f64) -> Answer<f64> {
    let octaves = powers::l(period(items)).unwrap() * f64::from(periods);
    reach(powers::e(octaves).ok_or(18u64)? * ratio)
}

pub fn relative(items: &[Item], degree: i32) -> Answer<f64> {
    let (periods, place) = split(items, degree);
    stretched(items, periods, ratio(items[place]))
}

pub fn sorted_relative(items: &[Item], list: &[Entry], degree: i32) -> Answer<f64> {
    let (periods, place) = split(items, degree);
    stretched(items, periods, f64::from_bits(list[place].1))
}

/// "A root offset of -2147483648 gives 11 in pitch calls, .. before 18."
fn root_pitch(items: &[Item], root: Root) -> Answer<f64> {
    reach(root.hz / relative(items, root.offset.checked_neg().ok_or(11u64)?)?)
}

pub fn pitch(items: &[Item], root: Root, degree: i32) -> Answer<f64> {
    reach(root_pitch(items, root)? * relative(items, degree)?)
}

pub fn sorted_pitch(items: &[Item], list: &[Entry], root: Root, degree: i32) -> Answer<f64> {
    reach(root_pitch(items, root)? * sorted_relative(items, list, degree)?)
}

/// The pitch of a key, counted from the reference key.
pub fn key_pitch(items: &[Item], root: Root, key: i32) -> Answer<f64> {
    pitch(items, root, key.checked_sub(root.reference).ok_or(11u64)?)
}

pub fn maybe_pitch(items: &[Item], m: Mapping, entries: &[i32], key: i32) -> Answer<f64> {
    let degree = rules::degree(m, entries, key).map_err(|(number, _)| number)?;
    pitch(items, Root { reference: m.reference, hz: m.pitch(), offset: m.offset }, degree)
}

/// What a search finds: an entry, where it stands, the periods below it, and the deviation. `twice`: the reduced target's bits are
/// those of two entries, which is outside the domain.
pub struct Found {
    place: u32,
    wraps: i32,
    index: usize,
    periods: i32,
    pub deviation: f64,
    pub twice: bool,
}

pub fn search(items: &[Item], list: &[Entry], x: f64) -> Answer<Found> {
    let count = items.len() - 1;
    let found = |index: usize, periods: i32, deviation: f64, twice: bool| Found { place: list[index].0, wraps: list[index].2, index, periods, deviation, twice };
    if count == 0 {
        return Ok(found(0, 0, x, false));
    }
    let period = period(items);
    let size = powers::l(period).unwrap();
    if count == 1 && size == 0.0 {
        return Err(18);
    }
    let (periods, target) = if (0.999999..1.000001).contains(&period) {
        (0, x)
    } else {
        let octaves = powers::l(x).ok_or(18u64)?;
        (octaves.div_euclid(size) as i32, powers::e(octaves.rem_euclid(size)).ok_or(18u64)?)
    };
    let ratios: Vec<f64> = list.iter().map(|entry| f64::from_bits(entry.1)).collect();
    let upper = ratios.iter().position(|&r| r >= target).unwrap_or(count + 1).clamp(1, count);
    let up = reach(ratios[upper] / target)?;
    let down = reach(target / ratios[upper - 1])?;
    let twice = ratios.iter().filter(|r| r.to_bits() == target.to_bits()).count() > 1;
    if reach(down * 0.999999)? < up {
        Ok(found(upper - 1, periods, down, twice))
    } else {
        Ok(found(upper, periods, reach(1.0 / up)?, twice))
    }
}

/// The search of a computed ratio: 18 outside 2^-64..2^64.
pub fn search_pitch(items: &[Item], list: &[Entry], root: Root, pitch: f64) -> Answer<Found> {
    let x = reach(pitch / root_pitch(items, root)?)?;
    if is_searched(x) { search(items, list, x) } else { Err(18) }
}

/// A number that is computed on the way, and whether the Rust's steps in 32 bits overflow at it or before.
fn held(steps: &[i64]) -> (Answer<i32>, bool) {
    let last = steps[steps.len() - 1];
    (i32::try_from(last).map_err(|_| 11), steps.iter().any(|&step| i32::try_from(step).is_err()))
}

/// The declared degree: its exact value or 11, and whether the Rust overflows.
pub fn declared(found: &Found, count: u16) -> (Answer<i32>, bool) {
    let up = i64::from(found.periods) - i64::from(found.wraps);
    held(&[up, up * i64::from(count), i64::from(found.place) + up * i64::from(count)])
}

pub fn ascending(found: &Found, count: u16) -> (Answer<i32>, bool) {
    let up = i64::from(found.periods) * i64::from(count);
    held(&[up, found.index as i64 + up])
}

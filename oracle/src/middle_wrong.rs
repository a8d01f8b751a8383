//! For `oracle judged`: wrong ways to count from the middle key. The fixed cases of the comparison must tell each from the right one.

use crate::ffi_kbm::Mapping;
use crate::ffi_scl::Item;
use crate::middle_cases::{Case, LISTED};
use crate::middle_traps::TRAPS;
use crate::rules::UNMAPPED;
use crate::rules_middle::{entries, middle, split};
use crate::rules_tuning::{Answer, is_pitch, items_in, reach, relative};
use crate::tuning::Built;

/// What is asked, its table and its items being usable.
struct Asked<'a> {
    items: &'a [Item],
    m: Mapping,
    entries: &'a [i32],
    key: i32,
}

impl Asked<'_> {
    /// What is answered where the range has a key; else 16.
    fn within<T>(&self, key: i64, answer: Answer<T>) -> Answer<T> {
        if (i64::from(self.m.start)..self.m.end.into()).contains(&key) { answer } else { Err(16) }
    }

    /// Keys from the middle key up to the reference key.
    fn own(&self) -> i64 {
        -i64::from(self.m.offset)
    }

    fn relative(&self, degree: i32) -> Answer<f64> {
        relative(self.items, degree)
    }
}

/// A way to count and to sound, in parts of which one is wrong.
#[derive(Clone, Copy)]
struct Way {
    /// The key that is counted from; octaves and place of a distance; a distance, an octave and a degree as they are taken.
    origin: fn(&Asked) -> Answer<i64>,
    split: fn(i64, i64) -> (i64, i64),
    d: fn(i64) -> Answer<i64>,
    octave: fn(&Asked) -> i64,
    degree: fn(i64) -> Answer<i32>,
    /// The asked key's degree of what it has at its distance; the reference key's.
    ranged: fn(&Asked, Answer<i32>) -> Answer<i32>,
    reference: fn(&Asked, &Way) -> Answer<i32>,
    /// What the calls say of the two.
    told: fn(&Asked, Answer<i32>, Answer<i32>) -> Answer<i32>,
    pitch: fn(&Asked, Answer<i32>, Answer<i32>) -> Answer<f64>,
}

fn held(z: i64) -> Answer<i32> {
    i32::try_from(z).map_err(|_| 11)
}

fn steps(a: &Asked, key: Answer<i32>, own: Answer<i32>) -> Answer<f64> {
    let (key, own) = (key?, own?);
    let root = reach(a.m.pitch() / a.relative(own)?)?;
    reach(root * a.relative(key)?)
}

const RIGHT: Way = Way {
    origin: |a| Ok(middle(a.m)),
    split,
    d: |d| held(d).map(i64::from),
    octave: |a| a.m.octave.into(),
    degree: held,
    ranged: |a, degree| a.within(a.key.into(), degree),
    reference: |a, way| way.at(a, a.own(), 19),
    told: |_, key, _| key,
    pitch: steps,
};

impl Way {
    fn at(&self, a: &Asked, d: i64, unmapped: u64) -> Answer<i32> {
        let d = (self.d)(d)?;
        if a.entries.is_empty() {
            return (self.degree)(d);
        }
        let (q, r) = (self.split)(d, a.entries.len() as i64);
        match a.entries[r as usize] {
            UNMAPPED => Err(unmapped),
            entry => (self.degree)(i64::from(entry) + q * (self.octave)(a)),
        }
    }

    /// What both calls say.
    fn said(&self, a: &Asked) -> (Answer<i32>, Answer<u64>) {
        let counted = (self.origin)(a).and_then(|origin| self.at(a, i64::from(a.key) - origin, 17));
        let (key, own) = ((self.ranged)(a, counted), (self.reference)(a, self));
        let pitch = if is_pitch(a.m.pitch()) { (self.pitch)(a, key, own) } else { Err(10) };
        ((self.told)(a, key, own), pitch.map(f64::to_bits))
    }
}

/// What is wrong in each.
type Wrong = (&'static str, Way);

const COUNTED: [Wrong; 15] = [
    ("counted from the reference key", Way { origin: |a| Ok(a.m.reference.into()), ..RIGHT }),
    ("with no entries from the reference key", Way { origin: old_if_free, ..RIGHT }),
    ("the offset taken off", Way { origin: |a| Ok(i64::from(a.m.reference) - i64::from(a.m.offset)), ..RIGHT }),
    ("a middle key of 32 bits, gone round", Way { origin: |a| Ok(a.m.reference.wrapping_add(a.m.offset).into()), ..RIGHT }),
    ("a middle key of 32 bits, held at the end", Way { origin: |a| Ok(a.m.reference.saturating_add(a.m.offset).into()), ..RIGHT }),
    ("a middle key beyond 32 bits is 11", Way { origin: |a| held(middle(a.m)).map(i64::from), ..RIGHT }),
    ("a middle key outside the range is 16", Way { origin: |a| a.within(middle(a.m), Ok(middle(a.m))), ..RIGHT }),
    ("towards zero", Way { split: to_zero, ..RIGHT }),
    ("towards zero, the place right", Way { split: |d, size| (d / size, d.rem_euclid(size)), ..RIGHT }),
    ("d is not tested", Way { d: Ok, ..RIGHT }),
    ("d of 32 bits, gone round", Way { d: |d| Ok((d as i32).into()), ..RIGHT }),
    ("the size for the formal octave", Way { octave: |a| a.entries.len() as i64, ..RIGHT }),
    ("a degree of 32 bits, gone round", Way { degree: |z| Ok(z as i32), ..RIGHT }),
    ("16 after 11 and 17", Way { ranged: |a, degree| degree.and_then(|z| a.within(a.key.into(), Ok(z))), ..RIGHT }),
    ("the last key is none", Way { ranged: |a, degree| a.within(i64::from(a.key) + 1, degree), ..RIGHT }),
];

const REFERENCE: [Wrong; 9] = [
    ("the range limits the reference key", Way { reference: |a, way| a.within(a.m.reference.into(), way.at(a, a.own(), 19)), ..RIGHT }),
    ("17 of the reference key", Way { reference: |a, way| way.at(a, a.own(), 17), ..RIGHT }),
    ("minus the offset for the reference key's degree", Way { reference: |a, _| held(a.own()), ..RIGHT }),
    ("degree 0 for the reference key's", Way { reference: |_, _| Ok(0), ..RIGHT }),
    ("11 before 19, by the octaves alone", Way { reference: eleven_first, ..RIGHT }),
    ("19 before 11 for d", Way { reference: nineteen_first, ..RIGHT }),
    ("minus the reference key's degree in 32 bits", Way { reference: turned, ..RIGHT }),
    ("minus the offset in 32 bits, gone round", Way { reference: |a, way| way.at(a, a.m.offset.wrapping_neg().into(), 19), ..RIGHT }),
    ("towards zero for the reference key alone", Way { reference: |a, way| Way { split: to_zero, ..*way }.at(a, a.own(), 19), ..RIGHT }),
];

const SOUNDED: [Wrong; 8] = [
    ("19 before the key's refusals", Way { pitch: |a, key, own| first(19, a, key, own), ..RIGHT }),
    ("the reference key's 11 before the key's refusals", Way { pitch: |a, key, own| first(11, a, key, own), ..RIGHT }),
    ("18 before 19 and 11", Way { pitch: |a, key, own| key.and_then(|z| a.relative(z)).and_then(|_| steps(a, key, own)), ..RIGHT }),
    ("the quotient of both first", Way { pitch: |a, key, own| two(a, key, own, |hz, root, key| Ok(reach(key / root)? * hz)), ..RIGHT }),
    ("the product first", Way { pitch: |a, key, own| two(a, key, own, |hz, root, key| Ok(reach(hz * key)? / root)), ..RIGHT }),
    ("18 at the end alone", Way { pitch: |a, key, own| two(a, key, own, |hz, root, key| Ok(hz / root * key)), ..RIGHT }),
    ("of the difference", Way { pitch: |a, key, own| reach(a.m.pitch() * a.relative(key?.wrapping_sub(own?))?), ..RIGHT }),
    ("the reference key's pitch as it is", Way { pitch: as_it_is, ..RIGHT }),
];

const TOLD: [Wrong; 4] = [
    ("19 for 17 of a degree", Way { told: |_, key, _| key.map_err(|number| if number == 17 { 19 } else { number }), ..RIGHT }),
    ("19 of a degree, by the reference key", Way { told: |_, key, own| if own == Err(19) { Err(19) } else { key }, ..RIGHT }),
    ("a degree asks for the root's pitch", Way { told: |a, key, _| if is_pitch(a.m.pitch()) { key } else { Err(10) }, ..RIGHT }),
    ("11 of a degree for offset -2147483648", Way { told: least_offset, ..RIGHT }),
];

fn least_offset(a: &Asked, key: Answer<i32>, _: Answer<i32>) -> Answer<i32> {
    if a.m.offset == i32::MIN { key.and(Err(11)) } else { key }
}

fn to_zero(d: i64, size: i64) -> (i64, i64) {
    (d / size, (d % size).abs())
}

fn old_if_free(a: &Asked) -> Answer<i64> {
    Ok(if a.entries.is_empty() { a.m.reference.into() } else { middle(a.m) })
}

fn eleven_first(a: &Asked, way: &Way) -> Answer<i32> {
    if !a.entries.is_empty() {
        held(split(a.own(), a.entries.len() as i64).0 * i64::from(a.m.octave))?;
    }
    way.at(a, a.own(), 19)
}

fn nineteen_first(a: &Asked, way: &Way) -> Answer<i32> {
    let untested = Way { d: Ok, ..*way }.at(a, a.own(), 19);
    untested.and_then(|degree| held(a.own()).and(Ok(degree)))
}

/// By an offset that is minus it.
fn turned(a: &Asked, way: &Way) -> Answer<i32> {
    way.at(a, a.own(), 19)?.checked_neg().map(i32::wrapping_neg).ok_or(11)
}

/// This number of the reference key before all of the asked key.
fn first(number: u64, a: &Asked, key: Answer<i32>, own: Answer<i32>) -> Answer<f64> {
    if own == Err(number) { Err(number) } else { steps(a, key, own) }
}

fn as_it_is(a: &Asked, key: Answer<i32>, own: Answer<i32>) -> Answer<f64> {
    steps(a, key, own).map(|hz| if key == own { a.m.pitch() } else { hz })
}

/// Two steps of another kind, of the pitch and both relative pitches.
fn two(a: &Asked, key: Answer<i32>, own: Answer<i32>, steps: fn(f64, f64, f64) -> Answer<f64>) -> Answer<f64> {
    let (key, own) = (key?, own?);
    let root = a.relative(own)?;
    reach(steps(a.m.pitch(), root, a.relative(key)?)?)
}

/// Whether a way says what is listed of a case. A table that cannot be used is 10 in every way.
fn is_listed(way: &Way, case: &Case) -> bool {
    let (b, m) = (Built::lent(case.items), case.mapping);
    let (Some(items), Ok(entries)) = (items_in(&b.columns, b.count), entries(m, case.map)) else { return true };
    way.said(&Asked { items: &items, m, entries, key: case.key }) == case.middle
}

fn cases() -> impl Iterator<Item = &'static Case> {
    LISTED.iter().chain(&TRAPS)
}

/// What would pass unseen.
pub fn unseen() -> Vec<String> {
    let ways = COUNTED.iter().chain(&REFERENCE).chain(&SOUNDED).chain(&TOLD);
    let wrong = ways.filter(|(_, way)| cases().all(|case| is_listed(way, case)));
    let otherwise = cases().filter(|case| !is_listed(&RIGHT, case));
    let right = otherwise.map(|case| format!("counting from the middle key: the right way, {:?}, key {}", case.mapping, case.key));
    wrong.map(|(what, _)| format!("counting from the middle key: {what}")).chain(right).collect()
}

//! Counting from the middle key: the listed cases and the traps, each beside the library, the rules and the Rust, where it has the
//! mapping.

use crate::ffi::OLD_I32;
use crate::ffi_kbm::{self, Mapping};
use crate::ffi_middle as ffi;
use crate::ffi_scl::Push;
use crate::ffi_tuning;
use crate::lent::Float;
use crate::middle::{degree, pitch, places, run};
use crate::middle_cases::{Case, Given, LISTED};
use crate::middle_traps::{RUNS, Run, TRAPS};
use crate::rules_middle::entries;
use crate::rules_tuning::is_pitch;
use crate::tally::{Report, Said, Tally, Who};
use crate::tuning::{self, Built};
use crate::{kbm_use, rust_kbm};
use std::fmt::Debug;

/// A listed answer, by whoever said it here.
fn given<T>(who: Who, answer: Result<T, u64>, old: T) -> Said<T> {
    match answer {
        Ok(value) => Said::gives(who, value),
        Err(number) => Said::refused(who, number, 0, old),
    }
}

/// What is said here, which must be what is listed.
fn listed<T: PartialEq + Debug>(tally: &mut Tally, what: &impl Debug, said: Said<T>, answer: Result<T, u64>, old: T) -> Said<T> {
    let listed = given(said.who, answer, old);
    tally.require(said.code == listed.code && said.value == listed.value, (what, "is said otherwise", &said.value));
    listed
}

/// Both answers of a case as they are listed.
fn both(tally: &mut Tally, what: &impl Debug, said: (Said<i32>, Said<Float>), (degree, hz): Given) -> (Said<i32>, Said<Float>) {
    let pitch = listed(tally, what, said.1, hz.map(Float::Is), Float::Untouched);
    (listed(tally, what, said.0, degree, OLD_I32), pitch)
}

/// Counted from the reference key: the Rust on the mapping itself.
fn from_reference(b: &Built, m: Mapping, map: &[i32], key: i32) -> (Said<i32>, Said<Float>) {
    if entries(m, map).is_err() {
        return (Said::refused(Who::Rules, 10, 0, OLD_I32), Said::refused(Who::Rules, 10, 0, Float::Untouched));
    }
    let pitch = match is_pitch(m.pitch()) {
        true => tuning::maybe_pitch(b, m, map, &rust_kbm::of(m, map), key),
        false => Said::refused(Who::Rules, 10, 0, Float::Untouched),
    };
    (kbm_use::degree(m, map, key), pitch)
}

fn one(tally: &mut Tally, case: &Case) {
    let (b, m, map, key) = (&Built::lent(case.items), case.mapping, case.map, case.key);
    let what = (case.items, m, map, key);
    let old = both(tally, &what, from_reference(b, m, map, key), case.reference);
    tally.same(what, ffi_kbm::scale_degree_of(m, map, key), old.0);
    tally.same(what, ffi_tuning::maybe_pitch_of(&b.columns, b.count, m, map, key), old.1);
    let new = both(tally, &what, (degree(m, map, key), pitch(b, m, map, key)), case.middle);
    tally.same(what, ffi::scale_degree_from_middle(m, map, key), new.0);
    tally.same(what, ffi::maybe_pitch_from_middle(&b.columns, b.count, m, map, key), new.1);
    // and as a run of one key: 10 refuses it, and any other number stands beside the key
    let said = match case.middle.1 {
        Err(10) => Err(10),
        answer => Ok(vec![answer]),
    };
    one_run(tally, (case.items, m, map), (key, 1), (2, 3), said);
}

/// What is lent to a run: items, mapping and table.
type Lent<'a> = (&'a [Push], Mapping, &'a [i32]);

/// A run as it is listed.
fn one_run(tally: &mut Tally, (items, m, map): Lent, keys: ffi::Keys, lent: (usize, usize), said: Result<Vec<Result<u64, u64>>, u64>) {
    let (b, old) = (&Built::lent(items), places(lent.0, lent.1));
    let (mut ours, mut after) = (old.clone(), old.clone());
    let code = ffi::pitches_from_middle(&b.columns, b.count, m, map, keys, &mut ours.0, &mut ours.1);
    for (k, answer) in said.iter().flatten().enumerate() {
        after.1[k] = answer.err().unwrap_or(0) as u32;
        after.0[k] = answer.unwrap_or(after.0[k]);
    }
    let listed = listed(tally, &(items, m, map, keys), run(b, m, map, keys, &old), said.map(|_| after), old);
    tally.same((items, m, map, keys), (code, ours), listed);
}

pub fn compare(all: &mut Report) {
    all.function("middle key, fixed", &[10, 11, 12, 16, 17, 18, 19], |tally| {
        LISTED.iter().chain(&TRAPS).for_each(|case| one(tally, case));
        for Run { items, mapping, map, first, keys, places, said } in RUNS {
            one_run(tally, (items, mapping, map), (first, keys), places, said.map(<[_]>::to_vec));
        }
    });
}

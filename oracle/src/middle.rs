//! Counting from the middle key (document 02, W1). The new counting is the Rust's own for another mapping: its reference key is the middle
//! key, its offset is minus the reference key's own degree, and all else is the same. Where the Rust has that mapping it must say the
//! same, bit for bit; where it has none, the rules of `rules_middle` decide. Each kind has lines of its own, so that none can lack cases.

use crate::ffi::{OLD_I32, OLD_U32};
use crate::ffi_kbm::Mapping;
use crate::ffi_middle::{self as ffi, Keys};
use crate::inputs::{Random, with_fixed};
use crate::lent::{self, Float};
use crate::middle_fixed;
use crate::middle_inputs::{keys, mappings, more_scales};
use crate::rules::UNMAPPED;
use crate::rules_middle as rules;
use crate::rules_tuning::is_pitch;
use crate::tally::{Code, Report, Said, Tally, Who};
use crate::tuning::{self, Built, bad_tables, by_rules};
use crate::{kbm_use, rust_kbm};

/// The Rust's mapping that has these degrees. None where the middle key is no key, or the table cannot be used.
fn moved(m: Mapping, map: &[i32]) -> Option<Mapping> {
    rules::entries(m, map).ok()?;
    Some(Mapping { reference: rules::middle(m).try_into().ok()?, ..m })
}

/// The Rust's mapping that has these pitches. None besides where the reference key has no degree, or minus it is none, or the pitch
/// cannot be used.
fn rooted(m: Mapping, map: &[i32]) -> Option<Mapping> {
    let moved = moved(m, map).filter(|_| is_pitch(m.pitch()))?;
    Some(Mapping { offset: rules::reference_degree(m, rules::entries(m, map).ok()?).ok()?.checked_neg()?, ..moved })
}

/// What the Rust says of the moved mapping, which the rules must say too.
fn agreed<T: PartialEq>(theirs: Said<T>, ruled: Said<T>) -> Said<T> {
    if theirs.code == ruled.code && theirs.value == ruled.value { theirs } else { Said::fault(ruled.value) }
}

pub fn degree(m: Mapping, map: &[i32], key: i32) -> Said<i32> {
    let ruled = by_rules(rules::degree(m, map, key), OLD_I32);
    match moved(m, map) {
        Some(moved) => agreed(kbm_use::degree(moved, &map[..m.count.into()], key), ruled),
        None => ruled,
    }
}

pub fn pitch(b: &Built, m: Mapping, map: &[i32], key: i32) -> Said<Float> {
    let ruled = by_rules(rules::pitch(&b.columns, b.count, m, map, key).map(Float::of), Float::Untouched);
    match rooted(m, map) {
        Some(rooted) => {
            let entries = &map[..m.count.into()];
            agreed(tuning::maybe_pitch(b, rooted, entries, &rust_kbm::of(rooted, entries), key), ruled)
        }
        None => ruled,
    }
}

/// What stands in the lent places of a run.
pub type Places = (Vec<u64>, Vec<u32>);

/// So many places of pitches and of numbers, with a pattern in each.
pub fn places(pitches: usize, numbers: usize) -> Places {
    (lent::column(pitches), vec![OLD_U32; numbers])
}

/// A run into these places: each key as the single call, and by the rules for the run as a whole.
pub fn run(b: &Built, m: Mapping, map: &[i32], (first, keys): Keys, old: &Places) -> Said<Places> {
    let (mut after, mut whose) = (old.clone(), Vec::new());
    let answers = match rules::run(&b.columns, b.count, m, map, first, keys, old.0.len().min(old.1.len())) {
        Ok(answers) => answers,
        Err(number) => return Said::refused(Who::Rules, number, 0, after),
    };
    for (k, answer) in answers.into_iter().enumerate() {
        let key = i32::try_from(i64::from(first) + k as i64);
        let one = key.map_or(Said::refused(Who::Rules, 11, 0, Float::Untouched), |key| pitch(b, m, map, key));
        let ruled = by_rules(answer.map(Float::of), Float::Untouched);
        if one.code != ruled.code || one.value != ruled.value {
            return Said::fault(after);
        }
        after.1[k] = one.code.number() as u32;
        if let Float::Is(bits) = one.value {
            after.0[k] = bits;
        }
        whose.push(one.who);
    }
    Said::gives(Who::of_all(whose), after)
}

pub fn one_degree(tally: &mut Tally, m: Mapping, map: &[i32], key: i32) {
    tally.same((m, map, key), ffi::scale_degree_from_middle(m, map, key), degree(m, map, key));
}

pub fn one_pitch(tally: &mut Tally, b: &Built, m: Mapping, map: &[i32], key: i32) {
    tally.same((&b.pushes, m, map, key), ffi::maybe_pitch_from_middle(&b.columns, b.count, m, map, key), pitch(b, m, map, key));
}

/// Compares a run, and gives the numbers that should stand beside its keys.
pub fn one_run(tally: &mut Tally, b: &Built, m: Mapping, map: &[i32], keys: Keys, old: Places) -> Vec<u32> {
    let (mut after, said) = (old.clone(), run(b, m, map, keys, &old));
    let beside = said.value.1.iter().take(keys.1 as usize).copied().collect();
    let code = ffi::pitches_from_middle(&b.columns, b.count, m, map, keys, &mut after.0, &mut after.1);
    tally.same((&b.pushes, m, map, keys), (code, after), said);
    beside
}

/// Random mappings of each comparison.
const DEGREES: usize = 20_000;
const PITCHES: usize = 20_000;
const RUNS: usize = 20_000;

/// So many degrees there are at least: beside the Rust, and by the rules alone.
const LEAST_DEGREES: [usize; 2] = [300_000, 30_000];

fn degrees(tally: &mut Tally, in_rust: bool) {
    let mut asked = 0;
    for (m, map) in mappings(56, DEGREES).filter(|(m, map)| moved(*m, map).is_some() == in_rust) {
        let before = map.clone();
        for key in keys(m) {
            asked += 1;
            one_degree(tally, m, &map, key);
        }
        tally.require(map == before, ("the table was changed", m));
    }
    tally.require(!with_fixed() || asked >= LEAST_DEGREES[usize::from(!in_rust)], ("too few degrees", asked));
}

/// Why the Rust has no mapping with the pitches of the new counting, the first reason that holds.
fn reason(m: Mapping, map: &[i32]) -> Option<usize> {
    let reference = rules::reference_degree(m, rules::entries(m, map).ok()?);
    match reference {
        _ if i32::try_from(rules::middle(m)).is_err() => Some(0),
        Err(19) => Some(1),
        Err(_) if m.offset == i32::MIN => Some(2),
        Err(_) => Some(3),
        Ok(i32::MIN) => Some(4),
        Ok(_) => None,
    }
}

/// So many mappings there are at least for each reason, and pitches by the rules alone.
const LEAST: [usize; 5] = [2_000, 2_000, 200, 500, 2];
const LEAST_PITCHES: usize = 10_000;

/// The Rust's own degree of the reference key, asked in the moved mapping over all keys but the last.
fn reference(tally: &mut Tally, m: Mapping, map: &[i32]) {
    let Some(moved) = moved(m, map).filter(|_| m.reference != i32::MAX) else { return };
    let entries = &map[..m.count.into()];
    let theirs = kbm_use::degree(Mapping { start: i32::MIN, end: i32::MAX, ..moved }, entries, m.reference);
    let asked = rules::reference_degree(m, entries).map_err(|number| if number == 19 { 17 } else { number });
    let ruled = by_rules(asked, OLD_I32);
    tally.require(theirs.code == ruled.code && theirs.value == ruled.value, ("the reference key", m, map));
}

fn pitches(tally: &mut Tally, in_rust: bool) {
    let (scales, mut met, mut sounded) = (more_scales(), [0; 5], 0);
    for (k, (m, map)) in mappings(57, PITCHES).enumerate().filter(|(_, (m, map))| rooted(*m, map).is_some() == in_rust) {
        let (b, before) = (&scales[k % scales.len()], map.clone());
        let columns = b.columns.clone();
        reason(m, &map).into_iter().for_each(|reason| met[reason] += 1);
        reference(tally, m, &map);
        for key in keys(m) {
            sounded += usize::from(pitch(b, m, &map, key).code == Code::ACCEPTED);
            one_pitch(tally, b, m, &map, key);
        }
        tally.require(map == before && b.columns == columns, ("the tables were changed", m));
    }
    let enough = in_rust || (0..5).all(|k| met[k] >= LEAST[k]);
    tally.require(!with_fixed() || (enough && sounded >= LEAST_PITCHES), ("too few cases", met, sounded));
}

/// So many keys of runs have each of these numbers beside them at least; 19 by the rules alone.
const LEAST_BESIDE: [(usize, usize); 6] = [(0, 2_000), (11, 1_000), (16, 10_000), (17, 1_000), (18, 100), (19, 1_000)];

/// Runs over the range and its ends, over the last keys, and with too few places; some of 1,030 keys.
fn runs(tally: &mut Tally, in_rust: bool) {
    let (scales, mut stream, mut beside) = (more_scales(), Random::new(59), [0; 20]);
    for (k, (m, map)) in mappings(58, RUNS).enumerate() {
        let keys = if k % 400 == 1 { 1_030 } else { stream.next() as u32 % 40 };
        let places = [stream.next(), stream.next()].map(|length| length as usize % 42);
        let firsts = [m.start.saturating_sub(2), m.reference.saturating_sub(5), i32::MAX - 6, i32::MIN, stream.i32()];
        let first = firsts[stream.next() as usize % 5];
        let (b, before) = (&scales[k % scales.len()], map.clone());
        if rooted(m, &map).is_some() == in_rust {
            let (columns, enough) = (b.columns.clone(), [keys as usize + places[0] % 3, keys as usize + places[1] % 3]);
            let [pitches, numbers] = if k % 4 == 0 { places } else { enough };
            let numbers = one_run(tally, b, m, &map, (first, keys), self::places(pitches, numbers));
            numbers.into_iter().filter(|&number| number < 20).for_each(|number| beside[number as usize] += 1);
            tally.require(map == before && b.columns == columns, ("the tables were changed", m));
        }
    }
    let enough = LEAST_BESIDE.iter().all(|&(number, least)| beside[number] >= least || (in_rust && number == 19));
    tally.require(!with_fixed() || enough, ("too few keys of runs", beside));
}

/// Items that cannot be used.
fn bad_items() -> impl Iterator<Item = Built> {
    let items = bad_tables().into_iter().filter(|(_, part)| *part == 0);
    items.map(|((columns, count), _)| Built { columns, count, ..Built::lent(&[]) })
}

pub fn compare(all: &mut Report) {
    all.function("scale_degree_from_middle", &[11, 16, 17], |tally| degrees(tally, true));
    all.ruled("degree_from_middle, rules", &[10, 11, 16, 17], |tally| degrees(tally, false));
    all.function("maybe_pitch_from_middle", &[11, 16, 17, 18], |tally| pitches(tally, true));
    all.ruled("pitch_from_middle, rules", &[10, 11, 16, 17, 18, 19], |tally| {
        pitches(tally, false);
        let (m, map) = (Mapping { count: 2, ..kbm_use::SAMPLE }, [UNMAPPED, 0]);
        bad_items().for_each(|b| [60, 61, 128].into_iter().for_each(|key| one_pitch(tally, &b, m, &map, key)));
    });
    all.function("pitches_from_middle", &[12], |tally| runs(tally, true));
    all.ruled("run_from_middle, rules", &[10, 12], |tally| {
        runs(tally, false);
        let (m, map) = (kbm_use::SAMPLE, [0, UNMAPPED, 2]);
        bad_items().for_each(|b| [3, 4].into_iter().for_each(|keys| drop(one_run(tally, &b, m, &map, (58, keys), places(3, 4)))));
    });
    if with_fixed() {
        middle_fixed::compare(all);
    }
}

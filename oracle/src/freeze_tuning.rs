//! Frozen answers on tunings: pitches, searches, runs of keys and computed scales. A line holds the scale's columns, 16 places of each, as
//! `freeze_scl` writes them.

use crate::ffi_generators::{Segment, Temperament};
use crate::ffi_kbm::Mapping;
use crate::ffi_scl::{Columns, Push};
use crate::ffi_tuning::Found;
use crate::freeze::{List, float, written};
use crate::freeze_scl::{PLACES, lent, places, shown};
use crate::inputs::Random;
use crate::lent::Float;
use crate::rules_tuning::Root;
use crate::tally::{Code, Said, Who};
use crate::tuning::{self, Built};
use crate::{generators, rust_kbm};
use tune::scala::Kbm;

/// Entries of a mapping's table, and places of a run.
pub const MAPPED: usize = 8;
pub const OLD_HZ: f64 = 0.5;
pub const OLD_NUMBER: u32 = 99;

/// A scale in the columns that the program lends.
fn scale(pushes: &[Push]) -> Built {
    let mut b = Built::new([pushes.len() + 1; 7], pushes).unwrap();
    let mut columns = lent();
    for k in 0..=pushes.len() {
        (columns.kind[k], columns.cents[k], columns.numer[k], columns.denom[k]) = (b.columns.kind[k], b.columns.cents[k], b.columns.numer[k], b.columns.denom[k]);
        (columns.place[k], columns.ratio[k], columns.wraps[k]) = (b.columns.place[k], b.columns.ratio[k], b.columns.wraps[k]);
    }
    b.columns = columns;
    b
}

/// The fields of a question: count, root, a degree or a key, a ratio or a pitch, what a mapping adds, and the columns.
pub fn asked(name: &str, count: u16, root: Root, number: i32, x: f64, more: &str, columns: &Columns) -> String {
    format!("{name} {count} {} {} {} {number} {}{more} {}", root.reference, float(root.hz), root.offset, float(x), places(columns))
}

fn found((number, deviation): Found) -> String {
    format!("{number} {}", written(deviation))
}

const NONE: Root = Root { reference: 0, hz: 0.0, offset: 0 };

fn pitches(list: &mut List, b: &Built, root: Root, number: i32) {
    let at = |name: &str, root: Root, number: i32| asked(name, b.count, root, number, 0.0, "", &b.columns);
    list.push(&at("relative", NONE, number), tuning::relative(b, number), written);
    list.push(&at("sorted_relative", NONE, number), tuning::sorted_relative(b, number), written);
    list.push(&at("degree", root, number), tuning::pitch(b, root, number), written);
    list.push(&at("key", root, number), tuning::key_pitch(b, root, number), written);
    list.push(&at("sorted_pitch", root, number), tuning::sorted_pitch(b, root, number), written);
}

fn searches(list: &mut List, b: &Built, root: Root, x: f64) {
    let at = |name: &str, root: Root, x: f64| asked(name, b.count, root, 0, x, "", &b.columns);
    let hz = root.hz * x;
    list.push(&at("find", NONE, x), tuning::find(b, x), found);
    list.push(&at("find_sorted", NONE, x), tuning::find_sorted(b, x), found);
    list.push(&at("find_pitch", root, hz), tuning::find_pitch(b, root, hz), found);
    list.push(&at("find_pitch_sorted", root, hz), tuning::find_pitch_sorted(b, root, hz), found);
    list.push(&at("find_key", root, hz), tuning::find_key(b, root, hz), found);
}

/// Columns that no build leaves: every call that is lent what is wrong with them says 10.
fn unusable(list: &mut List) {
    let good = scale(&[Push::Fraction(3, 2), Push::Int(2)]);
    let root = Root { reference: 69, hz: 440.0, offset: -9 };
    let changes: [(fn(&mut Columns), bool); 7] = [
        (|c| c.kind[2] = 3, true), (|c| c.numer[1] = 0, true), (|c| c.denom[1] = 0, true), (|c| c.cents[0] = f64::NAN.to_bits(), true),
        (|c| c.place[1] = 3, false), (|c| c.ratio[1] = 2.5f64.to_bits(), false), (|c| c.ratio[0] = f64::NAN.to_bits(), false),
    ];
    let all = ["period", "relative", "degree", "key", "sorted_relative", "sorted_pitch", "find", "find_sorted", "find_pitch", "find_pitch_sorted", "find_key"];
    for (k, (change, items)) in changes.into_iter().enumerate() {
        let mut columns = good.columns.clone();
        change(&mut columns);
        // every second call, the others on the next columns
        for name in if items { &all[..] } else { &all[4..] }.iter().skip(k % 2).step_by(2) {
            list.push(&asked(name, 2, root, 1, 440.0, "", &columns), Said::refused(Who::Rules, 10, 0, ()), |()| String::new());
        }
    }
    // every place is usable, and there is none more
    let full = scale(&(2..17).map(Push::Int).collect::<Vec<_>>());
    for name in ["period", "find"] {
        list.push(&asked(name, PLACES as u16, root, 1, 1.5, "", &full.columns), Said::refused(Who::Rules, 10, 0, ()), |()| String::new());
    }
}

/// The mapping's fields after those of the question, with all entries of its table, and the number of keys of a run.
pub fn mapped(m: Mapping, map: &[i32], keys: usize) -> String {
    let entries: String = (0..MAPPED).map(|k| format!(" {}", map.get(k).unwrap_or(&0))).collect();
    format!(" {} {} {} {}{entries} {keys}", m.count, m.start, m.end, m.octave)
}

pub fn root_of(m: Mapping) -> Root {
    Root { reference: m.reference, hz: m.pitch(), offset: m.offset }
}

/// The pitches of a run, beside what the single calls say: by the rules where one of these is.
fn run(list: &mut List, b: &Built, m: Mapping, map: &[i32], kbm: &Kbm, first: i32, keys: usize) {
    let (mut hz, mut numbers, mut whose) = ([OLD_HZ; MAPPED], [OLD_NUMBER; MAPPED], Vec::new());
    let code = if keys > MAPPED { Code::refusal(12, 0) } else { Code::ACCEPTED };
    for k in (0..keys).filter(|_| code == Code::ACCEPTED) {
        let said = i32::try_from(i64::from(first) + k as i64).map_or(Said::refused(Who::Rules, 11, 0, Float::Untouched), |key| tuning::maybe_pitch(b, m, map, kbm, key));
        numbers[k] = said.code.number() as u32;
        whose.push(said.who);
        if let Float::Is(bits) = said.value {
            hz[k] = f64::from_bits(bits);
        }
    }
    listed_run(list, ("run", b, m, map), first, keys, Said { who: Who::of_all(whose), code, value: () }, hz, numbers);
}

/// A run's name, scale, mapping and table.
type Named<'a> = (&'a str, &'a Built, Mapping, &'a [i32]);

pub fn listed_run(
    list: &mut List, (name, b, m, map): Named, first: i32, keys: usize, said: Said<()>, hz: [f64; MAPPED], numbers: [u32; MAPPED],
) {
    let after: String = (0..MAPPED).map(|k| format!("{} {} ", float(hz[k]), numbers[k])).collect();
    list.push_with(&asked(name, b.count, root_of(m), first, 0.0, &mapped(m, map, keys), &b.columns), said, |()| "done".to_string(), &after);
}

fn by_key(list: &mut List, b: &Built, m: Mapping, map: &[i32], kbm: &Kbm, key: i32) {
    list.push(&asked("maybe_key", b.count, root_of(m), key, 0.0, &mapped(m, map, 0), &b.columns), tuning::maybe_pitch(b, m, map, kbm, key), written);
}

fn by_degree(list: &mut List, b: &Built, m: Mapping, map: &[i32], kbm: &Kbm, degree: i32) {
    list.push(&asked("maybe_degree", b.count, root_of(m), degree, 0.0, &mapped(m, map, 0), &b.columns), tuning::maybe_degree_pitch(b, m, map, kbm, degree), written);
}

/// A mapping in which every number counts: its entries, their gap, the octave, the range, the root.
fn mappings(list: &mut List) {
    let b = scale(&[Push::Fraction(5, 4), Push::Fraction(9, 8), Push::Int(2)]);
    let usual = Mapping { count: 3, start: 50, end: 70, reference: 60, hz: Float::of(440.0), offset: -1, octave: 5 };
    let map = [0, crate::rules::UNMAPPED, 2];
    let kbm = rust_kbm::of(usual, &map);
    for key in [49, 50, 57, 58, 59, 60, 61, 62, 63, 69, 70] {
        by_key(list, &b, usual, &map, &kbm, key);
    }
    for degree in [-11, -2, -1, 0, 2, 5, 9, 10, i32::MAX, i32::MIN] {
        by_degree(list, &b, usual, &map, &kbm, degree);
    }
    for (first, keys) in [(58, 8), (67, 5), (48, 3), (i32::MAX - 2, 5), (60, 0), (60, 9)] {
        run(list, &b, usual, &map, &kbm, first, keys);
    }
    // 11 for the root offset and the distance, 18 for the pitch
    let least = Mapping { offset: i32::MIN, ..usual };
    by_key(list, &b, least, &map, &rust_kbm::of(least, &map), 60);
    let far = Mapping { start: i32::MIN, end: i32::MAX, ..usual };
    for key in [i32::MIN, i32::MAX - 1, 100_062] {
        by_key(list, &b, far, &map, &rust_kbm::of(far, &map), key);
    }
    run(list, &b, far, &map, &rust_kbm::of(far, &map), 100_060, 4);
    // a backwards range that is lent by value has no key
    for (start, end) in [(60, 60), (61, 60)] {
        let none = Mapping { start, end, ..usual };
        by_key(list, &b, none, &map, &rust_kbm::of(none, &map), 60);
        run(list, &b, none, &map, &rust_kbm::of(none, &map), 59, 3);
    }
    // 10: a root's pitch, an entry, a count past the table
    let refused = || Said::refused(Who::Rules, 10, 0, ());
    for (m, map) in [(Mapping { hz: Float::of(0.0009), ..usual }, map), (usual, [0, 40_000, 2]), (Mapping { count: 9, ..usual }, map)] {
        for name in ["maybe_key", "maybe_degree"] {
            list.push(&asked(name, b.count, root_of(m), 60, 0.0, &mapped(m, &map, 0), &b.columns), refused(), |()| String::new());
        }
        listed_run(list, ("run", &b, m, &map), 60, 4, refused(), [OLD_HZ; MAPPED], [OLD_NUMBER; MAPPED]);
    }
}

/// 11 and 10 of the root, for pitches and searches.
fn roots(list: &mut List) {
    let b = scale(&[Push::Fraction(5, 4), Push::Fraction(9, 8), Push::Int(2)]);
    for root in [Root { reference: 60, hz: 440.0, offset: i32::MIN }, Root { reference: 60, hz: 2f64.powi(21), offset: 0 }, Root { reference: i32::MAX, hz: 440.0, offset: 0 }] {
        let number = if root.hz > 1e6 { 10 } else { 11 };
        for name in ["degree", "sorted_pitch", "key", "find_pitch", "find_pitch_sorted", "find_key"] {
            let call = asked(name, b.count, root, -5, 441.0, "", &b.columns);
            if root.reference == 60 {
                list.push(&call, Said::refused(Who::Rules, number, 0, ()), |()| String::new());
            } else if name == "find_key" {
                let call = asked(name, b.count, root, -5, 495.0, "", &b.columns);
                list.push(&call, tuning::find_key(&b, root, 495.0), found);
            } else if name == "key" {
                list.push(&call, tuning::key_pitch(&b, root, -5), written);
            }
        }
    }
}

fn segments(list: &mut List) {
    let mut random = Random::new(111);
    let named = [(9, 7, None), (1, 0, None), (1, 15, None), (1, 16, None), (0, 5, None), (27, 27, Some(12)), (27, 27, Some(0)), (8, 65_535, Some(7)), (65_535, 1, Some(15)), (65_535, 65_535, Some(16)), (1, 65_535, None)];
    let more: Vec<_> = (0..8).map(|k| (1 + random.next() as u16 % 40, random.next() as u16 % 12, (k % 2 == 0).then(|| random.next() as u16 % 14))).collect();
    for (k, (start, size, divisions)) in named.into_iter().chain(more).enumerate() {
        let segment = Segment { otonal: k % 2 == 0, start, size, divisions };
        let said = generators::harmonics(&lent(), segment);
        let after = shown(&said.value.1);
        let into = divisions.map_or("0 0".to_string(), |n| format!("1 {n}"));
        list.push_with(&format!("harmonics {} {start} {size} {into}", u8::from(segment.otonal)), said, |(count, _)| count.to_string(), &after);
    }
}

fn temperaments(list: &mut List) {
    let named = [
        (1.5, 5, 1, 2.0), (1.5, 0, 0, 2.0), (1.5, 14, 0, 2.0), (1.5, 15, 0, 2.0), (1.5, 65_535, 0, 2.0), (1.25, 3, 3, 3.0), (1.5, 2, 2, 1.0), (f64::NAN, 2, 2, 2.0), (1.5, 2, 2, 2f64.powi(33)),
        (2f64.powi(-32), 3, 3, 2.0), (2f64.powi(32), 7, 0, 1.0000000000000002), (4.0 / 3.0, 4, 2, 0.5), (1.4953487812212205, 6, 5, 2.0), (1.0, 1, 0, 0.5),
    ];
    for (generator, positive, negative, period) in named {
        let said = generators::rank2(&lent(), Temperament { generator, positive, negative, period });
        let after = shown(&said.value.1);
        list.push_with(&format!("rank2 {} {positive} {negative} {}", float(generator), float(period)), said, |(count, _)| count.to_string(), &after);
    }
}

pub fn tunings(list: &mut List) {
    let mut random = Random::new(112);
    let scales: Vec<Built> = tuning::named().iter().map(|b| scale(&b.pushes)).collect();
    for (k, b) in scales.iter().filter(|b| b.count <= 3).enumerate() {
        list.push(&asked("period", b.count, NONE, 0, 0.0, "", &b.columns), tuning::period(b), written);
        let root = tuning::random_root(&mut random);
        let (degree, target) = (tuning::random_degree(&mut random, b.count), tuning::random_target(&mut random, b));
        if k % 3 != 1 {
            pitches(list, b, root, degree);
        }
        if k % 3 != 2 {
            searches(list, b, root, target);
        }
    }
    mappings(list);
    roots(list);
    unusable(list);
    segments(list);
    temperaments(list);
}

//! Pitches and searches, ours beside the rules and the Rust: scales that the Rust built, mappings, keys, degrees and targets; and lent
//! tables that no build leaves, by the rules alone.

use crate::ffi::OLD_U32;
use crate::ffi_kbm::Mapping;
use crate::ffi_scl::{Columns, Item, Push};
use crate::ffi_tuning::{self as ffi, Found, OLD_FOUND};
use crate::inputs::{Random, drawn, f64_limits, with_fixed};
use crate::kbm_use::is_wrong;
use crate::lent::{self, Float};
use crate::rules_tuning::{self as rules, Answer, Root};
use crate::tally::{Code, Report, Said, Tally, Who, caught};
use crate::{rules as keys, rules_scl, rust_kbm, rust_scl, scl_build};
use tune::key::PianoKey;
use tune::pitch::{Pitch, Ratio};
use tune::powers;
use tune::scala::{Kbm, KbmRoot, Scl};
use tune::tuning::{Approximation, KeyboardMapping, Scale, Tuning};

/// A scale that the Rust built, and the lent columns that hold it.
pub struct Built {
    pub pushes: Vec<Push>,
    pub scl: Scl,
    pub columns: Columns,
    pub count: u16,
}

impl Built {
    /// None where the rules refuse the scale (18).
    pub fn new(lengths: [usize; 7], pushes: &[Push]) -> Option<Built> {
        let scl = rust_scl::pushes(pushes).build_with_description("").ok()?;
        let parts = rust_scl::parts(&scl);
        if rules_scl::beyond(&parts.items) {
            return None;
        }
        let mut columns = Columns::new(lengths);
        columns.put_items(0, &parts.items);
        columns.put_list(&parts.list);
        Some(Built { pushes: pushes.to_vec(), scl, columns, count: pushes.len() as u16 })
    }

    /// Its items alone, which need not be those of a scale that is built: the list is as it was lent.
    pub fn lent(pushes: &[Push]) -> Built {
        let scl = rust_scl::pushes(pushes).build_with_description("").unwrap();
        let mut columns = Columns::new([pushes.len() + 1; 7]);
        columns.put_items(0, &rust_scl::parts(&scl).items);
        Built { pushes: pushes.to_vec(), scl, columns, count: pushes.len() as u16 }
    }

    fn items(&self) -> Vec<Item> {
        rules::items_in(&self.columns, self.count).unwrap()
    }
}

/// What the Rust answers, where it asks E and L only inside their domain.
pub fn asked<T>(call: impl FnOnce() -> T) -> Option<T> {
    powers::left_domain();
    let answer = caught(call);
    if powers::left_domain() { None } else { answer }
}

/// The rules' answer; inside the domain the Rust must say the same, and at 11 it must overflow.
fn judged<T: PartialEq>(ruled: Answer<T>, outside: bool, old: T, rust: impl FnOnce() -> T) -> Said<T> {
    match ruled {
        Err(11) => match caught(rust) {
            None => Said::refused(Who::Panics, 11, 0, old),
            Some(_) => Said::fault(old),
        },
        Err(number) => Said::refused(Who::Rules, number, 0, old),
        Ok(value) if outside => Said::gives(Who::Rules, value),
        Ok(value) => match asked(rust) {
            Some(theirs) if theirs == value => Said::gives(Who::Second, value),
            _ => Said::fault(old),
        },
    }
}

fn float(ruled: Answer<f64>, rust: impl FnOnce() -> f64) -> Said<Float> {
    judged(ruled.map(Float::of), false, Float::Untouched, || Float::of(rust()))
}

/// A search's answer; outside the domain where the Rust overflows midway, or the target equals two entries.
fn found(found: Answer<rules::Found>, number: impl FnOnce(&rules::Found) -> (Answer<i32>, bool), rust: impl FnOnce() -> (i32, f64)) -> Said<Found> {
    let (ruled, outside) = match found {
        Err(refused) => (Err(refused), false),
        Ok(found) => {
            let (number, overflows) = number(&found);
            (number.map(|number| (number, Float::of(found.deviation))), overflows || found.twice)
        }
    };
    judged(ruled, outside, OLD_FOUND, || {
        let (number, deviation) = rust();
        (number, Float::of(deviation))
    })
}

pub fn kbm_root(root: Root) -> KbmRoot {
    KbmRoot { ref_key: PianoKey::from_midi_number(root.reference), ref_pitch: Pitch::from_hz(root.hz), root_offset: root.offset }
}

pub fn degree_parts(a: Approximation<i32>) -> (i32, f64) {
    (a.approx_value, a.deviation.as_float())
}

pub fn key_parts(a: Approximation<PianoKey>) -> (i32, f64) {
    (a.approx_value.midi_number(), a.deviation.as_float())
}

pub fn period(b: &Built) -> Said<Float> {
    float(Ok(rules::period(&b.items())), || b.scl.period().as_float())
}

pub fn relative(b: &Built, degree: i32) -> Said<Float> {
    float(rules::relative(&b.items(), degree), || b.scl.relative_pitch_of(degree).as_float())
}

pub fn sorted_relative(b: &Built, degree: i32) -> Said<Float> {
    float(rules::sorted_relative(&b.items(), &rules::list_in(&b.columns, b.count).unwrap(), degree), || b.scl.sorted_relative_pitch_of(degree).as_float())
}

pub fn pitch(b: &Built, root: Root, degree: i32) -> Said<Float> {
    float(rules::pitch(&b.items(), root, degree), || Tuning::<i32>::pitch_of(&(&b.scl, kbm_root(root)), degree).as_hz())
}

pub fn key_pitch(b: &Built, root: Root, key: i32) -> Said<Float> {
    float(rules::key_pitch(&b.items(), root, key), || Tuning::<PianoKey>::pitch_of(&(&b.scl, kbm_root(root)), PianoKey::from_midi_number(key)).as_hz())
}

pub fn sorted_pitch(b: &Built, root: Root, degree: i32) -> Said<Float> {
    let list = rules::list_in(&b.columns, b.count).unwrap();
    float(rules::sorted_pitch(&b.items(), &list, root, degree), || (&b.scl, kbm_root(root)).sorted_pitch_of(degree).as_hz())
}

/// Where the rules say 16 or 17 the Rust has no pitch; where it overflows midway the rules decide.
fn maybe(ruled: Answer<f64>, overflows: bool, rust: impl FnOnce() -> Option<Pitch>) -> Said<Float> {
    match ruled {
        Err(number @ (16 | 17)) if overflows => Said::refused(Who::Rules, number, 0, Float::Untouched),
        Err(number @ (16 | 17)) => match asked(rust) {
            Some(None) => Said::refused(Who::Rust, number, 0, Float::Untouched),
            _ => Said::fault(Float::Untouched),
        },
        Ok(hz) if overflows => Said::gives(Who::Rules, Float::of(hz)),
        ruled => float(ruled, || rust().unwrap().as_hz()),
    }
}

pub fn maybe_pitch(b: &Built, m: Mapping, map: &[i32], kbm: &Kbm, key: i32) -> Said<Float> {
    let ruled = rules::maybe_pitch(&b.items(), m, map, key);
    maybe(ruled, keys::overflows(m, map, key), || KeyboardMapping::<PianoKey>::maybe_pitch_of(&(&b.scl, kbm), PianoKey::from_midi_number(key)))
}

pub fn maybe_degree_pitch(b: &Built, m: Mapping, map: &[i32], kbm: &Kbm, degree: i32) -> Said<Float> {
    let key = m.reference.checked_add(degree);
    let ruled = key.ok_or(11).and_then(|key| rules::maybe_pitch(&b.items(), m, map, key));
    let overflows = key.is_none_or(|key| keys::overflows(m, map, key));
    maybe(ruled, overflows, || KeyboardMapping::<i32>::maybe_pitch_of(&(&b.scl, kbm), degree))
}

fn search(b: &Built, x: f64) -> Answer<rules::Found> {
    if rules::is_searched(x) { rules::search(&b.items(), &rules::list_in(&b.columns, b.count).unwrap(), x) } else { Err(10) }
}

fn search_pitch(b: &Built, root: Root, hz: f64) -> Answer<rules::Found> {
    if rules::is_pitch(hz) { rules::search_pitch(&b.items(), &rules::list_in(&b.columns, b.count).unwrap(), root, hz) } else { Err(10) }
}

pub fn find(b: &Built, x: f64) -> Said<Found> {
    found(search(b, x), |f| rules::declared(f, b.count), || degree_parts(b.scl.find_by_relative_pitch(Ratio::from_float(x))))
}

pub fn find_sorted(b: &Built, x: f64) -> Said<Found> {
    found(search(b, x), |f| rules::ascending(f, b.count), || degree_parts(b.scl.find_by_relative_pitch_sorted(Ratio::from_float(x))))
}

pub fn find_pitch(b: &Built, root: Root, hz: f64) -> Said<Found> {
    let rust = || degree_parts(Tuning::<i32>::find_by_pitch(&(&b.scl, kbm_root(root)), Pitch::from_hz(hz)));
    found(search_pitch(b, root, hz), |f| rules::declared(f, b.count), rust)
}

pub fn find_pitch_sorted(b: &Built, root: Root, hz: f64) -> Said<Found> {
    let rust = || degree_parts((&b.scl, kbm_root(root)).find_by_pitch_sorted(Pitch::from_hz(hz)));
    found(search_pitch(b, root, hz), |f| rules::ascending(f, b.count), rust)
}

pub fn find_key(b: &Built, root: Root, hz: f64) -> Said<Found> {
    let rust = || key_parts(Tuning::<PianoKey>::find_by_pitch(&(&b.scl, kbm_root(root)), Pitch::from_hz(hz)));
    let key = |f: &rules::Found| {
        let (degree, overflows) = rules::declared(f, b.count);
        let key = degree.and_then(|degree| root.reference.checked_add(degree).ok_or(11));
        (key, overflows || key.is_err())
    };
    found(search_pitch(b, root, hz), key, rust)
}

/// A root: usual, far off, or at the ends of its numbers.
pub fn random_root(random: &mut Random) -> Root {
    let reference = if random.next() % 2 == 0 { 60 + random.next() as i32 % 12 } else { random.i32() };
    let hz = match random.next() % 4 {
        0 => 440.0,
        1 => 261.6256,
        2 => random.ratio(11).clamp(2f64.powi(-10), 2f64.powi(20)),
        _ => [2f64.powi(-10), 2f64.powi(20)][random.next() as usize % 2],
    };
    let offset = match random.next() % 8 {
        0..4 => 0,
        4 | 5 => random.next() as i32 % 25 - 12,
        6 => random.i32(),
        _ => [i32::MIN, i32::MIN + 1, i32::MAX][random.next() as usize % 3],
    };
    Root { reference, hz, offset }
}

pub fn random_degree(random: &mut Random, count: u16) -> i32 {
    match random.next() % 4 {
        0 => random.next() as i32 % 64 - 32,
        1 => random.i32(),
        2 => (random.next() as i32 % 9 - 4).saturating_mul(i32::from(count)),
        _ => [i32::MIN, i32::MAX, -1, 0, 1, i32::from(count), -i32::from(count)][random.next() as usize % 7],
    }
}

/// A target: near a degree of the scale, between two of them, anything in the range, or outside it.
pub fn random_target(random: &mut Random, b: &Built) -> f64 {
    let at = random.next() as usize % (usize::from(b.count) + 1);
    let near = f64::from_bits(b.columns.ratio[at]);
    match random.next() % 9 {
        // next to the middle of two neighbours, where the tolerance decides
        8 if at > 0 => (near * f64::from_bits(b.columns.ratio[at - 1])).sqrt() * (1.0 + (random.next() % 21) as f64 * 1e-7 - 1e-6),
        0 => near,
        1 => [near.next_up(), near.next_down()][random.next() as usize % 2],
        2 => near * [0.9999995, 1.0000005, 0.999999, 1.000001][random.next() as usize % 4],
        3 => 1.0 + random.unit(),
        4 => random.ratio(64),
        5 => random.ratio(3),
        6 => b.scl.relative_pitch_of(random.next() as i32 % 40 - 20).as_float(),
        _ => [2f64.powi(64), 2f64.powi(-64), 2f64.powi(64).next_up(), 2f64.powi(-64).next_down(), 1.0][random.next() as usize % 5],
    }
}

fn random_hz(random: &mut Random, b: &Built, root: Root) -> f64 {
    match random.next() % 4 {
        0 => random.ratio(15).clamp(2f64.powi(-10), 2f64.powi(20)),
        1 => root.hz * random_target(random, b),
        2 => 100.0 + 900.0 * random.unit(),
        _ => [440.0, 2f64.powi(-10), 2f64.powi(20), 2f64.powi(20).next_up(), f64::NAN, -1.0][random.next() as usize % 6],
    }
}

/// The scales of the builder's comparison that are not refused: some of the random ones, and every shape and period of up to 100 items.
pub fn scales() -> impl Iterator<Item = Built> {
    let taken = |k: usize, items: usize| items <= 100 && (k >= drawn(scl_build::RANDOM_SCALES).end || k % 5 == 0);
    scl_build::scales().enumerate().filter(move |(k, (_, pushes))| taken(*k, pushes.len())).filter_map(|(_, (lengths, pushes))| Built::new(lengths, &pushes))
}

/// READINGS' fixed scales among them.
pub fn named() -> Vec<Built> {
    use Push::{Cents, Fraction, Int, Ratio};
    let all: [&[Push]; 21] = [
        &[], &[Int(2)], &[Int(3)], &[Fraction(9, 8), Fraction(5, 4), Int(2)], &[Fraction(5, 3), Fraction(80, 3), Int(2)], &[Int(3), Fraction(3, 2), Int(2)], &[Cents(-700.0), Cents(-0.001)],
        &[Cents(-300.0), Cents(-1200.0)], &[Cents(-1e-13), Int(39)], &[Cents(-1e-13), Int(3)], &[Fraction(19_999_999, 10_000_000), Int(2)], &[Fraction(1331, 27), Fraction(11, 3)],
        &[Int(1), Int(1), Int(1), Int(1), Int(1), Int(2)], &[Cents(100.0)], &[Cents(0.0001)], &[Cents(1e-12)], &[Int(1)], &[Cents(300.0), Cents(0.001)], &[Ratio(1.5), Ratio(0.5)],
        &[Cents(100.0), Cents(50.0), Cents(175.0), Cents(150.0)], &[Fraction(10_000_008, 10_000_000), Fraction(10_000_016, 10_000_000), Int(2)],
    ];
    all.iter().filter_map(|pushes| Built::new([pushes.len() + 2; 7], pushes)).collect()
}

pub type Lent = (Columns, u16);

/// Tables that cannot be used, and the number of the call's tables that are at fault: 0 for the items, 1 for the list alone.
pub fn bad_tables() -> Vec<(Lent, usize)> {
    use Push::{Fraction, Int};
    let good = Built::new([4; 7], &[Fraction(3, 2), Int(2)]).unwrap().columns;
    let with = |change: fn(&mut Columns)| {
        let mut columns = good.clone();
        change(&mut columns);
        (columns, 2)
    };
    let items = [
        (good.clone(), 4), (good.clone(), u16::MAX), with(|c| c.kind[2] = 3), with(|c| c.kind.truncate(2)), with(|c| c.cents.truncate(2)), with(|c| c.numer.truncate(2)), with(|c| c.denom.truncate(2)),
        with(|c| c.numer[1] = 0), with(|c| c.denom[1] = 0), with(|c| c.numer[2] = 0), with(|c| c.cents[0] = f64::NAN.to_bits()), with(|c| c.cents[0] = 38_400.1f64.to_bits()), with(|c| c.kind.clear()),
    ];
    let list = [
        with(|c| c.place.truncate(2)), with(|c| c.ratio.truncate(2)), with(|c| c.wraps.truncate(2)), with(|c| c.place[1] = 3), with(|c| c.place[2] = u32::MAX), with(|c| c.ratio[1] = 2.5f64.to_bits()),
        with(|c| c.ratio[0] = f64::NAN.to_bits()), with(|c| c.ratio[2] = f64::INFINITY.to_bits()), with(|c| c.ratio[0] = 0f64.to_bits()), with(|c| c.ratio[2] = 2f64.powi(901).to_bits()), with(|c| c.place.clear()),
    ];
    items.into_iter().map(|lent| (lent, 0)).chain(list.into_iter().map(|lent| (lent, 1))).collect()
}

const USUAL: Root = Root { reference: 69, hz: 440.0, offset: -9 };
pub const BAD_HZ: [f64; 6] = [0.0, -1.0, f64::NAN, f64::INFINITY, 0.0009, 1_048_576.1];

fn ten<T>(old: T) -> Said<T> {
    Said::refused(Who::Rules, 10, 0, old)
}

/// Every call on tables that cannot be used; a call that does not lend the list does not test it. 10 comes before 16 and 11.
fn lent_wrong(all: &mut Report) {
    all.ruled("lent tables, 10", &[10], |tally| {
        for (k, ((c, count), part)) in bad_tables().iter().enumerate() {
            let (count, m) = (*count, Mapping { count: 0, start: 0, end: 0, reference: i32::MIN, hz: Float::of(440.0), offset: i32::MIN, octave: 0 });
            let far = Root { reference: i32::MIN, offset: i32::MIN, ..USUAL };
            if *part == 0 {
                tally.same(k, ffi::period(c, count), ten(Float::Untouched));
                tally.same(k, ffi::relative_pitch_of(c, count, 1), ten(Float::Untouched));
                tally.same(k, ffi::pitch_of(c, count, far, 1), ten(Float::Untouched));
                tally.same(k, ffi::pitch_of_key(c, count, far, 60), ten(Float::Untouched));
                tally.same(k, ffi::maybe_pitch_of(c, count, m, &[], 60), ten(Float::Untouched));
                tally.same(k, ffi::maybe_pitch_of_degree(c, count, m, &[], 60), ten(Float::Untouched));
            } else {
                tally.require(ffi::relative_pitch_of(c, count, 1).0 == Code::ACCEPTED, (k, "the list is not lent"));
            }
            tally.same(k, ffi::sorted_relative_pitch_of(c, count, 1), ten(Float::Untouched));
            tally.same(k, ffi::sorted_pitch_of(c, count, far, 1), ten(Float::Untouched));
            tally.same(k, ffi::find_by_relative_pitch(c, count, 1.5), ten(OLD_FOUND));
            tally.same(k, ffi::find_by_relative_pitch_sorted(c, count, 1.5), ten(OLD_FOUND));
            tally.same(k, ffi::find_by_pitch(c, count, far, 440.0), ten(OLD_FOUND));
            tally.same(k, ffi::find_by_pitch_sorted(c, count, far, 440.0), ten(OLD_FOUND));
            tally.same(k, ffi::find_key_by_pitch(c, count, far, 440.0), ten(OLD_FOUND));
        }
        // roots, ratios and pitches out of their ranges, before 11 and 16; a mapping's table that cannot be used
        for b in named() {
            for hz in BAD_HZ {
                let root = Root { reference: i32::MAX, hz, offset: i32::MIN };
                let m = Mapping { count: 0, start: 0, end: 0, reference: i32::MIN, hz: Float::of(hz), offset: i32::MIN, octave: 0 };
                tally.same(hz, ffi::pitch_of(&b.columns, b.count, root, 1), ten(Float::Untouched));
                tally.same(hz, ffi::pitch_of_key(&b.columns, b.count, root, i32::MIN), ten(Float::Untouched));
                tally.same(hz, ffi::sorted_pitch_of(&b.columns, b.count, root, 1), ten(Float::Untouched));
                tally.same(hz, ffi::maybe_pitch_of(&b.columns, b.count, m, &[], 60), ten(Float::Untouched));
                tally.same(hz, ffi::maybe_pitch_of_degree(&b.columns, b.count, m, &[], i32::MIN), ten(Float::Untouched));
                for pitch in [440.0, hz] {
                    tally.same(hz, ffi::find_by_pitch(&b.columns, b.count, root, pitch), ten(OLD_FOUND));
                    tally.same(hz, ffi::find_by_pitch_sorted(&b.columns, b.count, root, pitch), ten(OLD_FOUND));
                    tally.same(hz, ffi::find_key_by_pitch(&b.columns, b.count, root, pitch), ten(OLD_FOUND));
                }
            }
            for pitch in BAD_HZ {
                tally.same(pitch, ffi::find_by_pitch(&b.columns, b.count, USUAL, pitch), ten(OLD_FOUND));
                tally.same(pitch, ffi::find_by_pitch_sorted(&b.columns, b.count, USUAL, pitch), ten(OLD_FOUND));
                tally.same(pitch, ffi::find_key_by_pitch(&b.columns, b.count, USUAL, pitch), ten(OLD_FOUND));
            }
            for (map, size) in [(vec![], 1), (vec![40_000], 1), (vec![0, -32_769], 2)] {
                assert!(map.len() < size || map.iter().any(|&entry| is_wrong(entry)));
                let m = Mapping { count: size as u16, start: 0, end: 0, reference: i32::MIN, hz: Float::of(440.0), offset: i32::MIN, octave: 0 };
                tally.same(size, ffi::maybe_pitch_of(&b.columns, b.count, m, &map, 60), ten(Float::Untouched));
                tally.same(size, ffi::maybe_pitch_of_degree(&b.columns, b.count, m, &map, i32::MIN), ten(Float::Untouched));
            }
        }
    });
}

pub fn by_rules<T>(answer: Answer<T>, old: T) -> Said<T> {
    match answer {
        Ok(value) => Said::gives(Who::Rules, value),
        Err(number) => Said::refused(Who::Rules, number, 0, old),
    }
}

/// Lists that no build leaves: ratios at the ends of the reach, any wraparounds, place 0 that is not 1.0, a period of 1.0.
fn lent_strange(all: &mut Report) {
    all.ruled("lent lists, strange", &[11, 18], |tally| {
        let mut random = Random::new(40);
        for k in drawn(20_000) {
            let count = random.next() as u16 % 5;
            let places = usize::from(count) + 1;
            let mut c = Columns::new([places + k % 2; 7]);
            let items: Vec<Item> = (0..places).map(|_| match random.next() % 4 {
                0 => Item::cents((random.unit() - 0.5) * 76_800.0),
                1 => Item::cents(0.0),
                2 => Item::Fraction(1 + random.u32() % 4_000_000_000, Some(1 + random.u32() % 4_000_000_000)),
                _ => Item::Fraction(1 + random.next() as u32 % 5, None),
            }).collect();
            c.put_items(0, &items);
            let mut ratios: Vec<f64> = (0..places).map(|_| [random.ratio(899).abs(), 1.0 + random.unit(), 2f64.powi(-900), 2f64.powi(900)][random.next() as usize % 4]).collect();
            ratios.sort_by(f64::total_cmp);
            let list: Vec<_> = ratios.iter().map(|r| (random.next() as u32 % (u32::from(count) + 1), r.to_bits(), random.i32())).collect();
            c.put_list(&list);
            let (items, list) = (rules::items_in(&c, count).unwrap(), rules::list_in(&c, count).unwrap());
            let root = random_root(&mut random);
            let (degree, x, hz) = (random_degree(&mut random, count), random.ratio(64), random.ratio(10));
            let plain = |answer: Answer<f64>| by_rules(answer.map(Float::of), Float::Untouched);
            let found = |found: Answer<rules::Found>, sorted: bool| {
                by_rules(found.and_then(|f| if sorted { rules::ascending(&f, count).0 } else { rules::declared(&f, count).0 }.map(|n| (n, Float::of(f.deviation)))), OLD_FOUND)
            };
            let given = |x: f64| if rules::is_searched(x) { rules::search(&items, &list, x) } else { Err(10) };
            let pitched = |hz: f64| if rules::is_pitch(hz) { rules::search_pitch(&items, &list, root, hz) } else { Err(10) };
            tally.same((k, degree), ffi::sorted_relative_pitch_of(&c, count, degree), plain(rules::sorted_relative(&items, &list, degree)));
            tally.same((k, degree), ffi::relative_pitch_of(&c, count, degree), plain(rules::relative(&items, degree)));
            tally.same((k, degree), ffi::sorted_pitch_of(&c, count, root, degree), plain(rules::sorted_pitch(&items, &list, root, degree)));
            tally.same((k, x), ffi::find_by_relative_pitch(&c, count, x), found(given(x), false));
            tally.same((k, x), ffi::find_by_relative_pitch_sorted(&c, count, x), found(given(x), true));
            tally.same((k, hz), ffi::find_by_pitch(&c, count, root, hz), found(pitched(hz), false));
            tally.same((k, hz), ffi::find_by_pitch_sorted(&c, count, root, hz), found(pitched(hz), true));
        }
    });
}

/// One call over all scales, so many times for each.
fn over(tally: &mut Tally, seed: u64, times: usize, mut one: impl FnMut(&mut Tally, &mut Random, &Built)) {
    let mut random = Random::new(seed);
    for b in named().into_iter().chain(scales()) {
        let before = b.columns.clone();
        for _ in 0..times {
            one(tally, &mut random, &b);
        }
        tally.require(b.columns == before, "a call that only looks changed a column");
    }
}

pub fn compare(all: &mut Report) {
    all.function("Scl::period", &[], |tally| over(tally, 41, 1, |tally, _, b| tally.same(b.count, ffi::period(&b.columns, b.count), period(b))));
    all.function("Scl::relative_pitch_of", &[18], |tally| {
        over(tally, 42, 8, |tally, random, b| {
            let degree = random_degree(random, b.count);
            tally.same((b.count, degree), ffi::relative_pitch_of(&b.columns, b.count, degree), relative(b, degree));
        });
    });
    all.function("sorted_relative_pitch_of", &[18], |tally| {
        over(tally, 43, 8, |tally, random, b| {
            let degree = random_degree(random, b.count);
            tally.same((b.count, degree), ffi::sorted_relative_pitch_of(&b.columns, b.count, degree), sorted_relative(b, degree));
        });
    });
    all.function("pitch_of, degree", &[11, 18], |tally| {
        over(tally, 44, 8, |tally, random, b| {
            let (root, degree) = (random_root(random), random_degree(random, b.count));
            tally.same((b.count, root, degree), ffi::pitch_of(&b.columns, b.count, root, degree), pitch(b, root, degree));
        });
    });
    all.function("pitch_of, key", &[11, 18], |tally| {
        over(tally, 45, 8, |tally, random, b| {
            let (root, key) = (random_root(random), random_degree(random, b.count));
            tally.same((b.count, root, key), ffi::pitch_of_key(&b.columns, b.count, root, key), key_pitch(b, root, key));
        });
    });
    all.function("sorted_pitch_of", &[11, 18], |tally| {
        over(tally, 46, 8, |tally, random, b| {
            let (root, degree) = (random_root(random), random_degree(random, b.count));
            tally.same((b.count, root, degree), ffi::sorted_pitch_of(&b.columns, b.count, root, degree), sorted_pitch(b, root, degree));
        });
    });
    all.function("maybe_pitch_of, key", &[11, 16, 17, 18], |tally| {
        over(tally, 47, 1, |tally, random, b| {
            let (m, map, kbm) = random_mapping(random);
            for k in 0..10 {
                let key = if k < 5 { m.reference.wrapping_add(random.next() as i32 % 40 - 20) } else { random_degree(random, m.count) };
                tally.same((b.count, m, key), ffi::maybe_pitch_of(&b.columns, b.count, m, &map, key), maybe_pitch(b, m, &map, &kbm, key));
            }
        });
    });
    all.function("maybe_pitch_of, degree", &[11, 16, 17, 18], |tally| {
        over(tally, 48, 1, |tally, random, b| {
            let (m, map, kbm) = random_mapping(random);
            for _ in 0..10 {
                let degree = random_degree(random, m.count);
                tally.same((b.count, m, degree), ffi::maybe_pitch_of_degree(&b.columns, b.count, m, &map, degree), maybe_degree_pitch(b, m, &map, &kbm, degree));
            }
        });
    });
    runs(all);
    searches(all);
    lent_strange(all);
    if with_fixed() {
        fixed(all);
        lent_wrong(all);
    }
}

/// Runs of keys: each key as the single call, the places behind it and the pitch of a refused key as they were.
fn runs(all: &mut Report) {
    all.function("pitches_of, a run of keys", &[10, 12], |tally| {
        over(tally, 55, 1, |tally, random, b| {
            let (m, map, kbm) = random_mapping(random);
            let first = [m.reference.saturating_sub(20), 0, i32::MAX - 5, i32::MIN, random.i32()][random.next() as usize % 5];
            let (keys, places) = (random.next() as u32 % 40, random.next() as usize % 44);
            let (old, mut numbers) = (lent::column(places), vec![OLD_U32; random.next() as usize % 44]);
            let mut pitches = old.clone();
            let code = ffi::pitches_of(&b.columns, b.count, m, &map, first, keys, &mut pitches, &mut numbers);
            if keys as usize > places.min(numbers.len()) {
                tally.same((keys, places), (code, (pitches, numbers.clone())), Said::refused(Who::Rules, 12, 0, (old, vec![OLD_U32; numbers.len()])));
                return;
            }
            let (mut said, mut refused, mut whose) = (old, vec![OLD_U32; numbers.len()], Vec::new());
            for k in 0..keys as usize {
                let key = i64::from(first) + k as i64;
                let one = i32::try_from(key).map_or(Said::refused(Who::Rules, 11, 0, Float::Untouched), |key| maybe_pitch(b, m, &map, &kbm, key));
                refused[k] = one.code.number() as u32;
                whose.push(one.who);
                if let Float::Is(bits) = one.value {
                    said[k] = bits;
                }
            }
            tally.same((m, first, keys), (code, (pitches, numbers)), Said::gives(Who::of_all(whose), (said, refused)));
        });
        // tables that cannot be used, before a slice that is too short
        for ((c, count), part) in bad_tables() {
            let m = Mapping { count: 0, start: 0, end: 128, reference: 60, hz: Float::of(440.0), offset: 0, octave: 0 };
            let (old, mut pitches, mut numbers) = (vec![7; 3], vec![7; 3], vec![OLD_U32; 3]);
            let code = ffi::pitches_of(&c, count, m, &[], 60, 4, &mut pitches, &mut numbers);
            tally.same(part, (code, (pitches, numbers)), Said::refused(Who::Rules, if part == 0 { 10 } else { 12 }, 0, (old, vec![OLD_U32; 3])));
        }
        // a root's pitch or a map that cannot be used
        let b = &named()[3];
        let wrong = BAD_HZ.map(|hz| (hz, 0, vec![])).into_iter().chain([(440.0, 1, vec![]), (440.0, 1, vec![40_000])]);
        for (hz, size, map) in wrong {
            let m = Mapping { count: size, start: 0, end: 128, reference: 60, hz: Float::of(hz), offset: 0, octave: 0 };
            let (old, mut pitches, mut numbers) = (vec![7; 3], vec![7; 3], vec![OLD_U32; 3]);
            let code = ffi::pitches_of(&b.columns, b.count, m, &map, 60, 2, &mut pitches, &mut numbers);
            tally.same((hz, size), (code, (pitches, numbers)), Said::refused(Who::Rules, 10, 0, (old, vec![OLD_U32; 3])));
        }
    });
}

/// A mapping with its root in the range of 01, over all keys or some.
pub fn random_mapping(random: &mut Random) -> (Mapping, Vec<i32>, Kbm) {
    let size = [0, 1, 3, 7, 12, 16][random.next() as usize % 6];
    let (mut m, mut map) = rust_kbm::random(random, size);
    let root = random_root(random);
    (m.reference, m.hz, m.offset) = (root.reference, Float::of(root.hz), root.offset);
    if random.next() % 2 == 0 {
        (m.start, m.end, m.octave) = (0, 128, size as i16);
        map.iter_mut().enumerate().filter(|(_, entry)| **entry != keys::UNMAPPED).for_each(|(k, entry)| *entry = k as i32);
    }
    let kbm = rust_kbm::of(m, &map);
    (m, map, kbm)
}

/// What the Rust was seen to answer where a port would go astray, each beside ours: a search's number and deviation.
fn fixed(all: &mut Report) {
    use Push::{Cents, Fraction, Int};
    let third = Built::new([2; 7], &[Int(3)]).unwrap();
    let built = |pushes: &[Push]| Built::new([pushes.len() + 1; 7], pushes).unwrap();
    let cents = |x: f64| powers::e(x / 1200.0).unwrap();
    let just: &[Push] = &[Fraction(9, 8), Fraction(5, 4), Int(2)];
    let repeats: &[Push] = &[Int(1), Int(1), Int(1), Int(1), Int(1), Int(2)];
    all.function("searches, fixed", &[11, 18], |tally| {
        let declared: [(&[Push], f64, Answer<i32>, Option<f64>); 15] = [
            (&[Int(2)], 3.0, Ok(2), Some(0.7499999999999999)),
            // the found degree's pitch need not be the target: div_euclid truncates a rounded quotient, the remainder is exact
            (&[Int(3)], 129140162.99999967, Ok(18), Some(0.9999999999999987)),
            (&[Fraction(5, 3), Fraction(80, 3), Int(2)], 5.0 / 3.0, Ok(-10), Some(1.0000000000000002)),
            (&[Cents(-700.0), Cents(-0.001)], 2.0, Ok(-2), Some(1.9999988447550325)),
            (&[Cents(-300.0), Cents(-1200.0)], 0.9, Ok(1), None),
            (&[Cents(-1e-13), Int(3)], 3.0, Ok(2), Some(1.0)),
            (&[Cents(-1e-13), Int(3)], 2.9999999999999996, Ok(3), Some(1.0000000000000002)),
            (just, 1.19, Ok(2), Some(0.9520000000000002)),
            (&[Cents(100.0)], cents(50.0008), Ok(0), None),
            (&[Cents(100.0)], cents(50.0009), Ok(1), None),
            (&[Cents(0.0001)], 1.5, Ok(0), Some(1.5)),
            (&[Int(1)], 1.5, Err(18), None),
            (&[], 1.5, Ok(0), Some(1.5)),
            (repeats, 1.0000000000000002, Ok(0), Some(1.0000000000000002)),
            (repeats, 1.0, Ok(0), Some(1.0)),
        ];
        for (k, (pushes, x, number, deviation)) in declared.into_iter().enumerate() {
            let b = built(pushes);
            let ours = ffi::find_by_relative_pitch(&b.columns, b.count, x);
            tally.same((k, x), ours, find(&b, x));
            let said = match number {
                Ok(number) => ours.1.0 == number && deviation.is_none_or(|deviation| ours.1.1 == Float::of(deviation)),
                Err(number) => ours.0 == Code::refusal(number, 0),
            };
            tally.require(said, (k, x, ours));
        }
        // in ascending order; a target that equals two entries starts at the first of them, where the Rust says 4
        for (k, (pushes, x, number)) in [(&[Cents(-300.0), Cents(-1200.0)][..], 0.9, 3), (&[Cents(-1e-13), Int(3)], 2.9999999999999996, 1), (&[Cents(0.0001)], 1.5, 1), (repeats, 1.0, 0), (repeats, 1.0000000000000002, 5)].into_iter().enumerate() {
            let b = built(pushes);
            let ours = ffi::find_by_relative_pitch_sorted(&b.columns, b.count, x);
            tally.same((k, x), ours, find_sorted(&b, x));
            tally.require(ours.1.0 == number, (k, x, ours));
        }
        tally.require(built(repeats).scl.find_by_relative_pitch_sorted(Ratio::from_float(1.0)).approx_value == 4, "the Rust's equal target");
        for (degree, x) in [(17, 129140162.99999967), (18, 387420488.99999946)] {
            let ours = ffi::relative_pitch_of(&third.columns, 1, degree);
            tally.same(degree, ours, relative(&third, degree));
            tally.require(ours.1 == Float::of(x), (degree, ours));
        }
        // the reference key need not sound the reference pitch
        let b = built(just);
        for (key, hz) in [(69, 55.0), (60, 6.875)] {
            let ours = ffi::pitch_of_key(&b.columns, 3, USUAL, key);
            tally.same(key, ours, key_pitch(&b, USUAL, key));
            tally.require(ours.1 == Float::of(hz), (key, ours));
        }
        let ours = ffi::find_key_by_pitch(&b.columns, 3, USUAL, 440.0);
        tally.same(440, ours, find_key(&b, USUAL, 440.0));
        tally.require(ours.1.0 == 78, ours);
        // 65,535 items and a small period: degrees up to the ends of 32 bits, and past them
        let many: Vec<_> = (1..=65_535).map(|k| if k == 65_535 { Fraction(1_000_001, 1_000_000) } else { Fraction(1_000_000 + k % 2, 1_000_000) }).collect();
        let b = built(&many);
        for x in [2f64.powi(64), 1.5, 1.00001, 1.0000105, 0.99, 2f64.powi(-64)] {
            tally.same(x, ffi::find_by_relative_pitch(&b.columns, b.count, x), find(&b, x));
            tally.same(x, ffi::find_by_relative_pitch_sorted(&b.columns, b.count, x), find_sorted(&b, x));
        }
        tally.require(ffi::find_by_relative_pitch(&b.columns, b.count, 2f64.powi(64)).0 == Code::refusal(11, 0), "2^64");
    });
}

fn searches(all: &mut Report) {
    let limits = f64_limits();
    all.function("find_by_relative_pitch", &[10, 11, 18], |tally| {
        over(tally, 49, 10, |tally, random, b| {
            let x = random_target(random, b);
            tally.same((&b.columns, x), ffi::find_by_relative_pitch(&b.columns, b.count, x), find(b, x));
        });
        for b in named() {
            for &x in &limits {
                tally.same((&b.columns, x), ffi::find_by_relative_pitch(&b.columns, b.count, x), find(&b, x));
            }
        }
    });
    all.function("find_by_rel_pitch_sorted", &[10, 11, 18], |tally| {
        over(tally, 50, 10, |tally, random, b| {
            let x = random_target(random, b);
            tally.same((&b.columns, x), ffi::find_by_relative_pitch_sorted(&b.columns, b.count, x), find_sorted(b, x));
        });
        for b in named() {
            for &x in &limits {
                tally.same((&b.columns, x), ffi::find_by_relative_pitch_sorted(&b.columns, b.count, x), find_sorted(&b, x));
            }
        }
    });
    all.function("find_by_pitch, degree", &[10, 11, 18], |tally| {
        over(tally, 51, 8, |tally, random, b| {
            let root = random_root(random);
            let hz = random_hz(random, b, root);
            tally.same((&b.columns, root, hz), ffi::find_by_pitch(&b.columns, b.count, root, hz), find_pitch(b, root, hz));
        });
    });
    all.function("find_by_pitch_sorted", &[10, 11, 18], |tally| {
        over(tally, 52, 8, |tally, random, b| {
            let root = random_root(random);
            let hz = random_hz(random, b, root);
            tally.same((&b.columns, root, hz), ffi::find_by_pitch_sorted(&b.columns, b.count, root, hz), find_pitch_sorted(b, root, hz));
        });
    });
    all.function("find_by_pitch, key", &[10, 11, 18], |tally| {
        over(tally, 53, 8, |tally, random, b| {
            let root = random_root(random);
            let hz = random_hz(random, b, root);
            tally.same((&b.columns, root, hz), ffi::find_key_by_pitch(&b.columns, b.count, root, hz), find_key(b, root, hz));
        });
    });
}

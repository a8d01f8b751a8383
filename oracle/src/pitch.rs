//! pitch.rs: every call, with E and L on both sides, bit for bit. A given number outside 2^-900..2^900 is 10, a computed one 18,
//! and so is what E or L refuses; the Rust goes on there, which is outside its domain.

use crate::ffi;
use crate::inputs::{Random, f64_limits, fixed};
use crate::lent::Float;
use crate::tally::{Report, Said, Who};
use tune::pitch::{Pitch, Ratio};
use tune::powers;

const RANDOM: usize = 200_000;

pub fn singles() -> impl Iterator<Item = f64> {
    let mut random = Random::new(8);
    f64_limits().into_iter().chain((0..RANDOM).map(move |k| match k % 5 {
        0 => random.ratio(905),
        1 => random.ratio(66),
        2 => random.ratio(3),
        3 => (random.unit() - 0.5) * 4000.0,
        _ => random.f64(),
    }))
}

pub fn pairs() -> impl Iterator<Item = (f64, f64)> {
    let limits = f64_limits().into_iter().flat_map(|a| f64_limits().into_iter().step_by(3).map(move |b| (a, b)));
    let mut random = Random::new(9);
    limits.chain((0..RANDOM).map(move |k| match k % 4 {
        0 => (random.ratio(900), random.ratio(900)),
        1 => (random.ratio(4), random.ratio(4)),
        2 => (random.ratio(4), (random.unit() - 0.5) * 100.0),
        _ => (random.ratio(700), random.i32() as f64),
    }))
}

pub fn in_reach(x: f64) -> bool {
    (2f64.powi(-900)..=2f64.powi(900)).contains(&x)
}

/// What the rules make of the Rust's answer: 10 for a given number, 18 where E or L or the result leaves its range.
fn ruled(given: &[f64], ranged: bool, call: impl FnOnce() -> f64) -> Said<Float> {
    if !given.iter().all(|&x| in_reach(x)) {
        return Said::refused(Who::Rules, 10, 0, Float::Untouched);
    }
    powers::left_domain();
    powers::asked();
    let answer = call();
    if powers::left_domain() || ranged && !in_reach(answer) {
        return Said::refused(Who::Rules, 18, 0, Float::Untouched);
    }
    Said::gives(if powers::asked() { Who::Second } else { Who::Rust }, Float::of(answer))
}

pub fn ratio(x: f64) -> Ratio {
    Ratio::from_float(x)
}

/// A call of one float, or of two: its name, ours, what it should answer, the refusals it has.
pub struct One(pub &'static str, pub ffi::One, pub fn(f64) -> Said<Float>, pub &'static [u64]);
pub struct Two(pub &'static str, pub ffi::Two, pub fn(f64, f64) -> Said<Float>, pub &'static [u64]);

pub const ONES: [One; 12] = [
    One("from_hz", ffi::telbijan_pitch_from_hz, |x| ruled(&[x], true, || Pitch::from_hz(x).as_hz()), &[10]),
    One("from_float", ffi::telbijan_ratio_from_float, |x| ruled(&[x], true, || ratio(x).as_float()), &[10]),
    One("from_octaves", ffi::telbijan_ratio_from_octaves, |x| ruled(&[], true, || Ratio::from_octaves(x).as_float()), &[18]),
    One("from_semitones", ffi::telbijan_ratio_from_semitones, |x| ruled(&[], true, || Ratio::from_semitones(x).as_float()), &[18]),
    One("from_cents", ffi::telbijan_ratio_from_cents, |x| ruled(&[], true, || Ratio::from_cents(x).as_float()), &[18]),
    One("as_octaves", ffi::telbijan_ratio_as_octaves, |x| ruled(&[x], false, || ratio(x).as_octaves()), &[10]),
    One("as_semitones", ffi::telbijan_ratio_as_semitones, |x| ruled(&[x], false, || ratio(x).as_semitones()), &[10]),
    One("as_cents", ffi::telbijan_ratio_as_cents, |x| ruled(&[x], false, || ratio(x).as_cents()), &[10]),
    One("inv", ffi::telbijan_ratio_inv, |x| ruled(&[x], true, || ratio(x).inv().as_float()), &[10]),
    One("abs", ffi::telbijan_ratio_abs, |x| ruled(&[x], true, || ratio(x).abs().as_float()), &[10]),
    // these two are read back as they are, which the library tests as every call does
    One("as_hz", ffi::telbijan_pitch_from_hz, |x| ruled(&[x], true, || Pitch::from_hz(x).as_hz()), &[10]),
    One("as_float", ffi::telbijan_ratio_from_float, |x| ruled(&[x], true, || ratio(x).as_float()), &[10]),
];

pub const TWOS: [Two; 8] = [
    Two("pitch_times", ffi::telbijan_pitch_times_ratio, |x, y| ruled(&[x, y], true, || (Pitch::from_hz(x) * ratio(y)).as_hz()), &[10, 18]),
    Two("pitch_over", ffi::telbijan_pitch_over_ratio, |x, y| ruled(&[x, y], true, || (Pitch::from_hz(x) / ratio(y)).as_hz()), &[10, 18]),
    Two("between_pitches", ffi::telbijan_ratio_between_pitches, |x, y| ruled(&[x, y], true, || Ratio::between_pitches(Pitch::from_hz(x), Pitch::from_hz(y)).as_float()), &[10, 18]),
    Two("stretched_by", ffi::telbijan_ratio_stretched_by, |x, y| ruled(&[x, y], true, || ratio(x).stretched_by(ratio(y)).as_float()), &[10, 18]),
    Two("deviation_from", ffi::telbijan_ratio_deviation_from, |x, y| ruled(&[x, y], true, || ratio(x).deviation_from(ratio(y)).as_float()), &[10, 18]),
    Two("repeated", ffi::telbijan_ratio_repeated, |x, y| ruled(&[x], true, || ratio(x).repeated(y).as_float()), &[10, 18]),
    Two("divided_into_equal_steps", ffi::telbijan_ratio_divided_into_equal_steps, |x, y| ruled(&[x], true, || ratio(x).divided_into_equal_steps(y).as_float()), &[10, 18]),
    Two("num_equal_steps_of_size", ffi::telbijan_ratio_num_equal_steps_of_size, |x, y| ruled(&[x, y], false, || ratio(x).num_equal_steps_of_size(ratio(y))), &[10]),
];

pub fn negligible(x: f64) -> Said<bool> {
    if in_reach(x) { Said::gives(Who::Rust, ratio(x).is_negligible()) } else { Said::refused(Who::Rules, 10, 0, ffi::OLD_BOOL) }
}

pub fn order(x: f64, y: f64) -> Said<i32> {
    if in_reach(x) && in_reach(y) { Said::gives(Who::Rust, ratio(x).total_cmp(&ratio(y)) as i32) } else { Said::refused(Who::Rules, 10, 0, ffi::OLD_I32) }
}

pub fn nearest(x: f64, limit: u16) -> Said<ffi::Nearest> {
    if (2f64.powi(-64)..=2f64.powi(64)).contains(&x) {
        let found = ratio(x).nearest_fraction(limit);
        Said::gives(Who::Second, (found.numer, found.denom, Float::of(found.deviation.as_float()), found.num_octaves))
    } else {
        Said::refused(Who::Rules, 10, 0, ffi::OLD_NEAREST)
    }
}

/// Ratios for the nearest fraction: those with turns of their own, every small fraction with its neighbours, and random ones.
pub fn approached() -> impl Iterator<Item = f64> {
    let named = [1.25, 2f64.powi(63).next_down(), 1f64.next_down(), 1.000000001, 1.5, 0.75, 3.0];
    let fractions = fixed(1..40).flat_map(|n| (1..40).map(move |d| n as f64 / d as f64)).flat_map(|x| [x.next_down(), x, x.next_up()]);
    let mut random = Random::new(10);
    named.into_iter().chain(f64_limits()).chain(fractions).chain((0..30_000).map(move |k| if k % 3 == 0 { random.ratio(66) } else { random.ratio(2) }))
}

pub fn compare(all: &mut Report) {
    for One(name, ours, theirs, numbers) in &ONES[..10] {
        all.function(name, numbers, |tally| {
            for x in singles() {
                tally.same(x, ffi::one(*ours, x), theirs(x));
            }
        });
    }
    for Two(name, ours, theirs, numbers) in &TWOS {
        all.function(name, numbers, |tally| {
            for (x, y) in pairs() {
                tally.same((x, y), ffi::two(*ours, x, y), theirs(x, y));
            }
        });
    }
    all.function("is_negligible", &[10], |tally| {
        for x in singles() {
            tally.same(x, ffi::is_negligible(x), negligible(x));
        }
    });
    all.function("total_cmp", &[10], |tally| {
        let close = singles().filter(|x| in_reach(*x)).flat_map(|x| [(x, x), (x, x.next_up()), (x, x.next_down())]);
        for (x, y) in pairs().chain(close) {
            tally.same((x, y), ffi::total_cmp(x, y), order(x, y));
        }
    });
    all.function("nearest_fraction", &[10], |tally| {
        let mut random = Random::new(11);
        for x in approached() {
            let drawn = random.next() as u16;
            for limit in [0, 1, 3, 5, 7, 9, 11, 15, 99, 65_535, drawn] {
                tally.same((x, limit), ffi::nearest_fraction(x, limit), nearest(x, limit));
            }
        }
        // document 01's sample: ratio 1.25, odd limit 3: 4/3
        let (_, (numer, denom, _, _)) = ffi::nearest_fraction(1.25, 3);
        tally.require((numer, denom) == (4, 3), "1.25 within 3 is 4/3");
    });
}

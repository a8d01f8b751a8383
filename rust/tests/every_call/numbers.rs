//! Ratios and pitches as numbers.

use crate::tally::Tally;
use telbijan::ratio::{self, BestFraction, NearestFraction};
use telbijan::Refusal;

/// No two of them are inverse to each other, and neither are any two answers.
const VALUES: [f64; 12] = [0.9999995, 1.0, 1.25, 3.5, 0.4, 440.0, -2.75, 901.0, 1e-280, 1e280, 0.0, f64::NAN];

type One = unsafe extern "C" fn(f64, *mut f64) -> u64;
type Two = unsafe extern "C" fn(f64, f64, *mut f64) -> u64;

macro_rules! declared {
    ($($one:ident)+; $($two:ident)+) => {
        extern "C" {
            $(fn $one(x: f64, answer: *mut f64) -> u64;)+
            $(fn $two(x: f64, y: f64, answer: *mut f64) -> u64;)+
            fn telbijan_ratio_is_negligible(value: f64, negligible: *mut bool) -> u64;
            fn telbijan_ratio_nearest_fraction(value: f64, limit: u16, numer: *mut u16, denom: *mut u16, deviation: *mut f64, octaves: *mut i32) -> u64;
            fn telbijan_ratio_best_fraction(value: f64, limit: u16, numer: *mut u16, denom: *mut u16, deviation: *mut f64) -> u64;
        }
    };
}

declared! {
    telbijan_exp2 telbijan_log2 telbijan_ratio_from_octaves telbijan_ratio_from_semitones telbijan_ratio_from_cents telbijan_ratio_as_octaves
    telbijan_ratio_as_semitones telbijan_ratio_as_cents telbijan_ratio_inv telbijan_ratio_abs;
    telbijan_ratio_between_pitches telbijan_ratio_stretched_by telbijan_ratio_deviation_from telbijan_ratio_repeated
    telbijan_ratio_divided_into_equal_steps telbijan_ratio_num_equal_steps_of_size telbijan_pitch_times_ratio telbijan_pitch_over_ratio
}

fn one(seen: &mut Tally, name: &'static str, ours: fn(f64) -> Result<f64, Refusal>, call: One) {
    for x in VALUES {
        let mut answer = 7.0;
        // Safety: one f64 is stored.
        let result = unsafe { call(x, &mut answer) };
        seen.agree(name, ours(x), result, answer);
    }
}

fn two(seen: &mut Tally, name: &'static str, ours: fn(f64, f64) -> Result<f64, Refusal>, call: Two) {
    for (x, y) in VALUES.iter().flat_map(|&x| VALUES.map(|y| (x, y))) {
        let mut answer = 7.0;
        // Safety: one f64 is stored.
        let result = unsafe { call(x, y, &mut answer) };
        seen.agree(name, ours(x, y), result, answer);
    }
}

#[test]
fn of_one() {
    let mut seen = Tally::default();
    one(&mut seen, "exp2", ratio::exp2, telbijan_exp2);
    one(&mut seen, "log2", ratio::log2, telbijan_log2);
    one(&mut seen, "from_octaves", ratio::from_octaves, telbijan_ratio_from_octaves);
    one(&mut seen, "from_semitones", ratio::from_semitones, telbijan_ratio_from_semitones);
    one(&mut seen, "from_cents", ratio::from_cents, telbijan_ratio_from_cents);
    one(&mut seen, "as_octaves", ratio::as_octaves, telbijan_ratio_as_octaves);
    one(&mut seen, "as_semitones", ratio::as_semitones, telbijan_ratio_as_semitones);
    one(&mut seen, "as_cents", ratio::as_cents, telbijan_ratio_as_cents);
    one(&mut seen, "inv", ratio::inv, telbijan_ratio_inv);
    one(&mut seen, "abs", ratio::abs, telbijan_ratio_abs);
    seen.done(10);
}

#[test]
fn of_two() {
    let mut seen = Tally::default();
    two(&mut seen, "between_pitches", ratio::between_pitches, telbijan_ratio_between_pitches);
    two(&mut seen, "stretched_by", ratio::stretched_by, telbijan_ratio_stretched_by);
    two(&mut seen, "deviation_from", ratio::deviation_from, telbijan_ratio_deviation_from);
    two(&mut seen, "repeated", ratio::repeated, telbijan_ratio_repeated);
    two(&mut seen, "divided_into_equal_steps", ratio::divided_into_equal_steps, telbijan_ratio_divided_into_equal_steps);
    two(&mut seen, "num_equal_steps_of_size", ratio::num_equal_steps_of_size, telbijan_ratio_num_equal_steps_of_size);
    two(&mut seen, "times_ratio", ratio::times_ratio, telbijan_pitch_times_ratio);
    two(&mut seen, "over_ratio", ratio::over_ratio, telbijan_pitch_over_ratio);
    seen.done(8);
}

#[test]
fn other_answers() {
    let mut seen = Tally::default();
    for x in VALUES {
        let mut negligible = false;
        // Safety: one bool is stored.
        let result = unsafe { telbijan_ratio_is_negligible(x, &mut negligible) };
        seen.agree("is_negligible", ratio::is_negligible(x), result, negligible);
        for limit in [0, 1, 5, 11] {
            let mut f = NearestFraction { numer: 7, denom: 8, deviation: 9.0, octaves: 10 };
            // Safety: the four parts are stored.
            let result = unsafe { telbijan_ratio_nearest_fraction(x, limit, &mut f.numer, &mut f.denom, &mut f.deviation, &mut f.octaves) };
            seen.agree("nearest_fraction", ratio::nearest_fraction(x, limit), result, f);
        }
    }
    seen.done(2);
}

/// The best fraction beside the call: the ratio's refusal first, then the limit's, and what it stores.
#[test]
fn best_fractions() {
    let mut seen = Tally::default();
    // 2^64 and the next above it, 2^-64 and the next below
    let ends = [0x43f0000000000000, 0x43f0000000000001, 0x3bf0000000000000, 0x3befffffffffffff].map(f64::from_bits);
    for (x, limit) in VALUES.into_iter().chain(ends).flat_map(|x| [0, 1, 2, 9, 11, 65_535].map(|limit| (x, limit))) {
        let mut f = BestFraction { numer: 7, denom: 8, deviation: 9.0 };
        // Safety: the three parts are stored.
        let result = unsafe { telbijan_ratio_best_fraction(x, limit, &mut f.numer, &mut f.denom, &mut f.deviation) };
        let in_range = (2f64.powi(-64)..=2f64.powi(64)).contains(&x);
        assert_eq!(result, if !in_range { 10 } else if limit == 0 { 29 } else { 0 });
        assert!(result == 0 || f == BestFraction { numer: 7, denom: 8, deviation: 9.0 });
        seen.agree("best_fraction", ratio::best_fraction(x, limit), result, f);
    }
    seen.done(1);
}

/// Answers by the rule: octaves stay, an even limit is the odd one below it, and the nearest of all is met where the walk stops before it.
#[test]
fn best_of_all() {
    let best = |x, limit| ratio::best_fraction(x, limit).map(|f| (f.numer, f.denom, f.deviation)).unwrap();
    assert_eq!(best(1.575, 9), (14, 9, 1.0125));
    assert_eq!(best(0.75, 11), (3, 4, 1.0));
    assert_eq!(best(1.25, 2), (1, 1, 1.25));
    assert_eq!((best(3.0, 1), best(1.45, 1)), ((4, 1, 0.75), (2, 1, 0.725)));
    assert_eq!(best(1.5e-5, 65_535), (1, 65_535, 0.983025));
    assert_eq!(best(2f64.powi(64), 1), (32_768, 1, 562_949_953_421_312.0));
    assert_eq!(best(2f64.powi(-64), 1).1, 32_768);
}

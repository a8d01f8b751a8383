//! The examples on the Rust's own pages of math.rs, key.rs and pitch.rs, run here: each answer of a taken call is what the page says, and bit for
//! bit what the Rust gives. Those outside document 01's domain are run too, with our refusal. Not run, since the calls stay behind: `gcd_u16`,
//! `simplify_u16`, `keys_before`, notes, parsing and printing of ratios.

use crate::lent::Float;
use crate::pitch::{ONES, One, TWOS, Two};
use crate::tally::{Code, Report, Tally};
use crate::{ffi, key, math, pitch};

fn integers(tally: &mut Tally) {
    let (far, last) = (u32::MAX, i32::MAX as u32);
    let divisions = [
        (0, 5, 0, 0), (1, 5, 0, 1), (4, 5, 0, 4), (5, 5, 1, 0), (6, 5, 1, 1), (-1, 5, -1, 4), (-4, 5, -1, 1), (-5, 5, -1, 0), (-6, 5, -2, 4),
        (i32::MIN, far, -1, last), (-1, far, -1, far - 1), (1, far, 0, 1), (i32::MAX, far, 0, last),
    ];
    for (numer, denom, quotient, remainder) in divisions {
        let (ours, rest) = (ffi::i32_div_u(numer, denom), ffi::i32_rem_u(numer, denom));
        tally.require((ours.1, rest.1) == (quotient, remainder), (numer, denom));
        tally.same((numer, denom), ours, math::division(numer, denom).map(|(quotient, _)| quotient));
        tally.same((numer, denom), rest, math::division(numer, denom).map(|(_, remainder)| remainder));
    }
    for (number, odd) in [(0, 0), (1, 1), (2, 1), (3, 3), (10, 5), (24, 3), (35, 35)] {
        tally.require(ffi::odd_factors_u16(number).1 == odd && tune::math::odd_factors_u16(number) == odd, number);
    }
}

fn keys(tally: &mut Tally) {
    for (number, midi) in [(-1, None), (0, Some(0)), (64, Some(64)), (127, Some(127)), (128, None)] {
        let ours = ffi::checked_midi_number(number);
        tally.require((ours.0 == Code::ACCEPTED).then_some(ours.1) == midi, number);
        tally.same(number, ours, key::checked(number));
    }
    for (number, other, steps) in [(62, 67, 5), (67, 62, -5)] {
        let (between, after) = (ffi::num_keys_before(number, other), ffi::plus_steps(number, steps));
        tally.require((between.1, after.1) == (steps, other), number);
        tally.same(number, between, key::before(number, other));
        tally.same(number, after, key::plus(number, steps));
    }
}

/// A call by its name in `ONES` or `TWOS`: it must answer a number, the same as the Rust's.
fn one(tally: &mut Tally, name: &str, x: f64) -> f64 {
    let One(_, call, theirs, _) = ONES.iter().find(|call| call.0 == name).unwrap();
    let ours = ffi::one(*call, x);
    tally.same((name, x), ours, theirs(x));
    number(ours.1)
}

fn two(tally: &mut Tally, name: &str, x: f64, y: f64) -> f64 {
    let Two(_, call, theirs, _) = TWOS.iter().find(|call| call.0 == name).unwrap();
    let ours = ffi::two(*call, x, y);
    tally.same((name, x, y), ours, theirs(x, y));
    number(ours.1)
}

fn number(x: Float) -> f64 {
    if let Float::Is(bits) = x { f64::from_bits(bits) } else { f64::NAN }
}

/// `assert_approx_eq`: within 0.000001.
fn close(tally: &mut Tally, found: f64, said: f64) {
    tally.require((found - said).abs() < 1e-6, (found, said));
}

fn ratios(tally: &mut Tally) {
    let t = tally;
    let hz = two(t, "pitch_over", 330.0, 1.5);
    close(t, hz, 220.0);
    let hz = two(t, "pitch_times", 220.0, 1.5);
    close(t, hz, 330.0);
    let hz = one(t, "from_hz", 123.456);
    close(t, hz, 123.456);
    // from one measure to another: the call in, the call out, the number in, the number out
    let measures = [
        ("from_float", "as_cents", 1.5, 701.955), ("from_cents", "as_semitones", 400.0, 4.0), ("from_semitones", "as_octaves", 3.0, 0.25), ("from_octaves", "as_float", 3.0, 8.0),
        ("inv", "as_float", 4.0, 0.25), ("abs", "as_float", 2.0, 2.0), ("abs", "as_float", 1.0, 1.0), ("abs", "as_float", 0.5, 2.0), ("from_float", "as_float", 1.0, 1.0), ("from_float", "as_cents", 1.0, 0.0),
    ];
    for (from, to, x, said) in measures {
        let ratio = one(t, from, x);
        let found = one(t, to, ratio);
        close(t, found, said);
    }
    for cents in [0.0, -3.0] {
        let ratio = one(t, "from_cents", cents);
        let back = one(t, "as_cents", ratio);
        t.require(back.is_finite(), cents);
    }
    let between = two(t, "between_pitches", 330.0, 440.0);
    close(t, between, 4.0 / 3.0);
    // of ratios in cents: the call, its two numbers, what comes out in cents
    for (name, x, y, said) in [("stretched_by", 1200.0, 10.0, 1210.0), ("deviation_from", 1210.0, 1200.0, 10.0)] {
        let (x, y) = (one(t, "from_cents", x), one(t, "from_cents", y));
        let ratio = two(t, name, x, y);
        let cents = one(t, "as_cents", ratio);
        close(t, cents, said);
    }
    let tone = one(t, "from_semitones", 2.0);
    let tones = two(t, "repeated", tone, 3.0);
    let semitones = one(t, "as_semitones", tones);
    close(t, semitones, 6.0);
    let part = two(t, "divided_into_equal_steps", 2.0, 15.0);
    let cents = one(t, "as_cents", part);
    close(t, cents, 80.0);
    let step = one(t, "from_cents", 80.0);
    let count = two(t, "num_equal_steps_of_size", 2.0, step);
    close(t, count, 15.0);
    let below = one(t, "from_cents", 150.0);
    let below = one(t, "inv", below);
    let below = one(t, "as_cents", below);
    close(t, below, -150.0);
    for (cents, said) in [(0.002, false), (0.001, true), (0.0, true), (-0.001, true), (-0.002, false)] {
        let x = one(t, "from_cents", cents);
        let ours = ffi::is_negligible(x);
        t.require(ours.1 == said, cents);
        t.same(cents, ours, pitch::negligible(x));
    }
}

fn fractions(tally: &mut Tally) {
    let seventh = one(tally, "from_semitones", 10.0);
    for (x, limit, numer, denom, octaves, cents) in [(seventh, 9, 16, 9, 0, 3.910002), (seventh, 5, 5, 3, 0, 115.641287), (3.0 / 4.0, 11, 3, 2, -1, 0.0)] {
        let ours = ffi::nearest_fraction(x, limit);
        tally.require((ours.1.0, ours.1.1, ours.1.3) == (numer, denom, octaves), (x, limit));
        let deviation = one(tally, "as_cents", number(ours.1.2));
        close(tally, deviation, cents);
        tally.same((x, limit), ours, pitch::nearest(x, limit));
    }
}

/// Where the pages show an infinity, a NaN or a number below 0: a number given outside 2^-900..2^900 is 10 here, and the value stays.
fn outside(tally: &mut Tally) {
    for (name, x) in [("as_cents", 0.0), ("as_cents", -3.0)].into_iter().chain([f64::INFINITY, 0.0, -0.0, -0.5, -1.0, -2.0, f64::NEG_INFINITY, f64::NAN].map(|x| ("abs", x))) {
        let One(_, call, theirs, _) = ONES.iter().find(|call| call.0 == name).unwrap();
        let ours = ffi::one(*call, x);
        tally.require(ours == (Code::refusal(10, 0), Float::Untouched), (name, x));
        tally.same((name, x), ours, theirs(x));
    }
}

pub fn compare(all: &mut Report) {
    all.function("examples of math.rs", &[], integers);
    all.function("examples of key.rs", &[16], keys);
    all.function("examples of pitch.rs", &[10], |tally| {
        ratios(tally);
        fractions(tally);
        outside(tally);
    });
}

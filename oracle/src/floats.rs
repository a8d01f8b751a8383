//! The float steps of Rust's std that are written anew, and the ranges of document 01: every limit with every limit, and random bits.

use crate::inputs::{Random, f64_limits};
use crate::lent::Float;
use crate::probe;
use crate::tally::{Code, Report, Said, Who};

const RANDOM: usize = 500_000;

fn singles() -> impl Iterator<Item = f64> {
    let mut random = Random::new(4);
    f64_limits().into_iter().chain((0..RANDOM).map(move |k| match k % 3 {
        0 => random.f64(),
        1 => random.ratio(60) - random.ratio(60),
        _ => random.i32() as f64 / 8.0,
    }))
}

fn pairs() -> impl Iterator<Item = (f64, f64)> {
    let limits = f64_limits().into_iter().flat_map(|a| f64_limits().into_iter().map(move |b| (a, b)));
    let mut random = Random::new(5);
    limits.chain((0..RANDOM).map(move |k| match k % 3 {
        0 => (random.f64(), random.f64()),
        1 => (random.ratio(40) - random.ratio(40), random.ratio(8)),
        _ => (random.i32() as f64 / 16.0, random.i32() as f64 / 4096.0),
    }))
}

fn accepted(x: f64) -> (Code, Float) {
    (Code::ACCEPTED, Float::of(x))
}

pub fn compare(all: &mut Report) {
    let one = |all: &mut Report, name: &str, ours: fn(f64) -> f64, theirs: fn(f64) -> f64| {
        all.function(name, &[], |tally| {
            for x in singles() {
                tally.same(x, accepted(ours(x)), Said::gives(Who::Rust, Float::of(theirs(x))));
            }
        });
    };
    one(all, "f64 abs", probe::abs, f64::abs);
    one(all, "f64 trunc", probe::trunc, f64::trunc);
    one(all, "f64 floor", probe::floor, f64::floor);
    let two = |all: &mut Report, name: &str, ours: fn(f64, f64) -> f64, theirs: fn(f64, f64) -> f64| {
        all.function(name, &[], |tally| {
            for (a, b) in pairs() {
                tally.same((a, b), accepted(ours(a, b)), Said::gives(Who::Rust, Float::of(theirs(a, b))));
            }
        });
    };
    two(all, "f64 rem_euclid", probe::rem_euclid, f64::rem_euclid);
    two(all, "f64 div_euclid", probe::div_euclid, f64::div_euclid);
    let range = |all: &mut Report, name: &str, ours: fn(f64) -> bool, low: i32, high: i32| {
        all.ruled(name, &[], |tally| {
            for x in singles() {
                let inside = (2f64.powi(low)..=2f64.powi(high)).contains(&x);
                tally.same(x, (Code::ACCEPTED, ours(x)), Said::gives(Who::Rules, inside));
            }
        });
    };
    range(all, "range 2^-900..2^900", probe::is_in_reach, -900, 900);
    range(all, "range 2^-64..2^64", probe::is_in_search, -64, 64);
    range(all, "range 2^-32..2^32", probe::is_in_generator, -32, 32);
    range(all, "range 2^-10..2^20", probe::is_in_pitch, -10, 20);
}

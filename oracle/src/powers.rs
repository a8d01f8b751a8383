//! E and L: bit for bit beside the second implementation.
//!
//! The library computes both from tables over a few bits, and falls back to the steps of document 01 where that does not decide; so, beside
//! random numbers, the inputs have every few bits at every place with what makes their borders: zeros or ones below them, and neighbours.

use crate::decided::{self, Asked};
use crate::ffi;
use crate::first_table;
use crate::inputs::{Random, f64_limits, fixed};
use crate::lent::Float;
use crate::tally::{Code, Report, Said, Tally, Who};
use std::collections::BTreeSet;
use tune::powers;

const RANDOM: usize = 1_000_000;

/// Of so many inputs, how many the tables of E and of L may leave to the steps.
const INPUTS: usize = 200_000;
const MOST_OF_E: usize = 7_600;
const MOST_OF_L: usize = 6_400;

pub fn exponents() -> impl Iterator<Item = f64> {
    let mut random = Random::new(6);
    let eighths = fixed(-7300..=7300).map(|k| k as f64 / 8.0);
    f64_limits().into_iter().chain(eighths).chain((0..RANDOM).map(move |k| match k % 4 {
        0 => (random.unit() - 0.5) * 1900.0,
        1 => (random.unit() - 0.5) * 2.0,
        2 => (random.next() as i32 % 40_000) as f64 / 1200.0,
        _ => random.f64(),
    }))
}

pub fn values() -> impl Iterator<Item = f64> {
    let mut random = Random::new(7);
    let powers = fixed(-910..=910).flat_map(|k| {
        let power = 2f64.powi(k);
        [power.next_down(), power, power.next_up()]
    });
    f64_limits().into_iter().chain(powers).chain((0..RANDOM).map(move |k| match k % 4 {
        0 => random.ratio(905),
        1 => random.ratio(2),
        2 => 1.0 + (random.unit() - 0.5) * 1e-5,
        _ => random.f64(),
    }))
}

/// The fractions of 52 bits up to `near` beside these.
fn beside(near: i64, all: impl Iterator<Item = u64>) -> impl Iterator<Item = u64> {
    all.flat_map(move |f| (-near..=near).map(move |d| f.wrapping_add_signed(d) & ((1 << 52) - 1)))
}

/// Each pattern of the ten highest bits, those of E's first table: its first fraction and its last, with the numbers up to `near` beside.
fn patterns(near: i64) -> impl Iterator<Item = u64> {
    beside(near, fixed(0..1u64 << 10).flat_map(|i| [i << 42, (i << 42) + (1 << 42) - 1]))
}

/// Fractions of 52 bits: each pattern of eight bits at each place, below it zeros, ones or random bits, with the numbers up to `near` beside it.
fn fractions(near: i64) -> impl Iterator<Item = u64> {
    let mut random = Random::new(8);
    let all = (0..52).flat_map(|place| (0..256u64).map(move |bits| (place, bits)));
    let all = all.flat_map(move |(place, bits)| {
        let (below, high) = ((1u64 << place) - 1, bits << place);
        let other = random.next() & !((below << 8) | 0xff);
        [high, high | below, other | high, other | high | (random.next() & below)]
    });
    beside(near, all)
}

/// Exponents whose fractions are those, in 1..2, 0..1, -1..0 and -2..-1; and others next to them, in 41..42, where an f64 has fewer bits.
fn border_exponents(near: i64) -> impl Iterator<Item = f64> {
    fractions(near).chain(patterns(near)).flat_map(|f| {
        let x = 1.0 + f as f64 * 2f64.powi(-52);
        [x, x - 1.0, x - 2.0, x - 3.0, x + 40.0]
    })
}

/// Numbers whose digits are those, and numbers whose logarithms are, with their neighbours; and numbers next to 1.
fn border_values(near: i64) -> impl Iterator<Item = f64> {
    let digits = fractions(near).map(|f| f64::from_bits(0x3ff << 52 | f));
    let logarithms = fractions(0).filter_map(|f| powers::e(f as f64 * 2f64.powi(-52))).flat_map(move |x| (-near..=near).map(move |d| f64::from_bits(x.to_bits().wrapping_add_signed(d))));
    let ones = fixed(-2048 * near..=2048 * near).map(|d| f64::from_bits(1f64.to_bits().wrapping_add_signed(d)));
    digits.chain(logarithms).chain(ones)
}

/// 18 outside the domain of E or L.
pub fn said(answer: Option<f64>) -> Said<Float> {
    match answer {
        Some(x) => Said::gives(Who::Second, Float::of(x)),
        None => Said::refused(Who::Second, 18, 0, Float::Untouched),
    }
}

pub fn compare(all: &mut Report) {
    all.function("exp2", &[18], |tally| {
        for x in exponents().chain(border_exponents(1)) {
            tally.same(x, ffi::one(ffi::telbijan_exp2, x), said(powers::e(x)));
        }
        decides(tally, |random| random.unit() * 20.0 - 10.0, decided::powers_of, MOST_OF_E);
        first_table::compare(tally);
    });
    all.function("log2", &[18], |tally| {
        for x in values().chain(border_values(1)) {
            tally.same(x, ffi::one(ffi::telbijan_log2, x), said(powers::l(x)));
        }
        decides(tally, |random| random.ratio(10), decided::logarithms_of, MOST_OF_L);
    });
}

/// That the tables decide all but a few of some inputs, and that what was counted is E or L: bit for bit what the second implementation gives.
fn decides(tally: &mut Tally, input: fn(&mut Random) -> f64, asked: fn(&[f64]) -> Asked, most: usize) {
    let mut random = Random::new(300);
    let inputs: Vec<f64> = (0..INPUTS).map(|_| input(&mut random)).collect();
    let Asked { undecided, wrong } = asked(&inputs);
    tally.require(wrong == 0, "the code that is counted is not the library's");
    tally.require(undecided <= most, format!("the tables seldom decide: not in {undecided} of {INPUTS} cases"));
}

/// For `oracle judged`: what would pass unseen.
pub fn unseen() -> Vec<String> {
    let mut all = first_table::unseen();
    let mut held = |name: &str, holds: bool| if !holds { all.push(name.to_string()) };
    let places: BTreeSet<(u64, u64)> = patterns(0).map(|f| (f >> 42, f % (1 << 42))).collect();
    held("a pattern left out", places == (0..1 << 10).flat_map(|i| [(i, 0), (i, (1 << 42) - 1)]).collect());
    held("neighbours left out", beside(1, [0, 7].into_iter()).eq([(1 << 52) - 1, 0, 1, 6, 7, 8]));
    held("a slow way from elsewhere", decided::slow_from_ten());
    for most in [MOST_OF_E, MOST_OF_L] {
        let seldom = |inputs: &[f64]| Asked { undecided: inputs.len() / 25, wrong: 0 };
        let mut report = Report::silent();
        report.function("judged, must differ", &[], |tally| decides(tally, |random| random.unit(), seldom, most));
        held("tables that seldom decide", report.differences() == 1);
    }
    all
}

/// Many more numbers than the comparison has: the borders with more neighbours, then random numbers up to `count`, for each of E and L.
/// Tells whether all bits are equal.
pub fn many(count: usize, seed: u64) -> bool {
    let mut random = Random::new(seed);
    let exponents = (0..).map(|k| match k % 4 {
        0 => random.unit() * 20.0 - 10.0,
        1 => random.unit() * 1800.0 - 900.0,
        2 => 1.0 + random.unit(),
        // every exponent from that of 2^-1074 up to that of 2^9, both signs
        _ => f64::from_bits(random.next() & 0x800f_ffff_ffff_ffff | (random.next() % 1033) << 52),
    });
    let all = border_exponents(8).chain(exponents).take(count);
    let powers = differences("E", all, |x| ffi::one(ffi::telbijan_exp2, x), powers::e);
    let mut random = Random::new(seed.wrapping_add(1));
    let values = (0..).map(|k| match k % 4 {
        0 => random.ratio(10),
        1 => 1.0 + random.unit(),
        // every exponent from that of 2^-900 up to that of 2^899
        2 => f64::from_bits(random.next() & 0x000f_ffff_ffff_ffff | (123 + random.next() % 1800) << 52),
        // next to 1, at every scale
        _ => {
            let size = 2f64.powi(-((random.next() % 52) as i32)) * random.unit();
            if random.next() % 2 == 0 { 1.0 + size } else { 1.0 - size / 2.0 }
        }
    });
    let all = border_values(8).chain(values).take(count);
    let logarithms = differences("L", all, |x| ffi::one(ffi::telbijan_log2, x), powers::l);
    println!("seeds {seed} and {}", seed.wrapping_add(1));
    powers + logarithms == 0
}

/// How many answers differ; the first ten are printed.
fn differences(name: &str, inputs: impl Iterator<Item = f64>, ours: impl Fn(f64) -> (Code, Float), theirs: impl Fn(f64) -> Option<f64>) -> usize {
    let (mut compared, mut refused, mut differ) = (0usize, 0usize, 0usize);
    for x in inputs {
        let (ours, theirs) = (ours(x), said(theirs(x)));
        compared += 1;
        refused += usize::from(theirs.code != Code::ACCEPTED);
        if ours != (theirs.code, theirs.value) {
            differ += 1;
            if differ <= 10 {
                println!("{name}({x:e}) = {ours:?}, should be {theirs:?}");
            }
        }
    }
    println!("{name}: {compared} compared, {refused} of them refused, {differ} differ");
    differ
}

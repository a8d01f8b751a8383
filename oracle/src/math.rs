//! math.rs: the divisions at every limit, every u16 denominator and random pairs; the odd part of every u16.

use crate::ffi;
use crate::inputs::{Random, fixed, i32_limits, u32_limits};
use crate::tally::{Report, Said, Who, caught};
use tune::math;

const RANDOM_PAIRS: usize = 2_000_000;

pub fn pairs() -> impl Iterator<Item = (i32, u32)> {
    let limits = i32_limits().into_iter().flat_map(|numer| u32_limits().into_iter().map(move |denom| (numer, denom)));
    let denoms = fixed(0..=65_535u32).flat_map(|denom| [i32::MIN, -7, -1, 5, i32::MAX].map(|numer| (numer, denom)));
    let mut random = Random::new(1);
    limits.chain(denoms).chain((0..RANDOM_PAIRS).map(move |_| (random.i32(), random.u32())))
}

/// The Rust's answer, the same at each denominator type that can hold the denominator; it panics exactly at denominator 0, which is 10.
pub fn division(numer: i32, denom: u32) -> Said<(i32, u32)> {
    let mut answer = caught(|| math::i32_dr_u(numer, denom));
    if let Ok(short) = u16::try_from(denom) {
        let same = caught(|| math::i32_dr_u(numer, short)).map(|(q, r)| (q, r.into())) == answer;
        answer = answer.filter(|_| same);
    }
    if let Ok(byte) = u8::try_from(denom) {
        let same = caught(|| math::i32_dr_u(numer, byte)).map(|(q, r)| (q, r.into())) == answer;
        answer = answer.filter(|_| same);
    }
    Said::unless_panic(answer, denom == 0, 10, (ffi::OLD_I32, ffi::OLD_U32))
}

pub fn compare(all: &mut Report) {
    all.function("i32_div_u", &[10], |tally| {
        for (numer, denom) in pairs() {
            let theirs = division(numer, denom);
            tally.same((numer, denom), ffi::i32_div_u(numer, denom), theirs.map(|(quotient, _)| quotient));
        }
    });
    all.function("i32_rem_u", &[10], |tally| {
        for (numer, denom) in pairs() {
            let theirs = division(numer, denom);
            tally.same((numer, denom), ffi::i32_rem_u(numer, denom), theirs.map(|(_, remainder)| remainder));
        }
    });
    all.function("i32_dr_u", &[10], |tally| {
        for (numer, denom) in pairs() {
            tally.same((numer, denom), ffi::i32_dr_u(numer, denom), division(numer, denom));
        }
    });
    all.function("odd_factors_u16", &[], |tally| {
        for number in fixed(0..=u16::MAX) {
            tally.same(number, ffi::odd_factors_u16(number), Said::gives(Who::Rust, math::odd_factors_u16(number)));
        }
        // answers that another program found, and 0, whose odd part is 0
        for (number, odd) in fixed([(0, 0), (1, 1), (3, 3), (24, 3), (256, 1), (49_152, 3), (65_535, 65_535)]) {
            tally.require(ffi::odd_factors_u16(number).1 == odd, number);
        }
    });
}

//! The interface of the proved library, as include/telbijan.h declares it, called so that what a refusal leaves behind is
//! seen: each value starts as a pattern, and comes back beside the code.

use crate::lent::{Float, lend};
use crate::tally::Code;

mod raw {
    crate::calls::counted! {
        fn telbijan_i32_div_u(numer: i32, denom: u32, quotient: *mut i32) -> u64;
        fn telbijan_i32_rem_u(numer: i32, denom: u32, remainder: *mut u32) -> u64;
        fn telbijan_i32_dr_u(numer: i32, denom: u32, quotient: *mut i32, remainder: *mut u32) -> u64;
        fn telbijan_odd_factors_u16(number: u16) -> u16;
        fn telbijan_checked_midi_number(number: i32, midi: *mut u8) -> u64;
        fn telbijan_num_keys_before(number: i32, other: i32, steps: *mut i32) -> u64;
        fn telbijan_plus_steps(number: i32, steps: i32, after: *mut i32) -> u64;
        fn telbijan_exp2(x: f64, power: *mut f64) -> u64;
        fn telbijan_log2(x: f64, logarithm: *mut f64) -> u64;
        fn telbijan_ratio_from_float(value: f64, ratio: *mut f64) -> u64;
        fn telbijan_ratio_from_octaves(octaves: f64, ratio: *mut f64) -> u64;
        fn telbijan_ratio_from_semitones(semitones: f64, ratio: *mut f64) -> u64;
        fn telbijan_ratio_from_cents(cents: f64, ratio: *mut f64) -> u64;
        fn telbijan_ratio_between_pitches(first: f64, second: f64, ratio: *mut f64) -> u64;
        fn telbijan_ratio_stretched_by(value: f64, stretch: f64, ratio: *mut f64) -> u64;
        fn telbijan_ratio_deviation_from(value: f64, reference: f64, ratio: *mut f64) -> u64;
        fn telbijan_ratio_repeated(value: f64, times: f64, ratio: *mut f64) -> u64;
        fn telbijan_ratio_divided_into_equal_steps(value: f64, steps: f64, ratio: *mut f64) -> u64;
        fn telbijan_ratio_num_equal_steps_of_size(value: f64, step: f64, count: *mut f64) -> u64;
        fn telbijan_ratio_as_octaves(value: f64, octaves: *mut f64) -> u64;
        fn telbijan_ratio_as_semitones(value: f64, semitones: *mut f64) -> u64;
        fn telbijan_ratio_as_cents(value: f64, cents: *mut f64) -> u64;
        fn telbijan_ratio_inv(value: f64, ratio: *mut f64) -> u64;
        fn telbijan_ratio_abs(value: f64, ratio: *mut f64) -> u64;
        fn telbijan_pitch_from_hz(value: f64, hz: *mut f64) -> u64;
        fn telbijan_pitch_times_ratio(value: f64, ratio: f64, hz: *mut f64) -> u64;
        fn telbijan_pitch_over_ratio(value: f64, ratio: f64, hz: *mut f64) -> u64;
        fn telbijan_ratio_is_negligible(value: f64, negligible: *mut bool) -> u64;
        fn telbijan_ratio_total_cmp(value: f64, other: f64, order: *mut i32) -> u64;
        fn telbijan_ratio_nearest_fraction(value: f64, limit: u16, numer: *mut u16, denom: *mut u16, deviation: *mut f64, octaves: *mut i32) -> u64;
        fn telbijan_ratio_best_fraction(value: f64, limit: u16, numer: *mut u16, denom: *mut u16, deviation: *mut f64) -> u64;
    }
}

pub const OLD_I32: i32 = 0x5A5A_A5A5;
pub const OLD_U32: u32 = 0xA5A5_5A5A;
pub const OLD_U8: u8 = 0xA5;
pub const OLD_U16: u16 = 0x5AA5;
pub const OLD_BOOL: bool = true;

pub fn i32_div_u(numer: i32, denom: u32) -> (Code, i32) {
    let mut quotient = OLD_I32;
    let code = unsafe { raw::telbijan_i32_div_u(numer, denom, &mut quotient) };
    (Code(code), quotient)
}

pub fn i32_rem_u(numer: i32, denom: u32) -> (Code, u32) {
    let mut remainder = OLD_U32;
    let code = unsafe { raw::telbijan_i32_rem_u(numer, denom, &mut remainder) };
    (Code(code), remainder)
}

pub fn i32_dr_u(numer: i32, denom: u32) -> (Code, (i32, u32)) {
    let (mut quotient, mut remainder) = (OLD_I32, OLD_U32);
    let code = unsafe { raw::telbijan_i32_dr_u(numer, denom, &mut quotient, &mut remainder) };
    (Code(code), (quotient, remainder))
}

pub fn odd_factors_u16(number: u16) -> (Code, u16) {
    (Code::ACCEPTED, unsafe { raw::telbijan_odd_factors_u16(number) })
}

pub fn checked_midi_number(number: i32) -> (Code, u8) {
    let mut midi = OLD_U8;
    let code = unsafe { raw::telbijan_checked_midi_number(number, &mut midi) };
    (Code(code), midi)
}

pub fn num_keys_before(number: i32, other: i32) -> (Code, i32) {
    let mut steps = OLD_I32;
    let code = unsafe { raw::telbijan_num_keys_before(number, other, &mut steps) };
    (Code(code), steps)
}

pub fn plus_steps(number: i32, steps: i32) -> (Code, i32) {
    let mut after = OLD_I32;
    let code = unsafe { raw::telbijan_plus_steps(number, steps, &mut after) };
    (Code(code), after)
}

/// A call that stores a float: of one float, and of two.
pub type One = unsafe extern "C" fn(f64, *mut f64) -> u64;
pub type Two = unsafe extern "C" fn(f64, f64, *mut f64) -> u64;

pub fn one(call: One, x: f64) -> (Code, Float) {
    let (code, answer, ()) = lend(|answer| (Code(unsafe { call(x, answer) }), ()));
    (code, answer)
}

pub fn two(call: Two, x: f64, y: f64) -> (Code, Float) {
    let (code, answer, ()) = lend(|answer| (Code(unsafe { call(x, y, answer) }), ()));
    (code, answer)
}

pub use raw::*;

pub fn is_negligible(x: f64) -> (Code, bool) {
    let mut negligible = OLD_BOOL;
    let code = unsafe { raw::telbijan_ratio_is_negligible(x, &mut negligible) };
    (Code(code), negligible)
}

pub fn total_cmp(x: f64, y: f64) -> (Code, i32) {
    let mut order = OLD_I32;
    let code = unsafe { raw::telbijan_ratio_total_cmp(x, y, &mut order) };
    (Code(code), order)
}

/// Numerator, denominator, deviation and octaves.
pub type Nearest = (u16, u16, Float, i32);

pub const OLD_NEAREST: Nearest = (OLD_U16, OLD_U16, Float::Untouched, OLD_I32);

pub fn nearest_fraction(x: f64, limit: u16) -> (Code, Nearest) {
    let (code, deviation, (numer, denom, octaves)) = lend(|deviation| {
        let (mut numer, mut denom, mut octaves) = (OLD_U16, OLD_U16, OLD_I32);
        let code = unsafe { raw::telbijan_ratio_nearest_fraction(x, limit, &mut numer, &mut denom, deviation, &mut octaves) };
        (Code(code), (numer, denom, octaves))
    });
    (code, (numer, denom, deviation, octaves))
}

/// Numerator, denominator and deviation.
pub type Best = (u16, u16, Float);

pub const OLD_BEST: Best = (OLD_U16, OLD_U16, Float::Untouched);

pub fn best_fraction(x: f64, limit: u16) -> (Code, Best) {
    let (code, deviation, (numer, denom)) = lend(|deviation| {
        let (mut numer, mut denom) = (OLD_U16, OLD_U16);
        let code = unsafe { raw::telbijan_ratio_best_fraction(x, limit, &mut numer, &mut denom, deviation) };
        (Code(code), (numer, denom))
    });
    (code, (numer, denom, deviation))
}

//! key.rs: every limit with every limit, and random pairs. The Rust panics where a sum leaves 32 bits, which is 11 here.

use crate::ffi;
use crate::inputs::{Random, fixed, i32_limits};
use crate::tally::{Report, Said, Who, caught};
use tune::key::PianoKey;

const RANDOM_PAIRS: usize = 1_000_000;

fn pairs() -> impl Iterator<Item = (i32, i32)> {
    let limits = i32_limits().into_iter().flat_map(|a| i32_limits().into_iter().map(move |b| (a, b)));
    let mut random = Random::new(2);
    limits.chain((0..RANDOM_PAIRS).map(move |_| (random.i32(), random.i32())))
}

/// The Rust's sum; it panics exactly where the exact one leaves 32 bits, which is 11.
fn sum(exact: i64, call: impl FnOnce() -> i32) -> Said<i32> {
    Said::unless_panic(caught(call), i32::try_from(exact).is_err(), 11, ffi::OLD_I32)
}

pub fn checked(number: i32) -> Said<u8> {
    match PianoKey::from_midi_number(number).checked_midi_number() {
        Some(midi) => Said::gives(Who::Rust, midi),
        None => Said::refused(Who::Rust, 16, 0, ffi::OLD_U8),
    }
}

pub fn before(number: i32, other: i32) -> Said<i32> {
    sum(i64::from(other) - i64::from(number), || PianoKey::from_midi_number(number).num_keys_before(PianoKey::from_midi_number(other)))
}

pub fn plus(number: i32, steps: i32) -> Said<i32> {
    sum(i64::from(number) + i64::from(steps), || PianoKey::from_midi_number(number).plus_steps(steps).midi_number())
}

pub fn compare(all: &mut Report) {
    all.function("checked_midi_number", &[16], |tally| {
        let mut random = Random::new(3);
        let numbers = fixed(-70_000..=70_000).chain(i32_limits()).chain((0..100_000).map(|_| random.i32()));
        for number in numbers {
            tally.same(number, ffi::checked_midi_number(number), checked(number));
        }
    });
    all.function("num_keys_before", &[11], |tally| {
        for (number, other) in pairs() {
            tally.same((number, other), ffi::num_keys_before(number, other), before(number, other));
        }
    });
    all.function("plus_steps", &[11], |tally| {
        for (number, steps) in pairs() {
            tally.same((number, steps), ffi::plus_steps(number, steps), plus(number, steps));
        }
    });
}

//! A lent f64, by its raw bits. The proofs have one NaN, so that "as before" is proved of a lent float up to a NaN's payload; here
//! each call finds another pattern, NaNs with payloads among them, and every bit must be there after a refusal.

use crate::tally::Code;
use std::cell::Cell;

/// A number, and NaNs that are quiet and signalling, of both signs, with payloads.
const OLD: [u64; 9] = [
    0xB46C_7A5D_1234_5678,
    0x7FF8_0000_0000_0000,
    0x7FF8_0000_0000_0001,
    0xFFF8_1234_5678_9ABC,
    0x7FF0_0000_0000_0001,
    0xFFF0_0000_DEAD_BEEF,
    0x7FF7_FFFF_FFFF_FFFF,
    0x7FFF_FFFF_FFFF_FFFF,
    0xFFFF_FFFF_FFFF_FFFF,
];

thread_local! {
    static TURN: Cell<usize> = const { Cell::new(0) };
}

/// The next call finds the first pattern, as in a thread of its own.
pub fn begin() {
    TURN.with(|turn| turn.set(0));
}

/// So many patterns for a lent column of floats, the first of them another one each time.
pub fn column(length: usize) -> Vec<u64> {
    let from = TURN.with(|turn| {
        turn.set((turn.get() + 1) % OLD.len());
        turn.get()
    });
    (0..length).map(|k| OLD[(from + k) % OLD.len()]).collect()
}

/// What stands where a float was lent.
#[derive(Clone, Copy, Debug, Eq, PartialEq)]
pub enum Float {
    /// Written by a call that accepted: these bits, and one pattern for every NaN.
    Is(u64),
    /// Every bit as before.
    Untouched,
    /// Other bits than before, after a refusal.
    Changed(u64),
}

impl Float {
    pub fn of(x: f64) -> Float {
        Float::Is(if x.is_nan() { f64::NAN.to_bits() } else { x.to_bits() })
    }
}

/// Lends a float to a call that answers a code and more.
pub fn lend<T>(call: impl FnOnce(*mut f64) -> (Code, T)) -> (Code, Float, T) {
    let old = TURN.with(|turn| {
        turn.set((turn.get() + 1) % OLD.len());
        OLD[turn.get()]
    });
    // the bits are lent as bits: no float register sees a signalling NaN on the way
    let mut bits = old;
    let (code, more) = call((&raw mut bits).cast());
    // an accepted call that wrote nothing shows: the old bits are no answer but where the answer is the plain NaN
    let float = match (code, bits == old) {
        (Code::ACCEPTED, true) if f64::from_bits(old).is_nan() && old != f64::NAN.to_bits() => Float::Untouched,
        (Code::ACCEPTED, _) => Float::of(f64::from_bits(bits)),
        (_, true) => Float::Untouched,
        (_, false) => Float::Changed(bits),
    };
    (code, float, more)
}

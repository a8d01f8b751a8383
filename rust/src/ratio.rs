//! Ratios and pitches as numbers: E, L, and what the Rust's `Ratio` and `Pitch` compute, the same bits on every machine. But for `exp2`, `log2` and
//! the three `from_`, a ratio or pitch that is given outside 2^-900..2^900 is refused by 10; one that is computed outside it by 18.

use crate::Refusal;

/// Calls of one or two numbers that answer one.
macro_rules! numbers {
    ($($(#[$doc:meta])* $name:ident = $raw:ident ( $($x:ident),+ );)+) => {
        mod raw {
            extern "C" {
                $(pub fn $raw($($x: f64,)+ answer: *mut f64) -> u64;)+
                pub fn telbijan_ratio_is_negligible(value: f64, negligible: *mut bool) -> u64;
                pub fn telbijan_ratio_nearest_fraction(value: f64, limit: u16, numer: *mut u16, denom: *mut u16, deviation: *mut f64, octaves: *mut i32) -> u64;
                pub fn telbijan_ratio_best_fraction(value: f64, limit: u16, numer: *mut u16, denom: *mut u16, deviation: *mut f64) -> u64;
            }
        }
        $(
            $(#[$doc])*
            pub fn $name($($x: f64),+) -> Result<f64, Refusal> {
                let mut answer = 0.0;
                // Safety: the call stores one f64, where it is accepted.
                Refusal::of(unsafe { raw::$raw($($x,)+ &mut answer) }).map(|()| answer)
            }
        )+
    };
}

numbers! {
    /// 2^x; 18 outside -900..900. Above the true power by one part in 2^53 at most, below it by less than one in 2^51: within 8e-13
    /// cents; what is computed before and after rounds again.
    exp2 = telbijan_exp2(x);
    /// The base 2 logarithm; 18 outside 2^-900..2^900. Above the true one by |r| * 2^-53 at most, r the answer, below it by less than
    /// that plus 2^-51: up to 32 octaves, within 5e-12 cents; what is computed before and after rounds again.
    log2 = telbijan_log2(x);
    /// The ratio of so many octaves; 18 outside -900..900.
    from_octaves = telbijan_ratio_from_octaves(octaves);
    /// The ratio of so many semitones.
    from_semitones = telbijan_ratio_from_semitones(semitones);
    /// The ratio of so many cents.
    from_cents = telbijan_ratio_from_cents(cents);
    /// The octaves of a ratio.
    as_octaves = telbijan_ratio_as_octaves(ratio);
    /// The semitones of a ratio.
    as_semitones = telbijan_ratio_as_semitones(ratio);
    /// The cents of a ratio.
    ///
    /// ```
    /// assert_eq!(telbijan::ratio::as_cents(2.0)?, 1200.0);
    /// # Ok::<(), telbijan::Refusal>(())
    /// ```
    as_cents = telbijan_ratio_as_cents(ratio);
    /// The ratio from the first pitch to the second.
    between_pitches = telbijan_ratio_between_pitches(first, second);
    /// One ratio on top of another.
    stretched_by = telbijan_ratio_stretched_by(ratio, stretch);
    /// How far a ratio is from another.
    deviation_from = telbijan_ratio_deviation_from(ratio, reference);
    /// So many times the interval.
    repeated = telbijan_ratio_repeated(ratio, times);
    /// One of so many equal parts of the interval.
    divided_into_equal_steps = telbijan_ratio_divided_into_equal_steps(ratio, steps);
    /// How many steps make the interval; infinite or a NaN for a step of 1.0.
    num_equal_steps_of_size = telbijan_ratio_num_equal_steps_of_size(ratio, step);
    /// The ratio turned over.
    inv = telbijan_ratio_inv(ratio);
    /// The ratio or its inverse, whichever is at least 1.
    abs = telbijan_ratio_abs(ratio);
    /// A pitch raised by a ratio.
    times_ratio = telbijan_pitch_times_ratio(hz, ratio);
    /// A pitch lowered by a ratio.
    over_ratio = telbijan_pitch_over_ratio(hz, ratio);
}

/// Whether a ratio lies in [0.999999, 1.000001).
pub fn is_negligible(ratio: f64) -> Result<bool, Refusal> {
    let mut negligible = false;
    // Safety: the call stores one bool, where it is accepted.
    Refusal::of(unsafe { raw::telbijan_ratio_is_negligible(ratio, &mut negligible) }).map(|()| negligible)
}

/// A fraction near a ratio within an octave, how far the ratio lies above it, and the octaves taken off.
#[derive(Clone, Copy, Debug, PartialEq)]
pub struct NearestFraction {
    /// The fraction's numerator.
    pub numer: u16,
    /// Its denominator.
    pub denom: u16,
    /// How far the ratio, its octaves taken off, lies above the fraction, a ratio.
    pub deviation: f64,
    /// The octaves that were taken off.
    pub octaves: i32,
}

/// The fraction within an odd limit that the Rust's walk finds; 10 for a ratio outside 2^-64..2^64. Odd limit 0 answers 0/0, infinitely far.
///
/// ```
/// let f = telbijan::ratio::nearest_fraction(0.75, 11)?;
/// assert_eq!((f.numer, f.denom, f.octaves), (3, 2, -1));
/// # Ok::<(), telbijan::Refusal>(())
/// ```
pub fn nearest_fraction(ratio: f64, limit: u16) -> Result<NearestFraction, Refusal> {
    let mut f = NearestFraction { numer: 0, denom: 0, deviation: 0.0, octaves: 0 };
    // Safety: the call stores the four parts, where it is accepted.
    let result = unsafe { raw::telbijan_ratio_nearest_fraction(ratio, limit, &mut f.numer, &mut f.denom, &mut f.deviation, &mut f.octaves) };
    Refusal::of(result).map(|()| f)
}

/// The best fraction for a ratio, and how far the ratio lies above it.
#[derive(Clone, Copy, Debug, PartialEq)]
pub struct BestFraction {
    /// The fraction's numerator.
    pub numer: u16,
    /// Its denominator.
    pub denom: u16,
    /// How far the ratio lies above the fraction, a ratio.
    pub deviation: f64,
}

/// The fraction nearest to a ratio of all that there are within an odd limit: numerator and denominator are from 1 to 65,535, and their
/// odd parts at most the limit. No octaves are taken off. Of two that are as near it is the one with the smaller denominator, then the
/// smaller numerator: it is in lowest terms. 10 for a ratio outside 2^-64..2^64, then 29 for odd limit 0. The time grows with the limit:
/// about half a microsecond at 9, a quarter of a millisecond at 65,535.
///
/// ```
/// use telbijan::{number, ratio};
///
/// let best = ratio::best_fraction(1.575, 9)?;
/// assert_eq!((best.numer, best.denom, best.deviation), (14, 9, 1.0125));
/// let walked = ratio::nearest_fraction(1.575, 9)?;
/// assert_eq!((walked.numer, walked.denom), (8, 5));
/// assert_eq!(ratio::best_fraction(1.575, 0).unwrap_err().number(), number::NO_FRACTION);
/// # Ok::<(), telbijan::Refusal>(())
/// ```
pub fn best_fraction(ratio: f64, limit: u16) -> Result<BestFraction, Refusal> {
    let mut f = BestFraction { numer: 0, denom: 0, deviation: 0.0 };
    // Safety: the call stores the three parts, where it is accepted.
    let result = unsafe { raw::telbijan_ratio_best_fraction(ratio, limit, &mut f.numer, &mut f.denom, &mut f.deviation) };
    Refusal::of(result).map(|()| f)
}

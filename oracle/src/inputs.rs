//! Inputs: every limit with its neighbours, and repeatable streams of random numbers. Which of them are drawn is said by the round.

use std::cell::Cell;
use std::ops::Range;

/// A round of the comparison: what its random inputs hang on, how many times as many random tables and texts there are, and whether the fixed
/// inputs, which are the same in every round, are among them.
#[derive(Clone, Copy, Debug)]
pub struct Round {
    pub seed: u64,
    pub times: usize,
    pub fixed: bool,
}

/// The round of `tools/compare`.
pub const PLAIN: Round = Round { seed: 0, times: 1, fixed: true };

thread_local! {
    static ROUND: Cell<Round> = const { Cell::new(PLAIN) };
}

/// From now on this thread's inputs are those of this round.
pub fn begin(round: Round) {
    ROUND.with(|cell| cell.set(round));
}

pub fn round() -> Round {
    ROUND.with(Cell::get)
}

/// Whether the fixed inputs are tried.
pub fn with_fixed() -> bool {
    round().fixed
}

/// So many random tables or texts, or as many times that as the round has, counted from 0.
pub fn drawn(count: usize) -> Range<usize> {
    0..count * round().times
}

/// Fixed inputs, or none where the round has none.
pub fn fixed<T>(inputs: impl IntoIterator<Item = T>) -> impl Iterator<Item = T> {
    inputs.into_iter().take(if with_fixed() { usize::MAX } else { 0 })
}

/// SplitMix64.
pub struct Random(u64);

impl Random {
    /// A stream of the round: in the plain round the stream's number is the generator's seed.
    pub fn new(stream: u64) -> Random {
        let seed = round().seed;
        Random(if seed == 0 { stream } else { Random(seed).next().wrapping_add(stream) })
    }

    pub fn next(&mut self) -> u64 {
        self.0 = self.0.wrapping_add(0x9E37_79B9_7F4A_7C15);
        let mut z = self.0;
        z = (z ^ (z >> 30)).wrapping_mul(0xBF58_476D_1CE4_E5B9);
        z = (z ^ (z >> 27)).wrapping_mul(0x94D0_49BB_1331_11EB);
        z ^ (z >> 31)
    }

    /// A number of 32 bits whose length in bits is random too, so that small ones are met.
    pub fn i32(&mut self) -> i32 {
        let short = self.next() % 32;
        (self.next() as i32) >> short
    }

    pub fn u32(&mut self) -> u32 {
        let short = self.next() % 32;
        (self.next() as u32) >> short
    }
}

/// The limits of the integer types in use, and the numbers within three of them: fixed inputs.
pub fn i32_limits() -> Vec<i32> {
    if !with_fixed() {
        return Vec::new();
    }
    let mut found = Vec::new();
    for limit in [0i64, 127, 255, 32_767, 65_535, 65_536, 1 << 24, i32::MAX as i64] {
        for near in -3i64..=3 {
            for z in [limit + near, -limit + near] {
                found.extend(i32::try_from(z));
            }
        }
    }
    found.sort_unstable();
    found.dedup();
    found
}

pub fn u32_limits() -> Vec<u32> {
    if !with_fixed() {
        return Vec::new();
    }
    let mut found = Vec::new();
    for limit in [0i64, 127, 255, 32_767, 65_535, 1 << 24, i32::MAX as i64, u32::MAX as i64] {
        for near in -3i64..=3 {
            found.extend(u32::try_from(limit + near));
        }
    }
    found.sort_unstable();
    found.dedup();
    found
}

/// Floats that a step could get wrong: zeros, ones, the ends of every range with their neighbours, the smallest and the largest,
/// halves, whole numbers up to 2^64, infinities and NaN, each with both signs: fixed inputs.
pub fn f64_limits() -> Vec<f64> {
    if !with_fixed() {
        return Vec::new();
    }
    let mut found = vec![f64::NAN];
    let mut sizes = vec![
        0.0,
        f64::from_bits(1),
        f64::MIN_POSITIVE,
        f64::MAX,
        f64::INFINITY,
        0.999999,
        1.000001,
        900.0,
        1200.0,
        38_400.0,
        4_503_599_627_370_495.5,
    ];
    for power in [-1074, -1022, -900, -64, -52, -32, -20, -10, -1, 0, 1, 2, 20, 31, 32, 52, 53, 63, 64, 900, 1023] {
        sizes.push(2f64.powi(power));
        sizes.push(1.5 * 2f64.powi(power));
    }
    sizes.extend((0..20).map(|k| k as f64 / 2.0));
    for size in sizes {
        for near in [size.next_down(), size, size.next_up()] {
            found.extend([near, -near]);
        }
    }
    found
}

impl Random {
    /// A number from 0 up to 1.
    pub fn unit(&mut self) -> f64 {
        (self.next() >> 11) as f64 * 2f64.powi(-53)
    }

    /// Any bits at all.
    pub fn f64(&mut self) -> f64 {
        f64::from_bits(self.next())
    }

    /// A number whose logarithm is even between those of 2^-powers and 2^powers; the exponents are not held to the limit.
    pub fn ratio(&mut self, powers: i32) -> f64 {
        let power = self.next() as i32 % powers;
        (1.0 + self.unit()) * 2f64.powi(power)
    }
}

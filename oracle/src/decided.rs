//! How often the tables of E and L decide, counted: the sources that ask them (crates/explog and what it stands on) are taken as they
//! are, without their contracts, and where they fall back to the steps of document 01 stands a counter. No proof says how often they do.

use std::cell::Cell;
use tune::powers as second;

thread_local! {
    static FALLEN_BACK: Cell<usize> = const { Cell::new(0) };
}

fn falls_back() {
    FALLEN_BACK.with(|count| count.set(count.get() + 1));
}

/// P after the steps up to `to`, from what it is after those up to `from`.
pub fn steps(b: u64, p: u64, from: u64, to: u64) -> u64 {
    let step = |p: u128, k: u64| if b >> (52 - k) & 1 == 1 { (p * second::t(k as usize)) >> 62 } else { p };
    (from + 1..=to).fold(u128::from(p), step) as u64
}

/// In the place of the crate `powers`, whose steps are the slow way: P is computed here, and B. E's answers 0 unless asked from step ten
/// on, so that a slow way which begins elsewhere is found wrong.
mod powers {
    pub fn power_steps(b: u64, p: u64, from: u64, to: u64) -> u64 {
        super::falls_back();
        if from == 10 { super::steps(b, p, from, to) } else { 0 }
    }

    pub fn log_bits(y: u64) -> u64 {
        super::falls_back();
        let step = |(y, b): (u128, u64)| {
            let square = (y * y) >> 62;
            if square >> 63 == 1 { (square >> 1, 2 * b + 1) } else { (square, 2 * b) }
        };
        (0..52).fold((u128::from(y), 0), |state, _| step(state)).1
    }
}

/// In the place of the crate `rounding`: p * 2^(n - 1086).
mod rounding {
    pub fn nearest_power(p: u64, n: u64) -> f64 {
        p as f64 * 2f64.powi(n as i32 - 1086)
    }
}

include!(concat!(env!("OUT_DIR"), "/tables.rs"));

/// What E's first table has for b.
pub fn first_steps(b: u64) -> u64 {
    power_first::first_steps(b)
}

/// The upper and the lower half of a product, as the crate `wide` computes them.
pub fn halves(u: u64, v: u64) -> (u64, u64) {
    (wide::high_product(u, v), wide::low_product(u, v))
}

/// Whether the slow way's stand-in answers from step ten on, and from no other.
pub fn slow_from_ten() -> bool {
    (0..=52).all(|from| (powers::power_steps(0, 1 << 62, from, 52) == 1 << 62) == (from == 10))
}

/// Of these inputs, each with what it should answer: how many the tables did not decide, and how many came out otherwise.
pub struct Asked {
    pub undecided: usize,
    pub wrong: usize,
}

fn asked(inputs: &[f64], ours: impl Fn(f64) -> f64, theirs: impl Fn(f64) -> Option<f64>) -> Asked {
    FALLEN_BACK.with(|count| count.set(0));
    let wrong = inputs.iter().filter(|&&x| Some(ours(x)) != theirs(x)).count();
    Asked { undecided: FALLEN_BACK.with(Cell::get), wrong }
}

/// E on numbers of its domain.
pub fn powers_of(inputs: &[f64]) -> Asked {
    let ours = |x: f64| {
        let f = (x * 2f64.powi(52)).floor() as i128 + (1 << 62);
        exp_near::nearest_to_power((f % (1 << 52)) as u64, (f >> 52) as u64)
    };
    asked(inputs, ours, second::e)
}

/// L on normal numbers of its domain.
pub fn logarithms_of(inputs: &[f64]) -> Asked {
    let ours = |x: f64| {
        let bits = x.to_bits();
        let b = log_near::near_log_bits((bits & ((1 << 52) - 1) | 1 << 52) << 10);
        let v = (((bits >> 52) as i128 - 1023) << 52) + i128::from(b);
        v as f64 / 2f64.powi(52)
    };
    asked(inputs, ours, second::l)
}

//! The switch between the untouched `exp2` and `log2` and a second implementation of document 01's E and L.
//!
//! E and L are written here from document 01 alone, with 128-bit integers, and share nothing with the proved library.

use std::cell::Cell;
use std::sync::OnceLock;

thread_local! {
    static UNTOUCHED: Cell<bool> = const { Cell::new(false) };
    static OUTSIDE: Cell<bool> = const { Cell::new(false) };
    static ASKED: Cell<bool> = const { Cell::new(false) };
}

/// From now on `exp2` and `log2` of the standard library answer (`true`), or E and L do (`false`).
pub fn use_untouched(yes: bool) {
    UNTOUCHED.with(|cell| cell.set(yes));
}

/// Whether E or L was asked outside its domain since the last call of this.
pub fn left_domain() -> bool {
    OUTSIDE.with(|cell| cell.replace(false))
}

/// Whether a power or a logarithm was asked for since the last call of this.
pub fn asked() -> bool {
    ASKED.with(|cell| cell.replace(false))
}

pub fn exp2(x: f64) -> f64 {
    ASKED.with(|cell| cell.set(true));
    if UNTOUCHED.with(Cell::get) {
        return x.exp2();
    }
    e(x).unwrap_or_else(|| {
        OUTSIDE.with(|cell| cell.set(true));
        f64::NAN
    })
}

pub fn log2(x: f64) -> f64 {
    ASKED.with(|cell| cell.set(true));
    if UNTOUCHED.with(Cell::get) {
        return x.log2();
    }
    l(x).unwrap_or_else(|| {
        OUTSIDE.with(|cell| cell.set(true));
        f64::NAN
    })
}

/// T_0 = 2^63; T_k = floor of the square root of 2^62 * T_(k-1), k = 1..52.
pub fn t(k: usize) -> u128 {
    static TABLE: OnceLock<[u128; 53]> = OnceLock::new();
    TABLE.get_or_init(|| {
        let mut table = [1u128 << 63; 53];
        for k in 1..53 {
            table[k] = (table[k - 1] << 62).isqrt();
        }
        table
    })[k]
}

/// E(x), or none outside -900..900.
pub fn e(x: f64) -> Option<f64> {
    if !(-900.0..=900.0).contains(&x) {
        return None;
    }
    // a power of two only moves the exponent, so the product is exact, and so is its floor
    let f = (x * 2f64.powi(52)).floor() as i128;
    let n = f.div_euclid(1 << 52);
    let b = f.rem_euclid(1 << 52);
    let mut p = 1u128 << 62;
    for k in 1..=52 {
        if b >> (52 - k) & 1 == 1 {
            p = (p * t(k)) >> 62;
        }
    }
    // p as f64 is the nearest, ties to even, and a power of two moves it exactly
    Some(p as f64 * 2f64.powi(n as i32 - 62))
}

/// L(x), or none outside 2^-900..2^900.
pub fn l(x: f64) -> Option<f64> {
    if !(2f64.powi(-900)..=2f64.powi(900)).contains(&x) {
        return None;
    }
    let bits = x.to_bits();
    let e = (bits >> 52) as i128 - 1075;
    let m = (bits & ((1 << 52) - 1)) | 1 << 52;
    let mut y = (m as u128) << 10;
    let mut b = 0i128;
    for _ in 0..52 {
        y = (y * y) >> 62;
        b *= 2;
        if y >= 1 << 63 {
            b += 1;
            y >>= 1;
        }
    }
    let v = ((e + 52) << 52) + b;
    // v as f64 is the nearest, ties to even; 0 is +0.0
    Some(v as f64 / 2f64.powi(52))
}

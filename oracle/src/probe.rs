//! Inner functions, from the crate `probes`.

use crate::lent::{Float, lend};
use crate::tally::Code;

mod raw {
    crate::calls::counted! {
        fn probe_abs(x: f64) -> f64;
        fn probe_trunc(x: f64) -> f64;
        fn probe_floor(x: f64) -> f64;
        fn probe_rem_euclid(a: f64, b: f64) -> f64;
        fn probe_div_euclid(a: f64, b: f64) -> f64;
        fn probe_is_in_reach(x: f64) -> bool;
        fn probe_is_in_search(x: f64) -> bool;
        fn probe_is_in_generator(x: f64) -> bool;
        fn probe_is_in_pitch(x: f64) -> bool;
        fn probe_next_line(source: *const u8, length: usize, at: usize, next: *mut usize) -> usize;
        fn probe_read_line(source: *const u8, length: usize, from: usize, to: usize, start: *mut usize, end: *mut usize, token: *mut usize) -> u32;
        fn probe_read_u16(s: *const u8, length: usize) -> i64;
        fn probe_read_u32(s: *const u8, length: usize) -> i64;
        fn probe_read_i16(s: *const u8, length: usize) -> i64;
        fn probe_read_i32(s: *const u8, length: usize) -> i64;
        fn probe_read_decimal(s: *const u8, length: usize, value: *mut f64) -> u32;
        fn probe_write_fixed(x: f64, decimals: u64, plus: bool, out: *mut u8, length: usize, at: usize) -> usize;
        fn probe_write_i32(z: i32, out: *mut u8, length: usize, at: usize) -> usize;
        fn probe_write_u32(n: u32, out: *mut u8, length: usize, at: usize) -> usize;
    }
}
use raw::*;

/// Functions of numbers alone, which lend nothing.
macro_rules! plain {
    ($($name:ident = $probe:ident($($x:ident),*) -> $result:ty;)*) => {
        $(pub fn $name($($x: f64),*) -> $result {
            unsafe { $probe($($x),*) }
        })*
    };
}

plain! {
    abs = probe_abs(x) -> f64;
    trunc = probe_trunc(x) -> f64;
    floor = probe_floor(x) -> f64;
    rem_euclid = probe_rem_euclid(a, b) -> f64;
    div_euclid = probe_div_euclid(a, b) -> f64;
    is_in_reach = probe_is_in_reach(x) -> bool;
    is_in_search = probe_is_in_search(x) -> bool;
    is_in_generator = probe_is_in_generator(x) -> bool;
    is_in_pitch = probe_is_in_pitch(x) -> bool;
}

/// Where the line at a place ends, and where the next starts.
pub fn next_line(source: &[u8], at: usize) -> (usize, usize) {
    let mut next = OLD;
    let end = unsafe { probe_next_line(source.as_ptr(), source.len(), at, &mut next) };
    (end, next)
}

/// What a line says: nothing where it is no UTF-8.
#[derive(Debug, Eq, PartialEq)]
pub enum Line {
    None,
    Blank,
    Comment,
    Content { start: usize, end: usize, token: usize },
}

const OLD: usize = 0x5AA5_A55A;

pub fn read_line(source: &[u8], from: usize, to: usize) -> (Code, Line) {
    let (mut start, mut end, mut token) = (OLD, OLD, OLD);
    let says = unsafe { probe_read_line(source.as_ptr(), source.len(), from, to, &mut start, &mut end, &mut token) };
    let kept = (start, end, token) == (OLD, OLD, OLD);
    match says {
        0 if kept => (Code(1), Line::None),
        1 if kept => (Code::ACCEPTED, Line::Blank),
        2 if kept => (Code::ACCEPTED, Line::Comment),
        _ => (Code::ACCEPTED, Line::Content { start, end, token }),
    }
}

/// An integer, or none; a number that the type cannot hold is a fault of the probe.
fn integer<T: TryFrom<i64>>(number: i64) -> Option<T> {
    if number == 1 << 32 { None } else { T::try_from(number).ok() }
}

pub fn read_u16(s: &[u8]) -> Option<u16> {
    integer(unsafe { probe_read_u16(s.as_ptr(), s.len()) })
}

pub fn read_u32(s: &[u8]) -> Option<u32> {
    integer(unsafe { probe_read_u32(s.as_ptr(), s.len()) })
}

pub fn read_i16(s: &[u8]) -> Option<i16> {
    integer(unsafe { probe_read_i16(s.as_ptr(), s.len()) })
}

pub fn read_i32(s: &[u8]) -> Option<i32> {
    integer(unsafe { probe_read_i32(s.as_ptr(), s.len()) })
}

/// A decimal, 7 for none and 9 for one that is unsupported.
pub fn read_decimal(s: &[u8]) -> (Code, Float) {
    let (code, float, ()) = lend(|value| {
        let said = unsafe { probe_read_decimal(s.as_ptr(), s.len(), value) };
        (Code([7, 9, 0][said as usize]), ())
    });
    (code, float)
}

/// The place after what was written, or none where it does not fit or is not to be written.
fn place(next: usize) -> Option<usize> {
    (next != usize::MAX).then_some(next)
}

pub fn write_fixed(x: f64, decimals: u64, plus: bool, out: &mut [u8], at: usize) -> Option<usize> {
    place(unsafe { probe_write_fixed(x, decimals, plus, out.as_mut_ptr(), out.len(), at) })
}

pub fn write_i32(z: i32, out: &mut [u8], at: usize) -> Option<usize> {
    place(unsafe { probe_write_i32(z, out.as_mut_ptr(), out.len(), at) })
}

pub fn write_u32(n: u32, out: &mut [u8], at: usize) -> Option<usize> {
    place(unsafe { probe_write_u32(n, out.as_mut_ptr(), out.len(), at) })
}

//! The interface for pitches and searches, in the same way as `ffi_scl`.

use crate::ffi::OLD_I32;
use crate::ffi_kbm::Mapping;
use crate::ffi_scl::Columns;
use crate::lent::{self, Float};
use crate::rules_tuning::Root;
use crate::tally::Code;

/// The columns of the items, as C has them.
macro_rules! with_items {
    ($($name:ident ( $($more:ident : $type:ty),* );)*) => {
        crate::calls::counted! {
            $(fn $name(kind: *const u8, kinds: usize, cents: *const f64, cents_length: usize, numer: *const u32, numers: usize, denom: *const u32, denoms: usize, $($more: $type),*) -> u64;)*
        }
    };
}

/// The columns of the items and of the list.
macro_rules! with_scale {
    ($($name:ident ( $($more:ident : $type:ty),* );)*) => {
        crate::calls::counted! {
            $(fn $name(
                kind: *const u8, kinds: usize, cents: *const f64, cents_length: usize, numer: *const u32, numers: usize, denom: *const u32, denoms: usize,
                place: *const u32, places: usize, ratio: *const f64, ratios: usize, wraps: *const i32, wraps_length: usize, $($more: $type),*
            ) -> u64;)*
        }
    };
}

mod raw {
    with_items! {
        telbijan_period(count: u16, period: *mut f64);
        telbijan_relative_pitch_of(count: u16, degree: i32, relative: *mut f64);
        telbijan_pitch_of(count: u16, reference: i32, hz: f64, offset: i32, degree: i32, pitch: *mut f64);
        telbijan_pitch_of_key(count: u16, reference: i32, hz: f64, offset: i32, key: i32, pitch: *mut f64);
        telbijan_maybe_pitch_of(count: u16, map: *const i32, entries: usize, size: u16, start: i32, end: i32, reference: i32, hz: f64, offset: i32, octave: i16, key: i32, pitch: *mut f64);
        telbijan_maybe_pitch_of_degree(count: u16, map: *const i32, entries: usize, size: u16, start: i32, end: i32, reference: i32, hz: f64, offset: i32, octave: i16, degree: i32, pitch: *mut f64);
        telbijan_pitches_of(
            count: u16, map: *const i32, entries: usize, size: u16, start: i32, end: i32, reference: i32, hz: f64, offset: i32, octave: i16, first: i32, keys: u32, pitches: *mut f64, pitches_length: usize,
            numbers: *mut u32, numbers_length: usize
        );
    }
    with_scale! {
        telbijan_sorted_relative_pitch_of(count: u16, degree: i32, relative: *mut f64);
        telbijan_sorted_pitch_of(count: u16, reference: i32, hz: f64, offset: i32, degree: i32, pitch: *mut f64);
        telbijan_find_by_relative_pitch(count: u16, target: f64, degree: *mut i32, deviation: *mut f64);
        telbijan_find_by_relative_pitch_sorted(count: u16, target: f64, degree: *mut i32, deviation: *mut f64);
        telbijan_find_by_pitch(count: u16, reference: i32, hz: f64, offset: i32, pitch: f64, degree: *mut i32, deviation: *mut f64);
        telbijan_find_by_pitch_sorted(count: u16, reference: i32, hz: f64, offset: i32, pitch: f64, degree: *mut i32, deviation: *mut f64);
        telbijan_find_key_by_pitch(count: u16, reference: i32, hz: f64, offset: i32, pitch: f64, key: *mut i32, deviation: *mut f64);
    }
}

/// A call that lends the items, and a float for its answer.
macro_rules! items_call {
    ($c:ident, $name:ident ( $($more:expr),* )) => {{
        let (code, float, ()) = lent::lend(|out| {
            let code = unsafe {
                raw::$name($c.kind.as_ptr(), $c.kind.len(), $c.cents.as_ptr().cast(), $c.cents.len(), $c.numer.as_ptr(), $c.numer.len(), $c.denom.as_ptr(), $c.denom.len(), $($more,)* out)
            };
            (Code(code), ())
        });
        (code, float)
    }};
}

/// A call that lends items and list, and a float for its answer.
macro_rules! scale_call {
    ($c:ident, $name:ident ( $($more:expr),* )) => {{
        let (code, float, ()) = lent::lend(|out| {
            let code = unsafe {
                raw::$name(
                    $c.kind.as_ptr(), $c.kind.len(), $c.cents.as_ptr().cast(), $c.cents.len(), $c.numer.as_ptr(), $c.numer.len(), $c.denom.as_ptr(), $c.denom.len(),
                    $c.place.as_ptr(), $c.place.len(), $c.ratio.as_ptr().cast(), $c.ratio.len(), $c.wraps.as_ptr(), $c.wraps.len(), $($more,)* out,
                )
            };
            (Code(code), ())
        });
        (code, float)
    }};
}

/// What a search stores: a number, and the deviation.
pub type Found = (i32, Float);
pub const OLD_FOUND: Found = (OLD_I32, Float::Untouched);

/// A search, which lends a number too.
macro_rules! search_call {
    ($c:ident, $name:ident ( $($more:expr),* )) => {{
        let mut number = OLD_I32;
        let (code, deviation) = scale_call!($c, $name($($more,)* &mut number));
        (code, (number, deviation))
    }};
}

pub fn period(c: &Columns, count: u16) -> (Code, Float) {
    items_call!(c, telbijan_period(count))
}

pub fn relative_pitch_of(c: &Columns, count: u16, degree: i32) -> (Code, Float) {
    items_call!(c, telbijan_relative_pitch_of(count, degree))
}

pub fn sorted_relative_pitch_of(c: &Columns, count: u16, degree: i32) -> (Code, Float) {
    scale_call!(c, telbijan_sorted_relative_pitch_of(count, degree))
}

pub fn pitch_of(c: &Columns, count: u16, root: Root, degree: i32) -> (Code, Float) {
    items_call!(c, telbijan_pitch_of(count, root.reference, root.hz, root.offset, degree))
}

pub fn pitch_of_key(c: &Columns, count: u16, root: Root, key: i32) -> (Code, Float) {
    items_call!(c, telbijan_pitch_of_key(count, root.reference, root.hz, root.offset, key))
}

pub fn sorted_pitch_of(c: &Columns, count: u16, root: Root, degree: i32) -> (Code, Float) {
    scale_call!(c, telbijan_sorted_pitch_of(count, root.reference, root.hz, root.offset, degree))
}

pub fn maybe_pitch_of(c: &Columns, count: u16, m: Mapping, map: &[i32], key: i32) -> (Code, Float) {
    items_call!(c, telbijan_maybe_pitch_of(count, map.as_ptr(), map.len(), m.count, m.start, m.end, m.reference, m.pitch(), m.offset, m.octave, key))
}

pub fn maybe_pitch_of_degree(c: &Columns, count: u16, m: Mapping, map: &[i32], degree: i32) -> (Code, Float) {
    items_call!(c, telbijan_maybe_pitch_of_degree(count, map.as_ptr(), map.len(), m.count, m.start, m.end, m.reference, m.pitch(), m.offset, m.octave, degree))
}

/// A run of keys, into pitches that are lent as their bits and numbers.
pub fn pitches_of(c: &Columns, count: u16, m: Mapping, map: &[i32], first: i32, keys: u32, pitches: &mut [u64], numbers: &mut [u32]) -> Code {
    Code(unsafe {
        raw::telbijan_pitches_of(
            c.kind.as_ptr(), c.kind.len(), c.cents.as_ptr().cast(), c.cents.len(), c.numer.as_ptr(), c.numer.len(), c.denom.as_ptr(), c.denom.len(), count, map.as_ptr(), map.len(), m.count, m.start,
            m.end, m.reference, m.pitch(), m.offset, m.octave, first, keys, pitches.as_mut_ptr().cast(), pitches.len(), numbers.as_mut_ptr(), numbers.len(),
        )
    })
}

pub fn find_by_relative_pitch(c: &Columns, count: u16, target: f64) -> (Code, Found) {
    search_call!(c, telbijan_find_by_relative_pitch(count, target))
}

pub fn find_by_relative_pitch_sorted(c: &Columns, count: u16, target: f64) -> (Code, Found) {
    search_call!(c, telbijan_find_by_relative_pitch_sorted(count, target))
}

pub fn find_by_pitch(c: &Columns, count: u16, root: Root, pitch: f64) -> (Code, Found) {
    search_call!(c, telbijan_find_by_pitch(count, root.reference, root.hz, root.offset, pitch))
}

pub fn find_by_pitch_sorted(c: &Columns, count: u16, root: Root, pitch: f64) -> (Code, Found) {
    search_call!(c, telbijan_find_by_pitch_sorted(count, root.reference, root.hz, root.offset, pitch))
}

pub fn find_key_by_pitch(c: &Columns, count: u16, root: Root, pitch: f64) -> (Code, Found) {
    search_call!(c, telbijan_find_key_by_pitch(count, root.reference, root.hz, root.offset, pitch))
}

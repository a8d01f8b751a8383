//! The interface for keys that are counted from the middle key, in the same way as `ffi_kbm` and `ffi_tuning`.

use crate::ffi::OLD_I32;
use crate::ffi_kbm::Mapping;
use crate::ffi_scl::Columns;
use crate::lent::{self, Float};
use crate::tally::Code;

mod raw {
    crate::calls::counted! {
        fn telbijan_scale_degree_from_middle(
            map: *const i32, map_length: usize, count: u16, start: i32, end: i32, reference: i32, hz: f64, offset: i32, octave: i16,
            number: i32, degree: *mut i32,
        ) -> u64;
        fn telbijan_maybe_pitch_from_middle(
            kind: *const u8, kinds: usize, cents: *const f64, cents_length: usize, numer: *const u32, numers: usize, denom: *const u32,
            denoms: usize, count: u16, map: *const i32, entries: usize, size: u16, start: i32, end: i32, reference: i32, hz: f64,
            offset: i32, octave: i16, key: i32, pitch: *mut f64,
        ) -> u64;
        fn telbijan_pitches_from_middle(
            kind: *const u8, kinds: usize, cents: *const f64, cents_length: usize, numer: *const u32, numers: usize, denom: *const u32,
            denoms: usize, count: u16, map: *const i32, entries: usize, size: u16, start: i32, end: i32, reference: i32, hz: f64,
            offset: i32, octave: i16, first: i32, keys: u32, pitches: *mut f64, pitches_length: usize, numbers: *mut u32,
            numbers_length: usize,
        ) -> u64;
    }
}

pub fn scale_degree_from_middle(m: Mapping, map: &[i32], key: i32) -> (Code, i32) {
    let mut degree = OLD_I32;
    let code = unsafe {
        raw::telbijan_scale_degree_from_middle(
            map.as_ptr(), map.len(), m.count, m.start, m.end, m.reference, m.pitch(), m.offset, m.octave, key, &mut degree,
        )
    };
    (Code(code), degree)
}

pub fn maybe_pitch_from_middle(c: &Columns, count: u16, m: Mapping, map: &[i32], key: i32) -> (Code, Float) {
    let (code, pitch, ()) = lent::lend(|pitch| {
        let code = unsafe {
            raw::telbijan_maybe_pitch_from_middle(
                c.kind.as_ptr(), c.kind.len(), c.cents.as_ptr().cast(), c.cents.len(), c.numer.as_ptr(), c.numer.len(), c.denom.as_ptr(),
                c.denom.len(), count, map.as_ptr(), map.len(), m.count, m.start, m.end, m.reference, m.pitch(), m.offset, m.octave, key,
                pitch,
            )
        };
        (Code(code), ())
    });
    (code, pitch)
}

/// The keys of a run: the first, and how many.
pub type Keys = (i32, u32);

/// A run of keys, into pitches that are lent as their bits and numbers.
pub fn pitches_from_middle(
    c: &Columns, count: u16, m: Mapping, map: &[i32], (first, keys): Keys, pitches: &mut [u64], numbers: &mut [u32],
) -> Code {
    Code(unsafe {
        raw::telbijan_pitches_from_middle(
            c.kind.as_ptr(), c.kind.len(), c.cents.as_ptr().cast(), c.cents.len(), c.numer.as_ptr(), c.numer.len(), c.denom.as_ptr(),
            c.denom.len(), count, map.as_ptr(), map.len(), m.count, m.start, m.end, m.reference, m.pitch(), m.offset, m.octave, first,
            keys, pitches.as_mut_ptr().cast(), pitches.len(), numbers.as_mut_ptr(), numbers.len(),
        )
    })
}

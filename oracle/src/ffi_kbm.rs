//! The interface for mappings, in the same way as `ffi`.

use crate::ffi::{OLD_I32, OLD_U16};
use crate::lent::{Float, lend};
use crate::tally::Code;

mod raw {
    crate::calls::counted! {
        fn telbijan_read_kbm(
            text: *const u8, text_length: usize, map: *mut i32, map_length: usize, count: *mut u16, start: *mut i32, end: *mut i32, reference: *mut i32, hz: *mut f64, offset: *mut i32,
            octave: *mut i16,
        ) -> u64;
        fn telbijan_scale_degree_of(
            map: *const i32, map_length: usize, count: u16, start: i32, end: i32, reference: i32, hz: f64, offset: i32, octave: i16, number: i32, degree: *mut i32,
        ) -> u64;
        fn telbijan_export_kbm(
            map: *const i32, map_length: usize, count: u16, start: i32, end: i32, reference: i32, hz: f64, offset: i32, octave: i16, out: *mut u8, out_length: usize, written: *mut usize,
        ) -> u64;
        fn telbijan_kbm_root(reference: i32, hz: f64, offset: i32) -> u64;
        fn telbijan_push_mapped_key(map: *mut i32, map_length: usize, room: usize, count: usize, degree: i16, after: *mut usize) -> u64;
        fn telbijan_push_unmapped_key(map: *mut i32, map_length: usize, room: usize, count: usize, after: *mut usize) -> u64;
        fn telbijan_build_kbm(
            map: *const i32, map_length: usize, room: usize, count: usize, start: i32, end: i32, reference: i32, hz: f64, offset: i32, given: bool, octave: i16, entries: *mut u16, formal: *mut i16,
        ) -> u64;
    }
}

/// A mapping's numbers; its entries stand in a table beside it.
#[derive(Clone, Copy, Debug, Eq, PartialEq)]
pub struct Mapping {
    pub count: u16,
    pub start: i32,
    pub end: i32,
    pub reference: i32,
    pub hz: Float,
    pub offset: i32,
    pub octave: i16,
}

pub const OLD_I16: i16 = 0x5AA5;

/// What stands behind the pointers of a refused read.
pub const OLD_MAPPING: Mapping =
    Mapping { count: OLD_U16, start: OLD_I32, end: OLD_I32, reference: OLD_I32, hz: Float::Untouched, offset: OLD_I32, octave: OLD_I16 };

impl Mapping {
    pub fn pitch(self) -> f64 {
        match self.hz {
            Float::Is(bits) | Float::Changed(bits) => f64::from_bits(bits),
            Float::Untouched => f64::NAN,
        }
    }
}

pub fn read_kbm(text: &[u8], map: &mut [i32]) -> (Code, Mapping) {
    let (mut count, mut start, mut end, mut reference, mut offset, mut octave) = (OLD_U16, OLD_I32, OLD_I32, OLD_I32, OLD_I32, OLD_I16);
    let (code, hz, ()) = lend(|hz| {
        let code = unsafe {
            raw::telbijan_read_kbm(
                text.as_ptr(), text.len(), map.as_mut_ptr(), map.len(), &mut count, &mut start, &mut end, &mut reference, hz, &mut offset, &mut octave,
            )
        };
        (Code(code), ())
    });
    (code, Mapping { count, start, end, reference, hz, offset, octave })
}

pub fn scale_degree_of(m: Mapping, map: &[i32], key: i32) -> (Code, i32) {
    let mut degree = OLD_I32;
    let code =
        unsafe { raw::telbijan_scale_degree_of(map.as_ptr(), map.len(), m.count, m.start, m.end, m.reference, m.pitch(), m.offset, m.octave, key, &mut degree) };
    (Code(code), degree)
}

pub fn export_kbm(m: Mapping, map: &[i32], out: &mut [u8]) -> (Code, usize) {
    let mut written = usize::MAX;
    let code = unsafe {
        raw::telbijan_export_kbm(
            map.as_ptr(), map.len(), m.count, m.start, m.end, m.reference, m.pitch(), m.offset, m.octave, out.as_mut_ptr(), out.len(), &mut written,
        )
    };
    (Code(code), written)
}

pub fn kbm_root(reference: i32, hz: f64, offset: i32) -> Code {
    Code(unsafe { raw::telbijan_kbm_root(reference, hz, offset) })
}

/// One push into a table of `room` places, of which `count` are filled; a degree, or none.
pub fn push_key(map: &mut [i32], room: usize, count: usize, degree: Option<i16>) -> (Code, usize) {
    let mut after = usize::MAX;
    let code = unsafe {
        match degree {
            Some(degree) => raw::telbijan_push_mapped_key(map.as_mut_ptr(), map.len(), room, count, degree, &mut after),
            None => raw::telbijan_push_unmapped_key(map.as_mut_ptr(), map.len(), room, count, &mut after),
        }
    };
    (Code(code), after)
}

/// Count and formal octave of a mapping that was built.
pub fn build_kbm(map: &[i32], room: usize, count: usize, m: Mapping, octave: Option<i16>) -> (Code, (u16, i16)) {
    let (mut entries, mut formal) = (OLD_U16, OLD_I16);
    let code = unsafe {
        raw::telbijan_build_kbm(
            map.as_ptr(), map.len(), room, count, m.start, m.end, m.reference, m.pitch(), m.offset, octave.is_some(), octave.unwrap_or(0), &mut entries, &mut formal,
        )
    };
    (Code(code), (entries, formal))
}

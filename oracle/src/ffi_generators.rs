//! The interface for scales that are computed, in the same way as `ffi_scl`.

use crate::ffi::OLD_U16;
use crate::ffi_scl::Columns;
use crate::tally::Code;

mod raw {
    crate::calls::counted! {
        fn telbijan_create_harmonics_scale(
            otonal: bool, start: u16, size: u16, divided: bool, divisions: u16, kind: *mut u8, kind_length: usize, cents: *mut f64, cents_length: usize, numer: *mut u32, numer_length: usize,
            denom: *mut u32, denom_length: usize, place: *mut u32, place_length: usize, ratio: *mut f64, ratio_length: usize, wraps: *mut i32, wraps_length: usize, count: *mut u16,
        ) -> u64;
        fn telbijan_create_rank2_temperament_scale(
            generator: f64, positive: u16, negative: u16, period: f64, kind: *mut u8, kind_length: usize, cents: *mut f64, cents_length: usize, numer: *mut u32, numer_length: usize,
            denom: *mut u32, denom_length: usize, place: *mut u32, place_length: usize, ratio: *mut f64, ratio_length: usize, wraps: *mut i32, wraps_length: usize, count: *mut u16,
        ) -> u64;
    }
}

/// A segment of the harmonic series.
#[derive(Clone, Copy, Debug)]
pub struct Segment {
    pub otonal: bool,
    pub start: u16,
    pub size: u16,
    pub divisions: Option<u16>,
}

pub fn create_harmonics_scale(s: Segment, c: &mut Columns) -> (Code, u16) {
    let mut count = OLD_U16;
    // where there are no divisions their number does not matter
    let (divided, divisions) = s.divisions.map_or((false, s.start ^ s.size), |n| (true, n));
    let code = unsafe {
        raw::telbijan_create_harmonics_scale(
            s.otonal, s.start, s.size, divided, divisions, c.kind.as_mut_ptr(), c.kind.len(), c.cents.as_mut_ptr().cast(), c.cents.len(), c.numer.as_mut_ptr(), c.numer.len(), c.denom.as_mut_ptr(),
            c.denom.len(), c.place.as_mut_ptr(), c.place.len(), c.ratio.as_mut_ptr().cast(), c.ratio.len(), c.wraps.as_mut_ptr(), c.wraps.len(), &mut count,
        )
    };
    (Code(code), count)
}

/// A rank-2 temperament.
#[derive(Clone, Copy, Debug)]
pub struct Temperament {
    pub generator: f64,
    pub positive: u16,
    pub negative: u16,
    pub period: f64,
}

pub fn create_rank2_temperament_scale(t: Temperament, c: &mut Columns) -> (Code, u16) {
    let mut count = OLD_U16;
    let code = unsafe {
        raw::telbijan_create_rank2_temperament_scale(
            t.generator, t.positive, t.negative, t.period, c.kind.as_mut_ptr(), c.kind.len(), c.cents.as_mut_ptr().cast(), c.cents.len(), c.numer.as_mut_ptr(), c.numer.len(), c.denom.as_mut_ptr(),
            c.denom.len(), c.place.as_mut_ptr(), c.place.len(), c.ratio.as_mut_ptr().cast(), c.ratio.len(), c.wraps.as_mut_ptr(), c.wraps.len(), &mut count,
        )
    };
    (Code(code), count)
}

//! The calls of include/telbijan.h that take tables, as C has them.

/// The columns of the items, read.
macro_rules! with_items {
    ($name:ident ( $($more:ident : $type:ty),* )) => {
        pub fn $name(
            kind: *const u8, kind_length: usize, cents: *const f64, cents_length: usize, numer: *const u32, numer_length: usize,
            denom: *const u32, denom_length: usize, $($more: $type),*
        ) -> u64;
    };
}

/// The columns of the items and of the list, read.
macro_rules! with_scale {
    ($name:ident ( $($more:ident : $type:ty),* )) => {
        pub fn $name(
            kind: *const u8, kind_length: usize, cents: *const f64, cents_length: usize, numer: *const u32, numer_length: usize,
            denom: *const u32, denom_length: usize, place: *const u32, place_length: usize, ratio: *const f64, ratio_length: usize,
            wraps: *const i32, wraps_length: usize, $($more: $type),*
        ) -> u64;
    };
}

extern "C" {
    pub fn telbijan_read_scl(
        text: *const u8, text_length: usize, kind: *mut u8, kind_length: usize, cents: *mut f64, cents_length: usize, numer: *mut u32, numer_length: usize,
        denom: *mut u32, denom_length: usize, place: *mut u32, place_length: usize, ratio: *mut f64, ratio_length: usize, wraps: *mut i32, wraps_length: usize,
        count: *mut u16, start: *mut usize, end: *mut usize,
    ) -> u64;
    pub fn telbijan_new_scl(
        kind: *mut u8, kind_length: usize, cents: *mut f64, cents_length: usize, numer: *mut u32, numer_length: usize, denom: *mut u32, denom_length: usize,
        place: *const u32, place_length: usize, ratio: *const f64, ratio_length: usize, wraps: *const i32, wraps_length: usize, room: *mut usize,
    ) -> u64;
    pub fn telbijan_push_cents(
        kind: *mut u8, kind_length: usize, cents: *mut f64, cents_length: usize, numer: *mut u32, numer_length: usize, denom: *mut u32, denom_length: usize,
        room: usize, count: usize, value: f64, after: *mut usize,
    ) -> u64;
    pub fn telbijan_push_ratio(
        kind: *mut u8, kind_length: usize, cents: *mut f64, cents_length: usize, numer: *mut u32, numer_length: usize, denom: *mut u32, denom_length: usize,
        room: usize, count: usize, value: f64, after: *mut usize,
    ) -> u64;
    pub fn telbijan_push_int(
        kind: *mut u8, kind_length: usize, cents: *mut f64, cents_length: usize, numer: *mut u32, numer_length: usize, denom: *mut u32, denom_length: usize,
        room: usize, count: usize, value: u32, after: *mut usize,
    ) -> u64;
    pub fn telbijan_push_fraction(
        kind: *mut u8, kind_length: usize, cents: *mut f64, cents_length: usize, numer: *mut u32, numer_length: usize, denom: *mut u32, denom_length: usize,
        room: usize, count: usize, above: u32, below: u32, after: *mut usize,
    ) -> u64;
    pub fn telbijan_build_scl(
        kind: *const u8, kind_length: usize, cents: *const f64, cents_length: usize, numer: *const u32, numer_length: usize, denom: *const u32, denom_length: usize,
        place: *mut u32, place_length: usize, ratio: *mut f64, ratio_length: usize, wraps: *mut i32, wraps_length: usize, room: usize, count: usize, items: *mut u16,
    ) -> u64;
    pub fn telbijan_export_scl(
        description: *const u8, description_length: usize, kind: *const u8, kind_length: usize, cents: *const f64, cents_length: usize, numer: *const u32,
        numer_length: usize, denom: *const u32, denom_length: usize, count: u16, out: *mut u8, out_length: usize, written: *mut usize,
    ) -> u64;
    pub fn telbijan_create_harmonics_scale(
        otonal: bool, start: u16, size: u16, divided: bool, divisions: u16, kind: *mut u8, kind_length: usize, cents: *mut f64, cents_length: usize, numer: *mut u32,
        numer_length: usize, denom: *mut u32, denom_length: usize, place: *mut u32, place_length: usize, ratio: *mut f64, ratio_length: usize, wraps: *mut i32,
        wraps_length: usize, count: *mut u16,
    ) -> u64;
    pub fn telbijan_create_rank2_temperament_scale(
        generator: f64, positive: u16, negative: u16, period: f64, kind: *mut u8, kind_length: usize, cents: *mut f64, cents_length: usize, numer: *mut u32,
        numer_length: usize, denom: *mut u32, denom_length: usize, place: *mut u32, place_length: usize, ratio: *mut f64, ratio_length: usize, wraps: *mut i32,
        wraps_length: usize, count: *mut u16,
    ) -> u64;
    pub fn telbijan_read_kbm(
        text: *const u8, text_length: usize, map: *mut i32, map_length: usize, count: *mut u16, start: *mut i32, end: *mut i32, reference: *mut i32, hz: *mut f64,
        offset: *mut i32, octave: *mut i16,
    ) -> u64;
    pub fn telbijan_scale_degree_of(
        map: *const i32, map_length: usize, count: u16, start: i32, end: i32, reference: i32, hz: f64, offset: i32, octave: i16, number: i32, degree: *mut i32,
    ) -> u64;
    pub fn telbijan_scale_degree_from_middle(
        map: *const i32, map_length: usize, count: u16, start: i32, end: i32, reference: i32, hz: f64, offset: i32, octave: i16,
        number: i32, degree: *mut i32,
    ) -> u64;
    pub fn telbijan_export_kbm(
        map: *const i32, map_length: usize, count: u16, start: i32, end: i32, reference: i32, hz: f64, offset: i32, octave: i16, out: *mut u8, out_length: usize,
        written: *mut usize,
    ) -> u64;
    pub fn telbijan_kbm_root(reference: i32, hz: f64, offset: i32) -> u64;
    pub fn telbijan_push_mapped_key(map: *mut i32, map_length: usize, room: usize, count: usize, degree: i16, after: *mut usize) -> u64;
    pub fn telbijan_push_unmapped_key(map: *mut i32, map_length: usize, room: usize, count: usize, after: *mut usize) -> u64;
    pub fn telbijan_build_kbm(
        map: *const i32, map_length: usize, room: usize, count: usize, start: i32, end: i32, reference: i32, hz: f64, offset: i32, given: bool, octave: i16,
        entries: *mut u16, formal: *mut i16,
    ) -> u64;
    with_items!(telbijan_period(count: u16, period: *mut f64));
    with_items!(telbijan_relative_pitch_of(count: u16, degree: i32, relative: *mut f64));
    with_items!(telbijan_pitch_of(count: u16, reference: i32, hz: f64, offset: i32, degree: i32, pitch: *mut f64));
    with_items!(telbijan_pitch_of_key(count: u16, reference: i32, hz: f64, offset: i32, key: i32, pitch: *mut f64));
    with_items!(telbijan_maybe_pitch_of(
        count: u16, map: *const i32, map_length: usize, size: u16, start: i32, end: i32, reference: i32, hz: f64, offset: i32, octave: i16, key: i32, pitch: *mut f64
    ));
    with_items!(telbijan_maybe_pitch_of_degree(
        count: u16, map: *const i32, map_length: usize, size: u16, start: i32, end: i32, reference: i32, hz: f64, offset: i32, octave: i16, degree: i32, pitch: *mut f64
    ));
    with_items!(telbijan_pitches_of(
        count: u16, map: *const i32, map_length: usize, size: u16, start: i32, end: i32, reference: i32, hz: f64, offset: i32, octave: i16, first: i32, keys: u32,
        pitches: *mut f64, pitches_length: usize, numbers: *mut u32, numbers_length: usize
    ));
    with_items!(telbijan_maybe_pitch_from_middle(
        count: u16, map: *const i32, map_length: usize, size: u16, start: i32, end: i32, reference: i32, hz: f64, offset: i32,
        octave: i16, number: i32, pitch: *mut f64
    ));
    with_items!(telbijan_pitches_from_middle(
        count: u16, map: *const i32, map_length: usize, size: u16, start: i32, end: i32, reference: i32, hz: f64, offset: i32,
        octave: i16, first: i32, keys: u32, pitches: *mut f64, pitches_length: usize, numbers: *mut u32, numbers_length: usize
    ));
    with_scale!(telbijan_sorted_relative_pitch_of(count: u16, degree: i32, relative: *mut f64));
    with_scale!(telbijan_sorted_pitch_of(count: u16, reference: i32, hz: f64, offset: i32, degree: i32, pitch: *mut f64));
    with_scale!(telbijan_find_by_relative_pitch(count: u16, target: f64, degree: *mut i32, deviation: *mut f64));
    with_scale!(telbijan_find_by_relative_pitch_sorted(count: u16, target: f64, degree: *mut i32, deviation: *mut f64));
    with_scale!(telbijan_find_by_pitch(count: u16, reference: i32, hz: f64, offset: i32, pitch: f64, degree: *mut i32, deviation: *mut f64));
    with_scale!(telbijan_find_by_pitch_sorted(count: u16, reference: i32, hz: f64, offset: i32, pitch: f64, degree: *mut i32, deviation: *mut f64));
    with_scale!(telbijan_find_key_by_pitch(count: u16, reference: i32, hz: f64, offset: i32, pitch: f64, key: *mut i32, deviation: *mut f64));
}

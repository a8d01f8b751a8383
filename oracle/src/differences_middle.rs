//! The rows of docs/DIFFERENCES.md on keys that are counted from the middle key, beside what the Rust answers for the same mapping, which
//! it counts from the reference key.

use crate::differences::{CANNOT_BE, Row, here, refused, rust};
use crate::differences_kbm::{degree, field_rust, field_with};
use crate::differences_tuning::{JUST, OCTAVE, built, cannot_be, float, row, scl};
use crate::ffi_kbm::Mapping;
use crate::ffi_middle as ffi;
use crate::ffi_scl::Push;
use crate::kbm_use::SAMPLE;
use crate::lent::Float;
use crate::rules::UNMAPPED;
use crate::rust_kbm;
use crate::tally::Code;
use tune::key::PianoKey;
use tune::pitch::Pitch;
use tune::tuning::KeyboardMapping;

const DEGREE: &str = "`scale_degree_from_middle`, beside `scale_degree_of`";
const PITCH: &str = "`maybe_pitch_from_middle`, beside `maybe_pitch_of`";
const RUN: &str = "`pitches_from_middle`, beside `pitches_of`";

const GAP: &[i32] = &[0, UNMAPPED, 2];
const SEVENTH: &[Push] = &[Push::Fraction(7, 5), Push::Int(2)];

/// Reference key 60 and middle key 62, with entries 0 x 2 and with none.
const HARP: Mapping = Mapping { offset: 2, ..SAMPLE };
const FREE: Mapping = Mapping { count: 0, ..HARP };
/// Reference key 69 and middle key 62, three entries.
const THREE: Mapping = Mapping { reference: 69, offset: -7, octave: 3, ..SAMPLE };
/// Reference key 61 and middle key 60, two entries.
const TWO: Mapping = Mapping { count: 2, reference: 61, offset: -1, octave: 2, ..SAMPLE };
/// One key, 60, which is the middle key; reference key 69.
const ONE: Mapping = Mapping { count: 1, start: 60, end: 61, reference: 69, offset: -9, octave: 1, ..SAMPLE };
const LEAST: Mapping = Mapping { offset: i32::MIN, ..FREE };
/// The middle key is 2147483648.
const BEYOND: Mapping = Mapping { end: i32::MAX, reference: i32::MAX, offset: 1, ..FREE };
const LONG: Mapping = Mapping { end: 1000, offset: 0, ..FREE };
const SILENT: Mapping = Mapping { hz: Float::Is(0), ..FREE };

fn ours(m: Mapping, map: &[i32], key: i32) -> String {
    here(ffi::scale_degree_from_middle(m, map, key))
}

fn pitch(items: &[Push], m: Mapping, map: &[i32], key: i32) -> String {
    let of_key = |key| KeyboardMapping::<PianoKey>::maybe_pitch_of(&(&scl(items), &rust_kbm::of(m, map)), key);
    rust(|| of_key(PianoKey::from_midi_number(key)).map(Pitch::as_hz))
}

fn ours_at(items: &[Push], m: Mapping, map: &[i32], key: i32) -> String {
    float(ffi::maybe_pitch_from_middle(&built(items).columns, items.len() as u16, m, map, key))
}

/// The numbers beside so many keys from 60 on, or the refusal.
fn our_run(m: Mapping, map: &[i32], keys: u32, places: usize) -> String {
    let (mut pitches, mut numbers) = (vec![0; places], vec![0; places]);
    match ffi::pitches_from_middle(&built(JUST).columns, 3, m, map, (60, keys), &mut pitches, &mut numbers) {
        Code::ACCEPTED => format!("{numbers:?}"),
        code => refused(code),
    }
}

fn degrees() -> Vec<Row> {
    const LAST: i32 = i32::MAX - 1;
    const HARP_62: &str = "entries 0 x 2, octave 5, middle 62, reference 60: key 62";
    const LEAST_59: &str = "size 0, reference 60, offset -2147483648: key 59";
    const LEAST_60: &str = "size 0, reference 60, offset -2147483648: key 60";
    const AT_LAST: &str = "size 0, reference 2147483647, offset 1: key 2147483646";
    const FIELD: &str = "examples/field.kbm: keys of 0..127 that sound in this reading or in Scala's only";
    vec![
        row(DEGREE, HARP_62, || degree(HARP, GAP, 62), "Some(2)", || ours(HARP, GAP, 62), "0"),
        row(DEGREE, "the same: key 60", || degree(HARP, GAP, 60), "Some(0)", || ours(HARP, GAP, 60), "17"),
        row(DEGREE, "the same: key 128 of 0..127", || degree(HARP, GAP, 128), "None", || ours(HARP, GAP, 128), "16"),
        row(DEGREE, "size 0, middle 62, reference 60: key 61", || degree(FREE, &[], 61), "Some(1)", || ours(FREE, &[], 61), "-1"),
        row(DEGREE, LEAST_59, || degree(LEAST, &[], 59), "Some(-1)", || ours(LEAST, &[], 59), "2147483647"),
        row(DEGREE, LEAST_60, || degree(LEAST, &[], 60), "Some(0)", || ours(LEAST, &[], 60), "11"),
        row(DEGREE, AT_LAST, || degree(BEYOND, &[], LAST), "Some(-1)", || ours(BEYOND, &[], LAST), "-2"),
        row(DEGREE, "a table with 40000 in it", cannot_be, CANNOT_BE, || ours(HARP, &[0, 40_000, 2], 62), "10"),
        row(DEGREE, FIELD, field_rust, "43", || field_with(ffi::scale_degree_from_middle), "0"),
    ]
}

fn pitches() -> Vec<Row> {
    const LAST: i32 = i32::MAX - 1;
    const ORDER: &[i32] = &[0, 1, 2];
    const FIRST: &[i32] = &[0, 1];
    const THREE_69: &str = "`9/8`, `5/4`, `2/1`, entries 0 1 2, octave 3, middle 62, reference 69 at 440 Hz: key 69";
    const TWO_61: &str = "`7/5`, `2`, entries 0 1, octave 2, middle 60, reference 61 at 440 Hz: key 61";
    const ONE_60: &str = "`2/1`, entry 0, octave 1, keys 60 to 60, middle 60, reference 69 at 440 Hz: key 60";
    const HARP_62: &str = "`9/8`, `5/4`, `2/1`, entries 0 x 2, octave 5, middle 62, reference 60 at 440 Hz: key 62";
    const LEAST_59: &str = "`2/1`, size 0, reference 60, offset -2147483648: key 59";
    const AT_LAST: &str = "`2/1`, size 0, reference 2147483647 at 440 Hz, offset 1: key 2147483646";
    const LONG_961: &str = "`2/1`, size 0, middle and reference 60 at 440 Hz, range to 1000: key 961";
    const TO_961: &str = "Some(7.438386998390167e273)";
    const FROM_62: &str = "Some(977.7777777777777)";
    const FROM_60: &str = "Some(782.2222222222222)";
    const FROM_61: &str = "Some(314.2857142857143)";
    const TO_61: &str = "439.99999999999994";
    vec![
        row(PITCH, THREE_69, || pitch(JUST, THREE, ORDER, 69), "Some(97.77777777777777)", || ours_at(JUST, THREE, ORDER, 69), "440.0"),
        row(PITCH, TWO_61, || pitch(SEVENTH, TWO, FIRST, 61), FROM_61, || ours_at(SEVENTH, TWO, FIRST, 61), TO_61),
        row(PITCH, ONE_60, || pitch(OCTAVE, ONE, &[0], 60), "Some(0.001678466796875)", || ours_at(OCTAVE, ONE, &[0], 60), "0.859375"),
        row(PITCH, HARP_62, || pitch(JUST, HARP, GAP, 62), FROM_62, || ours_at(JUST, HARP, GAP, 62), "19"),
        row(PITCH, "the same: key 60", || pitch(JUST, HARP, GAP, 60), FROM_60, || ours_at(JUST, HARP, GAP, 60), "17"),
        row(PITCH, "the same: key 128 of 0..127", || pitch(JUST, HARP, GAP, 128), "None", || ours_at(JUST, HARP, GAP, 128), "16"),
        row(PITCH, LEAST_59, || pitch(OCTAVE, LEAST, &[], 59), "panics", || ours_at(OCTAVE, LEAST, &[], 59), "11"),
        row(PITCH, AT_LAST, || pitch(OCTAVE, BEYOND, &[], LAST), "Some(440.0)", || ours_at(OCTAVE, BEYOND, &[], LAST), "220.0"),
        row(PITCH, LONG_961, || pitch(OCTAVE, LONG, &[], 961), TO_961, || ours_at(OCTAVE, LONG, &[], 961), "18"),
        row(PITCH, "`2/1`, a root at 0 Hz", || pitch(OCTAVE, SILENT, &[], 60), "Some(0.0)", || ours_at(OCTAVE, SILENT, &[], 60), "10"),
    ]
}

fn runs() -> Vec<Row> {
    const HARP_60: &str = "`9/8`, `5/4`, `2/1`, entries 0 x 2, octave 5, middle 62, reference 60: numbers beside keys 60 to 62";
    vec![
        row(RUN, HARP_60, cannot_be, CANNOT_BE, || our_run(HARP, GAP, 3, 3), "[17, 19, 19]"),
        row(RUN, "a root at 0 Hz", cannot_be, CANNOT_BE, || our_run(SILENT, &[], 2, 2), "10"),
        row(RUN, "two keys, one place", cannot_be, CANNOT_BE, || our_run(FREE, &[], 2, 1), "12"),
    ]
}

pub fn from_middle() -> Vec<Row> {
    [degrees(), pitches(), runs()].into_iter().flatten().collect()
}

//! The rows of docs/DIFFERENCES.md on pitches, searches and scales that are computed.

use crate::differences::{CANNOT_BE, Row, refused, rust};
use crate::ffi_generators::{self, Segment, Temperament};
use crate::ffi_kbm::Mapping;
use crate::ffi_scl::{Columns, Push};
use crate::ffi_tuning::{self as ffi, Found};
use crate::lent::Float;
use crate::rules_tuning::Root;
use crate::tally::Code;
use crate::tuning::{Built, kbm_root};
use crate::{rust_kbm, rust_scl};
use tune::key::PianoKey;
use tune::pitch::{Pitch, Ratio};
use tune::scala::{self, Scl, SegmentType};
use tune::tuning::{Approximation, KeyboardMapping, Scale, Tuning};

pub const fn row(call: &'static str, input: &'static str, rust: fn() -> String, rust_says: &'static str, here: fn() -> String, here_says: &'static str) -> Row {
    Row { call, input, rust, rust_says, here, here_says }
}

pub const OCTAVE: &[Push] = &[Push::Int(2)];
pub const JUST: &[Push] = &[Push::Fraction(9, 8), Push::Fraction(5, 4), Push::Int(2)];
const REPEATS: &[Push] = &[Push::Int(1), Push::Int(1), Push::Int(1), Push::Int(1), Push::Int(1), Push::Int(2)];
/// An item that is the period twice.
const TWICE: &[Push] = &[Push::Fraction(25, 9), Push::Fraction(5, 3)];
const ROOT: Root = Root { reference: 69, hz: 440.0, offset: -9 };
const UNTURNED: Root = Root { offset: i32::MIN, ..ROOT };

pub fn scl(pushes: &[Push]) -> Scl {
    rust_scl::pushes(pushes).build_with_description("").unwrap()
}

pub fn built(pushes: &[Push]) -> Built {
    Built::new([pushes.len() + 1; 7], pushes).unwrap()
}

pub fn float((code, value): (Code, Float)) -> String {
    match value {
        Float::Is(bits) => format!("{:?}", f64::from_bits(bits)),
        _ => refused(code),
    }
}

fn found((code, (number, deviation)): (Code, Found)) -> String {
    match deviation {
        Float::Is(bits) => format!("{number}, {:?}", f64::from_bits(bits)),
        _ => refused(code),
    }
}

/// What a search of the Rust's answers: the number, and the deviation.
fn searched<T>(answer: impl FnOnce() -> Approximation<T>, number: fn(T) -> i32) -> String {
    rust(|| {
        let a = answer();
        (number(a.approx_value), a.deviation.as_float())
    })
    .trim_matches(['(', ')'])
    .to_string()
}

/// 65,535 items within a period that is next to nothing.
fn many() -> Vec<Push> {
    (1..=65_535).map(|k| if k == 65_535 { Push::Fraction(1_000_001, 1_000_000) } else { Push::Fraction(1_000_000 + k % 2, 1_000_000) }).collect()
}

fn mapping(hz: f64) -> Mapping {
    Mapping { count: 0, start: 0, end: 128, reference: 60, hz: Float::of(hz), offset: 0, octave: 0 }
}

/// 440 Hz on key 69: as degree 0; as degree 100; and a root that no mapping has, at 0 Hz.
const PLAIN: Root = Root { offset: 0, ..ROOT };
const FAR: Root = Root { offset: -100, ..ROOT };
const SILENT: Root = Root { hz: 0.0, ..PLAIN };

/// The list of a scale whose ratios fall.
fn falling() -> Columns {
    let mut columns = built(JUST).columns;
    columns.ratio.swap(1, 2);
    columns
}

/// The items of a scale, one of them of a kind that is none.
fn unkind() -> Columns {
    let mut columns = built(JUST).columns;
    columns.kind[1] = 3;
    columns
}

/// A run of two keys into so many places: what each place holds, or the refusal.
fn run(m: Mapping, places: usize) -> String {
    let (mut pitches, mut numbers) = (vec![0; places], vec![0; places]);
    match ffi::pitches_of(&built(OCTAVE).columns, 1, m, &[], 60, 2, &mut pitches, &mut numbers) {
        Code::ACCEPTED => format!("{pitches:?} {numbers:?}"),
        code => refused(code),
    }
}

pub fn cannot_be() -> String {
    CANNOT_BE.to_string()
}

fn unturned() -> Mapping {
    Mapping { offset: i32::MIN, ..mapping(440.0) }
}

fn long() -> Mapping {
    Mapping { end: 1000, ..mapping(440.0) }
}

fn pitches() -> Vec<Row> {
    vec![
        row("`Scl::relative_pitch_of`", "`2/1`, degree 901", || rust(|| scl(OCTAVE).relative_pitch_of(901).as_float()), "1.6905424996341288e271", || float(ffi::relative_pitch_of(&built(OCTAVE).columns, 1, 901)), "18"),
        row("`Scl::sorted_relative_pitch_of`", "`2/1`, degree -901", || rust(|| scl(OCTAVE).sorted_relative_pitch_of(-901).as_float()), "5.915260930833874e-272", || float(ffi::sorted_relative_pitch_of(&built(OCTAVE).columns, 1, -901)), "18"),
        row("`Scl::sorted_relative_pitch_of`", "`25/9`, `5/3`, degree 1: the first item is the period twice", || rust(|| scl(TWICE).sorted_relative_pitch_of(1).as_float()), "1.6666666666666665", || float(ffi::sorted_relative_pitch_of(&built(TWICE).columns, 2, 1)), "1.0"),
        row("`Scl::period`", "an item of kind 3", cannot_be, CANNOT_BE, || float(ffi::period(&unkind(), 3)), "10"),
        row("`Scl::relative_pitch_of`", "an item of kind 3", cannot_be, CANNOT_BE, || float(ffi::relative_pitch_of(&unkind(), 3, 1)), "10"),
        row("`Scl::sorted_relative_pitch_of`", "a list whose ratios fall", cannot_be, CANNOT_BE, || float(ffi::sorted_relative_pitch_of(&falling(), 3, 1)), "10"),
        row("`pitch_of`", "a root at 0 Hz", || rust(|| Tuning::<i32>::pitch_of(&(&scl(JUST), kbm_root(SILENT)), 1).as_hz()), "0.0", || float(ffi::pitch_of(&built(JUST).columns, 3, SILENT, 1)), "10"),
        row("`pitch_of`", "`2/1`, root 69 at 440 Hz, degree 901", || rust(|| Tuning::<i32>::pitch_of(&(&scl(OCTAVE), kbm_root(PLAIN)), 901).as_hz()), "7.438386998390167e273", || float(ffi::pitch_of(&built(OCTAVE).columns, 1, PLAIN, 901)), "18"),
        row("`pitch_of`, a key", "a root at 0 Hz", || rust(|| Tuning::<PianoKey>::pitch_of(&(&scl(JUST), kbm_root(SILENT)), PianoKey::from_midi_number(70)).as_hz()), "0.0", || float(ffi::pitch_of_key(&built(JUST).columns, 3, SILENT, 70)), "10"),
        row("`pitch_of`, a key", "`2/1`, root 69 at 440 Hz, key 970", || rust(|| Tuning::<PianoKey>::pitch_of(&(&scl(OCTAVE), kbm_root(PLAIN)), PianoKey::from_midi_number(970)).as_hz()), "7.438386998390167e273", || float(ffi::pitch_of_key(&built(OCTAVE).columns, 1, PLAIN, 970)), "18"),
        row("`sorted_pitch_of`", "a root at 0 Hz", || rust(|| (&scl(JUST), kbm_root(SILENT)).sorted_pitch_of(1).as_hz()), "0.0", || float(ffi::sorted_pitch_of(&built(JUST).columns, 3, SILENT, 1)), "10"),
        row("`sorted_pitch_of`", "root offset -2147483648", || rust(|| (&scl(JUST), kbm_root(UNTURNED)).sorted_pitch_of(0).as_hz()), "panics", || float(ffi::sorted_pitch_of(&built(JUST).columns, 3, UNTURNED, 0)), "11"),
        row("`maybe_pitch_of`", "root offset -2147483648, the reference key", || rust(|| KeyboardMapping::<PianoKey>::maybe_pitch_of(&(&scl(JUST), &rust_kbm::of(unturned(), &[])), PianoKey::from_midi_number(60)).map(Pitch::as_hz)), "panics", || float(ffi::maybe_pitch_of(&built(JUST).columns, 3, unturned(), &[], 60)), "11"),
        row("`maybe_pitch_of`", "`2/1`, reference key 60 at 440 Hz, range to 1000, key 961", || rust(|| KeyboardMapping::<PianoKey>::maybe_pitch_of(&(&scl(OCTAVE), &rust_kbm::of(long(), &[])), PianoKey::from_midi_number(961)).map(Pitch::as_hz)), "Some(7.438386998390167e273)", || float(ffi::maybe_pitch_of(&built(OCTAVE).columns, 1, long(), &[], 961)), "18"),
        row("`maybe_pitch_of`, a mapping degree", "a root at 0 Hz", || rust(|| KeyboardMapping::<i32>::maybe_pitch_of(&(&scl(JUST), &rust_kbm::of(mapping(0.0), &[])), 0).map(Pitch::as_hz)), "Some(0.0)", || float(ffi::maybe_pitch_of_degree(&built(JUST).columns, 3, mapping(0.0), &[], 0)), "10"),
        row("`maybe_pitch_of`, a mapping degree", "`2/1`, reference key 60 at 440 Hz, range to 1000, degree 901", || rust(|| KeyboardMapping::<i32>::maybe_pitch_of(&(&scl(OCTAVE), &rust_kbm::of(long(), &[])), 901).map(Pitch::as_hz)), "Some(7.438386998390167e273)", || float(ffi::maybe_pitch_of_degree(&built(OCTAVE).columns, 1, long(), &[], 901)), "18"),
        row("`pitches_of`", "a root at 0 Hz", cannot_be, CANNOT_BE, || run(mapping(0.0), 2), "10"),
        row("`pitches_of`", "two keys, one place", cannot_be, CANNOT_BE, || run(mapping(440.0), 1), "12"),
        row("`pitch_of`", "root offset -2147483648", || rust(|| Tuning::<i32>::pitch_of(&(&scl(JUST), kbm_root(UNTURNED)), 0).as_hz()), "panics", || float(ffi::pitch_of(&built(JUST).columns, 3, UNTURNED, 0)), "11"),
        row("`pitch_of`, a key", "reference key -1, key 2147483647", || rust(|| Tuning::<PianoKey>::pitch_of(&(&scl(JUST), kbm_root(Root { reference: -1, ..ROOT })), PianoKey::from_midi_number(i32::MAX)).as_hz()), "panics", || float(ffi::pitch_of_key(&built(JUST).columns, 3, Root { reference: -1, ..ROOT }, i32::MAX)), "11"),
        row("`pitch_of`, a key", "`9/8`, `5/4`, `2/1`, root 69 at 440 Hz, offset -9: key 69, which need not sound the reference pitch", || rust(|| Tuning::<PianoKey>::pitch_of(&(&scl(JUST), kbm_root(ROOT)), PianoKey::from_midi_number(69)).as_hz()), "55.0", || float(ffi::pitch_of_key(&built(JUST).columns, 3, ROOT, 69)), "55.0"),
        row("`sorted_pitch_of`", "`2/1`, root 69 at 440 Hz, degree 901", || rust(|| (&scl(OCTAVE), kbm_root(PLAIN)).sorted_pitch_of(901).as_hz()), "7.438386998390167e273", || float(ffi::sorted_pitch_of(&built(OCTAVE).columns, 1, PLAIN, 901)), "18"),
        row("`maybe_pitch_of`", "a root at 0 Hz", || rust(|| KeyboardMapping::<PianoKey>::maybe_pitch_of(&(&scl(JUST), &rust_kbm::of(mapping(0.0), &[])), PianoKey::from_midi_number(60)).unwrap().as_hz()), "0.0", || float(ffi::maybe_pitch_of(&built(JUST).columns, 3, mapping(0.0), &[], 60)), "10"),
        row("`maybe_pitch_of`, a mapping degree", "reference key 60, degree 2147483647", || rust(|| KeyboardMapping::<i32>::maybe_pitch_of(&(&scl(JUST), &rust_kbm::of(mapping(440.0), &[])), i32::MAX).map(Pitch::as_hz)), "panics", || float(ffi::maybe_pitch_of_degree(&built(JUST).columns, 3, mapping(440.0), &[], i32::MAX)), "11"),
    ]
}

fn searches() -> Vec<Row> {
    vec![
        row("`Scl::find_by_relative_pitch`", "a list whose ratios fall", cannot_be, CANNOT_BE, || found(ffi::find_by_relative_pitch(&falling(), 3, 1.5)), "10"),
        row("`Scl::find_by_relative_pitch`", "a count past the columns", cannot_be, CANNOT_BE, || found(ffi::find_by_relative_pitch(&built(JUST).columns, 4, 1.5)), "10"),
        row("`Scl::find_by_relative_pitch`", "`2/1`, ratio 2^65", || searched(|| scl(OCTAVE).find_by_relative_pitch(Ratio::from_float(2f64.powi(65))), |n| n), "65, 1.0", || found(ffi::find_by_relative_pitch(&built(OCTAVE).columns, 1, 2f64.powi(65))), "10"),
        row("`Scl::find_by_relative_pitch`", "`2/1`, ratio -1.0", || searched(|| scl(OCTAVE).find_by_relative_pitch(Ratio::from_float(-1.0)), |n| n), "1, NaN", || found(ffi::find_by_relative_pitch(&built(OCTAVE).columns, 1, -1.0)), "10"),
        row("`Scl::find_by_relative_pitch`", "`1/1` alone, ratio 1.5", || searched(|| scl(&[Push::Int(1)]).find_by_relative_pitch(Ratio::from_float(1.5)), |n| n), "0, 1.5", || found(ffi::find_by_relative_pitch(&built(&[Push::Int(1)]).columns, 1, 1.5)), "18"),
        row("`Scl::find_by_relative_pitch`", "`3/1`, ratio 129140162.99999967, the pitch of degree 17", || searched(|| scl(&[Push::Int(3)]).find_by_relative_pitch(Ratio::from_float(129140162.99999967)), |n| n), "18, 0.9999999999999987", || found(ffi::find_by_relative_pitch(&built(&[Push::Int(3)]).columns, 1, 129140162.99999967)), "18, 0.9999999999999987"),
        row("`Scl::find_by_relative_pitch_sorted`", "`1/1` five times and `2/1`, ratio 1.0, which two entries equal", || searched(|| scl(REPEATS).find_by_relative_pitch_sorted(Ratio::from_float(1.0)), |n| n), "4, 1.0", || found(ffi::find_by_relative_pitch_sorted(&built(REPEATS).columns, 6, 1.0)), "0, 1.0"),
        row("`Scl::find_by_relative_pitch`", "65,535 items, period 1000001/1000000, ratio 2^64", || searched(|| scl(&many()).find_by_relative_pitch(Ratio::from_float(2f64.powi(64))), |n| n), "panics", || found(ffi::find_by_relative_pitch(&built(&many()).columns, 65_535, 2f64.powi(64))), "11"),
        row("`Scl::find_by_relative_pitch_sorted`", "`2/1`, ratio 2^65", || searched(|| scl(OCTAVE).find_by_relative_pitch_sorted(Ratio::from_float(2f64.powi(65))), |n| n), "65, 1.0", || found(ffi::find_by_relative_pitch_sorted(&built(OCTAVE).columns, 1, 2f64.powi(65))), "10"),
        row("`Scl::find_by_relative_pitch_sorted`", "65,535 items, period 1000001/1000000, ratio 2^64", || searched(|| scl(&many()).find_by_relative_pitch_sorted(Ratio::from_float(2f64.powi(64))), |n| n), "panics", || found(ffi::find_by_relative_pitch_sorted(&built(&many()).columns, 65_535, 2f64.powi(64))), "11"),
        row("`Scl::find_by_relative_pitch_sorted`", "`1/1` alone, ratio 1.5", || searched(|| scl(&[Push::Int(1)]).find_by_relative_pitch_sorted(Ratio::from_float(1.5)), |n| n), "1, 1.5", || found(ffi::find_by_relative_pitch_sorted(&built(&[Push::Int(1)]).columns, 1, 1.5)), "18"),
        row("`find_by_pitch_sorted`", "`2/1`, root 69 at 440 Hz, 2097152 Hz", || searched(|| (&scl(OCTAVE), kbm_root(PLAIN)).find_by_pitch_sorted(Pitch::from_hz(2097152.0)), |n| n), "12, 1.1636363636363634", || found(ffi::find_by_pitch_sorted(&built(OCTAVE).columns, 1, PLAIN, 2097152.0)), "10"),
        row("`find_by_pitch_sorted`", "root offset -2147483648", || searched(|| (&scl(OCTAVE), kbm_root(UNTURNED)).find_by_pitch_sorted(Pitch::from_hz(440.0)), |n| n), "panics", || found(ffi::find_by_pitch_sorted(&built(OCTAVE).columns, 1, UNTURNED, 440.0)), "11"),
        row("`find_by_pitch_sorted`", "`2/1`, root 69 at 440 Hz, offset -100, 440 Hz: the ratio is 2^100", || searched(|| (&scl(OCTAVE), kbm_root(FAR)).find_by_pitch_sorted(Pitch::from_hz(440.0)), |n| n), "100, 1.0", || found(ffi::find_by_pitch_sorted(&built(OCTAVE).columns, 1, FAR, 440.0)), "18"),
        row("`find_by_pitch`, a key", "`2/1`, root 69 at 440 Hz, 2097152 Hz", || searched(|| Tuning::<PianoKey>::find_by_pitch(&(&scl(OCTAVE), kbm_root(PLAIN)), Pitch::from_hz(2097152.0)), PianoKey::midi_number), "81, 1.1636363636363634", || found(ffi::find_key_by_pitch(&built(OCTAVE).columns, 1, PLAIN, 2097152.0)), "10"),
        row("`find_by_pitch`, a key", "`2/1`, root 69 at 440 Hz, offset -100, 440 Hz: the ratio is 2^100", || searched(|| Tuning::<PianoKey>::find_by_pitch(&(&scl(OCTAVE), kbm_root(FAR)), Pitch::from_hz(440.0)), PianoKey::midi_number), "169, 1.0", || found(ffi::find_key_by_pitch(&built(OCTAVE).columns, 1, FAR, 440.0)), "18"),
        row("`find_by_pitch`", "`2/1`, root 69 at 440 Hz, 2097152 Hz", || searched(|| Tuning::<i32>::find_by_pitch(&(&scl(OCTAVE), kbm_root(PLAIN)), Pitch::from_hz(2097152.0)), |n| n), "12, 1.1636363636363634", || found(ffi::find_by_pitch(&built(OCTAVE).columns, 1, PLAIN, 2097152.0)), "10"),
        row("`find_by_pitch`", "root offset -2147483648", || searched(|| Tuning::<i32>::find_by_pitch(&(&scl(OCTAVE), kbm_root(UNTURNED)), Pitch::from_hz(440.0)), |n| n), "panics", || found(ffi::find_by_pitch(&built(OCTAVE).columns, 1, UNTURNED, 440.0)), "11"),
        row("`find_by_pitch`", "`2/1`, root 69 at 440 Hz, offset -100, 440 Hz: the ratio is 2^100", || searched(|| Tuning::<i32>::find_by_pitch(&(&scl(OCTAVE), kbm_root(FAR)), Pitch::from_hz(440.0)), |n| n), "100, 1.0", || found(ffi::find_by_pitch(&built(OCTAVE).columns, 1, FAR, 440.0)), "18"),
        row("`find_by_pitch`, a key", "`2/1`, root 2147483647 at 440 Hz, 880 Hz", || searched(|| Tuning::<PianoKey>::find_by_pitch(&(&scl(OCTAVE), kbm_root(Root { reference: i32::MAX, hz: 440.0, offset: 0 })), Pitch::from_hz(880.0)), PianoKey::midi_number), "panics", || found(ffi::find_key_by_pitch(&built(OCTAVE).columns, 1, Root { reference: i32::MAX, hz: 440.0, offset: 0 }, 880.0)), "11"),
        row("`find_by_pitch`, a key", "`9/8`, `5/4`, `2/1`, root 69 at 440 Hz, offset -9, 440 Hz", || searched(|| Tuning::<PianoKey>::find_by_pitch(&(&scl(JUST), kbm_root(ROOT)), Pitch::from_hz(440.0)), PianoKey::midi_number), "78, 1.0", || found(ffi::find_key_by_pitch(&built(JUST).columns, 3, ROOT, 440.0)), "78, 1.0"),
    ]
}

fn harmonics(otonal: bool, start: u16, size: u16, divisions: Option<u16>) -> String {
    let segment = if otonal { SegmentType::Otonal } else { SegmentType::Utonal };
    rust(|| scala::create_harmonics_scale(String::new(), segment, start, size, divisions).unwrap().num_items()).to_string()
}

fn segment(otonal: bool, start: u16, size: u16, divisions: Option<u16>, room: usize) -> String {
    let (code, count) = ffi_generators::create_harmonics_scale(Segment { otonal, start, size, divisions }, &mut Columns::new([room; 7]));
    if code == Code::ACCEPTED { count.to_string() } else { refused(code) }
}

fn rank2(generator: f64, positive: u16, period: f64) -> String {
    rust(|| scala::create_rank2_temperament_scale(String::new(), Ratio::from_float(generator), positive, 0, Ratio::from_float(period)).map(|scl| scl.num_items())).to_string()
}

fn temperament(generator: f64, positive: u16, period: f64, room: usize) -> String {
    let (code, count) = ffi_generators::create_rank2_temperament_scale(Temperament { generator, positive, negative: 0, period }, &mut Columns::new([room; 7]));
    if code == Code::ACCEPTED { count.to_string() } else { refused(code) }
}

fn generators() -> Vec<Row> {
    vec![
        row("`create_rank2_temperament_scale`, the count of items", "generator 2^33, 2 up, period 2.0", || rank2(2f64.powi(33), 2, 2.0), "Ok(3)", || temperament(2f64.powi(33), 2, 2.0, 9), "10"),
        row("`create_rank2_temperament_scale`, the count of items", "generator 1.5, 2 up, period 1.0", || rank2(1.5, 2, 1.0), "Ok(3)", || temperament(1.5, 2, 1.0, 9), "10"),
        row("`create_rank2_temperament_scale`, the count of items", "generator 1.0, 2 up, period 0.5: the highest note is 1.0", || rank2(1.0, 2, 0.5), "Ok(3)", || temperament(1.0, 2, 0.5, 9), "18"),
        row("`create_rank2_temperament_scale`, the count of items", "generator 1.5, 65,535 up, period 1.0", || rank2(1.5, 65_535, 1.0), "Err(ScaleTooLarge)", || temperament(1.5, 65_535, 1.0, 9), "13"),
        row("`create_rank2_temperament_scale`", "3 items, columns of 3 places", cannot_be, CANNOT_BE, || temperament(1.5, 2, 2.0, 3), "12"),
        row("`create_harmonics_scale`, the count of items", "otonal, start 0, size 3", || harmonics(true, 0, 3, None), "3", || segment(true, 0, 3, None, 9), "10"),
        row("`create_harmonics_scale`, the count of items", "utonal, start 0, size 3, 2 divisions", || harmonics(false, 0, 3, Some(2)), "2", || segment(false, 0, 3, Some(2), 9), "10"),
        row("`create_harmonics_scale`, the count of items", "otonal, start 4, size 3, 0 divisions", || harmonics(true, 4, 3, Some(0)), "0", || segment(true, 4, 3, Some(0), 9), "18"),
        row("`create_harmonics_scale`, the count of items", "otonal, start 1, size 0, 2 divisions", || harmonics(true, 1, 0, Some(2)), "2", || segment(true, 1, 0, Some(2), 9), "18"),
        row("`create_harmonics_scale`", "12 items, columns of 12 places", cannot_be, CANNOT_BE, || segment(true, 8, 12, None, 12), "12"),
    ]
}

pub fn tunings() -> Vec<Row> {
    [pitches(), searches(), generators()].into_iter().flatten().collect()
}

//! The Rust's mappings, in the form in which ours are compared.

use crate::ffi_kbm::Mapping;
use crate::inputs::Random;
use crate::lent::Float;
use crate::rules::{Refused, UNMAPPED};
use crate::tally::caught;
use tune::key::PianoKey;
use tune::pitch::Pitch;
use tune::scala::{Kbm, KbmBuildError, KbmBuilder, KbmImportError, KbmParseErrorKind, KbmRoot, KbmStructuralError};

/// What the Rust reads, or none where it panics. Its refusal 1 has no line.
pub fn read(text: &[u8]) -> Option<Result<(Mapping, Vec<i32>), Refused>> {
    let answer = caught(|| Kbm::import(text))?;
    Some(answer.map(|kbm| parts(&kbm)).map_err(|error| match error {
        KbmImportError::IoError(_) => (1, 0),
        KbmImportError::ParseError { line_number, kind } => {
            let number = match kind {
                KbmParseErrorKind::IntValue => 3,
                KbmParseErrorKind::FloatValue => 7,
                KbmParseErrorKind::KeyboardMapping => 8,
            };
            (number, line_number as u64)
        }
        KbmImportError::StructuralError(kind) => match kind {
            KbmStructuralError::ExpectingMapSize => (2, 1),
            KbmStructuralError::ExpectingFirstMidiNote => (2, 2),
            KbmStructuralError::ExpectingLastMidiNote => (2, 3),
            KbmStructuralError::ExpectingOrigin => (2, 4),
            KbmStructuralError::ExpectingReferenceNote => (2, 5),
            KbmStructuralError::ExpectingReferencePitch => (2, 6),
            KbmStructuralError::ExpectingFormalOctave => (2, 7),
            KbmStructuralError::InconsistentNumberOfItems => (14, 0),
        },
        KbmImportError::BuildError(error) => build_number(error),
    }))
}

pub fn build_number(error: KbmBuildError) -> Refused {
    match error {
        KbmBuildError::MappingTooLarge => (13, 0),
        KbmBuildError::FormalOctaveMissing => (15, 0),
    }
}

/// A mapping of the Rust's: its numbers, and its entries as its debugging text shows them.
pub fn parts(kbm: &Kbm) -> (Mapping, Vec<i32>) {
    let range = kbm.table.range();
    let mapping = Mapping {
        count: kbm.table.num_items(),
        start: range.start.midi_number(),
        end: range.end.midi_number(),
        reference: kbm.root.ref_key.midi_number(),
        hz: Float::of(kbm.root.ref_pitch.as_hz()),
        offset: kbm.root.root_offset,
        octave: kbm.table.formal_octave(),
    };
    let shown = format!("{:?}", kbm.table);
    let list = shown.split_once("key_mapping: [").and_then(|(_, rest)| rest.split_once(']')).map_or("", |(list, _)| list);
    let entry = |item: &str| match item.strip_prefix("Some(").and_then(|rest| rest.strip_suffix(')')) {
        Some(degree) => degree.parse().unwrap(),
        None => UNMAPPED,
    };
    (mapping, list.split(", ").filter(|item| !item.is_empty()).map(entry).collect())
}

/// The same mapping in the Rust, by its builder.
pub fn of(m: Mapping, entries: &[i32]) -> Kbm {
    pushes(m, entries.iter().map(|&entry| (entry != UNMAPPED).then_some(entry as i16))).formal_octave(m.octave).build().unwrap()
}

/// The Rust's builder after these pushes, with no formal octave yet.
pub fn pushes(m: Mapping, degrees: impl IntoIterator<Item = Option<i16>>) -> KbmBuilder {
    let root = KbmRoot { ref_key: PianoKey::from_midi_number(m.reference), ref_pitch: Pitch::from_hz(m.pitch()), root_offset: m.offset };
    let mut builder = Kbm::builder(root).range(PianoKey::from_midi_number(m.start)..PianoKey::from_midi_number(m.end));
    for degree in degrees {
        builder = match degree {
            Some(degree) => builder.push_mapped_key(degree),
            None => builder.push_unmapped_key(),
        };
    }
    builder
}

pub fn random(random: &mut Random, count: usize) -> (Mapping, Vec<i32>) {
    let entries = (0..count).map(|_| if random.next() % 4 == 0 { UNMAPPED } else { random.i32() as i16 as i32 }).collect();
    let (start, end) = if random.next() % 2 == 0 { (i32::MIN, i32::MAX) } else { (random.i32(), random.i32()) };
    let hz = 2f64.powi(-10) + random.unit() * 2000.0;
    let mapping = Mapping { count: count as u16, start, end, reference: random.i32(), hz: Float::of(hz), offset: random.i32(), octave: random.i32() as i16 };
    (mapping, entries)
}

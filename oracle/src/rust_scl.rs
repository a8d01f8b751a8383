//! The Rust's scales, in the form in which ours are compared.

use crate::ffi_scl::{Entry, Item, Push};
use crate::rules::Refused;
use crate::tally::caught;
use tune::pitch::Ratio;
use tune::scala::{Scl, SclBuildError, SclBuilder, SclImportError, SclParseErrorKind, SclStructuralError};

/// A scale of the Rust's: description, items with place 0 among them, and the sorted list.
#[derive(Clone, Debug, Eq, PartialEq)]
pub struct Parts {
    pub description: String,
    pub items: Vec<Item>,
    pub list: Vec<Entry>,
}

/// What the Rust reads, or none where it panics. Its refusal 1 has no line.
pub fn read(text: &[u8]) -> Option<Result<Parts, Refused>> {
    let answer = caught(|| Scl::import(text))?;
    Some(answer.map(|scl| parts(&scl)).map_err(|error| match error {
        SclImportError::IoError(_) => (1, 0),
        SclImportError::ParseError { line_number, kind } => {
            let number = match kind {
                SclParseErrorKind::IntValue => 3,
                SclParseErrorKind::CentsValue => 4,
                SclParseErrorKind::Numer => 5,
                SclParseErrorKind::Denom => 6,
            };
            (number, line_number as u64)
        }
        SclImportError::StructuralError(kind) => match kind {
            SclStructuralError::ExpectingDescription => (2, 1),
            SclStructuralError::ExpectingNumberOfNotes => (2, 2),
            SclStructuralError::InconsistentNumberOfNotes => (14, 0),
        },
        SclImportError::BuildError(SclBuildError::ScaleTooLarge) => (13, 0),
    }))
}

/// Items and list are private: they are taken from the debugging text, in which a float is written so that it reads back as the same
/// bits. They stand behind the description, so that they are looked for from the end.
pub fn parts(scl: &Scl) -> Parts {
    let shown = format!("{scl:?}");
    let (rest, list) = shown.rsplit_once(", sorted_pitch_values: [").unwrap();
    let (_, items) = rest.rsplit_once(", pitch_values: [").unwrap();
    let items: Vec<Item> = items.trim_end_matches(']').split_inclusive(')').fold(Vec::new(), |mut found, piece| {
        item(piece, &mut found);
        found
    });
    let list: Vec<Entry> = list.split("SortedPitchValue { ").skip(1).map(entry).collect();
    assert_eq!((items.len(), list.len()), (usize::from(scl.num_items()) + 1, usize::from(scl.num_items()) + 1));
    Parts { description: scl.description().to_string(), items, list }
}

/// A piece that ends at a bracket: the end of an item, or of a denominator within one, `Fraction(3, Some(2)` and then `)`.
fn item(piece: &str, found: &mut Vec<Item>) {
    let piece = piece.trim_start_matches(", ");
    let inside = |name: &str| piece.strip_prefix(name).map(|rest| rest.trim_end_matches(')').to_string());
    if let Some(cents) = inside("Cents(") {
        found.push(Item::cents(cents.parse().unwrap()));
    } else if let Some(fraction) = inside("Fraction(") {
        let (numer, denom) = fraction.split_once(", ").unwrap();
        let denom = (denom != "None").then(|| denom.strip_prefix("Some(").unwrap().parse().unwrap());
        found.push(Item::Fraction(numer.parse().unwrap(), denom));
    } else {
        assert_eq!(piece, ")");
    }
}

fn entry(shown: &str) -> Entry {
    let field = |name: &str| {
        let (_, rest) = shown.split_once(name).unwrap();
        rest.split([',', ' ', '}']).next().unwrap().to_string()
    };
    let ratio: f64 = field("float_value: ").parse().unwrap();
    (field("pitch_index: ").parse().unwrap(), ratio.to_bits(), field("num_wraparounds: ").parse().unwrap())
}

/// The Rust's builder after these pushes.
pub fn pushes(items: &[Push]) -> SclBuilder {
    items.iter().fold(Scl::builder(), |builder, &item| match item {
        Push::Cents(x) => builder.push_cents(x),
        Push::Ratio(x) => builder.push_ratio(Ratio::from_float(x)),
        Push::Int(n) => builder.push_int(n),
        Push::Fraction(n, d) => builder.push_fraction(n, d),
    })
}

/// What the Rust builds of these pushes, or none where it panics.
pub fn build(items: &[Push]) -> Option<Result<Parts, Refused>> {
    let answer = caught(|| pushes(items).build_with_description(""))?;
    Some(answer.map(|scl| parts(&scl)).map_err(|SclBuildError::ScaleTooLarge| (13, 0)))
}

//! What a refusal says, number by number.

use crate::mappings::{mapping, GAPS};
use crate::memory::Memory;
use std::error::Error;
use telbijan::{ratio, read_mapping, reason, MappingBuilder, MappingRef, Numbers, Refusal, Root, Tuning};

fn scl(text: &[u8]) -> Refusal {
    Memory::new().lend([2; 7]).read(text).unwrap_err()
}

fn kbm(text: &[u8]) -> Refusal {
    read_mapping(text, &mut [0; 2]).unwrap_err()
}

fn key(key: i32) -> Refusal {
    let (map, numbers) = mapping(GAPS);
    MappingRef { map: &map, numbers }.degree_of(key).unwrap_err()
}

/// The middle key is the one below the reference key: this has the second entry, which is unmapped.
fn reference_unmapped() -> Refusal {
    let ((mut memory, count), (map, n)) = (Memory::with(b"d\n1\n2/1\n"), mapping(GAPS));
    let numbers = Numbers { root: Root { offset: -1, ..n.root }, ..n };
    let lent = memory.lend([2; 7]);
    Tuning { scale: lent.scale(count), mapping: MappingRef { map: &map, numbers } }.pitch_from_middle(57).unwrap_err()
}

fn no_octave() -> Refusal {
    let mut map = [0; 1];
    let mut builder = MappingBuilder::new(&mut map, Root { reference: 60, hz: 440.0, offset: 0 }, 0..128).unwrap();
    builder.push(0).unwrap();
    builder.build(None).unwrap_err()
}

/// All that there are; those between are no numbers of this library.
const NUMBERS: [u8; 21] = [1, 2, 3, 4, 5, 6, 7, 8, 9, 10, 11, 12, 13, 14, 15, 16, 17, 18, 19, 25, 29];

#[test]
fn each_number() {
    let too_large = Memory::new().lend([2; 7]).create_rank2(1.5, 65_535, 1, 2.0).unwrap_err();
    let said: [_; NUMBERS.len()] = [
        (scl(b"d\n\xff\n"), 2, "line 2: a line is not UTF-8"),
        (kbm(b"0\n0\n"), 3, "required line 3: a required line is missing"),
        (scl(b"d\n!\nx\n"), 3, "line 3: not an integer of its type"),
        (scl(b"d\n1\n.\n"), 3, "line 3: not a cents value"),
        (scl(b"d\n1\nx/2\n"), 3, "line 3: not a numerator"),
        (scl(b"d\n1\n3/\n"), 3, "line 3: not a denominator"),
        (kbm(b"0\n0\n127\n60\n60\nx\n"), 6, "line 6: not a decimal"),
        (kbm(b"1\n0\n127\n60\n60\n440.0\n12\ny\n"), 8, "line 8: not a mapping entry"),
        (scl(b"d\n1\n1.e5\n"), 3, "line 3: a numeral with an exponent, a word, or over 18 digits"),
        (scl(b"d\n1\n3/0\n"), 3, "line 3: a value, a state or a lent table that cannot be used"),
        (kbm(b"0\n0\n2147483647\n"), 3, "line 3: a number leaves its type"),
        (scl(b"d\n2\n3/2\n2/1\n"), 4, "line 4: what was lent is too small"),
        (too_large, 0, "over 65,535 entries"),
        (scl(b"d\n2\n3/2\n"), 0, "the text has another count of notes or entries than it says"),
        (no_octave(), 0, "a builder with entries and no formal octave"),
        (key(91), 0, "the key is outside the range"),
        (key(59), 0, "the key is unmapped"),
        (ratio::exp2(901.0).unwrap_err(), 0, "beyond reach: a period of 1.0, 0 divisions, or a computed pitch or ratio outside its range"),
        (reference_unmapped(), 0, "the reference key is unmapped, counted from the middle key"),
        (kbm(b"0\n! keys\n61\n60\n"), 4, "line 4: the last key is below the first"),
        (ratio::best_fraction(1.5, 0).unwrap_err(), 0, "no fraction: the odd limit is 0"),
    ];
    for (number, (refusal, detail, sentence)) in NUMBERS.into_iter().zip(said) {
        assert_eq!((refusal.number(), refusal.detail()), (number, detail));
        assert_eq!(refusal.line(), (detail != 0 && number != 2).then_some(detail));
        assert_eq!(refusal.reason(), sentence.rsplit_once(&format!("line {detail}: ")).map_or(sentence, |(_, reason)| reason));
        let error: &dyn Error = &refusal;
        assert_eq!(error.to_string(), sentence);
    }
}

#[test]
fn names() {
    use telbijan::number::*;
    let names = [
        NOT_UTF8, LINE_MISSING, INT_VALUE, CENTS_VALUE, NUMER, DENOM, FLOAT_VALUE, KEYBOARD_MAPPING, UNSUPPORTED_NUMERAL,
        UNUSABLE, OVERFLOW, NO_ROOM, TOO_LARGE, INCONSISTENT_COUNT, FORMAL_OCTAVE_MISSING, KEY_OUT_OF_RANGE, UNMAPPED_KEY, BEYOND_REACH,
        REFERENCE_UNMAPPED, BACKWARDS_RANGE, NO_FRACTION,
    ];
    assert_eq!(names, NUMBERS);
    for number in (0..=255).filter(|number| !NUMBERS.contains(number)) {
        assert_eq!(reason(number), "no number of this library");
    }
}

/// The header for C says the same of each number as `reason`: in its list, up to the detail, and in its own sentences.
#[test]
fn as_in_c() {
    let header = include_str!("../../../include/telbijan.h");
    let (_, list) = header.split_once("\n#define TELBIJAN_ACCEPTED 0\n").unwrap();
    let numbers = list.lines().take_while(|line| !line.is_empty()).map(|line| {
        let (name, rest) = line.strip_prefix("#define TELBIJAN_").unwrap().split_once(' ').unwrap();
        let (number, text) = rest.strip_suffix(" */").unwrap().split_once(" /* ").unwrap();
        let number = number.parse().unwrap();
        assert_eq!(Some(reason(number)), text.split(';').next());
        assert!(header.contains(&format!("    case TELBIJAN_{name}: return \"{}\";\n", reason(number))), "{name}");
        number
    });
    assert_eq!(numbers.collect::<Vec<u8>>(), NUMBERS);
    assert!(header.contains(&format!("    default: return \"{}\";\n", reason(0))));
}

#[test]
fn required_lines() {
    assert_eq!((scl(b"").number(), scl(b"").detail(), scl(b"").line()), (2, 1, None));
    assert_eq!((kbm(b"").detail(), kbm(b"0\n0\n127\n60\n60\n440.0\n").detail()), (1, 7));
}

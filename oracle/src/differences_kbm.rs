//! The rows of docs/DIFFERENCES.md on numerals and mappings, Scala's among them.

use crate::differences::{CANNOT_BE, Row, here, refused, rust};
use crate::ffi_kbm::{self, Mapping};
use crate::kbm_use::{SAMPLE, WIDE};
use crate::lent::Float;
use crate::probe;
use crate::rules::UNMAPPED;
use crate::rust_kbm;
use crate::tally::Code;
use tune::key::PianoKey;

const fn row(call: &'static str, input: &'static str, rust: fn() -> String, rust_says: &'static str, here: fn() -> String, here_says: &'static str) -> Row {
    Row { call, input, rust, rust_says, here, here_says }
}

/// The file of document 01 with one line put in place of another; lines count from 1.
fn changed(line: usize, text: &[u8]) -> Vec<u8> {
    let file: Vec<&[u8]> = [&b"3"[..], b"0", b"127", b"62", b"60", b"261.6256", b"5", b"0", b"X"].to_vec();
    let mut lines = file;
    lines[line - 1] = text;
    lines.join(&b'\n')
}

/// What the Rust makes of that file: what it read, or its error by our number.
fn theirs(text: Vec<u8>, part: fn(Mapping, &[i32]) -> String) -> String {
    match rust_kbm::read(&text) {
        None => "panics".to_string(),
        Some(Ok((mapping, entries))) => part(mapping, &entries),
        Some(Err((1, _))) => "an io error".to_string(),
        Some(Err((number, 0))) => format!("its error for {number}"),
        Some(Err((number, line))) => format!("its error for {number} at line {line}"),
    }
}

/// And what is made of it here, in a table of so many places.
fn ours(text: Vec<u8>, room: usize, part: fn(Mapping, &[i32]) -> String) -> String {
    let mut map = vec![0; room];
    let (code, mapping) = ffi_kbm::read_kbm(&text, &mut map);
    if code == Code::ACCEPTED { part(mapping, &map[..mapping.count.into()]) } else { refused(code) }
}

fn read(_: Mapping, _: &[i32]) -> String {
    "read".to_string()
}

fn hz(m: Mapping, _: &[i32]) -> String {
    format!("{:?}", m.pitch())
}

fn entries(_: Mapping, entries: &[i32]) -> String {
    entries.iter().map(|&e| if e == UNMAPPED { "x".to_string() } else { e.to_string() }).collect::<Vec<_>>().join(" ")
}

fn numbers(m: Mapping, _: &[i32]) -> String {
    format!("{} {} {}", m.count, m.start, m.octave)
}

pub fn degree(m: Mapping, map: &[i32], key: i32) -> String {
    rust(|| rust_kbm::of(m, map).scale_degree_of(PianoKey::from_midi_number(key)))
}

fn our_degree(m: Mapping, map: &[i32], key: i32) -> String {
    here(ffi_kbm::scale_degree_of(m, map, key))
}

fn export(m: Mapping, map: &[i32]) -> String {
    rust(|| rust_kbm::of(m, map).export().to_string().len())
}

fn our_export(m: Mapping, map: &[i32], room: usize) -> String {
    here(ffi_kbm::export_kbm(m, map, &mut vec![0; room]))
}

fn parsed(text: &str) -> String {
    rust(|| text.parse::<f64>().unwrap())
}

fn our_parsed(text: &str) -> String {
    match probe::read_decimal(text.as_bytes()) {
        (Code::ACCEPTED, Float::Is(bits)) => format!("{:?}", f64::from_bits(bits)),
        (code, _) => refused(code),
    }
}

fn numerals() -> Vec<Row> {
    vec![
        row("decimal", "`1e3`", || parsed("1e3"), "1000.0", || our_parsed("1e3"), "9"),
        row("decimal", "`1.e5`", || parsed("1.e5"), "100000.0", || our_parsed("1.e5"), "9"),
        row("decimal", "`inf`", || parsed("inf"), "inf", || our_parsed("inf"), "9"),
        row("decimal", "`+inf`", || parsed("+inf"), "inf", || our_parsed("+inf"), "9"),
        row("decimal", "`iNfInItY`", || parsed("iNfInItY"), "inf", || our_parsed("iNfInItY"), "9"),
        row("decimal", "`-nan`", || parsed("-nan"), "NaN", || our_parsed("-nan"), "9"),
        row("decimal", "`1234567890123456789.`", || parsed("1234567890123456789."), "1.2345678901234568e18", || our_parsed("1234567890123456789."), "9"),
        row("decimal", "`0.0000000000000000000`", || parsed("0.0000000000000000000"), "0.0", || our_parsed("0.0000000000000000000"), "9"),
        row("decimal", "`440.0000000000000000`, 19 digits", || parsed("440.0000000000000000"), "440.0", || our_parsed("440.0000000000000000"), "9"),
    ]
}

fn files() -> Vec<Row> {
    vec![
        row("mapping", "size 65536", || theirs(changed(1, b"65536"), read), "its error for 3 at line 1", || ours(changed(1, b"65536"), 9, read), "3 at line 1"),
        row("mapping", "first key 2147483648", || theirs(changed(2, b"2147483648"), read), "its error for 3 at line 2", || ours(changed(2, b"2147483648"), 9, read), "3 at line 2"),
        row("mapping", "last key 2147483647", || theirs(changed(3, b"2147483647"), read), "panics", || ours(changed(3, b"2147483647"), 9, read), "11 at line 3"),
        row("mapping", "last key 2147483646", || theirs(changed(3, b"2147483646"), read), "read", || ours(changed(3, b"2147483646"), 9, read), "read"),
        row("mapping", "middle key 32768", || theirs(changed(4, b"32768"), read), "its error for 3 at line 4", || ours(changed(4, b"32768"), 9, read), "3 at line 4"),
        row("mapping", "reference key -32769", || theirs(changed(5, b"-32769"), read), "its error for 3 at line 5", || ours(changed(5, b"-32769"), 9, read), "3 at line 5"),
        row("mapping", "formal octave 32768", || theirs(changed(7, b"32768"), read), "its error for 3 at line 7", || ours(changed(7, b"32768"), 9, read), "3 at line 7"),
        row("mapping", "entry 32768", || theirs(changed(8, b"32768"), read), "its error for 8 at line 8", || ours(changed(8, b"32768"), 9, read), "8 at line 8"),
        row("mapping", "reference pitch `1e3`", || theirs(changed(6, b"1e3"), hz), "1000.0", || ours(changed(6, b"1e3"), 9, hz), "9 at line 6"),
        row("mapping", "reference pitch 0", || theirs(changed(6, b"0"), hz), "0.0", || ours(changed(6, b"0"), 9, hz), "10 at line 6"),
        row("mapping", "reference pitch -440.0", || theirs(changed(6, b"-440.0"), hz), "-440.0", || ours(changed(6, b"-440.0"), 9, hz), "10 at line 6"),
        row("mapping", "reference pitch 1048576", || theirs(changed(6, b"1048576"), hz), "1048576.0", || ours(changed(6, b"1048576"), 9, hz), "1048576.0"),
        row("mapping", "reference pitch 1048577", || theirs(changed(6, b"1048577"), hz), "1048577.0", || ours(changed(6, b"1048577"), 9, hz), "10 at line 6"),
        row("mapping", "reference pitch 0.0009765625", || theirs(changed(6, b"0.0009765625"), hz), "0.0009765625", || ours(changed(6, b"0.0009765625"), 9, hz), "0.0009765625"),
        row("mapping", "reference pitch 0.0009765624", || theirs(changed(6, b"0.0009765624"), hz), "0.0009765624", || ours(changed(6, b"0.0009765624"), 9, hz), "10 at line 6"),
        row("mapping", "two entries, a table of one place: entries", || theirs(changed(1, b"2"), entries), "0 x", || ours(changed(1, b"2"), 1, entries), "12 at line 9"),
        row("mapping", "size 3, two entries, a table of two places: entries", || theirs(changed(1, b"3"), entries), "0 x x", || ours(changed(1, b"3"), 2, entries), "12"),
        row("mapping", "entry `X`", || theirs(changed(9, b"X"), entries), "0 x x", || ours(changed(9, b"X"), 9, entries), "0 x x"),
        row("mapping", "size `+3`, first key `+7`: size, first key, octave", || theirs([b"+3\n+7\n", &changed(1, b"127")[..3], b"\n62\n60\n440\n5\n"].concat(), numbers), "3 7 5", || ours([b"+3\n+7\n", &changed(1, b"127")[..3], b"\n62\n60\n440\n5\n"].concat(), 9, numbers), "3 7 5"),
        row("mapping", "entry `4`, form feed, `6`", || theirs(changed(9, b"4\x0c6"), entries), "0 4 x", || ours(changed(9, b"4\x0c6"), 9, entries), "0 4 x"),
        row("mapping", "entry `4`, U+000B, `6`", || theirs(changed(9, b"4\x0b6"), entries), "its error for 8 at line 9", || ours(changed(9, b"4\x0b6"), 9, entries), "8 at line 9"),
        row("mapping", "size `-0`", || theirs(changed(1, b"-0"), read), "its error for 3 at line 1", || ours(changed(1, b"-0"), 9, read), "3 at line 1"),
        row("mapping", "reference pitch `440.0000000000000000`, 19 digits", || theirs(changed(6, b"440.0000000000000000"), hz), "440.0", || ours(changed(6, b"440.0000000000000000"), 9, hz), "9 at line 6"),
        row("mapping", "reference pitch `0.5000000000000000000`, 19 digits after the dot", || theirs(changed(6, b"0.5000000000000000000"), hz), "0.5", || ours(changed(6, b"0.5000000000000000000"), 9, hz), "9 at line 6"),
        row("mapping", "reference pitch `0.0009`", || theirs(changed(6, b"0.0009"), hz), "0.0009", || ours(changed(6, b"0.0009"), 9, hz), "10 at line 6"),
        row("Scala: text after a number", "reference pitch `440.0Hz`", || theirs(changed(6, b"440.0Hz"), hz), "its error for 7 at line 6", || ours(changed(6, b"440.0Hz"), 9, hz), "7 at line 6"),
        row("Scala: text after a number", "reference pitch `440.0 Hz`", || theirs(changed(6, b"440.0 Hz"), hz), "440.0", || ours(changed(6, b"440.0 Hz"), 9, hz), "440.0"),
        row("Scala: more degrees than the size", "size 1, two entries", || theirs(changed(1, b"1"), entries), "its error for 14", || ours(changed(1, b"1"), 9, entries), "14"),
        row("Scala: comments", "` ! text` as line 9", || theirs(changed(9, b" ! text"), entries), "0 x x", || ours(changed(9, b" ! text"), 9, entries), "0 x x"),
        row("Scala: ISO 8859-1", "byte E9 in line 9", || theirs(changed(9, b"! \xe9"), entries), "an io error", || ours(changed(9, b"! \xe9"), 9, entries), "1 at line 9"),
        row("Scala: empty lines", "line 9 empty", || theirs(changed(9, b""), entries), "0 x x", || ours(changed(9, b""), 9, entries), "0 x x"),
        row("Scala: white space", "U+2003 before the entry `4`", || theirs(changed(9, b"\xe2\x80\x834"), entries), "0 4 x", || ours(changed(9, b"\xe2\x80\x834"), 9, entries), "0 4 x"),
    ]
}

const FIELD: &[u8] = include_bytes!("../../examples/field.kbm");

/// How many of the keys 0 to 127 have a degree by one of two readings of that file alone: this one, `sounds`, and Scala's, which
/// counts the pattern from the middle key.
fn parted(sounds: impl Fn(i32) -> bool) -> String {
    (0..128).filter(|&key| sounds(key) == matches!((key - 60i32).rem_euclid(12), 1 | 6)).count().to_string()
}

/// The same by one of the calls here.
pub fn field_with(degree: fn(Mapping, &[i32], i32) -> (Code, i32)) -> String {
    let mut map = [0; 12];
    let (_, mapping) = ffi_kbm::read_kbm(FIELD, &mut map);
    parted(|key| degree(mapping, &map, key).0 == Code::ACCEPTED)
}

fn field_here() -> String {
    field_with(ffi_kbm::scale_degree_of)
}

pub fn field_rust() -> String {
    let kbm = tune::scala::Kbm::import(FIELD).unwrap();
    parted(|key| kbm.scale_degree_of(PianoKey::from_midi_number(key)).is_some())
}

const FREE: Mapping = Mapping { count: 0, ..SAMPLE };

fn tables() -> Vec<Row> {
    vec![
        row("Scala: the pattern starts at the middle key", "entries 0 x 2, middle 62, reference 60: key 60", || degree(Mapping { offset: 2, ..SAMPLE }, &[0, UNMAPPED, 2], 60), "Some(0)", || our_degree(Mapping { offset: 2, ..SAMPLE }, &[0, UNMAPPED, 2], 60), "0"),
        row("Scala: the pattern starts at the middle key", "examples/field.kbm (middle 60, reference 69, 12 entries, two of them x): keys of 0..127 that sound in one reading only", field_rust, "43", field_here, "43"),
        row("`scale_degree_of`", "size 0, middle 62, reference 60: key 61", || degree(Mapping { offset: 2, ..FREE }, &[], 61), "Some(1)", || our_degree(Mapping { offset: 2, ..FREE }, &[], 61), "1"),
        row("`scale_degree_of`", "key 128 of 0..127", || degree(FREE, &[], 128), "None", || our_degree(FREE, &[], 128), "16"),
        row("`scale_degree_of`", "entries 0 x 2, reference 60: key 61", || degree(SAMPLE, &[0, UNMAPPED, 2], 61), "None", || our_degree(SAMPLE, &[0, UNMAPPED, 2], 61), "17"),
        row("`scale_degree_of`", "one entry -1, formal octave -32768, reference 0: key -65536", || degree(WIDE, &[-1], -65_536), "panics", || our_degree(WIDE, &[-1], -65_536), "2147483647"),
        row("`scale_degree_of`", "the same: key 65536", || degree(WIDE, &[-1], 65_536), "panics", || our_degree(WIDE, &[-1], 65_536), "11"),
        row("`scale_degree_of`", "reference -2: key 2147483646", || degree(Mapping { count: 0, reference: -2, ..WIDE }, &[], 2_147_483_646), "panics", || our_degree(Mapping { count: 0, reference: -2, ..WIDE }, &[], 2_147_483_646), "11"),
        row("`scale_degree_of`", "a table with 40000 in it", || CANNOT_BE.to_string(), CANNOT_BE, || our_degree(WIDE, &[40_000], 0), "10"),
        row("`scale_degree_of`", "a count of 3, a table of one place", || CANNOT_BE.to_string(), CANNOT_BE, || our_degree(SAMPLE, &[0], 60), "10"),
        row("`Kbm::export`", "end -2147483648", || export(Mapping { end: i32::MIN, ..FREE }, &[]), "panics", || our_export(Mapping { end: i32::MIN, ..FREE }, &[], 99), "11"),
        row("`Kbm::export`", "reference 2147483647, offset 1", || export(Mapping { reference: i32::MAX, offset: 1, ..FREE }, &[]), "panics", || our_export(Mapping { reference: i32::MAX, offset: 1, ..FREE }, &[], 99), "11"),
        row("`Kbm::export`", "pitch 0.0: bytes written", || export(Mapping { hz: Float::Is(0), ..FREE }, &[]), "22", || our_export(Mapping { hz: Float::Is(0), ..FREE }, &[], 99), "10"),
        row("`Kbm::export`", "24 bytes of text, 23 lent: bytes written", || export(FREE, &[]), "24", || our_export(FREE, &[], 23), "12"),
        row("`KbmRoot`", "pitch 0.0", || rust(|| rust_kbm::of(Mapping { hz: Float::Is(0), ..FREE }, &[]).root.ref_pitch.as_hz()), "0.0", || refused(ffi_kbm::kbm_root(60, 0.0, 0)), "10"),
        row("`push_mapped_key`", "a table of one place, the second push: entries", || rust(|| rust_kbm::pushes(FREE, [Some(0), Some(1)]).formal_octave(1).build().unwrap().table.num_items()), "2", || here(ffi_kbm::push_key(&mut [0], 1, 1, Some(1))), "12"),
        row("`push_unmapped_key`", "the same: entries", || rust(|| rust_kbm::pushes(FREE, [Some(0), None]).formal_octave(1).build().unwrap().table.num_items()), "2", || here(ffi_kbm::push_key(&mut [0], 1, 1, None)), "12"),
        row("`push_mapped_key`", "a state of another table", || CANNOT_BE.to_string(), CANNOT_BE, || here(ffi_kbm::push_key(&mut [0], 2, 0, Some(1))), "10"),
        row("`push_unmapped_key`", "a state of another table", || CANNOT_BE.to_string(), CANNOT_BE, || here(ffi_kbm::push_key(&mut [0], 2, 0, None)), "10"),
        row("`KbmBuilder::build`", "pitch 0.0: is it built", || rust(|| rust_kbm::pushes(Mapping { hz: Float::Is(0), ..FREE }, []).build().is_ok()), "true", || here(ffi_kbm::build_kbm(&[], 0, 0, Mapping { hz: Float::Is(0), ..FREE }, None)), "10"),
        row("`KbmBuilder::build`", "one entry, no formal octave", || rust(|| rust_kbm::pushes(FREE, [Some(0)]).build().unwrap_err()), "FormalOctaveMissing", || here(ffi_kbm::build_kbm(&[0], 1, 1, FREE, None)), "15"),
        row("`KbmBuilder::build`", "65,536 entries", || rust(|| rust_kbm::pushes(FREE, vec![None; 65_536]).formal_octave(1).build().unwrap_err()), "MappingTooLarge", || here(ffi_kbm::build_kbm(&vec![UNMAPPED; 65_536], 65_536, 65_536, FREE, Some(1))), "13"),
    ]
}

/// A file with these keys: first, last, middle.
fn keys(first: &str, last: &str, middle: &str) -> Vec<u8> {
    format!("0\n{first}\n{last}\n{middle}\n69\n440.0\n0\n").into_bytes()
}

/// Its last key is below its first; the same, and a later line is at fault; the same at the largest keys; and one key.
fn swapped() -> Vec<u8> {
    keys("60", "59", "60")
}

fn swapped_above_fault() -> Vec<u8> {
    keys("60", "59", "x")
}

fn swapped_largest() -> Vec<u8> {
    keys("2147483647", "2147483646", "60")
}

fn one_key() -> Vec<u8> {
    keys("60", "60", "60")
}

fn on_one_line(text: &str) -> String {
    text.lines().collect::<Vec<_>>().join(" ")
}

fn export_text(m: Mapping, map: &[i32]) -> String {
    on_one_line(&rust_kbm::of(m, map).export().to_string())
}

fn our_export_text(m: Mapping, map: &[i32]) -> String {
    let mut out = [0; 99];
    match ffi_kbm::export_kbm(m, map, &mut out) {
        (Code::ACCEPTED, size) => on_one_line(&String::from_utf8_lossy(&out[..size])),
        (code, _) => refused(code),
    }
}

/// What is built of so many unmapped entries, with a formal octave or with none.
fn built(m: Mapping, entries: usize, octave: Option<i16>) -> String {
    let mut builder = rust_kbm::pushes(m, vec![None; entries]);
    if let Some(octave) = octave {
        builder = builder.formal_octave(octave);
    }
    builder.build().map_or_else(|error| format!("{error:?}"), |_| "built".to_string())
}

fn our_built(m: Mapping, entries: usize, octave: Option<i16>) -> String {
    let code = ffi_kbm::build_kbm(&vec![UNMAPPED; entries], entries, entries, m, octave).0;
    if code == Code::ACCEPTED { "built".to_string() } else { refused(code) }
}

const EMPTY: Mapping = Mapping { start: 60, end: 60, ..FREE };
const BELOW: Mapping = Mapping { start: 61, end: 60, ..FREE };

fn backwards_files() -> Vec<Row> {
    const NAME: &str = "mapping";
    const EXPORT: &str = "0 60 59 60 69 440.000 0";
    const AT_3: &str = "25 at line 3";
    const LARGEST: &str = "size 0, first key 2147483647, last key 2147483646";
    const FAULT: &str = "its error for 3 at line 4";
    vec![
        row(NAME, "size 0, first key 60, last key 59", || theirs(swapped(), read), "read", || ours(swapped(), 0, read), AT_3),
        row(NAME, "the same: key 60", || theirs(swapped(), |m, map| degree(m, map, 60)), "None", || ours(swapped(), 0, read), AT_3),
        row(NAME, "the same: its export", || theirs(swapped(), export_text), EXPORT, || ours(swapped(), 0, read), AT_3),
        row(NAME, "the same, middle key `x`", || theirs(swapped_above_fault(), read), FAULT, || ours(swapped_above_fault(), 0, read), AT_3),
        row(NAME, LARGEST, || theirs(swapped_largest(), read), "read", || ours(swapped_largest(), 0, read), AT_3),
        row(NAME, "size 0, first key 60, last key 60", || theirs(one_key(), read), "read", || ours(one_key(), 0, read), "read"),
    ]
}

/// Builds of such ranges, and calls that are lent one by value.
fn backwards_ranges() -> Vec<Row> {
    const BUILD: &str = "`KbmBuilder::build`";
    const MANY: usize = 65_536;
    const ONE: &str = "start 61, end 60, one entry, formal octave 1";
    const LARGE: &str = "MappingTooLarge";
    const MISSING: &str = "FormalOctaveMissing";
    const EXPORT: &str = "0 61 59 60 60 440.000 5";
    vec![
        row(BUILD, "start 60, end 60", || built(EMPTY, 0, None), "built", || our_built(EMPTY, 0, None), "25"),
        row(BUILD, ONE, || built(BELOW, 1, Some(1)), "built", || our_built(BELOW, 1, Some(1)), "25"),
        row(BUILD, "the same, 65,536 entries", || built(BELOW, MANY, Some(1)), LARGE, || our_built(BELOW, MANY, Some(1)), "25"),
        row(BUILD, "the same, one entry, no formal octave", || built(BELOW, 1, None), MISSING, || our_built(BELOW, 1, None), "15"),
        row("`scale_degree_of`", "start 61, end 60: key 60", || degree(BELOW, &[], 60), "None", || our_degree(BELOW, &[], 60), "16"),
        row("`Kbm::export`", "start 61, end 60", || export_text(BELOW, &[]), EXPORT, || our_export_text(BELOW, &[]), EXPORT),
    ]
}

pub fn mappings() -> Vec<Row> {
    [numerals(), files(), tables(), backwards_files(), backwards_ranges()].into_iter().flatten().collect()
}

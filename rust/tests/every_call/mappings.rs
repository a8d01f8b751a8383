//! Mappings in a lent table: read, asked, written, built.

use crate::raw;
use crate::scales::ROOTS;
use crate::tally::Tally;
use std::ops::Range;
use telbijan::number::{BACKWARDS_RANGE, FORMAL_OCTAVE_MISSING, INT_VALUE, KEY_OUT_OF_RANGE, NOT_UTF8, OVERFLOW, TOO_LARGE};
use telbijan::number::{UNMAPPED_KEY, UNUSABLE};
use telbijan::{MappingBuilder, MappingRef, Numbers, Root, UNMAPPED};

/// No two of its numbers are the same; the last entry is lacking.
pub const GAPS: &[u8] = b"! a comment\n5\n3\n90\n61\n58\n431.5\n7\n0\nx\n-2\n6\n";
pub const LINEAR: &[u8] = b"0\n0\n127\n60\n69\n440.0\n0\n";
/// `GAPS` with its first and last key swapped.
pub const SWAPPED: &[u8] = b"! a comment\n5\n90\n3\n61\n58\n431.5\n7\n0\nx\n-2\n6\n";
const PLACES: usize = 12;

/// A table with another number in every place.
pub fn table() -> Vec<i32> {
    (70_000..70_000 + PLACES as i32).collect()
}

pub fn numbers() -> Numbers {
    Numbers { count: 11, start: 12, end: 13, root: Root { reference: 14, hz: 15.0, offset: 16 }, octave: 17 }
}

/// The mapping of a text.
pub fn mapping(text: &[u8]) -> (Vec<i32>, Numbers) {
    let (mut map, mut n) = (table(), numbers());
    assert_eq!(read(text, &mut map, PLACES, &mut n), 0);
    (map, n)
}

fn read(text: &[u8], map: &mut [i32], places: usize, n: &mut Numbers) -> u64 {
    let (map, root) = (map[..places].as_mut_ptr(), &mut n.root);
    // Safety: the table has as many places, and the numbers stand apart.
    unsafe {
        raw::telbijan_read_kbm(
            text.as_ptr(), text.len(), map, places, &mut n.count, &mut n.start, &mut n.end, &mut root.reference, &mut root.hz, &mut root.offset, &mut n.octave,
        )
    }
}

/// Mappings to ask and to write: those of the texts, and others that cannot be used.
fn mappings() -> Vec<(Vec<i32>, Numbers)> {
    let (map, n) = mapping(GAPS);
    let mut all = vec![mapping(LINEAR), (map.clone(), n), (map.clone(), Numbers { count: 6, ..n }), (map.clone(), Numbers { start: i32::MIN, ..n })];
    all.extend([i32::MIN, i32::MAX, n.start, n.start - 1, n.start + 1].map(|end| (map.clone(), Numbers { end, ..n })));
    all.extend(ROOTS.map(|root| (map.clone(), Numbers { root, ..n })));
    all
}

#[test]
fn reads() {
    let mut seen = Tally::default();
    assert_eq!(UNMAPPED, i32::MIN);
    for text in [
        GAPS, LINEAR, SWAPPED, b"", b"1\n0\n127\n60\n", b"1\n0\n127\n60\n60\n440.0\n12\ny\n", b"1\n0\n127\n60\n60\n440.0\n12\n0\n1\n",
        b"9\n0\n2147483647\n", b"9\n0\n-1\n",
    ] {
        for places in 0..PLACES {
            let (mut ours, mut theirs, mut n) = (table(), table(), numbers());
            let result = read(text, &mut theirs, places, &mut n);
            let accepted = seen.agree("read_mapping", telbijan::read_mapping(text, &mut ours[..places]), result, n);
            assert_eq!(ours, theirs);
            assert!(accepted || ours == table());
        }
    }
    seen.done(1);
}

/// The range of a text, or why it has none, number and line; a refusal leaves the table as it was.
fn range_of(text: &[u8], places: usize) -> Result<Range<i32>, (u8, u64)> {
    let mut map = table();
    let answer = telbijan::read_mapping(text, &mut map[..places]);
    assert!(answer.is_ok() || map == table());
    answer.map(|n| n.start..n.end).map_err(|x| (x.number(), x.detail()))
}

/// A last key below the first is refused at its own line, before all that later lines have; one key is enough.
#[test]
fn backwards_texts() {
    assert_eq!(range_of(b"1\n60\n60\n60\n60\n440.0\n1\n0\n", 1), Ok(60..61));
    assert_eq!(range_of(b"1\n-2147483648\n2147483646\n60\n60\n440.0\n1\n0\n", 1), Ok(i32::MIN..i32::MAX));
    assert_eq!(range_of(SWAPPED, PLACES), Err((BACKWARDS_RANGE, 4)));
    let later = ["", "60\n60\n440.0\n1\n0\n", "x\n", "60\n60\n0\n", "60\n60\n440.0\n1\ny\n", "60\n60\n440.0\n1\n0\n0\n"];
    for (rest, places) in later.into_iter().flat_map(|rest| [(rest, 0), (rest, 1)]) {
        assert_eq!(range_of(format!("1\n60\n59\n{rest}").as_bytes(), places), Err((BACKWARDS_RANGE, 3)));
    }
    assert_eq!(range_of(b"! a\n1\n\n5\n!\n4\nx\n\xff", 8), Err((BACKWARDS_RANGE, 6)));
    // far down, behind comments before the size and between the keys
    for (head, between) in [(9, 0), (20, 0), (0, 254), (20, 300), (65_534, 0)] {
        let text = format!("{}1\n60\n{}59\n60\n", "! c\n".repeat(head), "! c\n".repeat(between));
        assert_eq!(range_of(text.as_bytes(), 8), Err((BACKWARDS_RANGE, (head + between + 3) as u64)));
    }
    assert_eq!(range_of(b"1\n2147483647\n2147483646\n", 8), Err((BACKWARDS_RANGE, 3)));
    assert_eq!(range_of(b"1\n2147483647\n2147483647\n", 8), Err((OVERFLOW, 3)));
    assert_eq!((range_of(b"1\nx\n0\n", 8), range_of(b"1\n5\n4!\n", 8)), (Err((INT_VALUE, 2)), Err((INT_VALUE, 3))));
    assert_eq!(range_of(b"1\n5\n! \xff\n4\n", 8), Err((NOT_UTF8, 3)));
}

/// Numbers with no key in their range are taken as they are: every key is outside, and the text that is written is not read again.
#[test]
fn backwards_numbers() {
    let (map, n) = mapping(GAPS);
    let (swapped, mut text) = (MappingRef { map: &map, numbers: Numbers { start: n.end, end: n.start, ..n } }, [0; 64]);
    for key in [n.start - 1, n.start, 58, n.end - 1, n.end] {
        assert_eq!(swapped.degree_of(key).unwrap_err().number(), KEY_OUT_OF_RANGE);
        assert_eq!(swapped.degree_from_middle(key).unwrap_err().number(), KEY_OUT_OF_RANGE);
    }
    let written = swapped.export(&mut text).unwrap();
    assert_eq!(&text[..written], b"5\n91\n2\n61\n58\n431.500\n7\n0\nx\n-2\n6\nx\n");
    assert_eq!(range_of(&text[..written], PLACES), Err((BACKWARDS_RANGE, 3)));
}

#[test]
fn degrees() {
    let mut seen = Tally::default();
    for (map, n) in mappings() {
        for (places, key) in (0..PLACES).flat_map(|places| [-1, 2, 3, 57, 58, 59, 60, 61, 62, 63, 90, 91, 127, i32::MIN, i32::MAX].map(|key| (places, key))) {
            let mut degree = 7;
            // Safety: the table has as many places.
            let result = unsafe {
                raw::telbijan_scale_degree_of(map.as_ptr(), places, n.count, n.start, n.end, n.root.reference, n.root.hz, n.root.offset, n.octave, key, &mut degree)
            };
            seen.agree("MappingRef::degree_of", MappingRef { map: &map[..places], numbers: n }.degree_of(key), result, degree);
        }
    }
    seen.done(1);
}

/// Roots whose middle key is near, far, at the ends of 32 bits and outside them.
const MIDDLES: [Root; 8] = [
    Root { reference: 69, hz: 440.0, offset: -7 },
    Root { reference: 58, hz: 431.5, offset: -1 },
    Root { reference: 60, hz: 256.5, offset: 0 },
    Root { reference: 61, hz: 255.5, offset: i32::MIN },
    Root { reference: -61, hz: 254.5, offset: i32::MAX },
    Root { reference: i32::MAX, hz: 253.5, offset: 5 },
    Root { reference: i32::MAX - 2, hz: 252.5, offset: 2 },
    Root { reference: i32::MIN, hz: 251.5, offset: -10 },
];

/// Mappings above these roots: with gaps, with all keys there are, with no entries.
pub fn middles() -> Vec<(Vec<i32>, Numbers)> {
    let ((map, n), (none, linear)) = (mapping(GAPS), mapping(LINEAR));
    let above = |root| {
        let widest = Numbers { start: i32::MIN, end: i32::MAX, root, ..n };
        [(map.clone(), Numbers { root, ..n }), (map.clone(), widest), (none.clone(), Numbers { root, ..linear })]
    };
    MIDDLES.into_iter().flat_map(above).collect()
}

/// The degree so many steps above the key that is counted from, by document 01's rule; or why there is none.
pub fn degree_at(map: &[i32], n: Numbers, steps: i64) -> Result<i32, u8> {
    let (size, steps) = (i64::from(n.count), i32::try_from(steps).map_err(|_| OVERFLOW)?);
    if size == 0 {
        return Ok(steps);
    }
    let entry = map[i64::from(steps).rem_euclid(size) as usize];
    let degree = i64::from(entry) + i64::from(steps).div_euclid(size) * i64::from(n.octave);
    if entry == UNMAPPED { Err(UNMAPPED_KEY) } else { i32::try_from(degree).map_err(|_| OVERFLOW) }
}

/// The degree counted from the middle key, the exact sum of reference and offset, in the same way.
pub fn degree_from_middle(map: &[i32], n: Numbers, key: i32) -> Result<i32, u8> {
    let is_entry = |&x: &i32| x == UNMAPPED || i16::try_from(x).is_ok();
    if !map.get(..n.count.into()).is_some_and(|entries| entries.iter().all(is_entry)) {
        return Err(UNUSABLE);
    }
    let steps = i64::from(key) - i64::from(n.root.reference) - i64::from(n.root.offset);
    if n.start <= key && key < n.end { degree_at(map, n, steps) } else { Err(KEY_OUT_OF_RANGE) }
}

/// From the middle key: beside the flat call, and by the rule; where the middle key is a key, as if it were the reference key.
#[test]
fn degrees_from_middle() {
    let mut seen = Tally::default();
    let keys = [-1, 2, 3, 57, 58, 59, 60, 61, 62, 69, 90, 91, i32::MIN, i32::MIN + 1, i32::MAX - 1, i32::MAX];
    for (map, n) in mappings().into_iter().chain(middles()) {
        for (places, key) in (0..PLACES).flat_map(|places| keys.map(|key| (places, key))) {
            let (mut degree, mapping) = (7, MappingRef { map: &map[..places], numbers: n });
            // Safety: the table has as many places.
            let result = unsafe {
                raw::telbijan_scale_degree_from_middle(
                    map.as_ptr(), places, n.count, n.start, n.end, n.root.reference, n.root.hz, n.root.offset, n.octave, key, &mut degree,
                )
            };
            let said = mapping.degree_from_middle(key);
            assert!(seen.agree("MappingRef::degree_from_middle", said, result, degree) || degree == 7);
            assert_eq!(said.map_err(|x| x.number()), degree_from_middle(&map[..places], n, key));
            if let Some(reference) = n.root.reference.checked_add(n.root.offset) {
                let moved = Numbers { root: Root { reference, ..n.root }, ..n };
                assert_eq!(said, MappingRef { numbers: moved, ..mapping }.degree_of(key));
            }
        }
    }
    seen.done(1);
}

/// Some by themselves, and an exact middle key far outside 32 bits.
#[test]
fn some_degrees_from_middle() {
    let (map, n) = mapping(GAPS);
    let mapping = MappingRef { map: &map, numbers: n };
    let said = [3, 60, 61, 62, 63, 64, 65, 66, 91].map(|key| mapping.degree_from_middle(key).map_err(|x| x.number()));
    let (outside, none) = (Err(KEY_OUT_OF_RANGE), Err(UNMAPPED_KEY));
    assert_eq!(said, [Ok(-86), none, Ok(0), none, Ok(-2), Ok(6), none, Ok(7), outside]);
    let root = Root { reference: 60, hz: 440.0, offset: i32::MIN };
    let linear = MappingRef { map: &[], numbers: Numbers { count: 0, start: -1000, end: 1000, root, octave: 0 } };
    let said = [59, -100, 60].map(|key| linear.degree_from_middle(key).map_err(|x| x.number()));
    assert_eq!(said, [Ok(i32::MAX), Ok(2_147_483_488), Err(OVERFLOW)]);
    assert_eq!(linear.degree_of(59), Ok(-1));
}

#[test]
fn exports() {
    let mut seen = Tally::default();
    for (map, n) in mappings() {
        for (places, room) in (0..PLACES).flat_map(|places| (0..60).map(move |room| (places, room))) {
            let (mut out, mut text, mut written) = ([b'#'; 64], [b'#'; 64], 7);
            // Safety: the table has as many places, and there are as many bytes.
            let result = unsafe {
                raw::telbijan_export_kbm(
                    map.as_ptr(), places, n.count, n.start, n.end, n.root.reference, n.root.hz, n.root.offset, n.octave, text.as_mut_ptr(), room, &mut written,
                )
            };
            let mapping = MappingRef { map: &map[..places], numbers: n };
            assert_eq!(mapping.room_for_export(), 73 + 7 * usize::from(n.count));
            let accepted = seen.agree("MappingRef::export", mapping.export(&mut out[..room]), result, written);
            assert_eq!(out, text);
            assert!(accepted || out == [b'#'; 64]);
        }
    }
    seen.done(1);
}

/// Entries pushed and built for these keys in a table of so many places, beside the flat calls.
fn build(seen: &mut Tally, places: usize, root: Root, keys: Range<i32>, entries: &[Option<i16>], octave: Option<i16>) {
    let Range { start, end } = keys;
    let (mut ours, mut theirs, mut count, mut n) = (table(), table(), 0, Numbers { start, end, root, ..numbers() });
    // Safety: no memory is lent.
    let result = unsafe { raw::telbijan_kbm_root(root.reference, root.hz, root.offset) };
    let builder = MappingBuilder::new(&mut ours[..places], root, keys);
    if !seen.agree("MappingBuilder::new", builder.as_ref().map(|_| ()).map_err(|&x| x), result, ()) {
        return assert_eq!(ours, theirs);
    }
    let (mut builder, map) = (builder.unwrap(), theirs.as_mut_ptr());
    for &entry in entries {
        let (before, pushed) = (format!("{builder:?}"), count);
        // Safety: the table has as many places.
        let result = unsafe {
            match entry {
                Some(degree) => raw::telbijan_push_mapped_key(map, places, places, pushed, degree, &mut count),
                None => raw::telbijan_push_unmapped_key(map, places, places, pushed, &mut count),
            }
        };
        let accepted = match entry {
            Some(degree) => seen.agree("MappingBuilder::push", builder.push(degree), result, ()),
            None => seen.agree("MappingBuilder::push_unmapped", builder.push_unmapped(), result, ()),
        };
        assert_eq!(accepted, format!("{builder:?}") != before);
    }
    let given = (octave.is_some(), octave.unwrap_or(0));
    // Safety: the table has as many places.
    let result = unsafe {
        raw::telbijan_build_kbm(
            map, places, places, count, start, end, root.reference, root.hz, root.offset, given.0, given.1, &mut n.count, &mut n.octave,
        )
    };
    let built = builder.build(octave);
    assert!(built.is_err() || built.is_ok_and(|built| built.map == &theirs[..places]));
    seen.agree("MappingBuilder::build", built.map(|built| built.numbers), result, n);
    assert_eq!(ours, theirs);
}

#[test]
fn builders() {
    let mut seen = Tally::default();
    let entries = [Some(-7), None, Some(32_767), None, Some(5)];
    for (root, places) in ROOTS.into_iter().flat_map(|root| (0..8).map(move |places| (root, places))) {
        for (pushed, keys) in (0..=entries.len()).flat_map(|pushed| [-3..99, 99..-3, 7..7, 7..8].map(|keys| (pushed, keys))) {
            build(&mut seen, places, root, keys.clone(), &entries[..pushed], None);
            build(&mut seen, places, root, keys, &entries[..pushed], Some(-31));
        }
    }
    seen.done(4);
}

/// What a build of so many entries says; in any case the table is as it was pushed.
fn built(entries: usize, keys: Range<i32>, octave: Option<i16>) -> Result<Range<i32>, (u8, u64)> {
    let mut map = vec![-7; entries + 1];
    let mut builder = MappingBuilder::new(&mut map, Root { reference: 60, hz: 256.0, offset: 2 }, keys).unwrap();
    (0..entries).try_for_each(|_| builder.push(5)).unwrap();
    let answer = builder.build(octave).map(|built| built.numbers.start..built.numbers.end).map_err(|x| (x.number(), x.detail()));
    assert!(map[..entries].iter().all(|&entry| entry == 5) && map[entries] == -7);
    answer
}

/// A last key below the first is refused with no line, after 15 and before 13. The empty range is such a one, a range of one key is not.
#[test]
fn backwards_builds() {
    for keys in [5..4, 5..5, 128..0, -1..-1, i32::MAX..i32::MIN] {
        for (entries, octave) in [(2, Some(7)), (0, Some(7)), (0, None), (65_536, Some(7))] {
            assert_eq!(built(entries, keys.clone(), octave), Err((BACKWARDS_RANGE, 0)));
        }
        assert_eq!(built(2, keys, None), Err((FORMAL_OCTAVE_MISSING, 0)));
    }
    assert_eq!((built(2, 4..5, Some(7)), built(0, i32::MIN..i32::MIN + 1, None)), (Ok(4..5), Ok(i32::MIN..i32::MIN + 1)));
    assert_eq!((built(65_536, 4..5, Some(7)), built(65_536, 5..4, None)), (Err((TOO_LARGE, 0)), Err((FORMAL_OCTAVE_MISSING, 0))));
}

/// A build that was refused for its range is made again in the same table, with a range that has a key.
#[test]
fn mended_builds() {
    let mut map = table();
    let mut build = |keys: Range<i32>| {
        let mut builder = MappingBuilder::new(&mut map, Root { reference: 60, hz: 256.0, offset: 2 }, keys)?;
        builder.push(5).and(builder.push_unmapped())?;
        builder.build(Some(7))?.degree_of(62)
    };
    assert_eq!(build(62..61).unwrap_err().number(), BACKWARDS_RANGE);
    assert_eq!(build(61..63), Ok(12));
}

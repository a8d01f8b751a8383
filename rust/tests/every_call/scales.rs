//! Scales in lent columns: read, computed, asked, written.

use crate::memory::{lengths, same, Lengths, Memory};
use crate::tally::Tally;
use telbijan::{Columns, Found, Root};

/// Items of every kind, not in order, one of them below the unison and one above the period.
pub const MIXED: &[u8] = b"! a comment\n  Items of every kind \n6\n701.5\n5/4\n5\n-100.25\n7/6\n2\n";
pub const ONE: &[u8] = b"One\n1\n3/1\n";
pub const NONE: &[u8] = b"None\n0\n";

/// Roots whose three numbers are all different; the last four cannot be used.
pub const ROOTS: [Root; 6] = [
    Root { reference: 57, hz: 431.5, offset: 3 },
    Root { reference: -4, hz: 100.25, offset: -9 },
    Root { reference: 57, hz: 0.0, offset: 3 },
    Root { reference: 57, hz: 2e6, offset: 3 },
    Root { reference: 57, hz: 431.5, offset: i32::MIN },
    Root { reference: 57, hz: f64::NAN, offset: 3 },
];

/// The scales, in columns of all lengths around what they need.
fn scales() -> impl Iterator<Item = (Memory, u16, Lengths)> {
    [MIXED, ONE, NONE].into_iter().flat_map(|text| {
        let (memory, count) = Memory::with(text);
        lengths(usize::from(count) + 1).map(move |n| (memory.clone(), count, n))
    })
}

#[test]
fn reads() {
    let mut seen = Tally::default();
    for (text, items) in [(MIXED, 6), (ONE, 1), (NONE, 0), (b"", 1), (b"d\n2\n3/2\n\xff\n", 2), (b"d\n2\n3/2\n", 1), (b"d\n2\n1.0\n1/1\n", 2), (b"d\n1\n3/\n", 1)] {
        for n in lengths(items + 1) {
            let (mut ours, mut theirs, mut count, mut start, mut end) = (Memory::new(), Memory::new(), 7, 8, 9);
            let result = columns!(telbijan_read_scl, (text.as_ptr(), text.len()), theirs, n, &mut count, &mut start, &mut end);
            let accepted = seen.agree("Columns::read", ours.lend(n).read(text), result, (count, start..end));
            same(&ours, &theirs, &Memory::new(), accepted);
        }
    }
    seen.done(1);
}

#[test]
fn harmonics() {
    let mut seen = Tally::default();
    let segments = [(true, 8, 5, None), (false, 8, 5, None), (true, 3, 7, Some(4)), (false, 5, 6, Some(3)), (true, 9, 4, Some(0)), (true, 0, 5, None), (false, 4, 0, None)];
    for (otonal, start, size, divisions) in segments {
        for n in lengths(usize::from(divisions.unwrap_or(size)) + 1) {
            let (mut ours, mut theirs, mut count) = (Memory::new(), Memory::new(), 7);
            let first = (divisions.is_some(), divisions.unwrap_or(0));
            let result = columns!(telbijan_create_harmonics_scale, (otonal, start, size, first.0, first.1), theirs, n, &mut count);
            let accepted = seen.agree("Columns::create_harmonics", ours.lend(n).create_harmonics(otonal, start, size, divisions), result, count);
            same(&ours, &theirs, &Memory::new(), accepted);
        }
    }
    seen.done(1);
}

#[test]
fn rank2() {
    let mut seen = Tally::default();
    let temperaments = [(1.5, 5, 1, 2.0), (1.25, 2, 3, 3.0), (1.5, 0, 4, 2.0), (1.5, 2, 1, 1.0), (f64::NAN, 2, 1, 2.0), (1.5, 65_535, 1, 2.0), (1e30, 1, 2, 2.0)];
    for (generator, positive, negative, period) in temperaments {
        for n in lengths(8) {
            let (mut ours, mut theirs, mut count) = (Memory::new(), Memory::new(), 7);
            let result = columns!(telbijan_create_rank2_temperament_scale, (generator, positive, negative, period), theirs, n, &mut count);
            let accepted = seen.agree("Columns::create_rank2", ours.lend(n).create_rank2(generator, positive, negative, period), result, count);
            same(&ours, &theirs, &Memory::new(), accepted);
        }
    }
    seen.done(1);
}

#[test]
fn relative_pitches() {
    let mut seen = Tally::default();
    for (mut ours, count, n) in scales() {
        let (mut theirs, mut x) = (ours.clone(), 7.0);
        let lent: Columns = ours.lend(n);
        let scale = lent.scale(count);
        assert_eq!(scale.count(), count);
        let result = items!(telbijan_period, theirs, n, count, &mut x);
        seen.agree("ScaleRef::period", scale.period(), result, x);
        for degree in [-8, -1, 0, 1, 2, 3, 4, 5, 6, 13, i32::MAX] {
            let result = items!(telbijan_relative_pitch_of, theirs, n, count, degree, &mut x);
            seen.agree("ScaleRef::relative_pitch_of", scale.relative_pitch_of(degree), result, x);
            let result = columns!(telbijan_sorted_relative_pitch_of, (), theirs, n, count, degree, &mut x);
            seen.agree("ScaleRef::sorted_relative_pitch_of", scale.sorted_relative_pitch_of(degree), result, x);
        }
        for target in [3.1, 0.7, 1.2, 1.0, 1.4999999, 2e20, -1.0] {
            let mut found = Found { number: 7, deviation: 8.0 };
            let result = columns!(telbijan_find_by_relative_pitch, (), theirs, n, count, target, &mut found.number, &mut found.deviation);
            seen.agree("ScaleRef::find", scale.find(target), result, found);
            let result = columns!(telbijan_find_by_relative_pitch_sorted, (), theirs, n, count, target, &mut found.number, &mut found.deviation);
            seen.agree("ScaleRef::find_sorted", scale.find_sorted(target), result, found);
        }
    }
    seen.done(5);
}

#[test]
fn pitches() {
    let mut seen = Tally::default();
    for (mut ours, count, n) in scales() {
        let (mut theirs, mut x) = (ours.clone(), 7.0);
        let lent = ours.lend(n);
        let scale = lent.scale(count);
        for root in ROOTS {
            let Root { reference, hz, offset } = root;
            for number in [-8, 0, 1, 2, 5, 13, 60, i32::MAX] {
                let result = items!(telbijan_pitch_of, theirs, n, count, reference, hz, offset, number, &mut x);
                seen.agree("ScaleRef::pitch_of", scale.pitch_of(root, number), result, x);
                let result = items!(telbijan_pitch_of_key, theirs, n, count, reference, hz, offset, number, &mut x);
                seen.agree("ScaleRef::pitch_of_key", scale.pitch_of_key(root, number), result, x);
                let result = columns!(telbijan_sorted_pitch_of, (), theirs, n, count, reference, hz, offset, number, &mut x);
                seen.agree("ScaleRef::sorted_pitch_of", scale.sorted_pitch_of(root, number), result, x);
            }
        }
    }
    seen.done(3);
}

#[test]
fn searches() {
    let mut seen = Tally::default();
    for (mut ours, count, n) in scales() {
        let mut theirs = ours.clone();
        let lent = ours.lend(n);
        let scale = lent.scale(count);
        for (root, target) in ROOTS.into_iter().flat_map(|root| [300.0, 455.0, 1001.0, 55.5, 2e7].map(|target| (root, target))) {
            let Root { reference, hz, offset } = root;
            let mut found = Found { number: 7, deviation: 8.0 };
            let result = columns!(telbijan_find_by_pitch, (), theirs, n, count, reference, hz, offset, target, &mut found.number, &mut found.deviation);
            seen.agree("ScaleRef::find_by_pitch", scale.find_by_pitch(root, target), result, found);
            let result = columns!(telbijan_find_by_pitch_sorted, (), theirs, n, count, reference, hz, offset, target, &mut found.number, &mut found.deviation);
            seen.agree("ScaleRef::find_by_pitch_sorted", scale.find_by_pitch_sorted(root, target), result, found);
            let result = columns!(telbijan_find_key_by_pitch, (), theirs, n, count, reference, hz, offset, target, &mut found.number, &mut found.deviation);
            seen.agree("ScaleRef::find_key_by_pitch", scale.find_key_by_pitch(root, target), result, found);
        }
    }
    seen.done(3);
}

#[test]
fn exports() {
    let (mut seen, said) = (Tally::default(), "Zwölf");
    for (mut ours, count, n) in scales() {
        let mut theirs = ours.clone();
        let lent = ours.lend(n);
        assert_eq!(lent.scale(count).room_for_export(said), said.len() + 7 + 22 * usize::from(count));
        for room in 0..60 {
            let (mut out, mut text, mut written) = ([b'#'; 64], [b'#'; 64], 7);
            // Safety: no column is shorter than what is lent of it, and neither are the bytes.
            let result = unsafe {
                crate::raw::telbijan_export_scl(
                    said.as_ptr(), said.len(), theirs.kind.as_mut_ptr(), n[0], theirs.cents.as_mut_ptr(), n[1], theirs.numer.as_mut_ptr(), n[2],
                    theirs.denom.as_mut_ptr(), n[3], count, text.as_mut_ptr(), room, &mut written,
                )
            };
            let accepted = seen.agree("ScaleRef::export", lent.scale(count).export(said, &mut out[..room]), result, written);
            assert_eq!(out, text);
            assert!(accepted || out == [b'#'; 64]);
        }
    }
    seen.done(1);
}

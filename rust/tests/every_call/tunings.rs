//! A scale and a mapping together.

use crate::mappings::{degree_at, degree_from_middle, mapping, middles, GAPS, LINEAR};
use crate::memory::{lengths, Lengths, Memory};
use crate::scales::{MIXED, NONE, ONE, ROOTS};
use crate::tally::Tally;
use telbijan::number::{BEYOND_REACH, KEY_OUT_OF_RANGE, NO_ROOM, OVERFLOW, REFERENCE_UNMAPPED, UNMAPPED_KEY, UNUSABLE};
use telbijan::{ratio, MappingRef, Numbers, Refusal, Root, Tuning, UNMAPPED};

const PLACES: usize = 16;

/// Columns with room for every scale here.
const WHOLE: Lengths = [20, 21, 22, 23, 24, 25, 26];

/// Scales and mappings of different counts, in columns and a table of many lengths.
fn tunings() -> Vec<(Memory, u16, Lengths, Vec<i32>, Numbers)> {
    let mut all = Vec::new();
    for (scl, kbm) in [(MIXED, GAPS), (MIXED, LINEAR), (ONE, GAPS), (NONE, LINEAR)] {
        let ((memory, count), (map, n)) = (Memory::with(scl), mapping(kbm));
        let entries = usize::from(n.count);
        all.extend(lengths(usize::from(count) + 1).map(|lengths| (memory.clone(), count, lengths, map.clone(), n)));
        all.extend((0..entries + 2).map(|places| (memory.clone(), count, WHOLE, map[..places].to_vec(), n)));
        all.extend(ROOTS.map(|root| (memory.clone(), count, WHOLE, map.clone(), Numbers { root, ..n })));
    }
    let (memory, count) = Memory::with(MIXED);
    all.extend(middles().into_iter().map(|(map, n)| (memory.clone(), count, WHOLE, map, n)));
    all
}

macro_rules! mapped {
    ($call:ident, $memory:expr, $lengths:expr, $count:expr, $map:expr, $n:expr $(, $more:expr)*) => {
        items!(
            $call, $memory, $lengths, $count, $map.as_ptr(), $map.len(), $n.count, $n.start, $n.end, $n.root.reference, $n.root.hz, $n.root.offset, $n.octave
            $(, $more)*
        )
    };
}

#[test]
fn pitches() {
    let mut seen = Tally::default();
    for (mut ours, count, lengths, map, n) in tunings() {
        let (mut theirs, mut x) = (ours.clone(), 7.0);
        let lent = ours.lend(lengths);
        let tuning = Tuning { scale: lent.scale(count), mapping: MappingRef { map: &map, numbers: n } };
        for number in [-5, -1, 0, 2, 3, 4, 57, 58, 59, 60, 63, 90, 127, i32::MIN, i32::MAX] {
            let result = mapped!(telbijan_maybe_pitch_of, theirs, lengths, count, map, n, number, &mut x);
            seen.agree("Tuning::pitch_of", tuning.pitch_of(number), result, x);
            let result = mapped!(telbijan_maybe_pitch_of_degree, theirs, lengths, count, map, n, number, &mut x);
            seen.agree("Tuning::pitch_of_degree", tuning.pitch_of_degree(number), result, x);
        }
    }
    seen.done(2);
}

/// The pitch of a key from the middle key, by document 02's rule: the asked key, then the reference key, then the pitches.
fn from_middle(tuning: Tuning, key: i32) -> Result<f64, u8> {
    let (scale, MappingRef { map, numbers: n }, said) = (tuning.scale, tuning.mapping, |x: Refusal| x.number());
    if scale.period().is_err() || scale.pitch_of(Root { offset: 0, ..n.root }, 0).is_err_and(|x| x.number() == UNUSABLE) {
        return Err(UNUSABLE);
    }
    let degree = degree_from_middle(map, n, key)?;
    let own = degree_at(map, n, -i64::from(n.root.offset)).map_err(|x| if x == UNMAPPED_KEY { REFERENCE_UNMAPPED } else { x })?;
    let root = scale.relative_pitch_of(own).and_then(|own| ratio::over_ratio(n.root.hz, own)).map_err(said)?;
    scale.relative_pitch_of(degree).and_then(|above| ratio::times_ratio(root, above)).map_err(said)
}

#[test]
fn pitches_from_middle() {
    let mut seen = Tally::default();
    for (mut ours, count, lengths, map, n) in tunings() {
        let mut theirs = ours.clone();
        let lent = ours.lend(lengths);
        let tuning = Tuning { scale: lent.scale(count), mapping: MappingRef { map: &map, numbers: n } };
        for key in [-5, 2, 3, 55, 57, 58, 59, 60, 61, 62, 63, 66, 69, 90, 91, 127, i32::MIN, i32::MIN + 5, i32::MAX - 6, i32::MAX] {
            let mut x = 7.0;
            let result = mapped!(telbijan_maybe_pitch_from_middle, theirs, lengths, count, map, n, key, &mut x);
            let said = tuning.pitch_from_middle(key);
            assert!(seen.agree("Tuning::pitch_from_middle", said, result, x) || x == 7.0);
            assert_eq!(said.map(f64::to_bits).map_err(|x| x.number()), from_middle(tuning, key).map(f64::to_bits));
        }
    }
    seen.done(1);
}

#[test]
fn runs_of_keys() {
    let mut seen = Tally::default();
    let rooms = [(0, 0), (0, 3), (3, 0), (5, 4), (4, 5), (9, 13), (13, 9), (12, 12)];
    for (mut ours, count, lengths, map, n) in tunings() {
        let mut theirs = ours.clone();
        let lent = ours.lend(lengths);
        let tuning = Tuning { scale: lent.scale(count), mapping: MappingRef { map: &map, numbers: n } };
        for (first, (keys, beside)) in [-2, 55, 84, i32::MAX - 3].into_iter().flat_map(|first| rooms.map(|room| (first, room))) {
            let (mut hz, mut numbers, mut their_hz, mut their_numbers) = ([0.5; PLACES], [77; PLACES], [0.5; PLACES], [77; PLACES]);
            let result = mapped!(
                telbijan_pitches_of, theirs, lengths, count, map, n, first, keys as u32, their_hz.as_mut_ptr(), keys, their_numbers.as_mut_ptr(), beside
            );
            let accepted = seen.agree("Tuning::pitches_of", tuning.pitches_of(first, &mut hz[..keys], &mut numbers[..beside]), result, ());
            assert_eq!((hz.map(f64::to_bits), numbers), (their_hz.map(f64::to_bits), their_numbers));
            assert!(accepted || (hz, numbers) == ([0.5; PLACES], [77; PLACES]));
        }
    }
    seen.done(1);
}

/// From the middle key: beside the flat call, and key by key as the single call; the pitch of a refused key stays as it was.
#[test]
fn runs_from_middle() {
    let mut seen = Tally::default();
    let rooms = [(0, 0), (0, 3), (3, 0), (5, 4), (4, 5), (9, 13), (13, 9), (12, 12)];
    for (mut ours, count, lengths, map, n) in tunings() {
        let mut theirs = ours.clone();
        let lent = ours.lend(lengths);
        let tuning = Tuning { scale: lent.scale(count), mapping: MappingRef { map: &map, numbers: n } };
        for (first, (keys, beside)) in [-2, 55, 84, i32::MAX - 3].into_iter().flat_map(|first| rooms.map(|room| (first, room))) {
            let (mut hz, mut numbers, mut their_hz, mut their_numbers) = ([0.5; PLACES], [77; PLACES], [0.5; PLACES], [77; PLACES]);
            let (pitches, others) = (their_hz.as_mut_ptr(), their_numbers.as_mut_ptr());
            let result = mapped!(
                telbijan_pitches_from_middle, theirs, lengths, count, map, n, first, keys as u32, pitches, keys, others, beside
            );
            let said = tuning.pitches_from_middle(first, &mut hz[..keys], &mut numbers[..beside]);
            let accepted = seen.agree("Tuning::pitches_from_middle", said, result, ());
            assert_eq!((hz.map(f64::to_bits), numbers), (their_hz.map(f64::to_bits), their_numbers));
            let single = |k: usize| match first.checked_add(k as i32) {
                Some(key) => tuning.pitch_from_middle(key).map_err(|x| x.number()),
                None => Err(OVERFLOW),
            };
            for k in 0..PLACES {
                let expected = if accepted && k < keys { single(k).map_or_else(|x| (0.5, x.into()), |x| (x, 0)) } else { (0.5, 77) };
                assert_eq!((hz[k].to_bits(), numbers[k]), (expected.0.to_bits(), expected.1));
            }
            // 10 comes before 12
            assert!(accepted || [UNUSABLE, NO_ROOM].contains(&said.unwrap_err().number()));
            assert_eq!(said.is_err_and(|x| x.number() == NO_ROOM), beside < keys && from_middle(tuning, n.end) != Err(UNUSABLE));
        }
    }
    seen.done(1);
}

/// A tuning of a mapping's numbers and entries, asked in both ways.
fn ask<T>(map: &[i32], numbers: Numbers, scl: &[u8], ask: impl FnOnce(Tuning) -> T) -> T {
    let (mut memory, count) = Memory::with(scl);
    ask(Tuning { scale: memory.lend(WHOLE).scale(count), mapping: MappingRef { map, numbers } })
}

fn numbers_of(answers: impl IntoIterator<Item = Result<f64, Refusal>>) -> Vec<u8> {
    answers.into_iter().map(|x| x.map_or_else(Refusal::number, |_| 0)).collect()
}

/// The reference key is unmapped: every key that has a degree is 19, and one that has none is refused for itself; the degree is said.
#[test]
fn the_reference_key_is_unmapped() {
    let (root, map) = (Root { reference: 60, hz: 261.6256, offset: 2 }, [0, UNMAPPED, 2]);
    let n = Numbers { count: 3, start: 10, end: 128, root, octave: 5 };
    ask(&map, n, MIXED, |tuning| {
        assert_eq!([61, 62, 64, 65].map(|key| tuning.mapping.degree_from_middle(key).unwrap()), [-3, 0, 2, 5]);
        assert_eq!(numbers_of([9, 61, 62, 63, 64, 65, 128].map(|key| tuning.pitch_from_middle(key))), [16, 19, 19, 17, 19, 19, 16]);
        let (mut hz, mut said) = ([0.5; 6], [77; 6]);
        tuning.pitches_from_middle(60, &mut hz, &mut said).unwrap();
        assert_eq!((hz, said), ([0.5; 6], [17, 19, 19, 17, 19, 19]));
        assert!(tuning.pitch_of(62).is_ok());
    });
    // 19 though the reference key's degree would pass 32 bits, and though the asked key is beyond reach
    let far = Numbers { count: 2, root: Root { reference: 140_001, offset: -140_000, ..root }, octave: 32_767, end: 200_000, ..n };
    let said = |map: &[i32], n, keys: &[i32]| {
        ask(map, n, MIXED, |tuning| numbers_of(keys.iter().map(|&key| tuning.pitch_from_middle(key))))
    };
    assert_eq!(said(&[UNMAPPED, 0], far, &[20, 21, 199_998]), [REFERENCE_UNMAPPED, UNMAPPED_KEY, OVERFLOW]);
    assert_eq!(said(&[0, 0], far, &[20, 21, 200_000]), [OVERFLOW, OVERFLOW, KEY_OUT_OF_RANGE]);
    let steep = Numbers { count: 2, root: Root { reference: 61, offset: -1, ..root }, octave: 4000, ..n };
    assert_eq!((said(&[0, UNMAPPED], steep, &[100]), said(&[0, 0], steep, &[100])), (vec![REFERENCE_UNMAPPED], vec![BEYOND_REACH]));
}

/// Where the offset is 0 both countings have the same degrees, and the same pitches too where the first entry is 0 or there are none.
/// Another first entry, or another offset, tells them apart.
#[test]
fn both_countings() {
    let (root, keys) = (Root { reference: 60, hz: 263.5, offset: 0 }, 0..128);
    let n = Numbers { count: 3, start: 3, end: 125, root, octave: 5 };
    let alike = |map: &[i32], n: Numbers| {
        ask(map, n, MIXED, |tuning| {
            let degrees = keys.clone().all(|key| tuning.mapping.degree_of(key) == tuning.mapping.degree_from_middle(key));
            let bits = |answer: Result<f64, Refusal>| answer.map(f64::to_bits);
            (degrees, keys.clone().all(|key| bits(tuning.pitch_of(key)) == bits(tuning.pitch_from_middle(key))))
        })
    };
    assert_eq!((alike(&[0, UNMAPPED, 4], n), alike(&[], Numbers { count: 0, ..n })), ((true, true), (true, true)));
    assert_eq!((alike(&[1, UNMAPPED, 4], n), alike(&[UNMAPPED, 0, 4], n)), ((true, false), (true, false)));
    let moved = Numbers { root: Root { offset: 1, ..root }, ..n };
    assert_eq!((alike(&[0, UNMAPPED, 4], moved), alike(&[], Numbers { count: 0, ..moved })), ((false, false), (false, false)));
}

/// A harp players' file: the middle key is 62, and the reference key 69 sounds its frequency, whether the range has it or not; but for
/// rounding, as the last one shows.
#[test]
fn the_harp() {
    let scl: &[u8] = b"harp\n3\n9/8\n5/4\n2/1\n";
    let n = Numbers { count: 3, start: 0, end: 128, root: Root { reference: 69, hz: 440.0, offset: -7 }, octave: 3 };
    ask(&[0, 1, 2], n, scl, |tuning| {
        assert_eq!([60, 62, 63, 69].map(|key| tuning.pitch_from_middle(key).unwrap()), [55.0, 440.0 / 4.5, 110.0, 440.0]);
        assert_eq!(tuning.pitch_of(69), Ok(97.77777777777777));
    });
    let one = Numbers { count: 1, start: 60, end: 61, root: Root { reference: 69, hz: 440.0, offset: -9 }, octave: 1 };
    ask(&[0], one, b"octaves\n1\n2/1\n", |tuning| {
        assert_eq!(tuning.pitch_from_middle(60), Ok(440.0 / 512.0));
        assert_eq!(numbers_of([tuning.pitch_from_middle(69)]), [KEY_OUT_OF_RANGE]);
    });
    let two = Numbers { count: 2, start: 0, end: 128, root: Root { reference: 61, hz: 440.0, offset: -1 }, octave: 2 };
    ask(&[0, 1], two, b"rounded\n2\n7/5\n2/1\n", |tuning| assert_eq!(tuning.pitch_from_middle(61), Ok(439.99999999999994)));
}

/// Numbers with no key in their range, the last below the first: each key is outside, by itself, by its degree and in a run.
#[test]
fn backwards_numbers() {
    let ((mut memory, count), (map, n)) = (Memory::with(MIXED), mapping(GAPS));
    let lent = memory.lend([20, 21, 22, 23, 24, 25, 26]);
    let numbers = Numbers { start: n.end, end: n.start, ..n };
    let tuning = Tuning { scale: lent.scale(count), mapping: MappingRef { map: &map, numbers } };
    for key in n.start - 1..=n.end {
        assert_eq!(tuning.pitch_of(key).unwrap_err().number(), KEY_OUT_OF_RANGE);
        assert_eq!(tuning.pitch_from_middle(key).unwrap_err().number(), KEY_OUT_OF_RANGE);
        assert_eq!(tuning.pitch_of_degree(key - n.root.reference).unwrap_err().number(), KEY_OUT_OF_RANGE);
    }
    let (mut hz, mut said) = ([0.5; 90], [77; 90]);
    tuning.pitches_of(n.start - 1, &mut hz, &mut said).unwrap();
    assert_eq!((hz, said), ([0.5; 90], [KEY_OUT_OF_RANGE.into(); 90]));
    said = [77; 90];
    tuning.pitches_from_middle(n.start - 1, &mut hz, &mut said).unwrap();
    assert_eq!((hz, said), ([0.5; 90], [KEY_OUT_OF_RANGE.into(); 90]));
}

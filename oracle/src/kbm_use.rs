//! Degrees of keys, and exports: ours beside the rules, and the Rust in its domain.

use crate::ffi;
use crate::ffi_kbm::{self, Mapping};
use crate::inputs::{Random, drawn};
use crate::lent::Float;
use crate::rules::{self, UNMAPPED};
use crate::rust_kbm;
use crate::tally::{Code, Report, Said, Tally, Who, caught};
use tune::key::PianoKey;

/// The degree: the Rust's, which panics exactly where a number overflows on the way. There the exact value is 11 or, where only a
/// number midway overflows, a degree by the rules.
pub fn degree(m: Mapping, entries: &[i32], key: i32) -> Said<i32> {
    let ruled = rules::degree(m, entries, key);
    let theirs = caught(|| rust_kbm::of(m, entries).scale_degree_of(PianoKey::from_midi_number(key)));
    let who = match (theirs, rules::overflows(m, entries, key), ruled) {
        (Some(theirs), false, ruled) if theirs == ruled.ok() && !matches!(ruled, Err((11, _))) => Who::Rust,
        (None, true, Err((11, 0)) | Ok(_)) => Who::Panics,
        _ => return Said::fault(ffi::OLD_I32),
    };
    match ruled {
        Ok(degree) => Said::gives(who, degree),
        Err((number, detail)) => Said::refused(who, number, detail, ffi::OLD_I32),
    }
}

/// Document 01's mapping for its sample keys.
pub const SAMPLE: Mapping = Mapping { count: 3, start: 0, end: 128, reference: 60, hz: Float::Is(440f64.to_bits()), offset: 0, octave: 5 };
/// One whose degrees reach the ends of 32 bits.
pub const WIDE: Mapping = Mapping { count: 1, start: i32::MIN, end: i32::MAX, reference: 0, octave: -32_768, ..SAMPLE };

fn degrees(all: &mut Report) {
    all.function("scale_degree_of", &[10, 11, 16, 17], |tally| {
        let mut random = Random::new(19);
        let one = |tally: &mut Tally, m: Mapping, entries: &[i32], key: i32| tally.same((m, entries.len(), key), ffi_kbm::scale_degree_of(m, entries, key), degree(m, entries, key));
        for _ in drawn(20_000) {
            let count = [0, 1, 2, 3, 7, 12, 31][random.next() as usize % 7];
            let (m, entries) = rust_kbm::random(&mut random, count);
            for _ in 0..4 {
                one(tally, m, &entries, random.i32());
            }
            for key in [m.start, m.start.wrapping_sub(1), m.end, m.end.wrapping_sub(1), m.reference, m.reference.wrapping_add(1), i32::MIN, i32::MAX] {
                one(tally, m, &entries, key);
            }
        }
        // document 01's samples, and exact values where the Rust overflows midway
        for (key, said) in [(60, Ok(0)), (61, Err((17, 0))), (63, Ok(5)), (59, Ok(-3)), (128, Err((16, 0)))] {
            for offset in [0, 2] {
                let m = Mapping { offset, ..SAMPLE };
                tally.require(rules::degree(m, &[0, UNMAPPED, 2], key) == said, key);
                one(tally, m, &[0, UNMAPPED, 2], key);
            }
        }
        for (key, said) in [(-65_536, Ok(2_147_483_647)), (65_536, Err((11, 0)))] {
            tally.require(rules::degree(WIDE, &[-1], key) == said, key);
            one(tally, WIDE, &[-1], key);
        }
        // a table that cannot be used is 10 before all else
        for (map, count) in [(vec![0], 2), (vec![40_000], 1), (vec![0, -32_769], 2), (vec![], 1)] {
            let m = Mapping { count, ..SAMPLE };
            tally.same((m, 500), ffi_kbm::scale_degree_of(m, &map, 500), Said::refused(Who::Rules, 10, 0, ffi::OLD_I32));
        }
    });
}

pub const BYTE: u8 = 0xEE;

/// Whether an entry of a table is none that can be: a degree of 16 bits, or unmapped.
pub fn is_wrong(entry: i32) -> bool {
    entry != UNMAPPED && i16::try_from(entry).is_err()
}

/// The export in so many bytes: the Rust's text, which panics exactly where the last or the middle key leaves 32 bits. How much was
/// written, and every byte.
pub fn export(m: Mapping, map: &[i32], room: usize) -> Said<(usize, Vec<u8>)> {
    let mut out = vec![BYTE; room];
    let wrong = map.get(..m.count.into()).is_none_or(|entries| entries.iter().any(|&entry| is_wrong(entry)));
    if wrong || !(2f64.powi(-10)..=2f64.powi(20)).contains(&m.pitch()) {
        return Said::refused(Who::Rules, 10, 0, (usize::MAX, out));
    }
    let text = Said::unless_panic(caught(|| rust_kbm::of(m, map).export().to_string()), rules::export_overflows(m), 11, String::new());
    if text.code != Code::ACCEPTED {
        return text.map(|_| (usize::MAX, out));
    }
    if text.value.len() > room {
        return Said::refused(Who::Rules, 12, 0, (usize::MAX, out));
    }
    out[..text.value.len()].copy_from_slice(text.value.as_bytes());
    text.map(|text| (text.len(), out))
}

fn exports(all: &mut Report) {
    all.function("Kbm::export", &[10, 11, 12], |tally| {
        let mut random = Random::new(20);
        let one = |tally: &mut Tally, m: Mapping, map: &[i32], room: usize| {
            let mut out = vec![BYTE; room];
            let (code, written) = ffi_kbm::export_kbm(m, map, &mut out);
            tally.same((m, room), (code, (written, out)), export(m, map, room));
        };
        for k in drawn(20_000) {
            let (mut m, entries) = rust_kbm::random(&mut random, if k % 500 == 0 { 3000 } else { k % 40 });
            if k % 3 == 0 {
                m.hz = Float::of([261.6256, 440.0, 0.0625 * 16.0, 1.0625, 1.1875, 2f64.powi(20), 2f64.powi(-10)][k % 7]);
            }
            let (_, (size, _)) = { let said = export(m, &entries, 1 << 16); (said.code, said.value) };
            let length = if size == usize::MAX { 40 } else { size };
            for room in [length, length + 3, length - 1, 0] {
                one(tally, m, &entries, room);
            }
        }
        for hz in [0.0, f64::NAN, 2f64.powi(20).next_up(), 2f64.powi(-10).next_down()] {
            one(tally, Mapping { count: 0, start: 0, end: i32::MIN, reference: 0, hz: Float::of(hz), offset: 0, octave: 0 }, &[], 0);
        }
        one(tally, SAMPLE, &[0], 40);
        for entry in [40_000, 32_768, -32_769, UNMAPPED + 1] {
            one(tally, SAMPLE, &[0, entry, 2], 99);
        }
    });
}

pub fn compare(all: &mut Report) {
    degrees(all);
    exports(all);
}

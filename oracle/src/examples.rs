//! The examples on the Rust's own pages of mod.rs that lie inside document 01's domain, run here: each answer is what the page says, and
//! where it is a number bit for bit what the Rust gives. The one outside it: 65,535 pushes of 0.0 to 65,534.0 cents, which here ends at 38,400
//! (10). Those on errors of builds (15, 13) are cases of `kbm_build` and `scl_build`.

use crate::ffi_generators::{self, Segment, Temperament};
use crate::ffi_kbm::{self, Mapping};
use crate::ffi_scl::{self, Columns, Push};
use crate::ffi_tuning as ffi;
use crate::kbm_use;
use crate::lent::Float;
use crate::rules::UNMAPPED;
use crate::rules_tuning::Root;
use crate::tally::{Code, Report, Tally};
use crate::tuning::{self, Built};
use crate::{generators, rust_kbm};

const STEPS: &[Push] = &[Push::Cents(100.0), Push::Cents(50.0), Push::Cents(175.0), Push::Cents(150.0)];

fn built(pushes: &[Push]) -> Built {
    Built::new([pushes.len() + 1; 7], pushes).unwrap()
}

/// `assert_approx_eq`: within 0.000001.
fn close(x: Float, said: f64) -> bool {
    matches!(x, Float::Is(bits) if (f64::from_bits(bits) - said).abs() < 1e-6)
}

fn cents(x: Float, said: f64) -> bool {
    matches!(x, Float::Is(bits) if (f64::from_bits(bits).log2() * 1200.0 - said).abs() < 1e-6)
}

fn relative_pitches(tally: &mut Tally) {
    let b = built(STEPS);
    tally.require(cents(ffi::period(&b.columns, 4).1, 150.0), "period");
    for (degree, plain, sorted) in [(-1, 25.0, -50.0), (0, 0.0, 0.0), (1, 100.0, 25.0), (2, 50.0, 50.0), (3, 175.0, 100.0), (4, 150.0, 150.0), (5, 250.0, 175.0)] {
        let (ours, ascending) = (ffi::relative_pitch_of(&b.columns, 4, degree), ffi::sorted_relative_pitch_of(&b.columns, 4, degree));
        tally.require(cents(ours.1, plain) && cents(ascending.1, sorted), degree);
        tally.same(degree, ours, tuning::relative(&b, degree));
        tally.same(degree, ascending, tuning::sorted_relative(&b, degree));
    }
}

fn searches(tally: &mut Tally) {
    let b = built(STEPS);
    let declared = [0, 0, -1, -1, 2, 2, 2, 2, 1, 1, 1, 1, 1, 4, 4, 4, 4, 3, 3, 6, 6];
    let ascending = [0, 0, 1, 1, 2, 2, 2, 2, 3, 3, 3, 3, 3, 4, 4, 4, 4, 5, 5, 6, 6];
    for k in 0..21 {
        let x = tune::pitch::Ratio::from_cents(k as f64 * 10.0).as_float();
        let (plain, sorted) = (ffi::find_by_relative_pitch(&b.columns, 4, x), ffi::find_by_relative_pitch_sorted(&b.columns, 4, x));
        tally.require((plain.1.0, sorted.1.0) == (declared[k], ascending[k]), k);
        tally.same(k, plain, tuning::find(&b, x));
        tally.same(k, sorted, tuning::find_sorted(&b, x));
    }
}

/// The pages' own file, read; and an export.
fn files(tally: &mut Tally) {
    let lines = [
        "!A comment", "  !An indented comment", "  Example scale  ", "7", "100.", "150.0 ignore text after first whitespace", "  ", "!175.0 ignore whole line", "200.0 .ignore additional dots", "  6/5  ",
        "5/4 (ignore parentheses)", "3/2 /ignore additional slashes", "2",
    ];
    let text = lines.join("\n");
    let mut columns = Columns::new([8; 7]);
    let (code, (count, start, end)) = ffi_scl::read_scl(text.as_bytes(), &mut columns);
    tally.require(code == Code::ACCEPTED && count == 7 && &text[start..end] == "Example scale", "the file");
    for (degree, said) in [(1, 100.0), (2, 150.0), (3, 200.0)] {
        tally.require(cents(ffi::relative_pitch_of(&columns, 7, degree).1, said), degree);
    }
    for (degree, said) in [(0, 1.0), (4, 1.2), (5, 1.25), (6, 1.5), (7, 2.0)] {
        tally.require(close(ffi::relative_pitch_of(&columns, 7, degree).1, said), degree);
    }
    tally.require(close(ffi::period(&columns, 7).1, 2.0), "period");
    // `1/13:3`: the thirteenth part of a 3/1
    let thirteenth = tune::pitch::Ratio::from_float(3.0).divided_into_equal_steps(13).as_float();
    exported(tally, &built(&[Push::Cents(100.0), Push::Ratio(thirteenth), Push::Fraction(4, 3), Push::Int(2)]).columns, 4, "Example scale", "100.000\n146.304\n4/3\n2\n");
}

fn exported(tally: &mut Tally, columns: &Columns, count: u16, description: &str, items: &str) {
    let mut out = vec![0; 1000];
    let (code, size) = ffi_scl::export_scl(description.as_bytes(), &mut columns.clone(), count, &mut out);
    let said = format!("{description}\n{count}\n{items}");
    tally.require(code == Code::ACCEPTED && out[..size] == *said.as_bytes(), said);
}

fn segments(tally: &mut Tally) {
    let listed = |fraction: &dyn Fn(u32) -> (u32, u32), harmonics: &[u32]| harmonics.iter().map(|&n| { let (n, d) = fraction(n); format!("{n}/{d}\n") }).collect::<String>();
    let near = [29, 30, 32, 34, 36, 38, 40, 43, 45, 48, 51, 54];
    let below = [51, 48, 45, 43, 40, 38, 36, 34, 32, 30, 29, 27];
    let cases = [
        (Segment { otonal: true, start: 9, size: 7, divisions: None }, listed(&|n| (n, 9), &[10, 11, 12, 13, 14, 15, 16])),
        (Segment { otonal: false, start: 9, size: 7, divisions: None }, listed(&|n| (16, n), &[15, 14, 13, 12, 11, 10, 9])),
        (Segment { otonal: true, start: 27, size: 27, divisions: Some(12) }, listed(&|n| (n, 27), &near)),
        (Segment { otonal: false, start: 27, size: 27, divisions: Some(12) }, listed(&|n| (54, n), &below)),
    ];
    for (segment, items) in cases {
        let mut columns = Columns::new([13; 7]);
        let old = columns.clone();
        let (code, count) = ffi_generators::create_harmonics_scale(segment, &mut columns);
        tally.same(segment, (code, (count, columns.clone())), generators::harmonics(&old, segment));
        exported(tally, &columns, count, "JI scale", &items);
    }
    let fifths = Temperament { generator: 1.5, positive: 5, negative: 1, period: 2.0 };
    let mut columns = Columns::new([8; 7]);
    let old = columns.clone();
    let (code, count) = ffi_generators::create_rank2_temperament_scale(fifths, &mut columns);
    tally.same(fifths, (code, (count, columns.clone())), generators::rank2(&old, fifths));
    exported(tally, &columns, count, "fifths", "203.910\n407.820\n498.045\n701.955\n905.865\n1109.775\n1200.000\n");
    // a tuning of eight harmonics, 100 Hz at key 43
    let eight = Segment { otonal: true, start: 8, size: 8, divisions: None };
    let mut columns = Columns::new([9; 7]);
    ffi_generators::create_harmonics_scale(eight, &mut columns);
    for (key, hz) in [(43, 100.0), (44, 112.5), (45, 125.0)] {
        tally.require(close(ffi::pitch_of_key(&columns, 8, Root { reference: 43, hz: 100.0, offset: 0 }, key).1, hz), key);
    }
}

fn mappings(tally: &mut Tally) {
    let m = Mapping { count: 4, start: 10, end: 100, reference: 62, hz: Float::of(293.6647679174076), offset: 0, octave: 17 };
    let map = [0, 4, UNMAPPED, 4];
    for (key, said) in [(10, Some(-221)), (60, None), (61, Some(-13)), (62, Some(0)), (63, Some(4)), (64, None), (65, Some(4)), (66, Some(17)), (67, Some(21)), (68, None), (99, Some(157))].into_iter().chain((0..10).chain(100..128).map(|key| (key, None))) {
        let ours = ffi_kbm::scale_degree_of(m, &map, key);
        tally.require((ours.0 == Code::ACCEPTED).then_some(ours.1) == said, key);
        tally.same(key, ours, kbm_use::degree(m, &map, key));
    }
    let linear = Mapping { count: 0, start: 0, end: 128, octave: 42, ..m };
    for (key, said) in [(61, -1), (62, 0), (63, 1)] {
        tally.require(ffi_kbm::scale_degree_of(linear, &[], key) == (Code::ACCEPTED, said), key);
    }
    imported(tally);
    // one step of 100 cents: the pitches of its mapped keys
    let b = built(&[Push::Cents(100.0)]);
    let m = Mapping { start: 0, end: 128, octave: 12, ..m };
    let kbm = rust_kbm::of(m, &map);
    for (key, said) in [(62, Some(293.664768)), (63, Some(369.994423)), (64, None), (65, Some(369.994423)), (66, Some(587.329536))] {
        let ours = ffi::maybe_pitch_of(&b.columns, 1, m, &map, key);
        tally.require(said.map_or(ours.0 == Code::refusal(17, 0), |hz| close(ours.1, hz)), key);
        tally.same(key, ours, tuning::maybe_pitch(&b, m, &map, &kbm, key));
    }
    let white = Mapping { count: 6, start: 10, end: 100, reference: 69, hz: Float::of(432.0), offset: -9, octave: 22 };
    let mut out = vec![0; 200];
    let (code, size) = ffi_kbm::export_kbm(white, &[0, UNMAPPED, 4, UNMAPPED, 8, 9], &mut out);
    tally.require(code == Code::ACCEPTED && out[..size] == *b"6\n10\n99\n60\n69\n432.000\n22\n0\nx\n4\nx\n8\n9\n", "22-EDO on white keys");
}

fn imported(tally: &mut Tally) {
    let lines = [
        "!A comment", "  !An indented comment", "6 <- Official map size. Can be larger than the number of provided mapping entries!", "10",
        "99 (Rust's Range type is right exclusive. The upper bound becomes 100.)", "62", "  69  ", "432.0 = healing frequency", "17", "! Start of the mapping table", "0", "4", "x means unmapped", "4",
        "X - uppercase is supported", "! End of the mapping table. 'x'es are added to match the official map size.",
    ];
    let mut map = [0; 6];
    let (code, m) = ffi_kbm::read_kbm(lines.join("\n").as_bytes(), &mut map);
    let said = Mapping { count: 6, start: 10, end: 100, reference: 69, hz: Float::of(432.0), offset: -7, octave: 17 };
    tally.require(code == Code::ACCEPTED && m == said, m);
    for (key, degree) in [(69, Some(0)), (70, Some(4)), (71, None), (72, Some(4)), (73, None), (74, None), (75, Some(17))] {
        let ours = ffi_kbm::scale_degree_of(m, &map, key);
        tally.require((ours.0 == Code::ACCEPTED).then_some(ours.1) == degree, key);
    }
}

pub fn compare(all: &mut Report) {
    all.function("examples of mod.rs", &[16, 17], |tally| {
        relative_pitches(tally);
        searches(tally);
        files(tally);
        segments(tally);
        mappings(tally);
    });
}

//! Scales that are computed: every column beside the Rust's items and list, and unchanged after a refusal.

use crate::ffi::OLD_U16;
use crate::ffi_generators::{self as ffi, Segment, Temperament};
use crate::ffi_scl::{Columns, Item};
use crate::inputs::{Random, drawn, f64_limits, fixed};
use crate::tally::{Code, Report, Said, Tally, Who};
use crate::tuning::asked;
use crate::{rules_scl, rust_scl};
use tune::pitch::Ratio;
use tune::powers;
use tune::scala::{self, Scl, SclBuildError, SegmentType};

/// The Rust's scale, or the rules' 18 where it cannot be built.
fn made(old: &Columns, count: u16, rust: impl FnOnce() -> Result<Scl, SclBuildError>) -> Said<(u16, Columns)> {
    let Some(Ok(scl)) = asked(rust) else {
        return Said::fault((OLD_U16, old.clone()));
    };
    let parts = rust_scl::parts(&scl);
    if parts.items.len() != usize::from(count) + 1 {
        return Said::fault((OLD_U16, old.clone()));
    }
    if rules_scl::beyond(&parts.items) {
        return Said::refused(Who::Rules, 18, 0, (OLD_U16, old.clone()));
    }
    let mut columns = old.clone();
    columns.put_items(0, &parts.items);
    columns.put_list(&parts.list);
    Said::gives(Who::Second, (count, columns))
}

/// "Generators know their item count and test 13, 10, 12 in that order, then give 18 where it arises (zero divisions do)."
pub fn harmonics(old: &Columns, s: Segment) -> Said<(u16, Columns)> {
    let refused = |number| Said::refused(Who::Rules, number, 0, (OLD_U16, old.clone()));
    let count = s.divisions.unwrap_or(s.size);
    if s.start == 0 {
        return refused(10);
    }
    if old.room() <= usize::from(count) {
        return refused(12);
    }
    if s.divisions == Some(0) {
        return refused(18);
    }
    let segment = if s.otonal { SegmentType::Otonal } else { SegmentType::Utonal };
    made(old, count, || scala::create_harmonics_scale(String::new(), segment, s.start, s.size, s.divisions))
}

fn one_segment(tally: &mut Tally, s: Segment, lengths: [usize; 7]) {
    let mut columns = Columns::new(lengths);
    let old = columns.clone();
    let (code, count) = ffi::create_harmonics_scale(s, &mut columns);
    tally.same((s, lengths), (code, (count, columns)), harmonics(&old, s));
}

fn segments(tally: &mut Tally) {
    let mut random = Random::new(54);
    for otonal in [true, false] {
        for start in fixed(0..=20) {
            for size in 0..=20 {
                for divisions in (0..=24).map(Some).chain([None]) {
                    let s = Segment { otonal, start, size, divisions };
                    let count = usize::from(divisions.unwrap_or(size));
                    let mut lengths = [count + 1 + usize::from(start % 3); 7];
                    lengths[random.next() as usize % 7] = count + 1;
                    one_segment(tally, s, lengths);
                    if start % 5 < 2 && size % 7 < 2 {
                        let mut lengths = [count + 2; 7];
                        lengths[random.next() as usize % 7] = count;
                        one_segment(tally, s, lengths);
                        one_segment(tally, s, [0; 7]);
                    }
                }
            }
        }
        for _ in drawn(2_000) {
            let (start, size, into) = (random.u32() as u16, random.u32() as u16, random.next() as u16 % 60);
            let divisions = (random.next() % 4 != 0).then_some(into);
            let s = Segment { otonal, start, size: if divisions.is_none() { size % 400 } else { size }, divisions };
            let mut lengths = [usize::from(divisions.unwrap_or(s.size)) + 1; 7];
            lengths[random.next() as usize % 7] -= usize::from(random.next() % 8 == 0);
            one_segment(tally, s, lengths);
        }
        for (start, size, divisions) in fixed([(65_535, 65_535, None), (1, 65_535, None), (65_535, 65_535, Some(65_535)), (1, 65_535, Some(65_535)), (65_535, 0, Some(1)), (1, 0, Some(2)), (1, 0, None)]) {
            one_segment(tally, Segment { otonal, start, size, divisions }, [65_536; 7]);
        }
    }
    // a candidate of 0: the ceiling wins
    let mut columns = Columns::new([2; 7]);
    let answer = ffi::create_harmonics_scale(Segment { otonal: false, start: 1, size: 14, divisions: Some(1) }, &mut columns);
    tally.require(answer == (Code::ACCEPTED, 1) && columns.item(1) == Some(Item::Fraction(15, Some(1))), "15/1");
}

/// "Rank-2 gives 10 if generator or period is outside 2^-32..2^32, or L(period) = 0."
pub fn rank2(old: &Columns, t: Temperament) -> Said<(u16, Columns)> {
    let refused = |who, number| Said::refused(who, number, 0, (OLD_U16, old.clone()));
    let count = u32::from(t.positive) + u32::from(t.negative) + 1;
    if count > 65_535 {
        return refused(Who::Rules, 13);
    }
    let usable = |x: f64| (2f64.powi(-32)..=2f64.powi(32)).contains(&x);
    if !usable(t.generator) || !usable(t.period) || powers::l(t.period) == Some(0.0) {
        return refused(Who::Rules, 10);
    }
    if old.room() <= count as usize {
        return refused(Who::Rules, 12);
    }
    made(old, count as u16, || scala::create_rank2_temperament_scale(String::new(), Ratio::from_float(t.generator), t.positive, t.negative, Ratio::from_float(t.period)))
}

fn one_temperament(tally: &mut Tally, t: Temperament, lengths: [usize; 7]) {
    let mut columns = Columns::new(lengths);
    let old = columns.clone();
    let (code, count) = ffi::create_rank2_temperament_scale(t, &mut columns);
    tally.same((t, lengths), (code, (count, columns)), rank2(&old, t));
}

fn temperaments(tally: &mut Tally) {
    let mut random = Random::new(56);
    let usual = [1.5, 4.0 / 3.0, 1.25, 0.5, 2.0, 3.0, 1.0, 1.0000001, 0.9999999, 1.4953487812212205, 2f64.powi(32), 2f64.powi(-32), 1.0000000000000002];
    for generator in fixed(usual) {
        for period in usual {
            for (positive, negative) in [(0, 0), (1, 0), (0, 1), (5, 1), (3, 3), (11, 0), (0, 7)] {
                let count = usize::from(positive + negative + 1);
                let mut lengths = [count + 1 + usize::from(positive % 2); 7];
                lengths[random.next() as usize % 7] = count + 1;
                one_temperament(tally, Temperament { generator, positive, negative, period }, lengths);
                let mut lengths = [count + 2; 7];
                lengths[random.next() as usize % 7] = count;
                one_temperament(tally, Temperament { generator, positive, negative, period }, lengths);
            }
        }
    }
    for k in drawn(6_000) {
        let (generator, period) = if k % 2 == 0 { (random.ratio(31), random.ratio(31)) } else { (1.0 + random.unit(), [2.0, 3.0, 0.5, 1.5][k % 4]) };
        let (positive, negative) = (random.next() as u16 % 20, random.next() as u16 % 20);
        let mut lengths = [usize::from(positive + negative) + 2; 7];
        lengths[random.next() as usize % 7] -= usize::from(random.next() % 8 == 0);
        one_temperament(tally, Temperament { generator, positive, negative, period }, lengths);
    }
    for x in f64_limits() {
        one_temperament(tally, Temperament { generator: x, positive: 2, negative: 1, period: 2.0 }, [5; 7]);
        one_temperament(tally, Temperament { generator: 1.5, positive: 2, negative: 1, period: x }, [5; 7]);
    }
    // 13 comes before 10, 10 before 12; as many items as a scale can have
    for (positive, negative, generator, room) in fixed([(65_535, 0, 1.5, 65_600), (32_768, 32_767, 0.0, 0), (65_535, 65_535, 1.5, 0), (65_534, 0, 0.0, 0), (65_534, 0, 1.5, 65_535), (65_534, 0, 1.5, 65_536), (30_000, 35_534, 1.25, 65_536)]) {
        one_temperament(tally, Temperament { generator, positive, negative, period: 2.0 }, [room; 7]);
    }
    // a period below 1 is sorted among the notes, so that the scale's period is its highest note
    let mut columns = Columns::new([5; 7]);
    let answer = ffi::create_rank2_temperament_scale(Temperament { generator: 1.5, positive: 2, negative: 1, period: 0.5 }, &mut columns);
    let cents: Vec<String> = columns.cents[1..].iter().map(|&bits| format!("{:.3}", f64::from_bits(bits))).collect();
    let mut small = Columns::new([3; 7]);
    let flat = ffi::create_rank2_temperament_scale(Temperament { generator: 1.0, positive: 1, negative: 0, period: 0.5 }, &mut small);
    tally.require(flat == (Code::refusal(18, 0), OLD_U16), "the highest note is 1.0");
    let alone = ffi::create_rank2_temperament_scale(Temperament { generator: 1.5, positive: 0, negative: 0, period: 3.0 }, &mut small);
    tally.require(alone == (Code::ACCEPTED, 1) && f64::from_bits(small.ratio[1]) == 2.9999999999999996, "ratios pass through cents");
    tally.require(answer == (Code::ACCEPTED, 4) && cents == ["-1200.000", "203.910", "498.045", "701.955"], cents);
}

pub fn compare(all: &mut Report) {
    all.function("create_rank2_temperament..", &[10, 12, 13, 18], temperaments);
    all.function("create_harmonics_scale", &[10, 12, 18], segments);
}

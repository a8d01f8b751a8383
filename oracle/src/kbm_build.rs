//! The builder: every push beside a push of the Rust's own, the whole table compared after each, and what both build.

use crate::ffi_kbm::{self, Mapping};
use crate::inputs::{Random, drawn, fixed};
use crate::kbm_read::PATTERN;
use crate::kbm_use::SAMPLE;
use crate::lent::Float;
use crate::rules::{self, UNMAPPED};
use crate::tally::{Report, Said, Tally, Who};
use crate::{ffi, rust_kbm};

/// A run: the places of the table, the root and range, the formal octave, and the pushes.
pub struct Run {
    pub room: usize,
    pub mapping: Mapping,
    pub octave: Option<i16>,
    pub pushes: Vec<Option<i16>>,
}

pub fn random_run(random: &mut Random, room: usize) -> Run {
    let pushes = (0..random.next() % 11).map(|_| (random.next() % 3 != 0).then(|| random.i32() as i16)).collect();
    let octave = (random.next() % 2 == 0).then(|| random.i32() as i16);
    Run { room, mapping: rust_kbm::random(random, 0).0, octave, pushes }
}

/// The table after the first pushes of a run, of which those that fit were taken: what a mapping of the Rust's has that is built
/// from the same pushes.
pub fn table(run: &Run, taken: usize) -> Vec<i32> {
    let built = rust_kbm::pushes(run.mapping, run.pushes[..taken].iter().copied()).formal_octave(1).build().unwrap();
    let (mapping, mut entries) = rust_kbm::parts(&built);
    assert_eq!(usize::from(mapping.count), taken);
    entries.resize(run.room, PATTERN);
    entries
}

/// What push number k of a run should answer, and leave behind: the Rust's list goes on without end, so that only 12 is a rule.
pub fn push(run: &Run, k: usize) -> Said<(usize, Vec<i32>)> {
    if k < run.room {
        Said::gives(Who::Rust, (k + 1, table(run, k + 1)))
    } else {
        Said::refused(Who::Rules, 12, 0, (usize::MAX, table(run, run.room)))
    }
}

/// The table of a run by its pushes alone, however many they are.
pub fn filled(run: &Run, taken: usize) -> Vec<i32> {
    let mut map: Vec<i32> = run.pushes[..taken].iter().map(|degree| degree.map_or(UNMAPPED, i32::from)).collect();
    map.resize(run.room, PATTERN);
    map
}

/// What the build of a run should answer: count and formal octave, and every number and entry is the Rust's. A backwards range is outside
/// its domain; there it may build the mapping or find it too large, but the octave must not be missing.
pub fn build(run: &Run) -> Said<(u16, i16)> {
    let (m, taken) = (run.mapping, run.pushes.len().min(run.room));
    let mut builder = rust_kbm::pushes(m, run.pushes[..taken].iter().copied());
    if let Some(octave) = run.octave {
        builder = builder.formal_octave(octave);
    }
    let rust = builder.build().map(|kbm| rust_kbm::parts(&kbm).0).map_err(|error| rust_kbm::build_number(error).0);
    let old = (ffi::OLD_U16, ffi_kbm::OLD_I16);
    match (rules::build(m, run.octave, &filled(run, taken), run.room, taken), rust) {
        (Ok((count, octave)), Ok(built)) if built == (Mapping { count, octave, ..m }) => Said::gives(Who::Rust, (count, octave)),
        (Err((25, 0)), Ok(_) | Err(13)) => Said::refused(Who::Rules, 25, 0, old),
        (Err((number, 0)), Err(same)) if number == same => Said::refused(Who::Rust, number, 0, old),
        _ => Said::fault(old),
    }
}

fn pushes(tally: &mut Tally) {
    let mut random = Random::new(21);
    for k in drawn(20_000) {
        let run = random_run(&mut random, k % 9);
        let mut map = vec![PATTERN; run.room];
        for (k, &degree) in run.pushes.iter().enumerate() {
            let (code, after) = ffi_kbm::push_key(&mut map, run.room, k.min(run.room), degree);
            tally.same((run.room, k, degree), (code, (after, map.clone())), push(&run, k));
        }
        // states that are not the table's
        for (wrong, count) in [(run.room + 1, 0), (run.room, run.room + 1), (run.room.wrapping_sub(1), 0)] {
            let before = map.clone();
            let (code, after) = ffi_kbm::push_key(&mut map, wrong, count, Some(1));
            tally.same((wrong, count), (code, (after, map.clone())), Said::refused(Who::Rules, 10, 0, (usize::MAX, before)));
        }
    }
}

fn builds(tally: &mut Tally) {
    let mut random = Random::new(22);
    for k in drawn(20_000) {
        let run = random_run(&mut random, k % 9);
        let taken = run.pushes.len().min(run.room);
        let map = table(&run, taken);
        let ours = ffi_kbm::build_kbm(&map, run.room, taken, run.mapping, run.octave);
        tally.same((run.mapping, run.room, taken, run.octave), ours, build(&run));
    }
    // over 65,535 entries, beside the Rust
    let large = vec![0; 65_537];
    for (count, octave) in fixed([(65_535, Some(7)), (65_536, None), (65_536, Some(1)), (65_537, Some(1))]) {
        let run = Run { room: large.len(), mapping: SAMPLE, octave, pushes: vec![Some(0); count] };
        tally.same((count, octave), ffi_kbm::build_kbm(&large, large.len(), count, SAMPLE, octave), build(&run));
    }
    // a state, an entry or a pitch that cannot be used
    let high = Mapping { hz: Float::of(2f64.powi(20).next_up()), ..SAMPLE };
    for (map, room, count, m) in [(vec![0], 2, 1, SAMPLE), (vec![0], 1, 2, SAMPLE), (vec![40_000], 1, 1, SAMPLE), (vec![UNMAPPED + 1], 1, 1, SAMPLE), (vec![0], 1, 1, high)] {
        tally.same((room, count), ffi_kbm::build_kbm(&map, room, count, m, Some(1)), Said::refused(Who::Rules, 10, 0, (ffi::OLD_U16, ffi_kbm::OLD_I16)));
    }
}

/// A root: the Rust takes every pitch.
pub fn root(reference: i32, hz: f64, offset: i32) -> Said<()> {
    let kept = rust_kbm::parts(&rust_kbm::of(Mapping { reference, hz: Float::of(hz), offset, ..SAMPLE }, &[])).0;
    if (kept.reference, kept.hz, kept.offset) != (reference, Float::of(hz), offset) {
        return Said::fault(());
    }
    if (2f64.powi(-10)..=2f64.powi(20)).contains(&hz) { Said::gives(Who::Rust, ()) } else { Said::refused(Who::Rules, 10, 0, ()) }
}

pub fn compare(all: &mut Report) {
    all.function("KbmRoot", &[10], |tally| {
        let ends = [2f64.powi(20), 2f64.powi(-10)].into_iter().flat_map(|end| [end.next_down(), end, end.next_up()]);
        let mut random = Random::new(23);
        for hz in ends.chain([440.0, 0.0, -0.0, f64::NAN, -440.0, f64::INFINITY]).chain(drawn(1000).map(|_| random.ratio(24))) {
            tally.same(hz, (ffi_kbm::kbm_root(60, hz, 2), ()), root(60, hz, 2));
        }
    });
    all.function("push_(un)mapped_key", &[10, 12], pushes);
    all.function("KbmBuilder::build", &[10, 13, 15, 25], builds);
}

//! Times of pitches and searches beside the Rust, in the same way as `bench`.

use crate::bench::{line, shortest, untouched};
use crate::ffi_kbm::Mapping;
use crate::ffi_scl::Push;
use crate::ffi_tuning as ffi;
use crate::inputs::Random;
use crate::lent::Float;
use crate::rules_tuning::Root;
use crate::rust_kbm;
use crate::tuning::{Built, kbm_root};
use std::hint::black_box;
use tune::key::PianoKey;
use tune::pitch::{Pitch, Ratio};
use tune::tuning::{KeyboardMapping, Tuning};

fn equal(items: usize) -> Built {
    let pushes: Vec<Push> = (1..=items).map(|k| if k == items { Push::Int(2) } else { Push::Cents(1200.0 * k as f64 / items as f64) }).collect();
    Built::new([items + 1; 7], &pushes).unwrap()
}

/// The pitches of 128 keys, one by one and as a run.
fn keys(items: usize) {
    let b = equal(items);
    let m = Mapping { count: 0, start: 0, end: 128, reference: 69, hz: Float::of(440.0), offset: 0, octave: 0 };
    let kbm = rust_kbm::of(m, &[]);
    let theirs = || (0..128).for_each(|key| { black_box(KeyboardMapping::<PianoKey>::maybe_pitch_of(&(&b.scl, &kbm), PianoKey::from_midi_number(key))); });
    let times = shortest(&mut [
        &mut || (0..128).for_each(|key| { black_box(ffi::maybe_pitch_of(&b.columns, b.count, m, &[], key)); }),
        &mut || theirs(),
        &mut || untouched(theirs),
    ]);
    line(&format!("128 pitches of {items} items, one by one"), 128, &times, &["the Rust, E and L", "the Rust untouched"]);
    let (mut pitches, mut numbers) = ([0u64; 128], [0u32; 128]);
    let times = shortest(&mut [
        &mut || { black_box(ffi::pitches_of(&b.columns, b.count, m, &[], 0, 128, &mut pitches, &mut numbers)); },
        &mut || theirs(),
        &mut || untouched(theirs),
    ]);
    line(&format!("128 pitches of {items} items, as a run"), 128, &times, &["the Rust, E and L", "the Rust untouched"]);
}

/// Searches by ratio and by pitch; beside them the relative pitch of a degree, which goes over the same tables but searches nothing.
fn searches(items: usize) {
    let b = equal(items);
    let root = Root { reference: 69, hz: 440.0, offset: 0 };
    let mut random = Random::new(210);
    let ratios: Vec<f64> = (0..256).map(|_| random.ratio(6)).collect();
    let theirs = || ratios.iter().for_each(|&x| { black_box(b.scl.find_by_relative_pitch(Ratio::from_float(x))); });
    let times = shortest(&mut [
        &mut || ratios.iter().for_each(|&x| { black_box(ffi::find_by_relative_pitch(&b.columns, b.count, x)); }),
        &mut || theirs(),
        &mut || untouched(theirs),
    ]);
    line(&format!("search by ratio in {items} items"), ratios.len(), &times, &["the Rust, E and L", "the Rust untouched"]);
    let theirs = || ratios.iter().for_each(|&x| { black_box(Tuning::<PianoKey>::find_by_pitch(&(&b.scl, kbm_root(root)), Pitch::from_hz(440.0 * x))); });
    let times = shortest(&mut [
        &mut || ratios.iter().for_each(|&x| { black_box(ffi::find_key_by_pitch(&b.columns, b.count, root, 440.0 * x)); }),
        &mut || theirs(),
        &mut || untouched(theirs),
    ]);
    line(&format!("search of a key in {items} items"), ratios.len(), &times, &["the Rust, E and L", "the Rust untouched"]);
    let times = shortest(&mut [&mut || ratios.iter().for_each(|&x| { black_box(ffi::sorted_relative_pitch_of(&b.columns, b.count, x as i32)); })]);
    line(&format!("sorted_relative_pitch_of, {items} items"), ratios.len(), &times, &[]);
}

pub fn tunings() {
    for items in [12, 1_000] {
        keys(items);
        searches(items);
    }
}

//! The Rust with its own exp2 and log2, beside the same calls on E and L: how many answers differ, and how far. Nothing is left out
//! but what E, L or the rules refuse; the inputs are those of the comparison, but of the limits of nearest_fraction only eight.

use crate::ffi_tuning::Found;
use crate::inputs::Random;
use crate::pitch::{self, ONES, One, TWOS, Two, ratio};
use crate::tally::{Code, Said, caught};
use crate::tuning::{self, degree_parts, key_parts};
use crate::{lent::Float, powers, rules_scl, rust_scl, scl_build};
use tune::key::PianoKey;
use tune::pitch::Pitch;
use tune::powers::use_untouched;
use tune::tuning::{Scale, Tuning};

/// How far answers are apart: the most in absolute terms, relative to ours, and in units of the last place.
struct Apart {
    cases: u64,
    differ: u64,
    absolute: f64,
    relative: f64,
    places: u64,
    /// Where one of the two is infinite, no number or zero and the other is not.
    unlike: u64,
}

impl Apart {
    fn new() -> Apart {
        Apart { cases: 0, differ: 0, absolute: 0.0, relative: 0.0, places: 0, unlike: 0 }
    }

    fn add(&mut self, ours: f64, theirs: f64) {
        self.cases += 1;
        if ours.to_bits() == theirs.to_bits() || ours.is_nan() && theirs.is_nan() {
            return;
        }
        self.differ += 1;
        let plain = |x: f64| x.is_finite() && x != 0.0;
        if !plain(ours) || !plain(theirs) || (ours < 0.0) != (theirs < 0.0) {
            self.unlike += 1;
        }
        if ours.is_finite() && theirs.is_finite() {
            let absolute = (ours - theirs).abs();
            self.absolute = self.absolute.max(absolute);
            if ours != 0.0 {
                self.relative = self.relative.max((absolute / ours).abs());
            }
            if (ours < 0.0) == (theirs < 0.0) {
                self.places = self.places.max(ours.to_bits().abs_diff(theirs.to_bits()));
            }
        }
    }

    fn print(&self, name: &str) {
        println!("{name:<26} {:>9} {:>9} {:>12.3e} {:>12.3e} {:>20} {:>6}", self.cases, self.differ, self.absolute, self.relative, self.places, self.unlike);
    }
}

fn untouched<T>(call: impl FnOnce() -> T) -> T {
    use_untouched(true);
    let answer = call();
    use_untouched(false);
    answer
}

fn bits(x: Float) -> f64 {
    if let Float::Is(bits) = x { f64::from_bits(bits) } else { f64::NAN }
}

fn nearest() {
    let (mut apart, mut cases, mut others) = (Apart::new(), 0, 0);
    for x in pitch::approached().filter(|x| (2f64.powi(-64)..=2f64.powi(64)).contains(x)) {
        for limit in [0, 1, 3, 5, 9, 15, 99, 65_535] {
            let ours = ratio(x).nearest_fraction(limit);
            let theirs = untouched(|| ratio(x).nearest_fraction(limit));
            cases += 1;
            if (ours.numer, ours.denom, ours.num_octaves) == (theirs.numer, theirs.denom, theirs.num_octaves) {
                apart.add(ours.deviation.as_float(), theirs.deviation.as_float());
            } else {
                others += 1;
            }
        }
    }
    apart.print("nearest_fraction");
    println!("nearest_fraction: another fraction or other octaves in {others} of {cases}; the line above is the deviations of the rest");
}

/// The sorted lists of the comparison's scales: entry for entry where places and wraparounds are the same, else the whole list counts as
/// another one. Left out is what is 18.
fn scales() {
    let (mut apart, mut cases, mut others) = (Apart::new(), 0, 0);
    for (_, pushes) in scl_build::scales() {
        let Some(Ok(ours)) = rust_scl::build(&pushes) else { continue };
        if rules_scl::beyond(&ours.items) {
            continue;
        }
        let Some(Ok(theirs)) = untouched(|| rust_scl::build(&pushes)) else { continue };
        cases += 1;
        let places = |list: &[crate::ffi_scl::Entry]| list.iter().map(|&(place, _, wraps)| (place, wraps)).collect::<Vec<_>>();
        if places(&ours.list) == places(&theirs.list) {
            ours.list.iter().zip(&theirs.list).for_each(|(ours, theirs)| apart.add(f64::from_bits(ours.1), f64::from_bits(theirs.1)));
        } else {
            others += 1;
        }
    }
    apart.print("SclBuilder::build, ratios");
    println!("SclBuilder::build: other places or wraparounds in {others} of {cases} lists; the line above is the ratios of the rest");
}

/// What searches answer: how far the deviations are apart where the degree or key is the same, and how often it is another.
struct Searched {
    apart: Apart,
    cases: u64,
    others: u64,
}

impl Searched {
    fn add(&mut self, ours: Said<Found>, theirs: impl FnOnce() -> (i32, f64)) {
        if ours.code != Code::ACCEPTED {
            return;
        }
        self.cases += 1;
        match untouched(|| caught(theirs)) {
            Some((number, deviation)) if number == ours.value.0 => self.apart.add(bits(ours.value.1), deviation),
            _ => self.others += 1,
        }
    }

    fn print(&self, name: &str, number: &str) {
        self.apart.print(name);
        println!("{name}: another {number} in {} of {}; the line above is the deviations of the rest", self.others, self.cases);
    }
}

/// Pitches and searches in the comparison's scales, each scale built on its own side. Left out is what the rules refuse.
fn tunings() {
    let mut pitches = [(); 4].map(|()| Apart::new());
    let mut searches = [(); 5].map(|()| Searched { apart: Apart::new(), cases: 0, others: 0 });
    let mut random = Random::new(57);
    for b in tuning::scales().step_by(4) {
        let scl = &untouched(|| rust_scl::pushes(&b.pushes).build_with_description("").unwrap());
        for _ in 0..8 {
            let (degree, x, root) = (random.next() as i32 % 100 - 50, random.ratio(20), tuning::random_root(&mut random));
            let (hz, tuned) = (root.hz * x, (scl, tuning::kbm_root(root)));
            let mut pitch = |k: usize, ours: Said<Float>, theirs: &dyn Fn() -> f64| {
                if ours.code == Code::ACCEPTED {
                    pitches[k].add(bits(ours.value), untouched(theirs));
                }
            };
            pitch(0, tuning::relative(&b, degree), &|| scl.relative_pitch_of(degree).as_float());
            pitch(1, tuning::sorted_relative(&b, degree), &|| scl.sorted_relative_pitch_of(degree).as_float());
            pitch(2, tuning::pitch(&b, root, degree), &|| Tuning::<i32>::pitch_of(&tuned, degree).as_hz());
            pitch(3, tuning::sorted_pitch(&b, root, degree), &|| tuned.sorted_pitch_of(degree).as_hz());
            searches[0].add(tuning::find(&b, x), || degree_parts(scl.find_by_relative_pitch(ratio(x))));
            searches[1].add(tuning::find_sorted(&b, x), || degree_parts(scl.find_by_relative_pitch_sorted(ratio(x))));
            searches[2].add(tuning::find_pitch(&b, root, hz), || degree_parts(Tuning::<i32>::find_by_pitch(&tuned, Pitch::from_hz(hz))));
            searches[3].add(tuning::find_pitch_sorted(&b, root, hz), || degree_parts(tuned.find_by_pitch_sorted(Pitch::from_hz(hz))));
            searches[4].add(tuning::find_key(&b, root, hz), || key_parts(Tuning::<PianoKey>::find_by_pitch(&tuned, Pitch::from_hz(hz))));
        }
    }
    for (apart, name) in pitches.iter().zip(["relative_pitch_of", "sorted_relative_pitch_of", "pitch_of", "sorted_pitch_of"]) {
        apart.print(name);
    }
    let names = ["find_by_relative_pitch", "..relative_pitch_sorted", "find_by_pitch", "find_by_pitch_sorted", "find_by_pitch, key"];
    for (k, (searched, name)) in searches.iter().zip(names).enumerate() {
        searched.print(name, if k == 4 { "key" } else { "degree" });
    }
}

pub fn report() {
    println!("the Rust's own exp2 and log2 beside E and L:");
    println!("{:<26} {:>9} {:>9} {:>12} {:>12} {:>20} {:>6}", "function", "cases", "differ", "most apart", "relative", "last places", "unlike");
    let mut apart = Apart::new();
    powers::exponents().for_each(|x| tune::powers::e(x).into_iter().for_each(|y| apart.add(y, x.exp2())));
    apart.print("exp2");
    let mut apart = Apart::new();
    powers::values().for_each(|x| tune::powers::l(x).into_iter().for_each(|y| apart.add(y, x.log2())));
    apart.print("log2");
    for One(name, _, call, _) in &ONES[2..8] {
        let mut apart = Apart::new();
        for x in pitch::singles() {
            let ours = call(x);
            if ours.code == Code::ACCEPTED {
                apart.add(bits(ours.value), bits(untouched(|| call(x)).value));
            }
        }
        apart.print(name);
    }
    for Two(name, _, call, _) in &TWOS[5..] {
        let mut apart = Apart::new();
        for (x, y) in pitch::pairs() {
            let ours = call(x, y);
            if ours.code == Code::ACCEPTED {
                apart.add(bits(ours.value), bits(untouched(|| call(x, y)).value));
            }
        }
        apart.print(name);
    }
    nearest();
    scales();
    tunings();
}

//! For `oracle judged`: wrong runs of keys that are counted from the middle key. The listed runs must tell each from the right one.

use crate::ffi::OLD_U32;
use crate::middle::{Places, places, run};
use crate::middle_traps::{RUNS, Run};
use crate::tally::Code;
use crate::tuning::Built;

/// What a run answers and leaves: its number, and every place.
type Left = (u64, Places);

/// A run that is right, what was there before, and how many keys it has.
struct Made {
    old: Places,
    right: Left,
    keys: usize,
    run: &'static Run,
}

impl Made {
    fn of(run: &'static Run) -> Made {
        let (b, old) = (Built::lent(run.items), places(run.places.0, run.places.1));
        let said = self::run(&b, run.mapping, run.map, (run.first, run.keys), &old);
        let keys = if said.code == Code::ACCEPTED { run.keys as usize } else { 0 };
        Made { right: (said.code.number(), said.value), old, keys, run }
    }

    /// Another number of the call's, and nothing stored.
    fn refused(&self, number: u64) -> Left {
        (number, self.old.clone())
    }

    /// The right run with its places changed.
    fn changed(&self, change: impl Fn(&mut Places, usize)) -> Left {
        let mut left = self.right.clone();
        (0..self.keys).for_each(|k| change(&mut left.1, k));
        left
    }

    /// The number beside one key put for another.
    fn renumbered(&self, number: u32, other: u32) -> Left {
        self.changed(|(_, numbers), k| if numbers[k] == number { numbers[k] = other })
    }

    /// Another pitch beside every key that is refused.
    fn put(&self, pitch: fn(&[u64], usize) -> u64) -> Left {
        self.changed(|(pitches, numbers), k| if numbers[k] != 0 { pitches[k] = pitch(pitches, k) })
    }

    /// Another run, but where it is right.
    fn unless(&self, is_right: bool, other: fn(&Made) -> Left) -> Left {
        if is_right { self.right.clone() } else { other(self) }
    }

    fn numbers(&self) -> &[u32] {
        &self.right.1.1[..self.keys]
    }

    /// Whether there is no such key.
    fn is_past(&self, k: usize) -> bool {
        i64::from(self.run.first) + k as i64 > i64::from(i32::MAX)
    }

    /// Whether there are places enough for pitches, and for numbers.
    fn fits(&self) -> (bool, bool) {
        let keys = self.run.keys as usize;
        (keys <= self.run.places.0, keys <= self.run.places.1)
    }
}

type Wrong = (&'static str, fn(&Made) -> Left);

const WRONG: [Wrong; 16] = [
    ("a refused key's pitch is 0.0", |made| made.put(|_, _| 0)),
    ("a refused key's pitch is NaN", |made| made.put(|_, _| f64::NAN.to_bits())),
    ("a refused key's pitch is that of the key before", |made| made.put(|pitches, k| pitches[k.saturating_sub(1)])),
    ("no number beside a pitch", |made| made.renumbered(0, OLD_U32)),
    ("17 for 19", |made| made.renumbered(19, 17)),
    ("19 for 17", |made| made.unless(!made.numbers().contains(&19), |made| made.renumbered(17, 19))),
    ("19 for 16", |made| made.unless(!made.numbers().contains(&19), |made| made.renumbered(16, 19))),
    ("the call says 19", |made| made.unless(!made.numbers().contains(&19), |made| made.refused(19))),
    ("the call says the first refusal", |made| {
        let first = made.numbers().iter().find(|number| **number != 0);
        first.map_or(made.right.clone(), |&number| made.refused(number.into()))
    }),
    ("it ends at the first refusal", |made| {
        let end = made.numbers().iter().position(|&number| number != 0).unwrap_or(made.keys);
        made.changed(|(pitches, numbers), k| if k > end { (pitches[k], numbers[k]) = (made.old.0[k], made.old.1[k]) })
    }),
    ("16 beside no key", |made| made.changed(|(_, numbers), k| if made.is_past(k) { numbers[k] = 16 })),
    ("nothing beside no key", |made| made.changed(|(_, numbers), k| if made.is_past(k) { numbers[k] = made.old.1[k] })),
    ("11 for a run past the last key", |made| made.unless(!(0..made.keys).any(|k| made.is_past(k)), |made| made.refused(11))),
    ("the places of numbers are not counted", |made| made.unless(made.right.0 != 12 || !made.fits().0, |made| made.refused(0))),
    ("the places of pitches are not counted", |made| made.unless(made.right.0 != 12 || !made.fits().1, |made| made.refused(0))),
    ("12 before 10", |made| made.unless(made.fits() == (true, true), |made| made.refused(12))),
];

/// What would pass unseen.
pub fn unseen() -> Vec<String> {
    let made: Vec<Made> = RUNS.iter().map(Made::of).collect();
    let wrong = WRONG.iter().filter(|(_, way)| made.iter().all(|made| way(made) == made.right));
    wrong.map(|(what, _)| format!("a run from the middle key: {what}")).collect()
}

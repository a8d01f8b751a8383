//! Builds of mappings whose start and end stand in every order: by the library, by the rules, and by how each was made.

use crate::backwards_cases::{BUILD_TRAPS, BUILDS, Build};
use crate::ffi;
use crate::ffi_kbm::{self, Mapping, OLD_I16};
use crate::inputs::{Random, drawn, fixed, with_fixed};
use crate::kbm_build::{self, Run};
use crate::kbm_read::PATTERN;
use crate::kbm_use::SAMPLE;
use crate::lent::Float;
use crate::rules::{self, Refused, UNMAPPED};
use crate::tally::{Code, Said, Tally, Who};

/// So many builds are listed, and at least so many others are backwards.
const LISTED: usize = 18 + 12;
const LEAST: usize = 1_800;

/// A state and its table, as a build is given them.
pub struct State {
    pub map: Vec<i32>,
    pub room: usize,
    pub count: usize,
    pub mapping: Mapping,
    pub octave: Option<i16>,
}

impl State {
    /// That of a case of the list.
    pub fn listed((start, end, octave, (entries, times), room, _): Build) -> State {
        let mut map = entries.repeat(times);
        let count = map.len();
        map.resize(room, PATTERN);
        State { map, room, count, mapping: Mapping { start, end, ..SAMPLE }, octave }
    }

    fn ruled(&self) -> Result<(u16, i16), Refused> {
        rules::build(self.mapping, self.octave, &self.map, self.room, self.count)
    }

    /// The run that leaves this state, where it is usable.
    pub fn run(&self) -> Run {
        let pushes = self.map[..self.count].iter().map(|&entry| (entry != UNMAPPED).then_some(entry as i16)).collect();
        Run { room: self.room, mapping: self.mapping, octave: self.octave, pushes }
    }

    fn said(&self) -> Said<(u16, i16)> {
        match self.ruled() {
            Err((10, 0)) => Said::refused(Who::Rules, 10, 0, (ffi::OLD_U16, OLD_I16)),
            _ => kbm_build::build(&self.run()),
        }
    }
}

/// Start and end, and whether that is backwards.
const RANGES: [(i32, i32, bool); 16] = [
    (0, 128, false),
    (60, 61, false),
    (60, 60, true),
    (61, 60, true),
    (128, 0, true),
    (0, 0, true),
    (0, -1, true),
    (-1, 0, false),
    (i32::MIN, i32::MIN + 1, false),
    (i32::MIN, i32::MIN, true),
    (i32::MIN + 1, i32::MIN, true),
    (0, i32::MIN, true),
    (i32::MAX - 1, i32::MAX, false),
    (i32::MAX, i32::MAX, true),
    (i32::MAX, i32::MIN, true),
    (i32::MIN, i32::MAX, false),
];

/// What makes a state, a table or a root unusable, and whether it does in this state.
const SPOILS: [fn(&mut State) -> bool; 8] = [
    |_| false,
    |s| { s.room += 1; true },
    |s| { s.room -= 1; true },
    |s| { s.count = s.room + 1; true },
    |s| { s.map[0] = 40_000; s.count > 0 },
    |s| { s.map[s.count] = UNMAPPED + 1; false },
    |s| { s.mapping.hz = Float::of(2f64.powi(20).next_up()); true },
    |s| { s.mapping.hz = Float::of(f64::NAN); true },
];

/// What a build says, the first of these for which there is a reason.
pub const NUMBERS: [u64; 4] = [10, 15, 25, 13];

/// A state, and whether there is a reason for each of these numbers, by how it was made.
pub struct Tried {
    pub state: State,
    pub reasons: [bool; 4],
}

impl Tried {
    fn new(count: usize, (start, end, backwards): (i32, i32, bool), octave: Option<i16>, spoil: fn(&mut State) -> bool) -> Tried {
        let mapping = Mapping { start, end, ..SAMPLE };
        let mut state = State { map: vec![7; count + 1], room: count + 1, count, mapping, octave };
        let unusable = spoil(&mut state);
        let reasons = [unusable, octave.is_none() && state.count > 0, backwards, state.count > 65_535];
        Tried { state, reasons }
    }

    /// The number of the refusal, if there is one.
    pub fn number(&self, order: [usize; 4]) -> Option<u64> {
        order.into_iter().find(|&k| self.reasons[k]).map(|k| NUMBERS[k])
    }

    fn known(&self) -> Result<(u16, i16), u64> {
        self.number([0, 1, 2, 3]).map_or_else(|| Ok((self.state.count as u16, self.state.octave.unwrap_or(0))), Err)
    }
}

/// Every range with few and with too many entries, with and without an octave, usable and not.
pub fn builds() -> impl Iterator<Item = Tried> {
    let counts = fixed([0, 1, 2, 65_535, 65_536]).flat_map(|count| RANGES.map(|range| (count, range)));
    counts.flat_map(|(count, range)| {
        [None, Some(7)].into_iter().flat_map(move |octave| SPOILS.map(|spoil| Tried::new(count, range, octave, spoil)))
    })
}

/// A run whose start and end are close to each other.
fn random_tried(random: &mut Random, room: usize) -> Tried {
    let run = kbm_build::random_run(random, room);
    let (start, taken) = (run.mapping.start, run.pushes.len().min(room));
    let end = start.saturating_add((random.next() % 5) as i32 - 2);
    let mapping = Mapping { end, ..run.mapping };
    let reasons = [false, run.octave.is_none() && taken > 0, end <= start, false];
    Tried { state: State { map: kbm_build::filled(&run, taken), room, count: taken, mapping, octave: run.octave }, reasons }
}

/// One build, whose answer is known: of the library and of the rules. No entry moves.
fn one_build(tally: &mut Tally, state: &State, known: Result<(u16, i16), u64>) {
    let State { map, room, count, mapping: m, octave } = state;
    let (input, before) = ((m.start, m.end, room, count, octave), map.clone());
    let ours = ffi_kbm::build_kbm(map, *room, *count, *m, *octave);
    tally.same(input, ours, state.said());
    tally.require(ours.0 != Code::ACCEPTED || m.start < m.end, (input, "no key is in its range"));
    tally.require(state.ruled().map_err(|(number, _)| number) == known, (input, "by the rules"));
    tally.require(*map == before, (input, "an entry moved"));
}

pub fn built(tally: &mut Tally) {
    let (mut met, mut backwards, mut random) = (0, 0, Random::new(36));
    for case in fixed(BUILDS.into_iter().chain(BUILD_TRAPS)) {
        one_build(tally, &State::listed(case), case.5);
        met += 1;
    }
    for tried in builds().chain(drawn(5_000).map(|k| random_tried(&mut random, k % 9))) {
        backwards += usize::from(tried.known() == Err(25));
        one_build(tally, &tried.state, tried.known());
    }
    tally.require(!with_fixed() || (met == LISTED && backwards >= LEAST), ("too few builds", met, backwards));
}

//! Counts of what was compared, a line for each function.

use crate::calls::{self, Sides};
use crate::inputs;
use std::cell::Cell;
use std::collections::{BTreeMap, BTreeSet};
use std::fmt::Debug;
use std::process::ExitCode;

/// An answer of the interface: 0, or detail * 256 + number.
#[derive(Clone, Copy, Debug, Eq, PartialEq)]
pub struct Code(pub u64);

impl Code {
    pub const ACCEPTED: Code = Code(0);
    /// What no call answers: the Rust did what exact numbers say that it does not.
    const FAULT: Code = Code(u64::MAX);

    pub fn refusal(number: u64, detail: u64) -> Code {
        Code(detail * 256 + number)
    }

    pub fn number(self) -> u64 {
        self.0 & 0xff
    }

    pub fn detail(self) -> u64 {
        self.0 >> 8
    }
}

/// Who says what a call should answer; the later, the less of it is the Rust's.
#[derive(Clone, Copy, Debug, Eq, Ord, PartialEq, PartialOrd)]
pub enum Who {
    /// The Rust as it is.
    Rust,
    /// The second E and L, and the Rust's own code on top of them.
    Second,
    /// Document 01's rules, where the Rust was asked and panicked, as it must: exact numbers say that it overflows or divides by 0, or a row of
    /// docs/DIFFERENCES.md says it.
    Panics,
    /// Document 01's rules, where the Rust has no such answer.
    Rules,
}

impl Who {
    /// Whose an answer is that is made of several: the rules' where one of them is, and where there is none.
    pub fn of_all(parts: Vec<Who>) -> Who {
        parts.into_iter().max().unwrap_or(Who::Rules)
    }
}

/// What a call should answer, and leave behind.
#[derive(Clone, Debug)]
pub struct Said<T> {
    pub who: Who,
    pub code: Code,
    pub value: T,
}

impl<T> Said<T> {
    pub fn gives(who: Who, value: T) -> Said<T> {
        Said { who, code: Code::ACCEPTED, value }
    }

    pub fn refused(who: Who, number: u64, detail: u64, value: T) -> Said<T> {
        Said { who, code: Code::refusal(number, detail), value }
    }

    /// The Rust answers, or panics exactly where `overflows` says so, in exact numbers: there it is this refusal, by the rules.
    pub fn unless_panic(answer: Option<T>, overflows: bool, number: u64, old: T) -> Said<T> {
        match (answer, overflows) {
            (Some(value), false) => Said::gives(Who::Rust, value),
            (None, true) => Said::refused(Who::Panics, number, 0, old),
            (Some(value), true) => Said::fault(value),
            (None, false) => Said::fault(old),
        }
    }

    /// What the Rust should not have done: no answer of ours is the same.
    pub fn fault(value: T) -> Said<T> {
        Said { who: Who::Rust, code: Code::FAULT, value }
    }

    pub fn map<U>(self, part: impl FnOnce(T) -> U) -> Said<U> {
        Said { who: self.who, code: self.code, value: part(self.value) }
    }
}

/// The lines of the functions that were compared. A round that is one of many says nothing but its differences; the lines of all
/// are added and shown at the end.
pub struct Report {
    shown: bool,
    lines: Vec<Line>,
    calls: BTreeMap<&'static str, Sides>,
}

impl Report {
    pub fn shown() -> Report {
        println!("random inputs are SplitMix64's, from a seed for each function that its source names");
        heading();
        Report { shown: true, lines: Vec::new(), calls: BTreeMap::new() }
    }

    pub fn silent() -> Report {
        Report { shown: false, lines: Vec::new(), calls: BTreeMap::new() }
    }

    /// Compares one function: `cases` calls the tally once for each input. The refusals met must be exactly `numbers`, and the Rust or
    /// the second E and L must have answered some: panics alone are not enough.
    pub fn function(&mut self, name: &str, numbers: &[u64], cases: impl FnOnce(&mut Tally)) {
        self.tried(name, numbers, false, cases);
    }

    /// Compares what the Rust does not have, a range of document 01's or tables that no build leaves: every case is by the rules, and there
    /// is one.
    pub fn ruled(&mut self, name: &str, numbers: &[u64], cases: impl FnOnce(&mut Tally)) {
        self.tried(name, numbers, true, cases);
    }

    fn tried(&mut self, name: &str, numbers: &[u64], ruled: bool, cases: impl FnOnce(&mut Tally)) {
        let mut tally = Tally { name: name.to_string(), by: [0; 4], differences: 0, uncalled: 0, met: BTreeMap::new(), unlike: BTreeSet::new() };
        calls::forget();
        cases(&mut tally);
        calls::forget();
        let line = Line { tally, numbers: numbers.iter().copied().collect(), ruled };
        if self.shown {
            line.print();
        }
        self.lines.push(line);
    }

    /// Takes over what this thread has compared, call by call.
    pub fn count_calls(&mut self) {
        calls::taken().into_iter().for_each(|(name, sides)| calls::add(&mut self.calls, name, sides));
    }

    /// Adds the lines of another round, function by function.
    pub fn add(&mut self, other: Report) {
        other.calls.into_iter().for_each(|(name, sides)| calls::add(&mut self.calls, name, sides));
        for line in other.lines {
            match self.lines.iter_mut().find(|known| known.tally.name == line.tally.name) {
                Some(known) => known.tally.add(&line.tally),
                None => self.lines.push(line),
            }
        }
    }

    pub fn differences(&self) -> u64 {
        self.lines.iter().map(|line| line.tally.differences).sum()
    }

    /// Cases: the Rust's own answers, those on the second E and L, those in which the Rust panics, those by the rules alone.
    pub fn cases(&self) -> [u64; 4] {
        [0, 1, 2, 3].map(|who| self.lines.iter().map(|line| line.tally.by[who]).sum())
    }

    /// Each function with the refusals that the Rust does not give there: by the rules alone, or where it panics.
    pub fn unlike(&self) -> impl Iterator<Item = (&str, u64)> {
        self.lines.iter().flat_map(|line| line.tally.unlike.iter().map(|&number| (line.tally.name.as_str(), number)))
    }

    /// The lines of all rounds.
    pub fn print(&self) {
        heading();
        self.lines.iter().for_each(Line::print);
    }

    /// What was not compared.
    pub fn lacking(&self) -> Vec<String> {
        let mut lacking: Vec<String> = self.lines.iter().flat_map(Line::faults).collect();
        lacking.extend(calls::lacking(&self.calls));
        let gone = BESIDE.iter().filter(|name| !self.lines.iter().any(|line| line.tally.name == **name));
        lacking.extend(gone.map(|name| format!("{name}: no line")));
        lacking
    }

    /// Fails where something differs or a function lacks cases, which are said.
    pub fn verdict(&self) -> ExitCode {
        let lacking = self.lacking();
        lacking.iter().for_each(|fault| println!("{fault}"));
        if self.differences() != 0 || !lacking.is_empty() {
            println!("comparison: DIFFERENCES FOUND");
            ExitCode::FAILURE
        } else {
            let [accepted, refused] = [0, 1].map(|side| self.calls.values().map(|sides| sides[side]).sum::<u64>());
            println!("comparison: {} functions of the library, {accepted} answers and {refused} refusals compared", self.calls.len());
            println!("comparison: {} functions, no difference", self.lines.len());
            ExitCode::SUCCESS
        }
    }
}

fn heading() {
    println!("cases: of them the Rust's own answers, those on the second E and L, those in which the Rust panics, and those by the rules alone; then refusals met");
    println!("{:<26} {:>9} {:>9} {:>9} {:>9} {:>9} {:>6}  {}", "function", "cases", "rust", "second", "panics", "rules", "differ", "NUMBER:times");
}

/// What was compared of one function, and the refusals that it has.
struct Line {
    tally: Tally,
    numbers: BTreeSet<u64>,
    ruled: bool,
}

impl Line {
    fn print(&self) {
        let Tally { name, by, differences, met, .. } = &self.tally;
        let numbers: Vec<String> = met.iter().map(|(number, times)| format!("{number}:{times}")).collect();
        let [rust, second, panics, rules] = by;
        println!("{:<26} {:>9} {:>9} {:>9} {:>9} {:>9} {:>6}  {}", name, by.iter().sum::<u64>(), rust, second, panics, rules, differences, numbers.join(" "));
    }

    /// What its cases lack. A panic of the Rust is no answer.
    fn faults(&self) -> Vec<String> {
        let (name, [rust, second, _, rules]) = (&self.tally.name, self.tally.by);
        let mut found = Vec::new();
        if self.ruled && rules == 0 {
            found.push(format!("{name}: no case"));
        }
        if !self.ruled && rust + second == 0 {
            found.push(format!("{name}: the Rust answered no case"));
        }
        // an empty text is no call, and of the examples an answer is held to two things
        if 2 * self.tally.uncalled > self.tally.by.iter().sum() && !BESIDE.contains(&name.as_str()) {
            found.push(format!("{name}: {} cases with no call of the library", self.tally.uncalled));
        }
        if !self.tally.met.keys().eq(&self.numbers) {
            found.push(format!("{name}: the refusals should be {:?}", self.numbers));
        }
        found
    }
}

pub struct Tally {
    name: String,
    by: [u64; 4],
    differences: u64,
    uncalled: u64,
    met: BTreeMap<u64, u64>,
    unlike: BTreeSet<u64>,
}

/// Lines that no call of C or of the probes stands for, and that must be there.
const BESIDE: [&str; 18] = [
    "backwards ranges, read",
    "backwards ranges, built",
    "backwards ranges, lent",
    "degree_from_middle, rules",
    "pitch_from_middle, rules",
    "run_from_middle, rules",
    "middle key, fixed",
    "lent tables, 10",
    "lent lists, strange",
    "searches, fixed",
    "read_entries",
    "build_entries",
    "find_in_entries",
    "examples of mod.rs",
    "examples of math.rs",
    "examples of key.rs",
    "examples of pitch.rs",
    "rows of DIFFERENCES.md",
];

/// The numbers that no error of the Rust's stands for.
const OURS: [u64; 6] = [10, 11, 12, 18, 19, 25];

impl Tally {
    /// One input: what the library answered and left behind, and what it should have. The first few differences are shown.
    pub fn same<T: PartialEq + Debug>(&mut self, input: impl Debug, ours: (Code, T), theirs: Said<T>) {
        self.uncalled += u64::from(!calls::compared());
        self.count(theirs.who, theirs.code);
        if ours.0 != theirs.code || ours.1 != theirs.value {
            self.differ(format!("{input:?}: ours {ours:?}, theirs {theirs:?}"));
        }
    }

    /// Inputs whose answers a program gave, all at once: by whom each is, what it is, and whether they are the same.
    pub fn replayed(&mut self, said: &[(Who, Code)], same: bool) {
        said.iter().for_each(|&(who, code)| self.count(who, code));
        self.require(same, "a list was not answered as it should be");
    }

    /// One input, by whom its answer is, and what it is.
    fn count(&mut self, who: Who, code: Code) {
        self.by[who as usize] += 1;
        if code != Code::ACCEPTED {
            *self.met.entry(code.number()).or_default() += 1;
            if who >= Who::Panics || OURS.contains(&code.number()) {
                self.unlike.insert(code.number());
            }
        }
    }

    /// What must hold besides.
    pub fn require(&mut self, holds: bool, what: impl Debug) {
        calls::compared();
        if !holds {
            self.differ(format!("{what:?}"));
        }
    }

    fn differ(&mut self, what: String) {
        self.differences += 1;
        if self.differences <= 12 {
            println!("{}: {what} (seed {})", self.name, inputs::round().seed);
        }
    }

    fn add(&mut self, other: &Tally) {
        (0..4).for_each(|who| self.by[who] += other.by[who]);
        self.differences += other.differences;
        self.uncalled += other.uncalled;
        self.unlike.extend(&other.unlike);
        other.met.iter().for_each(|(&number, times)| *self.met.entry(number).or_default() += times);
    }
}

thread_local! {
    static QUIET: Cell<bool> = const { Cell::new(false) };
}

/// A panic of the Rust is expected, and says nothing; one of the comparison is a fault, and says where.
pub fn hear_own_panics() {
    let loud = std::panic::take_hook();
    std::panic::set_hook(Box::new(move |info| {
        if !QUIET.with(Cell::get) {
            loud(info);
        }
    }));
}

/// What the Rust answers, or none where it panics.
pub fn caught<T>(call: impl FnOnce() -> T) -> Option<T> {
    QUIET.with(|quiet| quiet.set(true));
    let answer = std::panic::catch_unwind(std::panic::AssertUnwindSafe(call)).ok();
    QUIET.with(|quiet| quiet.set(false));
    answer
}

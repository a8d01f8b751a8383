//! Which calls of the library were made, and which of their answers were compared. Each call is counted as it is made, and a comparison
//! takes all that were made since the one before; calls that no comparison follows, within the line of their function, count for nothing.

use std::cell::RefCell;
use std::collections::BTreeMap;
use std::fs;

/// How many answers were accepted, and how many were refusals.
pub type Sides = [u64; 2];

#[derive(Default)]
struct State {
    made: Vec<(&'static str, Sides)>,
    compared: BTreeMap<&'static str, Sides>,
}

thread_local! {
    static STATE: RefCell<State> = RefCell::default();
}

pub fn made(name: &'static str, refused: bool) {
    STATE.with_borrow_mut(|state| {
        let known = state.made.iter_mut().find(|known| std::ptr::eq(known.0, name));
        match known {
            Some((_, sides)) => sides[usize::from(refused)] += 1,
            None => state.made.push((name, if refused { [0, 1] } else { [1, 0] })),
        }
    });
}

/// A line of the comparison begins or ends.
pub fn forget() {
    STATE.with_borrow_mut(|state| state.made.clear());
}

/// The answers that were made are compared. Whether there are any.
pub fn compared() -> bool {
    STATE.with_borrow_mut(|state| {
        let any = !state.made.is_empty();
        while let Some((name, sides)) = state.made.pop() {
            add(&mut state.compared, name, sides);
        }
        any
    })
}

pub fn add(all: &mut BTreeMap<&'static str, Sides>, name: &'static str, sides: Sides) {
    let known = all.entry(name).or_default();
    *known = [known[0] + sides[0], known[1] + sides[1]];
}

/// What was compared on this thread since the last call of this.
pub fn taken() -> BTreeMap<&'static str, Sides> {
    STATE.with_borrow_mut(|state| std::mem::take(&mut state.compared))
}

/// What a call gives: whether that is a refusal.
pub trait Answer {
    fn is_refused(&self) -> bool {
        false
    }
}

impl Answer for u64 {
    fn is_refused(&self) -> bool {
        *self != 0
    }
}

impl Answer for bool {}
impl Answer for f64 {}
impl Answer for i64 {}
impl Answer for u16 {}
impl Answer for u32 {}
impl Answer for usize {}

/// Functions of the library, each counted where it is called.
macro_rules! counted {
    ($(fn $name:ident($($part:ident: $type:ty),* $(,)?) -> $result:ty;)*) => {
        $(pub unsafe extern "C" fn $name($($part: $type),*) -> $result {
            mod linked {
                unsafe extern "C" {
                    pub fn $name($($part: $type),*) -> $result;
                }
            }
            let answer = unsafe { linked::$name($($part),*) };
            $crate::calls::made(stringify!($name), $crate::calls::Answer::is_refused(&answer));
            answer
        })*
    };
}
pub(crate) use counted;

/// The functions that the header declares, each with whether it can refuse, and those that the probes export.
fn declared() -> BTreeMap<String, bool> {
    let read = |path: &str| fs::read_to_string(format!("{}/../{path}", env!("CARGO_MANIFEST_DIR"))).unwrap_or_default();
    let mut found = BTreeMap::new();
    for line in read("include/telbijan.h").lines() {
        let words: Vec<&str> = line.split_once('(').map_or(Vec::new(), |(before, _)| before.split(' ').collect());
        if let [result, name] = words[..] && name.starts_with("telbijan_") {
            found.insert(name.to_string(), result == "uint64_t");
        }
    }
    for path in ["crates/probes_c/src/lib.rt", "crates/probes_c/src/texts.rt"] {
        for line in read(path).lines() {
            if let Some(rest) = line.strip_prefix("pub extern \"C\" fn ") {
                found.insert(rest.split('(').next().unwrap_or("").to_string(), false);
            }
        }
    }
    found
}

/// The functions of which no answer was compared, or no refusal where it can refuse.
pub fn lacking(compared: &BTreeMap<&'static str, Sides>) -> Vec<String> {
    let declared = declared();
    let mut found: Vec<String> = ["telbijan_", "probe_"]
        .iter()
        .filter(|kind| !declared.keys().any(|name| name.starts_with(**kind)))
        .map(|kind| format!("no function {kind}.. is declared"))
        .collect();
    for (name, can_refuse) in &declared {
        let [accepted, refused] = compared.get(name.as_str()).copied().unwrap_or_default();
        if accepted == 0 {
            found.push(format!("{name}: no answer was compared"));
        }
        if *can_refuse && refused == 0 {
            found.push(format!("{name}: no refusal was compared"));
        }
    }
    let undeclared = compared.keys().filter(|name| !declared.contains_key(**name));
    found.extend(undeclared.map(|name| format!("{name}: it was called, and is not declared")));
    found
}

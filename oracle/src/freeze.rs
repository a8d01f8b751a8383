//! Freezes questions and their answers for the programs `replay`, `replay_scl` and `replay_tuning`, which put the questions to the proved library, so that
//! `rt ci` needs no Rust: `oracle freeze CRATES` writes stdin and stdout of each. The crates `frozen` and `said` say how a line of either is written.

use crate::lent::Float;
use crate::tally::{Code, Said, Who};
use crate::{freeze_entries, freeze_kbm, freeze_middle, freeze_numbers, freeze_scl, freeze_text, freeze_tuning};
use std::fs;
use std::io::{Error, Result};

/// What one run of a program reads at most.
const MOST: usize = 262_144;

/// Refusals that the rules alone number: there the Rust goes on or panics, and a line that holds one is the rules'.
const ONLY_RULES: [&str; 6] = ["!9", "!10", "!11", "!12", "!19", "!25"];

/// A list under way: its questions and their answers, and for each whose answer it is, and which.
#[derive(Default)]
pub struct List {
    pub questions: Vec<String>,
    pub answers: Vec<String>,
    pub said: Vec<(Who, Code)>,
}

/// Lines as a file has them.
pub fn text(lines: &[String]) -> String {
    lines.iter().map(|line| format!("{line}\n")).collect()
}

impl List {
    /// A question: who answers it, the call and its arguments; and its answer: the call, and what it says, shown where it was accepted.
    pub fn push<T>(&mut self, call: &str, said: Said<T>, shown: impl FnOnce(T) -> String) {
        self.push_with(call, said, shown, "");
    }

    /// The same, where more stands after the answer or the refusal.
    pub fn push_with<T>(&mut self, call: &str, said: Said<T>, shown: impl FnOnce(T) -> String, more: &str) {
        self.push_after(call, "", said, shown, more);
    }

    /// The same, where the answers of other calls stand before it.
    pub fn push_after<T>(&mut self, call: &str, before: &str, said: Said<T>, shown: impl FnOnce(T) -> String, more: &str) {
        let code = said.code;
        let answer = match code {
            Code::ACCEPTED => shown(said.value),
            code => refusal(code),
        };
        let name = call.split(' ').next().unwrap_or_default();
        let fields = [name, before, &answer, more].map(str::trim).into_iter().filter(|part| !part.is_empty()).collect::<Vec<&str>>().join(" ");
        let ruled = said.who >= Who::Panics || fields.split(' ').any(|field| ONLY_RULES.contains(&field));
        let whose = if ruled { Who::Rules } else { said.who };
        self.questions.push(format!("{} {call}", who(whose)));
        self.answers.push(fields);
        self.said.push((whose, code));
    }
}

pub fn who(who: Who) -> &'static str {
    match who {
        Who::Rust => "rust",
        Who::Second => "second",
        Who::Panics | Who::Rules => "rules",
    }
}

pub fn refusal(code: Code) -> String {
    format!("!{} {}", code.number(), code.detail())
}

/// 16 hex digits, or `nan`.
pub fn float(x: f64) -> String {
    if x.is_nan() { "nan".to_string() } else { format!("{:016x}", x.to_bits()) }
}

pub fn written(x: Float) -> String {
    match x {
        Float::Is(bits) => float(f64::from_bits(bits)),
        other => panic!("{other:?} is no answer"),
    }
}

/// The hex digits of bytes; `-` for none.
pub fn hex(bytes: &[u8]) -> String {
    if bytes.is_empty() { "-".to_string() } else { bytes.iter().map(|b| format!("{b:02x}")).collect() }
}

fn first(list: &mut List) {
    freeze_numbers::integers(list);
    freeze_numbers::pitches(list);
    freeze_numbers::best_fractions(list);
    freeze_text::texts(list);
    freeze_kbm::mappings(list);
    freeze_middle::degrees(list);
}

fn second(list: &mut List) {
    freeze_scl::scales(list);
    freeze_entries::entry_lists(list);
}

fn third(list: &mut List) {
    freeze_tuning::tunings(list);
    freeze_middle::pitches(list);
}

/// The calls that a program has, by its source, and that no question asks for.
fn unasked(name: &str, questions: &[String]) -> Result<Vec<String>> {
    let source = fs::read_to_string(format!("{}/../crates/{name}/src/main.rt", env!("CARGO_MANIFEST_DIR")))?;
    let listed = source.split("b\"").nth(1).and_then(|rest| rest.split('"').next()).unwrap_or_default();
    let fields: Vec<&str> = listed.split(' ').collect();
    let calls = fields.chunks(3).map(|call| call[0]).filter(|call| !call.is_empty());
    let asked = |call: &str| questions.iter().any(|question| question.split(' ').nth(1) == Some(call));
    Ok(calls.filter(|call| !asked(call)).map(str::to_string).collect())
}

pub fn freeze(crates: &str) -> Result<()> {
    for (name, fill) in [
        ("replay", first as fn(&mut List)),
        ("replay_scl", second),
        ("replay_tuning", third),
    ] {
        let mut list = List::default();
        fill(&mut list);
        let (questions, answers) = (text(&list.questions), text(&list.answers));
        if questions.len() > MOST {
            return Err(Error::other(format!("{name}: {} bytes are more than {MOST}", questions.len())));
        }
        let unasked = unasked(name, &list.questions)?;
        if !unasked.is_empty() {
            return Err(Error::other(format!("{name}: no question asks for {}", unasked.join(", "))));
        }
        let by = |whose: Who| list.said.iter().filter(|(who, _)| *who == whose).count();
        fs::write(format!("{crates}/{name}/stdin"), &questions)?;
        fs::write(format!("{crates}/{name}/stdout"), &answers)?;
        println!("{name}: {} answers, {} bytes: {} of the Rust, {} on the second E and L, {} by the rules", list.said.len(), questions.len() + answers.len(), by(Who::Rust), by(Who::Second), by(Who::Rules));
    }
    Ok(())
}

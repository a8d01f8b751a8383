//! The rule of docs/DIFFERENCES.md: a refusal of a call that the Rust does not give, since the rules alone say it or since the Rust panics, has a
//! row.

use crate::differences::{Row, rows};

/// What rows call a function that the comparison calls otherwise.
const CALLED: [(&str, &str); 24] = [
    ("pitch_times", "pitch times ratio"),
    ("pitch_over", "pitch over ratio"),
    ("best_fraction", "best_fraction, beside nearest_fraction"),
    ("parse f64", "decimal"),
    ("Scl::import", "scale"),
    ("PitchValue::as_ratio", "as_ratio of an item"),
    ("SclBuilder, pushes", "push_cents"),
    ("Kbm::import", "mapping"),
    ("push_(un)mapped_key", "push_mapped_key"),
    ("pitch_of, degree", "pitch_of"),
    ("pitch_of, key", "pitch_of, a key"),
    ("maybe_pitch_of, key", "maybe_pitch_of"),
    ("maybe_pitch_of, degree", "maybe_pitch_of, a mapping degree"),
    ("pitches_of, a run of keys", "pitches_of"),
    ("scale_degree_from_middle", "scale_degree_from_middle, beside scale_degree_of"),
    ("degree_from_middle, rules", "scale_degree_from_middle, beside scale_degree_of"),
    ("maybe_pitch_from_middle", "maybe_pitch_from_middle, beside maybe_pitch_of"),
    ("pitch_from_middle, rules", "maybe_pitch_from_middle, beside maybe_pitch_of"),
    ("pitches_from_middle", "pitches_from_middle, beside pitches_of"),
    ("run_from_middle, rules", "pitches_from_middle, beside pitches_of"),
    ("find_by_rel_pitch_sorted", "Scl::find_by_relative_pitch_sorted"),
    ("find_by_pitch, degree", "find_by_pitch"),
    ("find_by_pitch, key", "find_by_pitch, a key"),
    ("create_rank2_temperament..", "create_rank2_temperament_scale"),
];

/// Lines of the comparison that are no call of their own: parts of exports, further inputs, and the same calls on a slice of structs.
const APART: [&str; 14] = [
    "print f64",
    "print i32",
    "print u32",
    "backwards ranges, read",
    "backwards ranges, built",
    "backwards ranges, lent",
    "middle key, fixed",
    "lent lists, strange",
    "searches, fixed",
    "lent tables, 10",
    "read_entries",
    "build_entries",
    "find_in_entries",
    "examples of pitch.rs",
];

/// Whether a row is of this line's function.
fn is_of(row: &Row, line: &str) -> bool {
    let name = row.call.replace('`', "").replace(", the count of items", "");
    name == line || name.rsplit("::").next() == Some(line) || CALLED.contains(&(line, name.as_str()))
}

/// Whether a row ends in this refusal, with a line or without one.
fn has(row: &Row, number: u64) -> bool {
    row.here_says.split(" at line ").next() == Some(number.to_string().as_str())
}

/// The functions and refusals that have no row.
pub fn lacking<'a>(refusals: impl Iterator<Item = (&'a str, u64)>) -> Vec<String> {
    let rows = rows();
    refusals
        .filter(|(line, number)| !APART.contains(line) && !rows.iter().any(|row| is_of(row, line) && has(row, *number)))
        .map(|(line, number)| format!("{line}, {number}"))
        .collect()
}

//! The proved library beside the Rust that it is a port of: the same inputs to both, every answer compared.
//!
//! - `oracle` compares and prints a line for each function: cases tried, refusals met, differences. Any difference, and any
//!   function with no case, makes it fail.
//! - `oracle many MINUTES SEED` goes on with it for so long, on all processors: first the same, then rounds of random inputs, each with
//!   its own seed, from SEED on. A difference is printed with the seed of its round. `tools/compare-many` builds what it needs and starts it.
//! - `oracle round SEED` is the one round of that seed.
//! - `oracle bench` times the two sides in one run.
//! - `oracle powers COUNT SEED` compares COUNT numbers each for E and L, COUNT - say 100000000 - in about a minute.
//! - `oracle judged` holds the verdict to comparisons that lack something.
//! - `oracle differences` prints the rows of docs/DIFFERENCES.md, which the comparison runs.
//! - `oracle freeze CRATES` writes a sample of the answers for the programs that replay them.

#![forbid(dead_code, unused)]

mod backwards;
mod backwards_builds;
mod backwards_cases;
mod backwards_texts;
mod backwards_wrong;
mod bench;
mod bench_tuning;
mod best;
mod best_cases;
mod best_wrong;
mod calls;
mod decided;
mod differences;
mod differences_kbm;
mod differences_middle;
mod differences_rule;
mod differences_scl;
mod differences_tuning;
mod entries;
mod examples;
mod examples_numbers;
mod ffi;
mod ffi_generators;
mod ffi_kbm;
mod ffi_middle;
mod ffi_scl;
mod ffi_tuning;
mod first_table;
mod floats;
mod freeze;
mod freeze_entries;
mod freeze_kbm;
mod freeze_middle;
mod freeze_numbers;
mod freeze_scl;
mod freeze_text;
mod freeze_tuning;
mod generators;
mod inputs;
mod judged;
mod kbm_build;
mod kbm_read;
mod kbm_use;
mod key;
mod lent;
mod many;
mod math;
mod middle;
mod middle_cases;
mod middle_fixed;
mod middle_inputs;
mod middle_traps;
mod middle_wrong;
mod middle_wrong_runs;
mod numerals;
mod pitch;
mod powers;
mod probe;
mod rules;
mod rules_best;
mod rules_middle;
mod rules_scl;
mod rules_tuning;
mod rust_kbm;
mod rust_scl;
mod scl_build;
mod scl_export;
mod scl_read;
mod tally;
mod texts;
mod tuning;
mod untouched;

use std::process::ExitCode;

fn main() -> ExitCode {
    tally::hear_own_panics();
    let words: Vec<String> = std::env::args().skip(1).collect();
    match words.iter().map(String::as_str).collect::<Vec<_>>()[..] {
        [] => compare(),
        ["many", minutes, seed] => match (minutes.parse(), seed.parse()) {
            (Ok(minutes), Ok(seed)) => many::many(minutes, seed),
            _ => ExitCode::FAILURE,
        },
        ["round", seed] => seed.parse().map_or(ExitCode::FAILURE, many::one),
        ["bench"] => {
            bench::bench();
            ExitCode::SUCCESS
        }
        ["powers", count, seed] => match (count.parse(), seed.parse()) {
            (Ok(count), Ok(seed)) if powers::many(count, seed) => ExitCode::SUCCESS,
            _ => ExitCode::FAILURE,
        },
        ["judged"] => {
            if judged::judged() { ExitCode::SUCCESS } else { ExitCode::FAILURE }
        }
        ["differences"] => {
            differences::print();
            ExitCode::SUCCESS
        }
        ["freeze", crates] => match freeze::freeze(crates) {
            Ok(()) => ExitCode::SUCCESS,
            Err(error) => {
                eprintln!("freeze: {error}");
                ExitCode::FAILURE
            }
        },
        _ => {
            eprintln!("usage: oracle [many MINUTES SEED | round SEED | bench | powers COUNT SEED | judged | differences | freeze CRATES]");
            ExitCode::FAILURE
        }
    }
}

fn compare() -> ExitCode {
    let mut all = tally::Report::shown();
    compare_all(&mut all);
    untouched::report();
    let lacking = differences_rule::lacking(all.unlike());
    lacking.iter().for_each(|row| println!("docs/DIFFERENCES.md should have a row: {row}"));
    if lacking.is_empty() { all.verdict() } else { ExitCode::FAILURE }
}

/// The comparison of every function, on the inputs of this thread's round.
fn compare_all(all: &mut tally::Report) {
    math::compare(all);
    key::compare(all);
    floats::compare(all);
    powers::compare(all);
    pitch::compare(all);
    best::compare(all);
    texts::compare(all);
    numerals::compare(all);
    scl_read::compare(all);
    scl_build::compare(all);
    scl_export::compare(all);
    kbm_read::compare(all);
    kbm_use::compare(all);
    kbm_build::compare(all);
    backwards::compare(all);
    tuning::compare(all);
    middle::compare(all);
    entries::compare(all);
    generators::compare(all);
    if inputs::with_fixed() {
        examples::compare(all);
        examples_numbers::compare(all);
        differences::compare(all);
    }
    all.count_calls();
}

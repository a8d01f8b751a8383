//! The rows of docs/DIFFERENCES.md as fixed cases, run on both sides: what the Rust does is asserted as well as what the library
//! does. `oracle differences` prints the rows as a table. The Rust runs with its own exp2 and log2 here.

use crate::differences_kbm::mappings;
use crate::differences_middle::from_middle;
use crate::differences_scl::scales;
use crate::differences_tuning::tunings;
use crate::ffi::{self, one, two};
use crate::lent::Float;
use crate::pitch::ratio;
use crate::tally::{Code, Report, Said, Who, caught};
use std::fmt::Debug;
use tune::key::PianoKey;
use tune::math;
use tune::pitch::{Pitch, Ratio};
use tune::powers::use_untouched;

/// A row: the call or the text, the input, what the Rust does and what is done here, each as run and as written.
pub struct Row {
    pub call: &'static str,
    pub input: &'static str,
    pub rust: fn() -> String,
    pub rust_says: &'static str,
    pub here: fn() -> String,
    pub here_says: &'static str,
}

/// What a row says where the Rust cannot be asked.
pub const CANNOT_BE: &str = "cannot be";

/// What the Rust answers, or `panics`.
pub fn rust<T: Debug>(call: impl FnOnce() -> T) -> String {
    use_untouched(true);
    let answer = caught(call);
    use_untouched(false);
    answer.map_or("panics".to_string(), |value| format!("{value:?}"))
}

pub fn refused(code: Code) -> String {
    if code.detail() == 0 { code.number().to_string() } else { format!("{} at line {}", code.number(), code.detail()) }
}

/// What is answered here: a value, or the number of a refusal and its line.
pub fn here<T: Debug>((code, value): (Code, T)) -> String {
    if code == Code::ACCEPTED { format!("{value:?}") } else { refused(code) }
}

/// The same of a float.
fn float((code, value): (Code, Float)) -> String {
    match value {
        Float::Is(bits) => format!("{:?}", f64::from_bits(bits)),
        _ => refused(code),
    }
}

const fn row(call: &'static str, input: &'static str, rust: fn() -> String, rust_says: &'static str, here: fn() -> String, here_says: &'static str) -> Row {
    Row { call, input, rust, rust_says, here, here_says }
}

const INF: f64 = f64::INFINITY;
const NAN: f64 = f64::NAN;

fn key(number: i32) -> PianoKey {
    PianoKey::from_midi_number(number)
}

fn integers() -> Vec<Row> {
    vec![
        row("`i32_div_u`", "1 by 0", || rust(|| math::i32_div_u(1, 0u32)), "panics", || here(ffi::i32_div_u(1, 0)), "10"),
        row("`i32_rem_u`", "1 by 0", || rust(|| math::i32_rem_u(1, 0u32)), "panics", || here(ffi::i32_rem_u(1, 0)), "10"),
        row("`i32_dr_u`", "1 by 0", || rust(|| math::i32_dr_u(1, 0u32)), "panics", || here(ffi::i32_dr_u(1, 0)), "10"),
        row("`PianoKey::plus_steps`", "2147483647 plus 1", || rust(|| key(i32::MAX).plus_steps(1)), "panics", || here(ffi::plus_steps(i32::MAX, 1)), "11"),
        row("`PianoKey::num_keys_before`", "from -1 to 2147483647", || rust(|| key(-1).num_keys_before(key(i32::MAX))), "panics", || here(ffi::num_keys_before(-1, i32::MAX)), "11"),
        row("`PianoKey::checked_midi_number`", "128", || rust(|| key(128).checked_midi_number()), "None", || here(ffi::checked_midi_number(128)), "16"),
    ]
}

fn powers() -> Vec<Row> {
    vec![
        row("exp2", "-1e-20", || rust(|| (-1e-20f64).exp2()), "1.0", || float(one(ffi::telbijan_exp2, -1e-20)), "0.9999999999999998"),
        row("exp2", "901.0", || rust(|| 901f64.exp2()), "1.6905424996341288e271", || float(one(ffi::telbijan_exp2, 901.0)), "18"),
        row("exp2", "NaN", || rust(|| NAN.exp2()), "NaN", || float(one(ffi::telbijan_exp2, NAN)), "18"),
        row("log2", "0.0", || rust(|| 0f64.log2()), "-inf", || float(one(ffi::telbijan_log2, 0.0)), "18"),
        row("log2", "-1.0", || rust(|| (-1f64).log2()), "NaN", || float(one(ffi::telbijan_log2, -1.0)), "18"),
        row("log2", "infinity", || rust(|| INF.log2()), "inf", || float(one(ffi::telbijan_log2, INF)), "18"),
        row("log2", "NaN", || rust(|| NAN.log2()), "NaN", || float(one(ffi::telbijan_log2, NAN)), "18"),
        row("log2", "1.0000000000000002", || rust(|| 1.0000000000000002f64.log2()), "3.203426503814917e-16", || float(one(ffi::telbijan_log2, 1.0000000000000002)), "2.220446049250313e-16"),
    ]
}

fn made() -> Vec<Row> {
    vec![
        row("`Ratio::from_float`", "0.0", || rust(|| ratio(0.0).as_float()), "0.0", || float(one(ffi::telbijan_ratio_from_float, 0.0)), "10"),
        row("`Ratio::from_float`", "-2.0", || rust(|| ratio(-2.0).as_float()), "-2.0", || float(one(ffi::telbijan_ratio_from_float, -2.0)), "10"),
        row("`Ratio::from_float`", "infinity", || rust(|| ratio(INF).as_float()), "inf", || float(one(ffi::telbijan_ratio_from_float, INF)), "10"),
        row("`Ratio::from_float`", "NaN", || rust(|| ratio(NAN).as_float()), "NaN", || float(one(ffi::telbijan_ratio_from_float, NAN)), "10"),
        row("`Pitch::from_hz`", "0.0", || rust(|| Pitch::from_hz(0.0).as_hz()), "0.0", || float(one(ffi::telbijan_pitch_from_hz, 0.0)), "10"),
        row("`Pitch::from_hz`", "NaN", || rust(|| Pitch::from_hz(NAN).as_hz()), "NaN", || float(one(ffi::telbijan_pitch_from_hz, NAN)), "10"),
        row("`Ratio::from_octaves`", "infinity", || rust(|| Ratio::from_octaves(INF).as_float()), "inf", || float(one(ffi::telbijan_ratio_from_octaves, INF)), "18"),
        row("`Ratio::from_semitones`", "-infinity", || rust(|| Ratio::from_semitones(-INF).as_float()), "0.0", || float(one(ffi::telbijan_ratio_from_semitones, -INF)), "18"),
        row("`Ratio::from_cents`", "NaN", || rust(|| Ratio::from_cents(NAN).as_float()), "NaN", || float(one(ffi::telbijan_ratio_from_cents, NAN)), "18"),
        row("`Ratio::from_cents`", "1080000.1: above 2^900", || rust(|| Ratio::from_cents(1080000.1).as_float() > 2f64.powi(900)), "true", || float(one(ffi::telbijan_ratio_from_cents, 1080000.1)), "18"),
    ]
}

/// Methods of one ratio at 0.0, which is a number for the Rust and 10 here.
fn of_zero() -> Vec<Row> {
    vec![
        row("`as_octaves`", "0.0", || rust(|| ratio(0.0).as_octaves()), "-inf", || float(one(ffi::telbijan_ratio_as_octaves, 0.0)), "10"),
        row("`as_semitones`", "0.0", || rust(|| ratio(0.0).as_semitones()), "-inf", || float(one(ffi::telbijan_ratio_as_semitones, 0.0)), "10"),
        row("`as_cents`", "0.0", || rust(|| ratio(0.0).as_cents()), "-inf", || float(one(ffi::telbijan_ratio_as_cents, 0.0)), "10"),
        row("`inv`", "0.0", || rust(|| ratio(0.0).inv().as_float()), "inf", || float(one(ffi::telbijan_ratio_inv, 0.0)), "10"),
        row("`abs`", "0.0", || rust(|| ratio(0.0).abs().as_float()), "inf", || float(one(ffi::telbijan_ratio_abs, 0.0)), "10"),
        row("`is_negligible`", "0.0", || rust(|| ratio(0.0).is_negligible()), "false", || here(ffi::is_negligible(0.0)), "10"),
        row("`total_cmp`", "0.0 with 1.0", || rust(|| ratio(0.0).total_cmp(&ratio(1.0))), "Less", || here(ffi::total_cmp(0.0, 1.0)), "10"),
        row("`nearest_fraction`", "2^65, limit 3: octaves", || rust(|| ratio(2f64.powi(65)).nearest_fraction(3).num_octaves), "65", || here(ffi::nearest_fraction(2f64.powi(65), 3)), "10"),
        row("`nearest_fraction`", "NaN, limit 3: numerator", || rust(|| ratio(NAN).nearest_fraction(3).numer), "0", || here(ffi::nearest_fraction(NAN, 3)), "10"),
    ]
}

fn of_two() -> Vec<Row> {
    vec![
        row("pitch times ratio", "0.0 by 2", || rust(|| (Pitch::from_hz(0.0) * ratio(2.0)).as_hz()), "0.0", || float(two(ffi::telbijan_pitch_times_ratio, 0.0, 2.0)), "10"),
        row("pitch times ratio", "2^900 by 2: is it 2^901", || rust(|| (Pitch::from_hz(2f64.powi(900)) * ratio(2.0)).as_hz() == 2f64.powi(901)), "true", || float(two(ffi::telbijan_pitch_times_ratio, 2f64.powi(900), 2.0)), "18"),
        row("pitch over ratio", "1 by 0.0", || rust(|| (Pitch::from_hz(1.0) / ratio(0.0)).as_hz()), "inf", || float(two(ffi::telbijan_pitch_over_ratio, 1.0, 0.0)), "10"),
        row("pitch over ratio", "2^900 by 0.5: is it 2^901", || rust(|| (Pitch::from_hz(2f64.powi(900)) / ratio(0.5)).as_hz() == 2f64.powi(901)), "true", || float(two(ffi::telbijan_pitch_over_ratio, 2f64.powi(900), 0.5)), "18"),
        row("`between_pitches`", "0.0 and 1", || rust(|| Ratio::between_pitches(Pitch::from_hz(0.0), Pitch::from_hz(1.0)).as_float()), "inf", || float(two(ffi::telbijan_ratio_between_pitches, 0.0, 1.0)), "10"),
        row("`between_pitches`", "2^-900 and 2: is it 2^901", || rust(|| Ratio::between_pitches(Pitch::from_hz(2f64.powi(-900)), Pitch::from_hz(2.0)).as_float() == 2f64.powi(901)), "true", || float(two(ffi::telbijan_ratio_between_pitches, 2f64.powi(-900), 2.0)), "18"),
        row("`stretched_by`", "0.0 by 2", || rust(|| ratio(0.0).stretched_by(ratio(2.0)).as_float()), "0.0", || float(two(ffi::telbijan_ratio_stretched_by, 0.0, 2.0)), "10"),
        row("`stretched_by`", "2^900 by 2: is it 2^901", || rust(|| ratio(2f64.powi(900)).stretched_by(ratio(2.0)).as_float() == 2f64.powi(901)), "true", || float(two(ffi::telbijan_ratio_stretched_by, 2f64.powi(900), 2.0)), "18"),
        row("`deviation_from`", "1 from 0.0", || rust(|| ratio(1.0).deviation_from(ratio(0.0)).as_float()), "inf", || float(two(ffi::telbijan_ratio_deviation_from, 1.0, 0.0)), "10"),
        row("`deviation_from`", "2^900 from 0.5: is it 2^901", || rust(|| ratio(2f64.powi(900)).deviation_from(ratio(0.5)).as_float() == 2f64.powi(901)), "true", || float(two(ffi::telbijan_ratio_deviation_from, 2f64.powi(900), 0.5)), "18"),
        row("`repeated`", "0.0 by 2", || rust(|| ratio(0.0).repeated(2.0).as_float()), "0.0", || float(two(ffi::telbijan_ratio_repeated, 0.0, 2.0)), "10"),
        row("`repeated`", "2 by infinity", || rust(|| ratio(2.0).repeated(INF).as_float()), "inf", || float(two(ffi::telbijan_ratio_repeated, 2.0, INF)), "18"),
        row("`repeated`", "2 by NaN", || rust(|| ratio(2.0).repeated(NAN).as_float()), "NaN", || float(two(ffi::telbijan_ratio_repeated, 2.0, NAN)), "18"),
        row("`divided_into_equal_steps`", "0.0 by 2", || rust(|| ratio(0.0).divided_into_equal_steps(2.0).as_float()), "0.0", || float(two(ffi::telbijan_ratio_divided_into_equal_steps, 0.0, 2.0)), "10"),
        row("`divided_into_equal_steps`", "2 by 0", || rust(|| ratio(2.0).divided_into_equal_steps(0.0).as_float()), "inf", || float(two(ffi::telbijan_ratio_divided_into_equal_steps, 2.0, 0.0)), "18"),
        row("`num_equal_steps_of_size`", "2 by 0.0", || rust(|| ratio(2.0).num_equal_steps_of_size(ratio(0.0))), "-0.0", || float(two(ffi::telbijan_ratio_num_equal_steps_of_size, 2.0, 0.0)), "10"),
    ]
}

/// What is the same as in the Rust, though one may not expect it.
fn alike() -> Vec<Row> {
    vec![
        row("`num_equal_steps_of_size`", "2 by 1.0", || rust(|| ratio(2.0).num_equal_steps_of_size(ratio(1.0))), "inf", || float(two(ffi::telbijan_ratio_num_equal_steps_of_size, 2.0, 1.0)), "inf"),
        row("`num_equal_steps_of_size`", "0.5 by 1.0", || rust(|| ratio(0.5).num_equal_steps_of_size(ratio(1.0))), "-inf", || float(two(ffi::telbijan_ratio_num_equal_steps_of_size, 0.5, 1.0)), "-inf"),
        row("`num_equal_steps_of_size`", "1.0 by 1.0", || rust(|| ratio(1.0).num_equal_steps_of_size(ratio(1.0))), "NaN", || float(two(ffi::telbijan_ratio_num_equal_steps_of_size, 1.0, 1.0)), "NaN"),
        row("`nearest_fraction`", "2^63(1-2^-53), limit 3: numerator, denominator, octaves", || rust(|| fraction(2f64.powi(63).next_down(), 3)), "(1, 1, 63)", || our_fraction(2f64.powi(63).next_down(), 3), "(1, 1, 63)"),
        row("`nearest_fraction`", "0.9999999999999999, limit 3: numerator, denominator, octaves", || rust(|| fraction(1f64.next_down(), 3)), "(2, 1, -1)", || our_fraction(1f64.next_down(), 3), "(2, 1, -1)"),
        row("`nearest_fraction`", "1.000000001, limit 65535: numerator, denominator, octaves", || rust(|| fraction(1.000000001, 65_535)), "(1, 1, 0)", || our_fraction(1.000000001, 65_535), "(1, 1, 0)"),
        row("`nearest_fraction`", "1.25, limit 0: numerator, denominator, octaves", || rust(|| fraction(1.25, 0)), "(0, 0, 0)", || our_fraction(1.25, 0), "(0, 0, 0)"),
    ]
}

/// What the Rust does not have, beside its `nearest_fraction`.
fn best() -> Vec<Row> {
    const NAME: &str = "`best_fraction`, beside `nearest_fraction`";
    vec![
        row(NAME, "1.575, limit 9: numerator, denominator", || old_pair(1.575, 9), "(8, 5)", || our_best(1.575, 9), "(14, 9)"),
        row(NAME, "0.75, limit 11: numerator, denominator", || old_pair(0.75, 11), "(3, 2)", || our_best(0.75, 11), "(3, 4)"),
        row(NAME, "1.25, limit 3: numerator, denominator", || old_pair(1.25, 3), "(4, 3)", || our_best(1.25, 3), "(4, 3)"),
        row(NAME, "1.25, limit 0: numerator, denominator", || old_pair(1.25, 0), "(0, 0)", || our_best(1.25, 0), "29"),
        row(NAME, "NaN, limit 3: numerator, denominator", || old_pair(NAN, 3), "(0, 0)", || our_best(NAN, 3), "10"),
        row(NAME, "0.0, limit 0: numerator, denominator", || old_pair(0.0, 0), "(0, 0)", || our_best(0.0, 0), "10"),
    ]
}

fn old_pair(x: f64, limit: u16) -> String {
    rust(|| {
        let (numer, denom, _) = fraction(x, limit);
        (numer, denom)
    })
}

fn our_best(x: f64, limit: u16) -> String {
    let (code, (numer, denom, _)) = ffi::best_fraction(x, limit);
    here((code, (numer, denom)))
}

fn fraction(x: f64, limit: u16) -> (u16, u16, i32) {
    let found = ratio(x).nearest_fraction(limit);
    (found.numer, found.denom, found.num_octaves)
}

fn our_fraction(x: f64, limit: u16) -> String {
    let (code, (numer, denom, _, octaves)) = ffi::nearest_fraction(x, limit);
    here((code, (numer, denom, octaves)))
}

pub fn rows() -> Vec<Row> {
    let numbers = [integers(), powers(), made(), of_zero(), of_two(), alike(), best()];
    numbers.into_iter().chain([scales(), mappings(), tunings(), from_middle()]).flatten().collect()
}

pub fn compare(all: &mut Report) {
    all.function("rows of DIFFERENCES.md", &[], |tally| {
        for row in rows() {
            // of what the Rust's types leave no room for, nothing is asked of it
            let who = match row.rust_says {
                CANNOT_BE => Who::Rules,
                "panics" => Who::Panics,
                _ => Who::Rust,
            };
            tally.same((row.call, row.input, "the Rust"), (Code::ACCEPTED, (row.rust)()), Said::gives(who, row.rust_says.to_string()));
            tally.same((row.call, row.input, "here"), (Code::ACCEPTED, (row.here)()), Said::gives(Who::Rules, row.here_says.to_string()));
        }
    });
}

/// The rows as a table for docs/DIFFERENCES.md.
pub fn print() {
    println!("| call or text | input | Rust | here |\n|---|---|---|---|");
    for row in rows() {
        println!("| {} | {} | {} | {} |", row.call, row.input, row.rust_says, row.here_says);
    }
}

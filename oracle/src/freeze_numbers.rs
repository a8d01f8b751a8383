//! Frozen answers on integers, keys, E, L, pitches and ratios.

use crate::best::Rules;
use crate::best_cases::{ANSWERS, REFUSALS, TRAPS};
use crate::freeze::{List, float, written};
use crate::inputs::{Random, f64_limits, i32_limits, u32_limits};
use crate::pitch::{ONES, One, TWOS, Two};
use crate::tally::{Said, Who};
use crate::{first_table, key, math, pitch, powers};
use tune::key::PianoKey;
use tune::math::odd_factors_u16;
use tune::pitch::Ratio;

pub fn integers(list: &mut List) {
    let mut random = Random::new(100);
    for (k, numer) in i32_limits().into_iter().enumerate() {
        for (j, denom) in u32_limits().into_iter().enumerate() {
            if (k * 7 + j) % 19 == 0 {
                list.push(&format!("i32_div_u {numer} {denom}"), math::division(numer, denom), |(q, _)| q.to_string());
                list.push(&format!("i32_rem_u {numer} {denom}"), math::division(numer, denom), |(_, r)| r.to_string());
                list.push(&format!("i32_dr_u {numer} {denom}"), math::division(numer, denom), |(q, r)| format!("{q} {r}"));
            }
        }
        for other in i32_limits().into_iter().skip(k % 13).step_by(43) {
            list.push(&format!("num_keys_before {numer} {other}"), key::before(numer, other), |z| z.to_string());
            list.push(&format!("plus_steps {numer} {other}"), key::plus(numer, other), |z| z.to_string());
        }
        list.push(&format!("checked_midi_number {numer}"), key::checked(numer), |n| n.to_string());
        if k % 5 == 0 {
            // a key of this number, and the number of this key
            let number = PianoKey::from_midi_number(numer).midi_number();
            list.push(&format!("from_midi_number {numer}"), Said::gives(Who::Rust, number), |z| z.to_string());
            list.push(&format!("midi_number {numer}"), Said::gives(Who::Rust, number), |z| z.to_string());
        }
    }
    for n in [0, 1, 2, 3, 65_534, 65_535].into_iter().chain((0..60).map(|_| random.next() as u16)) {
        list.push(&format!("odd_factors_u16 {n}"), Said::gives(Who::Rust, odd_factors_u16(n)), |odd| odd.to_string());
    }
}

/// Some numbers for calls of floats: limits and random ones, of another kind each turn.
fn some(random: &mut Random, k: usize) -> f64 {
    let limits = f64_limits();
    match k % 5 {
        0 => limits[random.next() as usize % limits.len()],
        1 => random.ratio(905),
        2 => random.ratio(3),
        3 => (random.unit() - 0.5) * 4000.0,
        _ => (random.next() % 5000) as f64 / 4.0,
    }
}

pub fn pitches(list: &mut List) {
    let mut random = Random::new(101);
    list.push("octave", Said::gives(Who::Rust, Ratio::octave().as_float()), float);
    list.push("unison", Said::gives(Who::Rust, Ratio::default().as_float()), float);
    for k in 0..60 {
        let x = some(&mut random, k);
        list.push(&format!("exp2 {}", float(x)), powers::said(tune::powers::e(x)), written);
        list.push(&format!("log2 {}", float(x)), powers::said(tune::powers::l(x)), written);
    }
    for (parts, _, _) in first_table::QUARTERS {
        let x = parts as f64 / 2048.0;
        list.push(&format!("exp2 {}", float(x)), powers::said(tune::powers::e(x)), written);
    }
    for One(name, _, theirs, _) in &ONES {
        for k in 0..28 {
            let x = some(&mut random, k);
            list.push(&format!("{name} {}", float(x)), theirs(x), written);
        }
    }
    for Two(name, _, theirs, _) in &TWOS {
        for k in 0..40 {
            let (x, y) = (some(&mut random, k), some(&mut random, k / 5));
            list.push(&format!("{name} {} {}", float(x), float(y)), theirs(x, y), written);
        }
    }
    // results inside the range and outside
    for Two(name, _, theirs, _) in &TWOS[..5] {
        for (x, y) in [(2f64.powi(900), 2.0), (2f64.powi(900), 0.5), (2f64.powi(-900), 2.0)] {
            list.push(&format!("{name} {} {}", float(x), float(y)), theirs(x, y), written);
        }
    }
    for (x, y) in [(2.0, 1.0), (0.5, 1.0), (1.0, 1.0)] {
        list.push(&format!("num_equal_steps_of_size {} {}", float(x), float(y)), TWOS[7].2(x, y), written);
    }
    for k in 0..30 {
        let x = if k % 3 == 0 { 1.0 + (random.unit() - 0.5) * 1e-5 } else { some(&mut random, k) };
        let y = if k % 4 == 0 { x } else { some(&mut random, k + 1) };
        list.push(&format!("is_negligible {}", float(x)), pitch::negligible(x), |yes| u8::from(yes).to_string());
        list.push(&format!("total_cmp {} {}", float(x), float(y)), pitch::order(x, y), |order| order.to_string());
    }
    let named = [1.25, 2f64.powi(63).next_down(), 1f64.next_down(), 1.000000001, 2f64.powi(65), 2f64.powi(-64), f64::NAN];
    for (k, x) in named.into_iter().chain((0..80).map(|k| random.ratio(if k < 60 { 3 } else { 66 }))).enumerate() {
        for limit in [[0u16, 3, 5, 9, 15, 65_535][k % 6], 3] {
            list.push(&format!("nearest_fraction {} {limit}", float(x)), pitch::nearest(x, limit), |(n, d, deviation, octaves)| format!("{n} {d} {} {octaves}", written(deviation)));
        }
    }
}

/// The nearest of all fractions: of the known answers and refusals some, and random ratios within limits of every size.
pub fn best_fractions(list: &mut List) {
    let mut random = Random::new(113);
    let known = ANSWERS.into_iter().step_by(3).chain(TRAPS.into_iter().step_by(5)).map(|(x, limit, ..)| (x, limit));
    let refused = REFUSALS.into_iter().step_by(2).map(|(x, limit, _)| (x, limit));
    let drawn = [1u16, 5, 11, 31, 999, 20_001, 65_533, 65_535].map(|limit| (random.ratio(12), limit));
    for (x, limit) in known.chain(refused).chain(drawn) {
        let said = Rules::within(limit).said(x);
        list.push(&format!("best_fraction {} {limit}", float(x)), said, |(n, d, deviation)| format!("{n} {d} {}", written(deviation)));
    }
}

//! Frozen answers on keys that are counted from the middle key: the listed cases and the traps, and random ones; degrees for `replay`,
//! pitches and runs for `replay_tuning`.

use crate::ffi_kbm::Mapping;
use crate::ffi_scl::Push;
use crate::freeze::{List, written};
use crate::freeze_kbm::{fields, table};
use crate::freeze_scl::lent;
use crate::freeze_tuning::{MAPPED, OLD_HZ, OLD_NUMBER, asked, listed_run, mapped, root_of};
use crate::inputs::Random;
use crate::middle;
use crate::middle_cases::{Case, LISTED};
use crate::middle_inputs::{Lent, keys, random, scales};
use crate::middle_traps::{RUNS, TRAPS};
use crate::rules_middle;
use crate::tuning::Built;

/// Random mappings, and how many keys or runs of each are asked.
const RANDOM: usize = 100;

fn cases() -> impl Iterator<Item = &'static Case> {
    LISTED.iter().chain(&TRAPS)
}

/// Mappings whose tables the programs have places for.
fn mappings(seed: u64) -> impl Iterator<Item = Lent> {
    let mut stream = Random::new(seed);
    std::iter::repeat_with(move || random(&mut stream)).filter(|(_, map)| map.len() <= MAPPED).take(RANDOM)
}

/// A key of a mapping, most often one of its range.
fn drawn_key(stream: &mut Random, m: Mapping, map: &[i32]) -> i32 {
    let all: Vec<i32> = keys(m).into_iter().collect();
    let within: Vec<i32> = all.iter().copied().filter(|&key| rules_middle::degree(m, map, key) != Err(16)).collect();
    let from = if within.is_empty() || stream.next() % 6 == 0 { all } else { within };
    from[stream.next() as usize % from.len()]
}

fn degree(list: &mut List, m: Mapping, map: &[i32], key: i32) {
    list.push(&format!("middle_degree {key} {} {}", fields(m), table(map)), middle::degree(m, map, key), |degree| degree.to_string());
}

pub fn degrees(list: &mut List) {
    let mut stream = Random::new(113);
    for case in cases() {
        degree(list, case.mapping, case.map, case.key);
    }
    for (m, map) in mappings(114) {
        for _ in 0..2 {
            let key = drawn_key(&mut stream, m, &map);
            degree(list, m, &map, key);
        }
    }
}

/// Items in the columns that the program lends, and no list.
fn scale(pushes: &[Push]) -> Built {
    let (mut b, mut columns) = (Built::lent(pushes), lent());
    columns.put_items(0, &(0..=pushes.len()).filter_map(|k| b.columns.item(k)).collect::<Vec<_>>());
    b.columns = columns;
    b
}

fn pitch(list: &mut List, b: &Built, m: Mapping, map: &[i32], key: i32) {
    let call = asked("middle_key", b.count, root_of(m), key, 0.0, &mapped(m, map, 0), &b.columns);
    list.push(&call, middle::pitch(b, m, map, key), written);
}

fn run(list: &mut List, b: &Built, m: Mapping, map: &[i32], first: i32, count: u32) {
    let old = (vec![OLD_HZ.to_bits(); MAPPED], vec![OLD_NUMBER; MAPPED]);
    let said = middle::run(b, m, map, (first, count), &old);
    let (hz, numbers) = said.value.clone();
    let (hz, numbers) = (std::array::from_fn(|k| f64::from_bits(hz[k])), std::array::from_fn(|k| numbers[k]));
    listed_run(list, ("middle_run", b, m, map), first, count as usize, said.map(|_| ()), hz, numbers);
}

pub fn pitches(list: &mut List) {
    let mut stream = Random::new(115);
    for case in cases() {
        pitch(list, &scale(case.items), case.mapping, case.map, case.key);
    }
    // the program's places are always as many: 12 is asked once
    for case in RUNS.into_iter().filter(|case| case.said != Err(12) || case.keys as usize > MAPPED) {
        run(list, &scale(case.items), case.mapping, case.map, case.first, case.keys.min(MAPPED as u32 + 1));
    }
    let scales: Vec<Built> = scales().iter().map(|b| scale(&b.pushes)).filter(|b| b.count <= 4).collect();
    for (k, (m, map)) in mappings(116).enumerate() {
        let (b, key) = (&scales[k % scales.len()], drawn_key(&mut stream, m, &map));
        pitch(list, b, m, &map, key);
        if k % 2 == 0 {
            run(list, b, m, &map, key.saturating_sub(3), stream.next() as u32 % 9);
        }
    }
}

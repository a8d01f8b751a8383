//! Frozen answers on mappings: files, degrees, exports, roots, pushes and builds.

use crate::backwards_builds::State;
use crate::backwards_cases::{BUILDS, LENT, READS};
use crate::ffi_kbm::Mapping;
use crate::freeze::{List, float, hex, refusal};
use crate::inputs::Random;
use crate::kbm_build::{self, Run};
use crate::kbm_read::{self, PATTERN};
use crate::kbm_use::{self, SAMPLE, WIDE};
use crate::lent::Float;
use crate::rules::UNMAPPED;
use crate::rust_kbm;
use crate::tally::{Code, Said, Who};

/// The seven fields of a mapping.
pub fn fields(m: Mapping) -> String {
    format!("{} {} {} {} {} {} {}", m.count, m.start, m.end, m.reference, float(m.pitch()), m.offset, m.octave)
}

/// A table: its places, and each of them.
pub fn table(map: &[i32]) -> String {
    let places: Vec<String> = map.iter().map(|z| format!(" {z}")).collect();
    format!("{}{}", map.len(), places.concat())
}

/// A degree or a formal octave that may lack: 1 and the number, or 0 and 0.
fn optional(number: Option<i16>) -> String {
    number.map_or("0 0".to_string(), |number| format!("1 {number}"))
}

fn read(list: &mut List, text: &[u8], room: usize) {
    let said = kbm_read::said(text, room);
    let after = table(&said.value.1);
    list.push_with(&format!("read {} {room}", hex(text)), said, |(m, _)| fields(m), &after);
}

fn reads(list: &mut List) {
    // each damaged line of a file, then damaged copies, few of each kind
    let texts = kbm_read::texts();
    let short: Vec<&Vec<u8>> = texts.iter().filter(|t| t.len() <= 60).collect();
    for (k, file) in kbm_read::FILES.iter().enumerate() {
        read(list, file.as_bytes(), 12 - k % 3);
    }
    for (k, text) in short.iter().skip(6).step_by(short.len() / 140).enumerate() {
        read(list, text, [3, 0, 8, 1][k % 4]);
    }
    for line in 0..8 {
        for token in ["2147483647", "1e3", "x", "440.", "-1", "5\u{c}6", "1048577"] {
            let mut changed: Vec<&str> = kbm_read::EXAMPLE.lines().collect();
            changed[line] = token;
            read(list, changed.join("\n").as_bytes(), 4);
        }
    }
    // more entries than the size, with room for them
    for size in ["0\n", "1\n"] {
        read(list, kbm_read::EXAMPLE.replacen("3\n", size, 1).as_bytes(), 4);
    }
}

fn degree(list: &mut List, m: Mapping, map: &[i32], key: i32) {
    list.push(&format!("degree {key} {} {}", fields(m), table(map)), kbm_use::degree(m, map, key), |degree| degree.to_string());
}

fn degrees(list: &mut List) {
    let mut random = Random::new(105);
    for key in [60, 61, 63, 59, 128, -1, 0, 127] {
        degree(list, SAMPLE, &[0, UNMAPPED, 2], key);
    }
    for key in [-65_536, 65_536, 0, -1] {
        degree(list, WIDE, &[-1], key);
    }
    degree(list, Mapping { count: 0, reference: -2, ..WIDE }, &[], 2_147_483_646);
    for k in 0..50 {
        let (m, entries) = rust_kbm::random(&mut random, k % 7);
        for key in [random.i32(), m.reference.wrapping_add(1), m.start] {
            degree(list, m, &entries, key);
        }
    }
    for (map, count) in [(vec![0], 2), (vec![40_000], 1), (vec![0, -32_769], 2), (vec![], 1)] {
        let m = Mapping { count, ..SAMPLE };
        list.push(&format!("degree 500 {} {}", fields(m), table(&map)), Said::refused(Who::Rules, 10, 0, 0), |degree: i32| degree.to_string());
    }
}

fn export(list: &mut List, m: Mapping, map: &[i32], room: usize) {
    let said = kbm_use::export(m, map, room);
    let after = hex(&said.value.1);
    list.push_with(&format!("export {room} {} {}", fields(m), table(map)), said, |(size, _)| size.to_string(), &after);
}

fn exports(list: &mut List) {
    let mut random = Random::new(106);
    for k in 0..36 {
        let (mut m, entries) = rust_kbm::random(&mut random, k % 6);
        m.hz = Float::of([261.6256, 440.0, 1.0625, 1.1875, 2f64.powi(20), 2f64.powi(-10), 0.0005 + k as f64][k % 7]);
        let size = match kbm_use::export(m, &entries, 400) {
            Said { code: Code::ACCEPTED, value: (size, _), .. } => size,
            _ => 20,
        };
        export(list, m, &entries, [size, size + 2, size - 1][k % 3]);
    }
    for map in [[0, 40_000, 2], [0, 1, -32_769]] {
        export(list, SAMPLE, &map, 99);
    }
    export(list, Mapping { end: i32::MIN, count: 0, ..SAMPLE }, &[], 9);
    export(list, Mapping { reference: i32::MAX, offset: 1, count: 0, ..SAMPLE }, &[], 9);
    export(list, Mapping { hz: Float::of(0.0), count: 0, end: i32::MIN, ..SAMPLE }, &[], 9);
}

fn pushes(list: &mut List) {
    for hz in [440.0, 2f64.powi(20), 2f64.powi(20).next_up(), 2f64.powi(-10), 2f64.powi(-10).next_down(), 0.0, -440.0, f64::NAN, f64::INFINITY] {
        list.push(&format!("root 60 {} 2", float(hz)), kbm_build::root(60, hz, 2), |()| format!("60 {} 2", float(hz)));
    }
    // pushes onto states that are the table's and that are not
    for (places, room, count) in [(3, 3, 0), (3, 3, 2), (3, 3, 3), (3, 4, 0), (3, 3, 4), (3, 2, 0), (0, 0, 0), (1, 1, 0)] {
        for degree in [Some(-32_768), Some(7), None] {
            let mut map = vec![PATTERN; places];
            let run = Run { room, mapping: SAMPLE, octave: None, pushes: vec![degree; count + 1] };
            let said = if room != places || count > room { Said::refused(Who::Rules, 10, 0, 0) } else { kbm_build::push(&run, count).map(|(after, _)| after) };
            let before = table(&map);
            if said.code == Code::ACCEPTED {
                map[count] = degree.map_or(UNMAPPED, i32::from);
            }
            list.push_with(&format!("push {room} {count} {} {before}", optional(degree)), said, |after| after.to_string(), &table(&map));
        }
    }
}

/// A run: the answer of each push, what is built, and the table.
fn build(list: &mut List, run: &Run) {
    let m = run.mapping;
    let answer = |said: Said<(usize, Vec<i32>)>| if said.code == Code::ACCEPTED { said.value.0.to_string() } else { refusal(said.code) };
    let degrees: Vec<String> = run.pushes.iter().map(|&degree| format!(" {}", optional(degree))).collect();
    let answers: Vec<String> = (0..run.pushes.len()).map(|k| answer(kbm_build::push(run, k))).collect();
    let root = format!("{} {} {}", m.reference, float(m.pitch()), m.offset);
    let range = format!("{} {} {}", m.start, m.end, optional(run.octave));
    let call = format!("build {} {root} {range} {}{}", run.room, degrees.len(), degrees.concat());
    let after = table(&kbm_build::table(run, run.pushes.len().min(run.room)));
    list.push_after(&call, &answers.join(" "), kbm_build::build(run), |(count, octave)| fields(Mapping { count, octave, ..m }), &after);
}

fn builds(list: &mut List) {
    let mut random = Random::new(107);
    for k in 0..60 {
        build(list, &kbm_build::random_run(&mut random, k % 7));
    }
}

/// No builder of a root that cannot be used, and builds of states: usable ones, and a table, a state or an entry that is not.
fn finishes(list: &mut List) {
    for hz in [0.0, 2f64.powi(20).next_up(), f64::NAN] {
        let (m, after) = (Mapping { hz: Float::of(hz), ..SAMPLE }, table(&[PATTERN; 3]));
        let call = format!("build 3 {} {} {} {} {} 1 5 0", m.reference, float(hz), m.offset, m.start, m.end);
        list.push_with(&call, kbm_build::root(m.reference, hz, m.offset), |()| unreachable!(), &after);
    }
    let root = Mapping { reference: 0, octave: 1, ..SAMPLE };
    for (map, room, count) in [(vec![0, UNMAPPED, 2], 3, 3), (vec![-32_768, 32_767], 2, 1), (vec![0], 2, 1), (vec![0], 1, 2), (vec![40_000], 1, 1), (vec![UNMAPPED + 1], 1, 1), (vec![], 1, 0)] {
        let said = if room != map.len() || count > room || map[..count].iter().any(|&entry| kbm_use::is_wrong(entry)) {
            Said::refused(Who::Rules, 10, 0, root)
        } else {
            Said::gives(Who::Rust, rust_kbm::parts(&rust_kbm::of(root, &map[..count])).0)
        };
        list.push_with(&format!("finish {room} {count} {}", table(&map)), said, fields, &table(&map));
    }
}

/// The program's table has 16 places.
const PLACES: usize = 16;

/// Backwards ranges: the texts of the list, those of its builds that pushes lead to, and mappings that are lent by value.
fn backwards(list: &mut List) {
    for (text, room, _) in READS {
        read(list, text, room);
    }
    for case in BUILDS.into_iter().filter(|case| case.4 <= PLACES && case.5 != Err(10)) {
        build(list, &State::listed(case).run());
    }
    for (start, end, key) in LENT.into_iter().step_by(3) {
        let m = Mapping { start, end, ..SAMPLE };
        degree(list, m, &[0, UNMAPPED, 2], key);
        export(list, m, &[0, UNMAPPED, 2], 60);
    }
}

pub fn mappings(list: &mut List) {
    reads(list);
    degrees(list);
    exports(list);
    pushes(list);
    builds(list);
    finishes(list);
    backwards(list);
}

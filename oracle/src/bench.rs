//! Times of the proved library beside the Rust, in one run, as ratios: `cargo run --profile speed -- bench`. Each pair is timed in turns, and the
//! shortest of the turns counts, so that other work on the machine matters little.

use crate::best::Rules;
use crate::lent::Float;
use crate::probe;
use crate::ffi_scl::{self, Columns, Push};
use crate::{ffi, ffi_kbm, rust_scl, scl_read};
use crate::bench_tuning::tunings;
use crate::inputs::Random;
use std::hint::black_box;
use std::time::{Duration, Instant};
use tune::pitch::Ratio;
use tune::powers;

const TURNS: usize = 15;

pub fn shortest(calls: &mut [&mut dyn FnMut()]) -> Vec<Duration> {
    let mut best = vec![Duration::MAX; calls.len()];
    for _ in 0..TURNS {
        for (call, best) in calls.iter_mut().zip(&mut best) {
            let start = Instant::now();
            call();
            *best = start.elapsed().min(*best);
        }
    }
    best
}

/// A line: what it is, the time of one call of ours, and ours over each of the others.
pub fn line(name: &str, calls: usize, times: &[Duration], others: &[&str]) {
    let ours = times[0].as_secs_f64();
    let each = ours * 1e9 / calls as f64;
    if each < 10_000.0 { print!("{name:<40} {each:>9.1} ns a call") } else { print!("{name:<40} {:>9.1} us a call", each / 1000.0) }
    for (time, other) in times[1..].iter().zip(others) {
        print!("   {:>5.2} x {other}", ours / time.as_secs_f64());
    }
    println!();
}

fn sum(xs: &[f64], call: impl Fn(f64) -> f64) {
    black_box(xs.iter().map(|&x| call(x)).sum::<f64>());
}

/// The two calls as they are: counting them would take a tenth of their time.
mod uncounted {
    unsafe extern "C" {
        pub fn telbijan_exp2(x: f64, power: *mut f64) -> u64;
        pub fn telbijan_log2(x: f64, logarithm: *mut f64) -> u64;
    }
}

fn exponents_and_values() {
    let mut random = Random::new(200);
    let exponents: Vec<f64> = (0..4096).map(|_| random.unit() * 20.0 - 10.0).collect();
    let values: Vec<f64> = (0..4096).map(|_| random.ratio(10)).collect();
    let ours = |call: ffi::One, x: f64| {
        let mut answer = 0.0;
        unsafe { call(x, &mut answer) };
        answer
    };
    let times = shortest(&mut [
        &mut || sum(&exponents, |x| ours(uncounted::telbijan_exp2, x)),
        &mut || sum(&exponents, |x| powers::e(x).unwrap()),
        &mut || sum(&exponents, f64::exp2),
    ]);
    line("E (exp2)", exponents.len(), &times, &["E with u128 in Rust", "libm's exp2"]);
    let times = shortest(&mut [
        &mut || sum(&values, |x| ours(uncounted::telbijan_log2, x)),
        &mut || sum(&values, |x| powers::l(x).unwrap()),
        &mut || sum(&values, f64::log2),
    ]);
    line("L (log2)", values.len(), &times, &["L with u128 in Rust", "libm's log2"]);
}

fn fractions() {
    let mut random = Random::new(201);
    let ratios: Vec<f64> = (0..512).map(|_| random.ratio(3)).collect();
    for limit in [9u16, 65_535] {
        let times = shortest(&mut [
            &mut || ratios.iter().for_each(|&x| { black_box(ffi::nearest_fraction(x, limit)); }),
            &mut || ratios.iter().for_each(|&x| { black_box(Ratio::from_float(x).nearest_fraction(limit)); }),
        ]);
        line(&format!("nearest_fraction, limit {limit}"), ratios.len(), &times, &["the Rust"]);
    }
}

/// The nearest of all, beside the old call and, where few numbers are allowed, beside all pairs of them.
fn best_fractions() {
    let mut random = Random::new(203);
    let ratios: Vec<f64> = (0..32).map(|_| random.ratio(3)).collect();
    for (limit, few) in [(9, true), (31, true), (1_023, false), (65_535, false)] {
        let rules = Rules::within(limit);
        let mut ours = || ratios.iter().for_each(|&x| { black_box(ffi::best_fraction(x, limit)); });
        let mut old = || ratios.iter().for_each(|&x| { black_box(ffi::nearest_fraction(x, limit)); });
        let mut pairs = || ratios.iter().for_each(|&x| { black_box(rules.allowed.by_all_pairs(x)); });
        let mut calls: Vec<&mut dyn FnMut()> = vec![&mut ours, &mut old];
        calls.extend(few.then_some(&mut pairs as &mut dyn FnMut()));
        let times = shortest(&mut calls);
        line(&format!("best_fraction, limit {limit}"), ratios.len(), &times, &["the old call", "all pairs, in Rust"]);
    }
}

/// The same where it takes longest, for the ratio 1, at many limits.
fn longest_fractions() {
    for limit in [1, 5, 9, 15, 31, 255, 1_023, 9_999, 65_535] {
        let times = shortest(&mut [&mut || (0..32).for_each(|_| { black_box(ffi::best_fraction(black_box(1.0), limit)); })]);
        line(&format!("best_fraction of 1.0, limit {limit}"), 32, &times, &[]);
    }
}

/// A text of about a megabyte as a long scale file has it: comments, cents, fractions, integers.
fn long_text() -> Vec<u8> {
    let mut random = Random::new(202);
    let mut text = String::new();
    while text.len() < 1 << 20 {
        let line = match random.next() % 8 {
            0 => "! a comment, as files have them".to_string(),
            1 => format!("  {}/{}   just", 1 + random.next() % 4096, 1 + random.next() % 4096),
            2 => format!("{}", random.next() % 100_000),
            _ => format!(" {:.6} cents", random.unit() * 1200.0),
        };
        text.push_str(&line);
        text.push('\n');
    }
    text.into_bytes()
}

fn our_reading(text: &[u8]) -> f64 {
    let (mut at, mut total) = (0, 0.0);
    while at < text.len() {
        let (end, next) = probe::next_line(text, at);
        if let (_, probe::Line::Content { start, token, .. }) = probe::read_line(text, at, end) {
            let token = &text[start..token];
            if let (_, Float::Is(bits)) = probe::read_decimal(token) {
                total += f64::from_bits(bits);
            } else if let Some(n) = probe::read_u32(token) {
                total += f64::from(n);
            }
        }
        at = next;
    }
    total
}

fn their_reading(text: &[u8]) -> f64 {
    use std::io::BufRead;
    let mut total = 0.0;
    for line in text.lines() {
        let line = line.unwrap();
        let trimmed = line.trim();
        if trimmed.is_empty() || trimmed.starts_with('!') {
            continue;
        }
        let token = trimmed.split_ascii_whitespace().next().unwrap_or("");
        if let Ok(x) = token.parse::<f64>() {
            total += x;
        } else if let Ok(n) = token.parse::<u32>() {
            total += f64::from(n);
        }
    }
    total
}

fn texts() {
    let text = long_text();
    assert_eq!(our_reading(&text), their_reading(&text));
    let times = shortest(&mut [&mut || { black_box(our_reading(&text)); }, &mut || { black_box(their_reading(&text)); }]);
    line("lines, tokens, numerals, a byte", text.len(), &times, &["the Rust"]);
}

/// A text of comments alone, as long ones stand above a scale.
fn comments() {
    for (name, comment) in [
        ("comments, a byte", "! A comment line as files have them, with what the scale is and who made it.\n"),
        ("comments with accents, a byte", "! Une gamme à la manière de Salinas, réglée à l'oreille par un facteur d'orgues.\n"),
    ] {
        let text = comment.repeat(13_000).into_bytes();
        let times = shortest(&mut [&mut || { black_box(our_reading(&text)); }, &mut || { black_box(their_reading(&text)); }]);
        line(name, text.len(), &times, &["the Rust"]);
    }
}

/// The degree of one key: nearly all of it is the test of the lent table.
fn degrees() {
    let text = crate::kbm_read::long(65_535, 65_535);
    let mut map = vec![0; 65_535];
    let (_, mapping) = ffi_kbm::read_kbm(&text, &mut map);
    let times = shortest(&mut [&mut || { black_box(ffi_kbm::scale_degree_of(mapping, &map, 60)); }]);
    line("test of a table, an entry of 65,535", 65_535, &times, &[]);
}

fn mappings() {
    let text = crate::kbm_read::long(65_535, 65_535);
    let mut map = vec![0; 65_535];
    let times = shortest(&mut [
        &mut || {
            black_box(ffi_kbm::read_kbm(&text, &mut map));
        },
        &mut || {
            black_box(tune::scala::Kbm::import(&text[..]).unwrap());
        },
    ]);
    line("read a mapping, an entry of 65,535", 65_535, &times, &["the Rust"]);
    let (_, mapping) = ffi_kbm::read_kbm(&text, &mut map);
    let kbm = tune::scala::Kbm::import(&text[..]).unwrap();
    let mut out = vec![0; 1 << 20];
    let times = shortest(&mut [
        &mut || {
            black_box(ffi_kbm::export_kbm(mapping, &map, &mut out));
        },
        &mut || {
            black_box(kbm.export().to_string());
        },
    ]);
    line("write a mapping, an entry of 65,535", 65_535, &times, &["the Rust"]);
}

/// The Rust on the second E and L, and with its own exp2 and log2.
pub fn untouched(call: impl FnOnce()) {
    powers::use_untouched(true);
    call();
    powers::use_untouched(false);
}

const RUSTS: [&str; 2] = ["the Rust on E and L with u128", "the Rust untouched"];

/// Reading a scale file, a note: one as in use, many times over, and the longest.
fn scale_files() {
    let small = scl_read::FILES[0].as_bytes().to_vec();
    let few = scl_read::FILES[2].as_bytes().to_vec();
    for (name, text, notes, times) in [("read a scale of 12 notes", small, 12, 1000), ("read a scale of 13 notes, in cents", few, 13, 1000), ("read a scale, a note of 65,535", scl_read::long(65_535, 65_535), 65_535, 1)] {
        let mut columns = Columns::new([notes + 1; 7]);
        let read = || drop(black_box(tune::scala::Scl::import(&text[..]).unwrap()));
        let took = shortest(&mut [
            &mut || (0..times).for_each(|_| { black_box(ffi_scl::read_scl(&text, &mut columns)); }),
            &mut || (0..times).for_each(|_| read()),
            &mut || untouched(|| (0..times).for_each(|_| read())),
        ]);
        line(name, if times == 1 { notes } else { times }, &took, &RUSTS);
    }
}

/// Writing a scale: one as in use, many times over, and the longest. The Rust's text is a new string each time; ours goes into lent bytes.
fn scale_exports() {
    for (name, text, notes, times) in [
        ("write a scale of 12 notes", scl_read::FILES[0].as_bytes().to_vec(), 12, 1000),
        ("write a scale of 13 notes, in cents", scl_read::FILES[2].as_bytes().to_vec(), 13, 1000),
        ("write a scale, a note of 65,535", scl_read::long(65_535, 65_535), 65_535, 1),
    ] {
        let mut columns = Columns::new([notes + 1; 7]);
        let (_, (count, start, end)) = ffi_scl::read_scl(&text, &mut columns);
        let description = &text[start..end];
        let scl = tune::scala::Scl::import(&text[..]).unwrap();
        let mut out = vec![0; description.len() + 7 + 22 * notes];
        assert_eq!(ffi_scl::export_scl(description, &mut columns, count, &mut out).1, scl.export().to_string().len());
        let took = shortest(&mut [
            &mut || (0..times).for_each(|_| { black_box(ffi_scl::export_scl(description, &mut columns, count, &mut out)); }),
            &mut || (0..times).for_each(|_| drop(black_box(scl.export().to_string()))),
        ]);
        line(name, if times == 1 { notes } else { times }, &took, &["the Rust"]);
    }
}

/// Orders in which items come: as they sort, and ways to make that hard.
fn orders(items: usize) -> [(&'static str, Vec<Push>); 5] {
    let n = items as f64;
    let all = |at: &dyn Fn(usize) -> usize| (1..=items).map(|k| if k == items { Push::Int(2) } else { Push::Cents(1200.0 * at(k) as f64 / n) }).collect::<Vec<_>>();
    [
        ("in order", all(&|k| k)),
        ("descending", all(&|k| items - k)),
        ("interleaved", all(&|k| if k % 2 == 0 { k / 2 } else { items - 1 - k / 2 })),
        ("one out of order", all(&|k| if k == 1 { items - 1 } else { k - 1 })),
        ("at random", all(&|k| k * 40_503 % 65_537 * items / 65_537)),
    ]
}

fn builds() {
    for items in [4_096, 16_384, 65_535] {
        for (order, pushes) in orders(items) {
            let mut columns = Columns::new([items + 1; 7]);
            let mut ready = columns.clone();
            let fill = |columns: &mut Columns| {
                let (_, room) = ffi_scl::new_scl(columns);
                pushes.iter().enumerate().for_each(|(k, &push)| { black_box(ffi_scl::push(columns, room, k, push)); });
                room
            };
            let room = fill(&mut ready);
            let build = || drop(black_box(rust_scl::pushes(&pushes).build_with_description("").unwrap()));
            let took = shortest(&mut [
                &mut || {
                    let room = fill(&mut columns);
                    black_box(ffi_scl::build_scl(&mut columns, room, items));
                },
                &mut || build(),
                &mut || untouched(build),
                &mut || { black_box(ffi_scl::build_scl(&mut ready, room, items)); },
            ]);
            line(&format!("build {items}, {order}, an item"), items, &took, &[RUSTS[0], RUSTS[1], "its build without the pushes"]);
        }
    }
}

pub fn bench() {
    exponents_and_values();
    fractions();
    best_fractions();
    longest_fractions();
    texts();
    comments();
    scale_files();
    scale_exports();
    builds();
    degrees();
    mappings();
    tunings();
}

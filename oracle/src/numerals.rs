//! Numerals beside `str::parse` and `format!`: short texts exhaustively over telling alphabets, limits, halfway decimals, random ones.

use crate::inputs::{Random, f64_limits, fixed, i32_limits, u32_limits};
use crate::lent::Float;
use crate::probe;
use crate::tally::{Code, Report, Said, Tally, Who};
use crate::texts::rows;
use std::str::FromStr;

fn alphabet(letters: &str) -> Vec<&[u8]> {
    (0..letters.len()).map(|k| &letters.as_bytes()[k..k + 1]).collect()
}

fn integer_texts() -> Vec<Vec<u8>> {
    let letters = alphabet("+-0129:/ ");
    let mut found: Vec<Vec<u8>> = (0..=5).flat_map(|count| rows(&letters, count)).collect();
    for limit in fixed([0i64, 127, 255, 32_767, 32_768, 65_535, 2_147_483_647, 2_147_483_648, 4_294_967_295, 1 << 40, i64::MAX - 5]) {
        for near in -3..=3 {
            for z in [limit + near, -limit + near] {
                for prefix in ["", "+", "000", "+0000000000000000000000000", "-", "--"] {
                    found.push(format!("{prefix}{z}").into_bytes());
                    found.push(format!("-{prefix}{z}").into_bytes());
                }
            }
        }
    }
    let mut random = Random::new(13);
    found.extend((0..200_000).map(|_| {
        let mut text: Vec<u8> = (0..1 + random.next() % 12).map(|_| b'0' + (random.next() % 10) as u8).collect();
        match random.next() % 6 {
            0 => text.insert(0, b'-'),
            1 => text.insert(0, b'+'),
            2 => text.push((random.next() % 256) as u8),
            _ => {}
        }
        text
    }));
    found
}

/// What `str::parse` makes of a text.
pub fn their_integer<T: FromStr>(text: &[u8]) -> Option<T> {
    std::str::from_utf8(text).ok().and_then(|s| s.parse().ok())
}

fn integers<T: FromStr + PartialEq + std::fmt::Debug>(all: &mut Report, name: &str, ours: fn(&[u8]) -> Option<T>) {
    all.function(name, &[3], |tally| {
        for text in integer_texts() {
            let said = ours(&text);
            let code = if said.is_none() { Code::refusal(3, 0) } else { Code::ACCEPTED };
            let theirs = match their_integer(&text) {
                None => Said::refused(Who::Rust, 3, 0, None),
                value => Said::gives(Who::Rust, value),
            };
            tally.same(&text, (code, said), theirs);
        }
    });
}

/// Document 01's rule for 9, on a text that Rust reads: an exponent, a word, over 18 digits from the first nonzero digit on, over 18
/// after the dot.
pub fn supported(text: &str) -> bool {
    let digits: String = text.chars().filter(char::is_ascii_digit).collect();
    let after = text.split_once('.').map_or(0, |(_, part)| part.len());
    text.chars().all(|c| c.is_ascii_digit() || "+-.".contains(c)) && digits.trim_start_matches('0').len() <= 18 && after <= 18
}

pub fn their_decimal(text: &[u8]) -> Said<Float> {
    let Some((text, value)) = std::str::from_utf8(text).ok().and_then(|s| Some((s, s.parse::<f64>().ok()?))) else {
        return Said::refused(Who::Rust, 7, 0, Float::Untouched);
    };
    if supported(text) { Said::gives(Who::Rust, Float::of(value)) } else { Said::refused(Who::Rules, 9, 0, Float::Untouched) }
}

fn decimal_texts() -> Vec<Vec<u8>> {
    let numbers = alphabet("+-.015e");
    let words = alphabet("+-.0eEinfatyNAI");
    let mut found: Vec<Vec<u8>> = (0..=6).flat_map(|count| rows(&numbers, count)).chain((0..=4).flat_map(|count| rows(&words, count))).collect();
    for word in fixed(["inf", "infinity", "nan", "INFINITY", "iNfInItY", "NaN", "infinit", "infinityy", "nann", "in", "1e", "1e+", ".e5", "1.e5", "nan.", "38400.0000000000001"]) {
        for prefix in ["", "+", "-", "++", " "] {
            found.push(format!("{prefix}{word}").into_bytes());
        }
    }
    let mut random = Random::new(14);
    for _ in 0..150_000 {
        // 15 to 20 digits with a dot anywhere, some with zeros before or after
        let count = 1 + random.next() % 20;
        let mut text: String = (0..count).map(|_| char::from(b'0' + (random.next() % 10) as u8)).collect();
        text.insert(random.next() as usize % (text.len() + 1), '.');
        if random.next() % 4 == 0 {
            text.insert_str(0, "0000");
        }
        if random.next() % 4 == 0 {
            text.insert(0, '-');
        }
        found.push(text.into_bytes());
    }
    for _ in 0..50_000 {
        // halfway between two neighbours, where 18 digits write it: m + 1/2 for m from 2^52 on, and halves above 2^53
        let m = (1u64 << 52) + random.next() % (1 << 52);
        found.push(format!("{m}.5").into_bytes());
        found.push(format!("{}", (1u64 << 54) + 2 * (random.next() % (1 << 50)) + 1).into_bytes());
        // a sum of powers of two with few digits
        let eighths = random.next() % 8_000_000;
        found.push(format!("{}.{:03}", eighths / 8, eighths % 8 * 125).into_bytes());
    }
    found
}

/// Numbers to print: limits within 2^53, ties at each number of decimals, cents and Hz.
fn printed() -> Vec<f64> {
    let mut random = Random::new(15);
    let most = 2f64.powi(53);
    let mut found: Vec<f64> = f64_limits().into_iter().filter(|x| x.abs() <= most).collect();
    for k in fixed(0..4000) {
        let ties = k as f64 / 32.0 + 1.0 / 64.0;
        found.extend([ties, -ties, k as f64 / 16.0, -(k as f64) / 8.0]);
    }
    found.extend((0..200_000).map(|k| match k % 5 {
        0 => random.unit() * 2_000_000.0 - 1_000_000.0,
        1 => random.ratio(53).min(most),
        2 => (random.next() % (1 << 53)) as f64 / 16.0,
        3 => random.unit() * 76_800.0 - 38_400.0,
        _ => (random.next() % (1 << 53)) as f64 - 2f64.powi(52),
    }));
    found
}

const PATTERN: u8 = 0xEE;

/// A text written at a place of lent bytes, in room enough, exactly full, one short and none: the place reached and every byte.
fn written(tally: &mut Tally, input: &str, text: &str, write: &dyn Fn(&mut [u8], usize) -> Option<usize>) {
    for (room, at) in [(40, 5), (text.len(), 0), (text.len() + 3, 3), (text.len().saturating_sub(1), 0), (3, 7)] {
        let mut ours = vec![PATTERN; room];
        let reached = write(&mut ours, at);
        let code = if reached.is_none() { Code::refusal(12, 0) } else { Code::ACCEPTED };
        let mut theirs = vec![PATTERN; room];
        let said = if at + text.len() <= room {
            theirs[at..at + text.len()].copy_from_slice(text.as_bytes());
            Said::gives(Who::Rust, (Some(at + text.len()), theirs))
        } else {
            Said::refused(Who::Rules, 12, 0, (None, theirs))
        };
        tally.same(input, (code, (reached, ours)), said);
    }
}

/// What is not to be written: beyond 2^53, no number, over four decimals.
fn unprintable(tally: &mut Tally) {
    let most = 2f64.powi(53);
    for (x, decimals) in [(most.next_up(), 3), (-most.next_up(), 0), (f64::INFINITY, 3), (f64::NEG_INFINITY, 3), (f64::NAN, 3), (f64::MAX, 3), (1.0, 5), (1.0, u64::MAX)] {
        let mut out = [PATTERN; 64];
        let reached = probe::write_fixed(x, decimals, false, &mut out, 0);
        tally.require((reached, out) == (None, [PATTERN; 64]), (x, decimals));
    }
}

pub fn compare(all: &mut Report) {
    integers(all, "parse u16", probe::read_u16);
    integers(all, "parse u32", probe::read_u32);
    integers(all, "parse i16", probe::read_i16);
    integers(all, "parse i32", probe::read_i32);
    all.function("parse f64", &[7, 9], |tally| {
        for text in decimal_texts() {
            tally.same(String::from_utf8_lossy(&text), probe::read_decimal(&text), their_decimal(&text));
        }
    });
    all.function("print f64", &[12], |tally| {
        for x in printed() {
            for decimals in 0..=4u64 {
                let plain = format!("{x:.*}", decimals as usize);
                written(tally, &format!("{x} to {decimals}"), &plain, &|out, at| probe::write_fixed(x, decimals, false, out, at));
            }
            let signed = format!("{x:+.1}");
            written(tally, &format!("{x} with a sign"), &signed, &|out, at| probe::write_fixed(x, 1, true, out, at));
        }
        unprintable(tally);
    });
    all.function("print i32", &[12], |tally| {
        let mut random = Random::new(16);
        for z in i32_limits().into_iter().chain((0..50_000).map(|_| random.i32())) {
            written(tally, &z.to_string(), &z.to_string(), &|out, at| probe::write_i32(z, out, at));
        }
    });
    all.function("print u32", &[12], |tally| {
        let mut random = Random::new(17);
        for n in u32_limits().into_iter().chain((0..50_000).map(|_| random.u32())) {
            written(tally, &n.to_string(), &n.to_string(), &|out, at| probe::write_u32(n, out, at));
        }
    });
}

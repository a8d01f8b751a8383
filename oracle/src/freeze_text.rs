//! Frozen answers on lines, tokens and numerals, in and out.

use crate::freeze::{List, float, hex, written};
use crate::inputs::{Random, i32_limits};
use crate::kbm_use::BYTE;
use crate::probe::Line;
use crate::tally::{Code, Said, Who};
use crate::{numerals, texts};
use std::str::FromStr;

const LINES: [&[u8]; 16] = [
    b"", b"\n", b"\r\n", b"a\r\nb", b"a\rb\n", b" 2 cents\n", b"\t! comment\n", b"\xc2\xa0! comment\n", b"\xef\xbb\xbf! no comment\n", b"2\x0c3\n", b"2\x0b3\n", b"2\xc2\xa0c\n",
    b"d\xc3\xa0\n", b"\xff\n2", b"\xe2\x80\x83x\xe2\x80\x83\n", b"\xed\xa0\x80\n",
];

fn lines(list: &mut List) {
    let mut random = Random::new(102);
    let drawn: Vec<Vec<u8>> = (0..100).map(|_| (0..random.next() % 14).flat_map(|_| texts::PIECES[random.next() as usize % texts::PIECES.len()].to_vec()).collect()).collect();
    for text in LINES.iter().map(|l| l.to_vec()).chain(drawn) {
        let mut ends = texts::their_lines(&text);
        // past the last line, nothing
        ends.push((text.len(), text.len()));
        for (k, &(from, to)) in ends.iter().enumerate().take(4) {
            let next = ends.get(k + 1).map_or(text.len(), |&(next, _)| next);
            list.push(&format!("line {} {from}", hex(&text)), Said::gives(Who::Rust, ()), |()| format!("{to} {next}"));
            let said = texts::their_line(&text, from, to);
            let shown = match (said.code, said.value) {
                (Code::ACCEPTED, Line::Content { start, end, token }) => format!("{start} {end} {token}"),
                (Code::ACCEPTED, Line::Blank) => "blank".to_string(),
                (Code::ACCEPTED, Line::Comment) => "comment".to_string(),
                _ => "not_utf8".to_string(),
            };
            list.push(&format!("says {} {from} {to}", hex(&text)), Said::gives(said.who, shown), |shown| shown);
        }
    }
}

/// An integer is frozen as the float that it is, and none as 2^32.
fn integer<T: FromStr + Into<f64>>(list: &mut List, name: &str, text: &str) {
    let value = numerals::their_integer::<T>(text.as_bytes()).map_or(2f64.powi(32), Into::into);
    list.push(&format!("{name} {}", hex(text.as_bytes())), Said::gives(Who::Rust, value), float);
}

fn integers(list: &mut List) {
    let telling = ["", "+", "-", "+-1", "-0", "+7", "007", "1 ", " 1", "1a", "\u{661}", "65535", "65536", "32767", "32768", "-32768", "-32769", "4294967295", "4294967296", "2147483647", "2147483648", "-2147483648", "-2147483649", "99999999999999999999"];
    let limits: Vec<String> = i32_limits().iter().step_by(11).map(i32::to_string).collect();
    for text in telling.into_iter().chain(limits.iter().map(String::as_str)) {
        integer::<u16>(list, "u16", text);
        integer::<u32>(list, "u32", text);
        integer::<i16>(list, "i16", text);
        integer::<i32>(list, "i32", text);
    }
}

fn decimals(list: &mut List) {
    let telling = [
        "", ".", "+", "-", "5", "5.", ".5", "-0", "-0.0", "+3.25", "1e3", "1.e5", "1e", "1e+", ".e5", "inf", "+inf", "iNfInItY", "-nan", "infinit", "nan.", "1.5.2", "1,5", "38400.0000000000001", "440.0", "261.6256",
        "9007199254740993", "4503599627370496.5", "4503599627370497.5", "123456789012345678", "1234567890123456789", "0.000000000000000001", "0.0000000000000000000", "000000000000000000000000.1", "100000000000000000000.",
    ];
    let mut random = Random::new(103);
    let drawn: Vec<String> = (0..250).map(|_| {
        let mut text: String = (0..1 + random.next() % 18).map(|_| char::from(b'0' + (random.next() % 10) as u8)).collect();
        text.insert(random.next() as usize % (text.len() + 1), '.');
        text
    }).collect();
    for text in telling.into_iter().chain(drawn.iter().map(String::as_str)) {
        let said = numerals::their_decimal(text.as_bytes());
        let shown = match said.code.number() {
            0 => written(said.value),
            9 => "unsupported".to_string(),
            _ => "none".to_string(),
        };
        list.push(&format!("decimal {}", hex(text.as_bytes())), Said::gives(said.who, shown), |shown| shown);
    }
}

/// A text written at a place of so many bytes: the next place, or `full`, and every byte.
fn print(list: &mut List, call: impl Fn(usize, usize) -> String, text: &str) {
    for (room, at) in [(text.len() + 2, 1), (text.len(), 0), (text.len() - 1, 0)] {
        let mut out = vec![BYTE; room];
        let fits = at + text.len() <= room;
        if fits {
            out[at..at + text.len()].copy_from_slice(text.as_bytes());
        }
        let place = if fits { (at + text.len()).to_string() } else { "full".to_string() };
        let who = if fits { Who::Rust } else { Who::Rules };
        list.push(&call(room, at), Said::gives(who, ()), |()| format!("{place} {}", hex(&out)));
    }
}

fn prints(list: &mut List) {
    let mut random = Random::new(104);
    let telling = [0.0, -0.0, 0.0625, 0.1875, -0.0004, 0.0005, 0.5, 1.5, 2.5, 999.9995, 440.0, 261.6256, -38_400.0, 2f64.powi(53), -2f64.powi(53), 1048576.0, 0.0009765625];
    for (k, x) in telling.into_iter().chain((0..12).map(|_| random.unit() * 2000.0 - 1000.0)).enumerate() {
        for (decimals, plus) in [(3, false), (k % 5, k % 2 == 0)] {
            let text = if plus { format!("{x:+.decimals$}") } else { format!("{x:.decimals$}") };
            print(list, |room, at| format!("fixed {room} {at} {} {decimals} {}", float(x), u8::from(plus)), &text);
        }
    }
    for (x, decimals) in [(2f64.powi(53).next_up(), 3), (f64::INFINITY, 3), (f64::NAN, 3), (1.0, 5)] {
        list.push(&format!("fixed 20 0 {} {decimals} 0", float(x)), Said::gives(Who::Rules, ()), |()| format!("full {}", hex(&[BYTE; 20])));
    }
    for z in i32_limits().into_iter().step_by(9) {
        print(list, |room, at| format!("print_i32 {room} {at} {z}"), &z.to_string());
        let n = z as u32;
        print(list, |room, at| format!("print_u32 {room} {at} {n}"), &n.to_string());
    }
}

pub fn texts(list: &mut List) {
    lines(list);
    integers(list);
    decimals(list);
    prints(list);
}

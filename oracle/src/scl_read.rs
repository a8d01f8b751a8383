//! Scale files: ours beside the rules, all seven columns compared whole and by raw bits, and the rules beside the Rust in its domain.

use crate::ffi_scl::{self, Columns, OLD_STORED, Stored};
use crate::inputs::{self, Random, drawn};
use crate::tally::{Code, Report, Said, Tally, Who};
use crate::{rules, rules_scl, rust_scl};

/// What a text should give in columns of these lengths: by the Rust where it is in its domain and says what the rules say, on the second E
/// and L, else by the rules.
pub fn said(text: &[u8], old: &Columns, lengths: [usize; 7]) -> Said<(Stored, Columns)> {
    let ruled = rules_scl::read(text, lengths.into_iter().min().unwrap());
    let rust = rust_scl::read(text);
    let refused = |who, number, detail| Said::refused(who, number, detail, (OLD_STORED, old.clone()));
    match (ruled, rust) {
        (Ok((start, end, items)), Some(Ok(same))) if (&items, &text[start..end]) == (&same.items, same.description.as_bytes()) => {
            let mut columns = old.clone();
            columns.put_items(0, &items);
            columns.put_list(&same.list);
            Said::gives(Who::Second, (((items.len() - 1) as u16, start, end), columns))
        }
        (Err((1, line)), Some(Err((1, 0)))) => refused(Who::Rust, 1, line),
        (Err((number @ (9 | 10 | 12 | 18), detail)), Some(rust)) if may_go_on(number, detail, &rust) => refused(Who::Rules, number, detail),
        (Err((number, detail)), Some(Err(same))) if (number, detail) == same => refused(Who::Rust, number, detail),
        _ => Said::fault((OLD_STORED, old.clone())),
    }
}

/// Whether the Rust may say this of a text that is 9, 10, 12 or 18 by the rules: a text with no place for it may be any; one that is 18
/// is read; else the Rust reads it, or finds a fault after that line. Its refusals 1, 13 and 14 have no line.
fn may_go_on(number: u64, detail: u64, rust: &Result<rust_scl::Parts, rules::Refused>) -> bool {
    match *rust {
        _ if (number, detail) == (12, 0) => true,
        Ok(_) => true,
        Err((1 | 13 | 14, 0)) => number != 18,
        Err((2, _)) => false,
        Err((_, line)) => detail != 0 && line > detail,
    }
}

fn one_read(tally: &mut Tally, text: &[u8], lengths: [usize; 7]) {
    let mut columns = Columns::new(lengths);
    let old = columns.clone();
    let (code, stored) = ffi_scl::read_scl(text, &mut columns);
    tally.same((String::from_utf8_lossy(&text[..text.len().min(300)]), lengths), (code, (stored, columns)), said(text, &old, lengths));
}

/// Files as they are in use: comments, CR LF, cents, fractions, integers, text behind them, one to many notes, no final line end.
pub const FILES: [&str; 9] = [
    "! meanquar.scl\n!\n1/4-comma meantone scale. Pietro Aaron's temperament (1523)\n 12\n!\n 76.04900\n 193.15686\n 310.26471\n 5/4\n 503.42157\n 579.47057\n 696.57843\n 25/16\n 889.73529\n 1006.84314\n 1082.89214\n 2/1\n",
    "! pyth.scl\r\n!\r\n12-tone Pythagorean scale\r\n 12\r\n!\r\n 2187/2048\r\n 9/8\r\n 32/27\r\n 81/64\r\n 4/3\r\n 729/512\r\n 3/2\r\n 6561/4096\r\n 27/16\r\n 16/9\r\n 243/128\r\n 2/1\r\n",
    "Bohlen-Pierce, equal\n13\n146.304\n292.608\n438.913\n585.217\n731.521\n877.825\n1024.130\n1170.434\n1316.738\n1463.042\n1609.347\n1755.651\n3/1",
    "! carlos_alpha.scl\n!\nWendy Carlos' Alpha scale\n 1\n!\n 77.96500 cents, a step\n",
    "  Slendro, out of order   \n 5\n 951.000 cents\n 231.174\n 474.\n 717.0 C5\n 2\n",
    "! An empty scale\nnothing\n0\n",
    "Stretched, with notes below the first\n 6\n -50.5\n 701.955\n 3\n 100.\n -1200.0\n 1210.001\n",
    "à la manière de Salinas, réglé à l'oreille\n3\n5/4 ! third\n3/2 ! fifth\n2 ! octave\n",
    "Downward\n4\n-100.\n-700.0\n1/1\n1/2\n",
];

/// Document 01's sample lines, ../READINGS' traps, and what lies near a limit.
const TOKENS: [&str; 96] = [
    "", "!", ".", "-0", "0", "-0.", "+0.", "+3/+2", "4294967295", "4294967296", "38400.0", "38400.001", "-38400.0", "-38400.001", "38400.0000000000001", "38400.00000000001", "5/ 4", "5 /4", "3/0", "0/3", "1e5", "1.e5", "1.5e2", "0/x", "1/2/3",
    "1.5/2", "1/2.", "-1/2", "1/-2", "1/", "/1", "/", "+", "-", "+2", "-2", "2!comment", "2 !comment", "nan", "nan.", "inf.", ".inf", "NaN", "infinity", "0x10", "1_000", "2,5", "100,0", "100.0c", "100.0 c", "100 .0", ".5", "5.", "-.5", "+.5", "..", "1..2", "1.2.3",
    "0.0000000000000000000", "0.000000000000000000", "100000000000000000000.", "100000000000000000.", "123456789012345678.", "1234567890123456789.", "0.000000000000000001", "0.00000000000000000001", "00000000000000000000001.5", "4294967295/4294967295", "4294967296/1",
    "1/4294967296", "4294967295/1", "1/4294967295", "0.00000000000026", "0.00000000000027", "-0.0000000000002", "0.0001", "1/1", "2\u{b}3", "2\u{c}x", "2\r3", "2\u{a0}c", "2\u{2028}3", "2\u{1f}", "\u{a0}2", "\u{feff}2", "\u{200b}2", "\u{180e}2",
    "\u{3000}2\u{3000}", "2\t3", "x", "65535", "65536", "99999999999999999999999999", "1e", "1200.0.", "2\u{85}",
];

/// What a damaged copy gets.
const LETTERS: &[u8] = b"\n\r 0123456789/!.-+e\xc2\xa0";

pub fn texts() -> Vec<Vec<u8>> {
    let mut found: Vec<Vec<u8>> = FILES.iter().map(|f| f.as_bytes().to_vec()).collect();
    // each telling token as description, as count, as an only item, as an item among others, as the last item
    for token in inputs::fixed(TOKENS) {
        found.push(format!("{token}\n1\n2\n").into_bytes());
        found.push(format!("d\n{token}\n2\n3\n").into_bytes());
        found.push(format!("d\n1\n{token}\n").into_bytes());
        found.push(format!("d\n3\n3/2\n{token}\n2/1\n").into_bytes());
        found.push(format!("d\n3\n3/2\n400.0\n{token}").into_bytes());
        found.push(format!("d\n2\n{token}\n{token}\n").into_bytes());
        // a fault before the count mismatch, and after a fault
        found.push(format!("d\n7\n3/2\n{token}\n2/1\n").into_bytes());
        found.push(format!("d\n1\n{token}\n\n! c\nbad\n").into_bytes());
        found.push([format!("d\n1\n{token}\n").as_bytes(), b"\xff\n"].concat());
    }
    for file in inputs::fixed([FILES[0], FILES[4], FILES[7]]) {
        let lines: Vec<&str> = file.lines().collect();
        for k in 0..=lines.len() {
            found.push(lines[..k].join("\n").into_bytes());
            found.push([&lines[..k].join("\n"), "\n\u{2028}! no comment at first sight\n", &lines[k..].join("\n")].concat().into_bytes());
            found.push([&lines[..k].join("\n"), "\n\u{feff}! text\n", &lines[k..].join("\n")].concat().into_bytes());
            found.push([lines[..k].join("\n").as_bytes(), b"\n\xff\n", lines[k..].join("\n").as_bytes()].concat());
            found.push([lines[..k].join("\n").as_bytes(), b"\n! caf\xe9\n", lines[k..].join("\n").as_bytes()].concat());
            if k < lines.len() {
                let mut less = lines.clone();
                less.remove(k);
                found.push(less.join("\r\n").into_bytes());
            }
        }
    }
    // descriptions: trimmed, with a byte A0 at the end, and what is none
    for description in inputs::fixed(["dà", "  d  ", "\u{3000}d\u{2003}e\u{3000}", "a\rb", "\u{feff}!d", "\u{a0}!d\nd", "d!", "\"quoted\", pitch_values: [x], sorted_pitch_values: [", "\\", "\u{0}"]) {
        found.push(format!("{description}\n1\n2\n").into_bytes());
    }
    // short texts over telling pieces, after no lines, one and two
    let pieces: [&[u8]; 10] = [b"\n", b"\r\n", b"1", b"/", b"!", b" ", b"\x0b", b"-", b".", b"\xff"];
    for before in ["", "d\n", "d\n1\n"] {
        for count in 0..=4 {
            found.extend(crate::texts::rows(&pieces, count).map(|row| [before.as_bytes(), &row].concat()));
        }
    }
    // damaged copies
    let mut random = Random::new(24);
    for _ in drawn(60_000) {
        let mut text = FILES[random.next() as usize % FILES.len()].as_bytes().to_vec();
        damage(&mut random, &mut text);
        found.push(text);
    }
    found
}

/// One to three bytes of a text gone, more or other, or its end gone.
fn damage(random: &mut Random, text: &mut Vec<u8>) {
    for _ in 0..1 + random.next() % 3 {
        if text.is_empty() {
            break;
        }
        let at = random.next() as usize % text.len();
        match random.next() % 4 {
            0 => drop(text.remove(at)),
            1 => text.insert(at, LETTERS[random.next() as usize % LETTERS.len()]),
            2 => text[at] = (random.next() % 256) as u8,
            _ => text.truncate(at + 1),
        }
    }
}

/// A token of an item: of every kind, near others, at limits, or none.
fn random_token(random: &mut Random) -> String {
    match random.next() % 12 {
        0 => TOKENS[random.next() as usize % TOKENS.len()].to_string(),
        1 => format!("{}", 1 + random.next() % 9),
        2 => format!("{}", random.u32()),
        3 => format!("{}/{}", 1 + random.next() % 40, 1 + random.next() % 40),
        4 => format!("{}/{}", random.u32(), random.u32()),
        5 => format!("{:.3}", (random.unit() - 0.5) * 80_000.0),
        6 => format!("{}.", random.next() as i32 % 1300),
        7 => format!("{:.12}", (random.unit() - 0.5) * 0.01),
        8 => format!("{}/10000000", 10_000_000 + random.next() % 40),
        9 => ["2/1", "2", "1/1", "0."][random.next() as usize % 4].to_string(),
        _ => format!("{:.*}", 1 + random.next() as usize % 6, random.unit() * 1300.0),
    }
}

/// A text of at most so many items: mostly a whole scale, else with another count, text behind an item, comments, or damaged.
pub fn random_text(random: &mut Random, most: u64) -> Vec<u8> {
    let items = random.next() % (most + 1);
    let count = if random.next() % 16 == 0 { random.next() % 12 } else { items };
    let end = ["\n", "\r\n"][usize::from(random.next() % 8 == 0)];
    let mut text = format!("d{end}{count}{end}");
    for _ in 0..items {
        let more = ["", "", "", "", " c", "\t! c", "\n! c", "  "][random.next() as usize % 8];
        text.push_str(&format!("{}{more}{end}", random_token(random)));
    }
    let mut text = text.into_bytes();
    if random.next() % 8 == 0 {
        damage(random, &mut text);
    }
    text
}

/// A scale file of so many items that says a count, in no order.
pub fn long(items: usize, count: usize) -> Vec<u8> {
    let mut text = format!("a long scale\n{count}\n");
    for k in 1..=items {
        let turned = (k * 40_503) % 65_537;
        text.push_str(&match k % 4 {
            _ if k == items => "2/1\n".to_string(),
            0 => format!("{}/{}\n", 65_537 + turned, 65_537),
            1 => format!("{turned}\n"),
            _ => format!("{}.{:06}\n", turned % 1200, k % 1_000_000),
        });
    }
    text.into_bytes()
}

/// A text, and the list that document 01's readings give for it.
type Fixed = (&'static str, &'static [(u32, f64, i32)]);

pub const FIXED: [Fixed; 14] = [
    // the repeat rule keeps the lowest ratio, not the first declared; equal bits: the first, by stability
    ("d\n3\n5/3\n80/3\n2/1\n", &[(0, 1.0, 0), (2, 1.666666666666666, 4), (2, 1.666666666666666, 4), (3, 2.0, 0)]),
    ("d\n3\n3/1\n3/2\n2/1\n", &[(0, 1.0, 0), (1, 1.4999999999999998, 1), (1, 1.4999999999999998, 1), (3, 2.0, 0)]),
    // no chaining: the first gives way to 1.0, the second stays
    ("d\n3\n10000008/10000000\n10000016/10000000\n2\n", &[(0, 1.0, 0), (0, 1.0, 0), (2, 1.0000016, 0), (3, 2.0, 0)]),
    ("d\n0\n", &[(0, 1.0, 0)]),
    // a negligible period below 1: no reduction, yet place 0 is overridden
    ("d\n2\n-700.0\n-0.001\n", &[(1, 0.6674199270850171, 0), (2, 0.9999994223775163, 0), (0, 1.0000005776228174, 1)]),
    // a period below 1
    ("d\n2\n-300.\n-1200.\n", &[(2, 1.0, 1), (1, 1.6817928305074288, 1), (0, 2.0, 1)]),
    // the last entry need not be the period
    ("d\n2\n-0.0000000000001\n39/1\n", &[(0, 1.0, 0), (2, 39.0, 0), (2, 39.0, 0)]),
    ("d\n2\n-0.0000000000001\n3/1\n", &[(0, 1.0, 0), (1, 2.9999999999999987, -1), (1, 2.9999999999999987, -1)]),
    ("d\n2\n19999999/10000000\n2\n", &[(0, 1.0, 0), (1, 1.9999999, 0), (1, 1.9999999, 0)]),
    // wraparounds and remainder disagree: three periods are taken away, and nearly a fourth is left
    ("d\n2\n1331/27\n11/3\n", &[(0, 1.0, 0), (1, 3.666666666666666, 3), (1, 3.666666666666666, 3)]),
    // one item whose period is 1.0, or negligible
    ("d\n1\n1/1\n", &[(0, 1.0, 0), (0, 1.0, 0)]),
    ("d\n1\n0.0001\n", &[(0, 1.0, 0), (0, 1.0, 0)]),
    ("d\n1\n0.00000000000026\n", &[(0, 1.0, 0), (0, 1.0, 0)]),
    // two items, the last of them just above 1.0
    ("d\n2\n3/2\n0.00000000000027\n", &[(0, 1.0, 0), (0, 1.0, 0), (1, 1.5, 0)]),
];

/// The fixed cases: ours beside the Rust as ever, and the list as it is written here.
fn fixed(tally: &mut Tally) {
    for (text, list) in FIXED {
        one_read(tally, text.as_bytes(), [list.len(); 7]);
        let mut columns = Columns::new([list.len(); 7]);
        let (code, _) = ffi_scl::read_scl(text.as_bytes(), &mut columns);
        let told: Vec<_> = list.iter().map(|&(place, ratio, wraps)| (place, f64::to_bits(ratio), wraps)).collect();
        tally.require(code == Code::ACCEPTED && columns.list(list.len()) == told, (text, code, &columns));
    }
    // document 01's sample lines, and what the period's ratio decides
    for (line, code) in [
        (".", 4), ("-0", 3), ("+3/+2", 0), ("4294967295", 0), ("4294967296", 3), ("38400.0", 0), ("38400.001", 10), ("5/ 4", 6), ("3/0", 10), ("1e5", 3), ("1.e5", 9), ("2!comment", 3), ("0/x", 6), ("1/2/3", 6), ("1.5/2", 4), ("-1/2", 5),
        ("nan", 3), ("nan.", 4), ("0.0000000000000000000", 9), ("100000000000000000000.", 9), ("38400.0000000000001", 0),
    ] {
        let mut columns = Columns::new([2; 7]);
        let ours = ffi_scl::read_scl(format!("d\n1\n{line}\n").as_bytes(), &mut columns).0;
        tally.require(ours == if code == 0 { Code::ACCEPTED } else { Code::refusal(code, 3) }, (line, ours));
    }
    for (last, code) in [("0.00000000000026", 18), ("0.00000000000027", 0), ("-0.0000000000002", 0), ("1/1", 18), ("0.", 18), ("7/7", 18)] {
        let ours = ffi_scl::read_scl(format!("d\n2\n3/2\n{last}\n").as_bytes(), &mut Columns::new([3; 7])).0;
        tally.require(ours == Code::refusal(code, 0), (last, ours));
    }
}

/// Texts of up to 65,537 items, and a reload.
fn long_texts(tally: &mut Tally) {
    for (items, count) in [(0, 0), (1, 1), (2, 2), (0, 1), (4_096, 4_096), (4_095, 4_096), (65_535, 65_535), (65_535, 65_534), (65_536, 65_535), (65_537, 65_535), (65_536, 0)] {
        let text = long(items, count);
        for room in [items + 1, items + 3, items, 0] {
            one_read(tally, &text, [room; 7]);
        }
    }
    // 13 before 14 and 18: too many items, and the period is 1.0
    let text = [long(65_535, 65_535), b"1/1\n".to_vec()].concat();
    for room in [65_537, 65_600] {
        one_read(tally, &text, [room; 7]);
    }
    // a good scale in use, and a reload whose last item is broken: refused with its line, and every place as before
    let mut columns = Columns::new([16; 7]);
    let (code, _) = ffi_scl::read_scl(FILES[0].as_bytes(), &mut columns);
    assert_eq!(code, Code::ACCEPTED);
    let before = columns.clone();
    let (code, stored) = ffi_scl::read_scl(FILES[0].replace("2/1", "2/1x").as_bytes(), &mut columns);
    tally.same("a broken reload", (code, (stored, columns)), Said::refused(Who::Rust, 6, 17, (OLD_STORED, before)));
}

pub fn compare(all: &mut Report) {
    all.function("Scl::import", &[1, 2, 3, 4, 5, 6, 9, 10, 12, 13, 14, 18], |tally| {
        let mut random = Random::new(25);
        let mut other = Random::new(30);
        for text in texts().into_iter().chain(drawn(20_000).map(|_| random_text(&mut other, 18))) {
            for room in [0, 1, 2, 4, 13, 16] {
                // one column is the shortest, the others are longer or not
                let mut lengths = [room; 7];
                lengths.iter_mut().for_each(|length| *length += random.next() as usize % 3);
                lengths[random.next() as usize % 7] = room;
                one_read(tally, &text, lengths);
            }
        }
        if inputs::with_fixed() {
            fixed(tally);
            long_texts(tally);
        }
    });
}

//! Mapping files: ours beside the rules, the whole table compared, and the rules beside the Rust in its domain.

use crate::ffi_kbm::{self, Mapping, OLD_MAPPING};
use crate::inputs::{Random, drawn, fixed};
use crate::tally::{Code, Report, Said, Tally, Who};
use crate::{rules, rust_kbm};

/// What no entry is: a table is filled with it before each call.
pub const PATTERN: i32 = 0x5A5A_5A5A;

/// What a text should give in one room: by the Rust where it is in its domain and says what the rules say, else by the rules. The
/// Rust panics exactly where the last key is the largest number, which is 11. What it makes of a backwards range is not compared, but that
/// it goes past the last key's line.
pub fn said(text: &[u8], room: usize) -> Said<(Mapping, Vec<i32>)> {
    let ruled = rules::read(text, room);
    let rust = rust_kbm::read(text);
    let mut table = vec![PATTERN; room];
    let mut gives = |who, code, mapping: Mapping, entries: &[i32]| {
        table[..entries.len()].copy_from_slice(entries);
        Said { who, code, value: (mapping, table.clone()) }
    };
    match (ruled, rust) {
        (Ok((mapping, entries)), Some(Ok(same))) if (mapping, &entries) == (same.0, &same.1) => gives(Who::Rust, Code::ACCEPTED, mapping, &entries),
        (Err((1, line)), Some(Err((1, 0)))) => gives(Who::Rust, Code::refusal(1, line), OLD_MAPPING, &[]),
        (Err((11, line)), None) => gives(Who::Panics, Code::refusal(11, line), OLD_MAPPING, &[]),
        (Err((number @ (9 | 10 | 12 | 25), detail)), Some(rust)) if may_go_on(number, detail, &rust) => {
            gives(Who::Rules, Code::refusal(number, detail), OLD_MAPPING, &[])
        }
        // no room at a line before the one at which the Rust panics cannot be: entries come after the keys
        (Err((number, detail)), Some(Err(same))) if (number, detail) == same => gives(Who::Rust, Code::refusal(number, detail), OLD_MAPPING, &[]),
        _ => Said::fault((OLD_MAPPING, table)),
    }
}

/// Whether the Rust may say this of a text that is 9, 10, 12 or 25 by the rules, at a line or at the end: it reads the text, or finds a
/// fault after that line. Its refusals 1, 13 and 14 have no line.
fn may_go_on(number: u64, detail: u64, rust: &Result<(Mapping, Vec<i32>), rules::Refused>) -> bool {
    match *rust {
        Ok(_) | Err((1 | 13 | 14, 0)) => true,
        // the last key is the third of the seven lines, and the pitch the sixth
        Err((2, which)) => detail != 0 && number != 12 && which > if number == 25 { 3 } else { 6 },
        Err((_, line)) => detail != 0 && line > detail,
    }
}

/// A text read into a table of so many places. What is accepted has a key in its range.
pub fn one_read(tally: &mut Tally, text: &[u8], room: usize) {
    let mut table = vec![PATTERN; room];
    let (code, mapping) = ffi_kbm::read_kbm(text, &mut table);
    let input = String::from_utf8_lossy(text);
    tally.same(&input, (code, (mapping, table)), said(text, room));
    tally.require(code != Code::ACCEPTED || mapping.start < mapping.end, (&input, "no key is in its range"));
}

pub const EXAMPLE: &str = "3\n0\n127\n62\n60\n261.6256\n5\n0\nX\n";

pub const FILES: [&str; 6] = [
    EXAMPLE,
    "! A typical file\n12\n0\n127\n60\n69\n440.0\n12\n0\n1\n2\n3\n4\n5\n6\n7\n8\n9\n10\n11\n",
    "! Size of map:\r\n7\r\n! First MIDI note number to retune:\r\n0\r\n! Last:\r\n127\r\n! Middle:\r\n60\r\n! Reference:\r\n60\r\n! Frequency:\r\n261.625565\r\n! Octave:\r\n7\r\n0\r\nx\r\n1\r\nx\r\n2\r\n3\r\nx\r\n",
    "0\n0\n127\n60\n69\n440.000\n0\n",
    " 5 entries\n-2147483648\n2147483646\n-32768\n32767\n0.0009765625 Hz\n-32768\n-32768\n32767\nx\n",
    "2\n0\n127\n0\n0\n1048576.\n2\n0\n1",
];

/// What a damaged copy gets.
const LETTERS: &[u8] = b"\n\r 0123456789xX!.-+\xc2\xa0";

pub fn texts() -> Vec<Vec<u8>> {
    let mut found: Vec<Vec<u8>> = FILES.iter().map(|f| f.as_bytes().to_vec()).collect();
    // each required line missing, empty, or with each telling token
    let tokens = [
        "", "!", "x", "X", "-0", "+7", "007", "65535", "65536", "-1", "32767", "32768", "-32768", "-32769", "2147483646", "2147483647", "2147483648", "-2147483648", "-2147483649", "440", "440.",
        ".5", ".", "1e3", "inf", "nan", "-1.0", "0.0", "0.0009765625", "0.0009765624", "1048576", "1048576.0001", "1234567890123456789", "5x", "5!", "x5", "xx", "\u{a0}5", "5\u{b}6", "5\u{c}6", "\u{feff}5", "5\u{a0}6",
    ];
    for file in fixed([FILES[0], FILES[3]]) {
        let lines: Vec<&str> = file.lines().collect();
        for k in 0..lines.len() {
            for token in tokens {
                let mut changed = lines.clone();
                changed[k] = token;
                found.push(changed.join("\n").into_bytes());
            }
            found.push(lines[..k].join("\n").into_bytes());
            found.push([&lines[..k].join("\n"), "\n\u{2028}! not a comment at first\n", &lines[k..].join("\n")].concat().into_bytes());
            found.push([lines[..k].join("\n").as_bytes(), b"\n\xff\n", lines[k..].join("\n").as_bytes()].concat());
        }
    }
    // short texts over telling pieces, after no lines, six and seven
    let pieces: [&[u8]; 9] = [b"\n", b"\r\n", b"1", b"x", b"!", b" ", b"\x0b", b"-", b"\xff"];
    for before in ["", "1\n0\n9\n0\n0\n9\n", "1\n0\n9\n0\n0\n9\n0\n"] {
        for count in 0..=4 {
            found.extend(crate::texts::rows(&pieces, count).map(|row| [before.as_bytes(), &row].concat()));
        }
    }
    // damaged copies
    let mut random = Random::new(18);
    for _ in drawn(60_000) {
        let mut text = FILES[random.next() as usize % FILES.len()].as_bytes().to_vec();
        for _ in 0..1 + random.next() % 3 {
            if text.is_empty() {
                break;
            }
            let at = random.next() as usize % text.len();
            match random.next() % 4 {
                0 => drop(text.remove(at)),
                1 => text.insert(at, LETTERS[random.next() as usize % LETTERS.len()]),
                2 => text[at] = (random.next() % 256) as u8,
                _ => text.truncate(at + 1),
            }
        }
        found.push(text);
    }
    found
}

/// A token where an integer should be: usual, at the limits of 16 and 32 bits, or none.
fn random_integer(random: &mut Random) -> String {
    let limits = [0i64, 32_767, -32_768, 65_535, 2_147_483_646, -2_147_483_648];
    match random.next() % 16 {
        0 => (limits[random.next() as usize % 6] + random.next() as i64 % 3 - 1).to_string(),
        1 => format!("{}{}", ["+", "-", "0", "x", ".", "-0"][random.next() as usize % 6], random.next() % 200),
        _ => (random.next() % 128).to_string(),
    }
}

/// A token where a pitch should be, with any number of decimals.
fn random_pitch(random: &mut Random) -> String {
    match random.next() % 8 {
        0 => random_integer(random),
        1 => format!("{:.*}", random.next() as usize % 22, random.ratio(22)),
        2 => ["0.0009765625", "0.00097656249", "1048576", "1048576.0000001", "4e2", "inf", "-1.0", "NaN"][random.next() as usize % 8].to_string(),
        _ => format!("{:.*}", random.next() as usize % 6, random.unit() * 1000.0),
    }
}

/// A first and a last key, mostly in their order.
fn random_range(random: &mut Random) -> [String; 2] {
    let mut keys = [random_integer(random), random_integer(random)];
    if random.next() % 8 != 0 {
        keys.sort_by_key(|key| key.parse::<i64>().unwrap_or_default());
    }
    keys
}

/// A text of at most so many entries: mostly a whole mapping, else with another size, text behind a token, comments, or fewer lines.
fn random_text(random: &mut Random, most: u64) -> Vec<u8> {
    let entries = random.next() % (most + 1);
    let size = if random.next() % 4 == 0 { random.next() % 20 } else { entries };
    let mut lines = vec![size.to_string()];
    lines.extend(random_range(random));
    lines.extend((0..2).map(|_| random_integer(random)));
    lines.extend([random_pitch(random), random_integer(random)]);
    lines.extend((0..entries).map(|_| if random.next() % 4 == 0 { ["x", "X", "x ", "xx"][random.next() as usize % 4].to_string() } else { random_integer(random) }));
    if random.next() % 16 == 0 {
        lines.truncate(random.next() as usize % 8);
    }
    let end = ["\n", "\r\n"][usize::from(random.next() % 8 == 0)];
    let behind = ["", "", "", " Hz", "\t! c", "\n! c", "\n", "\u{a0}"];
    lines.iter().map(|line| format!("{line}{}{end}", behind[random.next() as usize % 8])).collect::<String>().into_bytes()
}

/// One text in 64 with so many comments before it that its lines stand far down.
fn headed(k: usize, text: Vec<u8>) -> Vec<u8> {
    let head = if k % 64 == 0 { k / 64 * 7 % 600 } else { 0 };
    [b"! head\n".repeat(head), text].concat()
}

/// A mapping file of so many entries that says a size.
pub fn long(entries: usize, size: usize) -> Vec<u8> {
    let mut text = format!("{size}\n0\n127\n60\n60\n440.0\n12\n");
    for k in 0..entries {
        text.push_str(&if k % 5 == 3 { "x\n".to_string() } else { format!("{}\n", k as i64 % 65_536 - 32_768) });
    }
    text.into_bytes()
}

pub fn compare(all: &mut Report) {
    all.function("Kbm::import", &[1, 2, 3, 7, 8, 9, 10, 11, 12, 13, 14, 25], |tally| {
        let mut random = Random::new(31);
        for text in texts().into_iter().chain(drawn(20_000).map(|k| headed(k, random_text(&mut random, 12)))) {
            for room in [0, 1, 2, 3, 8, 12] {
                one_read(tally, &text, room);
            }
        }
        for (entries, size) in fixed([(0, 0), (1, 1), (0, 1), (8_192, 8_192), (8_191, 8_192), (8_193, 8_192), (65_535, 65_535), (65_536, 65_535), (65_537, 65_535), (0, 65_535)]) {
            let text = long(entries, size);
            for room in [entries.max(size), entries.max(size) + 2, entries.max(size).saturating_sub(1), 0] {
                one_read(tally, &text, room);
            }
        }
        // a good table in use, and a reload whose ninth entry is broken: refused with its line, and every place as before
        let good = FILES[1].as_bytes();
        let mut table = vec![PATTERN; 16];
        let (code, _) = ffi_kbm::read_kbm(good, &mut table);
        assert_eq!(code, Code::ACCEPTED);
        let before = table.clone();
        let broken = FILES[1].replace("\n8\n", "\n8z\n");
        let (code, mapping) = ffi_kbm::read_kbm(broken.as_bytes(), &mut table);
        tally.same("a broken reload", (code, (mapping, table)), Said::refused(Who::Rust, 8, 17, (OLD_MAPPING, before)));
    });
}

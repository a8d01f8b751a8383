//! Lines, UTF-8, trimming and tokens beside Rust's std: short texts exhaustively over telling pieces, every scalar value, random
//! long texts.

use crate::inputs::{Random, fixed};
use crate::probe::{self, Line};
use crate::tally::{Code, Report, Said, Who};
use std::io::BufRead;

/// Pieces that lines, trimming and tokens turn on: ends, spaces of one, two and three bytes, what looks like them, broken UTF-8.
pub const PIECES: [&[u8]; 20] = [
    b"\n", b"\r", b"\r\n", b" ", b"\t", b"\x0b", b"\x0c", b"!", b"a", b"2", b"\x1f", b"\xc2\x85", b"\xc2\xa0", b"\xe2\x80\x83", b"\xe2\x80\xa8",
    b"\xe2\x80\x8b", b"\xef\xbb\xbf", b"\xff", b"\x80", b"\xe2\x80",
];

/// Every row of `count` pieces: fixed inputs.
pub fn rows<'a>(pieces: &'a [&'a [u8]], count: usize) -> impl Iterator<Item = Vec<u8>> + 'a {
    fixed(0..pieces.len().pow(count as u32)).map(move |mut k| {
        let mut row = Vec::new();
        for _ in 0..count {
            row.extend_from_slice(pieces[k % pieces.len()]);
            k /= pieces.len();
        }
        row
    })
}

fn random_rows() -> impl Iterator<Item = Vec<u8>> {
    let mut random = Random::new(12);
    (0..100_000).map(move |_| {
        let mut row = Vec::new();
        for _ in 0..random.next() % 60 {
            row.extend_from_slice(PIECES[random.next() as usize % PIECES.len()]);
        }
        row
    })
}

/// Overlong forms, surrogates, numbers past the last, cut characters.
const BROKEN: [&[u8]; 10] =
    [b"\xc0\x80", b"\xc1\xbf", b"\xe0\x80\x80", b"\xe0\x9f\xbf", b"\xed\xa0\x80", b"\xed\xbf\xbf", b"\xf0\x80\x80\x80", b"\xf4\x90\x80\x80", b"\xf5\x80\x80\x80", b"\xf0\x9f\x98"];

fn texts() -> impl Iterator<Item = Vec<u8>> {
    let scalars = fixed(0..=0x10FFFFu32).filter_map(char::from_u32).map(|c| format!("{c}a {c}\n").into_bytes());
    let broken = fixed(&BROKEN).flat_map(|b| [b.to_vec(), [b"a", *b].concat(), [*b, b"\n2"].concat()]);
    (0..=4).flat_map(|count| rows(&PIECES, count)).chain(random_rows()).chain(scalars).chain(broken)
}

/// The lines of a text, as starts and ends, the way `BufRead::lines` cuts them (that one stops at the first line that is not UTF-8).
pub fn their_lines(text: &[u8]) -> Vec<(usize, usize)> {
    let mut found = Vec::new();
    let mut at = 0;
    for line in text.split_inclusive(|&b| b == b'\n') {
        let bare = line.strip_suffix(b"\n").map_or(line, |l| l.strip_suffix(b"\r").unwrap_or(l));
        found.push((at, at + bare.len()));
        at += line.len();
    }
    if let Ok(whole) = std::str::from_utf8(text) {
        let read: Vec<String> = whole.as_bytes().lines().map(Result::unwrap).collect();
        assert!(found.iter().map(|&(a, b)| &whole[a..b]).eq(read.iter().map(String::as_str)));
    }
    found
}

fn our_lines(text: &[u8]) -> Vec<(usize, usize)> {
    let mut found = Vec::new();
    let mut at = 0;
    while at < text.len() {
        let (end, next) = probe::next_line(text, at);
        found.push((at, end));
        at = next;
    }
    found
}

pub fn their_line(text: &[u8], from: usize, to: usize) -> Said<Line> {
    let Ok(line) = std::str::from_utf8(&text[from..to]) else {
        return Said::refused(Who::Rust, 1, 0, Line::None);
    };
    let trimmed = line.trim();
    if trimmed.is_empty() {
        return Said::gives(Who::Rust, Line::Blank);
    }
    if trimmed.starts_with('!') {
        return Said::gives(Who::Rust, Line::Comment);
    }
    let start = trimmed.as_ptr() as usize - text.as_ptr() as usize;
    let token = trimmed.split_ascii_whitespace().next().unwrap_or("");
    // a trimmed line starts with no space that splits, so its first token starts where it starts
    let token_end = token.as_ptr() as usize - text.as_ptr() as usize + token.len();
    Said::gives(Who::Rust, Line::Content { start, end: start + trimmed.len(), token: token_end })
}

pub fn compare(all: &mut Report) {
    all.function("lines", &[], |tally| {
        for text in texts() {
            tally.same(&text, (Code::ACCEPTED, our_lines(&text)), Said::gives(Who::Rust, their_lines(&text)));
        }
    });
    all.function("what a line says", &[1], |tally| {
        for text in texts() {
            for (from, to) in their_lines(&text) {
                tally.same((&text, from), probe::read_line(&text, from, to), their_line(&text, from, to));
            }
        }
    });
}

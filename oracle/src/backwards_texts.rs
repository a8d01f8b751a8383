//! Texts of mappings whose keys stand in every order, read: by the library, by the rules, and by how each was made.

use crate::backwards_cases::{READ_TRAPS, READS};
use crate::ffi_kbm::{self, OLD_MAPPING};
use crate::inputs::{Random, drawn, fixed, with_fixed};
use crate::kbm_read::{self, FILES, PATTERN, one_read};
use crate::rules::{self, Refused};
use crate::tally::{Code, Said, Tally, Who};

/// So many texts are listed, so many have keys far down, the last below the first, and at least so many others are backwards.
const LISTED: usize = 25 + 24;
const FAR: usize = 14 * 3 * 3;
const LEAST: usize = 25_000;

/// A token of a key and the number that it is, if it is one.
pub type Key<'a> = (&'a str, Option<i32>);

/// Around 0, 60 and 127 and at the ends of 32 bits, spelt otherwise, and past the ends.
const KEYS: [Key; 24] = [
    ("-2147483649", None),
    ("-2147483648", Some(i32::MIN)),
    ("-2147483647", Some(-2_147_483_647)),
    ("-2147483646", Some(-2_147_483_646)),
    ("-128", Some(-128)),
    ("-2", Some(-2)),
    ("-1", Some(-1)),
    ("0", Some(0)),
    ("-0", Some(0)),
    ("1", Some(1)),
    ("59", Some(59)),
    ("60", Some(60)),
    ("+60", Some(60)),
    ("061", Some(61)),
    ("126", Some(126)),
    ("127", Some(127)),
    ("128", Some(128)),
    ("32768", Some(32_768)),
    ("2147483645", Some(2_147_483_645)),
    ("2147483646", Some(2_147_483_646)),
    ("2147483647", Some(i32::MAX)),
    ("2147483648", None),
    ("60.0", None),
    ("x", None),
];

/// The lines behind the last key: middle and reference key, pitch, formal octave and an entry; and what may stand in the place of each, a
/// fault, or a line without content, so that the one after it takes its place.
const LATER: [&[u8]; 5] = [b"60", b"69", b"440.0", b"1", b"0"];
const FAULTS: [[&[u8]; 3]; 5] = [
    [b"x", b"32768", b"\xff"],
    [b"!", b"-32769", b"! \xff"],
    [b"x", b"1e3", b"0"],
    [b"", b"1.0", b"\xff"],
    [b"y", b"32768", b"\xff"],
];

/// What stands behind the last key: all lines good, those from one on missing, one of them a fault, or an entry too many.
fn rests() -> Vec<Vec<&'static [u8]>> {
    let mut found: Vec<Vec<&[u8]>> = (0..=LATER.len()).map(|k| LATER[..k].to_vec()).collect();
    for (k, faults) in FAULTS.iter().enumerate() {
        found.extend(faults.iter().map(|fault| [&LATER[..k], &[*fault], &LATER[k + 1..]].concat()));
    }
    found.push([&LATER[..], &[b"x"]].concat());
    found
}

/// What stands before a line and behind its token: nothing, comments, blank lines, both with white space and text.
pub const AROUND: [(&str, &str); 4] = [("", "\n"), ("! 4\n", "\n"), ("\n \t\n", " 7\n"), ("\t! 3\r\n\u{2003}\r\n\u{a0}", "\t! 2\r\n")];

/// A text, and of its first and its last key the number and the line.
pub struct Made {
    pub text: Vec<u8>,
    pub first: (Option<i32>, u64),
    pub last: (Option<i32>, u64),
}

/// A text under way, and how many lines it has.
#[derive(Default)]
struct Lines {
    text: Vec<u8>,
    count: u64,
}

impl Lines {
    /// A token with what stands around it. The number of its line.
    fn add(&mut self, token: &[u8], (before, behind): (&str, &str)) -> u64 {
        self.text.extend([before.as_bytes(), token, behind.as_bytes()].concat());
        self.count += before.matches('\n').count() as u64 + 1;
        self.count
    }
}

/// A mapping of size 1 with these keys, and behind them these lines.
pub fn made<'a>(first: Key, last: Key, rest: &[&[u8]], mut around: impl FnMut() -> (&'a str, &'a str)) -> Made {
    let mut lines = Lines::default();
    lines.add(b"1", around());
    let at_first = lines.add(first.0.as_bytes(), around());
    let at_last = lines.add(last.0.as_bytes(), around());
    for line in rest {
        lines.add(line, around());
    }
    Made { text: lines.text, first: (first.1, at_first), last: (last.1, at_last) }
}

/// How many lines without content stand before the size, the first and the last key; the line at which the last key then is.
type Down = ([usize; 3], u64);

const DOWN: [Down; 14] = [
    ([9, 0, 0], 12),
    ([10, 0, 0], 13),
    ([0, 10, 0], 13),
    ([0, 0, 10], 13),
    ([20, 0, 0], 23),
    ([300, 0, 0], 303),
    ([0, 300, 0], 303),
    ([0, 0, 300], 303),
    ([100, 100, 52], 255),
    ([100, 100, 53], 256),
    ([100, 100, 54], 257),
    ([0, 0, 65_533], 65_536),
    ([65_534, 0, 0], 65_537),
    ([20_000, 30_000, 50_000], 100_003),
];

/// Keys that stand far down: the first three are backwards; one key, 11 and 3.
const FAR_KEYS: [(Key, Key); 6] = [
    (("60", Some(60)), ("59", Some(59))),
    (("127", Some(127)), ("0", Some(0))),
    (("2147483647", Some(i32::MAX)), ("2147483646", Some(i32::MAX - 1))),
    (("60", Some(60)), ("60", Some(60))),
    (("60", Some(60)), ("2147483647", Some(i32::MAX))),
    (("60", Some(60)), ("x", None)),
];

/// Behind them nothing, the good lines, or a fault.
const FAR_RESTS: [&[&[u8]]; 3] = [&[], &LATER, &[b"x"]];

/// So many lines without content: comments and blank ones by turns.
fn idle(count: usize) -> String {
    ["! 4\n", "\n", " \t! 3\r\n"].into_iter().cycle().take(count).collect()
}

/// A mapping as `made` makes it, with its keys so far down.
pub fn far_made(first: Key, last: Key, rest: &[&[u8]], (before, _): Down) -> Made {
    let before = before.map(idle);
    let mut before = before.iter().map(String::as_str);
    made(first, last, rest, || (before.next().unwrap_or_default(), "\n"))
}

/// Those keys, with each of those rests, at each of those lines.
pub fn far() -> impl Iterator<Item = (Key<'static>, Key<'static>, &'static [&'static [u8]], Down)> {
    let keys = fixed(FAR_KEYS).flat_map(|(first, last)| FAR_RESTS.map(|rest| (first, last, rest)));
    keys.flat_map(|(first, last, rest)| DOWN.map(|down| (first, last, rest, down)))
}

impl Made {
    /// The fault at the first or the last key, by how the text was made.
    fn fault(&self) -> Option<Refused> {
        match (self.first.0, self.last.0) {
            (None, _) => Some((3, self.first.1)),
            (_, None) => Some((3, self.last.1)),
            (_, Some(i32::MAX)) => Some((11, self.last.1)),
            (Some(first), Some(last)) if last < first => Some((25, self.last.1)),
            _ => None,
        }
    }
}

/// Two keys close to each other, or anywhere, in any spelling.
fn random_keys(random: &mut Random) -> [(String, Option<i32>); 2] {
    let first = if random.next() % 2 == 0 { random.i32() } else { (random.next() % 128) as i32 };
    let last = match random.next() % 4 {
        0 => random.i32(),
        1 => (random.next() % 128) as i32,
        _ => first.wrapping_add((random.next() % 5) as i32 - 2),
    };
    [first, last].map(|key| {
        let token = match random.next() % 8 {
            0 => format!("{key:+}"),
            1 => format!("{key:013}"),
            _ => key.to_string(),
        };
        (token, Some(key))
    })
}

fn random_made(random: &mut Random, rests: &[Vec<&[u8]>]) -> Made {
    let keys = random_keys(random);
    let [first, last] = [&keys[0], &keys[1]].map(|(token, key)| (token.as_str(), *key));
    let rest = &rests[random.next() as usize % rests.len()];
    let mut text = made(first, last, rest, || AROUND[(random.next() % 7) as usize % 4]);
    // the last line need not end
    if random.next() % 2 == 0 {
        text.text.pop();
    }
    text
}

/// Every two keys, with every rest and everything around the lines.
pub fn pairs() -> impl Iterator<Item = (Key<'static>, Key<'static>, Vec<&'static [u8]>, usize)> {
    let keys = fixed(KEYS).flat_map(|first| KEYS.map(|last| (first, last)));
    keys.flat_map(|(first, last)| {
        rests().into_iter().flat_map(move |rest| (0..AROUND.len()).map(move |around| (first, last, rest.clone(), around)))
    })
}

/// The texts of the list and the traps, as the rules and the library read them.
fn listed_reads(tally: &mut Tally) {
    let mut met = 0;
    for (text, room, known) in fixed(READS.into_iter().chain(READ_TRAPS)) {
        let ruled = rules::read(text, room).map(|(m, _)| (m.start, m.end, m.count));
        one_read(tally, text, room);
        tally.require(ruled == known, ("by the rules", String::from_utf8_lossy(text)));
        met += 1;
    }
    tally.require(!with_fixed() || met == LISTED, ("listed texts", met));
}

/// A file with its keys swapped.
fn swapped(text: Vec<u8>) -> Vec<u8> {
    String::from_utf8(text).unwrap().replacen("\n0\n127\n", "\n127\n0\n", 1).into_bytes()
}

/// Backwards and too long, or too long for the table, beside the same in order; and a good table in use with a reload whose keys are
/// swapped: every place as before.
fn swapped_reads(tally: &mut Tally) {
    for entries in fixed([65_535, 65_536]) {
        let text = kbm_read::long(entries, 65_535);
        for room in [65_536, 0] {
            one_read(tally, &text, room);
            one_read(tally, &swapped(text.clone()), room);
        }
    }
    let mut table = vec![PATTERN; 16];
    let (code, _) = ffi_kbm::read_kbm(FILES[1].as_bytes(), &mut table);
    assert_eq!(code, Code::ACCEPTED);
    let before = table.clone();
    let (code, mapping) = ffi_kbm::read_kbm(&swapped(FILES[1].into()), &mut table);
    tally.same("a swapped reload", (code, (mapping, table)), Said::refused(Who::Rules, 25, 4, (OLD_MAPPING, before)));
}

/// One text, in a table with no place and with two: whether it is backwards, by how it was made.
fn one_made(tally: &mut Tally, made: &Made) -> bool {
    let (known, ruled) = (made.fault(), rules::read(&made.text, 2).err());
    let as_made = if known.is_some() { ruled == known } else { !matches!(ruled, Some((3 | 11 | 25, line)) if line <= made.last.1) };
    tally.require(as_made, ("by how it was made", &made.text));
    for room in [0, 2] {
        one_read(tally, &made.text, room);
    }
    matches!(known, Some((25, _)))
}

/// Texts whose keys stand far down, each told at its own line.
fn far_reads(tally: &mut Tally) {
    let mut met = 0;
    for (first, last, rest, down) in far() {
        let made = far_made(first, last, rest, down);
        tally.require(made.last.1 == down.1, ("the last key's line", made.last.1, down.1));
        met += usize::from(one_made(tally, &made));
    }
    tally.require(!with_fixed() || met == FAR, ("texts far down", met));
}

pub fn reads(tally: &mut Tally) {
    listed_reads(tally);
    swapped_reads(tally);
    far_reads(tally);
    let (mut random, rests, mut backwards) = (Random::new(35), rests(), 0);
    let all = pairs().map(|(first, last, rest, k)| made(first, last, &rest, || AROUND[k]));
    for made in all.chain(drawn(20_000).map(|_| random_made(&mut random, &rests))) {
        backwards += usize::from(one_made(tally, &made));
    }
    tally.require(!with_fixed() || backwards >= LEAST, ("too few texts", backwards));
}

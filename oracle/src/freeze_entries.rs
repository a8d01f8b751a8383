//! Frozen answers on the sorted list as a slice of structs: reads, builds over the items that were read, and searches in the list that a
//! read left. The program lends seven columns of 16 places and a list of 8 structs, and an answer shows every item and entry of them, `.`
//! being one that is as it was lent.

use crate::ffi_scl::{Columns, Entry, Item, Push, Stored};
use crate::ffi_tuning::{Found, OLD_FOUND};
use crate::freeze::{List, float, hex, written};
use crate::freeze_scl::{PLACES, entry, lent, shown, unless_lent};
use crate::lent::Float;
use crate::rules_tuning as rules;
use crate::tally::{Code, Said, Who};
use crate::tuning::{self, Built};
use crate::{scl_build, scl_read};

const LIST: usize = 8;

fn old() -> Entry {
    (8, 0.5f64.to_bits(), 8)
}

/// The list of structs beside the columns: the entries that were written, and behind them what was there.
fn structs(c: &Columns, entries: usize) -> Vec<Entry> {
    c.list(entries).into_iter().chain(std::iter::repeat(old())).take(LIST).collect()
}

/// Every place of the columns, then every one of the list.
fn places(c: &Columns, entries: usize) -> String {
    shown(c) + &structs(c, entries).into_iter().map(|e| unless_lent(entry(e), entry(old()))).collect::<String>()
}

/// A read in the room of the shortest, which is the list.
fn said(text: &[u8]) -> Said<(Stored, Columns)> {
    scl_read::said(text, &lent(), [LIST; 7])
}

fn entries<T>(said: &Said<T>, count: u16) -> usize {
    if said.code == Code::ACCEPTED { usize::from(count) + 1 } else { 0 }
}

/// Pushes that give these items.
fn pushes(items: &[Item]) -> Vec<Push> {
    let push = |item: &Item| match *item {
        Item::Cents(bits) => Push::Cents(f64::from_bits(bits)),
        Item::Fraction(numer, Some(denom)) => Push::Fraction(numer, denom),
        Item::Fraction(numer, None) => Push::Int(numer),
    };
    items.iter().map(push).collect()
}

/// The read of a text.
pub fn read(list: &mut List, text: &[u8]) {
    let said = said(text);
    let after = places(&said.value.1, entries(&said, said.value.0.0));
    list.push_with(&format!("read_entries {}", hex(text)), said, |((count, start, end), _)| format!("{count} {start} {end}"), &after);
}

fn reads(list: &mut List) {
    // what the list has no room for, each number of a text, and what is read
    let texts: [&[u8]; 20] = [
        b"", b"d\n", b"d\nx\n", b"d\n1\n2.x\n", b"d\n1\nx/2\n", b"d\n1\n3/x\n", b"d\n1\n3/0\n", b"d\n1\n1.5e2\n", b"d\n1\n38400.001\n", b"d\n\xff\n", b"d\n2\n2\n", b"d\n1\n3/2\n2\n", b"d\n2\n3/2\n1/1\n", b"d\n8\n1.\n2.\n3.\n4.\n5.\n6.\n7.\n8.\n",
        b"d\n9\n1.\n2.\n3.\n4.\n5.\n6.\n7.\n8.\n9.\n", b"d\n7\n7.\n6.\n5.\n4.\n3.\n2.\n1200.\n", b"d\n1\n1/1\n", b"d\n0\n", b"d\n5\n3/2\n3\n6\n12\n2\n", b"d\n3\n-100.\n-1300.\n1/2\n",
    ];
    for text in scl_read::FILES.iter().map(|file| file.as_bytes()).chain(texts) {
        read(list, text);
    }
}

/// Items 3/2, 1/1, 500 cents and 2; seven that fill the list; none; one.
const SCALES: [&str; 6] = ["d\n4\n3/2\n1/1\n500.0\n2\n", "d\n7\n7.\n6.\n5.\n4.\n3.\n2.\n1200.\n", "d\n0\n", "d\n1\n2/1\n", "d\n1\n1/1\n", "d\n5\n3/2\n3\n6\n12\n2\n"];

/// The build of a state over the items read. The state must fit the list too (10), and be below its room.
pub fn build(list: &mut List, text: &[u8], room: usize, count: usize) {
    let mut columns = said(text).value.1;
    columns.put_list(&[old(); PLACES]);
    let fits = room <= LIST && count < room;
    let items = u16::try_from(count).ok().filter(|_| fits).and_then(|count| rules::items_in(&columns, count));
    let said = match items {
        None => Said::refused(Who::Rules, 10, 0, (0, columns)),
        Some(items) => scl_build::built(&columns, &pushes(&items[1..])),
    };
    let after = places(&said.value.1, entries(&said, count as u16));
    list.push_with(&format!("build_entries {} {room} {count}", hex(text)), said, |(count, _)| count.to_string(), &after);
}

fn builds(list: &mut List) {
    for (scale, room, count) in [(0, 5, 4), (0, 8, 4), (0, 8, 3), (0, 4, 3), (0, 8, 1), (0, 2, 0), (1, 8, 7), (1, 8, 6), (2, 1, 0), (3, 2, 1), (4, 2, 1), (5, 8, 5), (5, 6, 3)] {
        build(list, SCALES[scale].as_bytes(), room, count);
    }
    // a period of 1.0; a state that the columns have room for and the list has not; one that is full; an item that is none
    for (scale, room, count) in [(0, 8, 2), (0, 9, 4), (0, 10, 4), (0, 4, 4), (0, 0, 0), (0, 8, 5), (0, 11, 4), (1, 9, 7), (2, 8, 1)] {
        build(list, SCALES[scale].as_bytes(), room, count);
    }
}

/// What a search in tables that no build leaves should answer.
fn ruled(found: rules::Answer<rules::Found>, count: u16, sorted: bool) -> Said<Found> {
    let answer = found.and_then(|f| {
        let (degree, _) = if sorted { rules::ascending(&f, count) } else { rules::declared(&f, count) };
        degree.map(|degree| (degree, Float::of(f.deviation)))
    });
    match answer {
        Ok(value) => Said::gives(Who::Rules, value),
        Err(number) => Said::refused(Who::Rules, number, 0, OLD_FOUND),
    }
}

/// A search in the list that a read left, of so many items.
pub fn find(list: &mut List, text: &[u8], count: u16, sorted: bool, x: f64) {
    let read = said(text);
    let columns = &read.value.1;
    let mut lent = columns.clone();
    let left = structs(columns, entries(&read, read.value.0.0));
    (lent.place, lent.ratio, lent.wraps) = (left.iter().map(|e| e.0).collect(), left.iter().map(|e| e.1).collect(), left.iter().map(|e| e.2).collect());
    let said = match (rules::items_in(&lent, count), rules::list_in(&lent, count)) {
        (Some(items), Some(_)) if rules::is_searched(x) && count == read.value.0.0 => {
            let built = Built::new([PLACES; 7], &pushes(&items[1..])).expect("what was read is built");
            if sorted { tuning::find_sorted(&built, x) } else { tuning::find(&built, x) }
        }
        (Some(items), Some(entries)) if rules::is_searched(x) => ruled(rules::search(&items, &entries, x), count, sorted),
        _ => Said::refused(Who::Rules, 10, 0, OLD_FOUND),
    };
    list.push(&format!("find_in_entries {} {count} {} {}", hex(text), u32::from(sorted), float(x)), said, |(degree, deviation)| format!("{degree} {}", written(deviation)));
}

fn finds(list: &mut List) {
    let targets = [1.0, 3.0, 1.5, 0.7, 1.25, 1.3, 1.999_999_9, 2.0f64.powi(64), 2.0f64.powi(-64), 1.002_893_4, 2f64.powi(64).next_up(), f64::NAN, 0.0];
    for (k, scale) in SCALES.iter().enumerate() {
        let count = [4, 7, 0, 1, 1, 5][k];
        for (t, &x) in targets.iter().enumerate() {
            find(list, scale.as_bytes(), count, (k + t) % 2 == 0, x);
        }
    }
    // ratios of entries, and between two of them by the tolerance's middle
    for x in [4.0 / 3.0, 1.334_839_854_170_034, 1.224_744_871_391_589, 1.224_745_5, 1.224_744_2, 2.0f64.sqrt(), 1.5f64.next_down(), 1.5f64.next_up()] {
        find(list, SCALES[0].as_bytes(), 4, false, x);
        find(list, SCALES[0].as_bytes(), 4, true, x);
    }
    // counts that are not the list's: an item that is none, a part of a list, a place beyond the count, a list that is too short, a text that was
    // not read
    for (scale, count) in [(0, 5), (0, 3), (0, 2), (0, 1), (1, 6), (1, 8), (1, 9), (1, u16::MAX), (2, 1), (3, 0)] {
        find(list, SCALES[scale].as_bytes(), count, false, 1.5);
    }
    find(list, b"d\n1\nx\n", 0, false, 1.5);
}

pub fn entry_lists(list: &mut List) {
    reads(list);
    builds(list);
    finds(list);
}

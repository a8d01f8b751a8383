//! Frozen answers on scales: files, items, pushes, builds and exports. Each call is lent seven columns of 16 places; an answer ends with every
//! item and entry of them, `.` being one that is as it was lent.

use crate::ffi_scl::{Columns, Entry, Item, Push};
use crate::freeze::{List, float, hex, refusal, written};
use crate::inputs::Random;
use crate::tally::{Code, Said, Who};
use crate::{rules_scl, scl_build, scl_export, scl_read};

pub const PLACES: usize = 16;

/// What the program lends.
pub fn lent() -> Columns {
    Columns {
        kind: vec![9; PLACES],
        cents: vec![2f64.to_bits(); PLACES],
        numer: vec![7; PLACES],
        denom: vec![7; PLACES],
        place: vec![8; PLACES],
        ratio: vec![0.5f64.to_bits(); PLACES],
        wraps: vec![8; PLACES],
    }
}

/// The four fields of an item, and the three of an entry of the sorted list.
fn item(c: &Columns, k: usize) -> String {
    format!(" {} {} {} {}", c.kind[k], float(f64::from_bits(c.cents[k])), c.numer[k], c.denom[k])
}

pub fn entry((place, ratio, wraps): Entry) -> String {
    format!(" {place} {} {wraps}", float(f64::from_bits(ratio)))
}

fn entry_at(c: &Columns, k: usize) -> String {
    entry((c.place[k], c.ratio[k], c.wraps[k]))
}

/// Fields after a call; `.` for those that are as they were lent.
pub fn unless_lent(fields: String, old: String) -> String {
    if fields == old { " .".to_string() } else { fields }
}

/// Every place after a call.
pub fn shown(c: &Columns) -> String {
    let old = lent();
    (0..PLACES).map(|k| unless_lent(item(c, k), item(&old, k)) + &unless_lent(entry_at(c, k), entry_at(&old, k))).collect()
}

/// What a question has of columns: all places up to the last that is not as the program lends it, after their number.
fn listed(c: &Columns, row: impl Fn(&Columns, usize) -> String) -> String {
    let old = lent();
    let places = (0..PLACES).rposition(|k| row(c, k) != row(&old, k)).map_or(0, |last| last + 1);
    format!("{places}{}", (0..places).map(|k| row(c, k)).collect::<String>())
}

pub fn places(c: &Columns) -> String {
    listed(c, |c, k| item(c, k) + &entry_at(c, k))
}

fn reads(list: &mut List) {
    let one = |list: &mut List, text: &[u8]| {
        let said = scl_read::said(text, &lent(), [PLACES; 7]);
        let after = shown(&said.value.1);
        list.push_with(&format!("read {}", hex(text)), said, |((count, start, end), _)| format!("{count} {start} {end}"), &after);
    };
    for file in scl_read::FILES {
        one(list, file.as_bytes());
    }
    for (text, _) in scl_read::FIXED {
        one(list, text.as_bytes());
    }
    // as many items as there is room for; one too many, and faults before and behind the first that has no place
    let items = |count: usize| (1..=count).map(|k| format!("{}\n", k + 1)).collect::<String>();
    for text in [format!("d\n15\n{}", items(15)), format!("d\n16\n{}", items(16)), format!("d\n16\n{}x\n", items(15)), format!("d\n16\n{}0\n", items(3)), format!("d\n16\n{}", items(15)), format!("d\n65535\n{}", items(2)), format!("d\n15\n{}", items(16))] {
        one(list, text.as_bytes());
    }
    let texts = scl_read::texts();
    // the telling tokens in each place, then short texts and damaged copies, few of each kind
    for text in texts.iter().skip(9).take(860).step_by(4) {
        one(list, text);
    }
    let short: Vec<&Vec<u8>> = texts.iter().skip(900).filter(|t| t.len() <= 50).collect();
    for text in short.iter().step_by(short.len() / 60) {
        one(list, text);
    }
}

/// An item as the program reads it: kind, cents, numerator, denominator.
fn ratios(list: &mut List) {
    let mut random = Random::new(108);
    let items = [Item::cents(0.0), Item::cents(-38_400.0), Item::cents(1_080_000.1), Item::cents(40_000.0), Item::cents(38_400.0), Item::cents(-38_400.1), Item::cents(-0.0), Item::Fraction(0, Some(1)), Item::Fraction(1, Some(0)), Item::Fraction(u32::MAX, None), Item::Fraction(0, None)];
    let more: Vec<Item> = (0..24).map(|k| if k % 2 == 0 { Item::cents((random.unit() - 0.5) * 2400.0) } else { Item::Fraction(random.u32(), Some(random.u32())) }).collect();
    for item in items.into_iter().chain(more) {
        let (kind, cents, numer, denom) = item.row();
        list.push(&format!("ratio {kind} {cents:016x} {numer} {denom}"), scl_build::as_ratio(item), written);
    }
    list.push(&format!("ratio 3 {} 1 1", float(0.0)), Said::refused(Who::Rules, 10, 0, crate::lent::Float::Untouched), written);
}

/// The four fields of a step: 0 a new builder, 1 cents, 2 a ratio, 3 an integer, 4 a fraction. What a step does not take is 0.
const NEW: &str = "0 0000000000000000 0 0";

fn fields(push: Push) -> String {
    match push {
        Push::Cents(x) => format!("1 {} 0 0", float(x)),
        Push::Ratio(x) => format!("2 {} 0 0", float(x)),
        Push::Int(n) => format!("3 {} {n} 0", float(0.0)),
        Push::Fraction(n, d) => format!("4 {} {n} {d}", float(0.0)),
    }
}

/// A run: a new builder, each push, and the build. What the columns hold at the end is the Rust's where it builds (`built`), else the
/// rules'.
fn build(list: &mut List, pushes: &[Push]) {
    let call = format!("build {} {NEW}{}", pushes.len() + 1, pushes.iter().map(|&push| format!(" {}", fields(push))).collect::<String>());
    let mut columns = lent();
    columns.put_items(0, &[Item::cents(0.0)]);
    let mut taken = Vec::new();
    let mut answers = "0".to_string();
    for &push in pushes {
        let answer = match rules_scl::pushed(push) {
            None => refusal(Code::refusal(10, 0)),
            Some(_) if taken.len() + 1 == PLACES => refusal(Code::refusal(12, 0)),
            Some(item) => {
                taken.push(push);
                columns.put_items(taken.len(), &[item]);
                taken.len().to_string()
            }
        };
        answers = format!("{answers} {answer}");
    }
    let said = scl_build::built(&columns, &taken);
    let after = shown(&said.value.1);
    list.push_after(&call, &answers, said, |(count, _)| count.to_string(), &after);
}

fn builds(list: &mut List) {
    let mut random = Random::new(109);
    for pushes in scl_build::shapes(2).iter().step_by(11).chain(scl_build::shapes(4).iter().step_by(13)) {
        build(list, pushes);
    }
    for k in 0..40 {
        let run = scl_build::random_run(&mut random, k % 5);
        build(list, &run.pushes[..run.pushes.len().min(5)]);
    }
    // more pushes than places: the last two are refused, and the scale is built without them
    build(list, &(2..19).map(Push::Int).collect::<Vec<_>>());
    // states that are not the columns'
    for (room, count, push) in [(17, 0, Push::Int(2)), (4, 4, Push::Int(2)), (0, 0, Push::Cents(1.0)), (4, 3, Push::Int(0)), (16, 15, Push::Cents(f64::INFINITY))] {
        list.push_with(&format!("push {room} {count} {}", fields(push)), Said::refused(Who::Rules, 10, 0, ()), |()| String::new(), &shown(&lent()));
    }
    list.push_with(&format!("push 16 15 {}", fields(Push::Int(2))), Said::refused(Who::Rules, 12, 0, ()), |()| String::new(), &shown(&lent()));
    for (room, count) in [(17, 1), (16, 16), (0, 0), (16, 0)] {
        list.push_with(&format!("finish {room} {count}"), Said::refused(Who::Rules, 10, 0, ()), |()| String::new(), &shown(&lent()));
    }
}

/// An export of the first `count` items of these places; those behind them are as lent.
fn export(list: &mut List, description: &[u8], items: &[Item], count: u16, room: usize) {
    let mut columns = lent();
    columns.put_items(0, items);
    one_export(list, description, &columns, count, room);
}

fn one_export(list: &mut List, description: &[u8], columns: &Columns, count: u16, room: usize) {
    let said = scl_export::export(description, columns, count, room);
    let after = hex(&said.value.1);
    list.push_with(&format!("export {} {count} {room} {}", hex(description), listed(columns, item)), said, |(length, _)| length.to_string(), &after);
}

fn exports(list: &mut List) {
    let mut random = Random::new(110);
    // files as they are in use, into bytes that are just enough, two more, and one too few
    for (k, file) in [3, 4, 5, 6, 8].into_iter().enumerate() {
        let (start, end, items) = rules_scl::read(scl_read::FILES[file].as_bytes(), 14).unwrap();
        let description = &scl_read::FILES[file].as_bytes()[start..end];
        let count = (items.len() - 1) as u16;
        let length = scl_export::export(description, &scl_export::table(&items[1..], 0), count, 400).value.0;
        export(list, description, &items, count, [length, length + 2, length - 1][k % 3]);
    }
    // descriptions that break their own text, and what is none
    for description in scl_export::DESCRIPTIONS {
        export(list, description, &[Item::cents(0.0), Item::Fraction(2, Some(1))], 1, description.len() + 8);
    }
    // ties, signs and limits of cents; integers and fractions as declared
    let cents = [0.0625, 0.1875, -0.0625, -0.0, -0.0004, 0.0005, 0.0015, 38_400.0, -38_400.0, 38_399.9995, 701.955_000_865_387_4].map(Item::cents);
    let whole = [Item::Fraction(4, Some(2)), Item::Fraction(2, None), Item::Fraction(u32::MAX, Some(u32::MAX)), Item::Fraction(1, Some(10)), Item::Fraction(10, None)];
    for items in [&cents[..], &whole[..]] {
        let all: Vec<Item> = [Item::cents(0.0)].into_iter().chain(items.iter().copied()).collect();
        export(list, b"d", &all, items.len() as u16, 140);
    }
    for k in 0..12 {
        let items: Vec<Item> = [Item::cents(100.0)].into_iter().chain((0..k % 4).map(|_| Item::cents((random.unit() - 0.5) * 76_800.0))).collect();
        export(list, b"", &items, (items.len() - 1) as u16, 3 + 11 * (k % 4));
    }
    // tables that cannot be used: 10, before 12
    let good = [Item::cents(0.0), Item::Fraction(3, Some(2)), Item::cents(1200.0)];
    for count in [3, u16::MAX] {
        export(list, b"d", &good, count, 30);
    }
    for (k, item) in [(0, Item::cents(f64::NAN)), (1, Item::Fraction(0, Some(2))), (1, Item::Fraction(3, Some(0))), (2, Item::Fraction(0, None)), (2, Item::cents(38_400f64.next_up()))] {
        let mut items = good;
        items[k] = item;
        export(list, b"d", &items, 2, [0, 30][k % 2]);
    }
    let mut unknown = lent();
    unknown.put_items(0, &good);
    unknown.kind[2] = 3;
    one_export(list, b"d", &unknown, 2, 30);
    one_export(list, b"d", &lent(), 0, 30);
}

pub fn scales(list: &mut List) {
    reads(list);
    ratios(list);
    builds(list);
    exports(list);
}

//! Exports of scales: ours beside the Rust, the lent bytes compared whole, and the items' columns as they were.

use crate::ffi_scl::{self, Columns, Item, OLD_USIZE, Push};
use crate::inputs::{self, Random, drawn, f64_limits, u32_limits};
use crate::kbm_use::BYTE;
use crate::tally::{Code, Report, Said, Tally, Who, caught};
use crate::{rules_scl, rust_scl, scl_build, scl_read};

/// The items of a table that can be used, place 0 among them.
fn items(c: &Columns, count: u16) -> Option<Vec<Item>> {
    let places = usize::from(count) + 1;
    let lengths = [c.kind.len(), c.cents.len(), c.numer.len(), c.denom.len()];
    if lengths.into_iter().any(|length| length < places) {
        return None;
    }
    (0..places).map(|k| c.item(k).filter(|&item| rules_scl::usable(item))).collect()
}

fn as_push(item: Item) -> Push {
    match item {
        Item::Cents(bits) => Push::Cents(f64::from_bits(bits)),
        Item::Fraction(numer, Some(denom)) => Push::Fraction(numer, denom),
        Item::Fraction(numer, None) => Push::Int(numer),
    }
}

/// The export in so many bytes: 10 by the rules for items or a description that cannot be used; else the Rust's text, which is 12
/// where it is longer. How much was written, and every byte.
pub fn export(description: &[u8], c: &Columns, count: u16, room: usize) -> Said<(usize, Vec<u8>)> {
    let mut out = vec![BYTE; room];
    let (Some(items), Ok(description)) = (items(c, count), std::str::from_utf8(description)) else {
        return Said::refused(Who::Rules, 10, 0, (OLD_USIZE, out));
    };
    let pushes: Vec<Push> = items[1..].iter().map(|&item| as_push(item)).collect();
    let Some(text) = caught(|| rust_scl::pushes(&pushes).build_with_description(description).unwrap().export().to_string()) else {
        return Said::fault((0, out));
    };
    if text.len() > room {
        return Said::refused(Who::Rules, 12, 0, (OLD_USIZE, out));
    }
    out[..text.len()].copy_from_slice(text.as_bytes());
    Said::gives(Who::Rust, (text.len(), out))
}

fn one(tally: &mut Tally, description: &[u8], c: &Columns, count: u16, room: usize) {
    let mut columns = c.clone();
    let mut out = vec![BYTE; room];
    let (code, written) = ffi_scl::export_scl(description, &mut columns, count, &mut out);
    let said = export(description, c, count, room).map(|(written, out)| (written, out, c.clone()));
    let shown = String::from_utf8_lossy(&description[..description.len().min(60)]);
    tally.same((shown, count, room), (code, (written, out, columns)), said);
}

/// Into bytes that are just enough, some more, one too few, and none.
fn rooms(tally: &mut Tally, description: &[u8], c: &Columns, count: u16) {
    let room = description.len() + 7 + 22 * usize::from(count);
    let length = match export(description, c, count, room) {
        Said { code: Code::ACCEPTED, value: (length, _), .. } => length,
        _ => 40,
    };
    for room in [length, length + 3, length - 1, 0] {
        one(tally, description, c, count, room);
    }
}

/// Columns with place 0 and these items; the items' columns are longer or not.
pub fn table(items: &[Item], longer: usize) -> Columns {
    let mut columns = Columns::new([items.len() + 1 + longer; 7]);
    columns.put_items(0, &[Item::cents(0.0)]);
    columns.put_items(1, items);
    columns
}

/// Descriptions that break their own text, and what is none.
pub const DESCRIPTIONS: [&[u8]; 24] = [
    b"", b"d", b"!a\nb", b"!", b"\n", b"a\nb", b"\r\n", b"a\r", b"  d  ", b"\t", b"\0", "d\u{e0}".as_bytes(), "\u{feff}!d".as_bytes(), "\u{2028}".as_bytes(), "\u{10ffff}\u{800}\u{7ff}".as_bytes(), b"1\n2/1\n3\n",
    b"\xff", b"d\xc3", b"\xc0\x80", b"\xed\xa0\x80", b"\xf4\x90\x80\x80", b"caf\xe9", b"\x80", b"d\n\xfe",
];

/// A description of so many bytes or fewer, one in eight of them not UTF-8.
fn random_description(random: &mut Random, most: usize) -> Vec<u8> {
    let length = random.next() as usize % (most + 1);
    if random.next() % 8 == 0 {
        return (0..length).map(|_| random.next() as u8).collect();
    }
    let letters: String = (0..length).filter_map(|_| char::from_u32(random.next() as u32 % 0x11_0000 >> (random.next() % 16))).collect();
    letters.into_bytes()
}

/// Cents whose three decimals are a tie, near one, or at a limit.
fn telling_cents(random: &mut Random) -> Vec<f64> {
    let halves = inputs::fixed(0..4_000).map(|k| f64::from(k) / 16.0 - 125.0);
    let near = inputs::fixed(0..4_000).flat_map(|k| {
        let x = f64::from(k) * 0.0005 - 1.0;
        [x, x.next_up(), x.next_down()]
    });
    let limits = f64_limits().into_iter().chain([38_400.0, -38_400.0, 38_399.9995, -38_399.9995, 38_399.999_499_999_99]);
    let more: Vec<f64> = drawn(20_000).map(|_| (random.unit() - 0.5) * 76_800.0).collect();
    halves.chain(near).chain(limits).chain(more).collect()
}

fn fixed(tally: &mut Tally) {
    for (description, items, text) in [
        (&b"!a\nb"[..], &[Item::Fraction(2, Some(1))][..], "!a\nb\n1\n2/1\n"),
        (b"", &[], "\n0\n"),
        (b" d ", &[Item::cents(0.0625), Item::cents(0.1875), Item::cents(-0.0), Item::cents(-0.0004)], " d \n4\n0.062\n0.188\n-0.000\n-0.000\n"),
        (b"d", &[Item::Fraction(4, Some(2)), Item::Fraction(2, None), Item::Fraction(u32::MAX, Some(u32::MAX)), Item::cents(-38_400.0)], "d\n4\n4/2\n2\n4294967295/4294967295\n-38400.000\n"),
    ] {
        let mut columns = table(items, 0);
        let mut out = vec![BYTE; text.len()];
        let answer = ffi_scl::export_scl(description, &mut columns, items.len() as u16, &mut out);
        tally.require(answer == (Code::ACCEPTED, text.len()) && out == text.as_bytes(), (text, answer, String::from_utf8_lossy(&out)));
        rooms(tally, description, &columns, items.len() as u16);
    }
    // a description that breaks its own text: read again, it is another scale
    let (code, (count, start, end)) = ffi_scl::read_scl(b"!a\nb\n1\n2/1\n", &mut Columns::new([2; 7]));
    tally.require((code, count, start, end) == (Code::ACCEPTED, 1, 3, 4), ("`!a` LF `b` read again", code, count, start, end));
    // the most bytes that an item takes
    for count in [9, 99, 65_535] {
        let columns = table(&vec![Item::Fraction(u32::MAX, Some(u32::MAX)); count], 0);
        let bytes = 1 + 2 + count.to_string().len() + 22 * count;
        tally.require(export(b"d", &columns, count as u16, bytes).value.0 == bytes, count);
        rooms(tally, b"d", &columns, count as u16);
    }
}

/// Tables that cannot be used: 10, whatever the room; place 0 is tested too.
fn unusable(tally: &mut Tally) {
    let good = table(&[Item::Fraction(3, Some(2)), Item::cents(1200.0)], 0);
    let changes: [fn(&mut Columns); 12] = [
        |c| c.kind.truncate(2), |c| c.cents.truncate(2), |c| c.numer.truncate(2), |c| c.denom.truncate(2), |c| c.kind[0] = 3, |c| c.kind[2] = 255,
        |c| c.numer[1] = 0, |c| c.denom[1] = 0, |c| c.cents[2] = f64::NAN.to_bits(), |c| c.cents[2] = 38_400f64.next_up().to_bits(), |c| c.cents[0] = f64::NEG_INFINITY.to_bits(), |c| c.kind.clear(),
    ];
    for change in changes {
        let mut columns = good.clone();
        change(&mut columns);
        for room in [0, 40] {
            one(tally, b"d", &columns, 2, room);
        }
    }
    // a count past the columns; place 0 that is not 0.0, which is omitted; columns of the list, which play no part
    for count in [3, u16::MAX] {
        one(tally, b"d", &good, count, 99);
    }
    let mut columns = good.clone();
    columns.put_items(0, &[Item::Fraction(7, None)]);
    columns.place.clear();
    columns.ratio.clear();
    rooms(tally, b"d", &columns, 2);
    rooms(tally, b"d", &columns, 1);
}

fn exports(tally: &mut Tally) {
    if inputs::with_fixed() {
        fixed(tally);
        unusable(tally);
        files(tally);
    }
    let mut random = Random::new(29);
    for k in drawn(20_000) {
        let run = scl_build::random_run(&mut random, 12);
        let taken: Vec<Item> = run.pushes.iter().filter_map(|&push| rules_scl::pushed(push)).collect();
        let description = if k % 2 == 0 { DESCRIPTIONS[k / 2 % DESCRIPTIONS.len()].to_vec() } else { random_description(&mut random, 40) };
        rooms(tally, &description, &table(&taken, k % 3), taken.len() as u16);
    }
    let cents = telling_cents(&mut random);
    let limits = u32_limits();
    let whole = limits.iter().flat_map(|&n| limits.iter().flat_map(move |&d| [Item::Fraction(n, Some(d)), Item::Fraction(n, None)]));
    for items in cents.into_iter().map(Item::cents).chain(whole).collect::<Vec<_>>().chunks(3) {
        let items: Vec<Item> = items.iter().copied().filter(|&item| rules_scl::usable(item)).collect();
        rooms(tally, b"d", &table(&items, 0), items.len() as u16);
    }
}

/// Long scales, and files: what was read and written is, read and written again, the same text.
fn files(tally: &mut Tally) {
    for count in [4_096, 65_535] {
        let text = scl_read::long(count, count);
        rooms(tally, b"a long scale", &table(&rules_scl::read(&text, count + 1).unwrap().2[1..], 0), count as u16);
    }
    for file in scl_read::FILES {
        let mut columns = Columns::new([16; 7]);
        let (_, (count, start, end)) = ffi_scl::read_scl(file.as_bytes(), &mut columns);
        let description = &file.as_bytes()[start..end];
        rooms(tally, description, &columns, count);
        let text = written(description, &mut columns, count);
        let (code, (count, start, end)) = ffi_scl::read_scl(&text, &mut columns);
        let description = text[start..end].to_vec();
        tally.require(code == Code::ACCEPTED && written(&description, &mut columns, count) == text, file);
    }
}

fn written(description: &[u8], c: &mut Columns, count: u16) -> Vec<u8> {
    let mut out = vec![BYTE; 999];
    let (code, length) = ffi_scl::export_scl(description, c, count, &mut out);
    assert_eq!(code, Code::ACCEPTED);
    out.truncate(length);
    out
}

pub fn compare(all: &mut Report) {
    all.function("Scl::export", &[10, 12], exports);
}

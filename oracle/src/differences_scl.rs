//! The rows of docs/DIFFERENCES.md on scales, Scala's among them.

use crate::differences::{CANNOT_BE, Row, here, refused, rust};
use crate::ffi_scl::{self, Columns, Item, Push};
use crate::lent::Float;
use crate::tally::Code;
use crate::rust_scl;

const fn row(call: &'static str, input: &'static str, rust: fn() -> String, rust_says: &'static str, here: fn() -> String, here_says: &'static str) -> Row {
    Row { call, input, rust, rust_says, here, here_says }
}

/// A scale that was read: its description, its items, and the places of its sorted list with the ratios.
struct Shown {
    description: String,
    items: Vec<Item>,
    list: Vec<ffi_scl::Entry>,
}

/// What the Rust makes of a text: what it read, or its error by our number. It reads with its own exp2 and log2.
fn theirs(text: &[u8], part: fn(Shown) -> String) -> String {
    tune::powers::use_untouched(true);
    let read = rust_scl::read(text);
    tune::powers::use_untouched(false);
    match read {
        None => "panics".to_string(),
        Some(Ok(parts)) => part(Shown { description: parts.description, items: parts.items, list: parts.list }),
        Some(Err((1, _))) => "an io error".to_string(),
        Some(Err((number, 0))) => format!("its error for {number}"),
        Some(Err((2, which))) => format!("its error for 2, required line {which}"),
        Some(Err((number, line))) => format!("its error for {number} at line {line}"),
    }
}

/// And what is made of it here, in columns of so many places.
fn ours(text: &[u8], room: usize, part: fn(Shown) -> String) -> String {
    let mut columns = Columns::new([room; 7]);
    let (code, (count, start, end)) = ffi_scl::read_scl(text, &mut columns);
    if code != Code::ACCEPTED {
        return if code.number() == 2 { format!("2, required line {}", code.detail()) } else { refused(code) };
    }
    let places = usize::from(count) + 1;
    let items = (0..places).map(|k| columns.item(k).unwrap());
    part(Shown { description: String::from_utf8(text[start..end].to_vec()).unwrap(), items: items.collect(), list: columns.list(places) })
}

fn items(shown: Shown) -> String {
    let item = |&item: &Item| match item {
        Item::Cents(bits) => format!("{:?}", f64::from_bits(bits)),
        Item::Fraction(numer, Some(denom)) => format!("{numer}/{denom}"),
        Item::Fraction(numer, None) => numer.to_string(),
    };
    match &shown.items[1..] {
        [] => "no item".to_string(),
        items => items.iter().map(item).collect::<Vec<_>>().join(" "),
    }
}

fn description(shown: Shown) -> String {
    format!("`{}`", shown.description.escape_debug())
}

fn ratios(shown: Shown) -> String {
    shown.list.iter().map(|&(place, bits, _)| format!("{place}: {:?}", f64::from_bits(bits))).collect::<Vec<_>>().join(", ")
}

fn files() -> Vec<Row> {
    vec![
        row("scale", "count 65536", || theirs(b"d\n65536\n2\n", items), "its error for 3 at line 2", || ours(b"d\n65536\n2\n", 9, items), "3 at line 2"),
        row("scale", "item `1.e5`", || theirs(b"d\n1\n1.e5\n", items), "100000.0", || ours(b"d\n1\n1.e5\n", 9, items), "9 at line 3"),
        row("scale", "item `1e5`", || theirs(b"d\n1\n1e5\n", items), "its error for 3 at line 3", || ours(b"d\n1\n1e5\n", 9, items), "3 at line 3"),
        row("scale", "item `100000000000000000000.`", || theirs(b"d\n1\n100000000000000000000.\n", items), "1e20", || ours(b"d\n1\n100000000000000000000.\n", 9, items), "9 at line 3"),
        row("scale", "item `38400.0`", || theirs(b"d\n1\n38400.0\n", items), "38400.0", || ours(b"d\n1\n38400.0\n", 9, items), "38400.0"),
        row("scale", "item `38400.001`", || theirs(b"d\n1\n38400.001\n", items), "38400.001", || ours(b"d\n1\n38400.001\n", 9, items), "10 at line 3"),
        row("scale", "item `-38400.001`", || theirs(b"d\n1\n-38400.001\n", items), "-38400.001", || ours(b"d\n1\n-38400.001\n", 9, items), "10 at line 3"),
        row("scale", "item `3/0`", || theirs(b"d\n1\n3/0\n", items), "3/0", || ours(b"d\n1\n3/0\n", 9, items), "10 at line 3"),
        row("scale", "item `0/3`", || theirs(b"d\n1\n0/3\n", items), "0/3", || ours(b"d\n1\n0/3\n", 9, items), "10 at line 3"),
        row("scale", "item `0`", || theirs(b"d\n1\n0\n", items), "0", || ours(b"d\n1\n0\n", 9, items), "10 at line 3"),
        row("scale", "item `4294967295`", || theirs(b"d\n1\n4294967295\n", items), "4294967295", || ours(b"d\n1\n4294967295\n", 9, items), "4294967295"),
        row("scale", "item `4294967296`", || theirs(b"d\n1\n4294967296\n", items), "its error for 3 at line 3", || ours(b"d\n1\n4294967296\n", 9, items), "3 at line 3"),
        row("scale", "count `-0`", || theirs(b"d\n-0\n", items), "its error for 3 at line 2", || ours(b"d\n-0\n", 9, items), "3 at line 2"),
        row("scale", "count `+2`, items `+100.`, `+3/+2`", || theirs(b"d\n+2\n+100.\n+3/+2\n", items), "100.0 3/2", || ours(b"d\n+2\n+100.\n+3/+2\n", 9, items), "100.0 3/2"),
        row("Scala: text after a number", "item `5/4E`", || theirs(b"d\n1\n5/4E\n", items), "its error for 6 at line 3", || ours(b"d\n1\n5/4E\n", 9, items), "6 at line 3"),
        row("scale", "two items, columns of two places", || theirs(b"d\n2\n3/2\n2\n", items), "3/2 2", || ours(b"d\n2\n3/2\n2\n", 2, items), "12 at line 4"),
        row("scale", "count 0, columns with no place", || theirs(b"d\n0\n", items), "no item", || ours(b"d\n0\n", 0, items), "12"),
        row("scale", "items `3/2`, `1/1`: place and ratio of the list", || theirs(b"d\n2\n3/2\n1/1\n", ratios), "0: 1.0, 0: 1.0, 1: 1.5", || ours(b"d\n2\n3/2\n1/1\n", 9, ratios), "18"),
        row("scale", "items `3/2`, `0.00000000000026`: place and ratio of the list", || theirs(b"d\n2\n3/2\n0.00000000000026\n", ratios), "0: 1.0, 0: 1.0, 1: 1.5", || ours(b"d\n2\n3/2\n0.00000000000026\n", 9, ratios), "18"),
        row("scale", "item `1/1` alone: place and ratio of the list", || theirs(b"d\n1\n1/1\n", ratios), "0: 1.0, 0: 1.0", || ours(b"d\n1\n1/1\n", 9, ratios), "0: 1.0, 0: 1.0"),
        row("scale", "items `3/2`, `2/1`: place and ratio of the list", || theirs(b"d\n2\n3/2\n2/1\n", ratios), "0: 1.0, 1: 1.5, 2: 2.0", || ours(b"d\n2\n3/2\n2/1\n", 9, ratios), "0: 1.0, 1: 1.4999999999999998, 2: 2.0"),
        row("scale", "items `5/3`, `80/3`, `2/1`: place and ratio of the list", || theirs(b"d\n3\n5/3\n80/3\n2/1\n", ratios), "0: 1.0, 1: 1.6666666666666667, 1: 1.6666666666666667, 3: 2.0", || ours(b"d\n3\n5/3\n80/3\n2/1\n", 9, ratios), "0: 1.0, 2: 1.666666666666666, 2: 1.666666666666666, 3: 2.0"),
        row("scale", "items `25/9`, `5/3`, the first the period twice: place and ratio of the list", || theirs(b"d\n2\n25/9\n5/3\n", ratios), "0: 1.0, 1: 1.6666666666666665, 1: 1.6666666666666665", || ours(b"d\n2\n25/9\n5/3\n", 9, ratios), "0: 1.0, 0: 1.0, 2: 1.6666666666666667"),
        row("scale", "items `1331/27`, `11/3`: place and ratio of the list", || theirs(b"d\n2\n1331/27\n11/3\n", ratios), "0: 1.0, 1: 3.666666666666666, 1: 3.666666666666666", || ours(b"d\n2\n1331/27\n11/3\n", 9, ratios), "0: 1.0, 1: 3.666666666666666, 1: 3.666666666666666"),
        row("Scala: an empty description", "an empty line, `1`, `2/1`", || theirs(b"\n1\n2/1\n", items), "its error for 3 at line 3", || ours(b"\n1\n2/1\n", 9, items), "3 at line 3"),
        row("Scala: comments", "` ! text` as the first line: description", || theirs(b" ! text\nd\n0\n", description), "`d`", || ours(b" ! text\nd\n0\n", 9, description), "`d`"),
        row("Scala: ISO 8859-1", "byte E9 in the description", || theirs(b"\xe9\n0\n", items), "an io error", || ours(b"\xe9\n0\n", 9, items), "1 at line 1"),
        row("Scala: a byte order mark", "U+FEFF before `! text`: description", || theirs(b"\xef\xbb\xbf! text\n0\n", description), "`\\u{feff}! text`", || ours(b"\xef\xbb\xbf! text\n0\n", 9, description), "`\\u{feff}! text`"),
        row("Scala: text after a number", "item `5/4   E\\`", || theirs(b"d\n1\n5/4   E\\\n", items), "5/4", || ours(b"d\n1\n5/4   E\\\n", 9, items), "5/4"),
        row("Scala: text after a number", "item `5/x`", || theirs(b"d\n1\n5/x\n", items), "its error for 6 at line 3", || ours(b"d\n1\n5/x\n", 9, items), "6 at line 3"),
        row("Scala: text after a number", "item `408.cents`", || theirs(b"d\n1\n408.cents\n", items), "its error for 4 at line 3", || ours(b"d\n1\n408.cents\n", 9, items), "4 at line 3"),
        row("Scala: text after a number", "item `2!octave`", || theirs(b"d\n1\n2!octave\n", items), "its error for 3 at line 3", || ours(b"d\n1\n2!octave\n", 9, items), "3 at line 3"),
        row("Scala: text after a number", "item `5/ 4`", || theirs(b"d\n1\n5/ 4\n", items), "its error for 6 at line 3", || ours(b"d\n1\n5/ 4\n", 9, items), "6 at line 3"),
        row("Scala: negative ratios", "item `-1/2`", || theirs(b"d\n1\n-1/2\n", items), "its error for 5 at line 3", || ours(b"d\n1\n-1/2\n", 9, items), "5 at line 3"),
        row("Scala: fewer lines than notes", "count 2, one item", || theirs(b"d\n2\n2/1\n", items), "its error for 14", || ours(b"d\n2\n2/1\n", 9, items), "14"),
        row("Scala: more lines than notes", "count 1, items `2/1`, `3/1`", || theirs(b"d\n1\n2/1\n3/1\n", items), "its error for 14", || ours(b"d\n1\n2/1\n3/1\n", 9, items), "14"),
        row("Scala: empty lines", "an empty line before the item", || theirs(b"d\n1\n\n2/1\n", items), "2/1", || ours(b"d\n1\n\n2/1\n", 9, items), "2/1"),
        row("Scala: white space", "U+2003 before the item `2/1`", || theirs(b"d\n1\n\xe2\x80\x832/1\n", items), "2/1", || ours(b"d\n1\n\xe2\x80\x832/1\n", 9, items), "2/1"),
    ]
}

/// The items that the Rust has after these pushes.
fn their_items(pushes: &[Push]) -> String {
    rust(|| rust_scl::pushes(pushes).build_with_description("").unwrap().num_items())
}

/// What a push answers here, into columns of so many places.
fn our_push(room: usize, count: usize, push: Push) -> String {
    here(ffi_scl::push(&mut Columns::new([room; 7]), room, count, push))
}

/// What a build answers here of these pushes.
fn our_build(pushes: &[Push]) -> String {
    let mut columns = Columns::new([pushes.len() + 1; 7]);
    let (_, room) = ffi_scl::new_scl(&mut columns);
    for (k, &push) in pushes.iter().enumerate() {
        ffi_scl::push(&mut columns, room, k, push);
    }
    here(ffi_scl::build_scl(&mut columns, room, pushes.len()))
}

/// What a build answers here of this item alone, in columns of these lengths, by a state of room for it.
fn our_build_of(lengths: [usize; 7], item: Item) -> String {
    let mut columns = Columns::new(lengths);
    columns.put_items(0, &[Item::cents(0.0), item]);
    here(ffi_scl::build_scl(&mut columns, 2, 1))
}

/// The Rust's ratio of an item: the period of a scale of it alone.
fn their_ratio(push: Push) -> String {
    rust(|| rust_scl::pushes(&[push]).build_with_description("").unwrap().period().as_float())
}

/// Whether the Rust's ratio of so many cents is above 2^33.
fn their_ratio_above(cents: f64) -> String {
    rust(|| rust_scl::pushes(&[Push::Cents(cents)]).build_with_description("").unwrap().period().as_float() > 2f64.powi(33))
}

fn our_ratio(kind: u8, cents: f64, numer: u32, denom: u32) -> String {
    match ffi_scl::item_as_ratio(kind, cents, numer, denom) {
        (Code::ACCEPTED, Float::Is(bits)) => format!("{:?}", f64::from_bits(bits)),
        (code, _) => refused(code),
    }
}

fn builders() -> Vec<Row> {
    vec![
        row("`as_ratio` of an item", "fraction 0/1", || their_ratio(Push::Fraction(0, 1)), "0.0", || our_ratio(1, 0.0, 0, 1), "10"),
        row("`as_ratio` of an item", "fraction 1/0", || their_ratio(Push::Fraction(1, 0)), "inf", || our_ratio(1, 0.0, 1, 0), "10"),
        row("`as_ratio` of an item", "cents NaN", || their_ratio(Push::Cents(f64::NAN)), "NaN", || our_ratio(0, f64::NAN, 0, 0), "10"),
        row("`as_ratio` of an item", "cents 40000: is it above 2^33", || their_ratio_above(40_000.0), "true", || our_ratio(0, 40_000.0, 0, 0), "10"),
        row("`as_ratio` of an item", "kind 3", || CANNOT_BE.to_string(), CANNOT_BE, || our_ratio(3, 0.0, 1, 1), "10"),
        row("`Scl::builder`", "columns with no place: items", || their_items(&[]), "0", || here(ffi_scl::new_scl(&mut Columns::new([0; 7]))), "12"),
        row("`push_cents`", "38400.1: items", || their_items(&[Push::Cents(38_400.1)]), "1", || our_push(9, 0, Push::Cents(38_400.1)), "10"),
        row("`push_cents`", "NaN: items", || their_items(&[Push::Cents(f64::NAN)]), "1", || our_push(9, 0, Push::Cents(f64::NAN)), "10"),
        row("`push_ratio`", "0.0: items", || their_items(&[Push::Ratio(0.0)]), "1", || our_push(9, 0, Push::Ratio(0.0)), "10"),
        row("`push_ratio`", "2^32 and 11 units of the last place: items", || their_items(&[Push::Ratio(f64::from_bits(2f64.powi(32).to_bits() + 11))]), "1", || our_push(9, 0, Push::Ratio(f64::from_bits(2f64.powi(32).to_bits() + 11))), "1"),
        row("`push_ratio`", "2^32 and 12 units of the last place: items", || their_items(&[Push::Ratio(f64::from_bits(2f64.powi(32).to_bits() + 12))]), "1", || our_push(9, 0, Push::Ratio(f64::from_bits(2f64.powi(32).to_bits() + 12))), "10"),
        row("`push_int`", "0: items", || their_items(&[Push::Int(0)]), "1", || our_push(9, 0, Push::Int(0)), "10"),
        row("`push_fraction`", "1/0: items", || their_items(&[Push::Fraction(1, 0)]), "1", || our_push(9, 0, Push::Fraction(1, 0)), "10"),
        row("`push_fraction`", "0/1: items", || their_items(&[Push::Fraction(0, 1)]), "1", || our_push(9, 0, Push::Fraction(0, 1)), "10"),
        row("`push_cents`", "columns of two places, the second push: items", || their_items(&[Push::Cents(1.0), Push::Cents(2.0)]), "2", || our_push(2, 1, Push::Cents(2.0)), "12"),
        row("`push_ratio`", "columns of two places, the second push: items", || their_items(&[Push::Ratio(1.5), Push::Ratio(2.0)]), "2", || our_push(2, 1, Push::Ratio(2.0)), "12"),
        row("`push_int`", "columns of two places, the second push: items", || their_items(&[Push::Int(1), Push::Int(2)]), "2", || our_push(2, 1, Push::Int(2)), "12"),
        row("`push_fraction`", "columns of two places, the second push: items", || their_items(&[Push::Fraction(3, 2), Push::Fraction(2, 1)]), "2", || our_push(2, 1, Push::Fraction(2, 1)), "12"),
        row("a push into a scale", "a state of other columns", || CANNOT_BE.to_string(), CANNOT_BE, || here(ffi_scl::push(&mut Columns::new([2; 7]), 3, 0, Push::Int(2))), "10"),
        row("`SclBuilder::build`", "items 3/2, 1/1: items", || their_items(&[Push::Fraction(3, 2), Push::Int(1)]), "2", || our_build(&[Push::Fraction(3, 2), Push::Int(1)]), "18"),
        row("`SclBuilder::build`", "65,536 items", || rust(|| rust_scl::pushes(&vec![Push::Int(2); 65_536]).build_with_description("").unwrap_err()), "ScaleTooLarge", || our_build(&vec![Push::Int(2); 65_536]), "13"),
        row("`SclBuilder::build`", "a column that is too short", || CANNOT_BE.to_string(), CANNOT_BE, || our_build_of([2, 2, 2, 2, 2, 2, 1], Item::Fraction(2, None)), "10"),
        row("`SclBuilder::build`", "item 3/0: items", || their_items(&[Push::Fraction(3, 0)]), "1", || our_build_of([2; 7], Item::Fraction(3, Some(0))), "10"),
    ]
}

/// The Rust's text of these items.
fn their_export(description: &str, pushes: &[Push]) -> String {
    tune::powers::use_untouched(true);
    let text = rust_scl::pushes(pushes).build_with_description(description).unwrap().export().to_string();
    tune::powers::use_untouched(false);
    text
}

/// The columns of these items, just long enough.
fn columns_of(items: &[Item]) -> Columns {
    let mut columns = Columns::new([items.len() + 1; 7]);
    columns.put_items(0, &[Item::cents(0.0)]);
    columns.put_items(1, items);
    columns
}

/// And the text that is written here, into so many bytes.
fn our_export(description: &[u8], items: &[Item], room: usize) -> Result<String, String> {
    export_of(description, &mut columns_of(items), items.len() as u16, room)
}

fn export_of(description: &[u8], columns: &mut Columns, count: u16, room: usize) -> Result<String, String> {
    let mut out = vec![0; room];
    match ffi_scl::export_scl(description, columns, count, &mut out) {
        (Code::ACCEPTED, written) => Ok(String::from_utf8(out[..written].to_vec()).unwrap()),
        (code, _) => Err(refused(code)),
    }
}

/// The columns of one item whose kind is none.
fn of_kind_3() -> Columns {
    let mut columns = columns_of(&[Item::Fraction(2, Some(1))]);
    columns.kind[1] = 3;
    columns
}

fn quoted(text: &str) -> String {
    format!("`{}`", text.escape_debug())
}

fn shown(answer: Result<String, String>) -> String {
    answer.map_or_else(|number| number, |text| quoted(&text))
}

fn exports() -> Vec<Row> {
    vec![
        row("`Scl::export`", "item 3/0: text", || quoted(&their_export("d", &[Push::Fraction(3, 0)])), "`d\\n1\\n3/0\\n`", || shown(our_export(b"d", &[Item::Fraction(3, Some(0))], 99)), "10"),
        row("`Scl::export`", "item 38400.1 cents: text", || quoted(&their_export("d", &[Push::Cents(38_400.1)])), "`d\\n1\\n38400.100\\n`", || shown(our_export(b"d", &[Item::cents(38_400.1)], 99)), "10"),
        row("`Scl::export`", "a count past the columns", || CANNOT_BE.to_string(), CANNOT_BE, || shown(export_of(b"d", &mut columns_of(&[Item::Fraction(2, Some(1))]), 2, 99)), "10"),
        row("`Scl::export`", "an item of kind 3", || CANNOT_BE.to_string(), CANNOT_BE, || shown(export_of(b"d", &mut of_kind_3(), 1, 99)), "10"),
        row("`Scl::export`", "a description that is not UTF-8", || CANNOT_BE.to_string(), CANNOT_BE, || shown(our_export(b"\xff", &[], 99)), "10"),
        row("`Scl::export`", "8 bytes of text, 7 lent: bytes written", || their_export("d", &[Push::Fraction(2, 1)]).len().to_string(), "8", || shown(our_export(b"d", &[Item::Fraction(2, Some(1))], 7)), "12"),
        row("`Scl::export`", "description `!a`, LF, `b`, item 2/1: text", || quoted(&their_export("!a\nb", &[Push::Fraction(2, 1)])), "`!a\\nb\\n1\\n2/1\\n`", || shown(our_export(b"!a\nb", &[Item::Fraction(2, Some(1))], 99)), "`!a\\nb\\n1\\n2/1\\n`"),
        row("`Scl::export`", "items 0.0625 and -0.0 cents: text", || quoted(&their_export("d", &[Push::Cents(0.0625), Push::Cents(-0.0)])), "`d\\n2\\n0.062\\n-0.000\\n`", || shown(our_export(b"d", &[Item::cents(0.0625), Item::cents(-0.0)], 99)), "`d\\n2\\n0.062\\n-0.000\\n`"),
    ]
}

pub fn scales() -> Vec<Row> {
    [files(), builders(), exports()].into_iter().flatten().collect()
}

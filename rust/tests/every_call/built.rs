//! Scales built in lent columns, item by item.

use crate::memory::{lengths, same, Lengths, Memory};
use crate::tally::Tally;
use telbijan::{Builder, Refusal};

#[derive(Clone, Copy)]
enum Push {
    Cents(f64),
    Ratio(f64),
    Int(u32),
    Fraction(u32, u32),
}
use Push::{Cents, Fraction, Int, Ratio};

/// Every kind, accepted and refused.
const PUSHES: [Push; 10] =
    [Cents(-100.25), Cents(f64::NAN), Ratio(1.3), Ratio(0.0), Int(5), Int(0), Fraction(7, 6), Fraction(7, 0), Cents(38_400.5), Fraction(9, 4)];
/// Two items whose period is 1.0.
const FLAT: [Push; 2] = [Int(3), Cents(0.0)];

fn push(builder: &mut Builder, item: Push) -> (&'static str, Result<(), Refusal>) {
    match item {
        Cents(x) => ("Builder::push_cents", builder.push_cents(x)),
        Ratio(x) => ("Builder::push_ratio", builder.push_ratio(x)),
        Int(x) => ("Builder::push_int", builder.push_int(x)),
        Fraction(x, y) => ("Builder::push_fraction", builder.push_fraction(x, y)),
    }
}

fn flat_push(m: &mut Memory, n: Lengths, room: usize, count: &mut usize, item: Push) -> u64 {
    let before = *count;
    match item {
        Cents(x) => items!(telbijan_push_cents, m, n, room, before, x, count),
        Ratio(x) => items!(telbijan_push_ratio, m, n, room, before, x, count),
        Int(x) => items!(telbijan_push_int, m, n, room, before, x, count),
        Fraction(x, y) => items!(telbijan_push_fraction, m, n, room, before, x, y, count),
    }
}

/// The pushes, and then the build if it is wanted, beside the flat calls: memory and every answer are the same.
fn build(seen: &mut Tally, n: Lengths, pushes: &[Push], built: bool) {
    let (mut ours, mut theirs, mut room, mut count, mut items) = (Memory::new(), Memory::new(), 7, 0, 8);
    let result = columns!(telbijan_new_scl, (), theirs, n, &mut room);
    let builder = ours.lend(n).builder();
    if !seen.agree("Columns::builder", builder.as_ref().map(|_| ()).map_err(|&x| x), result, ()) {
        drop(builder);
        return same(&ours, &theirs, &Memory::new(), false);
    }
    let mut builder = builder.unwrap();
    for &item in pushes {
        let before = format!("{builder:?}");
        let (name, said) = push(&mut builder, item);
        let accepted = seen.agree(name, said, flat_push(&mut theirs, n, room, &mut count, item), ());
        assert_eq!(accepted, format!("{builder:?}") != before, "{name}");
    }
    if built {
        let result = columns!(telbijan_build_scl, (), theirs, n, room, count, &mut items);
        seen.agree("Builder::build", builder.build().map(|(_, count)| count), result, items);
    }
    assert_eq!(ours.bits(), theirs.bits());
}

#[test]
fn builders() {
    let mut seen = Tally::default();
    for n in lengths(6) {
        for pushed in 0..=PUSHES.len() {
            build(&mut seen, n, &PUSHES[..pushed], false);
            build(&mut seen, n, &PUSHES[..pushed], true);
        }
        build(&mut seen, n, &FLAT, true);
    }
    seen.done(6);
}

#[test]
fn built_columns_come_back() {
    let mut memory = Memory::new();
    let mut builder = memory.lend([4, 5, 6, 7, 8, 9, 10]).builder().unwrap();
    push(&mut builder, Fraction(7, 6)).1.unwrap();
    push(&mut builder, Int(2)).1.unwrap();
    let (columns, count) = builder.build().unwrap();
    assert_eq!((columns.kind.len(), columns.wraps.len(), count), (4, 10, 2));
    assert_eq!(columns.scale(count).period(), Ok(2.0));
}

//! Owned scales and mappings at their limits, and builders that are not their own.
#![cfg(feature = "alloc")]

use telbijan::{Builder, Columns, Mapping, MappingBuilder, Refusal, Root, Scale};

fn number<T: std::fmt::Debug>(answer: Result<T, Refusal>) -> u8 {
    answer.unwrap_err().number()
}

/// Files and builders beyond the limits are refused by the library's own number, and no size stops a call.
#[test]
fn limits() {
    let scale = |items: usize| format!("d\n3\n{}", "3/2\n".repeat(items)).into_bytes();
    assert_eq!((number(Scale::read(&scale(65_536))), number(Scale::read(&scale(65_537)))), (13, 13));
    let mapping = |entries: usize| format!("{entries}\n0\n127\n60\n60\n440.0\n12\n{}", "0\n".repeat(entries)).into_bytes();
    assert_eq!(Mapping::read(&mapping(65_535)).unwrap().view().numbers.count, 65_535);
    assert_eq!((number(Mapping::read(&mapping(65_536))), number(Mapping::read(&mapping(65_537)))), (3, 3));
    let entries = |entries: usize| format!("3\n0\n127\n60\n60\n440.0\n12\n{}", "0\n".repeat(entries)).into_bytes();
    assert_eq!((number(Mapping::read(&entries(65_536))), number(Mapping::read(&entries(65_537)))), (13, 13));
    assert_eq!(Scale::build(usize::MAX, |b| b.push_int(2)).unwrap().view().count(), 1);
    let root = Root { reference: 60, hz: 256.0, offset: 2 };
    assert_eq!(Mapping::build(usize::MAX, root, 50..81, Some(4), |b| b.push(0)).unwrap().view().numbers.count, 1);
    assert_eq!(number(Scale::build(70_000, |b| (0..65_536).try_for_each(|_| b.push_int(2)))), 13);
}

/// Another builder in the place of the own one: no scale and no mapping comes of it.
#[test]
fn another_builder() {
    fn other() -> Builder<'static> {
        let columns = Columns {
            kind: vec![0; 4].leak(),
            cents: vec![0.0; 4].leak(),
            numer: vec![0; 4].leak(),
            denom: vec![0; 4].leak(),
            place: vec![0; 4].leak(),
            ratio: vec![0.0; 4].leak(),
            wraps: vec![0; 4].leak(),
        };
        columns.builder().unwrap()
    }
    let scale = Scale::build(3, |b| {
        *b = other();
        b.push_int(2)
    });
    assert_eq!(number(scale), 10);
    let root = Root { reference: 60, hz: 256.0, offset: 2 };
    let mapping = Mapping::build(4, root, 50..81, Some(4), |b| {
        *b = MappingBuilder::new(vec![0; 4].leak(), root, 50..81)?;
        b.push(0)
    });
    assert_eq!(number(mapping), 10);
}

//! Scales and mappings that own their tables: they hold what the calls on lent ones leave in tables of their room.

use crate::mappings::{GAPS, LINEAR, SWAPPED};
use crate::scales::{MIXED, NONE, ONE};
use crate::tally::counted;
use telbijan::{read_mapping, Columns, Mapping, MappingBuilder, Refusal, Root, Scale, ScaleRef};

/// What a scale holds, column by column.
fn held(scale: ScaleRef) -> String {
    format!("{scale:?}")
}

/// What a call leaves in columns of so many places.
fn lent(room: usize, call: impl FnOnce(&mut Columns) -> Result<u16, Refusal>) -> Result<String, Refusal> {
    let (mut kind, mut cents, mut numer, mut denom) = (vec![0; room], vec![0.0; room], vec![0; room], vec![0; room]);
    let (mut place, mut ratio, mut wraps) = (vec![0; room], vec![0.0; room], vec![0; room]);
    let mut columns = Columns {
        kind: &mut kind, cents: &mut cents, numer: &mut numer, denom: &mut denom, place: &mut place, ratio: &mut ratio, wraps: &mut wraps,
    };
    call(&mut columns).map(|count| held(columns.scale(count)))
}

fn owned(scale: Result<Scale, Refusal>) -> Result<String, Refusal> {
    scale.map(|scale| held(scale.view()))
}

/// How often answers were accepted, and how often refused.
fn sides<T>(answers: impl IntoIterator<Item = Result<T, Refusal>>) -> [u32; 2] {
    answers.into_iter().fold([0, 0], |[accepted, refused], x| if x.is_ok() { [accepted + 1, refused] } else { [accepted, refused + 1] })
}

#[test]
fn scales_read() {
    let texts = [MIXED, ONE, NONE, b"d\n1\n2/1", b"d\n2\n3/2\n", b"", b"d\n1\n3/\n", b"\xff"];
    counted("Scale::read", sides(texts.map(Scale::read)));
    for text in texts {
        let lines = text.iter().filter(|&&b| b == b'\n').count();
        // where it is accepted, it keeps the places of its items alone
        let room = Scale::read(text).map_or(lines + 2, |scale| usize::from(scale.view().count()) + 1);
        assert_eq!(owned(Scale::read(text)), lent(room, |columns| Ok(columns.read(text)?.0)));
    }
    assert_eq!(Scale::read(MIXED).unwrap().description(), "Items of every kind");
    assert_eq!(Scale::build(0, |_| Ok(())).unwrap().description(), "");
}

#[test]
fn scales_computed() {
    let segments = [(true, 8, 5, None), (false, 9, 4, None), (false, 3, 7, Some(4)), (true, 9, 4, Some(0)), (true, 0, 5, None)];
    counted("Scale::harmonics", sides(segments.map(|(otonal, start, size, divisions)| Scale::harmonics(otonal, start, size, divisions))));
    for (otonal, start, size, divisions) in segments {
        let room = usize::from(divisions.unwrap_or(size)) + 1;
        assert_eq!(owned(Scale::harmonics(otonal, start, size, divisions)), lent(room, |columns| columns.create_harmonics(otonal, start, size, divisions)));
    }
    assert_eq!(Scale::harmonics(true, 8, 5, None).unwrap().view().count(), 5);
    let temperaments = [(1.5, 5, 1, 2.0), (1.25, 2, 3, 3.0), (1.5, 2, 1, 1.0), (1.5, 65_535, 1, 2.0)];
    counted("Scale::rank2", sides(temperaments.map(|(generator, positive, negative, period)| Scale::rank2(generator, positive, negative, period))));
    for (generator, positive, negative, period) in temperaments {
        let room = usize::from(positive) + usize::from(negative) + 2;
        assert_eq!(owned(Scale::rank2(generator, positive, negative, period)), lent(room, |columns| columns.create_rank2(generator, positive, negative, period)));
    }
    assert_eq!(Scale::rank2(1.25, 2, 3, 3.0).unwrap().view().count(), 6);
}

#[test]
fn scales_built_and_written() {
    let scale = |items| {
        Scale::build(items, |b| {
            b.push_fraction(3, 2)?;
            b.push_cents(0.0625)?;
            b.push_int(2)
        })
    };
    counted("Scale::build", sides([scale(2), scale(3)]));
    assert_eq!(owned(scale(3)), lent(4, |columns| Ok(columns.read(b"d\n3\n3/2\n0.0625\n2\n")?.0)));
    assert_eq!(scale(2).unwrap_err().number(), 12);
    assert_eq!(Scale::build(2, |b| b.push_int(3).and(b.push_cents(0.0))).unwrap_err().number(), 18);
    assert_eq!(scale(3).unwrap().export("Drei").unwrap(), "Drei\n3\n3/2\n0.062\n2\n");
    let widest = Scale::read(b"d\n1\n4294967295/4294967295\n").unwrap();
    assert_eq!(widest.export("").unwrap(), "\n1\n4294967295/4294967295\n");
}

#[test]
fn mappings_read_and_written() {
    let texts = [GAPS, LINEAR, SWAPPED, b"", b"1\n0\n127\n60\n60\n440.0\n12\n0\n1\n"];
    counted("Mapping::read", sides(texts.map(Mapping::read)));
    for text in texts {
        let (mut map, owned) = (vec![0; 65_535], Mapping::read(text));
        match read_mapping(text, &mut map) {
            Ok(n) => {
                let owned = owned.unwrap();
                assert_eq!((owned.view().map, owned.view().numbers), (&map[..n.count.into()], n));
            }
            Err(refusal) => assert_eq!(owned.unwrap_err(), refusal),
        }
    }
    assert_eq!(Mapping::read(GAPS).unwrap().export().unwrap(), "5\n3\n90\n61\n58\n431.500\n7\n0\nx\n-2\n6\nx\n");
    let outside = Mapping::build(0, Root { reference: 1, hz: 440.0, offset: i32::MAX }, 0..128, None, |_| Ok(())).unwrap();
    assert_eq!(outside.export().unwrap_err().number(), 11);
    counted("Mapping::export", sides([Mapping::read(GAPS).unwrap().export(), outside.export()]));
}

#[test]
fn mappings_built() {
    let root = Root { reference: 57, hz: 431.5, offset: 3 };
    let fill = |b: &mut MappingBuilder| b.push(-4).and(b.push_unmapped());
    let (mut map, built) = ([0; 2], Mapping::build(2, root, -3..99, Some(-31), fill).unwrap());
    let mut builder = MappingBuilder::new(&mut map, root, -3..99).unwrap();
    fill(&mut builder).unwrap();
    let lent = builder.build(Some(-31)).unwrap();
    assert_eq!((built.view().map, built.view().numbers), (lent.map, lent.numbers));
    counted("Mapping::build", sides([2, 1].map(|entries| Mapping::build(entries, root, -3..99, Some(-31), fill))));
    assert_eq!(Mapping::build(9, root, -3..99, Some(-31), fill).unwrap().view().map, lent.map);
    assert_eq!(Mapping::build(1, root, -3..99, Some(-31), fill).unwrap_err().number(), 12);
    assert_eq!(Mapping::build(2, root, -3..99, None, fill).unwrap_err().number(), 15);
    assert_eq!(Mapping::build(2, root, 99..-3, Some(-31), fill).unwrap_err().number(), 25);
    assert_eq!(Mapping::build(2, root, 99..-3, None, fill).unwrap_err().number(), 15);
    assert_eq!(Mapping::build(2, Root { hz: 0.0, ..root }, -3..99, Some(-31), fill).unwrap_err().number(), 10);
}

#[test]
fn a_mapping_over_a_scale() {
    let (scale, mapping) = (Scale::read(MIXED).unwrap(), Mapping::read(GAPS).unwrap());
    let tuning = mapping.over(&scale);
    assert_eq!((held(tuning.scale), tuning.mapping.map, tuning.mapping.numbers), (held(scale.view()), mapping.view().map, mapping.view().numbers));
    assert_eq!(tuning.pitch_of(91).unwrap_err().number(), 16);
}

/// However many lines a text has, it is never refused for want of room: 65,535 entries are taken, and more are too many.
#[test]
fn the_largest_texts() {
    let scl = |items: usize| Scale::read(format!("d\n65535\n{}", "2/1\n".repeat(items)).as_bytes()).map(|scale| scale.view().count());
    let kbm = |entries: usize| {
        let text = format!("65535\n0\n127\n60\n60\n440.0\n12\n{}", "1\n".repeat(entries));
        Mapping::read(text.as_bytes()).map(|mapping| mapping.view().numbers.count)
    };
    assert_eq!((scl(65_535), kbm(65_535), kbm(0)), (Ok(65_535), Ok(65_535), Ok(65_535)));
    for count in [65_536, 65_537, 70_000] {
        assert_eq!([scl(count), kbm(count)].map(|said| said.map_err(|x| (x.number(), x.detail()))), [Err((13, 0)); 2]);
    }
}

//! The builder of scales: every push beside a push of the Rust's own, the columns compared whole after each, and what both build.

use crate::ffi::{OLD_U16, OLD_U8};
use crate::ffi_scl::{self, Columns, Item, OLD_USIZE, Push};
use crate::inputs::{Random, drawn, f64_limits, u32_limits, with_fixed};
use crate::lent::Float;
use crate::tally::{Code, Report, Said, Tally, Who};
use crate::{rules_scl, rust_scl};

/// A run: the lengths of the columns, and the pushes.
pub struct Run {
    pub lengths: [usize; 7],
    pub pushes: Vec<Push>,
}

impl Run {
    pub fn room(&self) -> usize {
        self.lengths.into_iter().min().unwrap()
    }

    /// The pushes that are taken: the usable ones for which there is a place.
    pub fn taken(&self) -> Vec<Push> {
        let usable = self.pushes.iter().copied().filter(|&push| rules_scl::pushed(push).is_some());
        usable.take(self.room().saturating_sub(1)).collect()
    }
}

/// A push as scales have it, or out of its range.
fn random_push(random: &mut Random) -> Push {
    match random.next() % 16 {
        0 => Push::Cents((random.unit() - 0.5) * 80_000.0),
        1 => Push::Cents(random.f64()),
        2 => Push::Cents((random.next() % 25) as f64 * 100.0 - 1200.0),
        3 => Push::Cents((random.unit() - 0.5) * 0.01),
        4 => Push::Cents(random.unit() * 1200.0),
        5 => Push::Ratio(random.ratio(33)),
        6 => Push::Ratio(random.f64()),
        7 => Push::Ratio(1.0 + random.unit()),
        8 => Push::Int(random.u32()),
        9 => Push::Int(1 + random.next() as u32 % 9),
        10 => Push::Fraction(random.u32(), random.u32()),
        11 => Push::Fraction(1 + random.next() as u32 % 8, 1 + random.next() as u32 % 8),
        12 => Push::Fraction(10_000_000 + random.next() as u32 % 30, 10_000_000),
        13 => Push::Fraction(random.next() as u32 % 3, random.next() as u32 % 3),
        14 => Push::Fraction(1 << (random.next() % 31), 1 << (random.next() % 31)),
        _ => Push::Fraction(3 + random.next() as u32 % 20, 2 + random.next() as u32 % 20),
    }
}

pub fn random_run(random: &mut Random, room: usize) -> Run {
    let mut lengths = [room; 7];
    lengths.iter_mut().for_each(|length| *length += random.next() as usize % 3);
    lengths[random.next() as usize % 7] = room;
    Run { lengths, pushes: (0..random.next() % 11).map(|_| random_push(random)).collect() }
}

/// The columns after these pushes, all of them usable and with a place, and the items that the Rust has after the same pushes.
fn after(old: &Columns, pushes: &[Push]) -> Option<Columns> {
    let mut columns = old.clone();
    columns.put_items(0, &rust_scl::build(pushes)?.ok()?.items);
    Some(columns)
}

fn pushes(tally: &mut Tally) {
    let mut random = Random::new(26);
    for k in drawn(20_000) {
        let run = random_run(&mut random, k % 9);
        let mut columns = Columns::new(run.lengths);
        let old = columns.clone();
        let (code, room) = ffi_scl::new_scl(&mut columns);
        if run.room() == 0 {
            tally.same(run.lengths, (code, (room, columns)), Said::refused(Who::Rules, 12, 0, (OLD_USIZE, old)));
            continue;
        }
        let said = after(&old, &[]).map_or(Said::fault((0, old.clone())), |columns| Said::gives(Who::Second, (run.room(), columns)));
        tally.same(run.lengths, (code, (room, columns.clone())), said);
        let mut taken: Vec<Push> = Vec::new();
        for &push in &run.pushes {
            let before = columns.clone();
            let (code, count) = ffi_scl::push(&mut columns, room, taken.len(), push);
            let said = if rules_scl::pushed(push).is_none() {
                Said::refused(Who::Rules, 10, 0, (OLD_USIZE, before))
            } else if taken.len() + 1 == room {
                Said::refused(Who::Rules, 12, 0, (OLD_USIZE, before))
            } else {
                taken.push(push);
                after(&old, &taken).map_or(Said::fault((0, before)), |columns| Said::gives(Who::Second, (taken.len(), columns)))
            };
            tally.same((run.lengths, taken.len(), push), (code, (count, columns.clone())), said);
        }
        // states that are not the columns': 10 comes before 12, and an unusable item's 10 before no room
        let items = run.lengths[..4].iter().copied().min().unwrap();
        for (room, count, push) in [(items + 1, 0, Push::Int(2)), (room, room, Push::Int(2)), (0, 0, Push::Cents(1.0)), (room, room - 1, Push::Int(0)), (usize::MAX, usize::MAX - 1, Push::Ratio(2.0))] {
            let before = columns.clone();
            let (code, count) = ffi_scl::push(&mut columns, room, count, push);
            tally.same((run.lengths, room, count, push), (code, (count, columns.clone())), Said::refused(Who::Rules, 10, 0, (OLD_USIZE, before)));
        }
    }
    // every limit of a push
    let limits = f64_limits().into_iter().flat_map(|x| [Push::Cents(x), Push::Ratio(x)]);
    let edges = (0..16).map(|k| Push::Ratio(f64::from_bits(2f64.powi(32).to_bits() + k)));
    let whole = u32_limits().into_iter().flat_map(|n| [Push::Int(n), Push::Fraction(n, 1), Push::Fraction(1, n), Push::Fraction(n, n)]);
    for push in limits.chain(edges).chain(whole) {
        let mut columns = Columns::new([2; 7]);
        ffi_scl::new_scl(&mut columns);
        let before = columns.clone();
        let (code, count) = ffi_scl::push(&mut columns, 2, 0, push);
        let said = match rules_scl::pushed(push) {
            None => Said::refused(Who::Rules, 10, 0, (OLD_USIZE, before)),
            Some(_) => after(&before, &[push]).map_or(Said::fault((0, before)), |columns| Said::gives(Who::Second, (1, columns))),
        };
        tally.same(push, (code, (count, columns)), said);
    }
}

/// What a build of these pushes should leave, all of them usable and with a place: the Rust's items and list over `old`, or where the Rust
/// refuses, `old`, which has the items by the rules.
pub fn built(old: &Columns, pushes: &[Push]) -> Said<(u16, Columns)> {
    let mut columns = old.clone();
    match rust_scl::build(pushes) {
        None => Said::fault((0, columns)),
        Some(Err((number, _))) => Said::refused(Who::Rust, number, 0, (OLD_U16, columns)),
        Some(Ok(parts)) => {
            columns.put_items(0, &parts.items);
            if rules_scl::beyond(&parts.items) {
                return Said::refused(Who::Rules, 18, 0, (OLD_U16, columns));
            }
            columns.put_list(&parts.list);
            Said::gives(Who::Second, (pushes.len() as u16, columns))
        }
    }
}

/// The columns with place 0 and the items of these pushes by the rules; all of them are usable and have a place.
fn with_items(old: &Columns, pushes: &[Push]) -> Columns {
    let mut columns = old.clone();
    columns.put_items(0, &[Item::cents(0.0)]);
    for (k, &push) in pushes.iter().enumerate() {
        columns.put_items(k + 1, &[rules_scl::pushed(push).unwrap()]);
    }
    columns
}

/// Ours after these pushes, built, beside the Rust; the pushes fit.
fn one_build(tally: &mut Tally, lengths: [usize; 7], pushes: &[Push]) {
    let mut columns = Columns::new(lengths);
    let old = with_items(&columns, pushes);
    let (_, room) = ffi_scl::new_scl(&mut columns);
    for (k, &push) in pushes.iter().enumerate() {
        ffi_scl::push(&mut columns, room, k, push);
    }
    let (code, count) = ffi_scl::build_scl(&mut columns, room, pushes.len());
    tally.same((lengths, &pushes[..pushes.len().min(12)]), (code, (count, columns)), built(&old, pushes));
}

/// Scales of every shape, of so many items: each shape is a way to push item k.
pub fn shapes(items: usize) -> Vec<Vec<Push>> {
    let n = items as f64;
    let spread = move |k: usize| (k * 40_503 % 65_537) as f64;
    let mut shapes: Vec<Box<dyn Fn(usize) -> Push>> = Vec::new();
    // ascending, descending, out of order, far above and below the period, all within the repeat rule, all the same
    shapes.push(Box::new(move |k| Push::Cents(1200.0 * k as f64 / n)));
    shapes.push(Box::new(move |k| Push::Cents(1200.0 * (items - k) as f64 / n)));
    shapes.push(Box::new(move |k| Push::Cents(spread(k) / 65_537.0 * 1200.0)));
    shapes.push(Box::new(move |k| Push::Cents(spread(k) - 32_768.0)));
    shapes.push(Box::new(move |k| Push::Cents(spread(k) * 1e-8)));
    shapes.push(Box::new(move |k| Push::Fraction(k as u32, 1 + spread(k) as u32)));
    shapes.push(Box::new(move |k| if k % 2 == 0 { Push::Cents(k as f64 * 0.01) } else { Push::Cents(1200.0 - k as f64 * 0.01) }));
    shapes.push(Box::new(move |k| Push::Ratio(1.0 + spread(k) / 65_537.0)));
    shapes.push(Box::new(|_| Push::Fraction(3, 2)));
    shapes.push(Box::new(|k| Push::Int(k as u32)));
    // periods: an octave, a fifth down, below 1, negligible above and below, a step, as large and as small as can be, equal to all
    let periods = [
        Push::Int(2), Push::Fraction(2, 3), Push::Cents(-1200.0), Push::Cents(0.001), Push::Cents(-0.001), Push::Cents(0.002), Push::Fraction(1_000_001, 1_000_000), Push::Fraction(1_000_002, 1_000_000), Push::Int(u32::MAX), Push::Fraction(1, u32::MAX),
        Push::Cents(38_400.0), Push::Cents(-38_400.0), Push::Fraction(3, 2), Push::Cents(1e-13), Push::Cents(-1e-13), Push::Cents(-0.0), Push::Int(1), Push::Ratio(1.0000000000000002), Push::Ratio(0.9999999999999999), Push::Fraction(11, 3),
    ];
    let mut found = Vec::new();
    for shape in &shapes {
        for period in periods {
            found.push((1..=items).map(|k| if k == items { period } else { shape(k) }).collect());
        }
    }
    found
}

/// How many scales of `scales` are random; those of every shape follow.
pub const RANDOM_SCALES: usize = 40_000;

/// Random scales of up to eleven items, and scales of every shape.
pub fn scales() -> impl Iterator<Item = ([usize; 7], Vec<Push>)> {
    let mut random = Random::new(27);
    let random = drawn(RANDOM_SCALES).map(move |k| {
        let run = random_run(&mut random, 1 + k % 12);
        (run.lengths, run.taken())
    });
    let sizes = [0, 1, 2, 3, 4, 5, 12, 31, 64, 100, 331].into_iter();
    random.chain(sizes.flat_map(|items| shapes(items).into_iter().map(move |pushes| ([items + 1 + items % 3; 7], pushes))))
}

fn builds(tally: &mut Tally) {
    for (lengths, pushes) in scales() {
        one_build(tally, lengths, &pushes);
    }
    if with_fixed() {
        large_builds(tally);
        states(tally);
    }
}

/// Builds of thousands of items, and of too many.
fn large_builds(tally: &mut Tally) {
    for (k, pushes) in shapes(4_096).into_iter().enumerate() {
        if k % 3 == 0 {
            one_build(tally, [4_097; 7], &pushes);
        }
    }
    for (k, pushes) in shapes(65_535).into_iter().enumerate() {
        if k % 23 == 0 {
            one_build(tally, [65_536; 7], &pushes);
        }
    }
    // over 65,535 items, and a table with more places than any scale has items
    for items in [65_535, 65_536, 65_537] {
        one_build(tally, [65_600; 7], &vec![Push::Fraction(3, 2); items]);
    }
    // 13 before 18: too many items, and the period is 1.0
    let mut pushes = vec![Push::Fraction(3, 2); 65_536];
    pushes[65_535] = Push::Int(1);
    one_build(tally, [65_600; 7], &pushes);
    // 10 before 13: too many items, and one that cannot be used
    let mut columns = with_items(&Columns::new([65_600; 7]), &pushes);
    columns.numer[40_000] = 0;
    let old = columns.clone();
    let (code, count) = ffi_scl::build_scl(&mut columns, 65_600, 65_536);
    tally.same("too many items, one of them 0/2", (code, (count, columns)), Said::refused(Who::Rules, 10, 0, (OLD_U16, old)));
}

/// States and items that cannot be used, and place 0, which needs only be usable.
fn states(tally: &mut Tally) {
    let mut good = Columns::new([4; 7]);
    ffi_scl::new_scl(&mut good);
    ffi_scl::push(&mut good, 4, 0, Push::Fraction(3, 2));
    ffi_scl::push(&mut good, 4, 1, Push::Int(2));
    let bad = |change: fn(&mut Columns)| {
        let mut columns = good.clone();
        change(&mut columns);
        columns
    };
    let cases = [
        (good.clone(), 5, 2), (good.clone(), 4, 4), (good.clone(), 0, 0), (good.clone(), usize::MAX, 2), (good.clone(), 4, 3),
        (bad(|c| c.kind[0] = 3), 4, 2), (bad(|c| c.kind[1] = OLD_U8), 4, 2), (bad(|c| c.numer[1] = 0), 4, 2), (bad(|c| c.denom[1] = 0), 4, 2), (bad(|c| c.numer[2] = 0), 4, 2),
        (bad(|c| c.cents[0] = f64::NAN.to_bits()), 4, 2), (bad(|c| c.cents[0] = 38_400.1f64.to_bits()), 4, 2), (bad(|c| c.cents[0] = f64::INFINITY.to_bits()), 4, 2),
        (bad(|c| c.place.truncate(3)), 4, 2), (bad(|c| c.ratio.truncate(3)), 4, 2), (bad(|c| c.wraps.truncate(3)), 4, 2), (bad(|c| c.kind.truncate(3)), 4, 2), (bad(|c| c.cents.clear()), 4, 2),
    ];
    for (columns, room, count) in cases {
        let mut left = columns.clone();
        let (code, items) = ffi_scl::build_scl(&mut left, room, count);
        tally.same((room, count, columns.clone()), (code, (items, left)), Said::refused(Who::Rules, 10, 0, (OLD_U16, columns)));
    }
    let mut columns = bad(|c| c.cents[0] = 100f64.to_bits());
    let answer = ffi_scl::build_scl(&mut columns, 4, 2);
    let list = [(0, 1.0594630943592953, 0), (1, 1.4999999999999998, 0), (2, 2.0, 0)].map(|(place, ratio, wraps)| (place, f64::to_bits(ratio), wraps));
    tally.require(answer == (Code::ACCEPTED, 2) && columns.list(3) == list, ("place 0 need not be 0.0", answer, &columns));
    // the period is that of the last item, whatever the list held before
    let mut columns = bad(|c| c.ratio.fill(f64::NAN.to_bits()));
    let old = columns.clone();
    let (code, items) = ffi_scl::build_scl(&mut columns, 4, 2);
    tally.same("a list of NaNs", (code, (items, columns)), built(&old, &[Push::Fraction(3, 2), Push::Int(2)]));
}

/// An item's ratio, or 10 where it cannot be used: the Rust's is the period of a scale of that item alone, on the second E.
pub fn as_ratio(item: Item) -> Said<Float> {
    if !rules_scl::usable(item) {
        return Said::refused(Who::Rules, 10, 0, Float::Untouched);
    }
    let push = match item {
        Item::Cents(bits) => Push::Cents(f64::from_bits(bits)),
        Item::Fraction(numer, None) => Push::Int(numer),
        Item::Fraction(numer, Some(denom)) => Push::Fraction(numer, denom),
    };
    let period = rust_scl::pushes(&[push]).build_with_description("").unwrap().period().as_float();
    match rules_scl::ratio(item) {
        Some(ratio) if ratio.to_bits() == period.to_bits() => Said::gives(Who::Second, Float::of(period)),
        _ => Said::fault(Float::Untouched),
    }
}

fn ratios(tally: &mut Tally) {
    let mut random = Random::new(28);
    let cents: Vec<f64> = f64_limits().into_iter().chain(drawn(100_000).map(|k| if k % 2 == 0 { (random.unit() - 0.5) * 80_000.0 } else { random.f64() })).collect();
    for x in cents {
        tally.same(x, ffi_scl::item_as_ratio(0, x, 7, 0), as_ratio(Item::cents(x)));
    }
    let limits = u32_limits();
    let pairs = limits.iter().flat_map(|&n| limits.iter().map(move |&d| (n, d)));
    let more: Vec<(u32, u32)> = drawn(100_000).map(|_| (random.u32(), random.u32())).collect();
    for (n, d) in pairs.chain(more) {
        tally.same((n, d), ffi_scl::item_as_ratio(1, f64::NAN, n, d), as_ratio(Item::Fraction(n, Some(d))));
        tally.same(n, ffi_scl::item_as_ratio(2, f64::NAN, n, d), as_ratio(Item::Fraction(n, None)));
    }
    for kind in 3..=255 {
        tally.same(kind, ffi_scl::item_as_ratio(kind, 100.0, 3, 2), Said::refused(Who::Rules, 10, 0, Float::Untouched));
    }
}

pub fn compare(all: &mut Report) {
    all.function("PitchValue::as_ratio", &[10], ratios);
    all.function("SclBuilder, pushes", &[10, 12], pushes);
    all.function("SclBuilder::build", &[10, 13, 18], builds);
}

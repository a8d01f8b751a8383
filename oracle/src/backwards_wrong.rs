//! For `oracle judged`: wrong ways to refuse a backwards range. The cases of the comparison must tell each from the right one.

use crate::backwards_builds::{NUMBERS, builds};
use crate::backwards_texts::{AROUND, Made, far, far_made, made, pairs};
use crate::rules::{self, Refused};

/// A text's keys with their lines, and what is said of it where their order is not looked at.
struct Asked {
    first: i32,
    last: i32,
    at_first: u64,
    at_last: u64,
    unlooked: Option<Refused>,
}

impl Asked {
    /// 25 at this line where it is backwards, by this account.
    fn refused(&self, backwards: bool, line: u64) -> Option<Refused> {
        if backwards && self.last != i32::MAX { Some((25, line)) } else { self.unlooked }
    }
}

/// What is wrong, and what is said: a refusal, or none.
type WrongRead = (&'static str, fn(&Asked) -> Option<Refused>);

const WRONG_READS: [WrongRead; 15] = [
    ("the order is not looked at", |a| a.unlooked),
    ("one key is refused", |a| a.refused(a.last <= a.first, a.at_last)),
    ("a last key next below the first is read", |a| a.refused(i64::from(a.last) + 1 < i64::from(a.first), a.at_last)),
    ("the keys exchanged", |a| a.refused(a.first < a.last, a.at_last)),
    ("a difference of 32 bits", |a| a.refused(a.last.wrapping_sub(a.first) < 0, a.at_last)),
    ("without their signs", |a| a.refused(a.last.unsigned_abs() < a.first.unsigned_abs(), a.at_last)),
    ("keys from 0 to 127 alone", |a| a.refused(a.last < a.first && a.last >= 0 && a.first < 128, a.at_last)),
    ("25 before 11, the end gone round", |a| match a.refused(a.last < a.first, a.at_last) {
        Some((11, line)) => Some((25, line)),
        said => said,
    }),
    ("at the first key's line", |a| a.refused(a.last < a.first, a.at_first)),
    ("at line 3", |a| a.refused(a.last < a.first, 3)),
    ("with no line", |a| a.refused(a.last < a.first, 0)),
    ("at line 12 at most", |a| a.refused(a.last < a.first, a.at_last.min(12))),
    ("the line in 8 bits", |a| a.refused(a.last < a.first, a.at_last & 0xff)),
    ("the line in 16 bits", |a| a.refused(a.last < a.first, a.at_last & 0xffff)),
    ("after all other faults", |a| a.unlooked.or(a.refused(a.last < a.first, a.at_last))),
];

/// What is wrong, and whether start and end are backwards by that.
type WrongBuild = (&'static str, fn(i32, i32) -> bool);

const WRONG_BUILDS: [WrongBuild; 6] = [
    ("the order is not looked at", |_, _| false),
    ("an empty range is built", |start, end| end < start),
    ("one key is refused", |start, end| i64::from(end) - 1 <= i64::from(start)),
    ("a difference of 32 bits", |start, end| end.wrapping_sub(start) <= 0),
    ("the last key gone round", |start, end| end.wrapping_sub(1) < start),
    ("without their signs", |start, end| end.unsigned_abs() <= start.unsigned_abs()),
];

/// A text whose keys are numbers, beside the same in order, with what the rules say.
fn asked_of(text: Made, in_order: Made) -> Option<(Asked, Option<Refused>)> {
    let unlooked = rules::read(&in_order.text, 2).err();
    let asked = Asked { first: text.first.0?, last: text.last.0?, at_first: text.first.1, at_last: text.last.1, unlooked };
    Some((asked, rules::read(&text.text, 2).err()))
}

/// The texts of the comparison, those with their keys far down last.
fn asked() -> impl Iterator<Item = (Asked, Option<Refused>)> {
    let near = pairs().filter_map(|(first, last, rest, k)| {
        asked_of(made(first, last, &rest, || AROUND[k]), made(last, last, &rest, || AROUND[k]))
    });
    let far = far().filter_map(|(first, last, rest, down)| asked_of(far_made(first, last, rest, down), far_made(last, last, rest, down)));
    near.chain(far)
}

/// All orders of the four numbers.
fn orders() -> Vec<[usize; 4]> {
    let all = (0..256).map(|n| [n / 64, n / 16 % 4, n / 4 % 4, n % 4]);
    all.filter(|order| (0..4).all(|k| order.contains(&k))).collect()
}

const RIGHT: [usize; 4] = [0, 1, 2, 3];

/// What would pass unseen.
pub fn unseen() -> Vec<String> {
    let seen_read = |way: fn(&Asked) -> Option<Refused>| asked().any(|(asked, right)| way(&asked) != right);
    let reads = WRONG_READS.into_iter().filter(|(_, way)| !seen_read(*way)).map(|(what, _)| format!("a read: {what}"));
    let seen_order = |order| builds().any(|tried| tried.number(order) != tried.number(RIGHT));
    let unseen_orders = orders().into_iter().filter(|&order| order != RIGHT && !seen_order(order));
    let orders = unseen_orders.map(|order| format!("a build: {:?}", order.map(|k| NUMBERS[k])));
    let seen_build = |way: fn(i32, i32) -> bool| {
        builds().any(|mut tried| {
            let (m, right) = (tried.state.mapping, tried.number(RIGHT));
            tried.reasons[2] = way(m.start, m.end);
            tried.number(RIGHT) != right
        })
    };
    let builds = WRONG_BUILDS.into_iter().filter(|(_, way)| !seen_build(*way)).map(|(what, _)| format!("a build: {what}"));
    reads.chain(orders).chain(builds).collect()
}

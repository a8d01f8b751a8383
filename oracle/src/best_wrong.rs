//! For `oracle judged`: wrong ways to find the nearest of all fractions. The cases of the comparison must tell each from the right one.

use crate::best::{LIMITS, Rules, cases, in_search};
use crate::pitch::ratio;
use crate::rules_best::{Allowed, Exact, Pair};
use std::cmp::Ordering;
use std::collections::BTreeMap;

/// What is wrong, a limit, and what is said for a ratio within it.
type Wrong = (&'static str, u16, fn(&Rules, f64) -> Option<Pair>);

/// The first in another order.
fn first(rules: &Rules, x: f64, order: fn(f64, Pair, Pair) -> Ordering) -> Option<Pair> {
    rules.allowed.beside(Exact::of(x)).min_by(|&one, &other| order(x, one, other))
}

/// The first of some alone.
fn among(rules: &Rules, x: f64, held: fn(f64, Pair) -> bool) -> Option<Pair> {
    let ratio = Exact::of(x);
    ratio.first(rules.allowed.beside(ratio).filter(|&pair| held(x, pair)))
}

fn larger_denominator(x: f64, one: Pair, other: Pair) -> Ordering {
    let ratio = Exact::of(x);
    ratio.distance(one).order(ratio.distance(other)).then((other.1, other.0).cmp(&(one.1, one.0)))
}

fn value((numer, denom): Pair) -> f64 {
    f64::from(numer) / f64::from(denom)
}

fn rounded(x: f64, one: Pair, other: Pair) -> Ordering {
    let quotient = |pair| (x / value(pair)).max(value(pair) / x);
    quotient(one).total_cmp(&quotient(other)).then(one.1.cmp(&other.1))
}

fn in_difference(x: f64, one: Pair, other: Pair) -> Ordering {
    let difference = |pair| (x - value(pair)).abs();
    difference(one).total_cmp(&difference(other)).then(one.1.cmp(&other.1))
}

/// The old call's answer, its octaves put back.
fn old_call(rules: &Rules, x: f64) -> Option<Pair> {
    let found = ratio(x).nearest_fraction(rules.limit);
    let (mut numer, mut denom) = (u128::from(found.numer), u128::from(found.denom));
    if found.num_octaves < 0 { denom <<= -found.num_octaves } else { numer <<= found.num_octaves }
    while numer % 2 == 0 && denom % 2 == 0 {
        (numer, denom) = (numer / 2, denom / 2);
    }
    Some((numer.try_into().ok()?, denom.try_into().ok()?))
}

const WRONG: [Wrong; 16] = [
    ("ties to the larger denominator", 9, |rules, x| first(rules, x, larger_denominator)),
    ("rounded quotients", 9, |rules, x| first(rules, x, rounded)),
    ("rounded quotients", 65_535, |rules, x| first(rules, x, rounded)),
    ("difference for ratio", 1, |rules, x| first(rules, x, in_difference)),
    ("difference for ratio", 65_535, |rules, x| first(rules, x, in_difference)),
    ("the lower half of a ratio's digits left out", 1, |rules, x| rules.pair(upper(x))),
    ("the lower half of a ratio's digits left out", 65_535, |rules, x| rules.pair(upper(x))),
    ("the last bit of a ratio left out", 9, |rules, x| rules.pair(f64::from_bits(x.to_bits() & !1))),
    ("the numerator 65,535 left out", 65_535, |rules, x| among(rules, x, |_, pair| pair.0 != u16::MAX)),
    ("the denominator 65,535 left out", 65_535, |rules, x| among(rules, x, |_, pair| pair.1 != u16::MAX)),
    ("never a fraction above", 3, |rules, x| among(rules, x, |x, pair| Exact::of(x).side(pair).is_le())),
    ("never a fraction below", 3, |rules, x| among(rules, x, |x, pair| Exact::of(x).side(pair).is_ge())),
    ("numerator for denominator", 5, |rules, x| rules.pair(x).map(|(numer, denom)| (denom, numer))),
    ("the old call", 9, old_call),
    ("the old call", 65_535, old_call),
    ("numbers for odd parts", 15, |rules, x| Allowed::of((1..=rules.limit).collect()).by_denominators(x)),
];

fn upper(x: f64) -> f64 {
    f64::from_bits(x.to_bits() >> 32 << 32)
}

/// The limits, each of which the cases must tell from its neighbour: an odd one from the one below it, an even one from the one above.
fn told_apart() -> impl Iterator<Item = (u16, u16)> {
    let limits = LIMITS.into_iter().flat_map(|(first, last, ..)| first..=last);
    limits.map(|limit| (limit, if limit % 2 == 0 { limit + 1 } else { limit - 1 }))
}

/// What would pass unseen.
pub fn unseen() -> Vec<String> {
    let mut met: BTreeMap<u16, (Rules, Vec<f64>)> = BTreeMap::new();
    for (rules, ratios) in cases() {
        met.entry(rules.limit).or_insert((rules, ratios));
    }
    let seen = |limit: u16, way: &dyn Fn(&Rules, f64) -> Option<Pair>| {
        let differs = |rules: &Rules, x: f64| in_search(x) && way(rules, x) != rules.pair(x);
        met.get(&limit).is_some_and(|(rules, ratios)| ratios.iter().rev().any(|&x| differs(rules, x)))
    };
    let wrong = WRONG.iter().filter(|(_, limit, way)| !seen(*limit, way)).map(|(what, limit, _)| format!("{what}, limit {limit}"));
    let limits = told_apart().filter(|&(limit, other)| {
        let other = Rules::within(other);
        !seen(limit, &|_, x| other.pair(x))
    });
    wrong.chain(limits.map(|(limit, other)| format!("limit {other} for {limit}"))).collect()
}

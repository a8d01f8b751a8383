//! best_fraction, which the Rust does not have: beside the rules of `rules_best`, and these beside each other.

use crate::best_cases::{ANSWERS, REFUSALS, TRAPS};
use crate::decided;
use crate::ffi;
use crate::inputs::{Random, drawn, f64_limits, fixed, with_fixed};
use crate::lent::Float;
use crate::rules_best::{Allowed, Exact, Pair, by_tree};
use crate::tally::{Report, Said, Tally, Who};

/// Limits from one to another; one in so many of the fixed ratios is tried with each; and how many draws of ratios there are for each.
pub const LIMITS: [(u16, u16, usize, usize); 17] = [
    (0, 0, 1, 100),
    (1, 15, 1, 800),
    (31, 31, 1, 400),
    (63, 63, 1, 400),
    (105, 105, 1, 400),
    (255, 255, 1, 400),
    (256, 256, 1, 400),
    (1_023, 1_023, 2, 200),
    (9_999, 9_999, 5, 80),
    (20_001, 20_001, 29, 24),
    (32_767, 32_767, 29, 24),
    (32_768, 32_768, 29, 24),
    (40_000, 40_000, 29, 24),
    (59_999, 59_999, 29, 24),
    (65_533, 65_533, 3, 120),
    (65_534, 65_534, 3, 120),
    (65_535, 65_535, 1, 320),
];

/// How many limits are random.
const OTHER_LIMITS: usize = 60;

/// As many cases as there are at least, and limits.
const LEAST: (usize, usize) = (60_000, 70);

/// The limits up to which all pairs are tried, and of how many cases within a limit one is answered in another way too by the rules.
const FEW: u16 = 31;

fn twice(limit: u16) -> usize {
    match limit {
        0..=5 => 1,
        6..=15 => 8,
        _ => 32,
    }
}

pub fn in_search(x: f64) -> bool {
    (2f64.powi(-64)..=2f64.powi(64)).contains(&x)
}

/// The rules within one limit.
pub struct Rules {
    pub limit: u16,
    pub allowed: Allowed,
}

impl Rules {
    pub fn within(limit: u16) -> Rules {
        Rules { limit, allowed: Allowed::within(limit) }
    }

    /// The largest number, where every number up to it is allowed and no other.
    fn most(&self) -> Option<u16> {
        self.allowed.numbers().last().copied().filter(|&most| self.allowed.numbers().len() == most.into())
    }

    /// The nearest of all fractions, in the fastest way.
    pub fn pair(&self, x: f64) -> Option<Pair> {
        self.most().map_or_else(|| self.allowed.by_denominators(x), |most| by_tree(x, most))
    }

    /// Whether another way finds the same, where there is one.
    fn is_found_again(&self, x: f64) -> bool {
        let few = self.limit <= FEW && self.pair(x) != self.allowed.by_all_pairs(x);
        let all = self.most().is_some() && self.pair(x) != self.allowed.by_denominators(x);
        !few && !all
    }

    /// The answer: 10 for a ratio outside 2^-64..2^64, then 29 where there is no fraction.
    pub fn said(&self, x: f64) -> Said<ffi::Best> {
        if !in_search(x) {
            return Said::refused(Who::Rules, 10, 0, ffi::OLD_BEST);
        }
        match self.pair(x) {
            None => Said::refused(Who::Rules, 29, 0, ffi::OLD_BEST),
            Some((numer, denom)) => {
                let deviation = x / (f64::from(numer) / f64::from(denom));
                Said::gives(Who::Rules, (numer, denom, Float::of(deviation)))
            }
        }
    }
}

/// A number and the floats up to so many beside it.
fn near(x: f64, beside: i64) -> impl Iterator<Item = f64> {
    (-beside..=beside).map(move |d| f64::from_bits(x.to_bits().wrapping_add_signed(d)))
}

/// The floats next to the middle, in ratio, of the two fractions that a ratio lies between.
fn middle(allowed: &Allowed, x: f64) -> Vec<f64> {
    let (ratio, value) = (Exact::of(x), |(n, d): Pair| f64::from(n) / f64::from(d));
    let (low, high): (Vec<Pair>, Vec<Pair>) = allowed.beside(ratio).partition(|&pair| ratio.side(pair).is_le());
    let low = low.into_iter().map(value).fold(0.0, f64::max);
    let high = high.into_iter().map(value).fold(f64::INFINITY, f64::min);
    near((low * high).sqrt(), 3).collect()
}

/// A number of 16 bits whose length is random too, and not 0.
fn short(random: &mut Random) -> f64 {
    let number = (random.next() as u16) >> (random.next() % 16);
    number.max(1).into()
}

/// Ratios with turns of their own, of another kind each time.
fn ratios(random: &mut Random, allowed: &Allowed, k: usize) -> Vec<f64> {
    let numbers = allowed.numbers();
    match k % 8 {
        0 => vec![random.ratio(66)],
        1 => vec![1.0 + random.unit()],
        2 => vec![random.ratio(18), random.f64()],
        3 => near(short(random) / short(random), 1).collect(),
        4 if !numbers.is_empty() => {
            let mut drawn = || f64::from(numbers[random.next() as usize % numbers.len()]);
            near(drawn() / drawn(), 1).collect()
        }
        5 => middle(allowed, 1.0 + random.unit()),
        6 => middle(allowed, random.ratio(16)),
        _ => {
            let last = 65_536.0 - 2.0 * random.unit();
            vec![last, 1.0 / last, 1.0 + 1.0 / last, 1.0 - 1.0 / last]
        }
    }
}

/// Ratios that tell a limit from those beside it: its largest odd number, which is a fraction, and the next one, which is none.
fn edges(limit: u16) -> impl Iterator<Item = f64> {
    let last = u32::from(limit) - u32::from(limit % 2 == 0 && limit > 0);
    fixed([last, last + 2]).filter(|&odd| odd > 0 && odd <= 65_535).flat_map(|odd| [f64::from(odd), 1.0 / f64::from(odd)])
}

/// The fixed ratios that every limit is tried with.
fn named() -> impl Iterator<Item = f64> {
    let powers = fixed(-66..=66).flat_map(|k| near(2f64.powi(k), 1));
    let ends = [65_534.0, 65_534.5, 65_535.0, 65_535.5, 65_536.0, 1.575, 1.25, 0.75, 1.189207115002721, 1.000000001];
    let ends = fixed(ends).flat_map(|x| near(x, 1).chain(near(1.0 / x, 1)));
    f64_limits().into_iter().chain(powers).chain(ends)
}

/// The cases: the rules within each limit, and its ratios.
pub fn cases() -> impl Iterator<Item = (Rules, Vec<f64>)> {
    let mut random = Random::new(32);
    let mut others = Random::new(33);
    let limits = LIMITS.into_iter().flat_map(|(first, last, one_in, count)| (first..=last).map(move |limit| (limit, one_in, count)));
    let tried = limits.map(move |(limit, one_in, count)| {
        let rules = Rules::within(limit);
        let known = named().step_by(one_in).chain(edges(limit));
        let all = known.chain(drawn(count).flat_map(|k| ratios(&mut random, &rules.allowed, k))).collect();
        (rules, all)
    });
    tried.chain(drawn(OTHER_LIMITS).map(move |_| {
        let rules = Rules::within((others.next() as u16) >> (others.next() % 16));
        let all = edges(rules.limit).chain((0..8).flat_map(|k| ratios(&mut others, &rules.allowed, k))).collect();
        (rules, all)
    }))
}

/// The answers that are known, of the library and of the rules.
fn known(tally: &mut Tally) {
    for (x, limit, numer, denom, deviation) in fixed(ANSWERS.into_iter().chain(TRAPS)) {
        let (rules, said) = (Rules::within(limit), Said::gives(Who::Rules, (numer, denom, Float::of(deviation))));
        tally.require(rules.said(x).value == said.value && rules.is_found_again(x), ("by the rules", x, limit));
        tally.same((x, limit), ffi::best_fraction(x, limit), said);
    }
    for (x, limit, number) in fixed(REFUSALS) {
        let said = Said::refused(Who::Rules, number, 0, ffi::OLD_BEST);
        tally.require(Rules::within(limit).said(x).code == said.code, ("by the rules", x, limit));
        tally.same((x, limit), ffi::best_fraction(x, limit), said);
    }
}

/// The halves of products that the last comparison is made of, by the library's sources.
fn halves(tally: &mut Tally) {
    let mut random = Random::new(34);
    let ends = [0, 1, u64::from(u32::MAX), 1 << 32, (1 << 53) - 1, u64::MAX];
    let all = fixed(ends).flat_map(|u| ends.map(|v| (u, v))).chain(drawn(20_000).map(move |_| (random.next(), random.next())));
    for (u, v) in all {
        let product = u128::from(u) * u128::from(v);
        tally.require(decided::halves(u, v) == ((product >> 64) as u64, product as u64), ("halves", u, v));
    }
}

pub fn compare(all: &mut Report) {
    all.ruled("best_fraction", &[10, 29], |tally| {
        known(tally);
        halves(tally);
        let (mut met, mut limits) = (0, 0);
        for (rules, ratios) in cases() {
            limits += 1;
            for (k, x) in ratios.into_iter().enumerate() {
                met += 1;
                tally.same((x, rules.limit), ffi::best_fraction(x, rules.limit), rules.said(x));
                if k % twice(rules.limit) == 0 && in_search(x) {
                    tally.require(rules.is_found_again(x), ("two ways of the rules", x, rules.limit));
                }
            }
        }
        tally.require(!with_fixed() || (met >= LEAST.0 && limits >= LEAST.1), ("too few cases", met, limits));
    });
}

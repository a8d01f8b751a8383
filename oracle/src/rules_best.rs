//! The nearest of all fractions, a second time: of all pairs n/d of allowed numbers, those from 1 to 65,535 whose odd parts are within a
//! limit, the closest to a ratio. In whole numbers throughout, and shared with nothing of the proved library. There are three ways:
//!
//! - by denominators: for each allowed denominator the two allowed numerators next to the ratio times it;
//! - by all pairs, as the rule is said: for small limits, which allow few numbers;
//! - by the tree of Stern and Brocot, where every number up to some is allowed.

use std::cmp::Ordering;
use tune::math::odd_factors_u16;

/// Numerator and denominator.
pub type Pair = (u16, u16);

/// A whole number below 2^192, and a product of two, the lowest 64 bits first.
type Whole = [u64; 3];
type Product = [u64; 6];

/// A number of at most 69 bits times 2^by, with at most 132 bits.
fn shifted(number: u128, by: u32) -> Whole {
    let (place, part) = ((by / 64) as usize, number << (by % 64));
    let mut whole = [0; 3];
    whole[place] = part as u64;
    whole[place + 1] = (part >> 64) as u64;
    whole
}

fn product(a: Whole, b: Whole) -> Product {
    let mut found = [0; 6];
    for (i, &x) in a.iter().enumerate().filter(|(_, x)| **x != 0) {
        let mut carried = 0;
        for (j, &y) in b.iter().enumerate() {
            let column = u128::from(x) * u128::from(y) + u128::from(found[i + j]) + carried;
            found[i + j] = column as u64;
            carried = column >> 64;
        }
        found[i + 3] = carried as u64;
    }
    found
}

fn order<const N: usize>(a: [u64; N], b: [u64; N]) -> Ordering {
    (0..N).rev().map(|k| a[k].cmp(&b[k])).find(|order| order.is_ne()).unwrap_or(Ordering::Equal)
}

/// How far a fraction is from a ratio: the larger over the smaller.
#[derive(Clone, Copy)]
pub struct Distance {
    larger: Whole,
    smaller: Whole,
}

impl Distance {
    pub fn order(self, other: Distance) -> Ordering {
        order(product(self.larger, other.smaller), product(other.larger, self.smaller))
    }
}

/// What the f64 of a ratio is: digits * 2^up / 2^down, where one of the two powers is 1.
#[derive(Clone, Copy)]
pub struct Exact {
    digits: u64,
    up: u32,
    down: u32,
}

impl Exact {
    /// Of an f64 in 2^-64..2^64.
    pub fn of(x: f64) -> Exact {
        let power = (x.to_bits() >> 52) as i32 - 1075;
        let digits = x.to_bits() % (1 << 52) | 1 << 52;
        Exact { digits, up: power.max(0) as u32, down: (-power).max(0) as u32 }
    }

    /// The ratio and a fraction, both times both denominators.
    fn beside(self, numer: u32, denom: u32) -> (Whole, Whole) {
        (shifted(u128::from(self.digits) * u128::from(denom), self.up), shifted(numer.into(), self.down))
    }

    /// A fraction as it lies to the ratio.
    pub fn side(self, (numer, denom): Pair) -> Ordering {
        let (ratio, fraction) = self.beside(numer.into(), denom.into());
        order(fraction, ratio)
    }

    pub fn distance(self, (numer, denom): Pair) -> Distance {
        let (ratio, fraction) = self.beside(numer.into(), denom.into());
        let (larger, smaller) = if order(fraction, ratio).is_lt() { (ratio, fraction) } else { (fraction, ratio) };
        Distance { larger, smaller }
    }

    /// The first of some pairs: the closest, of these that of the smallest denominator, then that of the smallest numerator.
    pub fn first(self, pairs: impl Iterator<Item = Pair>) -> Option<Pair> {
        let measured = pairs.map(|pair| (pair, self.distance(pair)));
        let first = measured.reduce(|one, other| {
            let sizes = |(numer, denom): Pair| (denom, numer);
            let order = one.1.order(other.1).then(sizes(one.0).cmp(&sizes(other.0)));
            if order.is_le() { one } else { other }
        });
        first.map(|(pair, _)| pair)
    }

    /// The whole part of the ratio times a number, or 65,535 where it is more.
    fn times(self, denom: u16) -> usize {
        let times = u128::from(self.digits) * u128::from(denom) << self.up;
        (times >> self.down).min(65_535) as usize
    }
}

/// The numbers that a limit allows, in order, and how many of them are up to each number.
pub struct Allowed {
    numbers: Vec<u16>,
    up_to: Vec<u16>,
}

impl Allowed {
    pub fn within(limit: u16) -> Allowed {
        Allowed::of((1..=u16::MAX).filter(|&n| odd_factors_u16(n) <= limit).collect())
    }

    /// These numbers, in order.
    pub fn of(numbers: Vec<u16>) -> Allowed {
        let up_to = (0..=u16::MAX).scan(0, |count, n| {
            *count += u16::from(numbers.get(usize::from(*count)) == Some(&n));
            Some(*count)
        });
        Allowed { up_to: up_to.collect(), numbers }
    }

    pub fn numbers(&self) -> &[u16] {
        &self.numbers
    }

    /// For each denominator, in order, the numerators next to the ratio times it, in order.
    pub fn beside(&self, ratio: Exact) -> impl Iterator<Item = Pair> {
        self.numbers.iter().flat_map(move |&denom| {
            let above = usize::from(self.up_to[ratio.times(denom)]);
            self.numbers[above.saturating_sub(1)..].iter().take(2).map(move |&numer| (numer, denom))
        })
    }

    pub fn by_denominators(&self, x: f64) -> Option<Pair> {
        let ratio = Exact::of(x);
        ratio.first(self.beside(ratio))
    }

    pub fn by_all_pairs(&self, x: f64) -> Option<Pair> {
        Exact::of(x).first(self.numbers.iter().flat_map(|&numer| self.numbers.iter().map(move |&denom| (numer, denom))))
    }
}

/// Of all fractions of numbers from 1 to `most`.
pub fn by_tree(x: f64, most: u16) -> Option<Pair> {
    let ratio = Exact::of(x);
    let (mut low, mut high) = ((0, 1), (1, 0));
    loop {
        let between: (u32, u32) = (low.0 + high.0, low.1 + high.1);
        if between.0.max(between.1) > u32::from(most) {
            break;
        }
        let (given, found) = ratio.beside(between.0, between.1);
        if order(found, given).is_le() { low = between } else { high = between }
    }
    let ends = [low, high].map(|(n, d)| (n as u16, d as u16));
    ratio.first(ends.into_iter().filter(|&(numer, denom)| numer != 0 && denom != 0))
}

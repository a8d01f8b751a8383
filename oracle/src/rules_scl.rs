//! Document 01's rules for scales: what every text and push should give, refusals that the Rust lacks (9, 10, 12, 18) included. It
//! shares nothing with the proved library, and inside the Rust's domain the Rust must say the same.

use crate::ffi_scl::{Item, Push};
use crate::rules::Refused;
use tune::pitch::Ratio;
use tune::powers;

/// "Usable: numerator and denominator at least 1; cents from -38,400 to 38,400."
pub fn usable(item: Item) -> bool {
    match item {
        Item::Cents(bits) => (-38_400.0..=38_400.0).contains(&f64::from_bits(bits)),
        Item::Fraction(numer, denom) => numer >= 1 && denom != Some(0),
    }
}

/// The item that a push appends, or none where it is 10.
pub fn pushed(item: Push) -> Option<Item> {
    let item = match item {
        Push::Cents(x) => Item::cents(x),
        Push::Ratio(x) => Item::cents(powers::l(x)? * 12.0 * 100.0),
        Push::Int(n) => Item::Fraction(n, None),
        Push::Fraction(n, d) => Item::Fraction(n, Some(d)),
    };
    usable(item).then_some(item)
}

/// The ratio of an item, by the second E: none where that is outside its domain, or the ratio outside 2^-900..2^900.
pub fn ratio(item: Item) -> Option<f64> {
    let x = match item {
        Item::Cents(bits) => powers::e(f64::from_bits(bits) / 1200.0)?,
        Item::Fraction(numer, denom) => f64::from(numer) / f64::from(denom.unwrap_or(1)),
    };
    (2f64.powi(-900)..=2f64.powi(900)).contains(&x).then_some(x)
}

/// "Reading or building a scale of two or more items gives 18 exactly when L(period) = 0, a wraparound count leaves i32, or reduction
/// computes a ratio outside 2^-900..2^900; a scale of one item never does." All three are looked at, item for item; place 0 is
/// among the items.
pub fn beyond(items: &[Item]) -> bool {
    if items.len() < 3 {
        return false;
    }
    let period = ratio(items[items.len() - 1]).unwrap();
    let size = powers::l(period).unwrap();
    if size == 0.0 {
        return true;
    }
    if Ratio::from_float(period).is_negligible() {
        return false;
    }
    items.iter().any(|&item| {
        let octaves = powers::l(ratio(item).unwrap()).unwrap();
        let wraps = octaves.div_euclid(size);
        powers::e(octaves.rem_euclid(size)).is_none() || !(f64::from(i32::MIN)..=f64::from(i32::MAX)).contains(&wraps)
    })
}

/// A scale file that was read: start and end of the description, and the items with place 0.
pub type Read = (usize, usize, Vec<Item>);

/// Document 01's reading of a scale file, in tables of `room` places.
pub fn read(text: &[u8], room: usize) -> Result<Read, Refused> {
    if room == 0 {
        return Err((12, 0));
    }
    let mut at = 0;
    let mut lines = Vec::new();
    for (k, line) in text.split_inclusive(|&b| b == b'\n').enumerate() {
        let bare = line.strip_suffix(b"\n").map_or(line, |l| l.strip_suffix(b"\r").unwrap_or(l));
        lines.push((k as u64 + 1, at, bare));
        at += line.len();
    }
    let mut lines = lines.into_iter();
    let mut next = || -> Result<Option<(u64, usize, &str)>, Refused> {
        for (number, at, line) in lines.by_ref() {
            let line = std::str::from_utf8(line).map_err(|_| (1, number))?;
            let trimmed = line.trim();
            if !trimmed.is_empty() && !trimmed.starts_with('!') {
                return Ok(Some((number, at + line.len() - line.trim_start().len(), trimmed)));
            }
        }
        Ok(None)
    };
    fn token(line: &str) -> &str {
        line.split_ascii_whitespace().next().unwrap_or("")
    }
    let (_, start, description) = next()?.ok_or((2, 1))?;
    let (at, _, line) = next()?.ok_or((2, 2))?;
    let count: u16 = token(line).parse().map_err(|_| (3, at))?;
    let mut items = vec![Item::cents(0.0)];
    while let Some((number, _, line)) = next()? {
        let token = token(line);
        let item = if token.contains('.') {
            let cents: f64 = token.parse().map_err(|_| (4, number))?;
            if !crate::numerals::supported(token) {
                return Err((9, number));
            }
            Item::cents(cents)
        } else if let Some((numer, denom)) = token.split_once('/') {
            Item::Fraction(numer.parse().map_err(|_| (5, number))?, Some(denom.parse().map_err(|_| (6, number))?))
        } else {
            Item::Fraction(token.parse().map_err(|_| (3, number))?, None)
        };
        if !usable(item) {
            return Err((10, number));
        }
        items.push(item);
        if items.len() > room {
            return Err((12, number));
        }
    }
    if items.len() > 65_536 {
        return Err((13, 0));
    }
    if items.len() - 1 != usize::from(count) {
        return Err((14, 0));
    }
    if beyond(&items) {
        return Err((18, 0));
    }
    Ok((start, start + description.len(), items))
}

//! Document 01's rules for mappings, a third time, and document 02's rule for backwards ranges: what every text, key, table and build
//! should give, refusals that the Rust lacks (9 to 12, and 25) included. It shares nothing with the proved library, and inside the
//! Rust's domain the Rust must say the same.

use crate::ffi_kbm::Mapping;
use crate::lent::Float;

pub const UNMAPPED: i32 = i32::MIN;

/// A refusal: number and detail.
pub type Refused = (u64, u64);

/// Document 01's reading of a mapping file, in a table of `room` places.
pub fn read(text: &[u8], room: usize) -> Result<(Mapping, Vec<i32>), Refused> {
    let mut lines = Vec::new();
    for (k, line) in text.split_inclusive(|&b| b == b'\n').enumerate() {
        let bare = line.strip_suffix(b"\n").map_or(line, |l| l.strip_suffix(b"\r").unwrap_or(l));
        lines.push((k as u64 + 1, bare));
    }
    let mut lines = lines.into_iter();
    let mut next = || -> Result<Option<(u64, &str)>, Refused> {
        for (number, line) in lines.by_ref() {
            let line = std::str::from_utf8(line).map_err(|_| (1, number))?.trim();
            if !line.is_empty() && !line.starts_with('!') {
                return Ok(Some((number, line.split_ascii_whitespace().next().unwrap_or(""))));
            }
        }
        Ok(None)
    };
    fn integer<T: std::str::FromStr>(line: Option<(u64, &str)>, which: u64) -> Result<(u64, T), Refused> {
        let (number, token) = line.ok_or((2, which))?;
        token.parse().map(|z| (number, z)).map_err(|_| (3, number))
    }
    let (_, count) = integer::<u16>(next()?, 1)?;
    let (_, start) = integer::<i32>(next()?, 2)?;
    let (at, last) = integer::<i32>(next()?, 3)?;
    let end = last.checked_add(1).ok_or((11, at))?;
    // "Refuse a mapping whose last key is below its first [..]: 25, at the last-key line, after 3 and 11 there"
    if last < start {
        return Err((25, at));
    }
    let (_, middle) = integer::<i16>(next()?, 4)?;
    let (_, reference) = integer::<i16>(next()?, 5)?;
    let (at, token) = next()?.ok_or((2, 6))?;
    let hz: f64 = token.parse().map_err(|_| (7, at))?;
    if !crate::numerals::supported(token) {
        return Err((9, at));
    }
    if !is_pitch(hz) {
        return Err((10, at));
    }
    let (_, octave) = integer::<i16>(next()?, 7)?;
    let mut entries = Vec::new();
    while let Some((number, token)) = next()? {
        entries.push(if token.eq_ignore_ascii_case("x") { UNMAPPED } else { token.parse::<i16>().map_err(|_| (8, number))?.into() });
        if entries.len() > room {
            return Err((12, number));
        }
    }
    let given = entries.len();
    entries.resize(given.max(count.into()), UNMAPPED);
    if entries.len() > room {
        return Err((12, 0));
    }
    if entries.len() > 65_535 {
        return Err((13, 0));
    }
    if entries.len() != usize::from(count) {
        return Err((14, 0));
    }
    let offset = i32::from(middle) - i32::from(reference);
    Ok((Mapping { count, start, end, reference: reference.into(), hz: Float::of(hz), offset, octave }, entries))
}

/// "Pitch is usable from 2^-10 to 2^20 Hz"
fn is_pitch(hz: f64) -> bool {
    (2f64.powi(-10)..=2f64.powi(20)).contains(&hz)
}

/// Whether the last key, which is the one before the end, is below the first, in exact numbers.
pub fn is_backwards(start: i32, end: i32) -> bool {
    i64::from(end) - 1 < i64::from(start)
}

/// The build of a state that says so many entries in a table of `room` places: 10 where state, table or root cannot be used; "a build gives
/// 15, then 13", and a backwards range is 25 "after 15 and before 13". Count and formal octave.
pub fn build(m: Mapping, octave: Option<i16>, map: &[i32], room: usize, count: usize) -> Result<(u16, i16), Refused> {
    let entries = map.get(..count).filter(|_| map.len() == room).ok_or((10, 0))?;
    if entries.iter().any(|&entry| entry != UNMAPPED && i16::try_from(entry).is_err()) || !is_pitch(m.pitch()) {
        return Err((10, 0));
    }
    if octave.is_none() && !entries.is_empty() {
        return Err((15, 0));
    }
    if is_backwards(m.start, m.end) {
        return Err((25, 0));
    }
    let count = u16::try_from(count).map_err(|_| (13, 0))?;
    Ok((count, octave.unwrap_or(0)))
}

/// The degree of a key, in exact numbers.
pub fn degree(m: Mapping, entries: &[i32], key: i32) -> Result<i32, Refused> {
    if !(m.start..m.end).contains(&key) {
        return Err((16, 0));
    }
    let d = i32::try_from(i64::from(key) - i64::from(m.reference)).map_err(|_| (11, 0))?;
    if entries.is_empty() {
        return Ok(d);
    }
    let size = entries.len() as i64;
    let (q, r) = (i64::from(d).div_euclid(size), i64::from(d).rem_euclid(size));
    match entries[r as usize] {
        UNMAPPED => Err((17, 0)),
        entry => i32::try_from(i64::from(entry) + q * i64::from(m.octave)).map_err(|_| (11, 0)),
    }
}

/// Whether the Rust overflows on the way to that degree: at the difference, the product or the sum, in exact numbers.
pub fn overflows(m: Mapping, entries: &[i32], key: i32) -> bool {
    let outside = |z: i128| i32::try_from(z).is_err();
    let d = i128::from(key) - i128::from(m.reference);
    if !(m.start..m.end).contains(&key) {
        return false;
    }
    if outside(d) {
        return true;
    }
    if entries.is_empty() {
        return false;
    }
    let size = entries.len() as i128;
    let (q, r) = (d.div_euclid(size), d.rem_euclid(size));
    let product = q * i128::from(m.octave);
    let entry = entries[r as usize];
    entry != UNMAPPED && (outside(product) || outside(i128::from(entry) + product))
}

/// Whether the Rust overflows at writing: the last or the middle key leaves 32 bits.
pub fn export_overflows(m: Mapping) -> bool {
    m.end.checked_sub(1).is_none() || m.reference.checked_add(m.offset).is_none()
}

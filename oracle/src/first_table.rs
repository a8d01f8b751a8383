//! E's first table (02, W7): each entry, as the sources have it, is what ten steps give, whatever the other bits; and what another hand found.

use crate::decided;
use crate::ffi;
use crate::inputs::{Random, fixed};
use crate::lent::Float;
use crate::tally::{Code, Tally};

/// The bits of a fraction below the ten highest.
const OTHERS: u64 = (1 << 42) - 1;

/// Entries, from T_k by another hand: the place and the number.
const ENTRIES: [(u64, u64); 17] = [
    (0, 4611686018427387904), (2, 4617933561212708775), (4, 4624189567668517719), (7, 4633589471820305329), (16, 4661903986662671289),
    (32, 4712668792719003883), (64, 4815862801830788490), (128, 5029079263719320435), (256, 5484249825272419511),
    (341, 5809049424066390986), (511, 6517495716274972807), (513, 6526325097368540546), (682, 7317292434135256122),
    (768, 7755900482342532473), (895, 8452146242133898989), (1020, 9198432556164277318), (1022, 9210893855724328793),
];

/// At the borders of the table's quarters, by the same hand: the exponent in parts of 2048, P, and the bits of E.
pub const QUARTERS: [(u64, u64, u64); 18] = [
    (0, 4611686018427387904, 0x3ff0000000000000),
    (1, 4613247111281068007, 0x3ff00162f3904052),
    (2, 4614808732577250067, 0x3ff002c605e2e8cf),
    (3, 4616370882494816123, 0x3ff0042936faa3d8),
    (510, 5480538784247065236, 0x3ff303b23f2d330b),
    (511, 5482393990758570599, 0x3ff30558126879a7),
    (512, 5484249825272419511, 0x3ff306fe0a31b715),
    (513, 5486106288001195791, 0x3ff308a4268c1648),
    (1022, 6517495716274972807, 0x3ff69cb2f4a86cca),
    (1023, 6519701941058254362, 0x3ff69ea897d78cee),
    (1024, 6521908912666391106, 0x3ff6a09e667f3bcd),
    (1025, 6524116631352189225, 0x3ff6a29460a33dc8),
    (1534, 7750652277793953502, 0x3ffae3f64ba4dec6),
    (1535, 7753275936003527264, 0x3ffae64ad8a6c4c5),
    (1536, 7755900482342532473, 0x3ffae89f995ad3ad),
    (1537, 7758525917111608053, 0x3ffaeaf48dc58659),
    (2046, 9217130834664616051, 0x3ffffa74ea381efc),
    (2047, 9220250907674776469, 0x3ffffd3a565efb65),
];

/// Of each pattern of the ten highest bits three fractions, with the other bits clear, set and random: those at which the table is not what
/// ten steps give.
fn wrong(table: impl Fn(u64) -> u64) -> Vec<u64> {
    let mut random = Random::new(310);
    let all = (0..1 << 10).flat_map(|i: u64| [0, OTHERS, random.next() & OTHERS].map(|others| i << 42 | others));
    all.filter(|&b| table(b) != decided::steps(b, 1 << 62, 0, 10)).collect()
}

pub fn compare(tally: &mut Tally) {
    let wrong = wrong(decided::first_steps);
    tally.require(wrong.is_empty(), format!("the first table is not what ten steps give for {wrong:x?}"));
    for (i, entry) in fixed(ENTRIES) {
        tally.require(decided::first_steps(i << 42) == entry, format!("entry {i} is not {entry}"));
    }
    for (parts, p, bits) in fixed(QUARTERS) {
        let (x, b) = (parts as f64 / 2048.0, parts << 41);
        tally.require(decided::steps(b, decided::first_steps(b), 10, 52) == p, format!("P of {x} is not {p}"));
        let e = (Code::ACCEPTED, Float::of(f64::from_bits(bits)));
        tally.require(ffi::one(ffi::telbijan_exp2, x) == e, format!("E({x}) is not {bits:x}"));
    }
}

/// For `oracle judged`: what would pass unseen. A table that is wrong at one place, or for the other bits clear or set, is found wrong there.
pub fn unseen() -> Vec<String> {
    let off = |at: fn(u64, u64) -> bool, i: u64| wrong(|b| decided::first_steps(b) + u64::from(at(b, i))).len();
    let places = (0..1 << 10).filter(|&i| off(|b, i| b >> 42 == i, i) != 3).map(|i| format!("a first table wrong at {i}"));
    let others = [0, OTHERS].into_iter().filter(|&others| off(|b, others| b & OTHERS == others, others) < 1 << 10);
    places.chain(others.map(|others| format!("a first table wrong for the other bits {others:x}"))).collect()
}

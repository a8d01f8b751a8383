//! Backwards ranges: answers that another program found, numbered from 1 to 43, and a case for whatever one might get wrong in the rule.

use crate::rules::UNMAPPED;

/// A text and the places of its table; first key, end and size, or the number of the refusal and its line.
pub type Read = (&'static [u8], usize, Result<(i32, i32, u16), (u64, u64)>);

/// Start and end, the formal octave, entries and how many times they stand there, and the places of the table; count and octave, or the
/// number of the refusal.
pub type Build = (i32, i32, Option<i16>, (&'static [i32], usize), usize, Result<(u16, i16), u64>);

/// 1 to 25.
pub const READS: [Read; 25] = [
    (b"1\n0\n127\n60\n60\n440.0\n1\n0\n", 8, Ok((0, 128, 1))),
    (b"1\n60\n60\n60\n60\n440.0\n1\n0\n", 8, Ok((60, 61, 1))),
    (b"1\n59\n60\n60\n60\n440.0\n1\n0\n", 8, Ok((59, 61, 1))),
    (b"1\n0\n-1\n60\n60\n440.0\n1\n0\n", 8, Err((25, 3))),
    (b"1\n-1\n-2\n60\n60\n440.0\n1\n0\n", 8, Err((25, 3))),
    (b"1\n2147483647\n2147483646\n60\n60\n440.0\n1\n0\n", 8, Err((25, 3))),
    (b"1\n2147483647\nx\n60\n60\n440.0\n1\n0\n", 8, Err((3, 3))),
    (b"1\n-2147483647\n-2147483648\n60\n60\n440.0\n1\n0\n", 8, Err((25, 3))),
    (b"1\n-2147483648\n2147483646\n60\n60\n440.0\n1\n0\n", 8, Ok((-2_147_483_648, 2_147_483_647, 1))),
    (b"1\nx\n0\n60\n60\n440.0\n1\n0\n", 8, Err((3, 2))),
    (b"1\n5\n2147483648\n60\n60\n440.0\n1\n0\n", 8, Err((3, 3))),
    (b"1\n+5\n+4\n60\n60\n440.0\n1\n0\n", 8, Err((25, 3))),
    (b"1\n-0\n0\n60\n60\n440.0\n1\n0\n", 8, Ok((0, 1, 1))),
    (b"1\n007\n6\n60\n60\n440.0\n1\n0\n", 8, Err((25, 3))),
    (b"1\n5\n4!\n60\n60\n440.0\n1\n0\n", 8, Err((3, 3))),
    (b"1\n5\r\n4\r\n60\n60\n440.0\n1\n0\n", 8, Err((25, 3))),
    (b"! a\n1\n\n5\n!\n4\nx\n\xff", 8, Err((25, 6))),
    (b"1\n5\n4", 0, Err((25, 3))),
    (b"1\n5\n! \xff\n4", 0, Err((1, 3))),
    (b"3\n5\n4\n60\n60\n440.0\n1\n0\n0\n0\n0\n", 8, Err((25, 3))),
    (b"3\n5\n4\n60\n60\n440.0\n1\n0\n0\n0\n", 1, Err((25, 3))),
    (b"0\n127\n0\n60\n69\n440.0\n0\n", 0, Err((25, 3))),
    (b"12\n127\n0\n60\n69\n440.000000\n12\n0\n1\n2\n3\n4\n5\n6\n7\n8\n9\n10\n11\n", 12, Err((25, 3))),
    (b"0\n5\n4\n60\n60\n0\n0\n", 8, Err((25, 3))),
    (b"1\n5\n\xe2\x80\x834\n60\n60\n440.0\n1\n0\n", 8, Err((25, 3))),
];

/// 26 to 43.
pub const BUILDS: [Build; 18] = [
    (5, 5, Some(5), (&[0, UNMAPPED], 1), 2, Err(25)),
    (5, 4, Some(5), (&[0, UNMAPPED], 1), 2, Err(25)),
    (128, 0, Some(5), (&[0, UNMAPPED], 1), 2, Err(25)),
    (0, 1, Some(5), (&[0, UNMAPPED], 1), 2, Ok((2, 5))),
    (-1, -1, Some(5), (&[0, UNMAPPED], 1), 2, Err(25)),
    (-2_147_483_648, -2_147_483_647, Some(5), (&[0, UNMAPPED], 1), 2, Ok((2, 5))),
    (2_147_483_647, -2_147_483_648, Some(5), (&[0, UNMAPPED], 1), 2, Err(25)),
    (2_147_483_646, 2_147_483_647, Some(5), (&[0, UNMAPPED], 1), 2, Ok((2, 5))),
    (5, 4, None, (&[], 0), 0, Err(25)),
    (5, 4, Some(1), (&[0], 65_536), 65_536, Err(25)),
    (5, 4, None, (&[0], 65_536), 65_536, Err(15)),
    (5, 4, Some(1), (&[40_000], 1), 1, Err(10)),
    (5, 4, Some(1), (&[0], 1), 1, Err(25)),
    (4, 5, None, (&[], 0), 0, Ok((0, 0))),
    (4, 5, Some(1), (&[0], 65_536), 65_536, Err(13)),
    (4, 5, None, (&[0], 65_536), 65_536, Err(15)),
    (4, 5, Some(1), (&[40_000], 1), 1, Err(10)),
    (4, 5, Some(1), (&[0], 1), 1, Ok((1, 1))),
];

pub const READ_TRAPS: [Read; 24] = [
    // the end is the key after the last: these two differ by one
    (b"0\n60\n59\n60\n60\n440.0\n0\n", 0, Err((25, 3))),
    (b"0\n60\n60\n60\n60\n440.0\n0\n", 0, Ok((60, 61, 0))),
    // its own line, with blank ones and comments counted
    (b"! c\n1\n\n5\n! c\n4\n60\n60\n440.0\n1\n0\n", 8, Err((25, 6))),
    (b"1\n\n\n5\n4\n60\n60\n440.0\n1\n0\n", 8, Err((25, 5))),
    // 11 for the largest last key, whatever the first
    (b"1\n2147483647\n2147483647\n60\n60\n440.0\n1\n0\n", 8, Err((11, 3))),
    (b"1\n-2147483648\n2147483647\n60\n60\n440.0\n1\n0\n", 8, Err((11, 3))),
    (b"1\n2147483646\n2147483646\n60\n60\n440.0\n1\n0\n", 8, Ok((2_147_483_646, 2_147_483_647, 1))),
    (b"1\n-2147483648\n-2147483648\n60\n60\n440.0\n1\n0\n", 8, Ok((-2_147_483_648, -2_147_483_647, 1))),
    // as numbers with their signs: not by size, not by a difference of 32 bits
    (b"1\n5\n-6\n60\n60\n440.0\n1\n0\n", 8, Err((25, 3))),
    (b"1\n-6\n5\n60\n60\n440.0\n1\n0\n", 8, Ok((-6, 6, 1))),
    (b"1\n2147483646\n-2147483648\n60\n60\n440.0\n1\n0\n", 8, Err((25, 3))),
    // beside the first key, and no other number: neither the size nor the middle or reference key
    (b"7\n5\n6\n0\n127\n440.0\n7\n", 8, Ok((5, 7, 7))),
    (b"1\n7\n6\n0\n0\n440.0\n1\n0\n", 8, Err((25, 3))),
    // faults of earlier lines come before it
    (b"65536\n5\n4\n60\n60\n440.0\n1\n0\n", 8, Err((3, 1))),
    (b"1\n5\n", 8, Err((2, 3))),
    (b"1\n5\n4 \xff\n60\n60\n440.0\n1\n0\n", 8, Err((1, 3))),
    // and those of later lines and of the end behind it: 1, 3, 7, 9, 8, 12 at a line, 12 and 14 at the end
    (b"1\n5\n4\n\xff\n", 8, Err((25, 3))),
    (b"1\n5\n4\nx\n60\n440.0\n1\n0\n", 8, Err((25, 3))),
    (b"1\n5\n4\n60\n60\nx\n1\n0\n", 8, Err((25, 3))),
    (b"1\n5\n4\n60\n60\n1e3\n1\n0\n", 8, Err((25, 3))),
    (b"1\n5\n4\n60\n60\n440.0\n1\ny\n", 8, Err((25, 3))),
    (b"1\n5\n4\n60\n60\n440.0\n1\n0\n", 0, Err((25, 3))),
    (b"9\n5\n4\n60\n60\n440.0\n1\n0\n", 8, Err((25, 3))),
    (b"1\n5\n4\n60\n60\n440.0\n1\n0\n0\n", 8, Err((25, 3))),
];

pub const BUILD_TRAPS: [Build; 12] = [
    // an empty range, whose last key is below its first, and the range of one key
    (60, 60, None, (&[], 0), 0, Err(25)),
    (60, 61, None, (&[], 0), 0, Ok((0, 0))),
    (0, 0, Some(1), (&[0], 1), 1, Err(25)),
    // 15 comes before it, and needs an entry
    (61, 60, None, (&[0], 1), 1, Err(15)),
    (61, 60, None, (&[], 0), 1, Err(25)),
    (60, 60, None, (&[UNMAPPED], 1), 2, Err(15)),
    // nothing is computed that could overflow: never 11
    (0, -2_147_483_648, Some(1), (&[0], 1), 1, Err(25)),
    (-2_147_483_648, -2_147_483_648, Some(1), (&[0], 1), 1, Err(25)),
    (2_147_483_647, 2_147_483_647, Some(1), (&[0], 1), 1, Err(25)),
    (-2_147_483_648, 2_147_483_647, Some(1), (&[0], 1), 1, Ok((1, 1))),
    (-1, 2_147_483_647, Some(-1), (&[0], 1), 3, Ok((1, -1))),
    // 13 comes after it
    (60, 60, Some(1), (&[UNMAPPED, 7], 32_768), 65_537, Err(25)),
];

/// Start and end of ranges that are lent by value, and a key: none of them has it.
pub const LENT: [(i32, i32, i32); 14] = [
    (61, 60, 60),
    (61, 60, 61),
    (60, 60, 60),
    (60, 60, 59),
    (128, 0, 64),
    (128, 0, 0),
    (0, 0, 0),
    (0, -1, -1),
    (2_147_483_647, -2_147_483_648, 0),
    (2_147_483_647, -2_147_483_648, 2_147_483_647),
    (2_147_483_647, -2_147_483_648, -2_147_483_648),
    (-2_147_483_648, -2_147_483_648, -2_147_483_648),
    (2_147_483_647, 2_147_483_647, 2_147_483_647),
    (0, -2_147_483_648, 0),
];

//! Counting from the middle key: a case for whatever one might get wrong in the rule, with answers that another program found.

use crate::ffi_kbm::Mapping;
use crate::ffi_scl::Push::{self, Fraction, Int};
use crate::middle_cases::{A4, C4, Case, JUST, MAX, MIN, NONE, OCTAVE, TWELVE, X, case, mapping};

/// A run of keys from the first on, into so many places of pitches and of numbers: the bits of a pitch or a number beside each key, or the
/// number of the refusal.
pub struct Run {
    pub items: &'static [Push],
    pub mapping: Mapping,
    pub map: &'static [i32],
    pub first: i32,
    pub keys: u32,
    pub places: (usize, usize),
    pub said: Result<&'static [Result<u64, u64>], u64>,
}

const fn run(
    items: &'static [Push],
    keys: (i32, i32, i32, i32),
    rest: (u64, i16),
    map: &'static [i32],
    (first, count): (i32, u32),
    places: (usize, usize),
    said: Result<&'static [Result<u64, u64>], u64>,
) -> Run {
    Run { items, mapping: mapping(keys, rest, map), map, first, keys: count, places, said }
}

pub const TRAPS: [Case; 98] = [
    // document 01's mapping with its middle key 62: degrees 0, none, 2, 5, -3, and a reference key that is unmapped
    case(TWELVE, (0, 128, 60, 2), (C4, 5), &[0, X, 2], 62, (Ok(2), Ok(0x4074_9a0a_a6f5_ab59)), (Ok(0), Err(19))),
    case(TWELVE, (0, 128, 60, 2), (C4, 5), &[0, X, 2], 63, (Ok(5), Ok(0x4078_7fed_84cb_bc3c)), (Err(17), Err(17))),
    case(TWELVE, (0, 128, 60, 2), (C4, 5), &[0, X, 2], 64, (Err(17), Err(17)), (Ok(2), Err(19))),
    case(TWELVE, (0, 128, 60, 2), (C4, 5), &[0, X, 2], 65, (Ok(7), Ok(0x407b_8000_3d31_248e)), (Ok(5), Err(19))),
    case(TWELVE, (0, 128, 60, 2), (C4, 5), &[0, X, 2], 61, (Err(17), Err(17)), (Ok(-3), Err(19))),
    case(TWELVE, (0, 128, 60, 2), (C4, 5), &[0, X, 2], 60, (Ok(0), Ok(0x4072_5aa3_0c86_459d)), (Err(17), Err(17))),
    case(TWELVE, (0, 128, 60, 2), (C4, 5), &[0, X, 2], 128, (Err(16), Err(16)), (Err(16), Err(16))),
    case(TWELVE, (0, 128, 60, 2), (C4, 5), &[0, X, 2], -1, (Err(16), Err(16)), (Err(16), Err(16))),
    // the reference key, where it is the middle key too; and one above it
    case(JUST, (0, 128, 60, 0), (A4, 3), &[0, 1, 2], 60, (Ok(0), Ok(A4)), (Ok(0), Ok(A4))),
    case(JUST, (0, 128, 60, 1), (A4, 3), &[0, 1, 2], 60, (Ok(0), Ok(0x4086_0000_0000_0000)), (Ok(-1), Ok(A4))),
    case(
        JUST, (0, 128, 60, 1), (A4, 3), &[0, 1, 2], 61, (Ok(1), Ok(0x4088_c000_0000_0000)),
        (Ok(0), Ok(0x4086_0000_0000_0000)),
    ),
    // two steps, each rounded: the reference key itself need not sound its pitch
    case(
        &[Fraction(7, 5), Int(2)], (0, 128, 61, -1), (A4, 2), &[0, 1], 61, (Ok(0), Ok(0x4073_a492_4924_9249)),
        (Ok(1), Ok(0x407b_7fff_ffff_ffff)),
    ),
    case(
        &[Fraction(7, 5), Int(2)], (0, 128, 61, -1), (A4, 2), &[0, 1], 60, (Ok(-1), Ok(0x406b_7fff_ffff_ffff)),
        (Ok(0), Ok(0x4073_a492_4924_9249)),
    ),
    // each step in reach: not the quotient of two relative pitches, nor the product, first
    case(OCTAVE, (-1000, 1000, 0, 890), (0x4130_0000_0000_0000, 1), &[0], 0, (Ok(0), Err(18)), (Ok(-890), Err(18))),
    case(OCTAVE, (-1000, 1000, 0, 890), (0x4130_0000_0000_0000, 1), &[0], -5, (Ok(-5), Err(18)), (Ok(-895), Err(18))),
    case(
        OCTAVE, (-1000, 1000, 0, -890), (0x3f50_0000_0000_0000, 1), &[0], 0, (Ok(0), Ok(0x07b0_0000_0000_0000)),
        (Ok(890), Ok(0x3f50_0000_0000_0000)),
    ),
    case(
        OCTAVE, (-1000, 1000, 0, -890), (0x3f50_0000_0000_0000, 1), &[0], -880, (Ok(-880), Err(18)),
        (Ok(10), Ok(0x0850_0000_0000_0000)),
    ),
    case(
        OCTAVE, (-1000, 1000, 0, -880), (0x3f50_0000_0000_0000, 1), &[0], 0, (Ok(0), Ok(0x0850_0000_0000_0000)),
        (Ok(880), Ok(0x3f50_0000_0000_0000)),
    ),
    case(OCTAVE, (-1000, 1000, 0, 895), (A4, 1), &[0], -1000, (Ok(-1000), Err(18)), (Ok(-1895), Err(18))),
    case(OCTAVE, (-1000, 1000, 0, -901), (A4, 1), &[0], 1, (Ok(1), Err(18)), (Ok(902), Err(18))),
    case(OCTAVE, (-2000, 1000, 0, -900), (A4, 1), &[0], -1800, (Ok(-1800), Err(18)), (Ok(-900), Err(18))),
    case(
        OCTAVE, (-1000, 1000, 0, -100), (0x4130_0000_0000_0000, 1), &[0], 795, (Ok(795), Ok(0x6ca0_0000_0000_0000)),
        (Ok(895), Ok(0x72e0_0000_0000_0000)),
    ),
    case(
        OCTAVE, (-1000, 1000, 0, 455), (0x3f50_0000_0000_0000, 1), &[0], 905, (Ok(905), Err(18)),
        (Ok(450), Ok(0x77e0_0000_0000_0000)),
    ),
    // the range does not limit the reference key, nor the middle key; what it has not is 16
    case(
        OCTAVE, (60, 61, 69, -9), (A4, 1), &[0], 60, (Ok(-9), Ok(0x3f5b_8000_0000_0000)),
        (Ok(0), Ok(0x3feb_8000_0000_0000)),
    ),
    case(OCTAVE, (60, 61, 69, -9), (A4, 1), &[0], 61, (Err(16), Err(16)), (Err(16), Err(16))),
    case(OCTAVE, (60, 61, 69, -9), (A4, 1), &[0], 59, (Err(16), Err(16)), (Err(16), Err(16))),
    case(
        OCTAVE, (70, 80, 69, -9), (A4, 1), &[0], 70, (Ok(1), Ok(0x3ffb_8000_0000_0000)),
        (Ok(10), Ok(0x408b_8000_0000_0000)),
    ),
    case(OCTAVE, (60, 61, 69, -9), (A4, 1), &[0, X], 60, (Err(17), Err(17)), (Ok(0), Err(19))),
    case(OCTAVE, (61, 60, 60, 0), (A4, 1), &[0], 60, (Err(16), Err(16)), (Err(16), Err(16))),
    // the middle key is an exact sum, which may leave 32 bits
    case(OCTAVE, (MIN, MAX, MAX, 1), (A4, 0), &[], 2_147_483_646, (Ok(-1), Ok(A4)), (Ok(-2), Ok(0x406b_8000_0000_0000))),
    case(
        OCTAVE, (MIN, MAX, MAX, 1), (A4, 2), &[0, 1], 2_147_483_646, (Ok(-1), Ok(A4)),
        (Ok(-2), Ok(0x406b_8000_0000_0000)),
    ),
    case(OCTAVE, (MIN, MAX, MIN, -1), (A4, 2), &[0, 1], MIN, (Ok(0), Ok(0x406b_8000_0000_0000)), (Ok(1), Ok(A4))),
    case(
        OCTAVE, (MIN, MAX, MIN, -1), (A4, 0), &[], -2_147_483_645, (Ok(3), Ok(0x409b_8000_0000_0000)),
        (Ok(4), Ok(0x40ab_8000_0000_0000)),
    ),
    case(
        JUST, (MIN, MAX, MAX, 3), (A4, 3), &[0, X, 2], 2_147_483_646, (Ok(-1), Ok(0x4081_3000_0000_0000)),
        (Ok(-4), Ok(0x4071_3000_0000_0000)),
    ),
    case(JUST, (MIN, MAX, MAX, 3), (A4, 3), &[0, X, 2], 2_147_483_645, (Err(17), Err(17)), (Err(17), Err(17))),
    case(
        JUST, (MIN, MAX, MAX, 1), (A4, 3), &[0, X, 2], 2_147_483_644, (Ok(-3), Ok(0x4076_0000_0000_0000)),
        (Ok(-4), Ok(0x406b_8000_0000_0000)),
    ),
    case(
        JUST, (MIN, MAX, MAX, 2), (A4, 3), &[0, X, 2], 2_147_483_643, (Ok(-4), Ok(0x406e_8e38_e38e_38e3)),
        (Ok(-6), Err(19)),
    ),
    case(OCTAVE, (MIN, MAX, MAX, 2000), (A4, 0), &[], 2_147_483_646, (Ok(-1), Err(18)), (Ok(-2001), Err(18))),
    case(OCTAVE, (0, 9, MAX, 1), (A4, 0), &[], 9, (Err(16), Err(16)), (Err(16), Err(16))),
    // and only d is tested: offset -2147483648 is 11 for a pitch, after the key's refusals, and no refusal of a degree
    case(OCTAVE, (MIN, MAX, 60, MIN), (A4, 0), &[], 59, (Ok(-1), Err(11)), (Ok(MAX), Err(11))),
    case(OCTAVE, (MIN, MAX, 60, MIN), (A4, 0), &[], -100, (Ok(-160), Err(11)), (Ok(2_147_483_488), Err(11))),
    case(OCTAVE, (MIN, MAX, 60, MIN), (A4, 0), &[], 60, (Ok(0), Err(11)), (Err(11), Err(11))),
    case(OCTAVE, (MIN, MAX, 60, MIN), (A4, 0), &[], 61, (Ok(1), Err(11)), (Err(11), Err(11))),
    case(OCTAVE, (MIN, MAX, 60, MIN), (A4, 0), &[], MAX, (Err(16), Err(16)), (Err(16), Err(16))),
    // so it is with a table: 11 for the key's d before 17; 11 for the reference key's d before 19
    case(OCTAVE, (MIN, MAX, 60, MIN), (A4, 0), &[X], 60, (Err(17), Err(17)), (Err(11), Err(11))),
    case(OCTAVE, (MIN, MAX, 60, MIN), (A4, 0), &[X], 59, (Err(17), Err(17)), (Err(17), Err(17))),
    case(OCTAVE, (MIN, MAX, 60, MIN), (A4, 0), &[X, 0], 59, (Ok(0), Err(11)), (Ok(0), Err(11))),
    case(OCTAVE, (MIN, MAX, 60, MIN), (A4, 0), &[0, X], 59, (Err(17), Err(17)), (Err(17), Err(17))),
    case(OCTAVE, (MIN, MAX, 60, MIN), (A4, 0), &[0, X], 58, (Ok(0), Err(11)), (Ok(0), Err(11))),
    case(OCTAVE, (0, 9, 60, MIN), (A4, 0), &[X, 0], 59, (Err(16), Err(16)), (Err(16), Err(16))),
    // the last offsets that are no 11 for the reference key
    case(NONE, (MIN, MAX, 0, -2_147_483_647), (A4, 0), &[], -1, (Ok(-1), Ok(A4)), (Ok(2_147_483_646), Ok(A4))),
    case(NONE, (MIN, MAX, 0, -2_147_483_647), (A4, 0), &[], 0, (Ok(0), Ok(A4)), (Ok(MAX), Ok(A4))),
    case(NONE, (MIN, MAX, 0, MAX), (A4, 0), &[], 0, (Ok(0), Ok(A4)), (Ok(-2_147_483_647), Ok(A4))),
    case(NONE, (MIN, MAX, 0, MAX), (A4, 0), &[], -1, (Ok(-1), Ok(A4)), (Ok(MIN), Ok(A4))),
    case(NONE, (MIN, MAX, 0, MAX), (A4, 0), &[], -2, (Ok(-2), Ok(A4)), (Err(11), Err(11))),
    case(&[Fraction(1, 1)], (MIN, MAX, 0, MAX), (A4, 0), &[], 5, (Ok(5), Ok(A4)), (Ok(-2_147_483_642), Ok(A4))),
    // the asked key's refusals before those of the reference key: 16, 17, 11 for d, 11, where its entry is unmapped
    case(OCTAVE, (0, 100_000, 2, -1), (A4, 32_767), &[0, X, X], 100_000, (Err(16), Err(16)), (Err(16), Err(16))),
    case(OCTAVE, (0, 300_000, 2, -1), (A4, 32_767), &[0, X, X], 3, (Err(17), Err(17)), (Err(17), Err(17))),
    case(OCTAVE, (MIN, MAX, 2, -1), (A4, 0), &[0, X], MIN, (Err(11), Err(11)), (Err(11), Err(11))),
    case(OCTAVE, (0, 300_000, 2, -1), (A4, 32_767), &[0, X], 200_001, (Err(17), Err(17)), (Err(11), Err(11))),
    case(OCTAVE, (0, 300_000, 2, -1), (A4, 32_767), &[0, X], 1, (Err(17), Err(17)), (Ok(0), Err(19))),
    // and where its degree leaves 32 bits
    case(OCTAVE, (0, 10, 70_000, -70_000), (A4, 32_767), &[0], 10, (Err(16), Err(16)), (Err(16), Err(16))),
    case(OCTAVE, (0, 10, 140_000, -140_000), (A4, 32_767), &[0, X], 1, (Err(17), Err(17)), (Err(17), Err(17))),
    case(OCTAVE, (0, 10, 140_000, -140_000), (A4, 32_767), &[0, X], 2, (Err(11), Err(11)), (Ok(32_767), Err(11))),
    case(OCTAVE, (0, 10, -70_000, 70_000), (A4, 32_767), &[0], 9, (Err(11), Err(11)), (Ok(294_903), Err(11))),
    case(OCTAVE, (MIN, 10, 70_000, -70_000), (A4, 32_767), &[0], MIN, (Err(11), Err(11)), (Err(11), Err(11))),
    // an unmapped entry is 19, whatever its octaves come to
    case(OCTAVE, (0, 10, 200_001, -200_001), (A4, 32_767), &[0, X], 0, (Err(17), Err(17)), (Ok(0), Err(19))),
    case(OCTAVE, (0, 10, -199_999, 199_999), (A4, 32_767), &[0, X], 2, (Err(17), Err(17)), (Ok(32_767), Err(19))),
    // 19 before 18
    case(OCTAVE, (0, 5000, 1, -1), (A4, 1000), &[0, X], 4, (Err(17), Err(17)), (Ok(2000), Err(19))),
    case(OCTAVE, (0, 5000, 0, -5001), (A4, 1), &[0, X], 1, (Err(17), Err(17)), (Ok(2501), Err(19))),
    // 18 last: the reference key's 11 before it
    case(OCTAVE, (0, 100_000, 70_000, -70_000), (A4, 32_767), &[0], 1000, (Err(11), Err(11)), (Ok(32_767_000), Err(11))),
    case(OCTAVE, (0, 100_000, 1000, -1000), (A4, 32_767), &[0], 0, (Ok(-32_767_000), Err(18)), (Ok(0), Err(18))),
    // degrees at the ends of 32 bits, and one beyond
    case(NONE, (0, 10, 65_536, -65_536), (A4, -32_768), &[0], 0, (Err(11), Err(11)), (Ok(0), Ok(A4))),
    case(NONE, (0, 10, 65_536, -65_536), (A4, -32_768), &[-1], 0, (Ok(MAX), Ok(A4)), (Ok(-1), Err(11))),
    case(NONE, (0, 10, -65_536, 65_536), (A4, -32_768), &[-1], 1, (Err(11), Err(11)), (Ok(-32_769), Ok(A4))),
    case(NONE, (0, 10, -65_536, 65_536), (A4, -32_768), &[0], 1, (Err(11), Err(11)), (Ok(-32_768), Err(11))),
    case(OCTAVE, (0, 10, 65_536, -65_536), (A4, -32_768), &[0], 0, (Err(11), Err(11)), (Ok(0), Err(18))),
    case(NONE, (-70_000, 70_000, 0, 0), (A4, -32_768), &[-1], -65_536, (Ok(MAX), Ok(A4)), (Ok(MAX), Ok(A4))),
    case(NONE, (-70_000, 70_000, 0, 0), (A4, -32_768), &[0], -65_536, (Err(11), Err(11)), (Err(11), Err(11))),
    case(NONE, (-70_000, 70_000, 0, 0), (A4, -32_768), &[0], 65_536, (Ok(MIN), Ok(A4)), (Ok(MIN), Ok(A4))),
    case(NONE, (-70_000, 70_000, 0, 0), (A4, -32_768), &[-1], 65_536, (Err(11), Err(11)), (Err(11), Err(11))),
    // below the middle key, counted downwards to the end of the table: q is a floor
    case(
        JUST, (0, 128, 60, 0), (A4, 7), &[0, 1, 2], 59, (Ok(-5), Ok(0x405e_f000_0000_0000)),
        (Ok(-5), Ok(0x405e_f000_0000_0000)),
    ),
    case(
        JUST, (0, 128, 60, 0), (A4, 7), &[0, 1, 2], 57, (Ok(-7), Ok(0x4051_3000_0000_0000)),
        (Ok(-7), Ok(0x4051_3000_0000_0000)),
    ),
    case(
        JUST, (0, 128, 60, 0), (A4, 7), &[0, 1, 2], 56, (Ok(-12), Ok(0x403b_8000_0000_0000)),
        (Ok(-12), Ok(0x403b_8000_0000_0000)),
    ),
    case(
        JUST, (0, 128, 60, 4), (A4, 7), &[0, 1, 2], 63, (Ok(7), Ok(0x40b8_c000_0000_0000)),
        (Ok(-5), Ok(0x409e_f000_0000_0000)),
    ),
    case(JUST, (0, 128, 60, 1), (A4, -7), &[0, X, 2], 62, (Ok(2), Ok(0x408b_8000_0000_0000)), (Err(17), Err(17))),
    // no entries: the formal octave is not looked at
    case(
        JUST, (0, 128, 60, 2), (A4, -32_768), &[], 61, (Ok(1), Ok(0x408b_8000_0000_0000)),
        (Ok(-1), Ok(0x407e_8e38_e38e_38e3)),
    ),
    case(
        JUST, (0, 128, 60, -2), (A4, 32_767), &[], 127, (Ok(67), Ok(0x41d8_c000_0000_0000)),
        (Ok(69), Ok(0x41e6_0000_0000_0000)),
    ),
    // 10 before all: an entry, which the degree's call tests too; the root's pitch, which it does not
    case(OCTAVE, (0, 10, 60, MIN), (A4, 0), &[40_000], 60, (Err(10), Err(10)), (Err(10), Err(10))),
    case(OCTAVE, (0, 10, 60, MIN), (A4, 0), &[0, -32_769], 60, (Err(10), Err(10)), (Err(10), Err(10))),
    case(OCTAVE, (0, 10, 0, 1), (0x0000_0000_0000_0000, 1), &[0], 9, (Ok(9), Err(10)), (Ok(8), Err(10))),
    case(OCTAVE, (0, 10, 0, 1), (0x0000_0000_0000_0000, 1), &[0, X], 10, (Err(16), Err(10)), (Err(16), Err(10))),
    case(
        OCTAVE, (0, 10, 0, 1), (0x4130_0000_0000_0000, 1), &[0], 9, (Ok(9), Ok(0x41d0_0000_0000_0000)),
        (Ok(8), Ok(0x41c0_0000_0000_0000)),
    ),
    case(OCTAVE, (0, 10, 0, 1), (0x4140_0000_0000_0000, 1), &[0], 9, (Ok(9), Err(10)), (Ok(8), Err(10))),
    case(OCTAVE, (0, 10, 0, MIN), (0xc07b_8000_0000_0000, 1), &[X], 9, (Err(17), Err(10)), (Err(11), Err(10))),
    // scales that no build leaves, of two items whose period is 1/1; and of none
    case(
        &[Fraction(3, 2), Fraction(1, 1)], (0, 128, 60, 3), (A4, 2), &[0, 1], 60, (Ok(0), Ok(0x4072_5555_5555_5555)),
        (Ok(-3), Ok(A4)),
    ),
    case(
        &[Fraction(3, 2), Fraction(1, 1)], (0, 128, 60, 3), (A4, 2), &[0, 1], 61, (Ok(1), Ok(A4)),
        (Ok(-2), Ok(0x4072_5555_5555_5555)),
    ),
    case(NONE, (0, 128, 60, 3), (A4, 2), &[0, 1], 61, (Ok(1), Ok(A4)), (Ok(-2), Ok(A4))),
];

pub const RUNS: [Run; 17] = [
    // 19 beside keys that have a degree, and the others' own numbers; the place behind the run stays
    run(
        TWELVE, (0, 128, 60, 2), (C4, 5), &[0, X, 2], (60, 6), (7, 7),
        Ok(&[Err(17), Err(19), Err(19), Err(17), Err(19), Err(19)]),
    ),
    run(TWELVE, (0, 128, 60, 2), (C4, 5), &[0, X, 2], (126, 4), (4, 5), Ok(&[Err(17), Err(19), Err(16), Err(16)])),
    // answers among refusals: 16, 17, then pitches
    run(
        JUST, (58, 70, 69, -6), (A4, 3), &[0, X, 2], (56, 7), (9, 8),
        Ok(&[Err(16), Err(16), Err(17), Ok(0x4041_3000_0000_0000), Ok(0x404b_8000_0000_0000), Err(17), Ok(0x4051_3000_0000_0000)]),
    ),
    run(
        JUST, (58, 70, 69, -6), (A4, 3), &[0, X, 2], (67, 5), (5, 5),
        Ok(&[Err(17), Ok(0x4071_3000_0000_0000), Ok(A4), Err(16), Err(16)]),
    ),
    // no key is above 2147483647: 11, whatever the reference key has
    run(
        OCTAVE, (MIN, MAX, MAX, 1), (A4, 0), &[], (2_147_483_644, 6), (6, 6),
        Ok(&[Ok(0x404b_8000_0000_0000), Ok(0x405b_8000_0000_0000), Ok(0x406b_8000_0000_0000), Err(16), Err(11), Err(11)]),
    ),
    run(
        OCTAVE, (MIN, MAX, MAX, 1), (A4, 1), &[0, X], (2_147_483_644, 6), (7, 6),
        Ok(&[Err(19), Err(17), Err(19), Err(16), Err(11), Err(11)]),
    ),
    run(OCTAVE, (0, 9, MAX, 0), (A4, 1), &[0], (MAX, 3), (3, 3), Ok(&[Err(16), Err(11), Err(11)])),
    // the reference key's 11 beside keys with a degree; 11 for the asked key's d; 18
    run(OCTAVE, (-1000, 1000, 60, MIN), (A4, 0), &[], (57, 5), (5, 5), Ok(&[Err(11), Err(11), Err(11), Err(11), Err(11)])),
    run(
        OCTAVE, (0, 10, 140_000, -140_000), (A4, 32_767), &[0, X], (8, 4), (4, 4),
        Ok(&[Err(11), Err(17), Err(16), Err(16)]),
    ),
    run(
        OCTAVE, (0, 5000, 0, 0), (A4, 1), &[0], (888, 5), (5, 5),
        Ok(&[Ok(0x77fb_8000_0000_0000), Ok(0x780b_8000_0000_0000), Ok(0x781b_8000_0000_0000), Ok(0x782b_8000_0000_0000), Err(18)]),
    ),
    // too few places of either kind, none needed, and exactly as many
    run(OCTAVE, (0, 128, 60, 0), (A4, 1), &[0], (60, 3), (2, 3), Err(12)),
    run(OCTAVE, (0, 128, 60, 0), (A4, 1), &[0], (60, 3), (3, 2), Err(12)),
    run(OCTAVE, (0, 128, 60, 0), (A4, 1), &[0], (60, 0), (0, 0), Ok(&[])),
    run(
        OCTAVE, (0, 128, 60, 0), (A4, 1), &[0], (60, 3), (3, 3),
        Ok(&[Ok(A4), Ok(0x408b_8000_0000_0000), Ok(0x409b_8000_0000_0000)]),
    ),
    run(OCTAVE, (0, 128, 60, 0), (A4, 1), &[0], (60, 4_294_967_295), (3, 3), Err(12)),
    // 10 before 12
    run(OCTAVE, (0, 128, 60, 0), (0x0000_0000_0000_0000, 1), &[0], (60, 3), (2, 3), Err(10)),
    run(OCTAVE, (0, 128, 60, 0), (A4, 1), &[40_000], (60, 3), (2, 2), Err(10)),
];

//! Counting from the middle key: 68 answers that another program found, in its order, in both countings.

use crate::ffi_kbm::Mapping;
use crate::ffi_scl::Push::{self, Cents, Fraction, Int};
use crate::lent::Float;
use crate::rules::UNMAPPED;

/// A degree, and the bits of a pitch; or the numbers of refusals.
pub type Given = (Result<i32, u64>, Result<u64, u64>);

pub struct Case {
    pub items: &'static [Push],
    pub mapping: Mapping,
    pub map: &'static [i32],
    pub key: i32,
    /// Counted from the reference key, as ever, and from the middle key.
    pub reference: Given,
    pub middle: Given,
}

/// First key, end, reference and offset; the bits of the pitch, and the formal octave.
type Keys = (i32, i32, i32, i32);
type Rest = (u64, i16);

pub const fn mapping((start, end, reference, offset): Keys, (hz, octave): Rest, map: &[i32]) -> Mapping {
    Mapping { count: map.len() as u16, start, end, reference, hz: Float::Is(hz), offset, octave }
}

type Items = &'static [Push];
type Entries = &'static [i32];

pub const fn case(items: Items, keys: Keys, rest: Rest, map: Entries, key: i32, reference: Given, middle: Given) -> Case {
    Case { items, mapping: mapping(keys, rest, map), map, key, reference, middle }
}

pub const X: i32 = UNMAPPED;
pub const MIN: i32 = i32::MIN;
pub const MAX: i32 = i32::MAX;

/// The bits of 440.0 and of 261.6256.
pub const A4: u64 = 0x407b_8000_0000_0000;
pub const C4: u64 = 0x4070_5a02_7525_460b;

pub const NONE: Items = &[];
pub const OCTAVE: Items = &[Fraction(2, 1)];
pub const JUST: Items = &[Fraction(9, 8), Fraction(5, 4), Fraction(2, 1)];
pub const TWELVE: Items = &[
    Cents(100.0),
    Cents(200.0),
    Cents(300.0),
    Cents(400.0),
    Cents(500.0),
    Cents(600.0),
    Cents(700.0),
    Cents(800.0),
    Cents(900.0),
    Cents(1000.0),
    Cents(1100.0),
    Cents(1200.0),
];

pub const LISTED: [Case; 68] = [
    case(JUST, (0, 128, 69, -7), (A4, 3), &[0, 1, 2], 69, (Ok(0), Ok(0x4058_71c7_1c71_c71c)), (Ok(7), Ok(A4))),
    case(
        JUST, (0, 128, 69, -7), (A4, 3), &[0, 1, 2], 60, (Ok(-9), Ok(0x4028_71c7_1c71_c71c)),
        (Ok(-2), Ok(0x404b_8000_0000_0000)),
    ),
    case(
        JUST, (0, 128, 69, -7), (A4, 3), &[0, 1, 2], 63, (Ok(-6), Ok(0x4038_71c7_1c71_c71c)),
        (Ok(1), Ok(0x405b_8000_0000_0000)),
    ),
    case(
        JUST, (0, 128, 69, -7), (A4, 3), &[0, 1, 2], 127, (Ok(58), Ok(0x418b_8000_0000_0000)),
        (Ok(65), Ok(0x41ae_8e38_e38e_38e3)),
    ),
    case(JUST, (0, 128, 69, -7), (A4, 3), &[0, 1, 2], -1, (Err(16), Err(16)), (Err(16), Err(16))),
    case(TWELVE, (0, 128, 60, 2), (C4, 5), &[0, X, 2], 60, (Ok(0), Ok(0x4072_5aa3_0c86_459d)), (Err(17), Err(17))),
    case(TWELVE, (0, 128, 60, 2), (C4, 5), &[0, X, 2], 62, (Ok(2), Ok(0x4074_9a0a_a6f5_ab59)), (Ok(0), Err(19))),
    case(TWELVE, (0, 128, 60, 2), (C4, 5), &[0, X, 2], 64, (Err(17), Err(17)), (Ok(2), Err(19))),
    case(TWELVE, (0, 128, 60, 2), (C4, 5), &[0, X, 2], 59, (Ok(-3), Ok(0x406e_de22_452f_0055)), (Ok(-5), Err(19))),
    case(TWELVE, (0, 128, 60, 2), (C4, 5), &[0, X, 2], 128, (Err(16), Err(16)), (Err(16), Err(16))),
    case(
        TWELVE, (0, 128, 60, 2), (C4, 5), &[], 61, (Ok(1), Ok(0x4073_7208_4b5a_4523)),
        (Ok(-1), Ok(0x4071_52ec_3501_fa5b)),
    ),
    case(
        TWELVE, (0, 128, 60, 2), (C4, 5), &[], 59, (Ok(-1), Ok(0x4071_52ec_3501_fa5b)),
        (Ok(-3), Ok(0x406e_de22_452f_0055)),
    ),
    case(OCTAVE, (0, 128, 61, -1), (A4, 12), &[0, X], 60, (Err(17), Err(17)), (Ok(0), Err(19))),
    case(OCTAVE, (0, 128, 61, -1), (A4, 12), &[0, X], 62, (Err(17), Err(17)), (Ok(12), Err(19))),
    case(OCTAVE, (0, 128, 61, -1), (A4, 12), &[0, X], 128, (Err(16), Err(16)), (Err(16), Err(16))),
    case(OCTAVE, (60, 61, 69, -9), (A4, 1), &[0], 69, (Err(16), Err(16)), (Err(16), Err(16))),
    case(
        TWELVE, (60, 72, 200, -140), (C4, 12), &[0, X], 60, (Ok(-840), Ok(0x3b54_9a0a_a6f5_ab5b)),
        (Ok(0), Ok(0x3c10_5a02_7525_460b)),
    ),
    case(OCTAVE, (-1000, 1000, 60, MIN), (A4, 0), &[], -100, (Ok(-160), Err(11)), (Ok(2_147_483_488), Err(11))),
    case(OCTAVE, (-1000, 1000, 60, MIN), (A4, 0), &[], 60, (Ok(0), Err(11)), (Err(11), Err(11))),
    case(OCTAVE, (-1000, 1000, 60, MIN), (A4, 0), &[], 1000, (Err(16), Err(16)), (Err(16), Err(16))),
    case(OCTAVE, (-1000, 1000, 60, MIN), (A4, 0), &[X], 59, (Err(17), Err(17)), (Err(17), Err(17))),
    case(OCTAVE, (-1000, 1000, 60, MIN), (A4, 0), &[0], 59, (Ok(0), Err(11)), (Ok(0), Err(11))),
    case(OCTAVE, (MIN, MAX, MAX, MAX), (A4, 0), &[0], 2_147_483_645, (Ok(0), Err(18)), (Err(11), Err(11))),
    case(OCTAVE, (MIN, MAX, MAX, MAX), (A4, 0), &[0], MIN, (Err(11), Err(11)), (Err(11), Err(11))),
    case(OCTAVE, (0, 10, 70_000, -70_000), (A4, 32_767), &[0], 0, (Err(11), Err(11)), (Ok(0), Err(11))),
    case(OCTAVE, (0, 10, 70_000, -70_000), (A4, 32_767), &[0], 10, (Err(16), Err(16)), (Err(16), Err(16))),
    case(
        OCTAVE, (0, 100_000, 0, 0), (A4, 32_767), &[0, X], 70_000, (Ok(1_146_845_000), Err(18)),
        (Ok(1_146_845_000), Err(18)),
    ),
    case(OCTAVE, (0, 3000, 2000, -2000), (A4, 1), &[0], 0, (Ok(-2000), Err(18)), (Ok(0), Err(18))),
    case(OCTAVE, (0, 3000, 2000, -2000), (A4, 1), &[0], 1100, (Ok(-900), Err(18)), (Ok(1100), Err(18))),
    case(
        OCTAVE, (0, 3000, 0, 0), (A4, 1), &[0], 890, (Ok(890), Ok(0x781b_8000_0000_0000)),
        (Ok(890), Ok(0x781b_8000_0000_0000)),
    ),
    case(JUST, (0, 128, 69, -7), (A4, 3), &[0, 40_000], 200, (Err(10), Err(10)), (Err(10), Err(10))),
    case(NONE, (0, 128, 69, -7), (A4, 3), &[0, 1, 2], 69, (Ok(0), Ok(A4)), (Ok(7), Ok(A4))),
    case(&[Fraction(1, 1)], (0, 128, 69, -7), (A4, 3), &[0, 1, 2], 80, (Ok(11), Ok(A4)), (Ok(18), Ok(A4))),
    case(
        &[Int(12), Int(11), Int(7), Fraction(20, 26)], (44, 61, 114, -2), (A4, 13), &[12], 114, (Err(16), Err(16)),
        (Err(16), Err(16)),
    ),
    case(
        &[Cents(1369.411), Int(1), Cents(1179.412), Cents(300.0), Fraction(34, 17), Fraction(19, 30), Cents(600.0), Cents(-255.565)],
        (4, 62, 0, -19), (0x407f_c21c_2fc3_f983, -1), &[], 17, (Ok(17), Ok(0x4081_b896_52e1_317f)),
        (Ok(36), Ok(0x406c_72c8_7d28_0697)),
    ),
    case(
        &[Int(12), Int(8), Fraction(39, 35), Int(1), Cents(400.0), Cents(800.0), Cents(200.0), Int(12)],
        (13, 123, 59, -5), (0x4050_3115_c7bb_e022, 12), &[7, X, 11], 80, (Ok(91), Ok(0x42c3_5a9f_50d6_9d24)),
        (Ok(107), Ok(0x42c5_b960_2279_77ca)),
    ),
    case(
        &[Cents(-344.486), Fraction(12, 17), Fraction(1, 40), Cents(397.129), Int(3), Fraction(13, 37)],
        (25, 110, 60, -6), (A4, -7), &[X, 13, 13, 0, 4], 74, (Ok(-10), Ok(0x40bb_f8c6_c613_1894)), (Err(17), Err(17)),
    ),
    case(
        NONE, (6, 122, 5, -14), (0x406b_29f4_e2f1_4ae9, 12), &[1, 13, X, 9, 5], 41, (Ok(97), Ok(0x406b_29f4_e2f1_4ae9)),
        (Ok(121), Ok(0x406b_29f4_e2f1_4ae9)),
    ),
    case(
        &[Cents(500.0), Fraction(34, 13)], (44, 62, 51, -7), (0x4080_2076_712b_d274, 10), &[], 51,
        (Ok(0), Ok(0x4035_9c42_3a5d_4d8b)), (Ok(7), Ok(0x4080_2076_712b_d274)),
    ),
    case(
        &[Int(5), Cents(1611.136), Cents(249.541), Cents(900.0), Cents(300.0), Cents(-231.484)], (36, 83, 10, 3),
        (A4, -5), &[8, 10, -3], 75, (Ok(-108), Ok(0x40ac_e535_cc51_944b)), (Ok(-103), Ok(0x4097_b612_d50c_7104)),
    ),
    case(
        &[Fraction(11, 31), Int(1), Int(12), Int(12), Int(6), Cents(800.0), Cents(1100.0), Fraction(37, 29)],
        (14, 85, 11, 2), (0x4088_e2e6_acda_9471, 14), &[11, -5], 30, (Ok(121), Ok(0x40c1_242f_17af_237f)),
        (Ok(107), Ok(0x40e7_8dcd_4e28_301d)),
    ),
    case(
        &[Int(12), Cents(-239.922), Cents(0.0)], (28, 86, 84, -4), (0x407c_db57_a87c_95cd, 6), &[6, 3, 4, X, 13, 3, -5],
        80, (Err(17), Err(17)), (Ok(6), Ok(0x4043_3ce5_1afd_b933)),
    ),
    case(
        &[Cents(100.0), Cents(1200.0), Int(9), Cents(1000.0), Cents(1200.0), Cents(1200.0), Cents(1100.0)],
        (29, 122, 86, 18), (A4, 14), &[5, 9, 13, X], 36, (Ok(-169), Ok(0x3f15_c70b_d3cd_f008)),
        (Ok(-233), Ok(0x3f0d_229e_c465_c8b8)),
    ),
    case(NONE, (35, 89, 128, 17), (0x4088_7725_b003_d14a, 14), &[X], 128, (Err(16), Err(16)), (Err(16), Err(16))),
    case(
        &[Cents(889.319), Cents(1143.889), Cents(800.0), Fraction(21, 6)], (18, 102, 12, 9), (0x407a_aff5_dd66_c883, 9),
        &[X, X], 21, (Err(17), Err(17)), (Err(17), Err(17)),
    ),
    case(
        &[Int(10), Cents(600.0), Int(10), Fraction(12, 34), Cents(1100.0), Cents(894.557)], (38, 98, 109, 11), (A4, -8),
        &[10, -1, -2], 40, (Ok(194), Ok(0x41e3_c505_dc68_7f76)), (Ok(215), Ok(0x41ba_b926_9124_be43)),
    ),
    case(
        &[Cents(100.0), Fraction(10, 5), Int(2), Cents(1507.217), Cents(-312.442), Cents(-297.998), Cents(800.0)],
        (42, 92, 34, 5), (0x4082_3621_46f1_dc37, -8), &[3, 7, 8, 14, -1], 90, (Ok(-81), Ok(0x400c_e8ab_884e_2822)),
        (Ok(-73), Ok(0x4002_3621_46f1_dc3b)),
    ),
    case(
        &[Fraction(36, 15), Int(1), Fraction(37, 6), Cents(1200.0), Cents(-199.969), Fraction(31, 1)], (34, 103, 76, -16),
        (0x407d_d20e_e257_11a7, -2), &[3, 13, X, -3, X, -1, 12], 54, (Ok(20), Ok(0x40bc_e37e_6b44_5918)),
        (Ok(15), Err(19)),
    ),
    case(
        &[Cents(765.652), Cents(1047.83), Cents(1023.374)], (44, 69, 75, 18), (A4, 4), &[], 75, (Err(16), Err(16)),
        (Err(16), Err(16)),
    ),
    case(
        &[Fraction(31, 26), Cents(417.399), Fraction(38, 24), Cents(0.0), Int(1), Int(12), Fraction(9, 21), Cents(900.0)],
        (38, 82, 7, -16), (0x4076_2cab_7ad1_cdc3, -7), &[], 78, (Ok(71), Ok(0x40aa_e129_b94a_b17c)),
        (Ok(87), Ok(0x40c3_01b7_8dd8_6735)),
    ),
    case(
        &[Int(8), Int(2)], (6, 101, 53, 11), (0x4055_4455_3cd0_1cbf, 15), &[X, 10, 12, 6], 96,
        (Ok(156), Ok(0x4565_4455_3cd0_1cbf)), (Err(17), Err(17)),
    ),
    case(
        &[Cents(627.714), Int(10), Cents(1000.0), Fraction(9, 3), Int(11)], (57, 112, 22, 14), (A4, 2),
        &[-4, -3, 4, 8, 7, -1], 102, (Ok(30), Ok(0x4265_0319_c74d_d096)), (Ok(18), Ok(0x4126_28fc_bb86_6705)),
    ),
    case(
        &[Cents(99.077), Fraction(24, 6), Cents(700.324), Int(10)], (35, 68, 11, 3), (0x407a_0464_2108_827a, 11), &[], 39,
        (Ok(28), Ok(0x4222_4e5b_eb21_ca95)), (Ok(25), Ok(0x41ef_03ce_10f4_f1f0)),
    ),
    case(
        &[Fraction(21, 20), Cents(281.318), Int(5), Int(3)], (47, 123, 120, 14), (0x405b_9e5f_63cb_d60e, 6), &[], 120,
        (Ok(0), Ok(0x40bd_b659_f36c_5789)), (Ok(-14), Ok(0x405b_9e5f_63cb_d60e)),
    ),
    case(
        &[Fraction(19, 31), Cents(1200.0)], (50, 92, 81, 5), (A4, 10), &[14, 2], 59, (Ok(-96), Ok(0x3db6_6f28_6bca_1af2)),
        (Ok(-138), Ok(0x3d0b_8000_0000_0000)),
    ),
    case(
        &[Int(11), Int(2), Int(7), Cents(1000.0), Int(4)], (51, 97, 133, -13), (0x4077_347d_4f2e_0a1e, -6), &[-3, 3, X],
        82, (Ok(99), Ok(0x4277_a06d_8f41_8566)), (Ok(81), Ok(0x4341_e83b_6c8e_70eb)),
    ),
    case(
        &[Fraction(21, 23), Int(6), Fraction(27, 30), Int(11), Int(4), Cents(1022.969), Cents(180.481), Cents(959.961)],
        (45, 128, 86, -3), (0x4082_2a05_bf05_9d4f, 18), &[X, X, 9, X], 53, (Err(17), Err(17)), (Ok(-135), Err(19)),
    ),
    case(
        &[Int(10), Cents(300.0), Fraction(21, 16), Int(11), Fraction(37, 4)], (12, 99, 16, 19), (A4, 1), &[12, 14], 24,
        (Ok(16), Ok(0x41e2_feab_c777_2c00)), (Ok(8), Ok(0x407e_5a00_0000_0000)),
    ),
    case(
        &[Int(7), Int(8)], (9, 108, -5, -10), (0x407e_f0b8_1f0e_7815, 12), &[7, X, X, -3, 5, 9, X], -5,
        (Err(16), Err(16)), (Err(16), Err(16)),
    ),
    case(
        &[Int(2), Int(4), Cents(200.0)], (14, 124, 125, -1), (0x405f_bfd6_a27f_bfe6, -7), &[X, 6, -5, -2, X, 9, X], 47,
        (Err(17), Err(17)), (Err(17), Err(17)),
    ),
    case(
        &[Int(12), Int(2), Cents(300.0), Int(7), Int(8), Cents(-92.833), Cents(600.0), Cents(600.0)], (52, 78, 56, 17),
        (A4, -7), &[7, 9, 4, X], 64, (Ok(-7), Ok(0x40bd_2b0c_3020_0315)), (Err(17), Err(17)),
    ),
    case(
        &[Fraction(35, 31), Cents(400.0)], (21, 125, 9, 2), (0x4080_c702_167c_0dc0, 20), &[13], 106,
        (Ok(1953), Ok(0x54de_11a1_2a9e_92a4)), (Ok(1913), Ok(0x54b5_235f_05f5_cbce)),
    ),
    case(
        &[Fraction(13, 28), Cents(-348.472), Cents(-480.761), Cents(1100.0)], (28, 120, 105, 11),
        (0x4085_8cd8_56c8_011a, 6), &[X, 13], 68, (Ok(-101), Ok(0x3f40_9805_94dd_fb97)), (Err(17), Err(17)),
    ),
    case(
        &[Cents(445.0), Cents(714.407)], (43, 98, 51, 15), (A4, 11), &[X, 3, -5, 12, 10], 51, (Err(17), Err(17)),
        (Err(17), Err(17)),
    ),
    case(
        &[Cents(513.772)], (50, 70, 27, -17), (0x4085_e2be_4db4_4950, 14), &[3, 10, 13, 7, X], 60,
        (Ok(91), Ok(0x4281_904e_38d4_2d01)), (Ok(143), Ok(0x42e1_7daa_5c15_6809)),
    ),
    case(
        &[Cents(348.519), Fraction(24, 12), Int(7), Cents(1200.0), Fraction(31, 36), Int(1)], (53, 65, 46, 7),
        (0x4075_d039_3d24_b090, 6), &[X, X], 63, (Err(17), Err(17)), (Err(17), Err(17)),
    ),
    case(
        &[Int(7), Cents(400.0), Fraction(36, 6), Fraction(16, 30), Cents(0.0), Cents(1349.422), Cents(1100.0)],
        (41, 101, 61, 7), (A4, 7), &[], 77, (Ok(16), Ok(0x40ad_229e_c465_c8a0)), (Ok(9), Ok(0x409e_de22_007f_7919)),
    ),
    case(
        &[Int(9), Cents(1200.0), Cents(1100.0), Int(2)], (2, 97, 114, -12), (0x407c_e492_68f0_dbfe, -4), &[X, 7, 4, 12],
        8, (Ok(112), Ok(0x420c_e492_68f0_dbfe)), (Ok(100), Err(19)),
    ),
];

/* Calls each flat function of the header with a number of its own for each argument, and literal answers. Which argument stands
 * where is said by no proof: here any two of one type that change places give another answer (tools/exchanged tries each pair).
 * Silent and 0 where all is well. */
#include "checks.h"

/* Lent memory, each part of another length. Only the shortest of a scale's columns counts. */
static uint8_t kind[9], bytes[64];
static double cents[10], ratio[14], hz[21];
static uint32_t numer[11], denom[12], place[13], numbers[22];
static int32_t wraps[15], map[16];

#define ITEMS kind, 9, cents, 10, numer, 11, denom, 12
#define COLUMNS ITEMS, place, 13, ratio, 14, wraps, 15
#define TEXT_OF(text) (const uint8_t *)(text), sizeof(text) - 1

/* Values behind pointers: no call that is refused changes one. */
static double x, y;
static int32_t i, j, k, l;
static uint32_t u;
static uint16_t m, n;
static int16_t o;
static size_t s, t;
static bool b;

static void blank(void) {
    memset(kind, 90, sizeof kind), memset(cents, 90, sizeof cents), memset(numer, 90, sizeof numer),
        memset(denom, 90, sizeof denom);
    memset(place, 90, sizeof place), memset(ratio, 90, sizeof ratio), memset(wraps, 90, sizeof wraps),
        memset(map, 90, sizeof map);
}

static const char SCALE[] = "! steps\nbright\n4\n12/7\n150.5\n7\n1203.25";
static const char MAPPING[] = "! keys\n3\n5\n90\n61\n67\n300.5\n9\n1\nx\n6";
static const char SWAPPED[] = "! keys\n2\n90\n4\n63\n68\n301.5\n10\nx\n2\n";

/* ---- Numbers. */

static void integers(void) {
    uint8_t midi = 0;
    SAME(telbijan_i32_div_u(-17, 5, &i), 0), SAME(i, -4);
    SAME(telbijan_i32_rem_u(-17, 5, &u), 0), SAME(u, 3u);
    SAME(telbijan_i32_dr_u(-18, 5, &i, &u), 0), SAME(i, -4), SAME(u, 2u);
    SAME(telbijan_odd_factors_u16(24), 3);
    SAME(telbijan_checked_midi_number(64, &midi), 0), SAME(midi, 64);
    SAME(telbijan_num_keys_before(62, 67, &i), 0), SAME(i, 5);
    SAME(telbijan_plus_steps(62, 7, &i), 0), SAME(i, 69);
    SAME(telbijan_plus_steps(2147483647, 1, &i), 11), SAME(i, 69), SAME(telbijan_i32_dr_u(1, 0, &i, &u), 10), SAME(i, 69), SAME(u, 2u);
}

#define STORES(call, value) (x = -1, SAME(call, 0), NEAR(x, value))

static void ratios(void) {
    STORES(telbijan_exp2(3, &x), 8), STORES(telbijan_log2(32, &x), 5);
    STORES(telbijan_ratio_from_float(1.5, &x), 1.5), STORES(telbijan_pitch_from_hz(440, &x), 440);
    STORES(telbijan_ratio_from_octaves(2, &x), 4), STORES(telbijan_ratio_from_semitones(36, &x), 8),
        STORES(telbijan_ratio_from_cents(4800, &x), 16);
    STORES(telbijan_ratio_as_octaves(4, &x), 2), STORES(telbijan_ratio_as_semitones(8, &x), 36),
        STORES(telbijan_ratio_as_cents(16, &x), 4800);
    STORES(telbijan_ratio_between_pitches(330, 440, &x), 4.0 / 3), STORES(telbijan_ratio_deviation_from(3, 1.5, &x), 2);
    STORES(telbijan_ratio_stretched_by(2, 1.5, &x), 3), STORES(telbijan_pitch_times_ratio(220, 1.5, &x), 330);
    STORES(telbijan_pitch_over_ratio(330, 1.5, &x), 220);
    STORES(telbijan_ratio_repeated(2, 3, &x), 8), STORES(telbijan_ratio_divided_into_equal_steps(8, 3, &x), 2);
    STORES(telbijan_ratio_num_equal_steps_of_size(8, 2, &x), 3);
    STORES(telbijan_ratio_inv(4, &x), 0.25), STORES(telbijan_ratio_abs(0.5, &x), 2);
    SAME(telbijan_ratio_is_negligible(1.5, &b), 0), SAME(b, false);
    SAME(telbijan_ratio_total_cmp(1.5, 2, &i), 0), SAME(i, -1), SAME(telbijan_ratio_total_cmp(-1, 2, &i), 10), SAME(i, -1);
    STORES(telbijan_ratio_nearest_fraction(0.75, 11, &m, &n, &x, &i), 1), SAME(m, 3), SAME(n, 2), SAME(i, -1);
    STORES(telbijan_ratio_best_fraction(0.75, 11, &m, &n, &x), 1), SAME(m, 3), SAME(n, 4);
    STORES(telbijan_ratio_best_fraction(3, 1, &m, &n, &x), 0.75), SAME(m, 4), SAME(n, 1);
    STORES(telbijan_ratio_best_fraction(1.575, 9, &m, &n, &x), 1.0125), SAME(m, 14), SAME(n, 9);
    SAME(telbijan_ratio_best_fraction(1.575, 0, &m, &n, &x), 29), SAME(telbijan_ratio_best_fraction(-1.575, 0, &m, &n, &x), 10);
    SAME(m, 14), SAME(n, 9), NEAR(x, 1.0125);
    STORES(telbijan_item_as_ratio(1, 700, 3, 2, &x), 1.5), STORES(telbijan_item_as_ratio(0, 1200, 3, 2, &x), 2);
    SAME(telbijan_item_as_ratio(3, 700, 3, 2, &x), 10), SAME(telbijan_item_as_ratio(0, 40000, 3, 2, &x), 10), NEAR(x, 2);
}

/* ---- Scales. */

static void read_scale(void) {
    blank();
    SAME(telbijan_read_scl(TEXT_OF(SCALE), COLUMNS, &m, &s, &t), 0), SAME(m, 4), SAME(s, 8u), SAME(t, 14u);
}

static void scales(void) {
    static const char text[] = "dark\n4\n12/7\n150.500\n7\n1203.250\n";
    read_scale();
    SAME(kind[1], 1), SAME(kind[2], 0), SAME(kind[3], 2), SAME(numer[1], 12u), SAME(denom[1], 7u), SAME(numer[3], 7u),
        NEAR(cents[4], 1203.25);
    SAME(place[1], 2u), SAME(place[2], 1u), NEAR(ratio[2], 12.0 / 7), SAME(wraps[3], 2), SAME(wraps[2], 0);
    SAME(telbijan_export_scl(TEXT_OF("dark"), ITEMS, 4, bytes, 63, &s), 0), SAME(s, sizeof text - 1),
        SAME(memcmp(bytes, text, sizeof text - 1), 0);
}

static void scale_builder(void) {
    blank(), ratio[0] = 5, place[0] = 5, numer[0] = 5, denom[0] = 5, cents[0] = 5;
    SAME(telbijan_new_scl(COLUMNS, &s), 0), SAME(s, 9u), NEAR(cents[0], 0), NEAR(ratio[0], 5), SAME(numer[0], 0u),
        SAME(denom[0], 0u), SAME(place[0], 5u);
    SAME(telbijan_push_fraction(ITEMS, 8, 0, 5, 3, &s), 0), SAME(s, 1u), SAME(kind[1], 1), SAME(numer[1], 5u), SAME(denom[1], 3u);
    SAME(telbijan_push_cents(ITEMS, 8, 1, 150.5, &s), 0), SAME(s, 2u), SAME(kind[2], 0), NEAR(cents[2], 150.5);
    SAME(telbijan_push_int(ITEMS, 8, 2, 7, &s), 0), SAME(s, 3u), SAME(kind[3], 2), SAME(numer[3], 7u), SAME(denom[3], 0u);
    SAME(telbijan_push_ratio(ITEMS, 8, 3, 4, &s), 0), SAME(s, 4u), SAME(kind[4], 0), NEAR(cents[4], 2400);
    SAME(telbijan_build_scl(COLUMNS, 8, 4, &m), 0), SAME(m, 4), SAME(place[1], 2u), SAME(place[3], 3u), NEAR(ratio[3], 1.75),
        SAME(wraps[3], 1), SAME(wraps[4], 0);
}

static void generators(void) {
    blank();
    SAME(telbijan_create_harmonics_scale(true, 5, 6, false, 7, COLUMNS, &m), 0), SAME(m, 6), SAME(numer[1], 6u),
        SAME(denom[1], 5u), NEAR(ratio[1], 1.2), SAME(place[1], 1u);
    blank();
    SAME(telbijan_create_harmonics_scale(false, 5, 6, true, 7, COLUMNS, &m), 0), SAME(m, 7), SAME(numer[7], 11u),
        SAME(denom[7], 5u), SAME(wraps[1], 0), SAME(place[2], 2u);
    blank();
    SAME(telbijan_create_rank2_temperament_scale(1.5, 4, 2, 2.5, COLUMNS, &m), 0), SAME(m, 7), NEAR(cents[1], 182.40371213406),
        NEAR(cents[7], 1586.31371386483);
    NEAR(ratio[5], 2.025), SAME(place[5], 5u), SAME(numer[5], 0u), SAME(denom[5], 0u);
}

/* ---- Mappings. */

#define RANGE 5, 91
#define ROOT 67, 300.5, -6
#define KEYS map, 3, 3, RANGE, ROOT, 9

static void read_mapping(void) {
    SAME(telbijan_read_kbm(TEXT_OF(MAPPING), map, 16, &m, &i, &j, &k, &x, &l, &o), 0), SAME(m, 3), SAME(i, 5), SAME(j, 91),
        SAME(k, 67), NEAR(x, 300.5), SAME(l, -6), SAME(o, 9);
}

static void read_swapped(void) {
    SAME(telbijan_read_kbm(TEXT_OF(SWAPPED), map, 16, &m, &i, &j, &k, &x, &l, &o), 25 + 256 * 4), SAME(m, 3), SAME(i, 5), SAME(j, 91),
        SAME(k, 67), NEAR(x, 300.5), SAME(l, -6), SAME(o, 9), SAME(map[0], 1), SAME(map[1], TELBIJAN_UNMAPPED);
}

static void mappings(void) {
    static const char text[] = "3\n5\n90\n61\n67\n300.500\n9\n1\nx\n6\n";
    blank(), read_mapping();
    SAME(telbijan_scale_degree_of(KEYS, 71, &i), 17), SAME(telbijan_scale_degree_of(KEYS, 70, &i), 0), SAME(i, 10);
    SAME(telbijan_scale_degree_of(KEYS, 4, &i), 16), SAME(telbijan_scale_degree_of(KEYS, 5, &i), 17),
        SAME(telbijan_scale_degree_of(KEYS, 91, &i), 16), SAME(i, 10);
    SAME(telbijan_scale_degree_from_middle(KEYS, 71, &i), 17), SAME(i, 10), SAME(telbijan_scale_degree_from_middle(KEYS, 72, &i), 0),
        SAME(i, 33);
    SAME(telbijan_scale_degree_from_middle(KEYS, 4, &i), 16), SAME(telbijan_scale_degree_from_middle(KEYS, 91, &i), 16), SAME(i, 33);
    SAME(telbijan_export_kbm(KEYS, bytes, 63, &s), 0), SAME(s, sizeof text - 1), SAME(memcmp(bytes, text, sizeof text - 1), 0);
    SAME(telbijan_kbm_root(67, 300.5, -6), 0), SAME(telbijan_kbm_root(67, 0, -6), 10);
    SAME(telbijan_push_mapped_key(map, 16, 16, 3, -8, &s), 0), SAME(s, 4u), SAME(map[3], -8);
    SAME(telbijan_push_unmapped_key(map, 16, 16, 4, &s), 0), SAME(s, 5u), SAME(map[4], TELBIJAN_UNMAPPED);
    SAME(telbijan_build_kbm(map, 16, 16, 5, RANGE, ROOT, true, 9, &m, &o), 0), SAME(m, 5), SAME(o, 9);
}

/* The last key below the first: refused in a text at its line, in a build with no line. One key is enough. */
static void backwards(void) {
    blank(), read_mapping(), read_swapped();
    SAME(telbijan_build_kbm(map, 16, 16, 3, 60, 61, ROOT, true, 9, &m, &o), 0), SAME(m, 3), SAME(o, 9);
    SAME(telbijan_build_kbm(map, 16, 16, 2, 60, 5, ROOT, true, 10, &m, &o), 25), SAME(m, 3), SAME(o, 9);
    SAME(telbijan_build_kbm(map, 16, 16, 0, 60, 60, ROOT, false, 10, &m, &o), 25), SAME(m, 3), SAME(o, 9);
}

/* ---- Pitches and searches. */

static void pitches(void) {
    read_scale(), read_mapping();
    STORES(telbijan_period(ITEMS, 4, &x), 2.003758073590559), STORES(telbijan_period(ITEMS, 3, &x), 7),
        STORES(telbijan_period(ITEMS, 1, &x), 12.0 / 7);
    STORES(telbijan_relative_pitch_of(ITEMS, 4, 5, &x), 3.435013840440958),
        STORES(telbijan_sorted_relative_pitch_of(COLUMNS, 4, 3, &x), 1.7434418614753178);
    STORES(telbijan_pitch_of(ITEMS, 4, ROOT, 5, &x), 472.251671499297),
        STORES(telbijan_pitch_of_key(ITEMS, 4, ROOT, 72, &x), 472.251671499297);
    STORES(telbijan_sorted_pitch_of(COLUMNS, 4, ROOT, 3, &x), 239.691416538);
    STORES(telbijan_maybe_pitch_of(ITEMS, 4, KEYS, 70, &x), 602.129301113963),
        STORES(telbijan_maybe_pitch_of_degree(ITEMS, 4, KEYS, 8, &x), 8898.498342741777);
    SAME(telbijan_pitches_of(ITEMS, 4, KEYS, 72, 20, hz, 21, numbers, 22), 0), SAME(numbers[1], 0u), SAME(numbers[2], 17u),
        SAME(numbers[19], 16u);
    NEAR(hz[0], 7742.4588923577), NEAR(hz[18], 31893197.885747936), SAME(hz[19], 0), SAME(numbers[20], 0u);
}

/* Counted from the middle key, 61; with the middle key 60 the reference key, 67, has the second entry, which is unmapped. */
static void from_middle(void) {
    read_scale(), read_mapping();
    STORES(telbijan_maybe_pitch_from_middle(ITEMS, 4, KEYS, 72, &x), 1186.3443965440115),
        STORES(telbijan_maybe_pitch_from_middle(ITEMS, 4, KEYS, 67, &x), 300.5);
    SAME(telbijan_maybe_pitch_from_middle(ITEMS, 4, KEYS, 71, &x), 17), SAME(telbijan_maybe_pitch_from_middle(ITEMS, 4, KEYS, 91, &x), 16);
    SAME(telbijan_maybe_pitch_from_middle(ITEMS, 4, map, 3, 3, RANGE, 67, 300.5, -7, 9, 60, &x), 19), NEAR(x, 300.5);
    memset(hz, 0, sizeof hz), memset(numbers, 90, sizeof numbers);
    SAME(telbijan_pitches_from_middle(ITEMS, 4, KEYS, 72, 20, hz, 21, numbers, 22), 0), SAME(numbers[0], 0u), SAME(numbers[1], 0u),
        SAME(numbers[2], 17u), SAME(numbers[3], 0u), SAME(numbers[18], 0u), SAME(numbers[19], 16u), SAME(numbers[20], 0x5a5a5a5au);
    NEAR(hz[0], 1186.3443965440115), NEAR(hz[1], 2377.1471626339826), SAME(hz[2], 0), NEAR(hz[3], 3030.905015407598),
        NEAR(hz[18], 40664395.94012812), SAME(hz[19], 0);
    SAME(telbijan_pitches_from_middle(ITEMS, 4, KEYS, 75, 20, hz, 19, numbers, 22), 12), NEAR(hz[0], 1186.3443965440115),
        SAME(numbers[0], 0u);
    SAME(telbijan_pitches_from_middle(ITEMS, 4, map, 3, 3, RANGE, 67, 300.5, -7, 9, 60, 2, hz, 21, numbers, 22), 0), SAME(numbers[0], 19u),
        SAME(numbers[1], 17u), NEAR(hz[0], 1186.3443965440115);
}

#define FINDS(call, number, deviation) (i = 99, y = -1, SAME(call, 0), SAME(i, number), NEAR(y, deviation))

static void searches(void) {
    read_scale();
    FINDS(telbijan_find_by_relative_pitch(COLUMNS, 4, 7.5, &i, &y), 3, 7.5 / 7),
        FINDS(telbijan_find_by_relative_pitch_sorted(COLUMNS, 4, 7.5, &i, &y), 11, 7.5 / 7);
    FINDS(telbijan_find_by_pitch(COLUMNS, 4, ROOT, 500, &i, &y), -1, 1.04105155472),
        FINDS(telbijan_find_by_pitch_sorted(COLUMNS, 4, ROOT, 500, &i, &y), 7, 1.04105155472);
    FINDS(telbijan_find_key_by_pitch(COLUMNS, 4, ROOT, 500, &i, &y), 66, 1.04105155472);
}

int main(void) {
    integers();
    ratios();
    scales();
    scale_builder();
    generators();
    mappings();
    backwards();
    pitches();
    from_middle();
    searches();
    return faults != 0;
}

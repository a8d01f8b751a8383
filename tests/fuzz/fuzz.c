/* The C interface under libFuzzer: the bytes choose a call and its arguments. tools/fuzz builds and runs it.
 *
 * Every lent part stands flush against a page that no one may touch (memory.h). After every call: the number is 0 or one of 1 to
 * 18, of a mapping that is read or built 25 too, of a pitch counted from the middle key 19 too, and of the best fraction 0, 10 or 29; a
 * refusal left every lent byte as it was; an accepted call changed only what it says; what was read, exported and read again is the
 * same; a mapping that was read or built has a key in its range; a build of a mapping says the first of 10, 15, 25 and 13 that is due,
 * and a mapping that is lent with its last key below its first has no key; the degree of a key is what the rule says in both
 * countings, and its pitch in that from the middle key, where a run of keys says what calls for one key do; a call on structs does as the
 * flat one; the best fraction is no further than any other that is tried. Lengths are true, as C's contract asks; all else may be
 * anything. */
#include "tunings.h"

typedef uint64_t (*of_one)(double, double *);
typedef uint64_t (*of_two)(double, double, double *);

static const of_one ONES[] = {
    telbijan_exp2, telbijan_log2, telbijan_ratio_from_float, telbijan_ratio_from_octaves, telbijan_ratio_from_semitones, telbijan_ratio_from_cents, telbijan_ratio_as_octaves,
    telbijan_ratio_as_semitones, telbijan_ratio_as_cents, telbijan_ratio_inv, telbijan_ratio_abs, telbijan_pitch_from_hz,
};
static const of_two TWOS[] = {
    telbijan_ratio_between_pitches, telbijan_ratio_stretched_by, telbijan_ratio_deviation_from, telbijan_ratio_repeated, telbijan_ratio_divided_into_equal_steps,
    telbijan_ratio_num_equal_steps_of_size, telbijan_pitch_times_ratio, telbijan_pitch_over_ratio,
};

/* A fraction, and how far x is from it: the larger over the smaller. */
typedef struct fraction {
    uint64_t numer, denom;
} fraction;

static double apart(double x, fraction f) {
    double y = x * (double)f.denom / (double)f.numer;
    return y < 1 ? 1 / y : y;
}

static bool is_within(uint64_t number, uint16_t limit) {
    return number >= 1 && number <= UINT16_MAX && telbijan_odd_factors_u16((uint16_t)number) <= limit;
}

/* The best fraction is within the limit, and another that is too is no nearer, but for the rounding of both. */
static void no_nearer(double x, uint16_t limit, fraction best, uint64_t numer, uint64_t denom) {
    fraction other = {numer, denom};
    MUST(is_within(best.numer, limit) && is_within(best.denom, limit));
    MUST(!is_within(numer, limit) || !is_within(denom, limit) || apart(x, best) <= apart(x, other) * (1 + 1e-15));
}

/* The fraction that the walk finds, its octaves put back where they are few. */
static fraction walk(double x, uint16_t limit) {
    uint64_t result;
    uint16_t *numer = OUT(uint16_t, 1), *denom = OUT(uint16_t, 2);
    double *deviation = OUT(double, 0);
    int32_t *octaves = OUT(int32_t, 3);
    CALL(telbijan_ratio_nearest_fraction(x, limit, numer, denom, deviation, octaves)), ONLY_VALUES();
    int32_t up = result == 0 && *octaves > 0 && *octaves <= 16 ? *octaves : 0;
    int32_t down = result == 0 && *octaves < 0 && *octaves >= -16 ? -*octaves : 0;
    fraction walked = {(uint64_t)*numer << up, (uint64_t)*denom << down};
    return walked;
}

/* The best fraction: beside the one that the walk finds, those next to it, and any others. */
static void fractions(double x) {
    uint64_t result, how = draw(1);
    uint16_t limit = how < 16 ? UINT16_MAX : (uint16_t)(draw(2) >> how % 16);
    fraction walked = walk(x, limit);
    uint16_t *numer = OUT(uint16_t, 1), *denom = OUT(uint16_t, 2);
    double *deviation = OUT(double, 0);
    CALL(telbijan_ratio_best_fraction(x, limit, numer, denom, deviation)), values_change(0), judge_memory(0, result, HERE);
    MUST(result == (!(x >= 0x1p-64 && x <= 0x1p64) ? TELBIJAN_UNUSABLE : limit == 0 ? TELBIJAN_NO_FRACTION : TELBIJAN_ACCEPTED));
    if (result != 0)
        return;
    fraction best = {*numer, *denom};
    MUST(same_bits(*deviation, x / ((double)*numer / *denom)) && (*numer % 2 == 1 || *denom % 2 == 1));
    no_nearer(x, limit, best, walked.numer, walked.denom);
    no_nearer(x, limit, best, best.numer + 1, best.denom), no_nearer(x, limit, best, best.numer - 1, best.denom);
    no_nearer(x, limit, best, best.numer, best.denom + 1), no_nearer(x, limit, best, best.numer, best.denom - 1);
    for (int k = 0; k < 8; k++) {
        uint64_t other = (draw(2) % limit + 1) << draw(1) % 16;
        no_nearer(x, limit, best, other, (draw(2) % limit + 1) << draw(1) % 16);
    }
}

static void floats(void) {
    uint64_t result;
    double x = draw_double(), y = draw_double(), *out = OUT(double, 0);
    for (size_t k = 0; k < sizeof ONES / sizeof ONES[0]; k++)
        CALL(ONES[k](x, out)), ONLY_VALUES();
    for (size_t k = 0; k < sizeof TWOS / sizeof TWOS[0]; k++)
        CALL(TWOS[k](x, y, out)), ONLY_VALUES();
    CALL(telbijan_item_as_ratio((uint8_t)draw(1), x, (uint32_t)draw(4), (uint32_t)draw(4), out)), ONLY_VALUES();
    int32_t *order = OUT(int32_t, 4);
    bool *negligible = OUT(bool, 5);
    CALL(telbijan_ratio_is_negligible(x, negligible)), ONLY_VALUES();
    CALL(telbijan_ratio_total_cmp(x, y, order)), ONLY_VALUES();
    fractions(x);
}

static void integers(void) {
    uint64_t result;
    int32_t a = draw_key(), b = draw_key(), *z = OUT(int32_t, 0);
    uint32_t denom = (uint32_t)draw(4) >> draw(1) % 32, *n = OUT(uint32_t, 1);
    uint8_t *midi = OUT(uint8_t, 2);
    CALL(telbijan_i32_div_u(a, denom, z)), ONLY_VALUES();
    CALL(telbijan_i32_rem_u(a, denom, n)), ONLY_VALUES();
    CALL(telbijan_i32_dr_u(a, denom, z, n)), ONLY_VALUES();
    MUST(denom == 0 || (int64_t)*z * denom + *n == a);
    MUST(telbijan_odd_factors_u16((uint16_t)denom) <= (uint16_t)denom);
    CALL(telbijan_checked_midi_number(a, midi)), ONLY_VALUES();
    CALL(telbijan_num_keys_before(a, b, z)), ONLY_VALUES();
    CALL(telbijan_plus_steps(a, b, z)), ONLY_VALUES();
}

int LLVMFuzzerTestOneInput(const uint8_t *data, size_t size) {
    static void (*const STORIES[])(void) = {scale_text, mapping_text, scale_builder, mapping_builder, generators, tuning, tuning, floats, integers};
    input = data, left = size;
    begin_memory();
    uint64_t how = draw(1);
    high = draw(1) < 192;
    STORIES[how % (sizeof STORIES / sizeof STORIES[0])]();
    return 0;
}

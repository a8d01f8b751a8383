/* Keys counted from the middle key: degrees, pitches and runs, held to the rule, to each other, and to the calls that count from the
 * reference key. */
#ifndef FUZZ_MIDDLES_H
#define FUZZ_MIDDLES_H

#include "mappings.h"

/* For drive.c: how many keys asked for alone had a pitch, how many of them none since the reference key is unmapped, and how many so in
 * runs. */
uint64_t middles_met[3];

/* The degree of a key; where the middle key is a key, as in a mapping that has it for its reference key. */
static void middle_degree(telbijan_mapping m, int32_t key) {
    uint64_t result;
    int32_t *z = OUT(int32_t, 1), degree = *z;
    uint64_t due = degree_from(m, middle_of(m), key, &degree);
    CALL(telbijan_scale_degree_from_middle(MAPPING(m), key, z)), ONLY_VALUES();
    MUST(result == due && *z == degree);
    const telbijan_mapping constant = telbijan_mapping_lent(m.map, m.room, m.count, m.start, m.end, m.root, m.octave);
    SAME(telbijan_mapping_degree_from_middle(&constant, key, &degree), result), MUST(degree == *z);
    if (middle_of(m) < INT32_MIN || middle_of(m) > INT32_MAX)
        return;
    m.root.reference = (int32_t)middle_of(m);
    SAME(telbijan_mapping_degree_of(&m, key, &degree), result), MUST(degree == *z);
}

/* The pitch of a degree where the reference key's own has `hz`: that over the own one's ratio, times the other's. */
static uint64_t pitch_above(const columns *c, double hz, int32_t own, int32_t degree, double *pitch) {
    double x, y;
    if (telbijan_relative_pitch_of(ITEMS(*c), c->s.count, own, &x) != 0 || telbijan_pitch_over_ratio(hz, x, &x) != 0)
        return TELBIJAN_BEYOND_REACH;
    if (telbijan_relative_pitch_of(ITEMS(*c), c->s.count, degree, &y) != 0 || telbijan_pitch_times_ratio(x, y, pitch) != 0)
        return TELBIJAN_BEYOND_REACH;
    return TELBIJAN_ACCEPTED;
}

/* Whether tables and root can be used by a call for a pitch. */
static bool can_sound(const columns *c, telbijan_mapping m) {
    double period;
    return telbijan_period(ITEMS(*c), c->s.count, &period) == 0 && is_usable(m.map, m.room, m.count) && is_pitch(m.root.hz);
}

/* What the pitch of a key says: 10, then what its degree does, then the reference key's own, which no range limits and which is 19 where
 * it is unmapped, then 18. */
static uint64_t pitch_says(const columns *c, telbijan_mapping m, int32_t key, double *pitch) {
    int32_t degree = 0, own = 0;
    if (!can_sound(c, m))
        return TELBIJAN_UNUSABLE;
    uint64_t due = degree_from(m, middle_of(m), key, &degree);
    if (due != 0)
        return due;
    due = degree_at(m, -(int64_t)m.root.offset, &own);
    if (due != 0)
        return due == TELBIJAN_UNMAPPED_KEY ? TELBIJAN_REFERENCE_UNMAPPED : due;
    return pitch_above(c, m.root.hz, own, degree, pitch);
}

static void middle_pitch(const columns *c, telbijan_mapping m, int32_t key, bool even) {
    uint64_t result;
    double *x = OUT(double, 0), pitch = *x;
    uint64_t due = pitch_says(c, m, key, &pitch);
    CALL(telbijan_maybe_pitch_from_middle(ITEMS(*c), c->s.count, MAPPING(m), key, x)), values_change(0), judge_memory(0, result, HERE);
    MUST(result == due && same_bits(*x, pitch));
    if (even)
        SAME(telbijan_tuning_pitch_from_middle(&c->s, &m, key, &pitch), result), MUST(same_bits(*x, pitch));
    middles_met[0] += result == 0, middles_met[1] += result == TELBIJAN_REFERENCE_UNMAPPED;
}

/* With the offset 0 both countings have the same degrees, and the same pitches too where the first entry is 0 or there are none. */
static void both_countings(const columns *c, telbijan_mapping m, int32_t key) {
    int32_t degree = 7, other = 7, none, *first = m.room > 0 ? m.map : &none, kept = *first;
    double x = 7, y = 7;
    m.root.offset = 0;
    MUST(telbijan_scale_degree_of(MAPPING(m), key, &degree) == telbijan_scale_degree_from_middle(MAPPING(m), key, &other));
    *first = 0;
    MUST(telbijan_maybe_pitch_of(ITEMS(*c), c->s.count, MAPPING(m), key, &x) ==
        telbijan_maybe_pitch_from_middle(ITEMS(*c), c->s.count, MAPPING(m), key, &y));
    *first = kept;
    MUST(degree == other && same_bits(x, y));
}

/* A run of keys, and the lengths of its slices. */
typedef struct run {
    int32_t first;
    uint32_t keys;
    size_t places, others;
} run;

/* A key of a run is as by the rule; the pitch of a refused one is as it was, and where there is no key, that is 11. */
static void key_by_rule(const columns *c, telbijan_mapping m, int64_t key, double hz, uint32_t number) {
    double pitch;
    patterned((uint8_t *)&pitch, sizeof pitch);
    MUST(number == (key > INT32_MAX ? TELBIJAN_OVERFLOW : pitch_says(c, m, (int32_t)key, &pitch)) && same_bits(hz, pitch));
}

/* And as the call for it alone. */
static void key_alone(const columns *c, telbijan_mapping m, int64_t key, double hz, uint32_t number) {
    double pitch;
    uint64_t alone = TELBIJAN_OVERFLOW;
    patterned((uint8_t *)&pitch, sizeof pitch);
    if (key <= INT32_MAX)
        alone = telbijan_maybe_pitch_from_middle(ITEMS(*c), c->s.count, MAPPING(m), (int32_t)key, &pitch);
    MUST(number == alone && same_bits(hz, pitch));
    middles_met[2] += number == TELBIJAN_REFERENCE_UNMAPPED;
}

static void middle_run(const columns *c, telbijan_mapping m, run r, bool even) {
    uint64_t result;
    bool short_of = r.keys > r.places || r.keys > r.others;
    double *hz = (double *)column(0, PITCHES, r.places), *also = (double *)column(1, PITCHES, short_of ? 0 : r.keys);
    uint32_t *numbers = (uint32_t *)column(0, NUMBERS, r.others), *more = (uint32_t *)column(1, NUMBERS, short_of ? 0 : r.keys);
    CALL(telbijan_pitches_from_middle(ITEMS(*c), c->s.count, MAPPING(m), r.first, r.keys, hz, r.places, numbers, r.others));
    if (result == 0)
        may_change(0, PITCHES, 8, 0, r.keys), may_change(0, NUMBERS, 4, 0, r.keys);
    JUDGE();
    MUST(result == (!can_sound(c, m) ? TELBIJAN_UNUSABLE : short_of ? TELBIJAN_NO_ROOM : TELBIJAN_ACCEPTED));
    if (even && !short_of) {
        SAME(telbijan_tuning_pitches_from_middle(&c->s, &m, r.first, r.keys, also, more), result);
        MUST(memcmp(hz, also, r.keys * sizeof *hz) == 0 && memcmp(numbers, more, r.keys * sizeof *numbers) == 0);
    }
    for (uint32_t k = 0; result == 0 && k < r.keys; k++) {
        key_alone(c, m, (int64_t)r.first + k, hz[k], numbers[k]);
        if (k < 16)
            key_by_rule(c, m, (int64_t)r.first + k, hz[k], numbers[k]);
    }
}

static void from_middle(const columns *c, telbijan_mapping m, run r, bool even) {
    middle_degree(m, r.first);
    middle_pitch(c, m, r.first, even);
    middle_run(c, m, r, even);
    both_countings(c, m, r.first);
}

#endif

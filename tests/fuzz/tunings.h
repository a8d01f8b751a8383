/* Tunings: calls that only look, on tables that were read or made, then changed here and there. */
#ifndef FUZZ_TUNINGS_H
#define FUZZ_TUNINGS_H

#include "middles.h"

static void poke(columns *c) {
    for (uint64_t times = draw(1) % 4; times > 0; times--) {
        int k = (int)(draw(1) % 7);
        size_t place = c->n[k] > 0 ? draw(2) % c->n[k] : 0, size = SIZES[KIND + k];
        uint64_t bits = k == 1 || k == 5 ? 0 : draw((int)size);
        double x = draw_double();
        if (c->n[k] > 0)
            memcpy(memory[0][KIND + k].at + place * size, k == 1 || k == 5 ? (void *)&x : (void *)&bits, size);
    }
}

static columns draw_scale(void) {
    columns c = draw_columns();
    telbijan_span span;
    size_t length;
    if (draw(1) % 2) {
        const uint8_t *text = draw_text(draw(1), &length);
        if (read_scale(&c, text, length, &span) != 0)
            c.s.count = 0;
    } else
        made_scale(&c);
    poke(&c);
    c.s.count = (uint16_t)draw_count(c.s.count);
    return c;
}

/* A call that stores a float, and the same on structs. */
#define FLOAT(flat, on_structs) \
    do { \
        CALL(flat), ONLY_VALUES(); \
        double also = *x; \
        if (even) \
            SAME(on_structs, result), MUST(same_bits(also, *x)); \
    } while (0)

/* A search. */
#define FOUND(flat, on_structs) \
    do { \
        CALL(flat), ONLY_VALUES(); \
        telbijan_found found = {*z, *x}; \
        if (even) \
            SAME(on_structs, result), MUST(found.number == *z && same_bits(found.deviation, *x)); \
    } while (0)

static void pitches(const columns *c, telbijan_root r, bool even) {
    uint64_t result;
    int32_t degree = draw_key();
    double *x = OUT(double, 0);
    const telbijan_scale s = telbijan_scale_lent(c->s.kind, c->s.cents, c->s.numer, c->s.denom, c->s.place, c->s.ratio, c->s.wraps,
        c->s.room, c->s.count);
    FLOAT(telbijan_period(ITEMS(*c), c->s.count, x), telbijan_scale_period(&c->s, &also));
    FLOAT(telbijan_period(ITEMS(*c), c->s.count, x), telbijan_scale_period(&s, &also));
    FLOAT(telbijan_relative_pitch_of(ITEMS(*c), c->s.count, degree, x), telbijan_scale_relative_pitch_of(&c->s, degree, &also));
    FLOAT(telbijan_sorted_relative_pitch_of(COLUMNS(*c), c->s.count, degree, x), telbijan_scale_sorted_relative_pitch_of(&c->s, degree, &also));
    FLOAT(telbijan_pitch_of(ITEMS(*c), c->s.count, TELBIJAN_ROOT(r), degree, x), telbijan_tuning_pitch_of(&c->s, r, degree, &also));
    FLOAT(telbijan_pitch_of_key(ITEMS(*c), c->s.count, TELBIJAN_ROOT(r), degree, x), telbijan_tuning_pitch_of_key(&c->s, r, degree, &also));
    FLOAT(telbijan_sorted_pitch_of(COLUMNS(*c), c->s.count, TELBIJAN_ROOT(r), degree, x), telbijan_tuning_sorted_pitch_of(&c->s, r, degree, &also));
}

static void searches(const columns *c, telbijan_root r, bool even) {
    uint64_t result;
    double target = draw_double(), *x = OUT(double, 0);
    int32_t *z = OUT(int32_t, 1);
    FOUND(telbijan_find_by_relative_pitch(COLUMNS(*c), c->s.count, target, z, x), telbijan_scale_find(&c->s, target, &found));
    FOUND(telbijan_find_by_relative_pitch_sorted(COLUMNS(*c), c->s.count, target, z, x), telbijan_scale_find_sorted(&c->s, target, &found));
    FOUND(telbijan_find_by_pitch(COLUMNS(*c), c->s.count, TELBIJAN_ROOT(r), target, z, x), telbijan_tuning_find_by_pitch(&c->s, r, target, &found));
    FOUND(telbijan_find_by_pitch_sorted(COLUMNS(*c), c->s.count, TELBIJAN_ROOT(r), target, z, x), telbijan_tuning_find_by_pitch_sorted(&c->s, r, target, &found));
    FOUND(telbijan_find_key_by_pitch(COLUMNS(*c), c->s.count, TELBIJAN_ROOT(r), target, z, x), telbijan_tuning_find_key_by_pitch(&c->s, r, target, &found));
}

/* A run of keys, into slices of their own lengths. */
static run draw_run(int32_t first) {
    size_t places = draw(1), others = draw(1) % 4 ? places : draw(1);
    run r = {first, (uint32_t)draw_count(places), places, others};
    return r;
}

static void run_of_keys(const columns *c, telbijan_mapping m, run r, bool even) {
    uint64_t result;
    size_t places = r.places, others = r.others;
    uint32_t keys = r.keys;
    int32_t first = r.first;
    double *hz = (double *)column(0, PITCHES, places), *also = (double *)column(1, PITCHES, keys <= places ? keys : 0);
    uint32_t *numbers = (uint32_t *)column(0, NUMBERS, others), *more = (uint32_t *)column(1, NUMBERS, keys <= others ? keys : 0);
    CALL(telbijan_pitches_of(ITEMS(*c), c->s.count, MAPPING(m), first, keys, hz, places, numbers, others));
    if (result == 0)
        may_change(0, PITCHES, 8, 0, keys), may_change(0, NUMBERS, 4, 0, keys);
    JUDGE();
    if (even && keys <= places && keys <= others)
        SAME(telbijan_tuning_pitches_of(&c->s, &m, first, keys, also, more), result), MUST(memcmp(hz, also, keys * 8) == 0 && memcmp(numbers, more, keys * 4) == 0);
    for (uint32_t k = 0; result == 0 && k < keys; k++) {
        MUST(numbers[k] == 0 || numbers[k] == 11 || numbers[k] == 16 || numbers[k] == 17 || numbers[k] == 18);
        MUST(m.end > m.start || numbers[k] == ((int64_t)first + k > INT32_MAX ? 11 : 16));
    }
}

/* The degree of a key is 10 exactly of an unusable table; where the last key is below the first, every key of a usable one is 16. */
static void lent_range(telbijan_mapping m, uint64_t result) {
    bool usable = is_usable(m.map, m.room, m.count), backwards = m.end <= m.start;
    MUST((result == TELBIJAN_UNUSABLE) == !usable);
    MUST(!usable || !backwards || result == TELBIJAN_KEY_OUT_OF_RANGE);
    backwards_met[2] += usable && backwards;
}

static void mapped(const columns *c, telbijan_mapping m, bool even) {
    uint64_t result;
    int32_t key = draw_key(), *z = OUT(int32_t, 1), degree = *z;
    double *x = OUT(double, 0);
    uint64_t due = degree_from(m, m.root.reference, key, &degree);
    const telbijan_mapping constant = telbijan_mapping_lent(m.map, m.room, m.count, m.start, m.end, m.root, m.octave);
    CALL(telbijan_scale_degree_of(MAPPING(m), key, z)), ONLY_VALUES();
    MUST(result != 0 || (m.start <= key && key < m.end));
    lent_range(m, result);
    MUST(result == due && degree == *z);
    SAME(telbijan_mapping_degree_of(&constant, key, &degree), result), MUST(degree == *z);
    SAME(telbijan_mapping_degree_of(&m, key, &degree), result), MUST(degree == *z);
    FLOAT(telbijan_maybe_pitch_of(ITEMS(*c), c->s.count, MAPPING(m), key, x), telbijan_tuning_maybe_pitch_of(&c->s, &m, key, &also));
    MUST(m.end > m.start || result == TELBIJAN_UNUSABLE || result == TELBIJAN_KEY_OUT_OF_RANGE);
    FLOAT(telbijan_maybe_pitch_of_degree(ITEMS(*c), c->s.count, MAPPING(m), key, x), telbijan_tuning_maybe_pitch_of_degree(&c->s, &m, key, &also));
    run r = draw_run(key);
    run_of_keys(c, m, r, even);
    from_middle(c, m, r, even);
}

static void tuning(void) {
    size_t took;
    columns c = draw_scale();
    telbijan_mapping m = draw_mapping();
    bool even = is_even(&c);
    pitches(&c, m.root, even);
    searches(&c, m.root, even);
    mapped(&c, m, even);
    export_mapping(m, draw_length(), &took);
    export_scale(&c, memory[0][TEXT].at ? memory[0][TEXT].at : (const uint8_t *)"", memory[0][TEXT].at ? memory[0][TEXT].bytes : 0, c.s.count, draw_length(), &took);
}

#endif

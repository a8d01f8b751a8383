/* Mappings: texts read, written and read again; builders. */
#ifndef FUZZ_MAPPINGS_H
#define FUZZ_MAPPINGS_H

#include "scales.h"

/* For drive.c: how many reads and builds were refused for a backwards range, and how many usable mappings were lent with one; how many
 * mappings were read; and what the read of the last text said. */
uint64_t backwards_met[3], mappings_met, mapping_said;

#define JUDGE_MAPPING() judge_mapping(0, result, HERE)

/* A mapping whose entries and numbers may be anything, or those of a text. */
static telbijan_mapping draw_mapping(void) {
    telbijan_mapping m;
    m.room = draw_length() % 300;
    m.map = (int32_t *)column(0, MAP, m.room);
    for (size_t k = 0; k < m.room; k++) {
        uint64_t how = draw(1);
        m.map[k] = how < 200 ? (int32_t)how - 90 : how < 252 ? TELBIJAN_UNMAPPED : (int32_t)(uint32_t)draw(4);
    }
    m.count = (uint16_t)draw_count(m.room);
    m.start = draw_key(), m.end = draw(1) % 4 ? 128 : draw_key();
    m.root.reference = draw_key(), m.root.hz = draw_double(), m.root.offset = draw_key(), m.octave = (int16_t)draw_key();
    return m;
}

#define MAPPING(m) (m).map, (m).room, (m).count, (m).start, (m).end, TELBIJAN_ROOT((m).root), (m).octave

static bool same_numbers(telbijan_mapping m, telbijan_mapping n) {
    return m.count == n.count && m.start == n.start && m.end == n.end && m.root.reference == n.root.reference && same_bits(m.root.hz, n.root.hz) && m.root.offset == n.root.offset && m.octave == n.octave;
}

/* Whether the first entries of a table can be used: each is a degree, or none. */
static bool is_usable(const int32_t *map, size_t places, size_t count) {
    if (count > places)
        return false;
    for (size_t k = 0; k < count; k++)
        if (map[k] != TELBIJAN_UNMAPPED && (map[k] < INT16_MIN || map[k] > INT16_MAX))
            return false;
    return true;
}

/* The degree so many steps above the key that is counted from, in a usable table: 11 where a number passes 32 bits, 17 unmapped. */
static uint64_t degree_at(telbijan_mapping m, int64_t steps, int32_t *degree) {
    if (steps < INT32_MIN || steps > INT32_MAX)
        return TELBIJAN_OVERFLOW;
    int64_t size = m.count, round = size == 0 ? 0 : steps / size - (steps % size < 0);
    int64_t entry = size == 0 ? steps : m.map[steps - round * size], exact = entry + round * m.octave;
    if (size > 0 && entry == TELBIJAN_UNMAPPED)
        return TELBIJAN_UNMAPPED_KEY;
    if (exact < INT32_MIN || exact > INT32_MAX)
        return TELBIJAN_OVERFLOW;
    *degree = (int32_t)exact;
    return TELBIJAN_ACCEPTED;
}

/* The degree of a key where another is counted from, which may lie outside 32 bits. */
static uint64_t degree_from(telbijan_mapping m, int64_t counted_from, int32_t key, int32_t *degree) {
    if (!is_usable(m.map, m.room, m.count))
        return TELBIJAN_UNUSABLE;
    return key < m.start || key >= m.end ? TELBIJAN_KEY_OUT_OF_RANGE : degree_at(m, key - counted_from, degree);
}

static bool is_pitch(double hz) {
    return hz >= 0x1p-10 && hz <= 0x1p20;
}

/* The same read into a struct. */
static void mapping_alike(telbijan_mapping m, const uint8_t *text, size_t length, uint64_t result) {
    telbijan_mapping n = {(int32_t *)column(1, MAP, m.room), m.room, 1, 2, 3, {4, 5, 6}, 7}, old = n;
    keep(1);
    SAME(telbijan_mapping_read(&n, given_text(text, length), length), result);
    if (result == 0)
        may_change(1, MAP, 4, 0, n.count);
    judge_mapping(1, result, HERE);
    alike(MAP, MAP, HERE);
    MUST(same_numbers(n, result == 0 ? m : old));
}

/* Where so many lines of a text end. */
static size_t end_of_line(const uint8_t *text, size_t length, uint64_t lines) {
    size_t at = 0;
    for (; at < length && lines > 0; at++)
        lines -= text[at] == '\n';
    return at;
}

/* A backwards range is told at the line of the last key: up to that line the text says the same, and up to the one before it, that the
 * last key is missing. */
static void at_last_key(telbijan_mapping m, const uint8_t *text, size_t length, uint64_t result) {
    size_t with = end_of_line(text, length, TELBIJAN_DETAIL(result)), without = end_of_line(text, length, TELBIJAN_DETAIL(result) - 1);
    SAME(telbijan_mapping_read(&m, given_text(text, with), with), result);
    SAME(telbijan_mapping_read(&m, given_text(text, without), without), 3 << 8 | TELBIJAN_LINE_MISSING);
    backwards_met[0]++;
}

/* A text read into a table that holds a pattern. */
static uint64_t read_mapping(telbijan_mapping *m, const uint8_t *text, size_t length) {
    uint64_t result;
    uint16_t *count = OUT(uint16_t, 0);
    int32_t *start = OUT(int32_t, 1), *end = OUT(int32_t, 2), *reference = OUT(int32_t, 3), *offset = OUT(int32_t, 4);
    double *hz = OUT(double, 5);
    int16_t *octave = OUT(int16_t, 6);
    CALL(telbijan_read_kbm(text, length, m->map, m->room, count, start, end, reference, hz, offset, octave));
    if (result == 0)
        may_change(0, MAP, 4, 0, *count), values_change(0);
    JUDGE_MAPPING();
    MUST(result != 0 || *start < *end);
    m->count = *count, m->start = *start, m->end = *end, m->root.reference = *reference, m->root.hz = *hz, m->root.offset = *offset, m->octave = *octave;
    mapping_alike(*m, text, length, result);
    if (TELBIJAN_NUMBER(result) == TELBIJAN_BACKWARDS_RANGE)
        at_last_key(*m, text, length, result);
    return result;
}

static uint64_t export_mapping(telbijan_mapping m, size_t room, size_t *took) {
    uint64_t result;
    uint8_t *out = (uint8_t *)column(0, BYTES, room), *other = (uint8_t *)column(1, BYTES, room);
    size_t *written = OUT(size_t, 0);
    CALL(telbijan_export_kbm(MAPPING(m), out, room, written));
    if (result == 0)
        may_change(0, BYTES, 1, 0, *written), values_change(0);
    JUDGE();
    /* the order of the keys plays no part */
    MUST((result == TELBIJAN_UNUSABLE) == !(is_usable(m.map, m.room, m.count) && is_pitch(m.root.hz)));
    MUST(result == 0 || result == TELBIJAN_UNUSABLE || result == TELBIJAN_OVERFLOW || result == TELBIJAN_NO_ROOM);
    *took = *written;
    SAME(telbijan_mapping_export(&m, given_room(other, room, took), room, took), result);
    MUST(*took == *written), alike(BYTES, BYTES, HERE);
    return result;
}

/* The exact sum, which may be no key. */
static int64_t middle_of(telbijan_mapping m) {
    return (int64_t)m.root.reference + m.root.offset;
}

/* Keys of a mapping that was read, in both countings: the ends of its range, and some from its reference key on. */
static void keys_of_text(telbijan_mapping m) {
    for (int32_t k = -2; k < 30; k++) {
        int64_t at = (int64_t)m.root.reference + k;
        int32_t key = k == -2 ? m.start : k == -1 ? m.end - 1 : at > INT32_MAX ? INT32_MAX : (int32_t)at, degree = 7, due = 7;
        SAME(telbijan_mapping_degree_of(&m, key, &degree), degree_from(m, m.root.reference, key, &due)), MUST(degree == due);
        SAME(telbijan_mapping_degree_from_middle(&m, key, &degree), degree_from(m, middle_of(m), key, &due)), MUST(degree == due);
    }
}

/* What was read is written and read again, as of a scale; the pitch has three decimals now. */
static void mapping_text(void) {
    telbijan_mapping m, n;
    m.room = draw_length(), m.map = (int32_t *)column(0, MAP, m.room);
    size_t length, took, again;
    const uint8_t *text = draw_text(SPACE / 64, &length);
    mapping_said = read_mapping(&m, text, length);
    if (mapping_said != 0)
        return;
    mappings_met++;
    keys_of_text(m);
    MUST(export_mapping(m, TELBIJAN_KBM_ROOM(m.count), &took) == 0);
    MUST(export_mapping(m, took, &again) == 0 && again == took);
    memcpy(known.text, memory[0][BYTES].at, took);
    memcpy(known.numer, m.map, (size_t)m.count * 4);
    MUST(export_mapping(m, took - 1, &again) == TELBIJAN_NO_ROOM);
    n = m, n.room = m.count, n.map = (int32_t *)column(0, MAP, n.room);
    MUST(read_mapping(&n, as_text(known.text, took), took) == 0);
    double apart = m.root.hz - n.root.hz;
    MUST(-0.000501 < apart && apart < 0.000501);
    m.root.hz = n.root.hz;
    MUST(same_numbers(m, n) && memcmp(known.numer, n.map, (size_t)n.count * 4) == 0);
    MUST(export_mapping(n, took, &again) == 0 && again == took && memcmp(memory[0][BYTES].at, known.text, took) == 0);
}

/* What a build says: 10 of a state, a table or a pitch, then 15, then 25 where no key is in the range, then 13. */
static uint64_t build_says(telbijan_mapping m, size_t room, size_t count, bool given) {
    if (room != m.room || !is_usable(m.map, room, count) || !is_pitch(m.root.hz))
        return TELBIJAN_UNUSABLE;
    if (count > 0 && !given)
        return TELBIJAN_FORMAL_OCTAVE_MISSING;
    return m.end <= m.start ? TELBIJAN_BACKWARDS_RANGE : count > UINT16_MAX ? TELBIJAN_TOO_LARGE : TELBIJAN_ACCEPTED;
}

static void build_mapping(telbijan_mapping m, size_t room, size_t count, telbijan_mapping_builder *b) {
    uint64_t result;
    bool given = draw(1) % 2;
    uint16_t *entries = OUT(uint16_t, 1);
    int16_t *formal = OUT(int16_t, 2);
    CALL(telbijan_build_kbm(m.map, m.room, room, count, m.start, m.end, TELBIJAN_ROOT(m.root), given, m.octave, entries, formal));
    values_change(0), JUDGE_MAPPING();
    MUST(result != 0 || (*entries == count && *formal == (given ? m.octave : 0)));
    MUST(result == build_says(m, room, count, given));
    backwards_met[1] += result == TELBIJAN_BACKWARDS_RANGE;
    if (b) {
        telbijan_mapping built = {NULL, 1, 2, 3, 4, {5, 6, 7}, 8}, old = built;
        SAME(given ? telbijan_mapping_build(b, m.octave, &built) : telbijan_mapping_build_linear(b, &built), result);
        m.count = *entries, m.octave = *formal;
        MUST(same_numbers(built, result == 0 ? m : old));
    }
}

static void mapping_builder(void) {
    uint64_t result;
    telbijan_mapping m = draw_mapping(), n = m;
    telbijan_mapping_builder builder, *b = &builder;
    size_t *after = OUT(size_t, 0), count = 0;
    n.map = (int32_t *)column(1, MAP, m.room);
    memcpy(n.map, m.map, m.room * 4);
    CALL(telbijan_kbm_root(TELBIJAN_ROOT(m.root))), JUDGE();
    SAME(telbijan_mapping_begin(b, &n), result);
    b = result == 0 ? b : NULL;
    while (left > 0) {
        size_t r = draw_count(m.room), k = draw_count(count);
        int16_t degree = (int16_t)draw(2);
        bool own = r == m.room && k == count, mapped = degree % 2;
        b = own ? b : NULL;
        if (degree % 8 == 0) {
            build_mapping(m, r, k, b);
            continue;
        }
        CALL(mapped ? telbijan_push_mapped_key(m.map, m.room, r, k, degree, after) : telbijan_push_unmapped_key(m.map, m.room, r, k, after));
        if (result == 0)
            may_change(0, MAP, 4, k, k + 1), values_change(0), count = k + 1;
        JUDGE();
        MUST(result != 0 || (*after == k + 1 && m.map[k] == (mapped ? degree : TELBIJAN_UNMAPPED)));
        if (b)
            SAME(mapped ? telbijan_mapping_push(b, degree) : telbijan_mapping_push_unmapped(b), result), alike(MAP, MAP, HERE);
    }
}

#endif

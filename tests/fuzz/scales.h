/* Scales: texts read, written and read again; builders; scales that are computed. */
#ifndef FUZZ_SCALES_H
#define FUZZ_SCALES_H

#include "draw.h"

/* For drive.c: how many scales were read. */
uint64_t scales_met;

/* The same read into structs. */
static void read_alike(const columns *c, const uint8_t *text, size_t length, uint64_t result, uint16_t count, size_t start, size_t end) {
    columns d = lend_columns(1, c->n);
    telbijan_span span = {7, 7};
    d.s.count = 0x5a5a;
    keep(1);
    SAME(telbijan_scale_read(&d.s, given_text(text, length), length, &span), result);
    if (result == 0)
        columns_change(1, WRAPS, 0, (size_t)d.s.count + 1);
    judge(1, result, HERE);
    alike(KIND, WRAPS, HERE);
    MUST(result == 0 ? d.s.count == count && span.start == start && span.end == end : d.s.count == 0x5a5a && span.start == 7 && span.end == 7);
}

/* A text read into columns that hold patterns; where it is accepted, the description is told. */
static uint64_t read_scale(columns *c, const uint8_t *text, size_t length, telbijan_span *description) {
    uint64_t result;
    uint16_t *count = OUT(uint16_t, 0);
    size_t *start = OUT(size_t, 1), *end = OUT(size_t, 2);
    CALL(telbijan_read_scl(text, length, COLUMNS(*c), count, start, end));
    if (result == 0)
        columns_change(0, WRAPS, 0, (size_t)*count + 1), values_change(0);
    JUDGE();
    MUST(result != 0 || (*start <= *end && *end <= length));
    scales_met += result == 0;
    if (is_even(c))
        read_alike(c, text, length, result, *count, *start, *end);
    c->s.count = *count, description->start = *start, description->end = *end;
    return result;
}

/* A scale written into so many bytes: how many it took. */
static uint64_t export_scale(const columns *c, const uint8_t *description, size_t length, uint16_t count, size_t room, size_t *took) {
    uint64_t result;
    uint8_t *out = (uint8_t *)column(0, BYTES, room);
    size_t *written = OUT(size_t, 0);
    CALL(telbijan_export_scl(description, length, ITEMS(*c), count, out, room, written));
    if (result == 0)
        may_change(0, BYTES, 1, 0, *written), values_change(0);
    JUDGE();
    if (is_even(c)) {
        telbijan_scale s = c->s;
        size_t also = *written;
        uint8_t *other = (uint8_t *)column(1, BYTES, room);
        s.count = count;
        SAME(telbijan_scale_export(&s, given_text(description, length), length, given_room(other, room, &also), room, &also), result);
        MUST(also == *written), alike(BYTES, BYTES, HERE);
    }
    *took = *written;
    return result;
}

/* The bytes of a part become the text. */
static uint8_t *as_text(const uint8_t *bytes, size_t length) {
    uint8_t *held = (uint8_t *)malloc(length + 1);
    MUST(held != NULL);
    memcpy(held, bytes, length);
    uint8_t *text = lend(0, TEXT, length, true);
    memcpy(text, held, length);
    free(held);
    return text;
}

/* What is known of a scale that was read and written. */
static struct {
    uint8_t kind[SPACE / 8];
    double cents[SPACE / 8];
    uint32_t numer[SPACE / 8], denom[SPACE / 8];
    uint8_t text[SPACE];
} known;

static void is_known(const columns *c, uint16_t count) {
    for (size_t k = 0; k <= count; k++) {
        double apart = c->s.cents[k] - known.cents[k];
        MUST(c->s.kind[k] == known.kind[k] && c->s.numer[k] == known.numer[k] && c->s.denom[k] == known.denom[k]);
        MUST(-0.000501 < apart && apart < 0.000501);
    }
}

/* What was read is written in the room that is always enough, and in no byte less than it takes; and read again, into no place more than it needs, it
 * is the same: cents have three decimals now, by which a period may have become 1.0. */
static void written_again(columns *c, const uint8_t *text, telbijan_span d) {
    uint16_t count = c->s.count;
    size_t length = d.end - d.start, took, again, n[7];
    telbijan_span other;
    MUST(export_scale(c, text + d.start, length, count, TELBIJAN_SCL_ROOM(length, count), &took) == 0);
    MUST(export_scale(c, text + d.start, length, count, took, &again) == 0 && again == took);
    memcpy(known.text, memory[0][BYTES].at, took);
    MUST(export_scale(c, text + d.start, length, count, took - 1, &again) == TELBIJAN_NO_ROOM);
    for (size_t k = 0; k <= count; k++)
        known.kind[k] = c->s.kind[k], known.cents[k] = c->s.cents[k], known.numer[k] = c->s.numer[k], known.denom[k] = c->s.denom[k];
    for (int k = 0; k < 7; k++)
        n[k] = (size_t)count + 1;
    text = as_text(known.text, took);
    *c = lend_columns(0, n);
    uint64_t result = read_scale(c, text, took, &other);
    MUST(result == 0 || (result == TELBIJAN_BEYOND_REACH && known.kind[count] == TELBIJAN_CENTS));
    if (result != 0)
        return;
    MUST(c->s.count == count && other.start == 0 && other.end == length);
    is_known(c, count);
    MUST(export_scale(c, text, length, count, took, &again) == 0 && again == took && memcmp(memory[0][BYTES].at, known.text, took) == 0);
}

/* Tables that a call left can be used by the others: none of them says 10. */
static void usable(const columns *c) {
    uint64_t result;
    double *x = OUT(double, 0);
    int32_t *z = OUT(int32_t, 1);
    CALL(telbijan_period(ITEMS(*c), c->s.count, x)), ONLY_VALUES(), MUST(result == 0);
    CALL(telbijan_sorted_relative_pitch_of(COLUMNS(*c), c->s.count, -7, x)), ONLY_VALUES(), MUST(result != TELBIJAN_UNUSABLE);
    CALL(telbijan_find_by_relative_pitch(COLUMNS(*c), c->s.count, 1.3, z, x)), ONLY_VALUES(), MUST(result != TELBIJAN_UNUSABLE);
}

static void scale_text(void) {
    columns c = draw_columns();
    size_t length;
    telbijan_span description;
    const uint8_t *text = draw_text(SPACE / 64, &length);
    if (read_scale(&c, text, length, &description) == 0)
        usable(&c), written_again(&c, text, description);
}

/* One push in a state that may be anything; the struct's push beside it where the state is its own. */
static bool push_item(const columns *c, size_t room, size_t count, telbijan_scale_builder *b, size_t *after) {
    uint64_t result, how = draw(1) % 4;
    double x = how < 2 ? draw_double() : 0;
    uint32_t numer = how < 2 ? 0 : (uint32_t)draw(4) >> draw(1) % 32, denom = how < 3 ? 0 : (uint32_t)draw(4) >> draw(1) % 32;
    telbijan_refusal said = {0, 0};
    keep(0), keep(1);
    if (how == 0)
        result = telbijan_push_cents(ITEMS(*c), room, count, x, after), said = b ? telbijan_scale_push_cents(b, x) : said;
    else if (how == 1)
        result = telbijan_push_ratio(ITEMS(*c), room, count, x, after), said = b ? telbijan_scale_push_ratio(b, x) : said;
    else if (how == 2)
        result = telbijan_push_int(ITEMS(*c), room, count, numer, after), said = b ? telbijan_scale_push_int(b, numer) : said;
    else
        result = telbijan_push_fraction(ITEMS(*c), room, count, numer, denom, after), said = b ? telbijan_scale_push_fraction(b, numer, denom) : said;
    if (result == 0)
        columns_change(0, DENOM, count + 1, count + 2), values_change(0);
    JUDGE();
    if (b)
        SAME(said, result), alike(KIND, WRAPS, HERE);
    MUST(result != 0 || *after == count + 1);
    return result == 0;
}

static void build_scale(columns *c, size_t room, size_t count, telbijan_scale_builder *b) {
    uint64_t result;
    uint16_t *items = OUT(uint16_t, 1);
    CALL(telbijan_build_scl(COLUMNS(*c), room, count, items));
    if (result == 0)
        for (int k = PLACE; k <= WRAPS; k++)
            may_change(0, k, SIZES[k], 0, count + 1);
    values_change(0), JUDGE();
    MUST(result != 0 || *items == count);
    if (b) {
        telbijan_scale built = {0};
        built.count = 0x5a5a;
        SAME(telbijan_scale_build(b, &built), result), alike(KIND, WRAPS, HERE);
        MUST(result == 0 ? built.count == *items && built.kind == b->scale.kind && built.room == b->scale.room : built.count == 0x5a5a);
    }
}

static void scale_builder(void) {
    uint64_t result;
    columns c = draw_columns(), d = lend_columns(1, c.n);
    telbijan_scale_builder builder, *b = is_even(&c) ? &builder : NULL;
    size_t *room = OUT(size_t, 0), *after = OUT(size_t, 2), count = 0;
    CALL(telbijan_new_scl(COLUMNS(c), room));
    columns_change(0, DENOM, 0, result == 0), values_change(0), JUDGE();
    if (b)
        SAME(telbijan_scale_begin(b, &d.s), result), alike(KIND, WRAPS, HERE);
    if (result != 0)
        return;
    size_t places = *room;
    while (left > 0) {
        size_t r = draw_count(places), n = draw_count(count);
        bool own = r == places && n == count;
        if (draw(1) % 8 == 0)
            build_scale(&c, r, n, own ? b : NULL);
        else if (push_item(&c, r, n, own ? b : NULL, after))
            count = n + 1, b = own ? b : NULL;
        /* what a wrong state wrote is not in the second memory */
        if (!own)
            b = NULL;
    }
}

/* A scale that is computed; whether it is one. */
static bool made_scale(columns *c) {
    uint64_t result;
    uint16_t *count = OUT(uint16_t, 0), start = (uint16_t)draw(2), size = (uint16_t)(draw(2) % 300), divisions = (uint16_t)draw(1);
    bool rank2 = draw(1) % 2, otonal = start % 2, divided = size % 2;
    double generator = draw_double(), period = draw_double();
    columns d = lend_columns(1, c->n);
    telbijan_refusal said;
    d.s.count = 0x5a5a;
    if (rank2) {
        CALL(telbijan_create_rank2_temperament_scale(generator, divisions, size, period, COLUMNS(*c), count));
        said = is_even(c) ? telbijan_scale_rank2(&d.s, generator, divisions, size, period) : telbijan_refusal_of(result);
    } else {
        CALL(telbijan_create_harmonics_scale(otonal, start, size, divided, divisions, COLUMNS(*c), count));
        said = !is_even(c) ? telbijan_refusal_of(result) : divided ? telbijan_scale_divided_harmonics(&d.s, otonal, start, size, divisions) : telbijan_scale_harmonics(&d.s, otonal, start, size);
    }
    if (result == 0)
        columns_change(0, WRAPS, 0, (size_t)*count + 1), values_change(0);
    JUDGE();
    SAME(said, result);
    if (is_even(c))
        alike(KIND, WRAPS, HERE), MUST(d.s.count == (result == 0 ? *count : 0x5a5a));
    c->s.count = result == 0 ? *count : 0;
    return result == 0;
}

static void generators(void) {
    columns c = draw_columns();
    if (made_scale(&c))
        usable(&c);
}

#endif

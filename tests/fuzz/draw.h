/* Arguments and lent memory, drawn from the fuzzer's bytes; and how a call is judged. */
#ifndef FUZZ_DRAW_H
#define FUZZ_DRAW_H

#include "memory.h"
#include "telbijan.h"

/* ---- Arguments from the bytes; zeros behind their end. */

static const uint8_t *input;
static size_t left;

static uint64_t draw(int bytes) {
    uint64_t all = 0;
    for (; bytes > 0; bytes--) {
        all = all << 8 | (left > 0 ? *input : 0);
        if (left > 0)
            input++, left--;
    }
    return all;
}

static double of_bits(uint64_t bits) {
    double x;
    memcpy(&x, &bits, sizeof x);
    return x;
}

/* Limits of the ranges, NaNs with payloads, infinities, zeros; or any bits; or a number of usual size. */
static double draw_double(void) {
    static const uint64_t TELLING[] = {
        0, 1, 0x3ff0000000000000, 0x3ff0000000000001, 0x3fefffffffffffff, 0x4000000000000000, 0x3ff8000000000000, 0x408c200000000000, 0x408c200000000001, 0x7b30000000000000, 0x7b30000000000001,
        0x07b0000000000000, 0x07afffffffffffff, 0x43f0000000000000, 0x43f0000000000001, 0x3bf0000000000000, 0x3befffffffffffff, 0x41f0000000000000, 0x3df0000000000000, 0x4130000000000000,
        0x4130000000000001, 0x3f50000000000000, 0x3f4fffffffffffff, 0x40e2c00000000000, 0x40e2c00000000001, 0x7ff0000000000000, 0x7ff8000000000000, 0x7ff8000000000123, 0x7ff0000000000001,
        0x7fefffffffffffff, 0x0010000000000000, 0x407b800000000000,
    };
    uint64_t how = draw(1), sign = how >> 7 << 63;
    if ((how & 3) == 0)
        return of_bits(draw(8));
    if ((how & 3) == 1)
        return of_bits(sign | TELLING[(how >> 2) % (sizeof TELLING / sizeof TELLING[0])]);
    if ((how & 3) == 2)
        return (double)(int16_t)draw(2) / 8;
    return 0.5 + (double)draw(3) / (1 << 22);
}

/* Of usual size, of 16 bits, any of 32 bits, or at one of their ends. */
static int32_t draw_key(void) {
    uint64_t how = draw(1);
    if (how >= 248)
        return how < 252 ? INT32_MIN + (int32_t)(how - 248) : INT32_MAX - (int32_t)(255 - how);
    return how < 200 ? (int32_t)how - 70 : how < 240 ? (int32_t)draw(2) - 32768 : (int32_t)(uint32_t)draw(4);
}

/* Places of a column: few, or some thousands. */
static size_t draw_length(void) {
    uint64_t how = draw(1);
    return how < 200 ? how % 20 : how < 250 ? how : draw(2) % 5000;
}

/* A count that is right, nearly so, or anything. */
static size_t draw_count(size_t right) {
    uint64_t how = draw(1);
    switch (how) {
    case 250: return right + 1;
    case 251: return right - 1;
    case 252: return 0;
    case 253: return SIZE_MAX;
    case 254: return SIZE_MAX / 8 + right;
    case 255: return (size_t)draw(8);
    default: return how < 240 ? right : how - 240;
    }
}

/* ---- Lent memory. */

static bool high;

/* What stands in lent memory: as a float, a NaN that signals, with a payload. */
static void *patterned(uint8_t *at, size_t bytes) {
    static const uint8_t NAN_BITS[8] = {0x23, 0x01, 0xEF, 0xBE, 0xAD, 0xDE, 0xF4, 0x7F};
    for (size_t i = 0; i < bytes; i++)
        at[i] = NAN_BITS[i % 8];
    return at;
}

/* A value behind a pointer. */
static void *value(int set, int k, size_t size) {
    return patterned(lend(set, VALUE + k, size, true), size);
}

#define OUT(type, k) ((type *)value(0, (k), sizeof(type)))

/* So many elements of a column. */
static void *column(int set, int k, size_t places) {
    return patterned(lend(set, k, places * SIZES[k], high), places * SIZES[k]);
}

/* Columns with their lengths, and a scale in them where all are the same. */
typedef struct columns {
    telbijan_scale s;
    size_t n[7];
} columns;

#define ITEMS(c) (c).s.kind, (c).n[0], (c).s.cents, (c).n[1], (c).s.numer, (c).n[2], (c).s.denom, (c).n[3]
#define COLUMNS(c) ITEMS(c), (c).s.place, (c).n[4], (c).s.ratio, (c).n[5], (c).s.wraps, (c).n[6]

static columns lend_columns(int set, const size_t n[7]) {
    columns c;
    memcpy(c.n, n, sizeof c.n);
    c.s.kind = (uint8_t *)column(set, KIND, n[0]), c.s.cents = (double *)column(set, CENTS, n[1]);
    c.s.numer = (uint32_t *)column(set, NUMER, n[2]), c.s.denom = (uint32_t *)column(set, DENOM, n[3]);
    c.s.place = (uint32_t *)column(set, PLACE, n[4]), c.s.ratio = (double *)column(set, RATIO, n[5]), c.s.wraps = (int32_t *)column(set, WRAPS, n[6]);
    c.s.room = n[0], c.s.count = 0;
    return c;
}

/* All of one length, or one of them shorter or longer. */
static columns draw_columns(void) {
    size_t n[7], places = draw_length(), other = draw(1);
    for (int k = 0; k < 7; k++)
        n[k] = places;
    if (other < 70)
        n[other % 7] = draw_length();
    return lend_columns(0, n);
}

static bool is_even(const columns *c) {
    for (int k = 1; k < 7; k++)
        if (c->n[k] != c->n[0])
            return false;
    return true;
}

/* The bytes that are left, or so many of them, as a text. */
static uint8_t *draw_text(size_t most, size_t *length) {
    *length = left < most ? left : most;
    uint8_t *at = lend(0, TEXT, *length, true);
    memcpy(at, input, *length);
    input += *length, left -= *length;
    return at;
}

/* A call on the first memory, and what an accepted one may change. */
#define CALL(call) (keep(0), result = (call))
#define JUDGE() judge(0, result, HERE)
#define ONLY_VALUES() (values_change(0), JUDGE())

static void values_change(int set) {
    for (int k = VALUE; k <= LAST_VALUE; k++)
        memory[set][k].from = 0, memory[set][k].to = memory[set][k].bytes;
}

/* The first places of all seven columns, or of the items alone, are written. */
static void columns_change(int set, int last, size_t from, size_t to) {
    for (int k = KIND; k <= last; k++)
        may_change(set, k, SIZES[k], from, to);
}

/* A struct's answer is the flat call's. */
#define SAME(said, result) same((said), (result), HERE)

static void same(telbijan_refusal said, uint64_t result, const char *where) {
    if (said.number != TELBIJAN_NUMBER(result) || said.detail != TELBIJAN_DETAIL(result) || telbijan_is_accepted(said) != (result == 0))
        fail("a call on structs answers as the flat one", where);
    if (strcmp(telbijan_reason(said.number), telbijan_reason(255)) == 0)
        fail("a number has its reason", where);
}

/* Lent bytes as a call on structs may be given them: NULL where there are none, for which it hands on a real address. */
static const char *given_text(const uint8_t *text, size_t length) {
    const char *given = length == 0 ? NULL : (const char *)text;
    MUST(telbijan_bytes(given, length) != NULL);
    return given;
}

static char *given_room(uint8_t *out, size_t room, size_t *written) {
    char *given = room == 0 ? NULL : (char *)out;
    MUST(telbijan_room(given, room, written) != NULL);
    return given;
}

static bool same_bits(double x, double y) {
    return memcmp(&x, &y, sizeof x) == 0;
}

#endif

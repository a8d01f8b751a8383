/* Two worlds for tests/every_call.c: in one of them a call on structs is made, in the other the flat call, and both are compared with each
 * other and with what they were. */
#include <inttypes.h>

#include "checks.h"

#define PLACES 16
#define ROOM_OF_TEXT 256

/* The memory that is lent: a scale's columns, a mapping's table. */
typedef struct memory {
    uint8_t kind[PLACES];
    double cents[PLACES];
    uint32_t numer[PLACES], denom[PLACES], place[PLACES];
    double ratio[PLACES];
    int32_t wraps[PLACES], map[PLACES];
} memory;

/* What a call gives back. */
typedef struct outs {
    telbijan_span span;
    telbijan_found found;
    double x;
    size_t written;
    int32_t degree;
    double hz[PLACES];
    uint32_t numbers[PLACES];
    char text[ROOM_OF_TEXT];
} outs;

/* All that a call may touch. */
typedef struct world {
    memory m;
    outs out;
    telbijan_scale scale, built;
    telbijan_scale_builder items;
    telbijan_mapping mapping, made;
    telbijan_mapping_builder entries;
} world;

/* Calls on structs have `ours`, flat calls `theirs`; `kept` is ours before the call and `lent` theirs, `seen` is ours after it, and `said`
 * what it answered. */
static world ours, theirs, kept, lent, seen;
static telbijan_refusal said;

/* Both worlds are given the same number. */
#define BOTH(field, value) (ours.field = (value), theirs.field = (value), keep())

static void keep(void) {
    memcpy(&kept, &ours, sizeof ours);
}

/* A pointer of ours and one of theirs are the same, or point to the same part of their worlds. */
static bool same_part(const void *p, const void *q) {
    return p == q || (uintptr_t)p - (uintptr_t)&ours == (uintptr_t)q - (uintptr_t)&theirs;
}

static bool same_scale(telbijan_scale s, telbijan_scale t) {
    return same_part(s.kind, t.kind) && same_part(s.cents, t.cents) && same_part(s.numer, t.numer) && same_part(s.denom, t.denom) && same_part(s.place, t.place) && same_part(s.ratio, t.ratio) &&
        same_part(s.wraps, t.wraps) && s.room == t.room && s.count == t.count;
}

static bool same_mapping(telbijan_mapping m, telbijan_mapping n) {
    return same_part(m.map, n.map) && m.room == n.room && m.count == n.count && m.start == n.start && m.end == n.end && m.root.reference == n.root.reference && m.root.hz == n.root.hz &&
        m.root.offset == n.root.offset && m.octave == n.octave;
}

static bool same_outs(const outs *o, const outs *p) {
    return o->span.start == p->span.start && o->span.end == p->span.end && o->found.number == p->found.number && o->found.deviation == p->found.deviation && o->x == p->x && o->written == p->written &&
        o->degree == p->degree && memcmp(o->hz, p->hz, sizeof o->hz) == 0 && memcmp(o->numbers, p->numbers, sizeof o->numbers) == 0 && memcmp(o->text, p->text, sizeof o->text) == 0;
}

static bool same_worlds(void) {
    return memcmp(&ours.m, &theirs.m, sizeof ours.m) == 0 && same_outs(&ours.out, &theirs.out) && same_scale(ours.scale, theirs.scale) && same_scale(ours.built, theirs.built) &&
        same_scale(ours.items.scale, theirs.items.scale) && ours.items.count == theirs.items.count && same_mapping(ours.mapping, theirs.mapping) && same_mapping(ours.made, theirs.made) &&
        same_mapping(ours.entries.mapping, theirs.entries.mapping) && ours.entries.count == theirs.entries.count;
}

/* A struct's answer is the flat call's result, and so is what it left; afterwards the values given back are 0x5a bytes again. */
static void alike(telbijan_refusal answer, uint64_t result, const char *what, int line) {
    check(answer.number == (result & 0xff) && answer.detail == result >> 8, what, line);
    if (result != 0)
        check(memcmp(&ours, &kept, sizeof ours) == 0 && memcmp(&theirs, &lent, sizeof theirs) == 0, "a refusal leaves all as it was", line);
    else
        check(same_worlds(), "the same values and memory", line);
    said = answer;
    memcpy(&seen, &ours, sizeof ours);
    memset(&ours.out, 0x5a, sizeof ours.out), memset(&theirs.out, 0x5a, sizeof theirs.out);
    keep();
}

#define ALIKE(answer, result) (memcpy(&lent, &theirs, sizeof theirs), alike((answer), (result), #answer, __LINE__))
#define SAID(n, d) (check(said.number == (n), "the number is " #n, __LINE__), check(said.detail == (d), "the detail is " #d, __LINE__))

static void lend(world *w, size_t room, size_t table) {
    memset(w, 0x5a, sizeof *w);
    w->scale.kind = w->m.kind, w->scale.cents = w->m.cents, w->scale.numer = w->m.numer, w->scale.denom = w->m.denom;
    w->scale.place = w->m.place, w->scale.ratio = w->m.ratio, w->scale.wraps = w->m.wraps, w->scale.room = room;
    w->mapping.map = w->m.map, w->mapping.room = table;
}

/* Worlds with nothing read, of so many places for a scale, and for a mapping. */
static void blank(size_t room, size_t table) {
    lend(&ours, room, table), lend(&theirs, room, table);
    keep();
}

/* Lent parts as the flat calls take them. */
#define ITEMS(w) (w).m.kind, (w).scale.room, (w).m.cents, (w).scale.room, (w).m.numer, (w).scale.room, (w).m.denom, (w).scale.room
#define COLUMNS(w) ITEMS(w), (w).m.place, (w).scale.room, (w).m.ratio, (w).scale.room, (w).m.wraps, (w).scale.room
#define ROOT(w) (w).mapping.root.reference, (w).mapping.root.hz, (w).mapping.root.offset
#define KEYS(w) (w).m.map, (w).mapping.room, (w).mapping.count, (w).mapping.start, (w).mapping.end, ROOT(w), (w).mapping.octave
#define BYTES(text) (const uint8_t *)(text), strlen(text)
#define OUT(w, room) (uint8_t *)(w).out.text, (room), &(w).out.written
#define FOUND(w) &(w).out.found.number, &(w).out.found.deviation

/* Makes each call on structs beside the flat one (tests/flat_calls.c has these by themselves), in two worlds of the same memory: the
 * same result, the same values, the same bytes. Rooms are full to the last place or one short of it, and places behind them are
 * watched; every value that a call may set holds 0x5a bytes before it; a refused call leaves its world as it was. Silent and 0 where
 * all is well. */
#include "worlds.h"

/* The texts: no number twice, none that a default would give, and no end to the last line. The scales differ in their periods alone. */
static const char SCALE[] = "! steps\nbright\n4\n5/3\n150.5\n7\n1203.25";
static const char FRACTION[] = "! steps\nbright\n4\n5/3\n150.5\n7\n13/6";
static const char MAPPING[] = "! keys\n4\n5\n90\n61\n67\n300.5\n7\n1\nx\n3\n6";
/* The mapping with first and last key swapped, with one key alone, and swapped with no line behind them. */
static const char SWAPPED[] = "! keys\n4\n90\n5\n61\n67\n300.5\n7\n1\nx\n3\n6";
static const char ONE_KEY[] = "! keys\n4\n90\n90\n61\n67\n300.5\n7\n1\nx\n3\n6";
static const char CUT_SHORT[] = "4\n! keys\n90\n\n89";
/* Swapped behind 20 lines that say nothing, and with 300 more between the keys; and the largest number as both keys. */
#define TEN "!\n! 7\n!\n\n!\n!\n\t\n!\n!\r\n!\n"
#define HUNDRED TEN TEN TEN TEN TEN TEN TEN TEN TEN TEN
static const char DOWN[] = TEN TEN "4\n90\n5\n61\n67\n300.5\n7\n1\nx\n3\n6";
static const char FAR_DOWN[] = TEN TEN "4\n90\n" HUNDRED HUNDRED HUNDRED "5\n61\n67\n300.5\n7\n1\nx\n3\n6";
static const char LARGEST[] = "4\n2147483647\n2147483647\n61\n67\n300.5\n7\n1\nx\n3\n6";

static void read_scale(size_t room) {
    blank(room, PLACES);
    ALIKE(telbijan_scale_read(&ours.scale, SCALE, strlen(SCALE), &ours.out.span), telbijan_read_scl(BYTES(SCALE), COLUMNS(theirs), &theirs.scale.count, &theirs.out.span.start, &theirs.out.span.end));
}

static void read_mapping(const char *text, size_t table) {
    blank(PLACES, table);
    ALIKE(telbijan_mapping_read(&ours.mapping, text, strlen(text)),
        telbijan_read_kbm(BYTES(text), theirs.m.map, theirs.mapping.room, &theirs.mapping.count, &theirs.mapping.start, &theirs.mapping.end,
            &theirs.mapping.root.reference, &theirs.mapping.root.hz, &theirs.mapping.root.offset, &theirs.mapping.octave));
}

/* Worlds in which a scale and the mapping were read, and which then have rooms of these sizes. */
static void filled(const char *scale, size_t room, size_t table) {
    world *w;
    int j;
    blank(PLACES, PLACES);
    for (j = 0; j < 2; j++) {
        w = j == 0 ? &ours : &theirs;
        SAME(telbijan_read_scl(BYTES(scale), COLUMNS(*w), &w->scale.count, &w->out.span.start, &w->out.span.end), 0);
        SAME(telbijan_read_kbm(BYTES(MAPPING), w->m.map, PLACES, &w->mapping.count, &w->mapping.start, &w->mapping.end, &w->mapping.root.reference, &w->mapping.root.hz, &w->mapping.root.offset, &w->mapping.octave), 0);
        memset(&w->out, 0x5a, sizeof w->out);
    }
    BOTH(scale.room, room), BOTH(mapping.room, table);
}

/* ---- What writes a scale or a mapping: with just enough places, and with one less. */

static void readers(void) {
    read_scale(5), SAID(0, 0), SAME(seen.scale.count, 4), SAME(seen.out.span.start, 8), SAME(seen.out.span.end, 14);
    SAME(seen.m.kind[1], TELBIJAN_FRACTION), SAME(seen.m.kind[2], TELBIJAN_CENTS), SAME(seen.m.kind[3], TELBIJAN_WHOLE), SAME(seen.m.kind[5], 0x5a);
    SAME(seen.m.numer[1], 5), SAME(seen.m.denom[1], 3), SAME(seen.m.cents[2], 150.5), SAME(seen.m.numer[3], 7), SAME(seen.m.cents[4], 1203.25), SAME(seen.m.place[1], 2), SAME(seen.m.wraps[3], 2);
    read_scale(4), SAID(12, 7);
    read_mapping(MAPPING, 4), SAID(0, 0), SAME(seen.mapping.count, 4), SAME(seen.mapping.octave, 7);
    SAME(seen.mapping.start, 5), SAME(seen.mapping.end, 91);
    SAME(seen.mapping.root.reference, 67), SAME(seen.mapping.root.hz, 300.5), SAME(seen.mapping.root.offset, -6);
    SAME(seen.m.map[0], 1), SAME(seen.m.map[1], TELBIJAN_UNMAPPED), SAME(seen.m.map[3], 6), SAME(seen.m.map[4], 0x5a5a5a5a);
    read_mapping(MAPPING, 3), SAID(12, 12);
    read_mapping(SWAPPED, 4), SAID(25, 4), read_mapping(SWAPPED, 3), SAID(25, 4), read_mapping(CUT_SHORT, 0), SAID(25, 5);
    read_mapping(DOWN, 4), SAID(25, 23), read_mapping(FAR_DOWN, 4), SAID(25, 323), read_mapping(LARGEST, 4), SAID(11, 3);
    read_mapping(ONE_KEY, 4), SAID(0, 0), SAME(seen.mapping.start, 90), SAME(seen.mapping.end, 91);
}

static void harmonics(bool otonal, size_t room) {
    blank(room, PLACES);
    ALIKE(telbijan_scale_harmonics(&ours.scale, otonal, 8, 6), telbijan_create_harmonics_scale(otonal, 8, 6, false, 0, COLUMNS(theirs), &theirs.scale.count));
}

static void divided(bool otonal, size_t room) {
    blank(room, PLACES);
    ALIKE(telbijan_scale_divided_harmonics(&ours.scale, otonal, 27, 20, 12), telbijan_create_harmonics_scale(otonal, 27, 20, true, 12, COLUMNS(theirs), &theirs.scale.count));
}

static void rank2(size_t room) {
    blank(room, PLACES);
    ALIKE(telbijan_scale_rank2(&ours.scale, 1.5, 5, 1, 2.5), telbijan_create_rank2_temperament_scale(1.5, 5, 1, 2.5, COLUMNS(theirs), &theirs.scale.count));
}

static void generators(void) {
    harmonics(true, 7), SAID(0, 0), SAME(seen.scale.count, 6), SAME(seen.m.numer[1], 9), SAME(seen.m.denom[1], 8);
    harmonics(false, 7), SAID(0, 0), SAME(seen.m.numer[1], 14), SAME(seen.m.denom[1], 13);
    harmonics(true, 6), SAID(12, 0);
    divided(true, 13), SAID(0, 0), SAME(seen.scale.count, 12), SAME(seen.m.numer[12], 47);
    divided(false, 13), SAID(0, 0), SAME(seen.m.denom[12], 27);
    divided(true, 12), SAID(12, 0);
    rank2(8), SAID(0, 0), SAME(seen.scale.count, 7), NEAR(seen.m.ratio[1], 1.215);
    rank2(7), SAID(12, 0);
}

/* The lent bytes: the text and no more, and one byte less. */
static void export_scale(size_t room) {
    ALIKE(telbijan_scale_export(&ours.scale, "bright", 6, ours.out.text, room, &ours.out.written), telbijan_export_scl(BYTES("bright"), ITEMS(theirs), theirs.scale.count, OUT(theirs, room)));
}

static void export_mapping(size_t room) {
    ALIKE(telbijan_mapping_export(&ours.mapping, ours.out.text, room, &ours.out.written), telbijan_export_kbm(KEYS(theirs), OUT(theirs, room)));
}

static void exports(void) {
    const char *text = "bright\n4\n5/3\n150.500\n7\n1203.250\n";
    filled(SCALE, 5, 4);
    export_scale(strlen(text)), SAID(0, 0), SAME(seen.out.written, strlen(text)), SAME(memcmp(seen.out.text, text, strlen(text)), 0), SAME(seen.out.text[strlen(text)], 0x5a);
    export_scale(strlen(text) - 1), SAID(12, 0);
    text = "4\n5\n90\n61\n67\n300.500\n7\n1\nx\n3\n6\n";
    export_mapping(strlen(text)), SAID(0, 0), SAME(seen.out.written, strlen(text)), SAME(memcmp(seen.out.text, text, strlen(text)), 0), SAME(seen.out.text[strlen(text)], 0x5a);
    export_mapping(strlen(text) - 1), SAID(12, 0);
}

/* NULL for 0 bytes, by the calls on structs alone. */
static void no_bytes(void) {
    const char *text = "\n4\n5/3\n150.500\n7\n1203.250\n";
    char bytes[1] = "";
    size_t real = 7;
    SAME(telbijan_bytes(NULL, 0) == NULL, false), SAME(telbijan_bytes(text, 1), (const uint8_t *)text);
    SAME(telbijan_room(NULL, 0, &real), (uint8_t *)&real), SAME(telbijan_room(bytes, 1, &real), (uint8_t *)bytes);
    filled(SCALE, 5, 4);
    ALIKE(telbijan_scale_read(&ours.scale, NULL, 0, &ours.out.span), telbijan_read_scl(BYTES(""), COLUMNS(theirs), &theirs.scale.count, &theirs.out.span.start, &theirs.out.span.end)), SAID(2, 1);
    ALIKE(telbijan_mapping_read(&ours.mapping, NULL, 0), telbijan_read_kbm(BYTES(""), theirs.m.map, theirs.mapping.room, &theirs.mapping.count, &theirs.mapping.start, &theirs.mapping.end,
        &theirs.mapping.root.reference, &theirs.mapping.root.hz, &theirs.mapping.root.offset, &theirs.mapping.octave)), SAID(2, 1);
    ALIKE(telbijan_scale_export(&ours.scale, NULL, 0, ours.out.text, strlen(text), &ours.out.written), telbijan_export_scl(BYTES(""), ITEMS(theirs), theirs.scale.count, OUT(theirs, strlen(text))));
    SAID(0, 0), SAME(seen.out.written, strlen(text)), SAME(memcmp(seen.out.text, text, strlen(text)), 0);
    ALIKE(telbijan_scale_export(&ours.scale, NULL, 0, NULL, 0, &ours.out.written), telbijan_export_scl(BYTES(""), ITEMS(theirs), theirs.scale.count, OUT(theirs, 0))), SAID(12, 0);
    ALIKE(telbijan_mapping_export(&ours.mapping, NULL, 0, &ours.out.written), telbijan_export_kbm(KEYS(theirs), OUT(theirs, 0))), SAID(12, 0);
}

/* ---- Builders. */

/* One of the four pushes. */
static void push(int which) {
    switch (which % 4) {
    case 0: ALIKE(telbijan_scale_push_cents(&ours.items, 150.5), telbijan_push_cents(ITEMS(theirs), theirs.scale.room, theirs.items.count, 150.5, &theirs.items.count)); break;
    case 1: ALIKE(telbijan_scale_push_ratio(&ours.items, 1.25), telbijan_push_ratio(ITEMS(theirs), theirs.scale.room, theirs.items.count, 1.25, &theirs.items.count)); break;
    case 2: ALIKE(telbijan_scale_push_fraction(&ours.items, 9, 8), telbijan_push_fraction(ITEMS(theirs), theirs.scale.room, theirs.items.count, 9, 8, &theirs.items.count)); break;
    default: ALIKE(telbijan_scale_push_int(&ours.items, 7), telbijan_push_int(ITEMS(theirs), theirs.scale.room, theirs.items.count, 7, &theirs.items.count));
    }
}

/* A builder in columns of `room` places, which say they hold a scale of one item. */
static void begin_scale(size_t room) {
    size_t places = 7;
    blank(room, PLACES);
    BOTH(scale.count, 1);
    theirs.items.scale = theirs.scale, theirs.items.count = 0;
    ALIKE(telbijan_scale_begin(&ours.items, &ours.scale), telbijan_new_scl(COLUMNS(theirs), &places));
    SAME(places, room == 0 ? 7 : room);
}

static void build_scale(void) {
    theirs.built = theirs.items.scale;
    ALIKE(telbijan_scale_build(&ours.items, &ours.built), telbijan_build_scl(COLUMNS(theirs), theirs.scale.room, theirs.items.count, &theirs.built.count));
}

static void scale_builders(void) {
    int last, j;
    begin_scale(1), SAID(0, 0), SAME(seen.items.count, 0), SAME(seen.m.cents[0], 0), SAME(seen.m.kind[1], 0x5a);
    begin_scale(0), SAID(12, 0);
    for (last = 0; last < 4; last++) {
        begin_scale(5);
        for (j = 1; j <= 4; j++)
            push(last + j), SAID(0, 0), SAME(seen.items.count, (size_t)j);
        push(last), SAID(12, 0);
        build_scale(), SAID(0, 0), SAME(seen.built.count, 4);
    }
    BOTH(items.count, 5), build_scale(), SAID(10, 0);
    begin_scale(3), push(0), SAID(0, 0);
    ALIKE(telbijan_scale_push_int(&ours.items, 1), telbijan_push_int(ITEMS(theirs), theirs.scale.room, theirs.items.count, 1, &theirs.items.count)), SAID(0, 0);
    build_scale(), SAID(18, 0);
}

static void push_entry(bool mapped) {
    if (mapped)
        ALIKE(telbijan_mapping_push(&ours.entries, -9), telbijan_push_mapped_key(theirs.m.map, theirs.mapping.room, theirs.mapping.room, theirs.entries.count, -9, &theirs.entries.count));
    else
        ALIKE(telbijan_mapping_push_unmapped(&ours.entries), telbijan_push_unmapped_key(theirs.m.map, theirs.mapping.room, theirs.mapping.room, theirs.entries.count, &theirs.entries.count));
}

/* A builder of a mapping whose own count and octave do not matter. */
static void begin_mapping(void) {
    BOTH(mapping.count, 0x5a5a), BOTH(mapping.octave, 0x5a5a);
    theirs.entries.mapping = theirs.mapping, theirs.entries.count = 0;
    ALIKE(telbijan_mapping_begin(&ours.entries, &ours.mapping), telbijan_kbm_root(ROOT(theirs)));
}

/* The flat call is lent what the builder has. */
#define ENTRIES(b) (b).mapping.map, (b).mapping.room, (b).mapping.room, (b).count, (b).mapping.start, (b).mapping.end, (b).mapping.root.reference, (b).mapping.root.hz, (b).mapping.root.offset

static void build_mapping(void) {
    theirs.made = theirs.entries.mapping;
    ALIKE(telbijan_mapping_build(&ours.entries, 11, &ours.made), telbijan_build_kbm(ENTRIES(theirs.entries), true, 11, &theirs.made.count, &theirs.made.octave));
}

static void build_linear(void) {
    theirs.made = theirs.entries.mapping;
    ALIKE(telbijan_mapping_build_linear(&ours.entries, &ours.made), telbijan_build_kbm(ENTRIES(theirs.entries), false, 0, &theirs.made.count, &theirs.made.octave));
}

static int32_t large[65536];

/* A builder of two entries and this range. */
static void begin_range(int32_t start, int32_t end) {
    filled(SCALE, 5, 4), begin_mapping(), push_entry(true), push_entry(false);
    BOTH(entries.mapping.start, start), BOTH(entries.mapping.end, end);
}

/* A last key below the first: 10 and 15 come before that, 13 after it. A refused build leaves all as it was, and another range mends it;
 * the widest of all is built. */
static void backwards_builders(void) {
    begin_range(91, 5), build_mapping(), SAID(25, 0), build_linear(), SAID(15, 0);
    BOTH(entries.mapping.end, 92), build_mapping(), SAID(0, 0);
    SAME(seen.made.count, 2), SAME(seen.made.start, 91), SAME(seen.made.end, 92), SAME(seen.made.octave, 11);
    begin_range(INT32_MIN, INT32_MAX), build_mapping(), SAID(0, 0);
    SAME(seen.made.count, 2), SAME(seen.made.start, INT32_MIN), SAME(seen.made.end, INT32_MAX), SAME(seen.made.octave, 11);
    begin_range(91, 91), build_mapping(), SAID(25, 0), begin_range(91, INT32_MIN), build_mapping(), SAID(25, 0);
    BOTH(entries.count, 5), build_mapping(), SAID(10, 0), build_linear(), SAID(10, 0);
    BOTH(entries.count, 0), build_mapping(), SAID(25, 0), build_linear(), SAID(25, 0);
    BOTH(entries.mapping.map, large), BOTH(entries.mapping.room, 65536), BOTH(entries.count, 65536);
    build_mapping(), SAID(25, 0), build_linear(), SAID(15, 0), BOTH(entries.mapping.end, 92), build_mapping(), SAID(13, 0);
}

static void mapping_builders(void) {
    int last, j;
    filled(SCALE, 5, 4), begin_mapping(), SAID(0, 0), build_linear(), SAID(0, 0), SAME(seen.made.count, 0), SAME(seen.made.octave, 0), SAME(seen.made.root.hz, 300.5);
    for (last = 0; last < 2; last++) {
        filled(SCALE, 5, 4), begin_mapping(), SAID(0, 0);
        for (j = 1; j <= 4; j++)
            push_entry((last + j) % 2 == 0), SAID(0, 0), SAME(seen.entries.count, (size_t)j);
        SAME(seen.m.map[3], last == 0 ? -9 : INT32_MIN);
        push_entry(true), SAID(12, 0), push_entry(false), SAID(12, 0);
        build_mapping(), SAID(0, 0), SAME(seen.made.count, 4), SAME(seen.made.octave, 11), SAME(seen.made.start, 5), SAME(seen.made.end, 91), SAME(seen.made.root.offset, -6);
        build_linear(), SAID(15, 0);
    }
    filled(SCALE, 5, 4), begin_mapping(), push_entry(true), push_entry(false), build_mapping(), SAID(0, 0), SAME(seen.made.count, 2);
    BOTH(entries.count, 5), build_mapping(), SAID(10, 0), build_linear(), SAID(10, 0);
    BOTH(entries.count, 0), BOTH(entries.mapping.root.hz, 0), build_mapping(), SAID(10, 0), build_linear(), SAID(10, 0);
    filled(SCALE, 5, 4), BOTH(mapping.root.hz, 0), begin_mapping(), SAID(10, 0);
    filled(SCALE, 5, 4), begin_mapping(), BOTH(entries.mapping.map, large), BOTH(entries.mapping.room, 65536), BOTH(entries.count, 65536), build_mapping(), SAID(13, 0);
}

/* ---- What looks at a scale and a mapping. Each answers `number`, or the refusal of its key. */

static void scale_lookups(uint32_t number) {
    int32_t degree;
    ALIKE(telbijan_scale_period(&ours.scale, &ours.out.x), telbijan_period(ITEMS(theirs), theirs.scale.count, &theirs.out.x)), SAID(number, 0);
    for (degree = -6; degree <= 6; degree++) {
        ALIKE(telbijan_scale_relative_pitch_of(&ours.scale, degree, &ours.out.x), telbijan_relative_pitch_of(ITEMS(theirs), theirs.scale.count, degree, &theirs.out.x)), SAID(number, 0);
        ALIKE(telbijan_scale_sorted_relative_pitch_of(&ours.scale, degree, &ours.out.x), telbijan_sorted_relative_pitch_of(COLUMNS(theirs), theirs.scale.count, degree, &theirs.out.x)), SAID(number, 0);
        ALIKE(telbijan_tuning_pitch_of(&ours.scale, ours.mapping.root, degree, &ours.out.x), telbijan_pitch_of(ITEMS(theirs), theirs.scale.count, ROOT(theirs), degree, &theirs.out.x)), SAID(number, 0);
        ALIKE(telbijan_tuning_sorted_pitch_of(&ours.scale, ours.mapping.root, degree, &ours.out.x), telbijan_sorted_pitch_of(COLUMNS(theirs), theirs.scale.count, ROOT(theirs), degree, &theirs.out.x)), SAID(number, 0);
        ALIKE(telbijan_tuning_pitch_of_key(&ours.scale, ours.mapping.root, degree + 67, &ours.out.x), telbijan_pitch_of_key(ITEMS(theirs), theirs.scale.count, ROOT(theirs), degree + 67, &theirs.out.x)), SAID(number, 0);
    }
}

static void searches_by_pitch(uint32_t number) {
    ALIKE(telbijan_tuning_find_by_pitch(&ours.scale, ours.mapping.root, 490, &ours.out.found), telbijan_find_by_pitch(COLUMNS(theirs), theirs.scale.count, ROOT(theirs), 490, FOUND(theirs))), SAID(number, 0);
    ALIKE(telbijan_tuning_find_by_pitch_sorted(&ours.scale, ours.mapping.root, 490, &ours.out.found), telbijan_find_by_pitch_sorted(COLUMNS(theirs), theirs.scale.count, ROOT(theirs), 490, FOUND(theirs))), SAID(number, 0);
    ALIKE(telbijan_tuning_find_key_by_pitch(&ours.scale, ours.mapping.root, 490, &ours.out.found), telbijan_find_key_by_pitch(COLUMNS(theirs), theirs.scale.count, ROOT(theirs), 490, FOUND(theirs))), SAID(number, 0);
}

static void searches(uint32_t number) {
    bool good = number == 0;
    ALIKE(telbijan_scale_find(&ours.scale, 2.3, &ours.out.found), telbijan_find_by_relative_pitch(COLUMNS(theirs), theirs.scale.count, 2.3, FOUND(theirs))), SAID(number, 0), SAME(seen.out.found.number, good ? 6 : 0x5a5a5a5a);
    ALIKE(telbijan_scale_find_sorted(&ours.scale, 2.3, &ours.out.found), telbijan_find_by_relative_pitch_sorted(COLUMNS(theirs), theirs.scale.count, 2.3, FOUND(theirs))), SAID(number, 0), SAME(seen.out.found.number, good ? 5 : 0x5a5a5a5a);
    searches_by_pitch(number);
}

static void degree_of(int32_t key) {
    ALIKE(telbijan_mapping_degree_of(&ours.mapping, key, &ours.out.degree),
        telbijan_scale_degree_of(KEYS(theirs), key, &theirs.out.degree));
}

static void pitch_of(int32_t key) {
    ALIKE(telbijan_tuning_maybe_pitch_of(&ours.scale, &ours.mapping, key, &ours.out.x),
        telbijan_maybe_pitch_of(ITEMS(theirs), theirs.scale.count, KEYS(theirs), key, &theirs.out.x));
}

static void degree_from_middle(int32_t key) {
    ALIKE(telbijan_mapping_degree_from_middle(&ours.mapping, key, &ours.out.degree),
        telbijan_scale_degree_from_middle(KEYS(theirs), key, &theirs.out.degree));
}

static void pitch_from_middle(int32_t key) {
    ALIKE(telbijan_tuning_pitch_from_middle(&ours.scale, &ours.mapping, key, &ours.out.x),
        telbijan_maybe_pitch_from_middle(ITEMS(theirs), theirs.scale.count, KEYS(theirs), key, &theirs.out.x));
}

/* Every key from the one before the first to the one after the last. */
static void keys(void) {
    int32_t key;
    for (key = 4; key <= 91; key++) {
        degree_of(key), pitch_of(key), degree_from_middle(key), pitch_from_middle(key);
        ALIKE(telbijan_tuning_maybe_pitch_of_degree(&ours.scale, &ours.mapping, key - 67, &ours.out.x), telbijan_maybe_pitch_of_degree(ITEMS(theirs), theirs.scale.count, KEYS(theirs), key - 67, &theirs.out.x));
    }
}

static void run_of_keys(int32_t first, uint32_t number) {
    ALIKE(telbijan_tuning_pitches_of(&ours.scale, &ours.mapping, first, 9, ours.out.hz, ours.out.numbers), telbijan_pitches_of(ITEMS(theirs), theirs.scale.count, KEYS(theirs), first, 9, theirs.out.hz, 9, theirs.out.numbers, 9));
    SAID(number, 0);
}

static void run_from_middle(int32_t first, uint32_t number) {
    ALIKE(telbijan_tuning_pitches_from_middle(&ours.scale, &ours.mapping, first, 9, ours.out.hz, ours.out.numbers),
        telbijan_pitches_from_middle(ITEMS(theirs), theirs.scale.count, KEYS(theirs), first, 9, theirs.out.hz, 9, theirs.out.numbers, 9));
    SAID(number, 0);
}

/* A room one short of its count is refused by all that look at it. */
static void lookups(const char *scale, size_t room, size_t table, uint32_t scale_number, uint32_t number) {
    filled(scale, room, table);
    scale_lookups(scale_number), searches(scale_number), keys(), run_of_keys(4, number), run_of_keys(83, number);
    run_from_middle(4, number), run_from_middle(83, number);
    export_scale(ROOM_OF_TEXT), SAID(scale_number, 0);
    export_mapping(ROOM_OF_TEXT), SAID(table < 4 ? 10u : 0u, 0);
}

/* Key 4 is outside and key 8 unmapped; key 90 is the last; the places behind the run stay. */
static void ends_of_runs(void) {
    filled(SCALE, 5, 4);
    run_of_keys(4, 0), SAME(seen.out.numbers[0], 16u), SAME(seen.out.numbers[1], 0u), SAME(seen.out.numbers[4], 17u), SAME(seen.out.numbers[9], 0x5a5a5a5au), SAME(seen.out.hz[0], seen.out.hz[9]);
    run_of_keys(83, 0), SAME(seen.out.numbers[7], 0u), SAME(seen.out.numbers[8], 16u);
    run_from_middle(4, 0), SAME(seen.out.numbers[0], 16u), SAME(seen.out.numbers[1], 0u), SAME(seen.out.numbers[2], 17u);
    SAME(seen.out.numbers[9], 0x5a5a5a5au), SAME(seen.out.hz[0], seen.out.hz[9]);
    run_from_middle(83, 0), SAME(seen.out.numbers[7], 17u), SAME(seen.out.numbers[8], 16u);
}

/* ---- Counted from the middle key. */

/* What the degree of a key says, and what its pitch. */
#define SAYS(key, degree, pitch) (degree_from_middle(key), SAID(degree, 0), pitch_from_middle(key), SAID(pitch, 0))

/* Entries 1 x 3: no two arguments have the same number. The middle key is 61, and the reference key's own degree 15. */
static void three_entries(void) {
    filled(SCALE, 5, 4), BOTH(mapping.count, 3);
}

/* The same above another root, for the keys of another range. */
static void above_root(int32_t reference, int32_t offset, int32_t start, int32_t end) {
    three_entries(), BOTH(mapping.root.reference, reference), BOTH(mapping.root.offset, offset), BOTH(mapping.start, start),
        BOTH(mapping.end, end);
}

/* What is said beside the nine keys of a run, a letter for each: a pitch, outside, unmapped, reference key unmapped, overflow. The pitch
 * of a refused key, and the places behind the run, stay as they were. */
static void beside(const char *letters, int line) {
    static const struct {
        char letter;
        uint32_t number;
    } SAID_BY[] = {{'p', 0}, {'o', 16}, {'u', 17}, {'r', 19}, {'f', 11}};
    uint32_t k, j;
    for (k = 0; k < 9; k++) {
        for (j = 0; SAID_BY[j].letter != letters[k]; j++)
            ;
        check(seen.out.numbers[k] == SAID_BY[j].number, "the number beside a key", line);
        check((memcmp(&seen.out.hz[k], &seen.out.hz[9], sizeof(double)) == 0) == (j > 0), "the pitch of a key", line);
    }
    check(seen.out.numbers[9] == 0x5a5a5a5a, "the number behind a run", line);
}

#define RUN_SAYS(first, letters) (run_from_middle(first, 0), beside(letters, __LINE__))

/* Slices shorter than the run, which only the flat call can be lent. */
static void short_run(uint64_t number, size_t pitches, size_t beside_them) {
    memcpy(&lent, &theirs, sizeof theirs);
    SAME(telbijan_pitches_from_middle(ITEMS(theirs), theirs.scale.count, KEYS(theirs), 62, 9, theirs.out.hz, pitches, theirs.out.numbers,
             beside_them),
        number);
    SAME(memcmp(&theirs, &lent, sizeof theirs), 0);
}

/* A pitch is made in two steps, each rounded once: the root's over the ratio of the reference key's degree, times that of the key's. */
static void in_two_steps(int32_t own, int32_t key) {
    double x = 0, y = 0;
    degree_from_middle(key), SAID(0, 0);
    SAME(telbijan_relative_pitch_of(ITEMS(theirs), theirs.scale.count, own, &x), 0);
    SAME(telbijan_relative_pitch_of(ITEMS(theirs), theirs.scale.count, seen.out.degree, &y), 0);
    SAME(telbijan_pitch_over_ratio(theirs.mapping.root.hz, x, &x), 0), SAME(telbijan_pitch_times_ratio(x, y, &x), 0);
    pitch_from_middle(key), SAID(0, 0), SAME(memcmp(&seen.out.x, &x, sizeof x), 0);
}

/* Answers, and what cannot be used: 10 before all else; the pitch plays no part in a degree. */
static void from_middle(void) {
    int32_t key;
    three_entries(), SAYS(4, 16, 16), SAYS(91, 16, 16), SAYS(71, 17, 17), SAYS(90, 0, 0);
    degree_from_middle(67), SAME(seen.out.degree, 15), degree_from_middle(72), SAME(seen.out.degree, 24);
    degree_from_middle(60), SAME(seen.out.degree, -4), degree_from_middle(61), SAME(seen.out.degree, 1);
    pitch_from_middle(67), NEAR(seen.out.x, 300.5), pitch_from_middle(72), NEAR(seen.out.x, 345.36815618528);
    pitch_from_middle(66), NEAR(seen.out.x, 23.369817973892637), pitch_from_middle(90), NEAR(seen.out.x, 393087.58085687296);
    RUN_SAYS(66, "ppuppuppu"), NEAR(seen.out.hz[0], 23.369817973892637), NEAR(seen.out.hz[1], 300.5);
    NEAR(seen.out.hz[6], 345.36815618528), RUN_SAYS(4, "ouppuppup"), RUN_SAYS(83, "uppuppupo");
    for (key = 6; key < 90; key += 3)
        in_two_steps(15, key), in_two_steps(15, key + 1);
    short_run(12, 8, 9), short_run(12, 9, 8), short_run(12, 0, 0);
    BOTH(mapping.root.hz, 0), SAYS(72, 0, 10), SAYS(4, 16, 10), run_from_middle(4, 10), short_run(10, 8, 9);
    three_entries(), BOTH(scale.count, 65535), SAYS(72, 0, 10), SAYS(4, 16, 10), run_from_middle(4, 10), short_run(10, 9, 8);
    three_entries(), BOTH(mapping.room, 2), SAYS(72, 10, 10), SAYS(4, 10, 10), run_from_middle(4, 10), short_run(10, 8, 9);
    three_entries(), BOTH(m.map[2], 32768), SAYS(72, 10, 10), SAYS(4, 10, 10), run_from_middle(4, 10);
}

/* The reference key is unmapped: 19 for the pitch of each key that has a degree, and for no degree; what the key itself lacks comes first,
 * and 18 comes after. The range does not limit the reference key. */
static void reference_unmapped(void) {
    above_root(67, -7, 5, 300000), SAYS(60, 0, 19), SAYS(61, 17, 17), SAYS(62, 0, 19), SAYS(67, 17, 17);
    SAYS(4, 16, 16), SAYS(300000, 16, 16), SAYS(210060, 0, 19), RUN_SAYS(4, "orrurrurr");
    BOTH(mapping.octave, 32767), SAYS(210060, 11, 11), SAYS(60, 0, 19);
    /* the reference key's degree would pass 32 bits too */
    above_root(300002, -300001, 0, 91), BOTH(mapping.octave, 32767), SAYS(1, 0, 19), SAYS(2, 17, 17);
    above_root(67, -6, 60, 61), SAYS(60, 0, 0), SAYS(67, 16, 16), RUN_SAYS(59, "opooooooo"), NEAR(seen.out.hz[1], 2.6629640001910455);
    above_root(67, -7, 60, 61), SAYS(60, 0, 19), SAYS(67, 16, 16), RUN_SAYS(59, "orooooooo");
}

/* Numbers that pass 32 bits: of the key, its distance and its degree; then of the reference key. Pitches beyond reach. */
static void far_from_middle(void) {
    above_root(67, 0, 5, 300000), BOTH(mapping.octave, 32767), SAYS(210067, 11, 11), SAYS(67, 0, 0), SAYS(210068, 17, 17);
    above_root(300000, -300000, 0, 91), BOTH(mapping.octave, 32767), SAYS(0, 0, 11), SAYS(1, 17, 17), SAYS(91, 16, 16);
    RUN_SAYS(0, "fuffuffuf");
    above_root(67, INT32_MIN, 5, 91), BOTH(mapping.octave, 2), SAYS(67, 11, 11), SAYS(65, 0, 11), SAYS(66, 17, 17), SAYS(4, 16, 16);
    degree_from_middle(65), SAME(seen.out.degree, 1431655765);
    BOTH(mapping.count, 0), SAYS(66, 0, 11), SAYS(67, 11, 11), degree_from_middle(66), SAME(seen.out.degree, INT32_MAX);
    above_root(67, -6, 5, 300000), BOTH(mapping.count, 0), SAYS(200000, 0, 18), SAYS(61, 0, 0);
    run_from_middle(200000, 0), SAME(seen.out.numbers[0], 18u), SAME(seen.out.numbers[8], 18u);
    /* the reference key's own ratio is beyond reach */
    above_root(200000, -199939, 5, 91), BOTH(mapping.count, 0), SAYS(61, 0, 18), SAYS(90, 0, 18), SAYS(91, 16, 16);
}

/* The middle key is the exact sum, above and below all keys that there are. */
static void outside_keys(void) {
    above_root(INT32_MAX, 6, 5, INT32_MAX), degree_from_middle(2147483646), SAME(seen.out.degree, -18);
    pitch_from_middle(2147483646), NEAR(seen.out.x, 23.36981797389264), SAYS(INT32_MAX, 16, 16);
    RUN_SAYS(2147483640, "ppuppupof");
    above_root(INT32_MIN, -6, INT32_MIN, 91), degree_from_middle(INT32_MIN), SAME(seen.out.degree, 15);
    pitch_from_middle(INT32_MIN), NEAR(seen.out.x, 300.5), SAYS(INT32_MIN + 1, 17, 17), SAYS(INT32_MIN + 2, 0, 0);
    above_root(INT32_MAX, INT32_MAX, INT32_MIN, INT32_MAX), SAYS(2147483646, 17, 17), SAYS(2147483645, 11, 11), SAYS(INT32_MIN, 11, 11);
}

/* How many keys have another degree, or another pitch, than in the old counting. */
static void differ(int degrees, int pitches, int line) {
    int32_t key;
    uint32_t number;
    int32_t degree;
    double hz;
    for (key = 4; key <= 91; key++) {
        degree_of(key), number = said.number, degree = seen.out.degree;
        degree_from_middle(key), degrees -= number != said.number || degree != seen.out.degree;
        pitch_of(key), number = said.number, hz = seen.out.x;
        pitch_from_middle(key), pitches -= number != said.number || memcmp(&hz, &seen.out.x, sizeof hz) != 0;
    }
    check(degrees == 0, "so many keys have another degree", line);
    check(pitches == 0, "so many keys have another pitch", line);
}

#define DIFFER(degrees, pitches) differ((degrees), (pitches), __LINE__)

/* With the offset 0 all degrees are the same, and all pitches where besides the first entry is 0 or there are none. */
static void both_countings(void) {
    three_entries(), BOTH(mapping.root.offset, 0), BOTH(m.map[0], 0), DIFFER(0, 0);
    BOTH(mapping.count, 0), BOTH(m.map[0], 1), DIFFER(0, 0);
    three_entries(), BOTH(mapping.root.offset, 0), DIFFER(0, 57), BOTH(m.map[0], TELBIJAN_UNMAPPED), DIFFER(0, 29);
    three_entries(), DIFFER(57, 57), BOTH(mapping.count, 0), DIFFER(86, 86);
}

/* A mapping lent with its last key below its first: no key is in its range. It is written as any other, and no read takes that text. */
static void backwards(void) {
    const char *text = "4\n91\n4\n61\n67\n300.500\n7\n1\nx\n3\n6\n";
    int32_t key;
    filled(SCALE, 5, 4), BOTH(mapping.start, 91), BOTH(mapping.end, 5);
    for (key = 4; key <= 91; key++)
        degree_of(key), SAID(16, 0), pitch_of(key), SAID(16, 0), SAYS(key, 16, 16);
    run_from_middle(4, 0), SAME(seen.out.numbers[0], 16u), SAME(seen.out.numbers[8], 16u);
    run_of_keys(4, 0), SAME(seen.out.numbers[0], 16u), SAME(seen.out.numbers[1], 16u);
    run_of_keys(83, 0), SAME(seen.out.numbers[7], 16u), SAME(seen.out.numbers[8], 16u);
    export_mapping(strlen(text)), SAID(0, 0), SAME(seen.out.written, strlen(text)), SAME(memcmp(seen.out.text, text, strlen(text)), 0);
    read_mapping(text, 4), SAID(25, 3);
}

/* A count that is no count of the columns, and a pitch that is none. */
static void unusable(void) {
    filled(SCALE, 5, 4), BOTH(scale.count, 65535), scale_lookups(10), searches(10), run_of_keys(4, 10), export_scale(ROOM_OF_TEXT), SAID(10, 0);
    filled(SCALE, 5, 4), BOTH(mapping.root.hz, 0), searches_by_pitch(10), run_of_keys(4, 10), export_mapping(ROOM_OF_TEXT), SAID(10, 0);
}

/* ---- Constant tables: each pointer and number in its place, and looked at as any others are. */

static void constants(void) {
    const telbijan_scale *s = &ours.scale;
    const telbijan_mapping *m = &ours.mapping;
    filled(SCALE, 5, 4);
    {
        const telbijan_scale scale = telbijan_scale_lent(s->kind, s->cents, s->numer, s->denom, s->place, s->ratio, s->wraps, 5, 4);
        const telbijan_mapping mapping = telbijan_mapping_lent(m->map, 4, 3, 5, 91, m->root, 7);
        SAME(same_scale(scale, ours.scale), true), SAME(scale.room, 5u), SAME(scale.count, 4);
        SAME(mapping.map, m->map), SAME(mapping.room, 4u), SAME(mapping.count, 3), SAME(mapping.start, 5), SAME(mapping.end, 91);
        SAME(mapping.root.reference, 67), SAME(mapping.root.hz, 300.5), SAME(mapping.root.offset, -6), SAME(mapping.octave, 7);
        SAME(telbijan_scale_period(&scale, &ours.out.x).number, 0u);
        SAME(telbijan_mapping_degree_of(&mapping, 67, &ours.out.degree).number, 0u), SAME(ours.out.degree, 1);
        SAME(telbijan_mapping_degree_from_middle(&mapping, 67, &ours.out.degree).number, 0u), SAME(ours.out.degree, 15);
        SAME(telbijan_tuning_pitch_from_middle(&scale, &mapping, 67, &ours.out.x).number, 0u), NEAR(ours.out.x, 300.5);
        SAME(telbijan_tuning_pitches_from_middle(&scale, &mapping, 66, 2, ours.out.hz, ours.out.numbers).number, 0u);
        SAME(ours.out.numbers[1], 0u), NEAR(ours.out.hz[1], 300.5);
    }
}

/* ---- The header's own names. */

static const struct named {
    uint32_t name, number;
    const char *reason;
} NAMED[] = {
    {TELBIJAN_ACCEPTED, 0, "accepted"},
    {TELBIJAN_NOT_UTF8, 1, "a line is not UTF-8"},
    {TELBIJAN_LINE_MISSING, 2, "a required line is missing"},
    {TELBIJAN_INT_VALUE, 3, "not an integer of its type"},
    {TELBIJAN_CENTS_VALUE, 4, "not a cents value"},
    {TELBIJAN_NUMER, 5, "not a numerator"},
    {TELBIJAN_DENOM, 6, "not a denominator"},
    {TELBIJAN_FLOAT_VALUE, 7, "not a decimal"},
    {TELBIJAN_KEYBOARD_MAPPING, 8, "not a mapping entry"},
    {TELBIJAN_UNSUPPORTED_NUMERAL, 9, "a numeral with an exponent, a word, or over 18 digits"},
    {TELBIJAN_UNUSABLE, 10, "a value, a state or a lent table that cannot be used"},
    {TELBIJAN_OVERFLOW, 11, "a number leaves its type"},
    {TELBIJAN_NO_ROOM, 12, "what was lent is too small"},
    {TELBIJAN_TOO_LARGE, 13, "over 65,535 entries"},
    {TELBIJAN_INCONSISTENT_COUNT, 14, "the text has another count of notes or entries than it says"},
    {TELBIJAN_FORMAL_OCTAVE_MISSING, 15, "a builder with entries and no formal octave"},
    {TELBIJAN_KEY_OUT_OF_RANGE, 16, "the key is outside the range"},
    {TELBIJAN_UNMAPPED_KEY, 17, "the key is unmapped"},
    {TELBIJAN_BEYOND_REACH, 18, "beyond reach: a period of 1.0, 0 divisions, or a computed pitch or ratio outside its range"},
    {TELBIJAN_REFERENCE_UNMAPPED, 19, "the reference key is unmapped, counted from the middle key"},
    {TELBIJAN_BACKWARDS_RANGE, 25, "the last key is below the first"},
    {TELBIJAN_NO_FRACTION, 29, "no fraction: the odd limit is 0"},
};

/* Each number has its name and its sentence, and there are no others: a number between has that of no number. */
static void numbers(void) {
    uint32_t j, known = 0;
    for (j = 0; j < sizeof NAMED / sizeof NAMED[0]; j++)
        SAME(NAMED[j].name, NAMED[j].number), TEXT(telbijan_reason(NAMED[j].number), NAMED[j].reason);
    for (j = 0; j < 1000; j++)
        known += strcmp(telbijan_reason(j), "no number of this library") != 0;
    SAME(known, sizeof NAMED / sizeof NAMED[0]);
}

static void names(void) {
    SAME(TELBIJAN_CENTS, 0), SAME(TELBIJAN_FRACTION, 1), SAME(TELBIJAN_WHOLE, 2), SAME(TELBIJAN_UNMAPPED, INT32_MIN);
    SAME(TELBIJAN_KBM_ROOM(0), 73u), SAME(TELBIJAN_KBM_ROOM(65535), 73u + 7u * 65535u);
    SAME(TELBIJAN_SCL_ROOM(0, 0), 7u), SAME(TELBIJAN_SCL_ROOM(6, 65535), 6u + 7u + 22u * 65535u);
    SAME(TELBIJAN_NUMBER(UINT64_C(0x123456789a08)), 8u), SAME(TELBIJAN_DETAIL(UINT64_C(0x123456789a08)), UINT64_C(0x123456789a));
    SAME(telbijan_refusal_of(UINT64_C(0x123456789a08)).number, 8u), SAME(telbijan_refusal_of(UINT64_C(0x123456789a08)).detail, UINT64_C(0x123456789a));
    SAME(telbijan_is_accepted(telbijan_refusal_of(0)), true), SAME(telbijan_is_accepted(telbijan_refusal_of(18)), false);
}

int main(void) {
    readers();
    generators();
    exports();
    no_bytes();
    scale_builders();
    mapping_builders();
    backwards_builders();
    lookups(SCALE, 5, 4, 0, 0);
    lookups(FRACTION, 5, 4, 0, 0);
    lookups(SCALE, PLACES, PLACES, 0, 0);
    lookups(SCALE, 4, 4, 10, 10);
    lookups(SCALE, 5, 3, 0, 10);
    ends_of_runs();
    from_middle();
    reference_unmapped();
    far_from_middle();
    outside_keys();
    both_countings();
    backwards();
    unusable();
    constants();
    numbers();
    names();
    return faults != 0;
}

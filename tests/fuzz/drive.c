/* The stories of fuzz.c without a fuzzer: each file that is named, under every story and in memory of many sizes, then so many inputs from
 * random bytes, from bytes that files are made of, from mappings whose keys are often swapped and from tunings that often sound, always
 * the same ones. It fails where of a thousand or more no read or no build was refused for its range, or no mapping was lent with such a
 * one; and where no key counted from the middle key had a pitch, or none was refused since the reference key is unmapped, alone or in a
 * run. Where none are asked for it says what of the files was met. tools/example builds and runs it. */
#include <inttypes.h>
#include <stdbool.h>
#include <stdint.h>
#include <stdio.h>
#include <stdlib.h>
#include <string.h>

int LLVMFuzzerTestOneInput(const uint8_t *data, size_t size);
extern uint64_t backwards_met[3], middles_met[3], mappings_met, mapping_said, scales_met;

/* How many bytes each story of fuzz.c draws before the text, where it has one: the story and the side of its pages; then the places of
 * a table, or of the columns and which of them has others; for a tuning, whether there is a text, and how long. */
enum { LONGEST = 60000, MAPPING_TEXT = 1, TUNING = 5, STORIES = 9 };
static const size_t HEADS[STORIES] = {4, 3, 4, 4, 4, 6, 6, 4, 4};

static uint8_t bytes[LONGEST + 6];
static uint64_t state;

/* SplitMix64. */
static uint64_t next(void) {
    uint64_t z = (state += 0x9e3779b97f4a7c15u);
    z = (z ^ (z >> 30)) * 0xbf58476d1ce4e5b9u;
    z = (z ^ (z >> 27)) * 0x94d049bb133111ebu;
    return z ^ (z >> 31);
}

/* A file after the bytes that choose the story, the side of its pages and the sizes: 50 of them for each story. */
static int try_file(const char *name) {
    static uint8_t text[LONGEST];
    FILE *file = fopen(name, "rb");
    if (!file)
        return 0;
    size_t size = fread(text, 1, LONGEST, file);
    fclose(file);
    for (uint8_t story = 0; story < STORIES; story++)
        for (int k = 0; k < 50; k++) {
            bytes[0] = story;
            for (size_t j = 1; j < HEADS[story]; j++)
                bytes[j] = (uint8_t)next();
            memcpy(bytes + HEADS[story], text, size);
            LLVMFuzzerTestOneInput(bytes, HEADS[story] + size);
        }
    return 1;
}

/* Bytes at random, or mostly those that texts are made of. */
static void try_random(void) {
    static const char MARKS[] = "0123456789./\nx!\r ";
    size_t size = next() % 400;
    int plain = next() % 2 == 0;
    for (size_t j = 0; j < size; j++)
        bytes[j] = plain && j >= HEADS[bytes[0] % STORIES] && next() % 3 ? (uint8_t)MARKS[next() % (sizeof MARKS - 1)] : (uint8_t)next();
    LLVMFuzzerTestOneInput(bytes, size);
}

/* So many lines that say nothing, and one with this number, behind so many bytes; how many there are then. */
static size_t add_line(size_t at, uint64_t idle, int64_t number) {
    static const char *const IDLE[] = {"! key\n", "\n", " \t\r\n"};
    for (; idle > 0; idle--)
        at += (size_t)snprintf((char *)bytes + at, LONGEST - at, "%s", IDLE[next() % 3]);
    return at + (size_t)snprintf((char *)bytes + at, LONGEST - at, "%" PRId64 "\n", number);
}

static uint64_t at_line(uint64_t number, uint64_t line) {
    return line << 8 | number;
}

/* What is said of a mapping with these keys and a table of so many places, where each of its first four lines is the last of so many. */
static uint64_t keys_say(int64_t first, int64_t last, uint64_t lines, int places) {
    if (first < INT32_MIN || first > INT32_MAX)
        return at_line(3, 2 * lines);
    if (last < INT32_MIN || last > INT32_MAX)
        return at_line(3, 3 * lines);
    if (last == INT32_MAX)
        return at_line(11, 3 * lines);
    if (last < first)
        return at_line(25, 3 * lines);
    return places == 0 ? at_line(12, 4 * lines + 4) : 0;
}

/* A mapping that is read, with its first and its last key close to each other, about 0, 60, 127 or an end of 32 bits; before its first
 * lines some that say nothing, at times hundreds. */
static int try_keys(void) {
    static const int64_t NEAR[] = {0, 60, 127, INT32_MIN, INT32_MAX};
    int64_t first = NEAR[next() % 5] + (int64_t)(next() % 5) - 2, last = first + (int64_t)(next() % 5) - 2;
    uint64_t idle = next() % 8 ? next() % 3 : next() % 400;
    bytes[0] = MAPPING_TEXT, bytes[1] = (uint8_t)next(), bytes[2] = (uint8_t)(next() % 200);
    size_t size = add_line(add_line(add_line(add_line(HEADS[MAPPING_TEXT], idle, 1), idle, first), idle, last), idle, 60);
    size += (size_t)snprintf((char *)bytes + size, LONGEST - size, "60\n440.0\n1\n0\n");
    LLVMFuzzerTestOneInput(bytes, size);
    if (mapping_said == keys_say(first, last, idle + 1, bytes[2] % 20))
        return 1;
    fprintf(stderr, "drive: keys %" PRId64 " and %" PRId64 ", %" PRIu64 " lines before each: ", first, last, idle);
    fprintf(stderr, "%" PRIu64 " at line %" PRIu64 "\n", mapping_said & 0xff, mapping_said >> 8);
    return 0;
}

/* A scale, and a mapping of few entries that can be used, above a root whose offset is often at an end of 32 bits; octave, keys and the
 * rest are anything. */
static void try_tuning(void) {
    static const char TEXT[] = "d\n4\n9/8\n350.5\n3\n2/1\n";
    size_t size = HEADS[TUNING] + sizeof TEXT - 1, entries = next() % 4;
    bytes[0] = TUNING, bytes[1] = (uint8_t)next(), bytes[2] = (uint8_t)(next() % 200);
    bytes[3] = 255, bytes[4] = 1, bytes[5] = sizeof TEXT - 1;
    memcpy(bytes + HEADS[TUNING], TEXT, sizeof TEXT - 1);
    /* nothing is poked, and the counts are right */
    bytes[size++] = 0, bytes[size++] = 0, bytes[size++] = (uint8_t)entries;
    for (; entries > 0; entries--)
        bytes[size++] = (uint8_t)(next() % 252);
    bytes[size++] = 0;
    /* keys from below 0 to 127, the reference key, a pitch, the offset */
    bytes[size++] = (uint8_t)(next() % 70), bytes[size++] = 1, bytes[size++] = (uint8_t)(next() % 200);
    for (int k = 0; k < 4; k++)
        bytes[size++] = k == 0 ? 3 : (uint8_t)next();
    bytes[size++] = (uint8_t)(next() % 4 ? next() : 248 + next() % 8);
    for (int k = 0; k < 60; k++)
        bytes[size++] = (uint8_t)next();
    LLVMFuzzerTestOneInput(bytes, size);
}

static bool all_met(const uint64_t met[3]) {
    return met[0] > 0 && met[1] > 0 && met[2] > 0;
}

static void say_met(FILE *out) {
    fprintf(out, "drive: %" PRIu64 " scales read, %" PRIu64 " mappings read, ", scales_met, mappings_met);
    fprintf(out, "%" PRIu64 " mappings backwards, %" PRIu64 " builds backwards, ", backwards_met[0], backwards_met[1]);
    fprintf(out, "%" PRIu64 " lent backwards, ", backwards_met[2]);
    fprintf(out, "%" PRIu64 " pitches from the middle key, %" PRIu64 " refused for the reference key, ", middles_met[0], middles_met[1]);
    fprintf(out, "%" PRIu64 " so in runs\n", middles_met[2]);
}

int main(int argc, char **argv) {
    long inputs = argc > 1 ? atol(argv[1]) : 0;
    for (int i = 2; i < argc; i++)
        if (!try_file(argv[i])) {
            fprintf(stderr, "drive: cannot open %s\n", argv[i]);
            return 2;
        }
    if (inputs == 0)
        say_met(stdout);
    for (long i = 0; i < inputs; i++) {
        try_random();
        if (i % 4 == 0 && !try_keys())
            return 1;
        if (i % 4 == 1)
            try_tuning();
    }
    if (inputs >= 1000 && !(all_met(backwards_met) && all_met(middles_met))) {
        say_met(stderr);
        return 1;
    }
    return 0;
}

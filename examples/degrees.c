/* Reads a mapping file and prints the degrees of some keys.
 *
 * Build:  tools/archive target/native/libtelbijan.a && cc -Iinclude examples/degrees.c target/native/libtelbijan.a -o target/degrees
 * Run:    target/degrees examples/white_keys.kbm
 */
#include <errno.h>
#include <inttypes.h>
#include <stdio.h>
#include <string.h>

#include "telbijan.h"

#define PLACES 65535
#define LONGEST (1 << 20)

static char text[LONGEST];
static int32_t map[PLACES];

/* Reads the whole file into `text`; false, with a line on standard error, where it cannot be read or is longer. */
static bool read_file(const char *name, size_t *length) {
    FILE *file = fopen(name, "rb");
    if (!file) {
        fprintf(stderr, "degrees: %s: %s\n", name, strerror(errno));
        return false;
    }
    *length = fread(text, 1, LONGEST, file);
    bool whole = *length < LONGEST || fgetc(file) == EOF;
    bool good = !ferror(file);
    fclose(file);
    if (!good)
        fprintf(stderr, "degrees: %s: cannot be read\n", name);
    else if (!whole)
        fprintf(stderr, "degrees: %s: longer than %d bytes\n", name, LONGEST);
    return good && whole;
}

/* Where a refusal's detail is a line, it says so: for number 2 it is which required line is missing, and it may be 0. */
static void report(uint32_t number, uint64_t detail) {
    const char *what = number == TELBIJAN_LINE_MISSING ? "required line" : "line";
    if (detail == 0)
        printf("refused: number %" PRIu32 "\n", number);
    else
        printf("refused: number %" PRIu32 ", %s %" PRIu64 "\n", number, what, detail);
}

/* What the program ends with: 2, with a line on standard error, where standard output could not be written. */
static int finish(int status) {
    if (fflush(stdout) == 0 && !ferror(stdout))
        return status;
    fprintf(stderr, "degrees: standard output cannot be written\n");
    return 2;
}

int main(int argc, char **argv) {
    if (argc != 2) {
        fprintf(stderr, "usage: degrees FILE.kbm\n");
        return 2;
    }
    size_t length;
    if (!read_file(argv[1], &length))
        return 2;

    uint16_t count;
    int32_t start, end, reference, offset;
    double hz;
    int16_t octave;
    uint64_t result = telbijan_read_kbm((const uint8_t *)text, length, map, PLACES, &count, &start, &end, &reference, &hz, &offset, &octave);
    if (result != TELBIJAN_ACCEPTED) {
        report(TELBIJAN_NUMBER(result), TELBIJAN_DETAIL(result));
        return finish(1);
    }
    for (int32_t key = 60; key <= 72; key++) {
        int32_t degree;
        result = telbijan_scale_degree_of(map, PLACES, count, start, end, reference, hz, offset, octave, key, &degree);
        if (result == TELBIJAN_ACCEPTED)
            printf("key %" PRId32 ": degree %" PRId32 "\n", key, degree);
        else
            printf("key %" PRId32 ": none (%" PRIu32 ")\n", key, TELBIJAN_NUMBER(result));
    }
    return finish(0);
}

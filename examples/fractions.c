/* Prints, for each item of a scale, two fractions that it comes near within an odd limit, and how many cents it lies above each. In
 * the column `walk` stands that of nearest_fraction, which takes the octaves off, walks, and may stop before the nearest one; in the
 * column `best` that of best_fraction, the nearest of all there are, which leaves the octaves where they are.
 *
 * Build:  tools/archive target/native/libtelbijan.a && cc -Iinclude examples/fractions.c target/native/libtelbijan.a -o target/fractions
 * Run:    target/fractions examples/choir.scl 9
 */
#include <errno.h>
#include <inttypes.h>
#include <stdio.h>
#include <stdlib.h>
#include <string.h>

#include "telbijan.h"

#define PLACES 1024
#define LONGEST 65536
#define USUAL 9 /* the odd limit where none is given */

static char text[LONGEST + 1];
static uint8_t kind[PLACES];
static double cents[PLACES], ratio[PLACES];
static uint32_t numer[PLACES], denom[PLACES], place[PLACES];
static int32_t wraps[PLACES];

/* Reads the whole file into `text`; false, with a line on standard error, where it cannot be read or is longer. */
static bool read_file(const char *name, size_t *length) {
    FILE *file = fopen(name, "rb");
    if (!file) {
        fprintf(stderr, "fractions: %s: %s\n", name, strerror(errno));
        return false;
    }
    *length = fread(text, 1, sizeof text, file);
    bool good = !ferror(file), whole = *length <= LONGEST;
    fclose(file);
    if (!good)
        fprintf(stderr, "fractions: %s: cannot be read\n", name);
    else if (!whole)
        fprintf(stderr, "fractions: %s: longer than %d bytes\n", name, LONGEST);
    return good && whole;
}

/* An odd limit: digits alone, up to 65535. */
static bool read_limit(const char *word, uint16_t *limit) {
    size_t digits = strspn(word, "0123456789");
    unsigned long number = strtoul(word, NULL, 10);
    *limit = (uint16_t)number;
    return digits > 0 && word[digits] == '\0' && number <= UINT16_MAX;
}

/* Says what was refused: the file, the line where there is one, and why. */
static bool accepted(const char *name, telbijan_refusal said) {
    if (telbijan_is_accepted(said))
        return true;
    if (said.detail != 0 && said.number != TELBIJAN_LINE_MISSING)
        printf("%s:%" PRIu64 ": %s\n", name, said.detail, telbijan_reason(said.number));
    else
        printf("%s: %s\n", name, telbijan_reason(said.number));
    return false;
}

/* An item as its file has it. */
static void print_item(const telbijan_scale *scale, uint32_t item) {
    char words[32];
    if (scale->kind[item] == TELBIJAN_CENTS)
        snprintf(words, sizeof words, "%.3f cents", scale->cents[item]);
    else if (scale->kind[item] == TELBIJAN_FRACTION)
        snprintf(words, sizeof words, "%" PRIu32 "/%" PRIu32, scale->numer[item], scale->denom[item]);
    else
        snprintf(words, sizeof words, "%" PRIu32, scale->numer[item]);
    printf("%4" PRIu32 "  %-16s", item, words);
}

/* A fraction, and how many cents the item lies above it: none where the deviation is infinite, +0.000 where they round to zero. */
static void print_fraction(uint16_t n, uint16_t d, double deviation) {
    char words[16];
    double above = 0;
    snprintf(words, sizeof words, "%" PRIu16 "/%" PRIu16, n, d);
    printf("  %11s", words);
    if (telbijan_ratio_as_cents(deviation, &above) == TELBIJAN_ACCEPTED)
        printf(" %+10.3f", above > -0.0005 && above < 0.0005 ? 0.0 : above);
    else
        printf(" %10s", "none");
}

/* What the walk finds, with the octaves that it took off. */
static void print_walk(double value, uint16_t limit) {
    uint16_t n = 0, d = 0;
    double deviation = 0;
    int32_t octaves = 0;
    uint64_t result = telbijan_ratio_nearest_fraction(value, limit, &n, &d, &deviation, &octaves);
    if (result != TELBIJAN_ACCEPTED) {
        printf("  %s", telbijan_reason(TELBIJAN_NUMBER(result)));
        return;
    }
    print_fraction(n, d, deviation);
    printf(" %+8" PRId32, octaves);
}

/* The nearest of all. */
static void print_best(double value, uint16_t limit) {
    uint16_t n = 0, d = 0;
    double deviation = 0;
    uint64_t result = telbijan_ratio_best_fraction(value, limit, &n, &d, &deviation);
    if (result == TELBIJAN_ACCEPTED)
        print_fraction(n, d, deviation);
    else
        printf("  %s", telbijan_reason(TELBIJAN_NUMBER(result)));
    printf("\n");
}

static void print_items(const telbijan_scale *scale, uint16_t limit) {
    printf("item  %-16s  %11s %10s %8s  %11s %10s\n", "", "walk", "cents off", "octaves", "best", "cents off");
    for (uint32_t item = 1; item <= scale->count; item++) {
        double value = 0;
        uint64_t result = telbijan_item_as_ratio(scale->kind[item], scale->cents[item], scale->numer[item], scale->denom[item], &value);
        print_item(scale, item);
        if (result == TELBIJAN_ACCEPTED) {
            print_walk(value, limit);
            print_best(value, limit);
        } else {
            printf("  %s\n", telbijan_reason(TELBIJAN_NUMBER(result)));
        }
    }
}

/* What the program ends with: 2, with a line on standard error, where standard output could not be written. */
static int finish(int status) {
    if (fflush(stdout) == 0 && !ferror(stdout))
        return status;
    fprintf(stderr, "fractions: standard output cannot be written\n");
    return 2;
}

int main(int argc, char **argv) {
    telbijan_scale scale = {kind, cents, numer, denom, place, ratio, wraps, PLACES, 0};
    telbijan_span description;
    uint16_t limit = USUAL;
    size_t length;
    if (argc < 2 || argc > 3 || (argc == 3 && !read_limit(argv[2], &limit))) {
        fprintf(stderr, "usage: fractions FILE.scl [ODD-LIMIT]\n");
        return 2;
    }
    if (!read_file(argv[1], &length))
        return 2;
    if (!accepted(argv[1], telbijan_scale_read(&scale, text, length, &description)))
        return finish(1);
    printf("%.*s, odd limit %" PRIu16 "\n", (int)(description.end - description.start), text + description.start, limit);
    print_items(&scale, limit);
    return finish(0);
}

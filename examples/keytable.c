/* Prints, for each key of a mapping, its degree, its pitch in Hz and its cents from the reference pitch, or why it has none: what the program
 * `keytable` prints, with its limits and its words.
 *
 * Build:  ./install target/telbijan
 *         cc examples/keytable.c -Itarget/telbijan/include -Ltarget/telbijan/lib -ltelbijan -o target/keytable
 * Run:    target/keytable examples/just.scl examples/linear.kbm
 *         target/keytable examples/just.scl examples/harp.kbm middle
 */
#include <inttypes.h>
#include <stdio.h>
#include <string.h>

#include "telbijan.h"

#define PLACES 8192
#define LONGEST 65536
#define MOST 1024                /* keys that are shown */
#define LARGEST 9007199254740992 /* 2^53, the largest number that is written with decimals */

static char text[LONGEST + 1];
static uint8_t kind[PLACES];
static double cents[PLACES], ratio[PLACES], hz[MOST];
static uint32_t numer[PLACES], denom[PLACES], place[PLACES], numbers[MOST];
static int32_t wraps[PLACES], map[PLACES];

static bool read_file(const char *name, size_t *length) {
    FILE *file = fopen(name, "rb");
    if (!file) {
        fprintf(stderr, "%s: cannot be opened\n", name);
        return false;
    }
    *length = fread(text, 1, sizeof text, file);
    bool good = !ferror(file), whole = *length <= LONGEST;
    fclose(file);
    if (!good)
        fprintf(stderr, "%s: cannot be read\n", name);
    else if (!whole)
        fprintf(stderr, "%s: longer than %d bytes\n", name, LONGEST);
    return good && whole;
}

/* The sentence of a number; that of 12 says how much room there is. */
static const char *reason(uint32_t number) {
    return number == TELBIJAN_NO_ROOM ? "more than 8191 items or 8192 entries" : telbijan_reason(number);
}

/* The required lines of both files. */
static const char *const scale_lines[] = {"the description", "the number of notes"};
static const char *const mapping_lines[] = {"the size", "the first key", "the last key", "the middle key", "the reference key", "the reference pitch", "the formal octave"};

static bool accepted(const char *name, const char *const *required, telbijan_refusal said) {
    if (said.number == TELBIJAN_LINE_MISSING)
        fprintf(stderr, "%s: %s is missing\n", name, required[said.detail - 1]);
    else if (!telbijan_is_accepted(said) && said.detail != 0)
        fprintf(stderr, "%s:%" PRIu64 ": %s\n", name, said.detail, reason(said.number));
    else if (!telbijan_is_accepted(said))
        fprintf(stderr, "%s: %s\n", name, reason(said.number));
    return telbijan_is_accepted(said);
}

/* A number with three decimals, or a word for one above 2^53. */
static void print_three(double x, const char *end) {
    if (x >= -LARGEST && x <= LARGEST)
        printf("%.3f%s", x, end);
    else
        printf("above-2^53%s", end);
}

/* How far a pitch lies above the reference pitch, or why that cannot be said. */
static void print_cents(double reference, double pitch) {
    double above = 1, size = 0;
    uint32_t number = TELBIJAN_NUMBER(telbijan_ratio_between_pitches(reference, pitch, &above));
    if (number == TELBIJAN_ACCEPTED)
        number = TELBIJAN_NUMBER(telbijan_ratio_as_cents(above, &size));
    if (number == TELBIJAN_ACCEPTED)
        print_three(size, "\n");
    else
        printf("%s\n", reason(number));
}

static void print_key(const telbijan_mapping *mapping, bool middle, int32_t key, double pitch, uint32_t number) {
    int32_t degree = 0;
    if (number == TELBIJAN_ACCEPTED)
        number = (middle ? telbijan_mapping_degree_from_middle : telbijan_mapping_degree_of)(mapping, key, &degree).number;
    if (number != TELBIJAN_ACCEPTED) {
        printf("%" PRId32 " %s\n", key, number == TELBIJAN_UNMAPPED_KEY ? "unmapped" : reason(number));
        return;
    }
    printf("%" PRId32 " %" PRId32 " ", key, degree);
    print_three(pitch, " ");
    print_cents(mapping->root.hz, pitch);
}

/* How many keys are left out, if any. */
static void print_left(int64_t left) {
    if (left > INT32_MAX)
        printf("over %" PRId32 " keys more\n", INT32_MAX);
    else if (left > 0)
        printf("%" PRId64 " keys more\n", left);
}

int main(int argc, char **argv) {
    telbijan_scale scale = {kind, cents, numer, denom, place, ratio, wraps, PLACES, 0};
    telbijan_mapping mapping = {map, PLACES, 0, 0, 0, {0, 0, 0}, 0};
    telbijan_span description;
    size_t length;
    bool middle = argc == 4 && strcmp(argv[3], "middle") == 0; /* counted from the middle key, as Scala does */
    if (argc != 3 && !middle && !(argc == 4 && strcmp(argv[3], "reference") == 0)) {
        fprintf(stderr, "usage: keytable SCL KBM [reference | middle]\n");
        return 1;
    }
    if (!read_file(argv[1], &length) || !accepted(argv[1], scale_lines, telbijan_scale_read(&scale, text, length, &description)))
        return 1;
    if (!read_file(argv[2], &length) || !accepted(argv[2], mapping_lines, telbijan_mapping_read(&mapping, text, length)))
        return 1;
    int64_t keys = (int64_t)mapping.end - mapping.start; /* at least one */
    uint32_t shown = keys < MOST ? (uint32_t)keys : MOST;
    telbijan_refusal said = (middle ? telbijan_tuning_pitches_from_middle : telbijan_tuning_pitches_of)(&scale, &mapping, mapping.start,
        shown, hz, numbers);
    if (!accepted(argv[2], mapping_lines, said))
        return 1;
    printf("key degree Hz cents, counted from the %s key\n", middle ? "middle" : "reference");
    for (uint32_t k = 0; k < shown; k++)
        print_key(&mapping, middle, (int32_t)(mapping.start + (int64_t)k), hz[k], numbers[k]);
    print_left(keys - MOST);
    if (fflush(stdout) != 0 || ferror(stdout)) {
        fprintf(stderr, "keytable: standard output cannot be written\n");
        return 1;
    }
    return 0;
}

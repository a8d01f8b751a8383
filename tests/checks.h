/* What the tests in C say where something is not as it should be: the line, and what was asked there. */
#include <math.h>
#include <stdio.h>
#include <string.h>

#include "telbijan.h"

static int faults;

static void check(bool good, const char *what, int line) {
    if (!good) {
        printf("line %d: %s\n", line, what);
        faults++;
    }
}

static bool near(double x, double y) {
    return fabs(x - y) < 1e-9 * (1 + fabs(y));
}

#define SAME(a, b) check((a) == (b), #a " == " #b, __LINE__)
#define NEAR(x, y) check(near((x), (y)), #x " near " #y, __LINE__)
#define TEXT(a, b) check(strcmp((a), (b)) == 0, #a " is " #b, __LINE__)

/* Lent memory. Each lent part stands between two pages that no one may touch, flush against one of them, so that a step
 * outside it ends the program; and a copy of it says what a call changed. */
#ifndef FUZZ_MEMORY_H
#define FUZZ_MEMORY_H

#include <stdbool.h>
#include <stdint.h>
#include <stdio.h>
#include <stdlib.h>
#include <string.h>
#include <sys/mman.h>
#include <unistd.h>

/* The parts: a text, a scale's seven columns, a mapping's table, bytes to write to, a run's pitches and numbers, values behind pointers.
 * The second memory is for the same call on structs. */
enum { TEXT, KIND, CENTS, NUMER, DENOM, PLACE, RATIO, WRAPS, MAP, BYTES, PITCHES, NUMBERS, VALUE, LAST_VALUE = VALUE + 7, PARTS };
static const size_t SIZES[PARTS] = {1, 1, 8, 4, 4, 4, 8, 4, 4, 1, 8, 4};

#define SPACE ((size_t)1 << 20)
#define MARGIN 64

/* Between `low` and `low + SPACE`, `bytes` are lent from `at` on. An accepted call may change those from `from` up to `to`. */
typedef struct part {
    uint8_t *low, *at, *copy;
    size_t bytes, from, to;
} part;

static part memory[2][PARTS];

#define LINE(line) #line
#define LINE_OF(line) LINE(line)
#define HERE __FILE__ ":" LINE_OF(__LINE__)

static void fail(const char *what, const char *where) {
    fprintf(stderr, "%s: not so: %s\n", where, what);
    abort();
}

#define MUST(what) ((what) ? (void)0 : fail(#what, HERE))

static void set_up(part *p) {
    size_t page = (size_t)sysconf(_SC_PAGESIZE);
    uint8_t *all = (uint8_t *)mmap(NULL, SPACE + 2 * page, PROT_READ | PROT_WRITE, MAP_PRIVATE | MAP_ANONYMOUS, -1, 0);
    MUST(all != MAP_FAILED);
    MUST(mprotect(all, page, PROT_NONE) == 0 && mprotect(all + page + SPACE, page, PROT_NONE) == 0);
    p->low = all + page;
    p->copy = (uint8_t *)malloc(SPACE);
    MUST(p->copy != NULL);
}

/* Nothing is lent. */
static void begin_memory(void) {
    for (int set = 0; set < 2; set++)
        for (int k = 0; k < PARTS; k++) {
            part *p = &memory[set][k];
            if (p->low == NULL)
                set_up(p);
            p->at = NULL;
        }
}

/* What stands around a lent part, as far as it can be seen. */
static size_t before(const part *p) {
    size_t room = (size_t)(p->at - p->low);
    return room < MARGIN ? room : MARGIN;
}

static size_t behind(const part *p) {
    size_t room = (size_t)(p->low + SPACE - p->at) - p->bytes;
    return room < MARGIN ? room : MARGIN;
}

/* So many bytes, flush against the page behind them or against the one before. None may lie in a page that no one may touch. */
static uint8_t *lend(int set, int k, size_t bytes, bool high) {
    part *p = &memory[set][k];
    MUST(bytes <= SPACE);
    p->at = high ? p->low + SPACE - bytes : p->low;
    p->bytes = bytes, p->from = p->to = 0;
    memset(p->at - before(p), 0xA7, before(p));
    memset(p->at + bytes, 0xA7, behind(p));
    return p->at;
}

/* What an accepted call may change of a part: elements from one on, up to another. Said before it is judged. */
static void may_change(int set, int k, size_t size, size_t from, size_t to) {
    memory[set][k].from = from * size, memory[set][k].to = to * size;
}

/* Before a call. */
static void keep(int set) {
    for (int k = 0; k < PARTS; k++)
        if (memory[set][k].at != NULL)
            memcpy(memory[set][k].copy, memory[set][k].at, memory[set][k].bytes);
}

static bool is_margin(const uint8_t *at, size_t bytes) {
    for (size_t i = 0; i < bytes; i++)
        if (at[i] != 0xA7)
            return false;
    return true;
}

/* After a call: a refusal changed nothing; an accepted call changed only what it may. */
static void judge_memory(int set, uint64_t result, const char *where) {
    for (int k = 0; k < PARTS; k++) {
        part *p = &memory[set][k];
        if (p->at == NULL)
            continue;
        size_t from = result == 0 ? p->from : 0, to = result == 0 ? p->to : 0;
        if (from > to || to > p->bytes)
            fail("what an accepted call may change lies in what was lent", where);
        if (memcmp(p->at, p->copy, from) != 0 || memcmp(p->at + to, p->copy + to, p->bytes - to) != 0)
            fail(result == 0 ? "an accepted call changed only what it may" : "a refusal left all as it was", where);
        if (!is_margin(p->at - before(p), before(p)) || !is_margin(p->at + p->bytes, behind(p)))
            fail("what stands around a lent part is as it was", where);
        p->from = p->to = 0;
    }
}

static bool is_usual(uint64_t result) {
    uint64_t number = result & 0xff;
    return result == 0 || (number >= 1 && number <= 18);
}

/* After any call but the best fraction, whose numbers are 10 and 29, the pitch from the middle key, which may say 19, and those below: a
 * refusal has one of the numbers 1 to 18 as well. */
static void judge(int set, uint64_t result, const char *where) {
    if (!is_usual(result))
        fail("a number from 1 to 18", where);
    judge_memory(set, result, where);
}

/* After a read or a build of a mapping, whose range may be backwards: 25 too. */
static void judge_mapping(int set, uint64_t result, const char *where) {
    if (!is_usual(result) && (result & 0xff) != 25)
        fail("a number from 1 to 18, or 25", where);
    judge_memory(set, result, where);
}

/* Both memories hold the same. */
static void alike(int first, int last, const char *where) {
    for (int k = first; k <= last; k++) {
        part *p = &memory[0][k], *q = &memory[1][k];
        if (p->at != NULL && (p->bytes != q->bytes || memcmp(p->at, q->at, p->bytes) != 0))
            fail("the call on structs left the same memory", where);
    }
}

#endif

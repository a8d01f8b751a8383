/* The story of this library: a tuning is in use by one thread while another reloads it. The new files are read into a spare tuning; only
 * where all of it was accepted the two change places. A file that is broken leaves the tuning that sounds as it is, and says why.
 *
 * Build:  ./install target/telbijan
 *         cc -std=c11 -pthread examples/reload.c -Itarget/telbijan/include -Ltarget/telbijan/lib -ltelbijan -o target/reload
 * Run:    target/reload examples/just.scl examples/linear.kbm examples/broken.scl
 */
#include <errno.h>
#include <inttypes.h>
#include <pthread.h>
#include <sched.h>
#include <stdatomic.h>
#include <stdio.h>
#include <string.h>

#include "telbijan.h"

#define PLACES 256
#define KEYS 128

/* A tuning with its own memory, and the pitches of all keys: what a player asks for. */
typedef struct tuning {
    uint8_t kind[PLACES];
    double cents[PLACES];
    uint32_t numer[PLACES], denom[PLACES], place[PLACES];
    double ratio[PLACES];
    int32_t wraps[PLACES], map[PLACES];
    telbijan_scale scale;
    telbijan_mapping mapping;
    double hz[KEYS];
    uint32_t numbers[KEYS];
} tuning;

static tuning memory[2];
static _Atomic(tuning *) current; /* the one that sounds */
static _Atomic(tuning *) played;  /* the one that the player has last looked at */
static atomic_bool stop;

static void lend(tuning *t) {
    t->scale = (telbijan_scale){t->kind, t->cents, t->numer, t->denom, t->place, t->ratio, t->wraps, PLACES, 0};
    t->mapping = (telbijan_mapping){t->map, PLACES, 0, 0, 0, {0, 0, 0}, 0};
}

/* The player: asks for key 60 again and again, always of a whole tuning. */
static void *play(void *sum) {
    while (!atomic_load(&stop)) {
        tuning *t = atomic_load(&current);
        *(double *)sum += t->numbers[60] == TELBIJAN_ACCEPTED ? t->hz[60] : 0;
        atomic_store(&played, t);
    }
    return NULL;
}

static bool read_file(const char *name, char *text, size_t room, size_t *length) {
    FILE *file = fopen(name, "rb");
    if (!file) {
        printf("%s: %s\n", name, strerror(errno));
        return false;
    }
    *length = fread(text, 1, room, file);
    bool whole = *length < room && !ferror(file);
    fclose(file);
    if (!whole)
        printf("%s: too long, or cannot be read\n", name);
    return whole;
}

/* Says what was refused: the file, the line where there is one, and why. */
static bool accepted(const char *name, telbijan_refusal said) {
    if (telbijan_is_accepted(said))
        return true;
    if (said.detail != 0 && said.number != TELBIJAN_LINE_MISSING)
        printf("%s:%" PRIu64 ": %s\n", name, said.detail, telbijan_reason(said.number));
    else
        printf("%s: %s\n", name, telbijan_reason(said.number));
    return false;
}

/* Loads both files into a tuning that no one plays. */
static bool load(tuning *spare, const char *scl, const char *kbm) {
    static char text[65536];
    size_t length;
    telbijan_span description;
    lend(spare);
    if (!read_file(scl, text, sizeof text, &length) || !accepted(scl, telbijan_scale_read(&spare->scale, text, length, &description)))
        return false;
    if (!read_file(kbm, text, sizeof text, &length) || !accepted(kbm, telbijan_mapping_read(&spare->mapping, text, length)))
        return false;
    return accepted(scl, telbijan_tuning_pitches_of(&spare->scale, &spare->mapping, 0, KEYS, spare->hz, spare->numbers));
}

/* The rest of a line: how key 60 sounds. */
static void tell(const tuning *t) {
    if (t->numbers[60] == TELBIJAN_ACCEPTED)
        printf(": key 60 has %.3f Hz\n", t->hz[60]);
    else
        printf(": key 60 has no pitch, %s\n", telbijan_reason(t->numbers[60]));
}

static void reload(const char *scl, const char *kbm) {
    tuning *old = atomic_load(&current), *spare = old == &memory[0] ? &memory[1] : &memory[0];
    while (atomic_load(&played) == spare)
        sched_yield(); /* the player still looks at the spare one */
    if (load(spare, scl, kbm)) {
        atomic_store(&current, spare);
        printf("%s is in use", scl);
        tell(spare);
    } else {
        printf("the tuning in use stays");
        tell(old);
    }
}

/* What the program ends with: 2, with a line on standard error, where standard output could not be written. */
static int finish(int status) {
    if (fflush(stdout) == 0 && !ferror(stdout))
        return status;
    fprintf(stderr, "reload: standard output cannot be written\n");
    return 2;
}

int main(int argc, char **argv) {
    pthread_t player;
    double sum = 0;
    if (argc < 3) {
        fprintf(stderr, "usage: reload FIRST.scl MAPPING.kbm [NEXT.scl ..]\n");
        return 2;
    }
    if (!load(&memory[0], argv[1], argv[2]))
        return finish(1);
    atomic_store(&current, &memory[0]);
    atomic_store(&played, &memory[0]);
    printf("%s is in use", argv[1]);
    tell(&memory[0]);
    if (pthread_create(&player, NULL, play, &sum) != 0) {
        fprintf(stderr, "reload: no second thread\n");
        return 2;
    }
    for (int i = 3; i < argc; i++)
        reload(argv[i], argv[2]);
    atomic_store(&stop, true);
    pthread_join(player, NULL);
    return finish(0);
}

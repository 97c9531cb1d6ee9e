/* Memory lent to the library between guards, random numbers, and the faults that are found. */
#ifndef LENT_H
#define LENT_H

#include "trials.h"

#include <inttypes.h>
#include <string.h>
#include <sys/mman.h>

/* ---- random numbers, the same in each run of a seed */

static uint64_t state = 88172645463325252;

static uint64_t next_random(void) {
    state ^= state << 13;
    state ^= state >> 7;
    state ^= state << 17;
    return state;
}

/* A number below n. */
static size_t below(size_t n) { return (size_t)((next_random() >> 11) % n); }

/* ---- faults */

static uint64_t this_round, faults;

static void fault(const char *whose, const char *what) {
    faults++;
    printf("round %" PRIu64 ": %s: %s\n", this_round, whose, what);
}

static void expect(int holds, const char *what) {
    if (!holds) fault("the library", what);
}

/* ---- lent memory */

enum { PAGE = 4096, PAGES = 5, GUARD = 0xA5 };

/* A record more than may be lent fits in the pages. */
_Static_assert((QUERNHEM_RECORDS + 1) * sizeof(quernhem_record) <= PAGES * PAGE, "the records fit");

/* Pages between two that can't be touched. What is lent stands at the one end of them or at the other, and guard bytes fill the rest; a
 * copy is kept of it. */
typedef struct {
    const char *what;
    uint8_t *pages, *lent, *copy;
    size_t len;
} Arena;

static Arena text = {.what = "text"}, input = {.what = "input"}, space = {.what = "space"}, room = {.what = "room"};
static Arena tables = {.what = "tables"}, answer = {.what = "answer"}, verdict = {.what = "verdict"}, name = {.what = "name"};
static Arena found = {.what = "found"}, buffer = {.what = "buffer"}, receipt = {.what = "receipt"}, part = {.what = "part"};
static Arena lines = {.what = "index"}, callers = {.what = "callers"}, records = {.what = "records"};
static Arena *const arenas[] = {&text, &input, &space, &room, &tables, &answer, &verdict, &name, &found, &buffer, &receipt, &part,
                               &lines, &callers, &records};
enum { ARENAS = sizeof arenas / sizeof *arenas };

static uint8_t guards[PAGES * PAGE];

/* Lends so many bytes, of guards as yet. */
static void lend(Arena *a, size_t len) {
    memcpy(a->pages, guards, sizeof guards);
    a->len = len;
    a->lent = below(2) ? a->pages : a->pages + sizeof guards - len;
}

static void prepare_arenas(void) {
    memset(guards, GUARD, sizeof guards);
    for (size_t i = 0; i < ARENAS; i++) {
        uint8_t *all = mmap(NULL, sizeof guards + 2 * PAGE, PROT_NONE, MAP_PRIVATE | MAP_ANONYMOUS, -1, 0);
        arenas[i]->copy = malloc(sizeof guards);
        if (all == MAP_FAILED || !arenas[i]->copy || mprotect(all + PAGE, sizeof guards, PROT_READ | PROT_WRITE)) exit(2);
        arenas[i]->pages = all + PAGE;
        lend(arenas[i], 0);
    }
}

static void lend_bytes(Arena *a, const void *bytes, size_t len) {
    lend(a, len);
    memcpy(a->lent, bytes, len);
}

static void lend_random(Arena *a, size_t len) {
    lend(a, len);
    for (size_t i = 0; i < len; i++) a->lent[i] = (uint8_t)next_random();
}

/* Both ends of an arena are places where words may stand. */
static uint64_t *lend_words(Arena *a, size_t count) {
    lend(a, 8 * count);
    return (uint64_t *)(void *)a->lent;
}

static void keep_all(void) {
    for (size_t i = 0; i < ARENAS; i++) memcpy(arenas[i]->copy, arenas[i]->lent, arenas[i]->len);
}

static void expect_guards(void) {
    for (size_t i = 0; i < ARENAS; i++) {
        const Arena *a = arenas[i];
        size_t before = (size_t)(a->lent - a->pages), after = sizeof guards - before - a->len;
        if (memcmp(a->pages, guards, before) || memcmp(a->lent + a->len, guards, after)) fault(a->what, "a guard byte is changed");
    }
}

/* From a byte on it is as it was kept. */
static void expect_kept(const Arena *a, size_t from) {
    if (from > a->len || memcmp(a->copy + from, a->lent + from, a->len - from)) fault(a->what, "what should be as it was is changed");
}

static void expect_zeros(const Arena *a, size_t from, size_t to, const char *what) {
    for (; from < to; from++)
        if (a->lent[from]) {
            fault(a->what, what);
            return;
        }
}

#endif

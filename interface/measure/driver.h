/* The driver of compare.c, and what damage.c needs of it. */
#ifndef DRIVER_H
#define DRIVER_H

#include <stdint.h>

#include "random.h"
#include "side.h"

#define ROOM_MOST (2 * TIEBEAMER_SLOTS_MOST)
#define SPARE 6
#define STATE_ALL (TIEBEAMER_STATE_NUMBERS + SPARE)
#define TASK_NUMBERS 15
#define TOP UINT32_MAX

enum { POKE_TABLE = 8, POKE_STATE = 9 }; /* number is the place, price the value */

/* Table and state of a side, and what the last call left in the lent places. */
struct places {
    uint32_t *table, *state;
    uint32_t answer, price, figures[TIEBEAMER_FIGURES], room[ROOM_MOST];
};

/* How calls are chosen for a while. */
struct mood {
    uint32_t spread;     /* fare numbers are below this */
    uint32_t run;        /* 0: single steps; else runs of up to so many */
    uint32_t put, take;  /* in a hundred; the rest look up */
    uint32_t abandon;    /* in a thousand steps */
    int sorted;          /* fare numbers in order */
};

struct driver {
    struct random random;
    struct places tried, beside; /* beside: the plain C version, where the archive is tried */
    uint32_t slots, length;
    const struct side *side;
    int alone, clearing;
    int standing; /* a task was made to stand before a commit: it moves next */
    uint32_t stander;
    uint32_t hurt_left, next_sorted;
    struct mood mood;
    uint32_t *kept_table, kept_state[STATE_ALL];
};

static inline uint32_t below(struct driver *d, uint32_t end) {
    return random_below(&d->random, end);
}

static inline int percent(struct driver *d, uint32_t share) {
    return below(d, 100) < share;
}

static inline uint32_t one_of(struct driver *d, const uint32_t *of, uint32_t count) {
    return of[below(d, count)];
}

#define ONE(d, ...) one_of(d, (const uint32_t[]){__VA_ARGS__}, sizeof((uint32_t[]){__VA_ARGS__}) / sizeof(uint32_t))

static inline const uint32_t *task_row(const struct driver *d, uint32_t task) {
    return d->tried.state + TASK_NUMBERS * task;
}

/* A number of table or state is changed on all sides. */
void poke(struct driver *d, uint32_t kind, uint32_t place, uint32_t value);

/* Some numbers are poked, and after some calls put back. */
void hurt(struct driver *d);
void heal(struct driver *d);

#endif

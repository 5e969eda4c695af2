/* Tiebeamer: the shared fare table of station ticket machines, for C.
 *
 * Table and state belong to the caller and are lent to each call as a pointer and a count of 32-bit numbers. Both start as
 * zeros: that is a state, and tiebeamer_reset lays out the table. Only these calls change them afterwards.
 *
 * What is lent to one call must not overlap, and a pointer must not be null, even where its count is 0. The calls keep
 * nothing, allocate nothing and always return. A refusal changes nothing, save that 15 and 16 end the task's operation, and
 * that a run refused at a later step leaves what its earlier steps did. Decisions and proofs: docs/INTERFACE.md.
 */
#ifndef TIEBEAMER_H
#define TIEBEAMER_H

#include <stddef.h>
#include <stdint.h>

#ifdef __cplusplus
extern "C" {
#endif

/* Sizes. */
#define TIEBEAMER_TASKS 8             /* tasks 0 to 7 */
#define TIEBEAMER_STATE_NUMBERS 122   /* numbers of a state */
#define TIEBEAMER_SLOT_NUMBERS 6      /* numbers of a slot */
#define TIEBEAMER_SLOTS_LEAST 8       /* slots of a table */
#define TIEBEAMER_SLOTS_MOST 4096
#define TIEBEAMER_FIGURES 7           /* figures, in the order below */
#define TIEBEAMER_FARE_NUMBERS 2      /* numbers of a fare in a list: fare number, price */
#define TIEBEAMER_NUMBER_MOST 999999  /* fare number */
#define TIEBEAMER_PRICE_MOST 99999    /* price in whole cents */
#define TIEBEAMER_COUNT_MOST 65535    /* steps of a run */

/* The numbers of a table with so many slots. */
#define TIEBEAMER_TABLE_NUMBERS(slots) (TIEBEAMER_SLOT_NUMBERS * (slots))

/* Operations, for tiebeamer_begin. */
enum tiebeamer_operation {
    TIEBEAMER_LOOK_UP = 1,
    TIEBEAMER_PUT_IN = 2,
    TIEBEAMER_TAKE_OUT = 3
};

/* Answers. From 10 on they are refusals. */
enum tiebeamer_answer {
    TIEBEAMER_ACCEPTED = 0,      /* accepted, or the operation goes on */
    TIEBEAMER_FOUND = 1,         /* look up: found, with price */
    TIEBEAMER_NOT_HELD = 2,      /* look up, take out: not held */
    TIEBEAMER_PUT_SETTLED = 3,   /* put in, settled */
    TIEBEAMER_HELD_ALREADY = 4,  /* put in: held already */
    TIEBEAMER_TAKEN_OUT = 5,     /* taken out */
    TIEBEAMER_PUT_UNSETTLED = 6, /* put in, unsettled */
    TIEBEAMER_TASK_NUMBER = 10,  /* task number above 7 */
    TIEBEAMER_OUT_OF_RANGE = 11, /* fare number or price out of range; a price with a look up or take out */
    TIEBEAMER_TASK_BUSY = 12,    /* begin: task busy */
    TIEBEAMER_TASK_IDLE = 13,    /* step, run, abandon: task idle */
    TIEBEAMER_SOME_BUSY = 14,    /* tidy: some task busy */
    TIEBEAMER_NO_ROOM = 15,      /* no room in the table, or in the room lent for a list; the task of a step is idle */
    TIEBEAMER_LIMIT = 16,        /* 1,000,000 put-ins already committed; the task is idle */
    TIEBEAMER_DAMAGED = 17,      /* table or state damaged; the task stays busy */
    TIEBEAMER_LENGTH = 18,       /* table not 6 times 8 to 4,096 numbers long */
    TIEBEAMER_NO_STATE = 50,     /* not 122 numbers, or numbers that are no state; never for a state that the calls made */
    TIEBEAMER_NO_CALL = 51       /* begin: operation not 1 to 3; run: count not 1 to 65,535 */
};

/* The places of the figures. */
enum tiebeamer_figure {
    TIEBEAMER_HEIGHT = 0,       /* links from the root record to the farthest fare */
    TIEBEAMER_LEVEL = 1,        /* level records */
    TIEBEAMER_C = 2,            /* put-ins committed and not ended as settled */
    TIEBEAMER_M = 3,            /* put-ins committed since the reset */
    TIEBEAMER_FARES = 4,        /* fares held */
    TIEBEAMER_FREE = 5,         /* free slots */
    TIEBEAMER_ALLOWED_RANK = 6  /* the allowed rank */
};

/* Each call answers by a number of enum tiebeamer_answer. */

/* The table and the state start anew. */
uint32_t tiebeamer_reset(uint32_t *table, size_t table_count, uint32_t *state, size_t state_count);

/* A task begins an operation. The price is 0 for a look up or take out. The table is lent for its length alone. */
uint32_t tiebeamer_begin(const uint32_t *table, size_t table_count, uint32_t *state, size_t state_count,
                         uint32_t task, uint32_t operation, uint32_t number, uint32_t price);

/* One step of a task. The price is written with every answer but 50: the fare's for 1, else 0. */
uint32_t tiebeamer_step(uint32_t *table, size_t table_count, uint32_t *state, size_t state_count,
                        uint32_t task, uint32_t *price);

/* Up to count steps of a task, as long as they answer 0. It answers as the last step, with its price; 50 and 51 write no
 * price. */
uint32_t tiebeamer_run(uint32_t *table, size_t table_count, uint32_t *state, size_t state_count,
                       uint32_t task, uint32_t count, uint32_t *price);

/* A task gives its operation up: 6 if it was settling, else 0. The table is lent for its length alone. */
uint32_t tiebeamer_abandon(const uint32_t *table, size_t table_count, uint32_t *state, size_t state_count, uint32_t task);

/* Slots that the tree does not use any more become free. All tasks must be idle. */
uint32_t tiebeamer_tidy(uint32_t *table, size_t table_count, uint32_t *state, size_t state_count);

/* The figures. A refusal writes none. */
uint32_t tiebeamer_figures(const uint32_t *table, size_t table_count, const uint32_t *state, size_t state_count,
                           uint32_t figures[TIEBEAMER_FIGURES]);

/* Number and price of each fare, from the leftmost leaf to the rightmost, at the front of the room; later places stay. A room
 * of fewer than two numbers a fare gives 15. A refusal writes none. */
uint32_t tiebeamer_list(const uint32_t *table, size_t table_count, const uint32_t *state, size_t state_count,
                        uint32_t *room, size_t room_count);

#ifdef __cplusplus
}
#endif

#endif

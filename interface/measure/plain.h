/* The rules of document 01 in plain C, written for speed: what the proved archive is measured against.
 *
 * Same answers, same refusals up to 18, same tables and states, on damaged ones too. Only 50 and 51 are missing: the state is
 * this program's own, so nobody asks whether its numbers are a state. plain_is_state asks it. The functions are lent what those
 * of tiebeamer.h are lent; the numbers of a state are a struct plain_state, in the layout of docs/PROBE.md. */
#ifndef PLAIN_H
#define PLAIN_H

#include <stddef.h>
#include <stdint.h>

enum { FREE, IN_TREE, OFF };                            /* a record's state */
enum { IDLE, START, WALK, PUTTING, TAKING, SETTLING };  /* a task's phase */

#define NO_GRAND UINT32_MAX
#define SENTINEL UINT32_MAX
#define SENTINEL_RANK 255u
#define LAST_RANK 28u
#define LAST_PUT_IN 1000000u

struct plain_links {
    uint32_t left, right;
};

/* Two links by the side on which the first one stands. */
static inline struct plain_links sided(int left, uint32_t own, uint32_t across) {
    return left ? (struct plain_links){own, across} : (struct plain_links){across, own};
}

/* A place that a phase does not use is 0. */
struct plain_task {
    uint32_t phase, number, price;
    uint32_t detail; /* the goal of a walk, else how many records were read */
    uint32_t grand, parent, here;
    struct plain_links note[4];
};

struct plain_state {
    struct plain_task task[8];
    uint32_t m, u;
};

uint32_t plain_reset(uint32_t *table, size_t count, uint32_t *state, size_t numbers);
uint32_t plain_begin(const uint32_t *table, size_t count, uint32_t *state, size_t numbers, uint32_t task, uint32_t operation,
                     uint32_t number, uint32_t price);
uint32_t plain_step(uint32_t *table, size_t count, uint32_t *state, size_t numbers, uint32_t task, uint32_t *price);
uint32_t plain_run(uint32_t *table, size_t count, uint32_t *state, size_t numbers, uint32_t task, uint32_t steps,
                   uint32_t *price);
uint32_t plain_abandon(const uint32_t *table, size_t count, uint32_t *state, size_t numbers, uint32_t task);
uint32_t plain_tidy(uint32_t *table, size_t count, uint32_t *state, size_t numbers);
uint32_t plain_figures(const uint32_t *table, size_t count, const uint32_t *state, size_t numbers, uint32_t figures[7]);
uint32_t plain_list(const uint32_t *table, size_t count, const uint32_t *state, size_t numbers, uint32_t *room,
                    size_t room_count);

/* Whether the numbers are a state: the first question of every call of the archive. */
int plain_is_state(const uint32_t *state, size_t numbers);

#endif

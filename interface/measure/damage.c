/* Damage to table and state: single numbers at random, or a task made to stand before a commit with one thing wrong. */
#include <string.h>

#include "driver.h"
#include "plain.h"

#define M_PLACE (TASK_NUMBERS * TIEBEAMER_TASKS)

/* A slot that a task remembers or has noted, or any. */
static uint32_t near_slot(struct driver *d) {
    uint32_t slot = task_row(d, below(d, 3))[4 + below(d, TASK_NUMBERS - 4)];
    return slot && slot < d->slots && percent(d, 80) ? slot : below(d, d->slots);
}

static uint32_t odd_number(struct driver *d, uint32_t old) {
    switch (below(d, 4)) {
    case 0: return ONE(d, 0, 1, 2, 3, 4, 5, 28, 29, 255, 256, 99999, 100000, 999999, 1000000, 1000001, TOP);
    case 1: return old + ONE(d, 1, 2, TOP);
    case 2: return ONE(d, d->slots - 1, d->slots, d->slots + 1);
    default: return near_slot(d);
    }
}

/* A rank is mostly moved by little, so that its record stays well formed. */
static void poke_record(struct driver *d) {
    uint32_t field = ONE(d, 0, 1, 2, 3, 3, 3, 4, 5), place = TIEBEAMER_SLOT_NUMBERS * near_slot(d) + field;
    uint32_t old = d->tried.table[place];
    poke(d, POKE_TABLE, place, field == 3 && percent(d, 80) ? old + ONE(d, 1, 1, 2, TOP) : odd_number(d, old));
}

static void poke_any(struct driver *d) {
    if (percent(d, 80)) {
        poke_record(d);
    } else {
        uint32_t place = percent(d, 15) ? M_PLACE + below(d, 2) : below(d, TIEBEAMER_STATE_NUMBERS);
        poke(d, POKE_STATE, place, odd_number(d, d->tried.state[place]));
    }
}

static void poke_row(struct driver *d, uint32_t kind, uint32_t place, const uint32_t *row, uint32_t count) {
    const uint32_t *now = (kind == POKE_TABLE ? d->tried.table : d->tried.state) + place;
    for (uint32_t i = 0; i < count; i++)
        if (now[i] != row[i])
            poke(d, kind, place + i, row[i]);
}

/* A task that stands before a commit. The records around it take slots of their own: in this order those above and at the
 * task (pz, z, x where it settles), then those beside and below. */

enum { GRAND, PARENT, HERE, BESIDE, BELOW, BELOW_TOO, AROUND };

/* So many slots, none of them the entry, none twice. */
static void different(struct driver *d, uint32_t *slot, uint32_t count) {
    for (uint32_t have = 0; have < count;) {
        uint32_t at = 0;
        slot[have] = 1 + below(d, d->slots - 1);
        while (slot[at] != slot[have])
            at++;
        have += at == have;
    }
}

/* A well formed record: rank 0 makes it a leaf. */
static void write_record(struct driver *d, uint32_t slot, uint32_t number, uint32_t rank, struct plain_links l) {
    uint32_t price = rank ? 0 : below(d, TIEBEAMER_PRICE_MOST + 1);
    uint32_t row[] = {IN_TREE, number, price, rank, l.left, l.right};
    poke_row(d, POKE_TABLE, TIEBEAMER_SLOT_NUMBERS * slot, row, TIEBEAMER_SLOT_NUMBERS);
}

/* A record of this rank that leads anywhere; the links that it has. */
static struct plain_links write_any(struct driver *d, uint32_t slot, uint32_t rank) {
    uint32_t two[2] = {0, 0};
    if (rank)
        different(d, two, 2);
    write_record(d, slot, below(d, d->mood.spread), rank, (struct plain_links){two[0], two[1]});
    return (struct plain_links){two[0], two[1]};
}

/* A record above the one at `to`; the links that it has. */
static struct plain_links write_above(struct driver *d, uint32_t slot, uint32_t to, uint32_t rank) {
    uint32_t other = 1 + below(d, d->slots - 1);
    struct plain_links l = sided(percent(d, 50), to, other == to ? 1 + other % (d->slots - 1) : other);
    write_record(d, slot, below(d, d->mood.spread), rank, l);
    return l;
}

/* The record here, at times no leaf, in so many of a hundred with the task's number; the links that it has. */
static struct plain_links write_here(struct driver *d, const struct plain_task *k, uint32_t same_number) {
    struct plain_links l = write_any(d, k->here, percent(d, 15));
    if (percent(d, same_number))
        poke(d, POKE_TABLE, TIEBEAMER_SLOT_NUMBERS * k->here + 1, k->number);
    return l;
}

static void stand_putting(struct driver *d, struct plain_task *k, const uint32_t *at) {
    k->phase = PUTTING;
    k->detail = 2;
    k->price = below(d, TIEBEAMER_PRICE_MOST + 1);
    k->note[0] = write_above(d, at[PARENT], at[HERE], ONE(d, 1, 1, 2, 28));
    k->note[1] = write_here(d, k, 15);
}

/* The sibling may be noted as the leaf itself. */
static void stand_taking(struct driver *d, struct plain_task *k, const uint32_t *at) {
    int left = percent(d, 50);
    struct plain_links children = sided(left, at[HERE], at[BESIDE]), own, other;
    k->phase = TAKING;
    k->detail = 4;
    k->note[0] = write_above(d, at[GRAND], at[PARENT], ONE(d, 2, 28));
    write_record(d, at[PARENT], k->number, ONE(d, 1, 2), children);
    other = write_any(d, at[BESIDE], ONE(d, 0, 0, 1));
    own = write_here(d, k, 85);
    k->note[1] = percent(d, 10) ? sided(left, at[HERE], at[HERE]) : children;
    k->note[2] = left ? own : other;
    k->note[3] = left ? other : own;
}

/* A rank that stands below another by so much; by -1 above it. */
static uint32_t rank_below(uint32_t rank, int less) {
    if (less < 0)
        return rank < LAST_RANK ? rank + 1 : rank;
    return rank > (uint32_t)less ? rank - (uint32_t)less : 0;
}

/* With pz and z read, or x and y too: ranks for every row, for none, and up to 28. At times x is not level with z. */
static void stand_settling(struct driver *d, struct plain_task *k, const uint32_t *at) {
    static const int less[][3] = {{0, 1, 1}, {1, 1, 1}, {2, 2, 1}, {2, 1, 1}, {2, 1, 2}, {2, 0, 1}, {2, 1, 0},
                                  {-1, 1, 1}, {2, -1, 1}, {2, 2, -1}};
    const int *by = less[below(d, sizeof less / sizeof *less)];
    uint32_t rank = ONE(d, 2, 3, 4, 27, 28, 28);
    int left = percent(d, 50);
    struct plain_links z = sided(left, at[HERE], at[BESIDE]), x = sided(left, at[BELOW_TOO], at[BELOW]), pz, y;
    write_any(d, at[BESIDE], rank_below(rank, by[0]));
    y = write_any(d, at[BELOW], rank_below(rank, by[1]));
    write_any(d, at[BELOW_TOO], rank_below(rank, by[2]));
    pz = write_above(d, at[GRAND], at[PARENT], LAST_RANK);
    write_record(d, at[PARENT], below(d, d->mood.spread), rank_below(rank, percent(d, 10) ? -1 : 0), z);
    write_record(d, at[HERE], below(d, d->mood.spread), rank, x);
    struct plain_links notes[4] = {pz, z, x, y};
    k->phase = SETTLING;
    k->detail = ONE(d, 2, 3, 4, 4);
    memcpy(k->note, notes, k->detail * sizeof *notes);
}

/* At times one thing more is wrong with the task or with m; mostly m is only near its limit. */
static void twist(struct driver *d, struct plain_task *k) {
    uint32_t m = ONE(d, 1000, 999999, LAST_PUT_IN);
    switch (below(d, 20)) {
    case 0: k->number = ONE(d, 1000000, 1000000, SENTINEL); break;
    case 1: k->price = ONE(d, 100000, 100000, TOP); break;
    case 2: m = ONE(d, 1000001, 1000001, TOP); break;
    case 3: k->note[below(d, 2)] = (struct plain_links){0, 0}; break;
    case 4: k->grand = ONE(d, NO_GRAND, d->slots, 0); break;
    case 5: k->here = ONE(d, 0, d->slots, k->parent); break;
    }
    poke(d, POKE_STATE, M_PLACE, m);
}

/* The slots of the records around a task; at times two of them are the same. */
static void choose_around(struct driver *d, uint32_t *at) {
    different(d, at, AROUND);
    uint32_t one = below(d, HERE + 1), other = below(d, BELOW + 1);
    if (percent(d, 40))
        at[one] = at[other];
}

static void stand(struct driver *d) {
    static void (*const ways[])(struct driver *, struct plain_task *, const uint32_t *) = {stand_putting, stand_taking,
                                                                                           stand_settling, stand_settling};
    uint32_t at[AROUND];
    choose_around(d, at);
    struct plain_task task = {
        .number = below(d, d->mood.spread), .grand = at[GRAND], .parent = at[PARENT], .here = at[HERE]};
    ways[below(d, sizeof ways / sizeof *ways)](d, &task, at);
    twist(d, &task);
    d->standing = 1;
    d->stander = below(d, 3);
    poke_row(d, POKE_STATE, TASK_NUMBERS * d->stander, (const uint32_t *)&task, TASK_NUMBERS);
}

void hurt(struct driver *d) {
    memcpy(d->kept_table, d->tried.table, d->length * sizeof *d->kept_table);
    memcpy(d->kept_state, d->tried.state, sizeof d->kept_state);
    if (percent(d, 75)) {
        stand(d);
        d->hurt_left = 1 + below(d, 6);
        return;
    }
    for (uint32_t left = ONE(d, 1, 1, 1, 2, 4); left; left--)
        poke_any(d);
    d->hurt_left = 1 + below(d, 24);
}

void heal(struct driver *d) {
    poke_row(d, POKE_TABLE, 0, d->kept_table, d->length);
    poke_row(d, POKE_STATE, 0, d->kept_state, STATE_ALL);
}

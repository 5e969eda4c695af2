/* The rules of document 01 in plain C, written for speed. See plain.h. */
#include "plain.h"

#include <string.h>

#include "../tiebeamer.h"

enum { LOOK = TIEBEAMER_LOOK_UP, PUT = TIEBEAMER_PUT_IN, TAKE = TIEBEAMER_TAKE_OUT, SETTLE = 4 };

#define NUMBERS TIEBEAMER_SLOT_NUMBERS
#define MOST TIEBEAMER_SLOTS_MOST

struct record {
    uint32_t state, number, price, rank, left, right;
};

struct table {
    struct record *at;
    uint32_t slots;
};

/* The slot count; 0 for a length that gives 18. */
static inline uint32_t slots_of(size_t count) {
    return count % NUMBERS == 0 && count >= 48 && count <= NUMBERS * MOST ? (uint32_t)(count / NUMBERS) : 0;
}

static inline int is_leaf(const struct record *r) {
    return (r->left | r->right) == 0;
}

static inline int is_level(const struct record *parent, const struct record *r) {
    return r->rank == parent->rank && r->number != SENTINEL;
}

static inline int inner_formed(const struct record *r, uint32_t slots) {
    return r->left - 1 < slots - 1 && r->right - 1 < slots - 1 && r->left != r->right && r->price == 0 &&
           ((r->rank - 1 < LAST_RANK && r->number <= TIEBEAMER_NUMBER_MOST) ||
            (r->rank == SENTINEL_RANK && r->number == SENTINEL));
}

static inline int leaf_formed(const struct record *r) {
    return (r->rank == 0 && r->number <= TIEBEAMER_NUMBER_MOST && r->price <= TIEBEAMER_PRICE_MOST) ||
           (r->rank == SENTINEL_RANK && r->number == SENTINEL && r->price == 0);
}

static inline int entry_formed(const struct record *r, uint32_t slots) {
    return r->state - 1 < 2 && r->number == SENTINEL && r->rank == SENTINEL_RANK && r->price == 0 && r->right == 0 &&
           r->left - 1 < slots - 1;
}

/* The record that a link leads to, or null where a rule that must read it gives 17. */
static inline struct record *linked(struct table t, uint32_t slot) {
    if (slot - 1 >= t.slots - 1)
        return NULL;
    struct record *r = &t.at[slot];
    if (r->state - 1 >= 2 || !(is_leaf(r) ? leaf_formed(r) : inner_formed(r, t.slots)))
        return NULL;
    return r;
}

/* The same for a record that may be the entry. */
static inline struct record *any(struct table t, uint32_t slot) {
    if (slot != 0)
        return linked(t, slot);
    return entry_formed(t.at, t.slots) ? t.at : NULL;
}

static inline int leads(struct plain_links l, uint32_t slot) {
    return slot != 0 && (l.left == slot || l.right == slot);
}

static inline int settles(const struct plain_task *k) {
    return k->phase == SETTLING || (k->phase - START <= WALK - START && k->detail == SETTLE);
}

static uint32_t count_settling(const struct plain_state *s) {
    uint32_t n = 0;
    for (int i = 0; i < 8; i++)
        n += (uint32_t)settles(&s->task[i]);
    return n;
}

/* m in range and c at most m. Eight tasks settle at most, so they are mostly not counted. */
static inline int is_sound(const struct plain_state *s) {
    uint64_t most = (uint64_t)s->u + 8;
    return s->m <= LAST_PUT_IN && (most <= s->m || (uint64_t)s->u + count_settling(s) <= s->m);
}

/* How a task goes on. What its new phase does not use is cleared. */

static inline uint32_t ended(struct plain_task *k, uint32_t answer) {
    memset(k, 0, sizeof *k);
    return answer;
}

static inline uint32_t restarted(struct plain_task *k, uint32_t goal) {
    memset(&k->grand, 0, sizeof *k - offsetof(struct plain_task, grand));
    k->phase = START;
    k->detail = goal;
    return 0;
}

static inline uint32_t reading_next(struct plain_task *k, uint32_t phase) {
    k->phase = phase;
    k->detail = 0;
    return 0;
}

/* A reading of r: 17 where it is null, a restart where it was taken off or `fails`, else its links are noted. */
static inline uint32_t noted(struct plain_task *k, const struct record *r, int fails, uint32_t goal) {
    if (!r)
        return TIEBEAMER_DAMAGED;
    if (r->state == OFF || fails)
        return restarted(k, goal);
    k->note[k->detail++] = (struct plain_links){r->left, r->right};
    return 0;
}

static inline uint32_t noted_leading(struct plain_task *k, const struct record *r, uint32_t next, uint32_t goal) {
    return noted(k, r, r && !leads((struct plain_links){r->left, r->right}, next), goal);
}

/* The walk. */

static inline uint32_t at_leaf(struct plain_task *k, const struct record *h, uint32_t *price) {
    int held = h->number == k->number;
    if (k->detail == LOOK) {
        *price = held ? h->price : 0;
        return ended(k, held ? TIEBEAMER_FOUND : TIEBEAMER_NOT_HELD);
    }
    if (k->detail == PUT)
        return held ? ended(k, TIEBEAMER_HELD_ALREADY) : reading_next(k, PUTTING);
    return held ? reading_next(k, TAKING) : ended(k, TIEBEAMER_NOT_HELD);
}

static inline uint32_t arrived(struct plain_task *k, const struct record *p, const struct record *h, uint32_t *price) {
    k->phase = WALK;
    if (k->detail != SETTLE)
        return is_leaf(h) ? at_leaf(k, h, price) : 0;
    if (is_level(p, h) && !is_leaf(h))
        return reading_next(k, SETTLING);
    return is_leaf(h) ? ended(k, TIEBEAMER_PUT_SETTLED) : 0;
}

static inline uint32_t walk(struct table t, struct plain_task *k, uint32_t grand, uint32_t from, const struct record *p,
                            uint32_t *price) {
    if (!p)
        return TIEBEAMER_DAMAGED;
    uint32_t to = k->number < p->number ? p->left : p->right;
    const struct record *h = linked(t, to);
    if (!h || (k->detail == SETTLE && h->rank > p->rank))
        return TIEBEAMER_DAMAGED;
    k->grand = grand;
    k->parent = from;
    k->here = to;
    return arrived(k, p, h, price);
}

/* Commits. */

static inline int unchanged(const struct record *r, struct plain_links l) {
    return r->state == IN_TREE && r->left == l.left && r->right == l.right;
}

/* The lowest free slot from one on; the slot count where there is none. */
static inline uint32_t free_from(struct table t, uint32_t slot) {
    while (slot < t.slots && t.at[slot].state != FREE)
        slot++;
    return slot;
}

static inline void turn_link(struct record *above, uint32_t from, uint32_t to) {
    if (above->left == from)
        above->left = to;
    else
        above->right = to;
}

static uint32_t put_made(struct table t, struct plain_state *s, struct plain_task *k, struct record *p, struct record *l) {
    uint32_t top = free_from(t, 1), left = free_from(t, top + 1), right = free_from(t, left + 1);
    if (right >= t.slots)
        return ended(k, TIEBEAMER_NO_ROOM);
    struct record fresh = {IN_TREE, k->number, k->price, 0, 0, 0}, kept = *l;
    int below = fresh.number < kept.number;
    uint32_t rank = kept.number == SENTINEL ? SENTINEL_RANK : 1;
    l->state = OFF;
    t.at[top] = (struct record){IN_TREE, below ? kept.number : fresh.number, 0, rank, left, right};
    t.at[left] = below ? fresh : kept;
    t.at[right] = below ? kept : fresh;
    turn_link(p, k->here, top);
    s->m++;
    return p->rank == 1 && rank == 1 ? restarted(k, SETTLE) : ended(k, TIEBEAMER_PUT_SETTLED);
}

static uint32_t put_commit(struct table t, struct plain_state *s, struct plain_task *k) {
    struct record *p = any(t, k->parent), *l = linked(t, k->here);
    if (!p || !l || p == l || !leads(k->note[0], k->here) || !is_leaf(l) || l->number == k->number)
        return TIEBEAMER_DAMAGED;
    if (!unchanged(p, k->note[0]) || !unchanged(l, k->note[1]))
        return restarted(k, PUT);
    if (s->m >= LAST_PUT_IN)
        return ended(k, TIEBEAMER_LIMIT);
    return put_made(t, s, k, p, l);
}

static uint32_t putting(struct table t, struct plain_state *s, struct plain_task *k) {
    if (k->detail == 0)
        return noted_leading(k, any(t, k->parent), k->here, PUT);
    if (k->detail == 1)
        return noted(k, linked(t, k->here), 0, PUT);
    return put_commit(t, s, k);
}

static uint32_t take_made(struct table t, struct plain_task *k, struct record *g, struct record *p, struct record *l,
                          struct record *r) {
    uint32_t copy = free_from(t, 1);
    if (copy >= t.slots)
        return ended(k, TIEBEAMER_NO_ROOM);
    t.at[copy] = k->here == k->note[1].left ? *r : *l;
    p->state = l->state = r->state = OFF;
    turn_link(g, k->parent, copy);
    return ended(k, TIEBEAMER_TAKEN_OUT);
}

static uint32_t take_commit(struct table t, struct plain_task *k) {
    struct record *g = any(t, k->grand), *p = any(t, k->parent);
    struct record *l = linked(t, k->note[1].left), *r = linked(t, k->note[1].right);
    if (!g || !p || !l || !r || g == p || g == l || g == r || p == l || p == r || l == r)
        return TIEBEAMER_DAMAGED;
    if (!leads(k->note[0], k->parent) || !leads(k->note[1], k->here))
        return TIEBEAMER_DAMAGED;
    const struct record *own = k->here == k->note[1].left ? l : r;
    if (!is_leaf(own) || own->number != k->number)
        return TIEBEAMER_DAMAGED;
    if (!unchanged(g, k->note[0]) || !unchanged(p, k->note[1]) || !unchanged(l, k->note[2]) || !unchanged(r, k->note[3]))
        return restarted(k, TAKE);
    return take_made(t, k, g, p, l, r);
}

static uint32_t taking(struct table t, struct plain_task *k) {
    switch (k->detail) {
    case 0: return noted_leading(k, any(t, k->grand), k->parent, TAKE);
    case 1: return noted_leading(k, any(t, k->parent), k->here, TAKE);
    case 2: return noted(k, linked(t, k->note[1].left), 0, TAKE);
    case 3: return noted(k, linked(t, k->note[1].right), 0, TAKE);
    default: return take_commit(t, k);
    }
}

/* Settling. */

enum row { NO_ROW, PROMOTE, ROTATE_ONE, ROTATE_TWO, DOUBLE };

struct around {
    struct record *z, *x, *s;
    uint32_t s_slot, y_slot, w_slot;
    int left; /* x is the left child of z */
};

static inline void write_copy(struct table t, uint32_t slot, const struct record *old, uint32_t rank, struct plain_links l) {
    t.at[slot] = (struct record){IN_TREE, old->number, old->price, rank, l.left, l.right};
}

static inline uint32_t unsettled(struct plain_state *s, struct plain_task *k) {
    s->u++;
    return ended(k, TIEBEAMER_PUT_UNSETTLED);
}

static inline uint32_t settled(struct plain_task *k, struct record *pz, uint32_t top) {
    turn_link(pz, k->parent, top);
    return restarted(k, SETTLE);
}

static uint32_t promote(struct table t, struct plain_state *s, struct plain_task *k, struct record *pz, struct around a) {
    if (a.z->rank + 1 > LAST_RANK)
        return TIEBEAMER_DAMAGED;
    uint32_t top = free_from(t, 1);
    if (top >= t.slots)
        return unsettled(s, k);
    write_copy(t, top, a.z, a.z->rank + 1, (struct plain_links){a.z->left, a.z->right});
    a.z->state = OFF;
    return settled(k, pz, top);
}

static uint32_t rotate(struct table t, struct plain_state *s, struct plain_task *k, struct record *pz, struct around a,
                       uint32_t more) {
    if (a.x->rank + more > LAST_RANK)
        return TIEBEAMER_DAMAGED;
    uint32_t top = free_from(t, 1), below = free_from(t, top + 1);
    if (below >= t.slots)
        return unsettled(s, k);
    write_copy(t, top, a.x, a.x->rank + more, sided(a.left, a.w_slot, below));
    write_copy(t, below, a.z, a.z->rank - 1 + more, sided(a.left, a.y_slot, a.s_slot));
    a.z->state = a.x->state = OFF;
    return settled(k, pz, top);
}

static uint32_t rotate_double(struct table t, struct plain_state *s, struct plain_task *k, struct record *pz,
                              struct around a, struct record *y) {
    uint32_t top = free_from(t, 1), left = free_from(t, top + 1), right = free_from(t, left + 1);
    if (right >= t.slots)
        return unsettled(s, k);
    uint32_t near = a.left ? y->left : y->right, far = a.left ? y->right : y->left;
    write_copy(t, top, y, y->rank + 1, (struct plain_links){left, right});
    write_copy(t, a.left ? left : right, a.x, a.x->rank - 1, sided(a.left, a.w_slot, near));
    write_copy(t, a.left ? right : left, a.z, a.z->rank - 1, sided(a.left, far, a.s_slot));
    a.z->state = a.x->state = y->state = OFF;
    return settled(k, pz, top);
}

/* The grounds before the test, the test, and the change of a row. */
static uint32_t settle_commit(struct table t, struct plain_state *s, struct plain_task *k, struct around a, enum row row) {
    struct record *pz = any(t, k->grand), *y = NULL;
    int held;
    if (!pz || pz == a.z || !leads(k->note[0], k->parent) || !leads(k->note[1], k->here) || !is_level(a.z, a.x))
        return TIEBEAMER_DAMAGED;
    held = unchanged(pz, k->note[0]) && unchanged(a.z, k->note[1]);
    if (k->detail >= 3) {
        if (a.x == pz || a.x == a.z)
            return TIEBEAMER_DAMAGED;
        held = held && unchanged(a.x, k->note[2]);
    }
    if (k->detail == 4) {
        y = linked(t, a.y_slot);
        if (!y || y == pz || y == a.z || y == a.x)
            return TIEBEAMER_DAMAGED;
        held = held && unchanged(y, k->note[3]);
    }
    if (!held)
        return restarted(k, SETTLE);
    switch (row) {
    case PROMOTE: return promote(t, s, k, pz, a);
    case ROTATE_ONE: return rotate(t, s, k, pz, a, 0);
    case ROTATE_TWO: return rotate(t, s, k, pz, a, 1);
    case DOUBLE: return rotate_double(t, s, k, pz, a, y);
    default: return TIEBEAMER_DAMAGED;
    }
}

/* z stands 2 or more above s, and x is noted: y and w decide. */
static uint32_t turn(struct table t, struct plain_state *s, struct plain_task *k, struct around a) {
    const struct record *y = linked(t, a.y_slot), *w = linked(t, a.w_slot);
    if (!y || !w)
        return TIEBEAMER_DAMAGED;
    uint32_t x = a.x->rank;
    if (y->rank > x || w->rank > x)
        return settle_commit(t, s, k, a, NO_ROW);
    if (x - y->rank >= 2)
        return settle_commit(t, s, k, a, ROTATE_ONE);
    if (x - y->rank == 0 || x == w->rank)
        return settle_commit(t, s, k, a, NO_ROW);
    if (x - w->rank == 1)
        return settle_commit(t, s, k, a, ROTATE_TWO);
    return k->detail == 4 ? settle_commit(t, s, k, a, DOUBLE) : noted(k, y, 0, SETTLE);
}

static uint32_t choose(struct table t, struct plain_state *s, struct plain_task *k) {
    int left = k->note[1].left == k->here;
    struct around a = {any(t, k->parent), linked(t, k->here), NULL, left ? k->note[1].right : k->note[1].left, 0, 0, left};
    a.s = linked(t, a.s_slot);
    if (!a.z || !a.x || !a.s)
        return TIEBEAMER_DAMAGED;
    a.y_slot = left ? k->note[2].right : k->note[2].left;
    a.w_slot = left ? k->note[2].left : k->note[2].right;
    if (a.s->rank > a.z->rank)
        return settle_commit(t, s, k, a, NO_ROW);
    if (a.z->rank - a.s->rank < 2)
        return settle_commit(t, s, k, a, PROMOTE);
    return k->detail == 2 ? noted(k, a.x, 0, SETTLE) : turn(t, s, k, a);
}

static uint32_t settling(struct table t, struct plain_state *s, struct plain_task *k) {
    if (k->detail == 0)
        return noted_leading(k, any(t, k->grand), k->parent, SETTLE);
    if (k->detail == 1)
        return noted_leading(k, any(t, k->parent), k->here, SETTLE);
    return choose(t, s, k);
}

/* One step of a busy task. */
static inline uint32_t step_busy(struct table t, struct plain_state *s, struct plain_task *k, uint32_t *price) {
    if (!is_sound(s) || k->number > TIEBEAMER_NUMBER_MOST || k->price > TIEBEAMER_PRICE_MOST)
        return TIEBEAMER_DAMAGED;
    switch (k->phase) {
    case START: return walk(t, k, NO_GRAND, 0, any(t, 0), price);
    case WALK: return walk(t, k, k->parent, k->here, linked(t, k->here), price);
    case PUTTING: return putting(t, s, k);
    case TAKING: return taking(t, k);
    default: return settling(t, s, k);
    }
}

uint32_t plain_step(uint32_t *table, size_t count, uint32_t *state, size_t numbers, uint32_t task, uint32_t *price) {
    (void)numbers;
    struct plain_state *s = (struct plain_state *)state;
    *price = 0;
    struct table t = {(struct record *)table, slots_of(count)};
    if (!t.slots)
        return TIEBEAMER_LENGTH;
    if (task > 7)
        return TIEBEAMER_TASK_NUMBER;
    struct plain_task *k = &s->task[task];
    if (k->phase == IDLE)
        return TIEBEAMER_TASK_IDLE;
    return step_busy(t, s, k, price);
}

uint32_t plain_run(uint32_t *table, size_t count, uint32_t *state, size_t numbers, uint32_t task, uint32_t steps,
                   uint32_t *price) {
    struct plain_state *s = (struct plain_state *)state;
    uint32_t answer = plain_step(table, count, state, numbers, task, price);
    struct table t = {(struct record *)table, slots_of(count)};
    while (answer == 0 && --steps)
        answer = step_busy(t, s, &s->task[task], price);
    return answer;
}

/* The other calls. */

uint32_t plain_reset(uint32_t *table, size_t count, uint32_t *state, size_t numbers) {
    (void)numbers;
    if (!slots_of(count))
        return TIEBEAMER_LENGTH;
    struct record *at = (struct record *)table;
    memset(table, 0, count * sizeof *table);
    at[0] = (struct record){IN_TREE, SENTINEL, 0, SENTINEL_RANK, 1, 0};
    at[1] = (struct record){IN_TREE, SENTINEL, 0, SENTINEL_RANK, 0, 0};
    memset(state, 0, sizeof(struct plain_state));
    return 0;
}

uint32_t plain_begin(const uint32_t *table, size_t count, uint32_t *state, size_t numbers, uint32_t task, uint32_t operation,
                     uint32_t number, uint32_t price) {
    (void)table, (void)numbers;
    struct plain_state *s = (struct plain_state *)state;
    if (!slots_of(count))
        return TIEBEAMER_LENGTH;
    if (task > 7)
        return TIEBEAMER_TASK_NUMBER;
    if (number > TIEBEAMER_NUMBER_MOST || price > (operation == PUT ? TIEBEAMER_PRICE_MOST : 0))
        return TIEBEAMER_OUT_OF_RANGE;
    struct plain_task *k = &s->task[task];
    if (k->phase != IDLE)
        return TIEBEAMER_TASK_BUSY;
    if (!is_sound(s))
        return TIEBEAMER_DAMAGED;
    k->phase = START;
    k->number = number;
    k->price = price;
    k->detail = operation;
    return 0;
}

uint32_t plain_abandon(const uint32_t *table, size_t count, uint32_t *state, size_t numbers, uint32_t task) {
    (void)table, (void)numbers;
    struct plain_state *s = (struct plain_state *)state;
    if (!slots_of(count))
        return TIEBEAMER_LENGTH;
    if (task > 7)
        return TIEBEAMER_TASK_NUMBER;
    struct plain_task *k = &s->task[task];
    if (k->phase == IDLE)
        return TIEBEAMER_TASK_IDLE;
    if (!is_sound(s))
        return TIEBEAMER_DAMAGED;
    return settles(k) ? unsettled(s, k) : ended(k, 0);
}

/* What the entry reaches, left before right, by a stack of its own and one mark a slot. */
struct reached {
    uint8_t mark[MOST];
    uint16_t fare[MOST]; /* the slots of the fares, leftmost first */
    uint32_t fares, level, height;
};

struct ahead {
    uint32_t slot, parent;
    uint32_t depth; /* links from the root record plus 1; 0 above it and beside it */
};

static inline void count_in(struct reached *f, struct table t, struct ahead at) {
    const struct record *r = &t.at[at.slot];
    f->mark[at.slot] = 1;
    f->level += (uint32_t)is_level(&t.at[at.parent], r);
    if (is_leaf(r) && r->number != SENTINEL) {
        f->fare[f->fares++] = (uint16_t)at.slot;
        if (at.depth > f->height + 1)
            f->height = at.depth - 1;
    }
}

/* 0 where a record reached gives 17. */
static int reach(struct table t, struct reached *f) {
    struct ahead stack[MOST + 2];
    uint32_t left = 0;
    memset(f->mark, 0, sizeof f->mark);
    f->fares = f->level = f->height = 0;
    if (!any(t, 0) || t.at[0].state == OFF)
        return 0;
    f->mark[0] = 1;
    stack[left++] = (struct ahead){t.at[0].left, 0, 0};
    while (left) {
        struct ahead at = stack[--left];
        const struct record *r = linked(t, at.slot);
        if (!r || r->state == OFF || f->mark[at.slot])
            return 0;
        count_in(f, t, at);
        if (is_leaf(r))
            continue;
        uint32_t depth = at.depth ? at.depth + 1 : 0;
        stack[left++] = (struct ahead){r->right, at.slot, depth};
        stack[left++] = (struct ahead){r->left, at.slot, at.parent ? depth : 1};
    }
    return 1;
}

uint32_t plain_tidy(uint32_t *table, size_t count, uint32_t *state, size_t numbers) {
    (void)numbers;
    const struct plain_state *s = (const struct plain_state *)state;
    struct table t = {(struct record *)table, slots_of(count)};
    struct reached f;
    if (!t.slots)
        return TIEBEAMER_LENGTH;
    for (int i = 0; i < 8; i++)
        if (s->task[i].phase != IDLE)
            return TIEBEAMER_SOME_BUSY;
    if (!is_sound(s) || !reach(t, &f))
        return TIEBEAMER_DAMAGED;
    for (uint32_t slot = 0; slot < t.slots; slot++)
        if (!f.mark[slot])
            t.at[slot] = (struct record){0, 0, 0, 0, 0, 0};
    return 0;
}

/* The largest R whose Fibonacci number R + 3 is at most 2m. */
static uint32_t allowed_rank(uint32_t m) {
    uint32_t rank = 0, low = 2, high = 3;
    if (m == 0)
        return 0;
    while (high <= 2 * m) {
        uint32_t next = low + high;
        low = high;
        high = next;
        rank++;
    }
    return rank;
}

uint32_t plain_figures(const uint32_t *table, size_t count, const uint32_t *state, size_t numbers, uint32_t figures[7]) {
    (void)numbers;
    const struct plain_state *s = (const struct plain_state *)state;
    struct table t = {(struct record *)table, slots_of(count)};
    struct reached f;
    if (!t.slots)
        return TIEBEAMER_LENGTH;
    if (!is_sound(s) || !reach(t, &f))
        return TIEBEAMER_DAMAGED;
    uint32_t free = 0;
    for (uint32_t slot = 0; slot < t.slots; slot++)
        free += t.at[slot].state == FREE;
    figures[TIEBEAMER_HEIGHT] = f.height;
    figures[TIEBEAMER_LEVEL] = f.level;
    figures[TIEBEAMER_C] = s->u + count_settling(s);
    figures[TIEBEAMER_M] = s->m;
    figures[TIEBEAMER_FARES] = f.fares;
    figures[TIEBEAMER_FREE] = free;
    figures[TIEBEAMER_ALLOWED_RANK] = allowed_rank(s->m);
    return 0;
}

uint32_t plain_list(const uint32_t *table, size_t count, const uint32_t *state, size_t numbers, uint32_t *room,
                    size_t room_count) {
    (void)numbers;
    const struct plain_state *s = (const struct plain_state *)state;
    struct table t = {(struct record *)table, slots_of(count)};
    struct reached f;
    if (!t.slots)
        return TIEBEAMER_LENGTH;
    if (!is_sound(s) || !reach(t, &f))
        return TIEBEAMER_DAMAGED;
    if (room_count < 2 * (size_t)f.fares)
        return TIEBEAMER_NO_ROOM;
    for (uint32_t i = 0; i < f.fares; i++) {
        room[2 * i] = t.at[f.fare[i]].number;
        room[2 * i + 1] = t.at[f.fare[i]].price;
    }
    return 0;
}

/* The numbers from a place on are 0. */
static inline int zeros(const uint32_t *task, uint32_t from) {
    uint32_t all = 0;
    for (uint32_t i = from; i < 15; i++)
        all |= task[i];
    return all == 0;
}

static inline int is_task(const struct plain_task *k) {
    const uint32_t *numbers = (const uint32_t *)k;
    switch (k->phase) {
    case IDLE: return zeros(numbers, 0);
    case START: return k->detail - 1 < 4 && zeros(numbers, 4);
    case WALK: return k->detail - 1 < 4 && zeros(numbers, 7);
    case PUTTING: return k->detail <= 2 && zeros(numbers, 7 + 2 * k->detail);
    case TAKING:
    case SETTLING: return k->detail <= 4 && zeros(numbers, 7 + 2 * k->detail);
    default: return 0;
    }
}

int plain_is_state(const uint32_t *state, size_t numbers) {
    const struct plain_state *s = (const struct plain_state *)state;
    if (numbers != TIEBEAMER_STATE_NUMBERS)
        return 0;
    for (int i = 0; i < 8; i++)
        if (!is_task(&s->task[i]))
            return 0;
    return 1;
}

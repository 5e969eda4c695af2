/* Random calls on the archive and on the plain C version, compared number by number after every call; what the archive was
 * asked and what it left goes to standard output, for `second shadow` to do the same by the second program's rules.
 *
 *   compare SLOTS SEED CALLS          the archive
 *   compare SLOTS SEED CALLS plain    the plain C version in its place: for trying wrong ones
 *
 * All that is written are 32-bit numbers, low byte first. First come slots, table numbers and state numbers (both with some
 * spare ones, which no call may touch). Then for each call its nine numbers, answer, price, figures, room, state, table; for
 * each poke its nine numbers alone. */
#include <stdio.h>
#include <stdlib.h>
#include <string.h>

#include "driver.h"

#define LENT 7u /* what the lent places hold before a call */

/* A number that its kind does not use is 0. */
struct call {
    uint32_t kind, operation, task, number, price, count, room, table_count, state_count;
};

static void fail(const char *why) {
    fprintf(stderr, "compare: %s\n", why);
    exit(1);
}

static void put(const uint32_t *numbers, size_t count) {
    if (fwrite(numbers, sizeof *numbers, count, stdout) != count)
        fail("nobody reads what is written");
}

static uint32_t *new_numbers(size_t count) {
    uint32_t *numbers = calloc(count, sizeof *numbers);
    if (!numbers)
        fail("no memory");
    return numbers;
}

/* Calls. */

static void lend(struct places *p, const struct call *c) {
    p->price = LENT;
    for (int i = 0; i < TIEBEAMER_FIGURES; i++)
        p->figures[i] = LENT;
    for (uint32_t i = 0; i < c->room; i++)
        p->room[i] = LENT;
}

static uint32_t answer(const struct side *side, struct places *p, const struct call *c) {
    size_t n = c->table_count, k = c->state_count;
    switch (c->kind) {
    case RESET: return side->reset(p->table, n, p->state, k);
    case BEGIN: return side->begin(p->table, n, p->state, k, c->task, c->operation, c->number, c->price);
    case STEP: return side->step(p->table, n, p->state, k, c->task, &p->price);
    case RUN: return side->run(p->table, n, p->state, k, c->task, c->count, &p->price);
    case ABANDON: return side->abandon(p->table, n, p->state, k, c->task);
    case TIDY: return side->tidy(p->table, n, p->state, k);
    case FIGURES: return side->figures(p->table, n, p->state, k, p->figures);
    default: return side->list(p->table, n, p->state, k, p->room, c->room);
    }
}

static void same(int is, const char *what, const struct call *c) {
    if (is)
        return;
    fprintf(stderr, "compare: archive and plain C part at the %s of call %u\n", what, c->kind);
    exit(1);
}

static void compare_sides(const struct driver *d, const struct call *c) {
    const struct places *a = &d->tried, *b = &d->beside;
    same(a->answer == b->answer, "answer", c);
    same(a->price == b->price, "price", c);
    same(!memcmp(a->figures, b->figures, sizeof a->figures), "figures", c);
    same(!memcmp(a->room, b->room, c->room * sizeof *a->room), "room", c);
    same(!memcmp(a->state, b->state, STATE_ALL * sizeof *a->state), "state", c);
    same(!memcmp(a->table, b->table, d->length * sizeof *a->table), "table", c);
}

static void make(struct driver *d, const struct call *c) {
    lend(&d->tried, c);
    d->tried.answer = answer(d->side, &d->tried, c);
    if (!d->alone) {
        lend(&d->beside, c);
        d->beside.answer = answer(&asking_side, &d->beside, c);
        compare_sides(d, c);
    }
    put((const uint32_t *)c, sizeof *c / sizeof(uint32_t));
    put(&d->tried.answer, 1);
    put(&d->tried.price, 1);
    put(d->tried.figures, TIEBEAMER_FIGURES);
    put(d->tried.room, c->room);
    put(d->tried.state, STATE_ALL);
    put(d->tried.table, d->length);
}

void poke(struct driver *d, uint32_t kind, uint32_t place, uint32_t value) {
    struct call c = {.kind = kind, .number = place, .price = value};
    (kind == POKE_TABLE ? d->tried.table : d->tried.state)[place] = value;
    (kind == POKE_TABLE ? d->beside.table : d->beside.state)[place] = value;
    put((const uint32_t *)&c, sizeof c / sizeof(uint32_t));
}

/* What is chosen. */

static void new_mood(struct driver *d) {
    d->mood.spread = ONE(d, 6, 24, d->slots / 4 + 2, d->slots, 1000000);
    d->mood.run = ONE(d, 0, 0, 3, 20, TIEBEAMER_COUNT_MOST);
    d->mood.put = ONE(d, 20, 45, 70, 90);
    d->mood.take = below(d, 101 - d->mood.put);
    d->mood.abandon = ONE(d, 2, 5, 40);
    d->mood.sorted = percent(d, 15);
}

static struct call of_kind(const struct driver *d, uint32_t kind) {
    return (struct call){.kind = kind, .table_count = TIEBEAMER_SLOT_NUMBERS * d->slots,
                         .state_count = TIEBEAMER_STATE_NUMBERS};
}

static uint32_t fare_number(struct driver *d) {
    if (d->mood.sorted)
        return d->next_sorted = (d->next_sorted + 1) % 1000000;
    return percent(d, 2) ? 999999 - below(d, 2) : below(d, d->mood.spread);
}

static struct call begin_call(struct driver *d, uint32_t task) {
    struct call c = of_kind(d, BEGIN);
    uint32_t what = below(d, 100);
    c.task = task;
    c.operation = what < d->mood.put                  ? TIEBEAMER_PUT_IN
                  : what < d->mood.put + d->mood.take ? TIEBEAMER_TAKE_OUT
                                                      : TIEBEAMER_LOOK_UP;
    c.number = fare_number(d);
    c.price = c.operation == TIEBEAMER_PUT_IN ? below(d, TIEBEAMER_PRICE_MOST + 1) : 0;
    return c;
}

static struct call move_call(struct driver *d, uint32_t task) {
    struct call c = of_kind(d, d->mood.run ? RUN : STEP);
    c.task = task;
    if (below(d, 1000) < d->mood.abandon)
        c.kind = ABANDON;
    else if (d->mood.run)
        c.count = 1 + below(d, d->mood.run);
    return c;
}

static struct call whole_call(struct driver *d) {
    struct call c = of_kind(d, ONE(d, FIGURES, LIST, LIST, TIDY));
    if (c.kind == LIST)
        c.room = percent(d, 50) ? below(d, 2 * d->slots) : below(d, 12);
    return c;
}

static struct call bad_reset(struct driver *d) {
    struct call c = of_kind(d, RESET);
    if (percent(d, 50))
        c.table_count = ONE(d, 0, 42, 47, c.table_count - 1, c.table_count + 1);
    else
        c.state_count = ONE(d, 0, 121, 123);
    return c;
}

/* A number of the call is changed to one that is refused, or may be. */
static struct call bad_call(struct driver *d) {
    struct call c = of_kind(d, ONE(d, BEGIN, BEGIN, STEP, RUN, ABANDON, TIDY, FIGURES, LIST));
    uint32_t length = c.table_count;
    if (percent(d, 10))
        return bad_reset(d);
    if (c.kind == BEGIN)
        c = begin_call(d, below(d, 8));
    if (c.kind == STEP || c.kind == RUN || c.kind == ABANDON)
        c.task = below(d, 8);
    c.count = c.kind == RUN ? 1 + below(d, 9) : 0;
    switch (below(d, 5)) {
    case 0: c.table_count = ONE(d, 0, 42, 47, length - 1, length + 1, length + 6, length - 6); break;
    case 1: c.state_count = ONE(d, 0, 1, 121, 123, 128); break;
    case 2: c.task = c.task || c.kind == STEP ? ONE(d, 7, 8, 9, 255, TOP) : c.task; break;
    case 3:
        c.operation = c.kind == BEGIN ? ONE(d, 0, 4, 5, TOP) : 0;
        c.count = c.kind == RUN ? ONE(d, 0, 65536, TOP) : 0;
        break;
    default:
        c.number = c.kind == BEGIN ? ONE(d, 999999, 1000000, TOP, 5) : 0;
        c.price = c.kind == BEGIN ? ONE(d, 1, 99999, 100000, TOP) : 0;
    }
    return c;
}

/* All tasks to their ends, then a tidy; at times a reset. */
static struct call clear_call(struct driver *d) {
    for (uint32_t task = 0; task < TIEBEAMER_TASKS; task++) {
        if (!*task_row(d, task))
            continue;
        struct call c = of_kind(d, percent(d, 80) ? RUN : ABANDON);
        c.task = task;
        c.count = c.kind == RUN ? TIEBEAMER_COUNT_MOST : 0;
        return c;
    }
    d->clearing = 0;
    return of_kind(d, percent(d, 6) ? RESET : TIDY);
}

/* On a damaged table the same few tasks are moved on. */
static uint32_t any_task(struct driver *d) {
    return below(d, d->hurt_left ? 3 : TIEBEAMER_TASKS);
}

/* A step of the task that stands before a commit, or up to three. */
static struct call stander_call(struct driver *d) {
    struct call c = of_kind(d, percent(d, 50) ? STEP : RUN);
    c.task = d->stander;
    c.count = c.kind == RUN ? 1 + below(d, 3) : 0;
    d->standing = 0;
    return c;
}

static struct call choose(struct driver *d) {
    uint32_t what = below(d, 1000), task = any_task(d);
    if (below(d, 300) == 0)
        new_mood(d);
    if (d->standing)
        return stander_call(d);
    if (d->clearing)
        return clear_call(d);
    if (what < 8)
        return whole_call(d);
    if (what < 28)
        return bad_call(d);
    return *task_row(d, task) ? move_call(d, task) : begin_call(d, task);
}

static void one_round(struct driver *d) {
    if (!d->hurt_left && below(d, 40) == 0)
        hurt(d);
    struct call c = choose(d);
    make(d, &c);
    if (d->tried.answer == TIEBEAMER_NO_ROOM && c.kind != LIST && percent(d, 40))
        d->clearing = 1;
    if (d->hurt_left && --d->hurt_left == 0)
        heal(d);
}

static void start(struct driver *d) {
    d->length = TIEBEAMER_SLOT_NUMBERS * d->slots + SPARE;
    d->tried.table = new_numbers(d->length);
    d->beside.table = new_numbers(d->length);
    d->kept_table = new_numbers(d->length);
    d->tried.state = new_numbers(STATE_ALL);
    d->beside.state = new_numbers(STATE_ALL);
    new_mood(d);
    uint32_t head[] = {d->slots, d->length, STATE_ALL};
    put(head, 3);
    struct call c = of_kind(d, RESET);
    make(d, &c);
}

int main(int words, char **word) {
    static struct driver d;
    if (words != 4 && !(words == 5 && !strcmp(word[4], "plain")))
        fail("usage: compare SLOTS SEED CALLS [plain]");
    d.slots = (uint32_t)strtoul(word[1], NULL, 10);
    d.random.state = strtoull(word[2], NULL, 10);
    d.alone = words == 5;
    d.side = d.alone ? &asking_side : &archive_side;
    if (d.slots < TIEBEAMER_SLOTS_LEAST || d.slots > TIEBEAMER_SLOTS_MOST)
        fail("slots are 8 to 4096");
    start(&d);
    for (unsigned long left = strtoul(word[3], NULL, 10); left > 1; left--)
        one_round(&d);
    if (fflush(stdout))
        fail("nobody reads what is written");
    return 0;
}

/* The same recorded calls through the archive and through the plain C version, by turns in one run.
 *
 *   bench ratios [REPEATS]   each traffic at 64, 256, 1,024 and 4,096 slots
 *   bench growth [REPEATS]   a step by slots, fares and height
 *   bench look SIDE          200,000 calls of look ups once, by tiebeamer, plain or asking: to count instructions
 *
 * A time is the processor time of this program, the median of the repeats. All sides must give the same answers and leave
 * the same table. */
#include <stdio.h>
#include <stdlib.h>
#include <string.h>
#include <time.h>

#include "plain.h"
#include "random.h"
#include "side.h"

#define CALLS_MOST 200000u
#define REPEATS_MOST 101
#define TABLE_MOST TIEBEAMER_TABLE_NUMBERS(TIEBEAMER_SLOTS_MOST)

/* One call of the record, short so that reading it costs little. */
struct brief {
    uint8_t kind, task, operation, unused;
    uint32_t number, price;
};

struct record_of_calls {
    uint32_t slots, count;
    uint32_t table[TABLE_MOST]; /* before the first call */
    struct plain_state state;
    struct brief call[CALLS_MOST];
};

static struct record_of_calls made;
static uint32_t table[TABLE_MOST];
static struct plain_state state;
static struct random chance;
static int by_runs;

#define TABLE table, length()
#define STATE (uint32_t *)&state, TIEBEAMER_STATE_NUMBERS

static void fail(const char *why) {
    fprintf(stderr, "bench: %s\n", why);
    exit(1);
}

static uint32_t below(uint32_t end) {
    return random_below(&chance, end);
}

static size_t length(void) {
    return TIEBEAMER_TABLE_NUMBERS((size_t)made.slots);
}

/* Recording, by the plain C version. */

static void anew(uint32_t slots) {
    made.slots = slots;
    made.count = 0;
    chance.state = slots;
    memset(table, 0, sizeof table);
    memset(&state, 0, sizeof state);
    plain_reset(TABLE, STATE);
}

/* From here on calls are recorded. */
static void from_here(void) {
    made.count = 0;
    memcpy(made.table, table, sizeof table);
    made.state = state;
}

static int full(void) {
    return made.count + 16 > CALLS_MOST;
}

static uint32_t recorded(struct brief b) {
    uint32_t price;
    if (made.count < CALLS_MOST)
        made.call[made.count++] = b;
    switch (b.kind) {
    case BEGIN: return plain_begin(TABLE, STATE, b.task, b.operation, b.number, b.price);
    case STEP: return plain_step(TABLE, STATE, b.task, &price);
    case RUN: return plain_run(TABLE, STATE, b.task, TIEBEAMER_COUNT_MOST, &price);
    case ABANDON: return plain_abandon(TABLE, STATE, b.task);
    default: return plain_tidy(TABLE, STATE);
    }
}

static void begin(uint32_t task, uint32_t operation, uint32_t number) {
    recorded((struct brief){BEGIN, (uint8_t)task, (uint8_t)operation, 0, number, operation == TIEBEAMER_PUT_IN ? 100 : 0});
}

static uint32_t to_its_end(uint32_t task) {
    uint32_t answer = 0;
    while (!answer && !full())
        answer = recorded((struct brief){by_runs ? RUN : STEP, (uint8_t)task, 0, 0, 0, 0});
    return answer;
}

static uint32_t whole(uint32_t task, uint32_t operation, uint32_t number) {
    begin(task, operation, number);
    return to_its_end(task);
}

static void tidy(void) {
    recorded((struct brief){TIDY, 0, 0, 0, 0, 0});
}

static uint32_t any_number(void) {
    return below(1000000);
}

/* Fares put in until the table holds so many, with tidies where there is no room. */
static void fill(uint32_t fares, uint32_t spread) {
    uint32_t held = 0;
    while (held < fares) {
        uint32_t answer = whole(0, TIEBEAMER_PUT_IN, below(spread));
        made.count = 0;
        held += answer == TIEBEAMER_PUT_SETTLED || answer == TIEBEAMER_PUT_UNSETTLED;
        if (answer == TIEBEAMER_NO_ROOM || answer == TIEBEAMER_PUT_UNSETTLED)
            tidy();
    }
    tidy();
}

/* The traffics. */

static void loading(int sorted) {
    from_here();
    for (uint32_t i = 0; whole(0, TIEBEAMER_PUT_IN, sorted ? i : any_number()) != TIEBEAMER_NO_ROOM && !full(); i++)
        ;
}

static void sorted_loading(void) {
    loading(1);
}

static void random_loading(void) {
    loading(0);
}

/* 90 of 100 look up, the rest put in or take out at random; a tidy where there is no room. */
static void day(void) {
    uint32_t fares = made.slots / 4, spread = made.slots / 2;
    fill(fares, spread);
    from_here();
    for (uint32_t i = 0; !full(); i++) {
        uint32_t what = below(100), operation = what < 90 ? TIEBEAMER_LOOK_UP : what < 95 ? TIEBEAMER_PUT_IN : TIEBEAMER_TAKE_OUT;
        if (whole(i % 8, operation, below(spread)) == TIEBEAMER_NO_ROOM)
            tidy();
    }
}

static int busy(uint32_t task) {
    return state.task[task].phase != 0;
}

/* All tasks to their ends, then a tidy. */
static void clear(void) {
    for (uint32_t task = 0; task < 8; task++)
        if (busy(task))
            to_its_end(task);
    tidy();
}

/* Eight tasks put in and take out a few neighbouring numbers, a step each in turn. */
static void contention(void) {
    fill(made.slots / 8, made.slots / 4);
    from_here();
    for (uint32_t i = 0; !full(); i++) {
        uint32_t task = i % 8;
        if (!busy(task))
            begin(task, below(2) ? TIEBEAMER_PUT_IN : TIEBEAMER_TAKE_OUT, below(12));
        else if (recorded((struct brief){STEP, (uint8_t)task, 0, 0, 0, 0}) == TIEBEAMER_NO_ROOM)
            clear();
    }
}

/* Tidies, one put-in and one take-out between. */
static void tidies(void) {
    uint32_t spread = made.slots / 2;
    fill(made.slots / 4, spread);
    from_here();
    while (!full() && made.count < 40000) {
        whole(0, TIEBEAMER_PUT_IN, below(spread));
        whole(1, TIEBEAMER_TAKE_OUT, below(spread));
        tidy();
    }
}

/* Replay. The sum of answers and prices stands for them. */
static uint64_t replay(const struct side *side) {
    uint64_t sum = 0;
    for (uint32_t i = 0; i < made.count; i++) {
        struct brief b = made.call[i];
        uint32_t price = 0;
        switch (b.kind) {
        case BEGIN: sum += side->begin(TABLE, STATE, b.task, b.operation, b.number, b.price); break;
        case STEP: sum += side->step(TABLE, STATE, b.task, &price); break;
        case RUN: sum += side->run(TABLE, STATE, b.task, TIEBEAMER_COUNT_MOST, &price); break;
        case ABANDON: sum += side->abandon(TABLE, STATE, b.task); break;
        default: sum += side->tidy(TABLE, STATE);
        }
        sum = sum * 3 + price;
    }
    return sum;
}

static double now(void) {
    struct timespec t;
    clock_gettime(CLOCK_PROCESS_CPUTIME_ID, &t);
    return (double)t.tv_sec * 1e9 + (double)t.tv_nsec;
}

static int by_size(const void *a, const void *b) {
    double x = *(const double *)a, y = *(const double *)b;
    return (x > y) - (x < y);
}

static const struct side *const sides[] = {&archive_side, &plain_side, &asking_side};

#define SIDES 3

/* Nanoseconds a call of one replay after another from the same table and state; what they left is told by *sum. */
static double timed(const struct side *side, uint64_t *sum) {
    uint32_t rounds = 1 + CALLS_MOST / 2 / made.count;
    double took = 0;
    for (uint32_t i = 0; i < rounds; i++) {
        memcpy(table, made.table, length() * sizeof *table);
        state = made.state;
        double from = now();
        *sum = replay(side);
        took += now() - from;
    }
    for (size_t i = 0; i < length(); i++)
        *sum = *sum * 3 + table[i];
    return took / rounds / made.count;
}

/* The median of the repeats, for each side by turns. */
static void measure(int repeats, double took[SIDES]) {
    static double times[SIDES][REPEATS_MOST];
    uint64_t sum[SIDES];
    for (int i = 0; i < repeats; i++) {
        for (int k = 0; k < SIDES; k++)
            times[k][i] = timed(sides[k], &sum[k]);
        if (sum[0] != sum[1] || sum[0] != sum[2])
            fail("the sides part");
    }
    for (int k = 0; k < SIDES; k++) {
        qsort(times[k], (size_t)repeats, sizeof(double), by_size);
        took[k] = times[k][repeats / 2];
    }
}

static void row(const char *name, uint32_t slots, int repeats) {
    double took[SIDES];
    measure(repeats, took);
    printf("| %s | %u | %u | %.1f | %.1f | %.1f | %.2f | %.2f |\n", name, slots, made.count, took[0], took[1], took[2],
           took[0] / took[1], took[0] / took[2]);
    fflush(stdout);
}

struct traffic {
    const char *name;
    void (*record)(void);
    int runs;
};

static const struct traffic traffics[] = {
    {"sorted loading", sorted_loading, 0}, {"random loading", random_loading, 0},    {"a day", day, 0},
    {"contention", contention, 0},         {"tidies", tidies, 0},                    {"sorted loading, runs", sorted_loading, 1},
    {"random loading, runs", random_loading, 1}, {"a day, runs", day, 1},
};

static void ratios(int repeats) {
    printf("| Traffic | Slots | Calls | Archive | Plain C | Plain C, asking | Ratio | Ratio, asking |\n");
    printf("|---|---|---|---|---|---|---|---|\n");
    for (size_t i = 0; i < sizeof traffics / sizeof *traffics; i++) {
        for (uint32_t slots = 64; slots <= 4096; slots *= 4) {
            anew(slots);
            by_runs = traffics[i].runs;
            traffics[i].record();
            row(traffics[i].name, slots, repeats);
        }
    }
}

/* Growth. */

/* Rising numbers, each put-in given up as soon as it settles: a chain. */
static void chain(uint32_t fares) {
    for (uint32_t i = 0; i < fares; i++) {
        begin(0, TIEBEAMER_PUT_IN, i);
        while (busy(0) && !(state.task[0].phase == 1 && state.task[0].detail == 4))
            recorded((struct brief){STEP, 0, 0, 0, 0, 0});
        if (busy(0))
            recorded((struct brief){ABANDON, 0, 0, 0, 0, 0});
        else
            tidy();
        made.count = 0;
    }
}

static void look_ups(uint32_t spread) {
    from_here();
    for (uint32_t i = 0; !full(); i++)
        whole(i % 8, TIEBEAMER_LOOK_UP, below(spread));
}

/* Put-ins refused with 15: the scan for room goes over all slots. */
static void no_room(void) {
    while (whole(0, TIEBEAMER_PUT_IN, any_number()) != TIEBEAMER_NO_ROOM)
        made.count = 0;
    from_here();
    while (!full() && made.count < 20000)
        whole(0, TIEBEAMER_PUT_IN, any_number());
}

static void growth_row(const char *what, int repeats) {
    uint32_t figures[TIEBEAMER_FIGURES] = {0};
    double took[SIDES];
    plain_figures(TABLE, STATE, figures);
    measure(repeats, took);
    printf("| %s | %u | %u | %u | %.1f | %.1f | %.1f |\n", what, made.slots, figures[TIEBEAMER_FARES], figures[TIEBEAMER_HEIGHT],
           took[0], took[1], took[2]);
    fflush(stdout);
}

static void growth(int repeats) {
    by_runs = 0;
    printf("| What grows | Slots | Fares | Height | Archive | Plain C | Plain C, asking |\n|---|---|---|---|---|---|---|\n");
    for (uint32_t slots = 64; slots <= 4096; slots *= 4) {
        anew(slots);
        fill(16, 1000000);
        look_ups(1000000);
        growth_row("slots", repeats);
    }
    for (uint32_t fares = 16; fares <= 1024; fares *= 4) {
        anew(4096);
        fill(fares, 1000000);
        look_ups(1000000);
        growth_row("fares", repeats);
    }
    for (uint32_t fares = 16; fares <= 1024; fares *= 4) {
        anew(4096);
        chain(fares);
        look_ups(fares);
        growth_row("height", repeats);
    }
    for (uint32_t slots = 64; slots <= 4096; slots *= 4) {
        anew(slots);
        no_room();
        growth_row("the scan for room", repeats);
    }
}

static void look(const char *name) {
    anew(1024);
    fill(256, 1000000);
    look_ups(1000000);
    memcpy(table, made.table, sizeof table);
    state = made.state;
    for (int k = 0; k < SIDES; k++)
        if (!strcmp(name, sides[k]->name))
            printf("%u calls, sum %llu\n", made.count, (unsigned long long)replay(sides[k]));
}

int main(int words, char **word) {
    if (words == 3 && !strcmp(word[1], "look")) {
        look(word[2]);
        return 0;
    }
    int repeats = words > 2 ? atoi(word[2]) : 11;
    if (words < 2 || repeats < 1 || repeats > REPEATS_MOST)
        fail("usage: bench ratios|growth [REPEATS] | look SIDE");
    if (!strcmp(word[1], "growth"))
        growth(repeats);
    else
        ratios(repeats);
    return 0;
}

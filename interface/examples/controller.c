/* A small controller: eight tasks share one fare table and are moved on a step each, round and round.
 *
 * Task 0 is the tariff loader, which puts fares in and takes them out. Task 1 is the panel and task 2 the coin unit, which look
 * fares up. Task 3 is the printer, which looks up what it prints. Tasks 4 to 7 are a second group of the same four. */
#include <stdio.h>

#include "../tiebeamer.h"

#define SLOTS 64
#define JOBS 4

#define LOOK TIEBEAMER_LOOK_UP
#define PUT TIEBEAMER_PUT_IN
#define TAKE TIEBEAMER_TAKE_OUT

struct job {
    uint32_t operation, number, price;
};

struct user {
    const char *name;
    struct job jobs[JOBS];
};

static const struct user users[TIEBEAMER_TASKS] = {
    {"loader", {{PUT, 4711, 250}, {PUT, 1200, 180}, {TAKE, 4711, 0}, {PUT, 4711, 275}}},
    {"panel", {{LOOK, 4711, 0}, {LOOK, 1200, 0}, {LOOK, 4711, 0}, {LOOK, 4711, 0}}},
    {"coin unit", {{LOOK, 1200, 0}, {LOOK, 4711, 0}, {LOOK, 9000, 0}, {LOOK, 4711, 0}}},
    {"printer", {{LOOK, 9000, 0}, {LOOK, 4711, 0}, {LOOK, 1200, 0}, {LOOK, 5555, 0}}},
    {"loader 2", {{PUT, 9000, 999}, {PUT, 5555, 40}, {PUT, 1200, 180}, {TAKE, 9000, 0}}},
    {"panel 2", {{LOOK, 9000, 0}, {LOOK, 5555, 0}, {LOOK, 1200, 0}, {LOOK, 9000, 0}}},
    {"coin unit 2", {{LOOK, 5555, 0}, {LOOK, 9000, 0}, {LOOK, 4711, 0}, {LOOK, 1200, 0}}},
    {"printer 2", {{LOOK, 1200, 0}, {LOOK, 1000000, 0}, {LOOK, 5555, 0}, {LOOK, 4711, 0}}},
};

static const char *operation_name(uint32_t operation) {
    return operation == TIEBEAMER_LOOK_UP ? "look up" : operation == TIEBEAMER_PUT_IN ? "put in" : "take out";
}

static const char *answer_name(uint32_t answer) {
    switch (answer) {
    case TIEBEAMER_ACCEPTED: return "accepted";
    case TIEBEAMER_FOUND: return "found";
    case TIEBEAMER_NOT_HELD: return "not held";
    case TIEBEAMER_PUT_SETTLED: return "put in, settled";
    case TIEBEAMER_HELD_ALREADY: return "held already";
    case TIEBEAMER_TAKEN_OUT: return "taken out";
    case TIEBEAMER_PUT_UNSETTLED: return "put in, unsettled";
    case TIEBEAMER_TASK_NUMBER: return "task number above 7";
    case TIEBEAMER_OUT_OF_RANGE: return "out of range";
    case TIEBEAMER_TASK_BUSY: return "task busy";
    case TIEBEAMER_TASK_IDLE: return "task idle";
    case TIEBEAMER_SOME_BUSY: return "some task busy";
    case TIEBEAMER_NO_ROOM: return "no room";
    case TIEBEAMER_LIMIT: return "put-in limit";
    case TIEBEAMER_DAMAGED: return "damaged";
    case TIEBEAMER_LENGTH: return "table length";
    default: return "?";
    }
}

static uint32_t table[TIEBEAMER_TABLE_NUMBERS(SLOTS)];
static uint32_t state[TIEBEAMER_STATE_NUMBERS];

#define TABLE table, TIEBEAMER_TABLE_NUMBERS(SLOTS)
#define STATE state, TIEBEAMER_STATE_NUMBERS

static unsigned long steps;

/* A step of a busy task; what it ended with is printed. Whether it is busy still. */
static int moved_on(uint32_t task, const struct job *job) {
    uint32_t price = 0;
    uint32_t answer = tiebeamer_step(TABLE, STATE, task, &price);
    steps++;
    if (answer == TIEBEAMER_ACCEPTED)
        return 1;
    printf("%s: %s %u: %s", users[task].name, operation_name(job->operation), job->number, answer_name(answer));
    if (answer == TIEBEAMER_FOUND)
        printf(" at %u", price);
    printf("\n");
    return 0;
}

/* The next job of an idle task is begun. Whether it is busy now. */
static int begun(uint32_t task, const struct job *job) {
    uint32_t answer = tiebeamer_begin(TABLE, STATE, task, job->operation, job->number, job->price);
    if (answer == TIEBEAMER_ACCEPTED)
        return 1;
    printf("%s: %s %u: refused, %s\n", users[task].name, operation_name(job->operation), job->number, answer_name(answer));
    return 0;
}

/* All jobs of all tasks, a step at a time. */
static void serve(void) {
    int next[TIEBEAMER_TASKS] = {0}, busy[TIEBEAMER_TASKS] = {0}, left = 1;
    while (left) {
        left = 0;
        for (uint32_t task = 0; task < TIEBEAMER_TASKS; task++) {
            if (busy[task])
                busy[task] = moved_on(task, &users[task].jobs[next[task] - 1]);
            else if (next[task] < JOBS)
                busy[task] = begun(task, &users[task].jobs[next[task]++]);
            left |= busy[task] || next[task] < JOBS;
        }
    }
}

static void show(const char *what, uint32_t answer) {
    printf("%s: %s\n", what, answer_name(answer));
}

static void show_table(void) {
    uint32_t figures[TIEBEAMER_FIGURES] = {0}, room[2 * SLOTS] = {0};
    show("figures", tiebeamer_figures(TABLE, STATE, figures));
    printf("height %u, level %u, c %u, m %u, fares %u, free %u, allowed rank %u\n", figures[TIEBEAMER_HEIGHT],
           figures[TIEBEAMER_LEVEL], figures[TIEBEAMER_C], figures[TIEBEAMER_M], figures[TIEBEAMER_FARES],
           figures[TIEBEAMER_FREE], figures[TIEBEAMER_ALLOWED_RANK]);
    show("list", tiebeamer_list(TABLE, STATE, room, 2 * SLOTS));
    for (uint32_t i = 0; i < figures[TIEBEAMER_FARES]; i++)
        printf("fare %u at %u\n", room[2 * i], room[2 * i + 1]);
}

/* A put-in by a run, another one given up. */
static void show_run(void) {
    uint32_t price = 0;
    show("begin", tiebeamer_begin(TABLE, STATE, 0, TIEBEAMER_PUT_IN, 77, 120));
    show("run", tiebeamer_run(TABLE, STATE, 0, TIEBEAMER_COUNT_MOST, &price));
    show("begin", tiebeamer_begin(TABLE, STATE, 1, TIEBEAMER_LOOK_UP, 77, 0));
    uint32_t answer = tiebeamer_run(TABLE, STATE, 1, TIEBEAMER_COUNT_MOST, &price);
    printf("run: %s at %u\n", answer_name(answer), price);
    show("begin", tiebeamer_begin(TABLE, STATE, 2, TIEBEAMER_TAKE_OUT, 77, 0));
    show("tidy", tiebeamer_tidy(TABLE, STATE));
    show("abandon", tiebeamer_abandon(TABLE, STATE, 2));
    show("tidy", tiebeamer_tidy(TABLE, STATE));
}

int main(void) {
    show("reset", tiebeamer_reset(TABLE, STATE));
    serve();
    printf("%lu steps\n", steps);
    show_table();
    show_run();
    show_table();
    return 0;
}

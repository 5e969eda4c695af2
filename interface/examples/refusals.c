/* What the interface itself refuses, and that it then changes nothing. */
#include <stdio.h>
#include <string.h>

#include "../tiebeamer.h"

#define SLOTS 8

static uint32_t table[TIEBEAMER_TABLE_NUMBERS(SLOTS)];
static uint32_t state[TIEBEAMER_STATE_NUMBERS];
static uint32_t old_table[TIEBEAMER_TABLE_NUMBERS(SLOTS)];
static uint32_t old_state[TIEBEAMER_STATE_NUMBERS];
static uint32_t price = 7;

#define TABLE table, TIEBEAMER_TABLE_NUMBERS(SLOTS)
#define STATE state, TIEBEAMER_STATE_NUMBERS

static void note(void) {
    memcpy(old_table, table, sizeof table);
    memcpy(old_state, state, sizeof state);
}

static void show(const char *what, uint32_t answer) {
    int same = price == 7 && !memcmp(old_table, table, sizeof table) && !memcmp(old_state, state, sizeof state);
    printf("%s: %u, %s\n", what, answer, same ? "nothing changed" : "changed");
}

/* Every call on numbers that are no state. */
static void show_all(const char *what, size_t count) {
    uint32_t figures[TIEBEAMER_FIGURES] = {0}, room[2] = {0};
    printf("%s\n", what);
    show("reset", tiebeamer_reset(TABLE, state, count));
    show("begin", tiebeamer_begin(TABLE, state, count, 0, TIEBEAMER_LOOK_UP, 1, 0));
    show("step", tiebeamer_step(TABLE, state, count, 0, &price));
    show("run", tiebeamer_run(TABLE, state, count, 0, 1, &price));
    show("abandon", tiebeamer_abandon(TABLE, state, count, 0));
    show("tidy", tiebeamer_tidy(TABLE, state, count));
    show("figures", tiebeamer_figures(TABLE, state, count, figures));
    show("list", tiebeamer_list(TABLE, state, count, room, 2));
    for (int i = 0; i < TIEBEAMER_FIGURES; i++)
        if (figures[i])
            printf("figure %d was written\n", i);
}

int main(void) {
    tiebeamer_reset(TABLE, STATE);
    note();
    show_all("one number short", TIEBEAMER_STATE_NUMBERS - 1);
    state[0] = 6;
    note();
    show_all("a phase that there is not", TIEBEAMER_STATE_NUMBERS);
    state[0] = 0;
    note();
    show("operation 0", tiebeamer_begin(TABLE, STATE, 0, 0, 1, 0));
    show("operation 4", tiebeamer_begin(TABLE, STATE, 0, 4, 1, 0));
    show("a run of no steps", tiebeamer_run(TABLE, STATE, 0, 0, &price));
    show("a run of 65,536 steps", tiebeamer_run(TABLE, STATE, 0, 65536, &price));
    show("task 8", tiebeamer_abandon(TABLE, STATE, 8));
    show("a table of 47 numbers", tiebeamer_tidy(table, 47, STATE));
    return 0;
}

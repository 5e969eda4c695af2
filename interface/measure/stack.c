/* How much stack a call needs on the largest table: each call is made on a painted stack of its own.
 *
 * Two tables of 4,096 slots: the tallest sound one, a chain of fares put in rising and given up while settling; and a damaged
 * one whose way down goes through every slot. */
#include <stdio.h>
#include <stdlib.h>
#include <string.h>
#include <ucontext.h>

#include "side.h"

#define SLOTS TIEBEAMER_SLOTS_MOST
#define NUMBERS TIEBEAMER_TABLE_NUMBERS(SLOTS)
#define STACK (8u << 20)
#define PAINT 0xA5

static uint32_t table[NUMBERS], state[TIEBEAMER_STATE_NUMBERS], room[2 * SLOTS];
static unsigned char stack[STACK];
static ucontext_t here, there;
static const struct side *side;
static uint32_t kind, answer;

#define TABLE table, NUMBERS
#define STATE state, TIEBEAMER_STATE_NUMBERS
#define NOTHING 99

static void make(void) {
    uint32_t figures[TIEBEAMER_FIGURES], price;
    switch (kind) {
    case RESET: answer = side->reset(TABLE, STATE); break;
    case BEGIN: answer = side->begin(TABLE, STATE, 1, TIEBEAMER_LOOK_UP, 5, 0); break;
    case STEP: answer = side->step(TABLE, STATE, 0, &price); break;
    case RUN: answer = side->run(TABLE, STATE, 0, TIEBEAMER_COUNT_MOST, &price); break;
    case ABANDON: answer = side->abandon(TABLE, STATE, 0); break;
    case TIDY: answer = side->tidy(TABLE, STATE); break;
    case FIGURES: answer = side->figures(TABLE, STATE, figures); break;
    case LIST: answer = side->list(TABLE, STATE, room, 2 * SLOTS); break;
    default: answer = 0;
    }
}

/* The bytes of the stack that one call changes. */
static size_t used_by(uint32_t call) {
    size_t left = 0;
    memset(stack, PAINT, STACK);
    kind = call;
    getcontext(&there);
    there.uc_stack.ss_sp = stack;
    there.uc_stack.ss_size = STACK;
    there.uc_link = &here;
    makecontext(&there, make, 0);
    swapcontext(&here, &there);
    while (left < STACK && stack[left] == PAINT)
        left++;
    return STACK - left;
}

static void chain(void) {
    uint32_t price;
    memset(state, 0, sizeof state);
    side->reset(TABLE, STATE);
    for (uint32_t number = 0, refused = 0; refused < 2;) {
        side->begin(TABLE, STATE, 0, TIEBEAMER_PUT_IN, number, 1);
        do
            answer = side->step(TABLE, STATE, 0, &price);
        while (answer == 0 && !(state[0] == 1 && state[3] == 4));
        if (answer == TIEBEAMER_NO_ROOM) {
            side->tidy(TABLE, STATE);
            refused++;
        } else {
            number++;
            refused = 0;
        }
        if (state[0])
            side->abandon(TABLE, STATE, 0);
    }
}

/* Every slot an inner record whose left link leads to the next slot; the last one leads back, so that the way is refused. */
static void damaged(void) {
    table[4] = 1;
    for (uint32_t slot = 1; slot < SLOTS; slot++) {
        uint32_t next = slot == SLOTS - 1 ? 1 : slot + 1;
        uint32_t record[] = {1, 5, 0, 1, next, next == 2 ? 3 : 2};
        memcpy(table + TIEBEAMER_SLOT_NUMBERS * slot, record, sizeof record);
    }
}

static const struct {
    const char *name;
    uint32_t kind;
} calls[] = {{"begin", BEGIN},     {"step", STEP}, {"run", RUN},   {"abandon", ABANDON},
             {"figures", FIGURES}, {"list", LIST}, {"tidy", TIDY}, {"reset", RESET}};

/* Task 0 is about to walk before each call but the last two, which need all tasks idle. */
static void stand(uint32_t call) {
    memset(state, 0, 120 * sizeof *state);
    if (call != TIDY && call != RESET)
        side->begin(TABLE, STATE, 0, TIEBEAMER_PUT_IN, TIEBEAMER_NUMBER_MOST, 1);
}

static void rows(const char *what) {
    static uint32_t kept[NUMBERS];
    size_t nothing = used_by(NOTHING);
    memcpy(kept, table, sizeof kept);
    for (size_t i = 0; i < sizeof calls / sizeof *calls; i++) {
        memcpy(table, kept, sizeof kept);
        stand(calls[i].kind);
        size_t used = used_by(calls[i].kind);
        printf("| %s | %s | %u | %zu |\n", what, calls[i].name, answer, used - nothing);
    }
    memcpy(table, kept, sizeof kept);
}

/* The step that needs most, of put-ins that settle by each kind of commit and of a take-out. */
static void steps(void) {
    static const uint32_t numbers[] = {10, 30, 20, 25, 5, 4, 3, 2, 1, 25};
    size_t nothing = used_by(NOTHING), most = 0, count = sizeof numbers / sizeof *numbers;
    memset(state, 0, sizeof state);
    side->reset(TABLE, STATE);
    for (size_t i = 0; i < count; i++) {
        side->begin(TABLE, STATE, 0, i + 1 < count ? TIEBEAMER_PUT_IN : TIEBEAMER_TAKE_OUT, numbers[i], 0);
        do {
            size_t used = used_by(STEP);
            most = used > most ? used : most;
        } while (answer == 0);
    }
    printf("| settling | step | %u | %zu |\n", answer, most - nothing);
}

int main(int words, char **word) {
    uint32_t figures[TIEBEAMER_FIGURES] = {0};
    side = words > 1 && !strcmp(word[1], "plain") ? &plain_side : &archive_side;
    chain();
    side->figures(TABLE, STATE, figures);
    printf("height of the chain: %u\n\n| Table | Call | Answer | Bytes of stack |\n|---|---|---|---|\n", figures[TIEBEAMER_HEIGHT]);
    rows("chain");
    damaged();
    rows("damaged");
    steps();
    return 0;
}

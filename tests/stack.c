/*
 * How much stack the exported functions use: each is called on a stack of its own that was painted before, many times with random events
 * and journals, and the most that was ever touched is printed, less what an empty call touches. Fails above the limit that docs/SPEED.md
 * states.
 */
#include <stdio.h>
#include <stdlib.h>
#include <string.h>
#include <ucontext.h>

#include "coherence.h"

enum { STACK = 1 << 16, PAINT = 0xa5, ROUNDS = 3000, STEPS = 40, JOURNAL = 400, TEXT = 300, LIMIT = 1024 };

static unsigned char stack[STACK];
static ucontext_t here, there;
static uint64_t state[COHERENCE_WORDS];
static uint64_t fields[COHERENCE_FIELDS], standing[COHERENCE_STANDING], seen[COHERENCE_SEEN];
static uint8_t journal[JOURNAL], text[TEXT], a[5];
static size_t place;
static uint32_t value;
static uint64_t seed = 88172645463325252u;

static uint32_t any(uint32_t below)
{
    seed ^= seed << 13;
    seed ^= seed >> 7;
    seed ^= seed << 17;
    return (uint32_t)(seed >> 32) % below;
}

static void call_nothing(void) {}
static void call_start(void) { coherence_start(state, a[2], a[0], a[1]); }
static void call_load(void) { coherence_load(state, a[0], a[1]); }
static void call_store(void) { coherence_store(state, a[0], a[1], value); }
static void call_drop(void) { coherence_drop(state, a[0], a[1]); }
static void call_ask(void) { coherence_ask(state, a[0], a[1], a[2], a[3]); }
static void call_order(void) { coherence_order(state); }
static void call_deliver(void) { coherence_deliver(state, a[0]); }
static void call_copy(void) { coherence_copy(state, a[0]); }
static void call_rejoin(void) { coherence_rejoin(state, a[0]); }
static void call_read(void) { coherence_read(journal, JOURNAL, &place, fields); }
static void call_write(void) { coherence_write(journal, JOURNAL, &place, a[4], a[0], a[1], a[2], a[3], value, a[0]); }
static void call_counts(void) { coherence_counts(state, seen); }
static void call_message(void) { coherence_message(state, a[0], seen); }
static void call_request(void) { coherence_request(state, a[0], seen); }
static void call_cell(void) { coherence_cell(state, a[0], a[1], seen); }
static void call_home(void) { coherence_home(state, a[0], seen); }
static void call_run(void) { coherence_run(state, journal, JOURNAL, standing, text, TEXT); }

static const struct {
    const char *name;
    void (*call)(void);
} CALLS[] = {
    {"nothing", call_nothing}, {"start", call_start},   {"load", call_load},       {"store", call_store},     {"drop", call_drop},
    {"ask", call_ask},         {"order", call_order},   {"deliver", call_deliver}, {"copy", call_copy},       {"rejoin", call_rejoin},
    {"counts", call_counts},   {"message", call_message}, {"request", call_request}, {"cell", call_cell},     {"home", call_home},
    {"read", call_read},       {"write", call_write},   {"run", call_run},
};

enum { COUNT = sizeof CALLS / sizeof *CALLS, START = 1, FIRST_EVENT = 2, READ = 15, WRITE = 16, RUN = 17 };

/* How many bytes of the painted stack a call touches. */
static size_t touched(void (*call)(void))
{
    memset(stack, PAINT, STACK);
    getcontext(&there);
    there.uc_stack.ss_sp = stack;
    there.uc_stack.ss_size = STACK;
    there.uc_link = &here;
    makecontext(&there, call, 0);
    swapcontext(&here, &there);
    size_t clean = 0;
    while (clean < STACK && stack[clean] == PAINT)
        clean++;
    return STACK - clean;
}

/* Arguments that mostly name what is there. */
static void arguments(void)
{
    for (int i = 0; i < 4; i++)
        a[i] = (uint8_t)any(any(8) == 0 ? 256 : 4);
    a[4] = (uint8_t)(0x10 + any(9));
    value = any(UINT32_MAX);
}

/* A journal of random events. */
static void fill_journal(void)
{
    place = 0;
    memset(standing, 0, sizeof standing);
    coherence_write(journal, JOURNAL, &place, COHERENCE_TAG_OPENING, 4, 4, (uint8_t)any(2), 0, 0, 0);
    for (int i = 0; i < STEPS; i++) {
        arguments();
        coherence_write(journal, JOURNAL, &place, a[4], a[0], a[1], a[2], a[3], value, a[0]);
    }
    place = 0;
}

int main(void)
{
    size_t most[COUNT] = {0}, worst = 0;
    for (int round = 0; round < ROUNDS; round++) {
        a[0] = 4;
        a[1] = 4;
        a[2] = round % 2 == 0 ? COHERENCE_EDITION_MSI : COHERENCE_EDITION_MOSI;
        for (int call = 0; call < FIRST_EVENT; call++) {
            size_t bytes = touched(CALLS[call].call);
            most[call] = bytes > most[call] ? bytes : most[call];
        }
        if (round % 10 == 0)
            fill_journal();
        for (int i = 0; i < STEPS / 4; i++) {
            int call = i % 4 == 3 ? READ + (int)any(3) : FIRST_EVENT + (int)any(READ - FIRST_EVENT);
            arguments();
            size_t bytes = touched(CALLS[call].call);
            most[call] = bytes > most[call] ? bytes : most[call];
        }
    }
    for (int call = START; call < COUNT; call++) {
        size_t bytes = most[call] - most[0];
        printf("%s%s %zu", call == START ? "stack: bytes used by " : ", ", CALLS[call].name, bytes);
        worst = bytes > worst ? bytes : worst;
    }
    printf("\n");
    if (worst > LIMIT) {
        fprintf(stderr, "stack: %zu bytes, and docs/SPEED.md states %d at most\n", worst, LIMIT);
        return EXIT_FAILURE;
    }
    return EXIT_SUCCESS;
}

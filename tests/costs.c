/* What a call costs from C: costs FILE. Prints a line for each kind of call with its nanoseconds, the best of some rounds. */
#define _POSIX_C_SOURCE 200809L
#include "cindrolf_store.h"

#include <stdio.h>
#include <stdlib.h>
#include <time.h>

#define ROUNDS 50
#define LOG state, CINDROLF_STATE_WORDS, entries, CINDROLF_ENTRY_WORDS

static uint64_t state[CINDROLF_STATE_WORDS], entries[CINDROLF_ENTRY_WORDS], answer;
static cindrolf_store *store;

static double now(void) {
    struct timespec time;
    clock_gettime(CLOCK_MONOTONIC, &time);
    return 1e9 * (double)time.tv_sec + (double)time.tv_nsec;
}

static void must(int holds) {
    if (!holds) {
        fprintf(stderr, "costs: a call was not done\n");
        exit(1);
    }
}

static void fresh(void) {
    must(cindrolf_fresh(LOG, 2) == CINDROLF_DONE);
    for (uint64_t step; (step = cindrolf_advise(LOG, 0)) != CINDROLF_STEP_WRITE;)
        must(cindrolf_take(LOG, step, 0, 0) == CINDROLF_DONE);
}

static void write_in_memory(void) { must(cindrolf_write(LOG, 0, 201) >= CINDROLF_ENTRY); }
static void advise_in_memory(void) { must(cindrolf_advise(LOG, 0) == CINDROLF_STEP_WRITE); }
static void refused(void) { must(cindrolf_store_take(store, CINDROLF_STEP_BECOME, 1, 0, &answer) == CINDROLF_STORE_REFUSED); }
static void snapshot(void) {
    must(cindrolf_store_snapshot(store, state, CINDROLF_STATE_WORDS, entries, CINDROLF_ENTRY_WORDS, NULL, 0, NULL, 0, NULL) == CINDROLF_STORE_OK);
}
static void write_stored(void) { must(cindrolf_store_take(store, CINDROLF_STEP_WRITE, 0, 201, &answer) == CINDROLF_STORE_OK); }

static void measure(const char *name, void (*before)(void), void (*call)(void), int count) {
    double best = 1e18;
    for (int round = 0; round < ROUNDS; round++) {
        if (before != NULL)
            before();
        double since = now();
        for (int i = 0; i < count; i++)
            call();
        double took = (now() - since) / count;
        best = took < best ? took : best;
    }
    printf("%s:%.0f\n", name, best);
}

int main(int count, char **words) {
    if (count != 2)
        return 2;
    measure("write, in memory", fresh, write_in_memory, 500);
    measure("advice, in memory", NULL, advise_in_memory, 500);
    must(cindrolf_store_create(words[1], 2, CINDROLF_ENTRY_WORDS, &store, NULL, 0) == CINDROLF_STORE_OK);
    for (uint64_t step = CINDROLF_STEP_BECOME; step != CINDROLF_STEP_WRITE;) {
        must(cindrolf_store_take(store, step, 0, 0, &answer) == CINDROLF_STORE_OK);
        snapshot();
        step = cindrolf_advise(LOG, 0);
    }
    measure("refused step of a store", NULL, refused, 50);
    measure("snapshot of a store", NULL, snapshot, 50);
    measure("write of a store", NULL, write_stored, 50);
    return cindrolf_store_close(store, NULL, 0);
}

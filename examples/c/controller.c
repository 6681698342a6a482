/* Two controllers that follow the adviser. Prints the steps of each, and what became of its read. */
#include "cindrolf.h"

#include <inttypes.h>
#include <stdio.h>

#define LOG state, CINDROLF_STATE_WORDS, entries, CINDROLF_ENTRY_WORDS

static uint64_t state[CINDROLF_STATE_WORDS];
static uint64_t entries[CINDROLF_ENTRY_WORDS];
static uint64_t output[CINDROLF_ENTRY_WORDS];

/* A controller stores both buffers here. The example prints the step instead. */
static void persist(uint64_t step) {
    static const char *const names[] = {"name", "become", "abdicate", "fetch", "close last", "finish", "create", "append", "write", "close own"};
    printf("%s, ", names[step]);
}

/* Takes steps until the read is stored, and returns the answer of its write; or a refusal; or CINDROLF_NO_STEP if another client is named. */
static uint64_t store(uint64_t client, uint64_t value) {
    for (;;) {
        uint64_t step = cindrolf_advise(LOG, client);
        if (step >= CINDROLF_NO_STEP)
            return step;
        uint64_t answer = cindrolf_take(LOG, step, client, value);
        if (answer > CINDROLF_REFUSED && answer < CINDROLF_ENTRY)
            return answer;
        persist(step);
        if (answer >= CINDROLF_ENTRY)
            return answer;
    }
}

static void report(uint64_t client, uint64_t value) {
    printf("client %" PRIu64 ": ", client);
    uint64_t answer = store(client, value);
    if (answer >= CINDROLF_ENTRY)
        printf("stored as entry %" PRIu64 "\n", cindrolf_answer_entry(answer));
    else if (answer == CINDROLF_NO_STEP)
        printf("another client is named\n");
    else
        printf("refusal %" PRIu64 "\n", answer - CINDROLF_REFUSED);
}

int main(void) {
    if (cindrolf_version() != CINDROLF_VERSION || cindrolf_fresh(LOG, 2) != CINDROLF_DONE)
        return 1;
    report(0, 201);
    /* Client 1 takes over up to fetch; then client 0, which has closed its ledger, appends another. */
    cindrolf_close_own(LOG, 0);
    cindrolf_name(LOG, 1);
    cindrolf_become(LOG, 1);
    cindrolf_fetch(LOG, 1);
    cindrolf_create(LOG, 0);
    cindrolf_append(LOG, 0);
    /* So client 1 gets `behind` at its append, and has to begin again: ten steps, which is the most. */
    report(1, 202);
    report(0, 203);
    report(1, UINT64_C(1) << 52);
    struct cindrolf_chain_count chain = cindrolf_read_chain(LOG, output, CINDROLF_ENTRY_WORDS);
    printf("chain");
    for (uint64_t i = 0; i < chain.count; i++)
        printf(" %" PRIu64 ":%" PRIu64, cindrolf_word_client(output[i]), cindrolf_word_value(output[i]));
    printf("\n");
    return 0;
}

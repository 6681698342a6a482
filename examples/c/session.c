/* The example session of docs/REFERENCE.md, step by step through the C functions. Prints what the session program prints and checks every
 * answer. */
#include "cindrolf.h"

#include <inttypes.h>
#include <stdio.h>
#include <stdlib.h>

#define STATE state, CINDROLF_STATE_WORDS
#define ENTRIES entries, CINDROLF_ENTRY_WORDS

static uint64_t state[CINDROLF_STATE_WORDS];
static uint64_t entries[CINDROLF_ENTRY_WORDS];
static uint64_t output[CINDROLF_ENTRY_WORDS];

/* A line of the session, and the expected answer. */
struct line {
    char letter;
    uint64_t client;
    uint64_t value;
    uint64_t expected;
};

/* The answer to a write that becomes this entry, at this place of its ledger. */
#define WRITTEN(entry, place) (CINDROLF_ENTRY + UINT64_C(entry) * 65536 + UINT64_C(place))

static const struct line session[] = {
    {'B', 0, 0, CINDROLF_DONE},
    {'F', 0, 0, CINDROLF_DONE},
    {'C', 0, 0, CINDROLF_DONE},
    {'P', 0, 0, CINDROLF_DONE},
    {'W', 0, 7, WRITTEN(0, 0)},
    {'N', 1, 0, CINDROLF_DONE},
    {'B', 1, 0, CINDROLF_DONE},
    {'F', 1, 0, CINDROLF_DONE},
    {'L', 1, 0, CINDROLF_DONE},
    {'K', 1, 0, CINDROLF_DONE},
    {'W', 0, 8, CINDROLF_REFUSED + CINDROLF_REFUSAL_LEDGER_FENCED},
    {'C', 1, 0, CINDROLF_DONE},
    {'P', 1, 0, CINDROLF_DONE},
    {'W', 1, 9, WRITTEN(1, 0)},
    {'O', 0, 0, CINDROLF_BEHIND},
};

static void expect(const char *what, uint64_t given, uint64_t expected) {
    if (given != expected) {
        fprintf(stderr, "session: %s: %" PRIu64 ", expected %" PRIu64 "\n", what, given, expected);
        exit(1);
    }
}

static uint64_t take_step(const struct line *l) {
    switch (l->letter) {
    case 'N': return cindrolf_name(STATE, ENTRIES, l->client);
    case 'B': return cindrolf_become(STATE, ENTRIES, l->client);
    case 'A': return cindrolf_abdicate(STATE, ENTRIES, l->client);
    case 'F': return cindrolf_fetch(STATE, ENTRIES, l->client);
    case 'L': return cindrolf_close_last(STATE, ENTRIES, l->client);
    case 'K': return cindrolf_finish(STATE, ENTRIES, l->client);
    case 'C': return cindrolf_create(STATE, ENTRIES, l->client);
    case 'P': return cindrolf_append(STATE, ENTRIES, l->client);
    case 'W': return cindrolf_write(STATE, ENTRIES, l->client, l->value);
    default: return cindrolf_close_own(STATE, ENTRIES, l->client);
    }
}

static void print_answer(unsigned number, uint64_t answer) {
    if (answer >= CINDROLF_ENTRY)
        printf("%u entry %" PRIu64 " place %" PRIu64 "\n", number, cindrolf_answer_entry(answer), cindrolf_answer_place(answer));
    else if (answer >= CINDROLF_REFUSED)
        printf("%u ref %" PRIu64 "\n", number, answer - CINDROLF_REFUSED);
    else if (answer == CINDROLF_BEHIND)
        printf("%u behind\n", number);
    else if (answer == CINDROLF_WAS_CLOSED)
        printf("%u was\n", number);
    else
        printf("%u ok\n", number);
}

static void print_chain(void) {
    struct cindrolf_chain_count chain = cindrolf_read_chain(STATE, ENTRIES, output, CINDROLF_ENTRY_WORDS);
    expect("read chain", chain.answer, CINDROLF_DONE);
    printf("chain");
    for (uint64_t i = 0; i < chain.count; i++)
        printf(" %" PRIu64 ":%" PRIu64, cindrolf_word_client(output[i]), cindrolf_word_value(output[i]));
    printf("\n");
}

/* The one word of each ledger in place, and a ledger that does not exist. */
static void check_ledgers(void) {
    for (uint64_t l = 1; l <= 2; l++) {
        struct cindrolf_ledger_part part = cindrolf_read_ledger(STATE, ENTRIES, l);
        expect("read ledger", part.answer, CINDROLF_DONE);
        expect("start of its part", part.start, l - 1);
        expect("words in its part", part.count, 1);
        expect("ledger of its word", cindrolf_word_ledger(entries[part.start]), l);
    }
    struct cindrolf_ledger_part none = cindrolf_read_ledger(STATE, ENTRIES, 3);
    expect("read ledger 3", none.answer, CINDROLF_REFUSED + CINDROLF_REFUSAL_NOT_LISTED);
    expect("start of no part", none.start, 0);
    expect("words in no part", none.count, 0);
}

/* The next entry of the new leader, from the quality scores of a read. */
static void check_scores(void) {
    const uint16_t scores[] = {0, 40, 372};
    expect("write scores", cindrolf_write_scores(STATE, ENTRIES, 1, scores, 3), WRITTEN(2, 1));
    expect("the sum of their parts", cindrolf_word_value(entries[2]), UINT64_C(1100000000501));
    expect("write no scores", cindrolf_write_scores(STATE, ENTRIES, 1, scores, 0), CINDROLF_REFUSED + CINDROLF_REFUSAL_SCORE_COUNT);
}

int main(void) {
    expect("fresh with 17 clients", cindrolf_fresh(STATE, ENTRIES, 17), CINDROLF_REFUSED + CINDROLF_REFUSAL_CLIENT_COUNT);
    expect("well formed before fresh", cindrolf_well_formed(STATE, ENTRIES), false);
    expect("fresh", cindrolf_fresh(STATE, ENTRIES, 3), CINDROLF_DONE);
    for (unsigned i = 0; i < sizeof session / sizeof session[0]; i++) {
        uint64_t answer = take_step(&session[i]);
        print_answer(i + 1, answer);
        expect("a step", answer, session[i].expected);
    }
    print_chain();
    check_ledgers();
    check_scores();
    expect("abdicate a named leader", cindrolf_abdicate(STATE, ENTRIES, 1), CINDROLF_REFUSED + CINDROLF_REFUSAL_ALREADY_NAMED);
    expect("read chain into one word", cindrolf_read_chain(STATE, ENTRIES, output, 1).answer,
           CINDROLF_REFUSED + CINDROLF_REFUSAL_OUTPUT_TOO_SHORT);
    expect("well formed", cindrolf_well_formed(STATE, ENTRIES), true);
    return 0;
}

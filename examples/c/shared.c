/* A controller that shares a log with others. It reads one value a line and writes it with the steps that the adviser names; hands over to
 * the next client after 16 of them; and on SIGINT or SIGTERM hands over, closes the log and ends. */
#define _POSIX_C_SOURCE 200809L
#include <cindrolf_store.h>

#include <fcntl.h>
#include <inttypes.h>
#include <signal.h>
#include <stdio.h>
#include <stdlib.h>
#include <unistd.h>

static cindrolf_store *store;
static struct cindrolf_store_taken now;
static uint64_t client, state[CINDROLF_STATE_WORDS], entries[CINDROLF_ENTRY_WORDS];
static volatile sig_atomic_t ending = 0;
static int nothing;

/* From now on there are no more reads, and no call waits for long. */
static void end(int number) {
    (void)number;
    ending = 1;
    cindrolf_store_end_waiting();
    dup2(nothing, STDIN_FILENO);
}

/* If a call failed, says why and ends. After UNKNOWN, read the log before you send the same read again. */
static void must(int status) {
    char why[CINDROLF_STORE_MESSAGE_BYTES];
    if (status == CINDROLF_STORE_OK)
        return;
    cindrolf_store_message(store, why, sizeof why);
    fprintf(stderr, "controller: %s\n", why);
    exit(1);
}

static uint64_t advised(void) {
    must(cindrolf_store_snapshot(store, state, CINDROLF_STATE_WORDS, entries, CINDROLF_ENTRY_WORDS, NULL, 0, NULL, 0, &now));
    return cindrolf_advise(state, CINDROLF_STATE_WORDS, entries, (size_t)now.entry_words, client);
}

/* Takes a step. If another client was faster it is refused, and the adviser knows what to do next; these four refusals are final. */
static uint64_t take(uint64_t step, uint64_t who, uint64_t value) {
    uint64_t answer = 0;
    char text[CINDROLF_TEXT_BYTES], row[CINDROLF_STORE_ROW_BYTES];
    int status = cindrolf_store_take(store, step, who, value, &answer);
    if (status != CINDROLF_STORE_REFUSED)
        return must(status), answer;
    uint64_t refusal = answer - CINDROLF_REFUSED;
    struct cindrolf_sentence_bytes said = cindrolf_sentence(step, who, refusal, text, sizeof text);
    must(cindrolf_store_last_row(store, row, sizeof row));
    printf("refused %" PRIu64 " at row %llu: %.*s\n", value, strtoull(row, NULL, 10), (int)said.length, text);
    if (refusal == CINDROLF_REFUSAL_NO_LEDGER_NUMBER || refusal == CINDROLF_REFUSAL_LOG_FULL || refusal == CINDROLF_REFUSAL_VALUE_TOO_WIDE ||
        refusal == CINDROLF_REFUSAL_MISSING_RIGHT)
        exit(1);
    return answer;
}

/* Takes steps until the read is stored. While another client is named, it waits for a change. */
static void write_read(uint64_t value) {
    while (!ending) {
        uint64_t step = advised(), changed;
        if (step == CINDROLF_NO_STEP) {
            must(cindrolf_store_changed(store, 1000, &changed));
            continue;
        }
        uint64_t answer = take(step, client, value);
        if (answer >= CINDROLF_ENTRY) {
            printf("stored %" PRIu64 " as entry %" PRIu64 " place %" PRIu64 "\n", value, cindrolf_answer_entry(answer), cindrolf_answer_place(answer));
            return;
        }
    }
}

/* The named client names the next one. A client that leads and is not named abdicates. */
static void hand_over(void) {
    uint64_t step = advised();
    if (step != CINDROLF_NO_STEP && step != CINDROLF_STEP_ABDICATE && now.clients > 1)
        take(CINDROLF_STEP_NAME, (client + 1) % now.clients, 0);
    if (advised() == CINDROLF_STEP_ABDICATE)
        take(CINDROLF_STEP_ABDICATE, client, 0);
}

int main(int count, char **words) {
    char line[32], why[CINDROLF_STORE_MESSAGE_BYTES];
    if (count != 3 || cindrolf_store_version() != CINDROLF_STORE_VERSION)
        return fprintf(stderr, "usage: shared ADDRESS CLIENT\n"), 2;
    client = strtoull(words[2], NULL, 10);
    struct sigaction action = {.sa_handler = end};
    nothing = open("/dev/null", O_RDONLY);
    sigaction(SIGINT, &action, NULL);
    sigaction(SIGTERM, &action, NULL);
    setvbuf(stdout, NULL, _IOLBF, 0);
    if (cindrolf_store_open(words[1], &store, why, sizeof why) != CINDROLF_STORE_OK)
        return fprintf(stderr, "controller: %s: %s\n", words[1], why), 1;
    for (int written = 1; !ending && fgets(line, sizeof line, stdin) != NULL; written++) {
        write_read(strtoull(line, NULL, 10));
        if (written % 16 == 0)
            hand_over();
    }
    hand_over();
    return cindrolf_store_close(store, NULL, 0) != CINDROLF_STORE_OK;
}

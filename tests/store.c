/* The store from C and C++: invalid handles, opening, statuses and messages, a handover whose words the readers of cindrolf.h read,
 * batches, plans, marks, rights, waits for changes, threads and forks. Its argument is the folder that it works in. It compiles as C and as
 * C++. */
#define _POSIX_C_SOURCE 200809L
#include "cindrolf_store.h"

#include <inttypes.h>
#include <pthread.h>
#include <stdio.h>
#include <stdlib.h>
#include <string.h>
#include <sys/wait.h>
#include <time.h>
#include <unistd.h>

#define REFUSED(number) (CINDROLF_REFUSED + (number))
#define NO_TEXT NULL, 0

static uint64_t state[CINDROLF_STATE_WORDS], entries[CINDROLF_ENTRY_WORDS], output[CINDROLF_ENTRY_WORDS];
static uint64_t marks[CINDROLF_MARK_WORDS], rights[CINDROLF_RIGHTS_WORDS];
static struct cindrolf_store_taken taken;
static int wrong = 0;

#define LOG state, CINDROLF_STATE_WORDS, entries, (size_t)taken.entry_words

static void expect(const char *what, uint64_t given, uint64_t expected) {
    if (given != expected) {
        fprintf(stderr, "store: %s: %" PRIu64 ", expected %" PRIu64 "\n", what, given, expected);
        wrong = 1;
    }
}

static void is(const char *what, int status, int expected) {
    if (status != expected) {
        fprintf(stderr, "store: %s: status %d (%s), expected %d\n", what, status, cindrolf_store_status_text(status), expected);
        wrong = 1;
    }
}

static void says(const char *what, const char *message, const char *part) {
    if (strstr(message, part) == NULL) {
        fprintf(stderr, "store: %s: '%s' does not have '%s'\n", what, message, part);
        wrong = 1;
    }
}

static void reason(const char *what, cindrolf_store *store, const char *part) {
    char text[CINDROLF_STORE_MESSAGE_BYTES];
    is(what, cindrolf_store_message(store, text, sizeof text), CINDROLF_STORE_OK);
    says(what, text, part);
}

static void look(cindrolf_store *store) {
    is("snapshot",
       cindrolf_store_snapshot(store, state, CINDROLF_STATE_WORDS, entries, CINDROLF_ENTRY_WORDS, marks, CINDROLF_MARK_WORDS, rights,
                               CINDROLF_RIGHTS_WORDS, &taken),
       CINDROLF_STORE_OK);
}

/* Takes a step, whose answer has to be this one. */
static void step(cindrolf_store *store, uint64_t number, uint64_t client, uint64_t value, uint64_t expected) {
    uint64_t answer = 99;
    int status = cindrolf_store_take(store, number, client, value, &answer);
    char what[64];
    snprintf(what, sizeof what, "step %" PRIu64 " of client %" PRIu64, number, client);
    expect(what, answer, expected);
    is(what, status, expected > CINDROLF_REFUSED && expected < CINDROLF_ENTRY ? CINDROLF_STORE_REFUSED : CINDROLF_STORE_OK);
}

static cindrolf_store *opened(const char *file) {
    cindrolf_store *store = NULL;
    is(file, cindrolf_store_open(file, &store, NO_TEXT), CINDROLF_STORE_OK);
    return store;
}

/* Every function that takes a handle says that this is none. */
static void no_handle(cindrolf_store *store) {
    const struct cindrolf_store_asked asked = {CINDROLF_STEP_NAME, 1, 0, NULL, 0, NULL};
    const uint16_t score = 40;
    uint64_t number = 0;
    char text[CINDROLF_STORE_MESSAGE_BYTES];
    const int statuses[] = {
        cindrolf_store_close(store, text, sizeof text),
        cindrolf_store_unknown_request(store, &number),
        cindrolf_store_set_patience(store, 1),
        cindrolf_store_set_process_name(store, "x"),
        cindrolf_store_keep_witness(store, "x"),
        cindrolf_store_take(store, CINDROLF_STEP_NAME, 1, 0, &number),
        cindrolf_store_write_scores(store, 0, &score, 1, &number),
        cindrolf_store_take_all(store, &asked, 1, &number, 1),
        cindrolf_store_run_plan(store, &number, 1, 1, &number),
        cindrolf_store_set_mark(store, 1, &number),
        cindrolf_store_drop_mark(store, 1, &number),
        cindrolf_store_grant(store, 0, 0, &number),
        cindrolf_store_revoke(store, 0, 0, &number),
        cindrolf_store_set_rights(store, rights, CINDROLF_RIGHTS_WORDS, &number),
        cindrolf_store_snapshot(store, NULL, 0, NULL, 0, NULL, 0, NULL, 0, &taken),
        cindrolf_store_changed(store, 0, &number),
        cindrolf_store_settle(store, 1, &number, &number),
        cindrolf_store_last_row(store, text, sizeof text),
        cindrolf_store_has_row(store, "0:00000000000000000000000000000000"),
        cindrolf_store_check(store, &number, &number),
        cindrolf_store_checkpoint(store, &number),
        cindrolf_store_copy(store, "x"),
        cindrolf_store_message(store, text, sizeof text),
    };
    for (size_t i = 0; i < sizeof statuses / sizeof statuses[0]; i++)
        is("a handle that is none", statuses[i], CINDROLF_STORE_BAD_HANDLE);
    says("a handle that is none", text, "null, closed");
}

static void handles(void) {
    no_handle(NULL);
    no_handle((cindrolf_store *)(uintptr_t)1);
    no_handle((cindrolf_store *)(uintptr_t)&wrong);
    no_handle((cindrolf_store *)UINTPTR_MAX);
    cindrolf_store *store = NULL, *again = NULL;
    is("create", cindrolf_store_create("handles.db", 2, CINDROLF_ENTRY_WORDS, &store, NO_TEXT), CINDROLF_STORE_OK);
    is("close", cindrolf_store_close(store, NO_TEXT), CINDROLF_STORE_OK);
    no_handle(store);
    again = opened("handles.db");
    expect("a number that is given twice", again == store, 0);
    no_handle(store);
    is("close", cindrolf_store_close(again, NO_TEXT), CINDROLF_STORE_OK);
}

static void opening(void) {
    cindrolf_store *store = (cindrolf_store *)(uintptr_t)&wrong;
    char why[CINDROLF_STORE_MESSAGE_BYTES], little[8];
    is("nothing there", cindrolf_store_open("nothing.db", &store, why, sizeof why), CINDROLF_STORE_MISSING);
    says("nothing there", why, "no such file");
    expect("the handle of what is not there", store == NULL, 1);
    is("a little room", cindrolf_store_open("nothing.db", &store, little, sizeof little), CINDROLF_STORE_MISSING);
    expect("a message that is cut", strcmp(little, "there i"), 0);
    is("create", cindrolf_store_create("opening.db", 2, CINDROLF_SMALL_ENTRY_WORDS, &store, why, sizeof why), CINDROLF_STORE_OK);
    expect("no message", why[0], 0);
    is("close", cindrolf_store_close(store, NO_TEXT), CINDROLF_STORE_OK);
    is("create again", cindrolf_store_create("opening.db", 2, CINDROLF_ENTRY_WORDS, &store, NO_TEXT), CINDROLF_STORE_EXISTS);
    is("17 clients", cindrolf_store_create("other.db", 17, CINDROLF_ENTRY_WORDS, &store, why, sizeof why), CINDROLF_STORE_REFUSED);
    says("17 clients", why, "refusal 17");
    is("513 words", cindrolf_store_create("other.db", 2, 513, &store, why, sizeof why), CINDROLF_STORE_REFUSED);
    says("513 words", why, "refusal 1)");
    is("no address", cindrolf_store_open(NULL, &store, why, sizeof why), CINDROLF_STORE_BAD_ARGUMENT);
    says("no address", why, "address is null");
    is("no room for the handle", cindrolf_store_open("opening.db", NULL, why, sizeof why), CINDROLF_STORE_BAD_ARGUMENT);
    is("half an address", cindrolf_store_open("postgresql://localhost/x", &store, NO_TEXT), CINDROLF_STORE_BAD_ARGUMENT);
    is("read only", cindrolf_store_open_read_only("opening.db", &store, NO_TEXT), CINDROLF_STORE_OK);
    is("a step, read only", cindrolf_store_take(store, CINDROLF_STEP_BECOME, 0, 0, NULL), CINDROLF_STORE_READ_ONLY);
    is("close", cindrolf_store_close(store, NO_TEXT), CINDROLF_STORE_OK);
    FILE *file = fopen("text.db", "w");
    fputs("no log at all, but a text of some length\n", file);
    fclose(file);
    is("a text", cindrolf_store_open("text.db", &store, why, sizeof why), CINDROLF_STORE_NO_LOG);
}

/* The handover of the README, by two handles. */
static void handover(void) {
    cindrolf_store *host = NULL;
    is("create", cindrolf_store_create("run.db", 2, CINDROLF_ENTRY_WORDS, &host, NO_TEXT), CINDROLF_STORE_OK);
    step(host, CINDROLF_STEP_BECOME, 0, 0, CINDROLF_DONE);
    step(host, CINDROLF_STEP_FETCH, 0, 0, CINDROLF_DONE);
    step(host, CINDROLF_STEP_CREATE, 0, 0, CINDROLF_DONE);
    step(host, CINDROLF_STEP_APPEND, 0, 0, CINDROLF_DONE);
    step(host, CINDROLF_STEP_WRITE, 0, 201, CINDROLF_ENTRY);
    cindrolf_store *guest = opened("run.db");
    look(guest);
    expect("the rows", taken.rows, 5);
    expect("the clients", taken.clients, 2);
    expect("the entry words", taken.entry_words, CINDROLF_ENTRY_WORDS);
    expect("the advice", cindrolf_advise(LOG, 1), CINDROLF_NO_STEP);
    step(guest, CINDROLF_STEP_NAME, 1, 0, CINDROLF_DONE);
    uint64_t advised[] = {CINDROLF_STEP_BECOME, CINDROLF_STEP_FETCH, CINDROLF_STEP_CLOSE_LAST, CINDROLF_STEP_FINISH};
    for (size_t i = 0; i < 4; i++) {
        look(guest);
        expect("the advice", cindrolf_advise(LOG, 1), advised[i]);
        step(guest, advised[i], 1, 0, CINDROLF_DONE);
    }
    step(host, CINDROLF_STEP_WRITE, 0, 202, REFUSED(CINDROLF_REFUSAL_LEDGER_FENCED));
    reason("the refusal", host, "another leader has fenced the ledger (refusal 12)");
    reason("nothing of the guest", guest, "");
    char text[4] = "abc";
    is("a message of nothing", cindrolf_store_message(guest, text, sizeof text), CINDROLF_STORE_OK);
    expect("the guest's message", text[0], 0);
    step(host, 10, 0, 0, REFUSED(CINDROLF_REFUSAL_UNKNOWN_STEP));
    look(host);
    struct cindrolf_chain_count chain = cindrolf_read_chain(LOG, output, CINDROLF_ENTRY_WORDS);
    expect("the chain", chain.count, 1);
    expect("its value", cindrolf_word_value(output[0]), 201);
    expect("the total", cindrolf_run_total(LOG).parts, 201);
    is("close", cindrolf_store_close(host, NO_TEXT), CINDROLF_STORE_OK);
    is("close", cindrolf_store_close(guest, NO_TEXT), CINDROLF_STORE_OK);
}

static void batches(void) {
    cindrolf_store *store = opened("run.db");
    const uint16_t scores[] = {40, 372};
    const uint64_t name = cindrolf_mark_name("pre-wash");
    const struct cindrolf_store_asked asked[] = {
        {CINDROLF_STEP_CREATE, 1, 0, NULL, 0, NULL},
        {CINDROLF_STEP_APPEND, 1, 0, NULL, 0, NULL},
        {CINDROLF_STEP_WRITE, 1, 203, NULL, 0, "read 7 of lane 2"},
        {CINDROLF_STEP_WRITE, 0, 204, NULL, 0, NULL},
        {CINDROLF_STORE_KIND_WRITE_SCORES, 1, 0, scores, 2, NULL},
        {CINDROLF_STORE_KIND_SET_MARK, 0, name, NULL, 0, NULL},
        {CINDROLF_STORE_KIND_SET_RIGHTS, 1, CINDROLF_RIGHT_WRITE, NULL, 0, NULL},
        {CINDROLF_STEP_CLOSE_OWN, 1, 0, NULL, 0, NULL},
        {CINDROLF_STORE_KIND_DROP_MARK, 0, name + 1, NULL, 0, NULL},
    };
    const uint64_t expected[] = {CINDROLF_DONE, CINDROLF_DONE, CINDROLF_ENTRY + 65536, REFUSED(12), CINDROLF_ENTRY + 2 * 65536 + 1,
                                 CINDROLF_DONE, CINDROLF_DONE, REFUSED(24),            REFUSED(23)};
    uint64_t answers[9];
    is("a batch", cindrolf_store_take_all(store, asked, 9, answers, 9), CINDROLF_STORE_OK);
    for (size_t i = 0; i < 9; i++)
        expect("an answer of a batch", answers[i], expected[i]);
    is("all refused", cindrolf_store_take_all(store, asked + 7, 2, answers, 9), CINDROLF_STORE_REFUSED);
    expect("the first refusal", answers[0], REFUSED(24));
    expect("the second refusal", answers[1], REFUSED(23));
    is("nothing", cindrolf_store_take_all(store, NULL, 0, NULL, 0), CINDROLF_STORE_OK);
    is("no room", cindrolf_store_take_all(store, asked, 9, answers, 8), CINDROLF_STORE_BAD_ARGUMENT);
    reason("no room", store, "8 answers");
    struct cindrolf_store_asked bad = {14, 0, 0, NULL, 0, NULL};
    is("no kind", cindrolf_store_take_all(store, &bad, 1, answers, 1), CINDROLF_STORE_BAD_ARGUMENT);
    char note[CINDROLF_STORE_NOTE_LIMIT + 2];
    memset(note, 'n', sizeof note - 1);
    note[sizeof note - 1] = 0;
    bad.kind = CINDROLF_STEP_NAME, bad.note = note;
    is("a long note", cindrolf_store_take_all(store, &bad, 1, answers, 1), CINDROLF_STORE_BAD_ARGUMENT);
    look(store);
    expect("the mark", cindrolf_mark_read(LOG, marks, CINDROLF_MARK_WORDS, name, output, CINDROLF_ENTRY_WORDS).count, 3);
    expect("the rights", rights[1], CINDROLF_RIGHT_WRITE);
    expect("a step under them", cindrolf_take_with(LOG, rights, CINDROLF_RIGHTS_WORDS, CINDROLF_STEP_CLOSE_OWN, 1, 0), REFUSED(24));
    is("close", cindrolf_store_close(store, NO_TEXT), CINDROLF_STORE_OK);
}

static void marks_and_rights(void) {
    cindrolf_store *store = opened("run.db");
    uint64_t answer = 99, name = cindrolf_mark_name("wash\0\0\0");
    is("set a mark", cindrolf_store_set_mark(store, name, &answer), CINDROLF_STORE_OK);
    expect("set a mark", answer, CINDROLF_DONE);
    is("set it twice", cindrolf_store_set_mark(store, name, &answer), CINDROLF_STORE_REFUSED);
    expect("set it twice", answer, REFUSED(CINDROLF_REFUSAL_MARK_NAME_TAKEN));
    is("drop it", cindrolf_store_drop_mark(store, name, NULL), CINDROLF_STORE_OK);
    is("drop it twice", cindrolf_store_drop_mark(store, name, &answer), CINDROLF_STORE_REFUSED);
    expect("drop it twice", answer, REFUSED(CINDROLF_REFUSAL_MARK_NOT_KEPT));
    is("grant", cindrolf_store_grant(store, 1, CINDROLF_STEP_CLOSE_OWN, &answer), CINDROLF_STORE_OK);
    is("revoke", cindrolf_store_revoke(store, 1, CINDROLF_STEP_WRITE, &answer), CINDROLF_STORE_OK);
    look(store);
    expect("the rights", rights[1], CINDROLF_RIGHT_CLOSE_OWN);
    is("grant to nobody", cindrolf_store_grant(store, 2, 0, &answer), CINDROLF_STORE_REFUSED);
    expect("grant to nobody", answer, REFUSED(CINDROLF_REFUSAL_UNKNOWN_CLIENT));
    is("grant no step", cindrolf_store_grant(store, 1, 10, &answer), CINDROLF_STORE_REFUSED);
    expect("grant no step", answer, REFUSED(CINDROLF_REFUSAL_UNKNOWN_STEP));
    is("15 words", cindrolf_store_set_rights(store, rights, 15, &answer), CINDROLF_STORE_REFUSED);
    expect("15 words", answer, REFUSED(CINDROLF_REFUSAL_WRONG_LENGTH));
    rights[2] = 1;
    is("rights of no client", cindrolf_store_set_rights(store, rights, CINDROLF_RIGHTS_WORDS, &answer), CINDROLF_STORE_REFUSED);
    expect("rights of no client", answer, REFUSED(CINDROLF_REFUSAL_NOT_WELL_FORMED));
    rights[0] = rights[1] = CINDROLF_ALL_RIGHTS, rights[2] = 0;
    is("all rights", cindrolf_store_set_rights(store, rights, CINDROLF_RIGHTS_WORDS, &answer), CINDROLF_STORE_OK);
    const uint16_t scores[] = {372, 373};
    is("scores", cindrolf_store_write_scores(store, 1, scores, 1, &answer), CINDROLF_STORE_OK);
    expect("scores", answer, CINDROLF_ENTRY + 3 * 65536 + 2);
    is("a high score", cindrolf_store_write_scores(store, 1, scores, 2, &answer), CINDROLF_STORE_REFUSED);
    expect("a high score", answer, REFUSED(CINDROLF_REFUSAL_SCORE_TOO_HIGH));
    is("no scores", cindrolf_store_write_scores(store, 1, NULL, 0, &answer), CINDROLF_STORE_REFUSED);
    is("null scores", cindrolf_store_write_scores(store, 1, NULL, 1, &answer), CINDROLF_STORE_BAD_ARGUMENT);
    is("close", cindrolf_store_close(store, NO_TEXT), CINDROLF_STORE_OK);
}

static void plans(void) {
    cindrolf_store *store = opened("run.db");
    uint64_t plan[] = {cindrolf_step_word(CINDROLF_STEP_WRITE, 1, 5), UINT64_MAX, cindrolf_step_word(CINDROLF_STEP_CLOSE_OWN, 1, 0),
                       cindrolf_step_word(CINDROLF_STEP_CREATE, 1, 0), cindrolf_step_word(CINDROLF_STEP_NAME, 0, 0)};
    look(store);
    struct cindrolf_plan_counts adds = cindrolf_forecast(LOG, rights, CINDROLF_RIGHTS_WORDS, plan, 5, 4);
    expect("entries of the forecast", adds.entries, 1);
    expect("ledgers of the forecast", adds.ledgers, 1);
    uint64_t count = cindrolf_read_chain(LOG, output, CINDROLF_ENTRY_WORDS).count, done = 0;
    is("a plan", cindrolf_store_run_plan(store, plan, 5, 4, &done), CINDROLF_STORE_OK);
    expect("steps of the plan", done, 4);
    look(store);
    expect("entries of the plan", cindrolf_read_chain(LOG, output, CINDROLF_ENTRY_WORDS).count, count + adds.entries);
    expect("the step beyond the budget", cindrolf_advise(LOG, 1), CINDROLF_STEP_APPEND);
    is("no plan", cindrolf_store_run_plan(store, NULL, 0, 9, &done), CINDROLF_STORE_OK);
    expect("no plan", done, 0);
    is("close", cindrolf_store_close(store, NO_TEXT), CINDROLF_STORE_OK);
}

static void snapshots(void) {
    cindrolf_store *store = opened("opening.db");
    is("entries, too short", cindrolf_store_snapshot(store, NULL, 0, entries, 511, NULL, 0, NULL, 0, NULL), CINDROLF_STORE_BAD_ARGUMENT);
    reason("entries, too short", store, "entries has 511 words, and the log 512");
    is("state, too short", cindrolf_store_snapshot(store, state, 526, NULL, 0, NULL, 0, NULL, 0, NULL), CINDROLF_STORE_BAD_ARGUMENT);
    is("state, not aligned", cindrolf_store_snapshot(store, (uint64_t *)((uintptr_t)state + 1), CINDROLF_STATE_WORDS, NULL, 0, NULL, 0, NULL, 0, NULL),
       CINDROLF_STORE_BAD_ARGUMENT);
    is("null marks", cindrolf_store_snapshot(store, NULL, 0, NULL, 0, NULL, 64, NULL, 0, NULL), CINDROLF_STORE_BAD_ARGUMENT);
    is("nothing wanted", cindrolf_store_snapshot(store, NULL, 0, NULL, 0, NULL, 0, NULL, 0, NULL), CINDROLF_STORE_OK);
    entries[512] = 77;
    look(store);
    expect("words of a small log", taken.entry_words, CINDROLF_SMALL_ENTRY_WORDS);
    expect("the word after them", entries[512], 77);
    expect("a small log", cindrolf_well_formed(LOG), 1);
    is("close", cindrolf_store_close(store, NO_TEXT), CINDROLF_STORE_OK);
}

static void rows(void) {
    cindrolf_store *store = opened("run.db");
    char row[CINDROLF_STORE_ROW_BYTES], other[CINDROLF_STORE_ROW_BYTES];
    uint64_t counted = 0, wrong_answers = 9, whole = 9, found = 9;
    is("the last row", cindrolf_store_last_row(store, row, sizeof row), CINDROLF_STORE_OK);
    is("no room for it", cindrolf_store_last_row(store, other, 10), CINDROLF_STORE_BAD_ARGUMENT);
    is("it is there", cindrolf_store_has_row(store, row), CINDROLF_STORE_OK);
    memcpy(other, row, sizeof row);
    other[strlen(other) - 1] ^= 1;
    is("another is not", cindrolf_store_has_row(store, other), CINDROLF_STORE_DAMAGED);
    is("no row", cindrolf_store_has_row(store, "12"), CINDROLF_STORE_BAD_ARGUMENT);
    is("check", cindrolf_store_check(store, &counted, &wrong_answers), CINDROLF_STORE_OK);
    expect("rows", counted, strtoull(row, NULL, 10));
    expect("wrong answers", wrong_answers, 0);
    is("settle", cindrolf_store_settle(store, 1, &found, NULL), CINDROLF_STORE_OK);
    expect("no such request", found, 0);
    is("checkpoint", cindrolf_store_checkpoint(store, &whole), CINDROLF_STORE_OK);
    is("witness", cindrolf_store_keep_witness(store, "run.witness"), CINDROLF_STORE_OK);
    step(store, CINDROLF_STEP_NAME, 0, 0, CINDROLF_DONE);
    is("copy", cindrolf_store_copy(store, "copy.db"), CINDROLF_STORE_OK);
    is("copy twice", cindrolf_store_copy(store, "copy.db"), CINDROLF_STORE_EXISTS);
    step(store, CINDROLF_STEP_NAME, 1, 0, CINDROLF_DONE);
    cindrolf_store *copy = opened("copy.db");
    is("a copy that lacks a row", cindrolf_store_keep_witness(copy, "run.witness"), CINDROLF_STORE_DAMAGED);
    is("a long name", cindrolf_store_set_process_name(store, row), CINDROLF_STORE_OK);
    is("a name that is no UTF-8", cindrolf_store_set_process_name(store, "\xFF"), CINDROLF_STORE_BAD_ARGUMENT);
    is("two days", cindrolf_store_set_patience(store, 2 * CINDROLF_STORE_WAIT_LIMIT), CINDROLF_STORE_BAD_ARGUMENT);
    is("the copy goes", unlink("copy.db"), 0);
    is("a file that is gone", cindrolf_store_take(copy, CINDROLF_STEP_NAME, 1, 0, NULL), CINDROLF_STORE_OPEN_AGAIN);
    cindrolf_store_close(copy, NO_TEXT);
    is("close", cindrolf_store_close(store, NO_TEXT), CINDROLF_STORE_OK);
}

static void *wait_for_changes(void *store) {
    uint64_t changed = 9;
    is("a wait", cindrolf_store_changed((cindrolf_store *)store, 20000, &changed), CINDROLF_STORE_OK);
    expect("a change", changed, 1);
    return NULL;
}

static void threads(void) {
    cindrolf_store *waits = opened("run.db"), *writes = opened("run.db");
    uint64_t changed = 9, number = 9;
    is("no change", cindrolf_store_changed(waits, 0, &changed), CINDROLF_STORE_OK);
    expect("no change", changed, 0);
    pthread_t thread;
    pthread_create(&thread, NULL, wait_for_changes, waits);
    const struct timespec pause = {0, 1000000};
    int status = CINDROLF_STORE_OK;
    /* Until the thread has begun the handle is free, and what is asked here stores nothing. */
    for (int i = 0; i < 10000 && status != CINDROLF_STORE_IN_USE; i++) {
        nanosleep(&pause, NULL);
        status = cindrolf_store_unknown_request(waits, &number);
    }
    is("a handle in use", status, CINDROLF_STORE_IN_USE);
    is("a step on it", cindrolf_store_take(waits, CINDROLF_STEP_NAME, 0, 0, &number), CINDROLF_STORE_IN_USE);
    is("to close it", cindrolf_store_close(waits, NO_TEXT), CINDROLF_STORE_IN_USE);
    step(writes, CINDROLF_STEP_NAME, 0, 0, CINDROLF_DONE);
    pthread_join(thread, NULL);
    is("close", cindrolf_store_close(waits, NO_TEXT), CINDROLF_STORE_OK);
    is("close", cindrolf_store_close(writes, NO_TEXT), CINDROLF_STORE_OK);
}

static void forks(void) {
    cindrolf_store *store = opened("run.db");
    pid_t child = fork();
    if (child == 0) {
        is("a step in the child", cindrolf_store_take(store, CINDROLF_STEP_NAME, 1, 0, NULL), CINDROLF_STORE_OPEN_AGAIN);
        cindrolf_store *own = opened("run.db");
        step(own, CINDROLF_STEP_NAME, 1, 0, CINDROLF_DONE);
        cindrolf_store_close(own, NO_TEXT);
        _exit(wrong);
    }
    int status = 1;
    waitpid(child, &status, 0);
    is("the child", WIFEXITED(status) ? WEXITSTATUS(status) : 1, 0);
    step(store, CINDROLF_STEP_NAME, 0, 0, CINDROLF_DONE);
    is("close", cindrolf_store_close(store, NO_TEXT), CINDROLF_STORE_OK);
}

/* An open waits for the server as long as any call does. */
static void unreachable(const char *address) {
    cindrolf_store *store = NULL;
    char why[CINDROLF_STORE_MESSAGE_BYTES] = "";
    is("a server that is not there", cindrolf_store_open(address, &store, why, sizeof why), CINDROLF_STORE_UNREACHABLE);
    says("a server that is not there", why, "connect");
}

int main(int count, char **words) {
    if (count < 2 || count > 3 || chdir(words[1]) != 0) {
        fprintf(stderr, "usage: store FOLDER [ADDRESS OF A SERVER THAT IS NOT THERE]\n");
        return 2;
    }
    if (count == 3)
        unreachable(words[2]);
    expect("the version", cindrolf_store_version(), CINDROLF_STORE_VERSION);
    handles();
    opening();
    handover();
    batches();
    marks_and_rights();
    plans();
    snapshots();
    rows();
    threads();
    forks();
    cindrolf_store_end_waiting();
    return wrong;
}

/* The version of the library, null pointers with length 0, which are empty buffers, an empty ledger that its leader closes, the limits of
 * scores, wide values, the numbers and places that writes answer, those of advised steps, marks, rights, plans, steps by their numbers,
 * rearranged words, refusals in words, the turns of a shared log, and a log of 512 entry words. It compiles as C and as C++. */
#include "cindrolf.h"

#include <inttypes.h>
#include <stdio.h>
#include <string.h>

#define WRONG_LENGTH (CINDROLF_REFUSED + CINDROLF_REFUSAL_WRONG_LENGTH)
#define UNKNOWN_STEP (CINDROLF_REFUSED + 25)

static uint64_t state[CINDROLF_STATE_WORDS];
static uint64_t entries[CINDROLF_ENTRY_WORDS];
static uint16_t scores[CINDROLF_SCORES_LIMIT + 1];
static uint64_t marks[CINDROLF_MARK_WORDS + 1];
static uint64_t rights[CINDROLF_RIGHTS_WORDS + 1];
static int wrong = 0;

static void expect(const char *what, uint64_t given, uint64_t expected) {
    if (given != expected) {
        fprintf(stderr, "boundary: %s: %" PRIu64 ", expected %" PRIu64 "\n", what, given, expected);
        wrong = 1;
    }
}

/* The operations that take one number. */
typedef uint64_t operation(uint64_t *, size_t, uint64_t *, size_t, uint64_t);

static const struct {
    const char *name;
    operation *call;
} operations[] = {
    {"fresh", cindrolf_fresh},
    {"name", cindrolf_name},
    {"become", cindrolf_become},
    {"abdicate", cindrolf_abdicate},
    {"fetch", cindrolf_fetch},
    {"close last", cindrolf_close_last},
    {"finish", cindrolf_finish},
    {"create", cindrolf_create},
    {"append", cindrolf_append},
    {"close own", cindrolf_close_own},
};

/* The steps under rights that take one number, and the bit that each needs. */
typedef uint64_t operation_with(uint64_t *, size_t, uint64_t *, size_t, const uint64_t *, size_t, uint64_t);

static const struct {
    const char *name;
    operation *call;
    operation_with *with;
    uint64_t right;
} steps[] = {
    {"name", cindrolf_name, cindrolf_name_with, UINT64_C(0x8000000000000000)},
    {"become", cindrolf_become, cindrolf_become_with, UINT64_C(0x4000000000000000)},
    {"abdicate", cindrolf_abdicate, cindrolf_abdicate_with, UINT64_C(0x2000000000000000)},
    {"fetch", cindrolf_fetch, cindrolf_fetch_with, UINT64_C(0x1000000000000000)},
    {"close last", cindrolf_close_last, cindrolf_close_last_with, UINT64_C(0x0800000000000000)},
    {"finish", cindrolf_finish, cindrolf_finish_with, UINT64_C(0x0400000000000000)},
    {"create", cindrolf_create, cindrolf_create_with, UINT64_C(0x0200000000000000)},
    {"append", cindrolf_append, cindrolf_append_with, UINT64_C(0x0100000000000000)},
    {"close own", cindrolf_close_own, cindrolf_close_own_with, UINT64_C(0x0040000000000000)},
};

/* Numbers of no step. Those above 15 are some step's in their last four, eight or 32 bits. */
static const uint64_t no_steps[] = {10, 15, 16, 255, 256, 264, UINT64_C(1) << 32, (UINT64_C(1) << 32) + 8, UINT64_C(1) << 63, UINT64_MAX};

/* Every step by its number refuses these buffers, and 25 comes before that. */
static void refuse_numbers(uint64_t *s, size_t s_length, uint64_t *e, size_t e_length, const uint64_t *r, size_t r_length, uint64_t answer) {
    for (uint64_t number = 0; number < 10; number++)
        expect("a step by its number", cindrolf_take_with(s, s_length, e, e_length, r, r_length, number, 9, UINT64_MAX), answer);
    for (size_t i = 0; i < sizeof no_steps / sizeof no_steps[0]; i++)
        expect("a number of no step", cindrolf_take_with(s, s_length, e, e_length, r, r_length, no_steps[i], 9, 7), UNKNOWN_STEP);
}

/* Every step refuses these buffers, by whatever client, and whatever its scores. */
static void refuse_steps(uint64_t *s, size_t s_length, uint64_t *e, size_t e_length, const uint64_t *r, size_t r_length, uint64_t answer) {
    for (size_t i = 0; i < sizeof steps / sizeof steps[0]; i++)
        expect(steps[i].name, steps[i].with(s, s_length, e, e_length, r, r_length, 9), answer);
    expect("write", cindrolf_write_with(s, s_length, e, e_length, r, r_length, 9, UINT64_MAX), answer);
    expect("write scores", cindrolf_write_scores_with(s, s_length, e, e_length, r, r_length, 9, scores, 1), answer);
    expect("write no scores", cindrolf_write_scores_with(s, s_length, e, e_length, r, r_length, 9, NULL, 0), answer);
    refuse_numbers(s, s_length, e, e_length, r, r_length, answer);
}

/* Every call on marks refuses these buffers by 1. */
static void refuse_marks(const uint64_t *s, size_t s_length, const uint64_t *e, size_t e_length, uint64_t *m, size_t m_length) {
    uint64_t word = 7;
    expect("set a mark", cindrolf_mark_set(s, s_length, e, e_length, m, m_length, 1), WRONG_LENGTH);
    expect("set a mark of name 0", cindrolf_mark_set(s, s_length, e, e_length, m, m_length, 0), WRONG_LENGTH);
    expect("drop a mark", cindrolf_mark_drop(s, s_length, e, e_length, m, m_length, 1), WRONG_LENGTH);
    struct cindrolf_chain_count read = cindrolf_mark_read(s, s_length, e, e_length, m, m_length, 1, &word, 1);
    expect("read at a mark", read.answer, WRONG_LENGTH);
    expect("words that it wrote", read.count, 0);
    expect("the output", word, 7);
    expect("read at a mark, no output", cindrolf_mark_read(s, s_length, e, e_length, m, m_length, 1, NULL, 0).answer, WRONG_LENGTH);
}

/* The list and the totals refuse these buffers: the answer alone is not 0. */
static void refuse_totals(const uint64_t *s, size_t s_length, const uint64_t *e, size_t e_length, uint64_t answer) {
    struct cindrolf_listed_ledger listed = cindrolf_ledger_at(s, s_length, e, e_length, 1);
    expect("ledger at", listed.answer, answer);
    expect("the ledger there", listed.ledger, 0);
    struct cindrolf_summed_ledger ledger = cindrolf_ledger_sum(s, s_length, e, e_length, 1);
    expect("ledger sum", ledger.answer, answer);
    expect("its entries", ledger.entries, 0);
    expect("its sum", ledger.sum, 0);
    struct cindrolf_summed_run run = cindrolf_run_total(s, s_length, e, e_length);
    expect("run total", run.answer, answer);
    expect("its ones", run.ones, 0);
    expect("its parts", run.parts, 0);
    expect("it rounded", run.rounded, 0);
}

/* Every operation refuses these buffers, of which at least one is empty or has another wrong length. */
static void refuse(uint64_t *s, size_t s_length, uint64_t *e, size_t e_length) {
    uint64_t word = 7;
    for (size_t i = 0; i < sizeof operations / sizeof operations[0]; i++)
        expect(operations[i].name, operations[i].call(s, s_length, e, e_length, 1), WRONG_LENGTH);
    expect("write", cindrolf_write(s, s_length, e, e_length, 0, 7), WRONG_LENGTH);
    expect("write scores", cindrolf_write_scores(s, s_length, e, e_length, 0, scores, 1), WRONG_LENGTH);
    expect("write no scores", cindrolf_write_scores(s, s_length, e, e_length, 0, NULL, 0), WRONG_LENGTH);
    for (uint64_t number = 0; number < 10; number++)
        expect("a step by its number", cindrolf_take(s, s_length, e, e_length, number, 1, 7), WRONG_LENGTH);
    for (size_t i = 0; i < sizeof no_steps / sizeof no_steps[0]; i++)
        expect("a number of no step", cindrolf_take(s, s_length, e, e_length, no_steps[i], 1, 7), UNKNOWN_STEP);
    expect("well formed", cindrolf_well_formed(s, s_length, e, e_length), false);
    expect("advise", cindrolf_advise(s, s_length, e, e_length, 1), WRONG_LENGTH);
    struct cindrolf_ledger_part part = cindrolf_read_ledger(s, s_length, e, e_length, 1);
    expect("read ledger", part.answer, WRONG_LENGTH);
    expect("start of its part", part.start, 0);
    expect("words in its part", part.count, 0);
    struct cindrolf_chain_count chain = cindrolf_read_chain(s, s_length, e, e_length, &word, 1);
    expect("read chain", chain.answer, WRONG_LENGTH);
    expect("words that it wrote", chain.count, 0);
    expect("the output", word, 7);
    struct cindrolf_window_found window = cindrolf_first_window(s, s_length, e, e_length, 1, 0);
    expect("first window", window.answer, WRONG_LENGTH);
    expect("whether one is found", window.found, 0);
    expect("its start", window.start, 0);
    refuse_totals(s, s_length, e, e_length, WRONG_LENGTH);
    expect("read chain, no output", cindrolf_read_chain(s, s_length, e, e_length, NULL, 0).answer, WRONG_LENGTH);
    refuse_marks(s, s_length, e, e_length, marks, CINDROLF_MARK_WORDS);
    refuse_marks(s, s_length, e, e_length, NULL, 0);
    refuse_steps(s, s_length, e, e_length, rights, CINDROLF_RIGHTS_WORDS, WRONG_LENGTH);
    refuse_steps(s, s_length, e, e_length, NULL, 0, WRONG_LENGTH);
}

/* A write of so many of the scores. Client 0 leads and has its ledger listed, client 1 does not lead, and there is no other. */
static uint64_t write_scores_by(uint64_t client, const uint16_t *list, size_t count) {
    return cindrolf_write_scores(state, CINDROLF_STATE_WORDS, entries, CINDROLF_ENTRY_WORDS, client, list, count);
}

static uint64_t write_scores(const uint16_t *list, size_t count) { return write_scores_by(0, list, count); }

/* An answer's number and its two parts. */
static void expect_written(const char *what, uint64_t answer, uint64_t number, uint64_t place) {
    expect(what, answer, UINT64_C(4294967296) + number * 65536 + place);
    expect(what, cindrolf_answer_entry(answer), number);
    expect(what, cindrolf_answer_place(answer), place);
}

/* The entry that the log has room for next, from these scores, and the value that it has to have. All are in one ledger. */
static void write_and_read(const char *what, uint64_t number, size_t count, uint64_t value) {
    expect_written(what, write_scores(scores, count), number, number);
    expect(what, cindrolf_word_value(entries[number]), value);
}

/* From entry 1 on: each limit, and one past it. The scores stay as they are. */
static void check_scores(void) {
    expect("no scores", write_scores(NULL, 0), CINDROLF_REFUSED + CINDROLF_REFUSAL_SCORE_COUNT);
    expect("too many scores", write_scores(scores, CINDROLF_SCORES_LIMIT + 1), CINDROLF_REFUSED + CINDROLF_REFUSAL_SCORE_COUNT);
    write_and_read("all scores 0", 1, CINDROLF_SCORES_LIMIT, UINT64_C(4000000000000000));
    write_and_read("score 0", 2, 1, UINT64_C(1000000000000));
    scores[0] = 40;
    write_and_read("score 40", 3, 1, UINT64_C(100000000000));
    scores[0] = CINDROLF_SCORE_LIMIT;
    write_and_read("the highest score", 4, 1, 501);
    scores[CINDROLF_SCORES_LIMIT - 1] = CINDROLF_SCORE_LIMIT + 1;
    expect("a score too high", write_scores(scores, CINDROLF_SCORES_LIMIT), CINDROLF_REFUSED + CINDROLF_REFUSAL_SCORE_TOO_HIGH);
    expect("no scores by client 2", write_scores_by(2, NULL, 0), CINDROLF_REFUSED + CINDROLF_REFUSAL_UNKNOWN_CLIENT);
    expect("no scores by client 1", write_scores_by(1, NULL, 0), CINDROLF_REFUSED + CINDROLF_REFUSAL_SCORE_COUNT);
    expect("a score by client 1", write_scores_by(1, scores, 1), CINDROLF_REFUSED + CINDROLF_REFUSAL_DOES_NOT_LEAD);
    expect("the entry after the refusals", entries[5], 0);
    for (size_t i = 1; i < CINDROLF_SCORES_LIMIT - 1; i++)
        expect("a score after the writes", scores[i], 0);
    expect("the first score", scores[0], CINDROLF_SCORE_LIMIT);
    expect("the last score", scores[CINDROLF_SCORES_LIMIT - 1], CINDROLF_SCORE_LIMIT + 1);
}

/* The number of each step that is advised, to client 0, which is named, and to client 1; client 2 is unknown. */
static uint64_t advise(uint64_t client) { return cindrolf_advise(state, CINDROLF_STATE_WORDS, entries, CINDROLF_ENTRY_WORDS, client); }

static void check_advice(void) {
    const struct {
        operation *call;
        uint64_t client, first, second;
    } rows[] = {
        /* A step, and what both clients are told after it. */
        {cindrolf_fresh, 2, 1, 15},
        {cindrolf_become, 0, 3, 15},
        {cindrolf_fetch, 0, 6, 15},
        {cindrolf_create, 0, 7, 15},
        {cindrolf_append, 0, 8, 15},
        {cindrolf_name, 1, 2, 1},
        {cindrolf_become, 1, 2, 3},
        {cindrolf_fetch, 1, 2, 4},
        {cindrolf_close_last, 1, 2, 5},
        {cindrolf_finish, 1, 2, 6},
        {cindrolf_name, 0, 9, 2},
        {cindrolf_close_own, 0, 1, 2},
        {cindrolf_abdicate, 1, 1, 15},
    };
    for (size_t i = 0; i < sizeof rows / sizeof rows[0]; i++) {
        uint64_t answer = rows[i].call(state, CINDROLF_STATE_WORDS, entries, CINDROLF_ENTRY_WORDS, rows[i].client);
        expect("a step that is advised", (uint64_t)(answer < CINDROLF_REFUSED), true);
        expect("what client 0 is told", advise(0), rows[i].first);
        expect("what client 1 is told", advise(1), rows[i].second);
        expect("what client 2 is told", advise(2), CINDROLF_REFUSED + CINDROLF_REFUSAL_UNKNOWN_CLIENT);
    }
    state[526] = 1;
    expect("what a damaged log gives", advise(2), CINDROLF_REFUSED + CINDROLF_REFUSAL_NOT_WELL_FORMED);
}

/* Client 0 closes its ledger, which has no entry yet, and goes on to the next. */
static void check_empty_close(void) {
    expect("close an empty ledger", cindrolf_close_own(state, CINDROLF_STATE_WORDS, entries, CINDROLF_ENTRY_WORDS, 0), CINDROLF_DONE);
    expect("the stage after it", CINDROLF_STAGE(state, 0), 3);
    expect("the ledger's word", state[17], UINT64_C(0x0080000000000000));
    struct cindrolf_ledger_part part = cindrolf_read_ledger(state, CINDROLF_STATE_WORDS, entries, CINDROLF_ENTRY_WORDS, 1);
    expect("read an empty ledger", part.answer, CINDROLF_DONE);
    expect("words in its part", part.count, 0);
    cindrolf_create(state, CINDROLF_STATE_WORDS, entries, CINDROLF_ENTRY_WORDS, 0);
    cindrolf_append(state, CINDROLF_STATE_WORDS, entries, CINDROLF_ENTRY_WORDS, 0);
}

/* A wide value: client 1 does not lead, and client 0 does. */
static void check_wide(void) {
    const uint64_t wide = UINT64_C(1) << 52;
    expect("a wide value by client 1", cindrolf_write(state, CINDROLF_STATE_WORDS, entries, CINDROLF_ENTRY_WORDS, 1, wide),
           CINDROLF_REFUSED + CINDROLF_REFUSAL_DOES_NOT_LEAD);
    expect("a wide value by client 0", cindrolf_write(state, CINDROLF_STATE_WORDS, entries, CINDROLF_ENTRY_WORDS, 0, wide),
           CINDROLF_REFUSED + CINDROLF_REFUSAL_VALUE_TOO_WIDE);
}

/* To the last entry, after client 0 has gone on to its next ledger at entry 5: numbers go on, places begin anew. */
static void check_places(void) {
    cindrolf_close_own(state, CINDROLF_STATE_WORDS, entries, CINDROLF_ENTRY_WORDS, 0);
    cindrolf_create(state, CINDROLF_STATE_WORDS, entries, CINDROLF_ENTRY_WORDS, 0);
    cindrolf_append(state, CINDROLF_STATE_WORDS, entries, CINDROLF_ENTRY_WORDS, 0);
    for (uint64_t number = 5; number < CINDROLF_ENTRY_WORDS; number++)
        expect_written("a later write", cindrolf_write(state, CINDROLF_STATE_WORDS, entries, CINDROLF_ENTRY_WORDS, 0, 1), number, number - 5);
}

/* Windows of the entries 0 to 4, whose values are 7, 4000000000000000, 1000000000000, 100000000000 and 501. */
static void check_window(uint64_t window, uint64_t limit, uint64_t found, uint64_t start) {
    struct cindrolf_window_found given = cindrolf_first_window(state, CINDROLF_STATE_WORDS, entries, CINDROLF_ENTRY_WORDS, window, limit);
    expect("first window", given.answer, CINDROLF_DONE);
    expect("whether one is found", given.found, found);
    expect("its start", given.start, start);
}

static void check_windows(void) {
    check_window(2, UINT64_C(4000000000000006), 1, 0);
    check_window(2, UINT64_C(4000000000000007), 1, 1);
    check_window(3, UINT64_C(4101000000000000), 0, 0);
    check_window(5, UINT64_C(4001100000000507), 1, 0);
    check_window(5, UINT64_C(4001100000000508), 0, 0);
    check_window(6, 0, 0, 0);
    check_window(CINDROLF_WINDOW_LIMIT, 0, 0, 0);
    struct cindrolf_window_found given =
        cindrolf_first_window(state, CINDROLF_STATE_WORDS, entries, CINDROLF_ENTRY_WORDS, CINDROLF_WINDOW_LIMIT + 1, 0);
    expect("a window of 257", given.answer, CINDROLF_REFUSED + CINDROLF_REFUSAL_WINDOW_LENGTH);
    expect("whether one is found", given.found, 0);
    expect("its start", given.start, 0);
}

static void check_place(uint64_t place, uint64_t answer, uint64_t ledger) {
    struct cindrolf_listed_ledger given = cindrolf_ledger_at(state, CINDROLF_STATE_WORDS, entries, CINDROLF_ENTRY_WORDS, place);
    expect("ledger at", given.answer, answer);
    expect("the ledger there", given.ledger, ledger);
}

static void check_sum(uint64_t ledger, uint64_t answer, uint64_t count, uint64_t sum) {
    struct cindrolf_summed_ledger given = cindrolf_ledger_sum(state, CINDROLF_STATE_WORDS, entries, CINDROLF_ENTRY_WORDS, ledger);
    expect("ledger sum", given.answer, answer);
    expect("its entries", given.entries, count);
    expect("its sum", given.sum, sum);
}

static void check_total(uint64_t ones, uint64_t parts, uint64_t rounded) {
    struct cindrolf_summed_run given = cindrolf_run_total(state, CINDROLF_STATE_WORDS, entries, CINDROLF_ENTRY_WORDS);
    expect("run total", given.answer, CINDROLF_DONE);
    expect("its ones", given.ones, ones);
    expect("its parts", given.parts, parts);
    expect("it rounded", given.rounded, rounded);
}

/* Ledger 1 is empty, and ledger 2 has the entries of check_windows. */
static void check_totals(void) {
    const uint64_t none = CINDROLF_REFUSED + CINDROLF_REFUSAL_NOT_LISTED;
    check_place(1, CINDROLF_DONE, 1);
    check_place(2, CINDROLF_DONE, 2);
    check_place(0, none, 0);
    check_place(3, none, 0);
    check_place(UINT64_MAX, none, 0);
    check_sum(1, CINDROLF_DONE, 0, 0);
    check_sum(2, CINDROLF_DONE, 5, UINT64_C(4001100000000508));
    check_sum(0, none, 0, 0);
    check_sum(3, none, 0, 0);
    check_sum((UINT64_C(1) << 32) + 1, none, 0, 0);
    check_total(4001, UINT64_C(100000000508), 4001100);
}

/* Words that no fresh log leads to: a full ledger of the greatest values, listed 255 times. Their sum leaves 64 bits. */
static void check_greatest_total(void) {
    memset(state, 0, sizeof state);
    state[0] = UINT64_C(4096) << 51 | UINT64_C(2) << 42 | UINT64_C(255) << 34 | UINT64_C(1) << 25;
    state[1] = UINT64_C(0x0800020000000000);
    state[17] = UINT64_C(0x8000000000000000);
    for (size_t i = 0; i < 255; i++)
        state[272 + i] = UINT64_C(1) << 56;
    for (size_t i = 0; i < CINDROLF_ENTRY_WORDS; i++)
        entries[i] = UINT64_C(1) << 56 | ((UINT64_C(1) << 52) - 1);
    expect("a log without a history", cindrolf_well_formed(state, CINDROLF_STATE_WORDS, entries, CINDROLF_ENTRY_WORDS), true);
    check_place(255, CINDROLF_DONE, 1);
    check_place(256, CINDROLF_REFUSED + CINDROLF_REFUSAL_NOT_LISTED, 0);
    check_sum(1, CINDROLF_DONE, 4096, UINT64_C(18446744073709547520));
    check_total(UINT64_C(4703919738), UINT64_C(795934617600), UINT64_C(4703919738796));
}

/* Client 1 fences the ledger of client 0, and then finishes it. */
static void check_recovery(void) {
    const struct {
        operation *call;
        uint64_t client;
    } before[] = {{cindrolf_fresh, 2}, {cindrolf_become, 0}, {cindrolf_fetch, 0},  {cindrolf_create, 0},
                  {cindrolf_append, 0}, {cindrolf_name, 1},  {cindrolf_become, 1}, {cindrolf_fetch, 1}};
    for (size_t i = 0; i < sizeof before / sizeof before[0]; i++)
        expect("a step before it", before[i].call(state, CINDROLF_STATE_WORDS, entries, CINDROLF_ENTRY_WORDS, before[i].client), CINDROLF_DONE);
    expect("recovering while open", CINDROLF_RECOVERING(state, 1), 0);
    expect("close last", cindrolf_close_last(state, CINDROLF_STATE_WORDS, entries, CINDROLF_ENTRY_WORDS, 1), CINDROLF_DONE);
    expect("recovering", CINDROLF_RECOVERING(state, 1), 1);
    expect("the ledger's word", state[17], UINT64_C(0x00E0000000000000));
    expect("the closer's stage", CINDROLF_STAGE(state, 1), 6);
    expect("finish", cindrolf_finish(state, CINDROLF_STATE_WORDS, entries, CINDROLF_ENTRY_WORDS, 1), CINDROLF_DONE);
    expect("recovering once finished", CINDROLF_RECOVERING(state, 1), 0);
    expect("the ledger's word", state[17], UINT64_C(0x0140000000000000));
    expect("the closer's stage", CINDROLF_STAGE(state, 1), 3);
    expect("finish again", cindrolf_finish(state, CINDROLF_STATE_WORDS, entries, CINDROLF_ENTRY_WORDS, 1),
           CINDROLF_REFUSED + CINDROLF_REFUSAL_OTHER_STAGE);
}

static uint64_t set_mark(uint64_t name) {
    return cindrolf_mark_set(state, CINDROLF_STATE_WORDS, entries, CINDROLF_ENTRY_WORDS, marks, CINDROLF_MARK_WORDS, name);
}

static uint64_t drop_mark(uint64_t name) {
    return cindrolf_mark_drop(state, CINDROLF_STATE_WORDS, entries, CINDROLF_ENTRY_WORDS, marks, CINDROLF_MARK_WORDS, name);
}

/* The names of three marks, and the refusals that are theirs alone. */
#define START UINT64_C(0x7374617274000000)
#define WASH UINT64_C(0x7761736800000000)
#define BYTES UINT64_C(0xFF00000000000001)
#define TAKEN (CINDROLF_REFUSED + 21)
#define FULL (CINDROLF_REFUSED + 22)
#define NOT_KEPT (CINDROLF_REFUSED + 23)

static void check_mark_names(void) {
    const char bytes[8] = {(char)0xFF, 0, 0, 0, 0, 0, 0, 1};
    expect("a name of five letters", cindrolf_mark_name("start\0\0"), START);
    expect("a name of four letters", cindrolf_mark_name("wash\0\0\0"), WASH);
    expect("a name of eight letters", cindrolf_mark_name("pre-wash"), UINT64_C(0x7072652D77617368));
    expect("a name of any bytes", cindrolf_mark_name(bytes), BYTES);
}

/* Every word of the marks buffer: these pairs, then zeros. The word behind the buffer stays 9. */
static void expect_marks(const uint64_t *pairs, size_t count) {
    for (size_t i = 0; i < CINDROLF_MARK_WORDS; i++)
        expect("a mark's word", marks[i], i < 2 * count ? pairs[i] : 0);
    expect("the word behind the marks", marks[CINDROLF_MARK_WORDS], 9);
}

/* A reading at a mark: its answer, its count, and the words of the output, which were 3 before. */
static void expect_read(uint64_t name, size_t room, uint64_t answer, uint64_t count) {
    uint64_t output[4] = {3, 3, 3, 3};
    const uint64_t reading[] = {11, 12, 13};
    struct cindrolf_chain_count read = cindrolf_mark_read(state, CINDROLF_STATE_WORDS, entries, CINDROLF_ENTRY_WORDS, marks,
                                                          CINDROLF_MARK_WORDS, name, output, room);
    expect("read at a mark", read.answer, answer);
    expect("words that it wrote", read.count, count);
    for (size_t i = 0; i < 4; i++)
        expect("a word of the output", output[i], i < count ? reading[i] : 3);
}

/* Client 0 writes a value to a ledger that it has just begun. */
static void write_to_next(uint64_t value) {
    cindrolf_create(state, CINDROLF_STATE_WORDS, entries, CINDROLF_ENTRY_WORDS, 0);
    cindrolf_append(state, CINDROLF_STATE_WORDS, entries, CINDROLF_ENTRY_WORDS, 0);
    uint64_t answer = cindrolf_write(state, CINDROLF_STATE_WORDS, entries, CINDROLF_ENTRY_WORDS, 0, value);
    expect("a write", (uint64_t)(answer >= CINDROLF_ENTRY), true);
    cindrolf_close_own(state, CINDROLF_STATE_WORDS, entries, CINDROLF_ENTRY_WORDS, 0);
}

/* Three marks at 0, 1 and 3 entries; the middle one is dropped, which closes the gap, and set again at the end. */
static void check_marks_in_order(void) {
    const uint64_t three[] = {START, 0, WASH, UINT64_C(0x0008000000000000), BYTES, UINT64_C(0x0018000000000000)};
    const uint64_t two[] = {START, 0, BYTES, UINT64_C(0x0018000000000000)};
    const uint64_t moved[] = {START, 0, BYTES, UINT64_C(0x0018000000000000), WASH, UINT64_C(0x0018000000000000)};
    expect("set at no entry", set_mark(START), CINDROLF_DONE);
    write_to_next(11);
    expect("set at one entry", set_mark(WASH), CINDROLF_DONE);
    write_to_next(12);
    write_to_next(13);
    expect("set at three entries", set_mark(BYTES), CINDROLF_DONE);
    expect_marks(three, 3);
    expect_read(START, 0, CINDROLF_DONE, 0);
    expect_read(WASH, 1, CINDROLF_DONE, 1);
    expect_read(WASH, 0, CINDROLF_REFUSED + 16, 0);
    expect_read(BYTES, 4, CINDROLF_DONE, 3);
    expect_read(BYTES, 2, CINDROLF_REFUSED + 16, 0);
    expect("set what is kept", set_mark(WASH), TAKEN);
    expect("drop", drop_mark(WASH), CINDROLF_DONE);
    expect_marks(two, 2);
    expect("drop again", drop_mark(WASH), NOT_KEPT);
    expect_read(WASH, 0, NOT_KEPT, 0);
    expect("set again", set_mark(WASH), CINDROLF_DONE);
    expect_marks(moved, 3);
    expect_read(WASH, 4, CINDROLF_DONE, 3);
}

/* Name 0 is never kept, though zero pairs are there; and 21 comes before 22. */
static void check_mark_limits(void) {
    const uint64_t before[] = {START, 0, BYTES, UINT64_C(0x0018000000000000), WASH, UINT64_C(0x0018000000000000)};
    expect("set name 0", set_mark(0), TAKEN);
    expect("drop name 0", drop_mark(0), NOT_KEPT);
    expect_read(0, 4, NOT_KEPT, 0);
    expect_marks(before, 3);
    for (uint64_t name = 1; name <= CINDROLF_MARKS_LIMIT - 3; name++)
        expect("a mark more", set_mark(name), CINDROLF_DONE);
    expect("one too many", set_mark(30), FULL);
    expect("a kept name while full", set_mark(29), TAKEN);
    expect("name 0 while full", set_mark(0), TAKEN);
    expect("the last name", marks[62], 29);
    expect("the last count", marks[63], UINT64_C(0x0018000000000000));
    expect("drop the first", drop_mark(START), CINDROLF_DONE);
    expect("the first name", marks[0], BYTES);
    expect("the last pair's name", marks[62], 0);
    expect("the last pair's word", marks[63], 0);
    expect("set while there is room", set_mark(30), CINDROLF_DONE);
    expect("the word behind the marks", marks[CINDROLF_MARK_WORDS], 9);
}

/* With this word in place of one that is kept, no call takes the marks. */
static void refuse_damage(size_t index, uint64_t word) {
    const uint64_t not_well_formed = CINDROLF_REFUSED + CINDROLF_REFUSAL_NOT_WELL_FORMED;
    uint64_t kept = marks[index];
    marks[index] = word;
    expect("set on damaged marks", set_mark(BYTES), not_well_formed);
    expect("drop on damaged marks", drop_mark(0), not_well_formed);
    expect_read(0, 0, not_well_formed, 0);
    expect("the damaged word", marks[index], word);
    marks[index] = kept;
}

static void check_damaged_marks(void) {
    memset(marks, 0, CINDROLF_MARK_WORDS * sizeof marks[0]);
    set_mark(START);
    set_mark(WASH);
    refuse_damage(1, UINT64_C(0x0020000000000000)); /* more entries than the log has */
    refuse_damage(1, UINT64_C(0x0018000000000001)); /* a bit left over */
    refuse_damage(0, WASH);                         /* a name twice */
    refuse_damage(0, 0);                            /* a zero name with a count */
    refuse_damage(5, UINT64_C(0x0008000000000000)); /* the same behind those kept */
    refuse_damage(6, 5);                            /* a mark behind a zero pair */
    expect("drop on marks that are whole again", drop_mark(START), CINDROLF_DONE);
}

/* A wrong length is looked for in all three buffers before any content; a new log refuses the marks of another by 2. */
static void check_marks(void) {
    memset(marks, 0, sizeof marks);
    marks[CINDROLF_MARK_WORDS] = 9;
    cindrolf_fresh(state, CINDROLF_STATE_WORDS, entries, CINDROLF_ENTRY_WORDS, 1);
    cindrolf_become(state, CINDROLF_STATE_WORDS, entries, CINDROLF_ENTRY_WORDS, 0);
    cindrolf_fetch(state, CINDROLF_STATE_WORDS, entries, CINDROLF_ENTRY_WORDS, 0);
    check_mark_names();
    check_marks_in_order();
    static uint64_t before[CINDROLF_STATE_WORDS], stored[CINDROLF_ENTRY_WORDS];
    memcpy(before, state, sizeof state);
    memcpy(stored, entries, sizeof entries);
    check_mark_limits();
    check_damaged_marks();
    expect("state words that marks changed", (uint64_t)(memcmp(before, state, sizeof state) != 0), 0);
    expect("entries that marks changed", (uint64_t)(memcmp(stored, entries, sizeof entries) != 0), 0);
    state[526] = 1;
    expect("set on a damaged log", set_mark(BYTES), CINDROLF_REFUSED + CINDROLF_REFUSAL_NOT_WELL_FORMED);
    refuse_marks(state, CINDROLF_STATE_WORDS, entries, CINDROLF_ENTRY_WORDS, marks, CINDROLF_MARK_WORDS - 1);
    refuse_marks(state, CINDROLF_STATE_WORDS, entries, CINDROLF_ENTRY_WORDS, marks, CINDROLF_MARK_WORDS + 1);
    refuse_marks(state, CINDROLF_STATE_WORDS, entries, CINDROLF_ENTRY_WORDS, NULL, 0);
    refuse_marks(state, CINDROLF_STATE_WORDS - 1, entries, CINDROLF_ENTRY_WORDS, marks, CINDROLF_MARK_WORDS);
    refuse_marks(state, CINDROLF_STATE_WORDS, entries, CINDROLF_ENTRY_WORDS - 1, marks, CINDROLF_MARK_WORDS);
    cindrolf_fresh(state, CINDROLF_STATE_WORDS, entries, CINDROLF_ENTRY_WORDS, 1);
    expect("old marks on a new log", drop_mark(WASH), CINDROLF_REFUSED + CINDROLF_REFUSAL_NOT_WELL_FORMED);
}

/* The rights from here on: all of client 0 and of client 1, without some of those of client 1. */
static void lend_without(uint64_t missing) {
    memset(rights, 0, CINDROLF_RIGHTS_WORDS * sizeof rights[0]);
    rights[0] = CINDROLF_ALL_RIGHTS;
    rights[1] = CINDROLF_ALL_RIGHTS & ~missing;
}

static uint64_t take_with(operation_with *step, uint64_t client) {
    return step(state, CINDROLF_STATE_WORDS, entries, CINDROLF_ENTRY_WORDS, rights, CINDROLF_RIGHTS_WORDS, client);
}

static uint64_t write_with(uint64_t client, uint64_t value) {
    return cindrolf_write_with(state, CINDROLF_STATE_WORDS, entries, CINDROLF_ENTRY_WORDS, rights, CINDROLF_RIGHTS_WORDS, client, value);
}

static uint64_t write_scores_with(uint64_t client, const uint16_t *list, size_t count) {
    return cindrolf_write_scores_with(state, CINDROLF_STATE_WORDS, entries, CINDROLF_ENTRY_WORDS, rights, CINDROLF_RIGHTS_WORDS, client, list,
                                      count);
}

#define MISSING_RIGHT (CINDROLF_REFUSED + 24)

static void check_right_bits(void) {
    const uint64_t rows[] = {CINDROLF_RIGHT_NAME,       CINDROLF_RIGHT_BECOME, CINDROLF_RIGHT_ABDICATE, CINDROLF_RIGHT_FETCH,
                             CINDROLF_RIGHT_CLOSE_LAST, CINDROLF_RIGHT_FINISH, CINDROLF_RIGHT_CREATE,   CINDROLF_RIGHT_APPEND,
                             CINDROLF_RIGHT_CLOSE_OWN};
    uint64_t all = CINDROLF_RIGHT_WRITE;
    for (size_t i = 0; i < sizeof steps / sizeof steps[0]; i++) {
        expect(steps[i].name, rows[i], steps[i].right);
        all |= rows[i];
    }
    expect("the right to write", CINDROLF_RIGHT_WRITE, UINT64_C(0x0080000000000000));
    expect("all rights", CINDROLF_ALL_RIGHTS, all);
}

/* A guest, client 1, that leads. It goes on writing, to its next ledger too, and is not named again once client 0 is. */
static void check_guest(void) {
    cindrolf_fresh(state, CINDROLF_STATE_WORDS, entries, CINDROLF_ENTRY_WORDS, 2);
    lend_without(0);
    operation_with *lead[] = {cindrolf_name_with, cindrolf_become_with, cindrolf_fetch_with, cindrolf_create_with, cindrolf_append_with};
    for (size_t i = 0; i < sizeof lead / sizeof lead[0]; i++)
        expect("a step to the lead", take_with(lead[i], 1), CINDROLF_DONE);
    lend_without(CINDROLF_RIGHT_NAME | CINDROLF_RIGHT_BECOME);
    expect_written("the guest writes", write_with(1, 7), 0, 0);
    expect("client 0 is named", take_with(cindrolf_name_with, 0), CINDROLF_DONE);
    expect("the guest is named again", take_with(cindrolf_name_with, 1), MISSING_RIGHT);
    expect_written("the guest goes on", write_with(1, 8), 1, 1);
    expect("it closes its ledger", take_with(cindrolf_close_own_with, 1), CINDROLF_DONE);
    expect("it creates another", take_with(cindrolf_create_with, 1), CINDROLF_DONE);
    expect("it appends it", take_with(cindrolf_append_with, 1), CINDROLF_DONE);
    expect_written("it writes to it", write_with(1, 9), 2, 0);
    expect("it abdicates", take_with(cindrolf_abdicate_with, 1), CINDROLF_DONE);
    expect("it leads again", take_with(cindrolf_become_with, 1), MISSING_RIGHT);
    lend_without(CINDROLF_RIGHT_NAME);
    expect("it leads again, not named", take_with(cindrolf_become_with, 1), CINDROLF_REFUSED + CINDROLF_REFUSAL_NOT_NAMED);
}

/* A step without its right, with no other, and with all, on the log as it is; the plain step answers as the last two. */
static void check_one_right(operation *call, operation_with *with, uint64_t right, uint64_t client) {
    static uint64_t before[CINDROLF_STATE_WORDS], after[CINDROLF_STATE_WORDS];
    const uint64_t lent[] = {CINDROLF_ALL_RIGHTS & ~right, right, CINDROLF_ALL_RIGHTS};
    memcpy(before, state, sizeof state);
    uint64_t answer = call(state, CINDROLF_STATE_WORDS, entries, CINDROLF_ENTRY_WORDS, client);
    memcpy(after, state, sizeof state);
    for (size_t i = 0; i < sizeof lent / sizeof lent[0]; i++) {
        memcpy(state, before, sizeof state);
        rights[client] = lent[i];
        expect("the answer", take_with(with, client), i == 0 ? MISSING_RIGHT : answer);
        expect("its words", (uint64_t)(memcmp(i == 0 ? before : after, state, sizeof state) != 0), 0);
        expect("its rights", rights[client], lent[i]);
    }
}

/* Along a history that takes each of these steps: every step by client 0, most of which a check of their own refuses, then the history's. */
static void check_each_right(void) {
    const struct {
        size_t step;
        uint64_t client;
    } history[] = {{1, 0}, {3, 0}, {6, 0}, {7, 0}, {0, 1}, {1, 1}, {3, 1}, {4, 1}, {5, 1}, {6, 1}, {7, 1}, {8, 1}, {2, 0}};
    cindrolf_fresh(state, CINDROLF_STATE_WORDS, entries, CINDROLF_ENTRY_WORDS, 2);
    for (size_t i = 0; i < sizeof history / sizeof history[0]; i++) {
        lend_without(0);
        static uint64_t now[CINDROLF_STATE_WORDS];
        memcpy(now, state, sizeof state);
        for (size_t step = 0; step < sizeof steps / sizeof steps[0]; step++) {
            check_one_right(steps[step].call, steps[step].with, steps[step].right, 0);
            memcpy(state, now, sizeof state);
        }
        size_t step = history[i].step;
        check_one_right(steps[step].call, steps[step].with, steps[step].right, history[i].client);
        expect(steps[step].name, (uint64_t)(memcmp(now, state, sizeof state) != 0), 1);
    }
}

/* The lengths of all three, the words of all three, the client, the scores, the right, and then the step's own checks. */
static void check_order_of_rights(void) {
    const uint64_t not_well_formed = CINDROLF_REFUSED + CINDROLF_REFUSAL_NOT_WELL_FORMED;
    const uint64_t unknown = CINDROLF_REFUSED + CINDROLF_REFUSAL_UNKNOWN_CLIENT;
    cindrolf_fresh(state, CINDROLF_STATE_WORDS, entries, CINDROLF_ENTRY_WORDS, 2);
    memset(rights, 0, CINDROLF_RIGHTS_WORDS * sizeof rights[0]);
    rights[1] = UINT64_C(1) << 53;
    refuse_steps(state, CINDROLF_STATE_WORDS, entries, CINDROLF_ENTRY_WORDS, rights, CINDROLF_RIGHTS_WORDS, not_well_formed);
    rights[1] = 0;
    rights[2] = CINDROLF_RIGHT_NAME;
    refuse_steps(state, CINDROLF_STATE_WORDS, entries, CINDROLF_ENTRY_WORDS, rights, CINDROLF_RIGHTS_WORDS, not_well_formed);
    rights[2] = 0;
    rights[15] = 1;
    refuse_steps(state, CINDROLF_STATE_WORDS, entries, CINDROLF_ENTRY_WORDS, rights, CINDROLF_RIGHTS_WORDS, not_well_formed);
    rights[15] = 0;
    refuse_steps(state, CINDROLF_STATE_WORDS, entries, CINDROLF_ENTRY_WORDS, rights, CINDROLF_RIGHTS_WORDS, unknown);
    scores[0] = 0;
    expect("no rights", take_with(cindrolf_name_with, 0), MISSING_RIGHT);
    expect("no rights, a wide value", write_with(0, UINT64_MAX), MISSING_RIGHT);
    expect("no rights, no scores", write_scores_with(0, NULL, 0), CINDROLF_REFUSED + CINDROLF_REFUSAL_SCORE_COUNT);
    expect("no rights, a score", write_scores_with(0, scores, 1), MISSING_RIGHT);
    scores[0] = CINDROLF_SCORE_LIMIT + 1;
    expect("no rights, a high score", write_scores_with(0, scores, 1), CINDROLF_REFUSED + CINDROLF_REFUSAL_SCORE_TOO_HIGH);
    scores[0] = 0;
    rights[0] = CINDROLF_ALL_RIGHTS & ~CINDROLF_RIGHT_WRITE;
    expect("no right to write a score", write_scores_with(0, scores, 1), MISSING_RIGHT);
    rights[0] = CINDROLF_RIGHT_WRITE;
    expect("the right to write", write_with(0, UINT64_MAX), CINDROLF_REFUSED + CINDROLF_REFUSAL_DOES_NOT_LEAD);
    expect("the right to write a score", write_scores_with(0, scores, 1), CINDROLF_REFUSED + CINDROLF_REFUSAL_DOES_NOT_LEAD);
    /* Rights and a log that are both damaged, and a length that is wrong. */
    rights[0] = 1;
    state[526] = 1;
    refuse_steps(state, CINDROLF_STATE_WORDS, entries, CINDROLF_ENTRY_WORDS, rights, CINDROLF_RIGHTS_WORDS, not_well_formed);
    refuse_steps(state, CINDROLF_STATE_WORDS, entries, CINDROLF_ENTRY_WORDS, rights, CINDROLF_RIGHTS_WORDS - 1, WRONG_LENGTH);
    refuse_steps(state, CINDROLF_STATE_WORDS, entries, CINDROLF_ENTRY_WORDS, rights, CINDROLF_RIGHTS_WORDS + 1, WRONG_LENGTH);
    refuse_steps(state, CINDROLF_STATE_WORDS, entries, CINDROLF_ENTRY_WORDS, NULL, 0, WRONG_LENGTH);
    refuse_steps(state, CINDROLF_STATE_WORDS - 1, entries, CINDROLF_ENTRY_WORDS, rights, CINDROLF_RIGHTS_WORDS, WRONG_LENGTH);
    refuse_steps(state, CINDROLF_STATE_WORDS, entries, CINDROLF_ENTRY_WORDS - 1, rights, CINDROLF_RIGHTS_WORDS, WRONG_LENGTH);
}

static void check_rights(void) {
    rights[CINDROLF_RIGHTS_WORDS] = 9;
    check_right_bits();
    check_guest();
    check_each_right();
    check_order_of_rights();
    expect("the word behind the rights", rights[CINDROLF_RIGHTS_WORDS], 9);
}

static uint64_t run(const uint64_t *plan, size_t length, uint64_t budget) {
    return cindrolf_run_plan(state, CINDROLF_STATE_WORDS, entries, CINDROLF_ENTRY_WORDS, rights, CINDROLF_RIGHTS_WORDS, plan, length, budget);
}

static void expect_forecast(const uint64_t *plan, size_t length, uint64_t budget, uint64_t added, uint64_t ledgers, uint64_t refusals) {
    struct cindrolf_plan_counts counts = cindrolf_forecast(state, CINDROLF_STATE_WORDS, entries, CINDROLF_ENTRY_WORDS, rights,
                                                           CINDROLF_RIGHTS_WORDS, plan, length, budget);
    expect("entries that a run would add", counts.entries, added);
    expect("ledger numbers that a run would add", counts.ledgers, ledgers);
    expect("refusals of a run", counts.refusals, refusals);
}

static uint64_t entry_count(void) { return state[0] >> 51; }
static uint64_t next_ledger(void) { return state[0] >> 42 & 511; }

/* The order N B A F L K C P W O, in the 4 most significant bits; then the client, and the value. */
static void check_step_words(void) {
    const uint64_t numbers[] = {CINDROLF_STEP_NAME,       CINDROLF_STEP_BECOME, CINDROLF_STEP_ABDICATE, CINDROLF_STEP_FETCH,
                                CINDROLF_STEP_CLOSE_LAST, CINDROLF_STEP_FINISH, CINDROLF_STEP_CREATE,   CINDROLF_STEP_APPEND,
                                CINDROLF_STEP_WRITE,      CINDROLF_STEP_CLOSE_OWN};
    for (uint64_t i = 0; i < sizeof numbers / sizeof numbers[0]; i++)
        expect("a step's word", cindrolf_step_word(numbers[i], 0, 0), i * UINT64_C(0x1000000000000000));
    expect("a write", cindrolf_step_word(CINDROLF_STEP_WRITE, 3, 9), UINT64_C(0x8030000000000009));
    expect("the widest word", cindrolf_step_word(14, 255, UINT64_C(0xFFFFFFFFFFFFF)), UINT64_C(0xEFFFFFFFFFFFFFFF));
    expect("a step that has no room", cindrolf_step_word(16, 0, 0), UINT64_MAX);
    expect("a client that has no room", cindrolf_step_word(CINDROLF_STEP_NAME, 256, 0), UINT64_MAX);
    expect("a value that has no room", cindrolf_step_word(CINDROLF_STEP_WRITE, 0, UINT64_C(1) << 52), UINT64_MAX);
    expect("the refusal of such words", CINDROLF_REFUSAL_UNKNOWN_STEP, 25);
}

/* A handover: client 0 leads and writes, client 1 takes over. Among the steps are refusals of six kinds, a was closed and a behind. */
static const uint64_t handover[] = {
    UINT64_C(0x1000000000000000), /* 0 becomes */
    UINT64_C(0x3000000000000000), /* 0 fetches */
    UINT64_C(0x8000000000000005), /* 0 writes: refused, 8 */
    UINT64_C(0x6000000000000000), /* 0 creates */
    UINT64_C(0x7000000000000000), /* 0 appends */
    UINT64_C(0x8000000000000007), /* 0 writes 7 */
    UINT64_C(0xA000000000000000), /* no step: refused, 25 */
    UINT64_C(0x800FFFFFFFFFFFFF), /* 0 writes the widest value */
    UINT64_C(0x8100000000000009), /* client 16: refused, 3 */
    UINT64_C(0x001FFFFFFFFFFFFF), /* 1 is named: the value plays no part */
    UINT64_C(0x1010000000000000), /* 1 becomes */
    UINT64_C(0x3010000000000000), /* 1 fetches */
    UINT64_C(0x4010000000000000), /* 1 fences */
    UINT64_C(0x8000000000000008), /* 0 writes: refused, 12 */
    UINT64_C(0x5010000000000000), /* 1 finishes */
    UINT64_C(0x6010000000000000), /* 1 creates */
    UINT64_C(0x7010000000000000), /* 1 appends */
    UINT64_C(0x9000000000000000), /* 0 closes its own: behind */
    UINT64_C(0x8010000000000009), /* 1 writes 9 */
    UINT64_C(0x9010000000000000), /* 1 closes its own */
    UINT64_C(0x1000000000000000), /* 0 becomes: refused, 6 */
    UINT64_C(0x0000000000000000), /* 0 is named */
    UINT64_C(0x2010000000000000), /* 1 abdicates: refused, 24 */
    UINT64_C(0x1000000000000000), /* 0 becomes */
    UINT64_C(0x3000000000000000), /* 0 fetches */
    UINT64_C(0x4000000000000000), /* 0 closes the last: was closed */
    UINT64_C(0x6000000000000000), /* 0 creates */
};

#define HANDOVER (sizeof handover / sizeof handover[0])

/* What a run up to so many of these steps adds, counted by hand from the lines above. */
static const struct {
    size_t budget;
    uint64_t entries, ledgers, refusals;
} handed_over[] = {{0, 0, 0, 0},  {2, 0, 0, 0},  {3, 0, 0, 1},  {6, 1, 1, 1},  {9, 2, 1, 3},        {14, 2, 1, 4},
                   {18, 2, 2, 4}, {19, 3, 2, 4}, {22, 3, 2, 5}, {23, 3, 2, 6}, {HANDOVER, 3, 3, 6}};

/* The function of a step's own, with the rights that are lent and without. */
static uint64_t own_with(uint64_t number, uint64_t client, uint64_t value) {
    return number == 8 ? write_with(client, value) : take_with(steps[number == 9 ? 8 : number].with, client);
}

static uint64_t own(uint64_t number, uint64_t client, uint64_t value) {
    if (number == 8)
        return cindrolf_write(state, CINDROLF_STATE_WORDS, entries, CINDROLF_ENTRY_WORDS, client, value);
    return steps[number == 9 ? 8 : number].call(state, CINDROLF_STATE_WORDS, entries, CINDROLF_ENTRY_WORDS, client);
}

/* One step of a plan as a call of its own. A word that is no step is none. */
static void take_singly(uint64_t word) {
    if (word >> 60 < 10)
        own_with(word >> 60, word >> 52 & 255, word & UINT64_C(0xFFFFFFFFFFFFF));
}

static void begin_plan(void) {
    cindrolf_fresh(state, CINDROLF_STATE_WORDS, entries, CINDROLF_ENTRY_WORDS, 2);
    lend_without(CINDROLF_RIGHT_ABDICATE);
}

static void check_runs(void) {
    static uint64_t before[CINDROLF_STATE_WORDS], singly[CINDROLF_STATE_WORDS], stored[CINDROLF_ENTRY_WORDS], plan[HANDOVER];
    memcpy(plan, handover, sizeof plan);
    for (size_t i = 0; i < sizeof handed_over / sizeof handed_over[0]; i++) {
        size_t budget = handed_over[i].budget;
        begin_plan();
        for (size_t word = 0; word < budget; word++)
            take_singly(handover[word]);
        memcpy(singly, state, sizeof state);
        memcpy(stored, entries, sizeof entries);
        begin_plan();
        memcpy(before, state, sizeof state);
        expect_forecast(plan, HANDOVER, budget, handed_over[i].entries, handed_over[i].ledgers, handed_over[i].refusals);
        expect("state words that a forecast changed", (uint64_t)(memcmp(before, state, sizeof state) != 0), 0);
        expect("entries after a forecast", entries[0], 0);
        expect("steps taken", run(plan, HANDOVER, budget), budget);
        expect("state words beside single steps", (uint64_t)(memcmp(singly, state, sizeof state) != 0), 0);
        expect("entries beside single steps", (uint64_t)(memcmp(stored, entries, sizeof entries) != 0), 0);
        expect("entries added", entry_count(), handed_over[i].entries);
        expect("ledger numbers added", next_ledger() - 1, handed_over[i].ledgers);
    }
    expect("the first entry", entries[0], UINT64_C(0x0100000000000007));
    expect("the widest value", entries[1], UINT64_C(0x010FFFFFFFFFFFFF));
    expect("the last entry", entries[2], UINT64_C(0x0210000000000009));
    expect("words of the plan that changed", (uint64_t)(memcmp(plan, handover, sizeof plan) != 0), 0);
    expect("the rights of client 1", rights[1], CINDROLF_ALL_RIGHTS & ~CINDROLF_RIGHT_ABDICATE);
    /* A budget beyond the plan, and no plan. */
    const uint64_t name = cindrolf_step_word(CINDROLF_STEP_NAME, 1, 0);
    expect_forecast(&name, 1, UINT64_MAX, 0, 0, 0);
    expect("steps taken, with budget to spare", run(&name, 1, UINT64_MAX), 1);
    expect("the named leader", state[0] >> 30 & 15, 1);
    expect("steps taken, again", run(&name, 1, 2), 1);
    expect_forecast(&name, 1, UINT64_MAX, 0, 0, 1);
    expect("steps taken of no plan", run(NULL, 0, UINT64_MAX), 0);
    expect_forecast(NULL, 0, UINT64_MAX, 0, 0, 0);
}

/* On buffers that are no log, or under rights that are none of it, each step is refused, counts, and changes nothing. */
static void refuse_plan(uint64_t *s, size_t s_length, uint64_t *e, size_t e_length, const uint64_t *r, size_t r_length) {
    static uint64_t before[CINDROLF_STATE_WORDS], stored[CINDROLF_ENTRY_WORDS];
    const uint64_t budgets[] = {0, 1, HANDOVER - 1, HANDOVER, UINT64_MAX}, taken[] = {0, 1, HANDOVER - 1, HANDOVER, HANDOVER};
    memcpy(before, state, sizeof state);
    memcpy(stored, entries, sizeof entries);
    for (size_t i = 0; i < sizeof budgets / sizeof budgets[0]; i++) {
        struct cindrolf_plan_counts counts = cindrolf_forecast(s, s_length, e, e_length, r, r_length, handover, HANDOVER, budgets[i]);
        expect("entries forecast of no log", counts.entries, 0);
        expect("ledger numbers forecast of no log", counts.ledgers, 0);
        expect("refusals forecast of no log", counts.refusals, taken[i]);
        expect("steps taken of no log", cindrolf_run_plan(s, s_length, e, e_length, r, r_length, handover, HANDOVER, budgets[i]), taken[i]);
    }
    expect("state words that the run changed", (uint64_t)(memcmp(before, state, sizeof state) != 0), 0);
    expect("entries that the run changed", (uint64_t)(memcmp(stored, entries, sizeof entries) != 0), 0);
}

static void check_refused_plans(void) {
    begin_plan();
    refuse_plan(NULL, 0, NULL, 0, NULL, 0);
    refuse_plan(state, CINDROLF_STATE_WORDS - 1, entries, CINDROLF_ENTRY_WORDS, rights, CINDROLF_RIGHTS_WORDS);
    refuse_plan(state, CINDROLF_STATE_WORDS, entries, CINDROLF_ENTRY_WORDS - 1, rights, CINDROLF_RIGHTS_WORDS);
    refuse_plan(state, CINDROLF_STATE_WORDS, entries, CINDROLF_ENTRY_WORDS, rights, CINDROLF_RIGHTS_WORDS - 1);
    refuse_plan(state, CINDROLF_STATE_WORDS, entries, CINDROLF_ENTRY_WORDS, rights, CINDROLF_RIGHTS_WORDS + 1);
    refuse_plan(state, CINDROLF_STATE_WORDS, entries, CINDROLF_ENTRY_WORDS, NULL, 0);
    rights[2] = CINDROLF_RIGHT_NAME;
    refuse_plan(state, CINDROLF_STATE_WORDS, entries, CINDROLF_ENTRY_WORDS, rights, CINDROLF_RIGHTS_WORDS);
    rights[2] = 0;
    entries[CINDROLF_ENTRY_WORDS - 1] = 1;
    refuse_plan(state, CINDROLF_STATE_WORDS, entries, CINDROLF_ENTRY_WORDS, rights, CINDROLF_RIGHTS_WORDS);
    entries[CINDROLF_ENTRY_WORDS - 1] = 0;
    state[526] = 1;
    refuse_plan(state, CINDROLF_STATE_WORDS, entries, CINDROLF_ENTRY_WORDS, rights, CINDROLF_RIGHTS_WORDS);
    /* Words that name no step are refused one by one on a log too. */
    begin_plan();
    const uint64_t unknown[] = {UINT64_C(0xA000000000000000), UINT64_C(0xB010000000000001), UINT64_C(0xC000000000000000),
                                UINT64_C(0xD000000000000000), UINT64_C(0xE000000000000000), UINT64_MAX};
    expect_forecast(unknown, 6, 5, 0, 0, 5);
    expect("steps taken that are none", run(unknown, 6, 7), 6);
    expect("state word 0 of a fresh log", state[0], UINT64_C(0x0000040004000000));
}

static void check_plans(void) {
    check_step_words();
    check_runs();
    check_refused_plans();
}

/* The same by the number. */
static uint64_t numbered_with(uint64_t number, uint64_t client, uint64_t value) {
    return cindrolf_take_with(state, CINDROLF_STATE_WORDS, entries, CINDROLF_ENTRY_WORDS, rights, CINDROLF_RIGHTS_WORDS, number, client, value);
}

static uint64_t numbered(uint64_t number, uint64_t client, uint64_t value) {
    return cindrolf_take(state, CINDROLF_STATE_WORDS, entries, CINDROLF_ENTRY_WORDS, number, client, value);
}

typedef uint64_t by_number(uint64_t, uint64_t, uint64_t);

/* A step by its number beside its own function, on the log as it is and stays: the answer, and every word of both buffers. */
static void compare(by_number *single, by_number *taken, uint64_t number, uint64_t client, uint64_t value) {
    static uint64_t before[2][CINDROLF_ENTRY_WORDS], after[2][CINDROLF_ENTRY_WORDS];
    memcpy(before[0], state, sizeof state);
    memcpy(before[1], entries, sizeof entries);
    uint64_t answer = single(number, client, value);
    memcpy(after[0], state, sizeof state);
    memcpy(after[1], entries, sizeof entries);
    memcpy(state, before[0], sizeof state);
    memcpy(entries, before[1], sizeof entries);
    expect("a step by its number", taken(number, client, value), answer);
    expect("its state words", (uint64_t)(memcmp(after[0], state, sizeof state) != 0), 0);
    expect("its entries", (uint64_t)(memcmp(after[1], entries, sizeof entries) != 0), 0);
    memcpy(state, before[0], sizeof state);
    memcpy(entries, before[1], sizeof entries);
}

/* 25, for whatever client and value, and nothing changes. */
static uint64_t unknown_step(uint64_t number, uint64_t client, uint64_t value) {
    (void)number, (void)client, (void)value;
    return UNKNOWN_STEP;
}

static void compare_all(void) {
    const uint64_t clients[] = {0, 1, 2, UINT64_C(1) << 32, UINT64_MAX}, values[] = {9, UINT64_C(1) << 52, UINT64_MAX};
    for (size_t c = 0; c < sizeof clients / sizeof clients[0]; c++)
        for (size_t v = 0; v < sizeof values / sizeof values[0]; v++) {
            for (uint64_t number = 0; number < 10; number++) {
                compare(own, numbered, number, clients[c], values[v]);
                compare(own_with, numbered_with, number, clients[c], values[v]);
            }
            for (size_t i = 0; i < sizeof no_steps / sizeof no_steps[0]; i++) {
                compare(unknown_step, numbered, no_steps[i], clients[c], values[v]);
                compare(unknown_step, numbered_with, no_steps[i], clients[c], values[v]);
            }
        }
}

/* The answers of the handover's steps, by the words beside them. */
static const uint64_t answers[HANDOVER] = {
    0, 0, 256 + 8, 0, 0, CINDROLF_ENTRY, 256 + 25, CINDROLF_ENTRY + 65537, 256 + 3, 0, 0, 0, 0, 256 + 12,
    0, 0, 0, 2, CINDROLF_ENTRY + 131072, 0, 256 + 6, 0, 256 + 24, 0, 0, 1, 0,
};

static void check_numbers(void) {
    begin_plan();
    for (size_t i = 0; i < HANDOVER; i++) {
        compare_all();
        uint64_t word = handover[i];
        expect("a step of the handover", numbered_with(word >> 60, word >> 52 & 255, word & UINT64_C(0xFFFFFFFFFFFFF)), answers[i]);
    }
    compare_all();
}

/* Words and bytes of these lengths are refused both ways, and stay. */
static void refuse_lengths(size_t words_length, size_t bytes_length) {
    static uint64_t words[CINDROLF_REARRANGE_LIMIT + 1];
    static uint8_t bytes[8 * (CINDROLF_REARRANGE_LIMIT + 1)];
    memset(words, 5, sizeof words);
    memset(bytes, 6, sizeof bytes);
    expect("rearrange at a wrong length", cindrolf_rearrange(words, words_length, bytes, bytes_length), CINDROLF_REFUSED + 26);
    expect("restore at a wrong length", cindrolf_restore(bytes, bytes_length, words, words_length), CINDROLF_REFUSED + 26);
    for (size_t i = 0; i < sizeof bytes; i++)
        expect("a byte after a refusal", bytes[i], 6);
    for (size_t i = 0; i < CINDROLF_REARRANGE_LIMIT + 1; i++)
        expect("a word after a refusal", words[i], UINT64_C(0x0505050505050505));
}

/* 5; then 256 up to 261; then 1 down to 260, which wraps. The bytes begin at an odd address, with one more on either side. */
static void check_rearranged(void) {
    const uint64_t words[] = {5, 261, 260};
    const uint8_t expected[] = {9, 0, 0, 255, 0, 0, 255, 0, 0, 255, 0, 0, 255, 0, 0, 255, 0, 0, 255, 0, 1, 255, 5, 0, 255, 9};
    uint64_t before[2 + sizeof expected / 8];
    uint8_t *bytes = (uint8_t *)before;
    uint64_t restored[] = {9, 9, 9, 9};
    memset(bytes, 9, sizeof before);
    expect("rearrange three words", cindrolf_rearrange(words, 3, bytes + 1, 24), CINDROLF_DONE);
    for (size_t i = 0; i < sizeof expected; i++)
        expect("a rearranged byte", bytes[i], expected[i]);
    expect("restore them", cindrolf_restore(bytes + 1, 24, restored, 3), CINDROLF_DONE);
    for (size_t i = 0; i < 3; i++)
        expect("a restored word", restored[i], words[i]);
    expect("the word behind them", restored[3], 9);
    expect("rearrange no words", cindrolf_rearrange(NULL, 0, NULL, 0), CINDROLF_DONE);
    expect("restore no bytes", cindrolf_restore(NULL, 0, NULL, 0), CINDROLF_DONE);
    refuse_lengths(0, 1);
    refuse_lengths(1, 0);
    refuse_lengths(1, 7);
    refuse_lengths(1, 9);
    refuse_lengths(3, 16);
    refuse_lengths(CINDROLF_REARRANGE_LIMIT, 8 * CINDROLF_REARRANGE_LIMIT - 1);
    refuse_lengths(CINDROLF_REARRANGE_LIMIT + 1, 8 * (CINDROLF_REARRANGE_LIMIT + 1));
}

/* A text buffer of which one byte more than is lent must stay. */
static char text[CINDROLF_TEXT_BYTES + 1];

/* So many bytes of the text are this sentence, and every byte behind it is as it was. */
static void expect_text(const char *sentence, size_t length) {
    expect("a sentence's bytes", (uint64_t)(memcmp(text, sentence, length) != 0), 0);
    for (size_t i = length; i < sizeof text; i++)
        expect("a byte behind a sentence", (uint64_t)(unsigned char)text[i], '#');
}

static void expect_said(const char *bytes, size_t length, uint64_t found, uint64_t step, uint64_t client, uint64_t refusal) {
    struct cindrolf_sentence_said said = cindrolf_read_sentence(bytes, length);
    expect("a text that is read", said.found, found);
    expect("the step that it says", said.step, step);
    expect("the client that it says", said.client, client);
    expect("the refusal that it says", said.refusal, refusal);
}

static void expect_unsaid(const char *bytes, size_t length) {
    expect_said(bytes, length, 0, 0, 0, 0);
}

/* It is written and read back; with a byte less or more it is none. */
static void expect_sentence(uint64_t step, uint64_t client, uint64_t refusal, const char *sentence) {
    memset(text, '#', sizeof text);
    struct cindrolf_sentence_bytes said = cindrolf_sentence(step, client, refusal, text, CINDROLF_TEXT_BYTES);
    expect("a sentence", said.answer, CINDROLF_DONE);
    expect("its length", said.length, strlen(sentence));
    expect_text(sentence, strlen(sentence));
    expect_said(text, said.length, 1, step, client, refusal);
    expect_unsaid(text, said.length - 1);
    expect_unsaid(text, said.length + 1);
    expect_unsaid(text + 1, said.length - 1);
}

static void refuse_sentence(uint64_t step, uint64_t client, uint64_t refusal, char *bytes, size_t length, uint64_t given) {
    memset(text, '#', sizeof text);
    struct cindrolf_sentence_bytes said = cindrolf_sentence(step, client, refusal, bytes, length);
    expect("a refused sentence", said.answer, CINDROLF_REFUSED + given);
    expect("its length", said.length, 0);
    expect_text("", 0);
}

/* 27 comes before 28, and numbers are not cut to fewer bits. */
static void check_sentences(void) {
    const uint64_t last = CINDROLF_REFUSAL_NO_SENTENCE, none = last, too_short = CINDROLF_REFUSAL_TEXT_TOO_SHORT;
    const uint64_t far = UINT64_C(1) << 32;
    expect_sentence(CINDROLF_STEP_NAME, 0, 1, "name of client 0: a buffer has the wrong length");
    expect_sentence(CINDROLF_STEP_CLOSE_LAST, 7, CINDROLF_REFUSAL_DOES_NOT_LEAD, "close last of client 7: the client does not lead");
    expect_sentence(CINDROLF_STEP_FINISH, 10, 14, "finish of client 10: the ledger has no entry");
    expect_sentence(CINDROLF_STEP_CLOSE_OWN, 255, last, "close own of client 255: there is no sentence for these numbers");
    refuse_sentence(CINDROLF_STEP_WRITE, 0, 1, text, CINDROLF_TEXT_BYTES - 1, too_short);
    refuse_sentence(10, 256, 0, text, CINDROLF_TEXT_BYTES - 1, too_short);
    refuse_sentence(CINDROLF_STEP_WRITE, 0, 1, NULL, 0, too_short);
    refuse_sentence(10, 0, 1, text, CINDROLF_TEXT_BYTES, none);
    refuse_sentence(far, 0, 1, text, CINDROLF_TEXT_BYTES, none);
    refuse_sentence(0, 256, 1, text, CINDROLF_TEXT_BYTES, none);
    refuse_sentence(0, far, 1, text, CINDROLF_TEXT_BYTES, none);
    refuse_sentence(0, 0, 0, text, CINDROLF_TEXT_BYTES, none);
    refuse_sentence(0, 0, last + 1, text, CINDROLF_TEXT_BYTES, none);
    refuse_sentence(0, 0, far + 1, text, CINDROLF_TEXT_BYTES, none);
}

/* Texts that are no sentence, also none at all. */
static void check_texts(void) {
    const char *others[] = {"write of client 256: the log is full", "write of client 07: the log is full", "write of client : the log is full",
                            "write of client 7: the log is full ", "Write of client 7: the log is full", "write of client 7",
                            "close of client 7: the log is full"};
    expect_unsaid(NULL, 0);
    for (size_t i = 0; i < sizeof others / sizeof others[0]; i++)
        expect_unsaid(others[i], strlen(others[i]));
    /* A byte 0 is one byte more. */
    expect_said("write of client 7: the log is full", 34, 1, CINDROLF_STEP_WRITE, 7, CINDROLF_REFUSAL_LOG_FULL);
    expect_unsaid("write of client 7: the log is full", 35);
}

/* What the functions on a log of 512 entry words say, in the front of the buffer for 4,096. */
#define SMALL entries, CINDROLF_SMALL_ENTRY_WORDS

static void expect_not_a_log(const char *what, size_t entry_words) {
    const uint64_t answer = CINDROLF_REFUSED + CINDROLF_REFUSAL_NOT_WELL_FORMED;
    expect(what, cindrolf_well_formed(state, CINDROLF_STATE_WORDS, entries, entry_words), false);
    expect(what, cindrolf_write(state, CINDROLF_STATE_WORDS, entries, entry_words, 0, 1), answer);
    expect(what, cindrolf_advise(state, CINDROLF_STATE_WORDS, entries, entry_words, 0), answer);
    expect(what, cindrolf_read_ledger(state, CINDROLF_STATE_WORDS, entries, entry_words, 1).answer, answer);
    expect(what, cindrolf_read_chain(state, CINDROLF_STATE_WORDS, entries, entry_words, NULL, 0).answer, answer);
    expect(what, cindrolf_first_window(state, CINDROLF_STATE_WORDS, entries, entry_words, 1, 0).answer, answer);
    refuse_totals(state, CINDROLF_STATE_WORDS, entries, entry_words, answer);
    expect(what, cindrolf_mark_set(state, CINDROLF_STATE_WORDS, entries, entry_words, marks, CINDROLF_MARK_WORDS, WASH), answer);
    refuse_steps(state, CINDROLF_STATE_WORDS, entries, entry_words, rights, CINDROLF_RIGHTS_WORDS, answer);
}

/* Fresh, on 512 words that are the front of more: those behind them stay 9. Every length beside the two is refused. */
static void check_small_lengths(void) {
    const size_t wrong_lengths[] = {0, 1, 511, 513, 4095};
    for (size_t i = 0; i < CINDROLF_ENTRY_WORDS; i++)
        entries[i] = 9;
    expect("fresh on 512 words", cindrolf_fresh(state, CINDROLF_STATE_WORDS, SMALL, 2), CINDROLF_DONE);
    for (size_t i = 0; i < CINDROLF_ENTRY_WORDS; i++)
        expect("an entry word after fresh", entries[i], i < 512 ? 0 : 9);
    expect("well formed with 512", cindrolf_well_formed(state, CINDROLF_STATE_WORDS, SMALL), true);
    for (size_t i = 0; i < sizeof wrong_lengths / sizeof wrong_lengths[0]; i++)
        refuse(state, CINDROLF_STATE_WORDS, entries, wrong_lengths[i]);
    expect_not_a_log("4,096 words with stray ones", CINDROLF_ENTRY_WORDS);
}

static void check_small_readings(void) {
    static uint64_t output[513];
    output[512] = 9;
    struct cindrolf_ledger_part part = cindrolf_read_ledger(state, CINDROLF_STATE_WORDS, SMALL, 1);
    expect("read the ledger of 512", part.answer, CINDROLF_DONE);
    expect("its start", part.start, 0);
    expect("its words", part.count, 512);
    expect("511 words of output", cindrolf_read_chain(state, CINDROLF_STATE_WORDS, SMALL, output, 511).answer, CINDROLF_REFUSED + 16);
    expect("512 words of output", cindrolf_read_chain(state, CINDROLF_STATE_WORDS, SMALL, output, 513).count, 512);
    for (uint64_t i = 0; i < 512; i++)
        expect("a word of the reading", output[i], 1000 + i);
    expect("the word behind it", output[512], 9);
    struct cindrolf_window_found window = cindrolf_first_window(state, CINDROLF_STATE_WORDS, SMALL, 2, 1510 + 1511 - 1);
    expect("the last window is found", window.found, 1);
    expect("its start", window.start, 510);
    memset(marks, 0, sizeof marks);
    expect("a mark at 512", cindrolf_mark_set(state, CINDROLF_STATE_WORDS, SMALL, marks, CINDROLF_MARK_WORDS, WASH), CINDROLF_DONE);
    expect("its word", marks[1], UINT64_C(512) << 51);
    expect("read at it", cindrolf_mark_read(state, CINDROLF_STATE_WORDS, SMALL, marks, CINDROLF_MARK_WORDS, WASH, output, 512).count, 512);
    marks[1] = UINT64_C(513) << 51;
    expect("a mark at 513", cindrolf_mark_drop(state, CINDROLF_STATE_WORDS, SMALL, marks, CINDROLF_MARK_WORDS, WASH),
           CINDROLF_REFUSED + CINDROLF_REFUSAL_NOT_WELL_FORMED);
}

/* Full at 512 entries. A count above that is none of 512 words, and one of 4,096 where the words are there. */
static void check_small(void) {
    const uint64_t full = CINDROLF_REFUSED + CINDROLF_REFUSAL_LOG_FULL;
    operation *lead[] = {cindrolf_become, cindrolf_fetch, cindrolf_create, cindrolf_append};
    check_small_lengths();
    for (size_t i = 0; i < sizeof lead / sizeof lead[0]; i++)
        expect("a step to the lead", lead[i](state, CINDROLF_STATE_WORDS, SMALL, 0), CINDROLF_DONE);
    for (uint64_t number = 0; number < 512; number++)
        expect_written("a write", cindrolf_write(state, CINDROLF_STATE_WORDS, SMALL, 0, 1000 + number), number, number);
    scores[0] = 0;
    lend_without(0);
    expect("the 513th write", cindrolf_write(state, CINDROLF_STATE_WORDS, SMALL, 0, 1), full);
    expect("the 513th write, of scores", cindrolf_write_scores(state, CINDROLF_STATE_WORDS, SMALL, 0, scores, 1), full);
    expect("the 513th write, with rights",
           cindrolf_write_with(state, CINDROLF_STATE_WORDS, SMALL, rights, CINDROLF_RIGHTS_WORDS, 0, 1), full);
    expect("the count", state[0] >> 51, 512);
    expect("the last entry", entries[511], UINT64_C(0x01000000000005E7));
    for (size_t i = 512; i < CINDROLF_ENTRY_WORDS; i++)
        expect("a word behind them", entries[i], 9);
    check_small_readings();
    memset(&entries[512], 0, (CINDROLF_ENTRY_WORDS - 512) * sizeof entries[0]);
    expect_written("the 513th write on 4,096 words",
                   cindrolf_write(state, CINDROLF_STATE_WORDS, entries, CINDROLF_ENTRY_WORDS, 0, 1), 512, 512);
    expect("513 entries of 4,096", cindrolf_well_formed(state, CINDROLF_STATE_WORDS, entries, CINDROLF_ENTRY_WORDS), true);
    expect_not_a_log("513 entries of 512", CINDROLF_SMALL_ENTRY_WORDS);
    state[0] += (UINT64_C(4096) - 513) << 51;
    expect_not_a_log("4,096 entries of 512", CINDROLF_SMALL_ENTRY_WORDS);
    expect("fresh on a small log that is none", cindrolf_fresh(state, CINDROLF_STATE_WORDS, SMALL, 2), CINDROLF_DONE);
    expect("the word that fresh leaves", entries[512], UINT64_C(0x0100000000000001));
}

#define ID UINT64_C(0x0000000300000009)

/* One request from asking to telling, with a row of another before its own; an id of 0; a halt; and numbers that name nothing. */
static const struct {
    const char *what;
    uint64_t phase, id, seen, first, second;
    struct cindrolf_turn next;
} turns[] = {
    {"asked", CINDROLF_PHASE_IDLE, 0, CINDROLF_SEEN_ASKED, 0, 0, {CINDROLF_PHASE_ASKED, 0, CINDROLF_ACT_TRY}},
    {"accepted", CINDROLF_PHASE_ASKED, 0, CINDROLF_SEEN_ACCEPTED, ID, 0, {CINDROLF_PHASE_WAITING, ID, CINDROLF_ACT_APPEND}},
    {"no id", CINDROLF_PHASE_ASKED, 0, CINDROLF_SEEN_ACCEPTED, 0, 0, {CINDROLF_PHASE_IDLE, 0, CINDROLF_ACT_WITHDRAW}},
    {"placed", CINDROLF_PHASE_WAITING, ID, CINDROLF_SEEN_PLACED, 4, 5, {CINDROLF_PHASE_WAITING, ID, CINDROLF_ACT_READ}},
    {"another's row", CINDROLF_PHASE_WAITING, ID, CINDROLF_SEEN_NEXT, 4, ID + 1, {CINDROLF_PHASE_WAITING, ID, CINDROLF_ACT_READ}},
    {"its own row", CINDROLF_PHASE_WAITING, ID, CINDROLF_SEEN_NEXT, 5, ID, {CINDROLF_PHASE_IDLE, 0, CINDROLF_ACT_TELL}},
    {"halt", CINDROLF_PHASE_WAITING, ID, CINDROLF_SEEN_OTHER_HISTORY, 0, 0, {CINDROLF_PHASE_HALTED, 0, CINDROLF_ACT_UNKNOWN}},
    {"no phase", 5, ID, CINDROLF_SEEN_ASKED, 0, 0, {CINDROLF_PHASE_HALTED, 0, CINDROLF_ACT_WITHDRAW}},
    {"nothing seen", CINDROLF_PHASE_CURRENT, 0, 9, ID, ID, {CINDROLF_PHASE_CURRENT, 0, CINDROLF_ACT_TRY}},
};

static void check_turns(void) {
    for (size_t i = 0; i < sizeof turns / sizeof turns[0]; i++) {
        struct cindrolf_turn turn = cindrolf_decide(turns[i].phase, turns[i].id, turns[i].seen, turns[i].first, turns[i].second);
        expect(turns[i].what, turn.phase, turns[i].next.phase);
        expect("the awaited id", turn.id, turns[i].next.id);
        expect("what is to be done", turn.act, turns[i].next.act);
    }
    expect("an id", cindrolf_request_id(3, 9), ID);
    expect("an id without a start", cindrolf_request_id(0, 9), 0);
    expect("an id of a start that is too large", cindrolf_request_id(UINT64_C(1) << 32, 9), 0);
    expect("an id of a count that is too large", cindrolf_request_id(3, UINT64_C(1) << 32), 0);
}

int main(void) {
    expect("version", cindrolf_version(), CINDROLF_VERSION);

    expect("fresh", cindrolf_fresh(state, CINDROLF_STATE_WORDS, entries, CINDROLF_ENTRY_WORDS, 2), CINDROLF_DONE);
    static uint64_t before[CINDROLF_STATE_WORDS];
    memcpy(before, state, sizeof state);
    refuse(NULL, 0, NULL, 0);
    refuse(state, CINDROLF_STATE_WORDS, NULL, 0);
    refuse(NULL, 0, entries, CINDROLF_ENTRY_WORDS);
    expect("words that a refusal changed", (uint64_t)(memcmp(before, state, sizeof state) != 0), 0);
    for (size_t i = 0; i < CINDROLF_ENTRY_WORDS; i++)
        expect("an entry after the refusals", entries[i], 0);

    /* An empty output takes the reading of an empty log, and no other. */
    struct cindrolf_chain_count chain = cindrolf_read_chain(state, CINDROLF_STATE_WORDS, entries, CINDROLF_ENTRY_WORDS, NULL, 0);
    expect("read an empty chain", chain.answer, CINDROLF_DONE);
    expect("its words", chain.count, 0);
    cindrolf_become(state, CINDROLF_STATE_WORDS, entries, CINDROLF_ENTRY_WORDS, 0);
    cindrolf_fetch(state, CINDROLF_STATE_WORDS, entries, CINDROLF_ENTRY_WORDS, 0);
    cindrolf_create(state, CINDROLF_STATE_WORDS, entries, CINDROLF_ENTRY_WORDS, 0);
    cindrolf_append(state, CINDROLF_STATE_WORDS, entries, CINDROLF_ENTRY_WORDS, 0);
    check_empty_close();
    expect_written("write", cindrolf_write(state, CINDROLF_STATE_WORDS, entries, CINDROLF_ENTRY_WORDS, 0, 7), 0, 0);
    chain = cindrolf_read_chain(state, CINDROLF_STATE_WORDS, entries, CINDROLF_ENTRY_WORDS, NULL, 0);
    expect("read a chain into no output", chain.answer, CINDROLF_REFUSED + CINDROLF_REFUSAL_OUTPUT_TOO_SHORT);
    expect("its words", chain.count, 0);
    check_scores();
    check_wide();
    check_windows();
    check_totals();
    check_places();
    check_advice();
    check_recovery();
    check_marks();
    check_rights();
    check_plans();
    check_numbers();
    check_rearranged();
    check_sentences();
    check_texts();
    check_turns();
    check_small();
    check_greatest_total();
    return wrong;
}

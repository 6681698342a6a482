/* Calls every function of cindrolf.h and cindrolf_store.h with random and hostile arguments for a time: fuzz SECONDS SEED FOLDER. Each
 * piece of memory that it passes is between inaccessible pages, so that a byte too much ends the program. `fuzz --list` prints the names
 * that it calls. */
#define _DEFAULT_SOURCE
#include "cindrolf_store.h"

#include <inttypes.h>
#include <pthread.h>
#include <stdio.h>
#include <stdlib.h>
#include <string.h>
#include <sys/mman.h>
#include <time.h>
#include <unistd.h>

#define PAGE ((size_t)4096)
#define REGION (40 * PAGE)
#define SLOTS 6
#define COUNT(list) (sizeof(list) / sizeof(list)[0])

static uint64_t seed, calls;

static uint64_t word(void) {
    seed ^= seed << 13, seed ^= seed >> 7, seed ^= seed << 17;
    return seed * UINT64_C(0x2545F4914F6CDD1D);
}

static uint64_t below(uint64_t limit) { return (word() >> 11) % limit; }
static int chance(uint64_t percent) { return below(100) < percent; }

static void fail(const char *what, uint64_t number) {
    fprintf(stderr, "fuzz: %s: %" PRIu64 " (call %" PRIu64 ")\n", what, number, calls);
    abort();
}

/* ---- memory that is lent */
enum region { STATE, ENTRIES, MARKS, RIGHTS, PLAN, OUTPUT, SCORES, TEXT, NOTE, ASKED, REGIONS };
static char *regions[REGIONS];

static void map(void) {
    for (int i = 0; i < REGIONS; i++) {
        char *base = (char *)mmap(NULL, REGION + 2 * PAGE, PROT_NONE, MAP_PRIVATE | MAP_ANONYMOUS, -1, 0);
        if (base == MAP_FAILED || mprotect(base + PAGE, REGION, PROT_READ | PROT_WRITE) != 0)
            fail("no memory", 0);
        regions[i] = base + PAGE;
    }
}

/* So many bytes, at the one end of a region or at the other. None at all may be null. */
static void *lend(enum region region, size_t bytes) {
    if (bytes == 0 && chance(50))
        return NULL;
    return chance(50) ? regions[region] : regions[region] + REGION - bytes;
}

static size_t odd_length(void) {
    static const size_t lengths[] = {0, 1, 2, 15, 16, 17, 63, 64, 65, 96, 511, 512, 513, 526, 527, 528, 4000, 4001, 4095, 4096, 4097};
    return chance(80) ? lengths[below(COUNT(lengths))] : (size_t)below(5000);
}

/* Any number, most of them about a limit. */
static uint64_t number(void) {
    static const uint64_t limits[] = {0, 9, 15, 16, 255, 256, 4096, UINT64_C(1) << 32, UINT64_C(1) << 52, UINT64_C(1) << 63, UINT64_MAX};
    return chance(30) ? word() : limits[below(COUNT(limits))] + below(3) - 1;
}

static uint64_t client(void) { return chance(80) ? below(3) : number(); }
static uint64_t step(void) { return chance(80) ? below(10) : number(); }
static uint64_t value(void) { return chance(70) ? below(1000) : number(); }

/* Words in a region: zeros, any, those of a source, or these with some bits changed. */
static uint64_t *fill(enum region region, size_t length, const uint64_t *source, size_t source_length) {
    uint64_t *words = (uint64_t *)lend(region, 8 * length);
    uint64_t how = below(10);
    for (size_t i = 0; i < length; i++)
        words[i] = how == 0 ? 0 : how == 1 ? word() : i < source_length ? source[i] : 0;
    for (int i = 0; how == 2 && length > 0 && i < 3; i++)
        words[below(length)] ^= UINT64_C(1) << below(64);
    return words;
}

/* ---- a log in memory, which goes on where a call changed it */
static uint64_t kept_state[CINDROLF_STATE_WORDS], kept_entries[CINDROLF_ENTRY_WORDS], kept_marks[CINDROLF_MARK_WORDS];
static size_t kept_words = CINDROLF_ENTRY_WORDS;
static uint64_t *S, *E, *M, *R, *P, *O;
static size_t SL, EL, ML, RL, PL, OL, SCL;
static uint16_t *SC;
static uint64_t before[CINDROLF_STATE_WORDS + 5000];

#define LOG S, SL, E, EL

static void lend_log(void) {
    if (below(500) == 0) {
        kept_words = chance(50) ? CINDROLF_ENTRY_WORDS : CINDROLF_SMALL_ENTRY_WORDS;
        cindrolf_fresh(kept_state, CINDROLF_STATE_WORDS, kept_entries, kept_words, 3);
        memset(kept_marks, 0, sizeof kept_marks);
    }
    SL = chance(90) ? CINDROLF_STATE_WORDS : odd_length();
    EL = chance(90) ? kept_words : odd_length();
    S = fill(STATE, SL, kept_state, CINDROLF_STATE_WORDS);
    E = fill(ENTRIES, EL, kept_entries, kept_words);
}

static void lend_more(void) {
    uint64_t all[CINDROLF_RIGHTS_WORDS] = {CINDROLF_ALL_RIGHTS, CINDROLF_ALL_RIGHTS, CINDROLF_ALL_RIGHTS};
    ML = chance(90) ? CINDROLF_MARK_WORDS : odd_length();
    M = fill(MARKS, ML, kept_marks, CINDROLF_MARK_WORDS);
    RL = chance(90) ? CINDROLF_RIGHTS_WORDS : odd_length();
    R = fill(RIGHTS, RL, all, CINDROLF_RIGHTS_WORDS);
    PL = (size_t)below(40);
    P = (uint64_t *)lend(PLAN, 8 * PL);
    for (size_t i = 0; i < PL; i++)
        P[i] = chance(90) ? cindrolf_step_word(below(11), below(4), below(1000)) : word();
    OL = chance(50) ? EL : odd_length();
    O = (uint64_t *)lend(OUTPUT, 8 * OL);
    SCL = chance(90) ? (size_t)below(5) : chance(90) ? odd_length() : 70000;
    SC = (uint16_t *)lend(SCORES, 2 * SCL);
    for (size_t i = 0; i < SCL; i++)
        SC[i] = (uint16_t)(chance(99) ? below(CINDROLF_SCORE_LIMIT + 1) : word());
}

/* An answer is done, was closed, behind, a refusal of the table, or that of a write. A refusal changes nothing. */
static void answered(uint64_t answer) {
    int refused = answer > CINDROLF_REFUSED && answer <= CINDROLF_REFUSED + CINDROLF_REFUSAL_NO_SENTENCE;
    if (!refused && answer > CINDROLF_BEHIND && (answer < CINDROLF_ENTRY || answer >> 33 != 0))
        fail("no answer", answer);
    int same = (SL == 0 || memcmp(before, S, 8 * SL) == 0) && (EL == 0 || memcmp(before + SL, E, 8 * EL) == 0);
    if (refused && !same)
        fail("a refusal changed the log", answer);
    if (!same && SL == CINDROLF_STATE_WORDS && EL == kept_words && cindrolf_well_formed(LOG)) {
        memcpy(kept_state, S, sizeof kept_state);
        memcpy(kept_entries, E, 8 * kept_words);
    }
}

static void keep_before(void) {
    lend_log();
    lend_more();
    if (SL > CINDROLF_STATE_WORDS)
        SL = CINDROLF_STATE_WORDS;
    if (SL > 0)
        memcpy(before, S, 8 * SL);
    if (EL > 0)
        memcpy(before + SL, E, 8 * EL);
}

/* A reader only reads, whatever it answers. */
#define READ(name, call)                                                                                                                             \
    static void f_##name(void) {                                                                                                                     \
        keep_before();                                                                                                                               \
        call;                                                                                                                                        \
        if ((SL > 0 && memcmp(before, S, 8 * SL) != 0) || (EL > 0 && memcmp(before + SL, E, 8 * EL) != 0))                                          \
            fail("a reader changed the log", 0);                                                                                                     \
    }
#define TAKE(name, call)                                                                                                                             \
    static void f_##name(void) {                                                                                                                     \
        keep_before();                                                                                                                               \
        answered(call);                                                                                                                              \
    }

TAKE(cindrolf_fresh, cindrolf_fresh(LOG, chance(95) ? 99 : below(18)))
TAKE(cindrolf_name, cindrolf_name(LOG, client()))
TAKE(cindrolf_become, cindrolf_become(LOG, client()))
TAKE(cindrolf_abdicate, cindrolf_abdicate(LOG, client()))
TAKE(cindrolf_fetch, cindrolf_fetch(LOG, client()))
TAKE(cindrolf_close_last, cindrolf_close_last(LOG, client()))
TAKE(cindrolf_finish, cindrolf_finish(LOG, client()))
TAKE(cindrolf_create, cindrolf_create(LOG, client()))
TAKE(cindrolf_append, cindrolf_append(LOG, client()))
TAKE(cindrolf_write, cindrolf_write(LOG, client(), value()))
TAKE(cindrolf_write_scores, cindrolf_write_scores(LOG, client(), SC, SCL))
TAKE(cindrolf_close_own, cindrolf_close_own(LOG, client()))
TAKE(cindrolf_name_with, cindrolf_name_with(LOG, R, RL, client()))
TAKE(cindrolf_become_with, cindrolf_become_with(LOG, R, RL, client()))
TAKE(cindrolf_abdicate_with, cindrolf_abdicate_with(LOG, R, RL, client()))
TAKE(cindrolf_fetch_with, cindrolf_fetch_with(LOG, R, RL, client()))
TAKE(cindrolf_close_last_with, cindrolf_close_last_with(LOG, R, RL, client()))
TAKE(cindrolf_finish_with, cindrolf_finish_with(LOG, R, RL, client()))
TAKE(cindrolf_create_with, cindrolf_create_with(LOG, R, RL, client()))
TAKE(cindrolf_append_with, cindrolf_append_with(LOG, R, RL, client()))
TAKE(cindrolf_write_with, cindrolf_write_with(LOG, R, RL, client(), value()))
TAKE(cindrolf_write_scores_with, cindrolf_write_scores_with(LOG, R, RL, client(), SC, SCL))
TAKE(cindrolf_close_own_with, cindrolf_close_own_with(LOG, R, RL, client()))
TAKE(cindrolf_take, cindrolf_take(LOG, step(), client(), value()))
TAKE(cindrolf_take_with, cindrolf_take_with(LOG, R, RL, step(), client(), value()))
TAKE(cindrolf_run_plan, (cindrolf_run_plan(LOG, R, RL, P, PL, number()), CINDROLF_DONE))
READ(cindrolf_well_formed, (void)cindrolf_well_formed(LOG))
READ(cindrolf_forecast, (void)cindrolf_forecast(LOG, R, RL, P, PL, number()))
READ(cindrolf_advise, (void)cindrolf_advise(LOG, client()))
READ(cindrolf_read_ledger, (void)cindrolf_read_ledger(LOG, number()))
READ(cindrolf_read_chain, (void)cindrolf_read_chain(LOG, O, OL))
READ(cindrolf_ledger_at, (void)cindrolf_ledger_at(LOG, number()))
READ(cindrolf_ledger_sum, (void)cindrolf_ledger_sum(LOG, number()))
READ(cindrolf_run_total, (void)cindrolf_run_total(LOG))
READ(cindrolf_first_window, (void)cindrolf_first_window(LOG, number(), number()))
READ(cindrolf_mark_set, if (cindrolf_mark_set(LOG, M, ML, below(5)) == CINDROLF_DONE) memcpy(kept_marks, M, sizeof kept_marks))
READ(cindrolf_mark_drop, if (cindrolf_mark_drop(LOG, M, ML, below(5)) == CINDROLF_DONE) memcpy(kept_marks, M, sizeof kept_marks))
READ(cindrolf_mark_read, (void)cindrolf_mark_read(LOG, M, ML, below(5), O, OL))

static void f_cindrolf_version(void) {
    if (cindrolf_version() != CINDROLF_VERSION)
        fail("version", cindrolf_version());
}

static void f_cindrolf_rearrange(void) {
    size_t words = odd_length(), bytes = chance(80) ? 8 * words : odd_length();
    uint64_t *given = fill(OUTPUT, words, kept_entries, CINDROLF_ENTRY_WORDS);
    (void)cindrolf_rearrange(given, words, (uint8_t *)lend(SCORES, bytes), bytes);
}

static void f_cindrolf_restore(void) {
    size_t words = odd_length(), bytes = chance(80) ? 8 * words : odd_length();
    (void)cindrolf_restore((uint8_t *)lend(SCORES, bytes), bytes, (uint64_t *)lend(OUTPUT, 8 * words), words);
}

static void f_cindrolf_sentence(void) {
    size_t length = chance(70) ? 90 + (size_t)below(12) : odd_length();
    (void)cindrolf_sentence(step(), number(), number(), (char *)lend(TEXT, length), length);
}

static void f_cindrolf_read_sentence(void) {
    char text[CINDROLF_TEXT_BYTES + 8];
    struct cindrolf_sentence_bytes said = cindrolf_sentence(below(10), below(256), 1 + below(28), text, sizeof text);
    size_t length = (size_t)said.length + (size_t)below(3);
    char *lent = (char *)lend(TEXT, length);
    memcpy(lent, text, length);
    if (chance(50))
        lent[below(length)] = (char)word();
    (void)cindrolf_read_sentence(lent, length);
}

static void f_cindrolf_decide(void) { (void)cindrolf_decide(number(), number(), number(), number(), number()); }
static void f_cindrolf_request_id(void) { (void)cindrolf_request_id(number(), number()); }

/* ---- the store */
static cindrolf_store *slots[SLOTS], *closed;

static int is_live(const cindrolf_store *store) {
    for (int i = 0; i < SLOTS; i++)
        if (store != NULL && slots[i] == store)
            return 1;
    return 0;
}

/* A handle that is open, null, closed or made up. */
static cindrolf_store *handle(void) {
    switch (below(10)) {
    case 0: return NULL;
    case 1: return closed;
    case 2: return (cindrolf_store *)(uintptr_t)(chance(50) ? word() : below(200));
    default: return slots[below(SLOTS)];
    }
}

/* A status is one of the table, and no fault of the library. A handle is none exactly where it is not open. */
static void status(const cindrolf_store *store, int given) {
    if (given < 0 || given >= CINDROLF_STORE_INTERNAL)
        fail("status", (uint64_t)given);
    if (store != NULL && (given == CINDROLF_STORE_IN_USE || (given == CINDROLF_STORE_BAD_HANDLE) == is_live(store)))
        fail(is_live(store) ? "an open handle" : "a handle that is none", (uint64_t)given);
    if (store == NULL && given != CINDROLF_STORE_BAD_HANDLE)
        fail("a null handle", (uint64_t)given);
    (void)cindrolf_store_status_text(given);
}

/* A text that ends at the last byte that may be read. */
static const char *lend_text(enum region region, const char *text, size_t length) {
    char *lent = regions[region] + REGION - length - 1;
    memcpy(lent, text, length);
    lent[length] = 0;
    return lent;
}

static const char *any_text(enum region region) {
    char text[600];
    size_t length = chance(90) ? (size_t)below(40) : (size_t)below(sizeof text);
    for (size_t i = 0; i < length; i++)
        text[i] = chance(80) ? (char)('a' + below(26)) : (char)(word() | 1);
    return below(20) == 0 ? NULL : lend_text(region, text, length);
}

/* The name of one of a few files, or an address that leads nowhere. No name has a slash but those. */
static const char *address(const char *kind) {
    static const char *const nowhere[] = {"", ".", "no/such/folder.db", "postgresql://", "postgresql://localhost/x", "postgresql://u:p@localhost/a/b", "postgresql://a/b/%f"};
    char text[64];
    if (chance(5))
        return NULL;
    if (chance(15)) {
        const char *chosen = nowhere[below(COUNT(nowhere))];
        return lend_text(TEXT, chosen, strlen(chosen));
    }
    int length = snprintf(text, sizeof text, "%s-%d.db", kind, (int)below(4));
    return lend_text(TEXT, text, (size_t)length);
}

/* What a call writes to a text of the caller ends with a zero. */
static char *room(size_t *length) {
    *length = chance(80) ? (size_t)below(200) : odd_length();
    char *text = (char *)lend(NOTE, *length);
    if (*length > 0)
        memset(text, 'x', *length);
    return text;
}

static void ended(const char *text, size_t length) {
    if (length > 0 && memchr(text, 0, length) == NULL)
        fail("a message without an end", length);
}

static void close_slot(size_t slot) {
    size_t length;
    char *why = room(&length);
    cindrolf_store *store = slots[slot];
    int given = cindrolf_store_close(store, why, length);
    ended(why, length);
    status(store, given);
    if (store != NULL)
        closed = store;
    slots[slot] = NULL;
}

typedef int opens(const char *, cindrolf_store **, char *, size_t);

static int create(const char *name, cindrolf_store **store, char *why, size_t length) {
    return cindrolf_store_create(name, chance(90) ? 3 : number(), chance(90) ? (chance(50) ? 512 : 4096) : odd_length(), store, why, length);
}

static void open_by(opens *function) {
    size_t slot = (size_t)below(SLOTS), length;
    close_slot(slot);
    cindrolf_store **store = chance(95) ? &slots[slot] : NULL;
    char *why = room(&length);
    int given = function(address("run"), store, why, length);
    ended(why, length);
    if (given < 0 || given >= CINDROLF_STORE_INTERNAL || given == CINDROLF_STORE_BAD_HANDLE || given == CINDROLF_STORE_IN_USE)
        fail("opening", (uint64_t)given);
    if ((given == CINDROLF_STORE_OK) != (slots[slot] != NULL))
        fail("the handle of an opening", (uint64_t)given);
    if (slots[slot] != NULL)
        status(slots[slot], cindrolf_store_set_patience(slots[slot], below(5)));
    /* Now and then a file goes, under those that have it open. */
    if (below(20) == 0) {
        const char *file = address("run");
        if (file != NULL)
            unlink(file);
    }
}

static void f_cindrolf_store_open(void) { open_by(cindrolf_store_open); }
static void f_cindrolf_store_open_read_only(void) { open_by(cindrolf_store_open_read_only); }
static void f_cindrolf_store_create(void) { open_by(create); }
static void f_cindrolf_store_close(void) {
    cindrolf_store *store = handle();
    size_t slot = 0;
    while (slot < SLOTS && slots[slot] != store)
        slot++;
    if (store != NULL && slot < SLOTS)
        close_slot(slot);
    else
        status(store, cindrolf_store_close(store, NULL, 0));
}
static void f_cindrolf_store_version(void) {
    if (cindrolf_store_version() != CINDROLF_STORE_VERSION)
        fail("version", cindrolf_store_version());
}
static void f_cindrolf_store_status_text(void) {
    if (strlen(cindrolf_store_status_text((int)number())) == 0)
        fail("no text", 0);
}
static void f_cindrolf_store_end_waiting(void) { cindrolf_store_end_waiting(); }
static void f_cindrolf_store_message(void) {
    size_t length;
    char *text = room(&length);
    cindrolf_store *store = handle();
    int given = cindrolf_store_message(store, text, length);
    ended(text, length);
    status(store, given);
}
static void f_cindrolf_store_last_row(void) {
    size_t length;
    char *text = room(&length);
    cindrolf_store *store = handle();
    int given = cindrolf_store_last_row(store, text, length);
    if (given == CINDROLF_STORE_OK)
        ended(text, length);
    status(store, given);
}

static uint64_t *out(void) { return chance(80) ? (uint64_t *)lend(OUTPUT, 8) : chance(50) ? NULL : (uint64_t *)(void *)(regions[OUTPUT] + REGION - 12); }
static uint64_t *out_too(void) { return chance(80) ? (uint64_t *)lend(MARKS, 8) : NULL; }

#define STORE(name, call)                                                                                                                            \
    static void f_##name(void) {                                                                                                                     \
        cindrolf_store *store = handle();                                                                                                            \
        lend_more();                                                                                                                                 \
        status(store, call);                                                                                                                         \
    }

STORE(cindrolf_store_unknown_request, cindrolf_store_unknown_request(store, out()))
STORE(cindrolf_store_set_patience, cindrolf_store_set_patience(store, chance(80) ? below(5) : CINDROLF_STORE_WAIT_LIMIT + 1 + below(9)))
STORE(cindrolf_store_set_process_name, cindrolf_store_set_process_name(store, any_text(TEXT)))
STORE(cindrolf_store_keep_witness, cindrolf_store_keep_witness(store, address("witness")))
STORE(cindrolf_store_take, cindrolf_store_take(store, step(), client(), value(), out()))
STORE(cindrolf_store_write_scores, cindrolf_store_write_scores(store, client(), chance(90) ? SC : NULL, SCL, out()))
STORE(cindrolf_store_run_plan, cindrolf_store_run_plan(store, P, PL, number(), out()))
STORE(cindrolf_store_set_mark, cindrolf_store_set_mark(store, below(5), out()))
STORE(cindrolf_store_drop_mark, cindrolf_store_drop_mark(store, below(5), out()))
STORE(cindrolf_store_grant, cindrolf_store_grant(store, client(), step(), out()))
STORE(cindrolf_store_revoke, cindrolf_store_revoke(store, client(), step(), out()))
STORE(cindrolf_store_set_rights, cindrolf_store_set_rights(store, R, RL, out()))
STORE(cindrolf_store_changed, cindrolf_store_changed(store, chance(95) ? below(3) : UINT64_MAX, out()))
STORE(cindrolf_store_settle, cindrolf_store_settle(store, number(), out(), out_too()))
STORE(cindrolf_store_has_row, cindrolf_store_has_row(store, chance(50) ? any_text(TEXT) : lend_text(TEXT, "3:0123456789abcdef0123456789abcdef", 34)))
STORE(cindrolf_store_check, cindrolf_store_check(store, out(), out_too()))
STORE(cindrolf_store_checkpoint, cindrolf_store_checkpoint(store, out()))
STORE(cindrolf_store_copy, cindrolf_store_copy(store, address("copy")))

static void f_cindrolf_store_take_all(void) {
    cindrolf_store *store = handle();
    lend_more();
    size_t count = (size_t)below(6), answers = chance(80) ? count : (size_t)below(8);
    struct cindrolf_store_asked *asked = (struct cindrolf_store_asked *)lend(ASKED, count * sizeof *asked);
    const char *note = any_text(NOTE);
    for (size_t i = 0; i < count; i++) {
        const struct cindrolf_store_asked one = {chance(90) ? below(14) : number(), client(), value(), chance(90) ? SC : NULL, SCL, chance(50) ? note : NULL};
        asked[i] = one;
    }
    status(store, cindrolf_store_take_all(store, asked, count, (uint64_t *)lend(OUTPUT, 8 * answers), answers));
}

static void f_cindrolf_store_snapshot(void) {
    cindrolf_store *store = handle();
    size_t length[4] = {CINDROLF_STATE_WORDS, CINDROLF_ENTRY_WORDS, CINDROLF_MARK_WORDS, CINDROLF_RIGHTS_WORDS};
    uint64_t *words[4];
    for (int i = 0; i < 4; i++) {
        length[i] = chance(85) ? length[i] : chance(50) ? 0 : odd_length();
        words[i] = (uint64_t *)lend((enum region)(STATE + i), 8 * length[i]);
    }
    struct cindrolf_store_taken *taken = (struct cindrolf_store_taken *)lend(OUTPUT, sizeof *taken);
    int given = cindrolf_store_snapshot(store, words[0], length[0], words[1], length[1], words[2], length[2], words[3], length[3], taken);
    status(store, given);
    /* What it gives is a log, to every reader. */
    if (given == CINDROLF_STORE_OK && length[0] > 0 && length[1] > 0 && !cindrolf_well_formed(words[0], length[0], words[1], (size_t)taken->entry_words))
        fail("a snapshot that is no log", length[1]);
}

#define F(name) {#name, f_##name, 0}
static struct {
    const char *name;
    void (*call)(void);
    uint64_t count;
} functions[] = {
    F(cindrolf_version), F(cindrolf_fresh), F(cindrolf_well_formed), F(cindrolf_name), F(cindrolf_become), F(cindrolf_abdicate), F(cindrolf_fetch),
    F(cindrolf_close_last), F(cindrolf_finish), F(cindrolf_create), F(cindrolf_append), F(cindrolf_write), F(cindrolf_write_scores), F(cindrolf_close_own),
    F(cindrolf_name_with), F(cindrolf_become_with), F(cindrolf_abdicate_with), F(cindrolf_fetch_with), F(cindrolf_close_last_with),
    F(cindrolf_finish_with), F(cindrolf_create_with), F(cindrolf_append_with), F(cindrolf_write_with), F(cindrolf_write_scores_with),
    F(cindrolf_close_own_with), F(cindrolf_take), F(cindrolf_take_with), F(cindrolf_run_plan), F(cindrolf_forecast), F(cindrolf_advise),
    F(cindrolf_read_ledger), F(cindrolf_read_chain), F(cindrolf_ledger_at), F(cindrolf_ledger_sum), F(cindrolf_run_total), F(cindrolf_first_window),
    F(cindrolf_mark_set), F(cindrolf_mark_drop), F(cindrolf_mark_read), F(cindrolf_rearrange), F(cindrolf_restore), F(cindrolf_sentence),
    F(cindrolf_read_sentence), F(cindrolf_decide), F(cindrolf_request_id), F(cindrolf_store_version), F(cindrolf_store_status_text),
    F(cindrolf_store_open), F(cindrolf_store_open_read_only), F(cindrolf_store_create), F(cindrolf_store_close), F(cindrolf_store_message),
    F(cindrolf_store_unknown_request), F(cindrolf_store_set_patience), F(cindrolf_store_set_process_name), F(cindrolf_store_keep_witness),
    F(cindrolf_store_end_waiting), F(cindrolf_store_take), F(cindrolf_store_write_scores), F(cindrolf_store_take_all), F(cindrolf_store_run_plan),
    F(cindrolf_store_set_mark), F(cindrolf_store_drop_mark), F(cindrolf_store_grant), F(cindrolf_store_revoke), F(cindrolf_store_set_rights),
    F(cindrolf_store_snapshot), F(cindrolf_store_changed), F(cindrolf_store_settle), F(cindrolf_store_last_row), F(cindrolf_store_has_row),
    F(cindrolf_store_check), F(cindrolf_store_checkpoint), F(cindrolf_store_copy),
};

/* ---- threads that use and close the same handles */
static cindrolf_store *shared[3];
static uint64_t in_use;

static void *thread(void *unused) {
    (void)unused;
    for (int i = 0; i < 400; i++) {
        uint64_t answer = 0;
        cindrolf_store *store = shared[i % 3];
        int given = i % 7 == 0 ? cindrolf_store_changed(store, 1, &answer) : cindrolf_store_take(store, (uint64_t)i % 10, (uint64_t)i % 3, 5, &answer);
        if (i == 399)
            given = cindrolf_store_close(store, NULL, 0);
        if (given < 0 || given >= CINDROLF_STORE_INTERNAL)
            fail("a status among threads", (uint64_t)given);
        if (given == CINDROLF_STORE_IN_USE)
            __atomic_add_fetch(&in_use, 1, __ATOMIC_RELAXED);
    }
    return unused;
}

static void threads(void) {
    pthread_t started[4];
    cindrolf_store_create("threads.db", 3, 512, &shared[0], NULL, 0);
    for (int i = 1; i < 3; i++)
        if (cindrolf_store_open("threads.db", &shared[i], NULL, 0) != CINDROLF_STORE_OK)
            fail("a log for threads", (uint64_t)i);
    for (int i = 0; i < 4; i++)
        pthread_create(&started[i], NULL, thread, NULL);
    for (int i = 0; i < 4; i++)
        pthread_join(started[i], NULL);
    for (int i = 0; i < 3; i++)
        cindrolf_store_close(shared[i], NULL, 0);
    if (in_use == 0)
        fail("no handle was in use", 0);
}

int main(int count, char **words) {
    if (count == 2 && strcmp(words[1], "--list") == 0) {
        for (size_t i = 0; i < COUNT(functions); i++)
            puts(functions[i].name);
        return 0;
    }
    if (count != 4 || chdir(words[3]) != 0)
        return fprintf(stderr, "usage: fuzz SECONDS SEED FOLDER, or fuzz --list\n"), 2;
    time_t end = time(NULL) + atoi(words[1]);
    seed = strtoull(words[2], NULL, 10) * 2 + 1;
    map();
    threads();
    cindrolf_fresh(kept_state, CINDROLF_STATE_WORDS, kept_entries, kept_words, 3);
    while (time(NULL) < end)
        for (int i = 0; i < 100; i++, calls++) {
            size_t chosen = (size_t)below(COUNT(functions));
            functions[chosen].call();
            functions[chosen].count++;
        }
    for (size_t i = 0; i < COUNT(functions); i++)
        if (functions[i].count == 0)
            fail(functions[i].name, 0);
    for (size_t i = 0; i < SLOTS; i++)
        close_slot(i);
    printf("fuzz: %" PRIu64 " calls of %zu functions, seed %s; %" PRIu64 " among threads found a handle in use\n", calls, COUNT(functions), words[2], in_use);
    return 0;
}

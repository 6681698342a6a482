/* The log for controllers in C, C++ and Rust: the functions of the archive libcindrolf.a, which is proved. `./install PREFIX` builds it and
 * puts it, this header and a file for pkg-config below PREFIX.
 *
 * A log is two buffers of 64-bit words that you pass to each call, one for the state and one for the entries. Only these functions may
 * write to them. Persist both together after every step that is not refused. If you keep marks, they are a third such buffer. If you limit
 * your clients, rights are another, which is only read, as is a plan: steps as words, to be taken in a row.
 *
 * You may pass buffers of any length and content, and any number. A null pointer with length 0 is an empty buffer; as state, entries, marks
 * or rights it gives refusal 1, as every wrong length does. You must make sure that any other pointer is not null, is aligned for uint64_t
 * (a pointer to scores for uint16_t; one to bytes or text need not be) and is valid for as many words, scores or bytes as its length says;
 * that the buffers of one call do not overlap (state, entries, marks, rights, plan, output, scores, words, bytes and text are separate
 * pieces of memory); and that no other thread uses them during the call.
 *
 * Rust declares the same functions in an `extern "C"` block, and the structs as #[repr(C)].
 */
#ifndef CINDROLF_H
#define CINDROLF_H

#include <stddef.h>
#include <stdint.h>
#ifndef __cplusplus
#include <stdbool.h>
#endif

#ifdef __cplusplus
extern "C" {
#endif

/* The number of this interface. It increases with every change that a caller has to follow. */
#define CINDROLF_VERSION UINT64_C(3)

/* The number of the interface that the archive has. Compare it with CINDROLF_VERSION before the first call. */
uint64_t cindrolf_version(void);

/* The lengths of the two buffers, in words. The entry buffer of a small cartridge has CINDROLF_SMALL_ENTRY_WORDS. Every function takes
 * either; a log has at most as many entries as its entry buffer has words. */
#define CINDROLF_STATE_WORDS 527
#define CINDROLF_ENTRY_WORDS 4096
#define CINDROLF_SMALL_ENTRY_WORDS 512

/* The length of the marks buffer, in words. */
#define CINDROLF_MARK_WORDS 64

/* The length of the rights buffer, in words: one for each client that a log can have. */
#define CINDROLF_RIGHTS_WORDS 16

/* The fewest bytes of a text buffer; every sentence fits them. */
#define CINDROLF_TEXT_BYTES 96

/* The limits. Each is the largest value that is accepted: clients of a log, a value, scores of one write, a score, marks of a marks buffer,
 * words of a window, and words that are rearranged at once. */
#define CINDROLF_CLIENT_LIMIT UINT64_C(16)
#define CINDROLF_VALUE_LIMIT ((UINT64_C(1) << 52) - 1)
#define CINDROLF_SCORES_LIMIT 4000
#define CINDROLF_SCORE_LIMIT 372
#define CINDROLF_MARKS_LIMIT 32
#define CINDROLF_WINDOW_LIMIT 256
#define CINDROLF_REARRANGE_LIMIT 4096

/* The rights in a client's word: one for each kind of step, in the order of the steps' numbers below. Either write needs
 * CINDROLF_RIGHT_WRITE. */
#define CINDROLF_RIGHT_NAME (UINT64_C(1) << 63)
#define CINDROLF_RIGHT_BECOME (UINT64_C(1) << 62)
#define CINDROLF_RIGHT_ABDICATE (UINT64_C(1) << 61)
#define CINDROLF_RIGHT_FETCH (UINT64_C(1) << 60)
#define CINDROLF_RIGHT_CLOSE_LAST (UINT64_C(1) << 59)
#define CINDROLF_RIGHT_FINISH (UINT64_C(1) << 58)
#define CINDROLF_RIGHT_CREATE (UINT64_C(1) << 57)
#define CINDROLF_RIGHT_APPEND (UINT64_C(1) << 56)
#define CINDROLF_RIGHT_WRITE (UINT64_C(1) << 55)
#define CINDROLF_RIGHT_CLOSE_OWN (UINT64_C(1) << 54)
#define CINDROLF_ALL_RIGHTS UINT64_C(0xFFC0000000000000)

/* The stage of a client in a well-formed log, 0 to 6: waiting, fetching, closing the last ledger, creating, appending, writing, finishing. */
#define CINDROLF_STAGE(state, client) ((state)[1 + (client)] >> 60 & 7)

/* Whether a created ledger of a well-formed log, 1 to 255, is recovering: fenced, and not yet closed. A leader has to finish it. */
#define CINDROLF_RECOVERING(state, ledger) ((state)[16 + (ledger)] >> 53 & 1)

/* What an operation answers. Refusal n is CINDROLF_REFUSED + n. An accepted write is CINDROLF_ENTRY + e * 65536 + p, for entry number e at
 * place p of its ledger. */
#define CINDROLF_DONE UINT64_C(0)
#define CINDROLF_WAS_CLOSED UINT64_C(1)
#define CINDROLF_BEHIND UINT64_C(2)
#define CINDROLF_REFUSED UINT64_C(256)
#define CINDROLF_ENTRY (UINT64_C(1) << 32)

/* The parts of an accepted write's answer, one that is CINDROLF_ENTRY or more: the entry's number in the log, and its place in its ledger,
 * which is how many entries that ledger had before. Both count from 0. */
static inline uint64_t cindrolf_answer_entry(uint64_t answer) { return (answer - CINDROLF_ENTRY) >> 16; }
static inline uint64_t cindrolf_answer_place(uint64_t answer) { return answer & 65535; }

/* The refusals, each with its reason in the words of cindrolf_sentence. The first that applies is given; it changes no word of any buffer. */
#define CINDROLF_REFUSAL_WRONG_LENGTH UINT64_C(1)      /* a buffer has the wrong length: state, entries, marks or rights */
#define CINDROLF_REFUSAL_NOT_WELL_FORMED UINT64_C(2)   /* a buffer is not well formed: state, entries, marks or rights */
#define CINDROLF_REFUSAL_UNKNOWN_CLIENT UINT64_C(3)    /* the client number is not below the client count */
#define CINDROLF_REFUSAL_ALREADY_NAMED UINT64_C(4)     /* the client is the named leader */
#define CINDROLF_REFUSAL_ALREADY_LEADS UINT64_C(5)     /* the client leads already */
#define CINDROLF_REFUSAL_NOT_NAMED UINT64_C(6)         /* the client is not the named leader */
#define CINDROLF_REFUSAL_DOES_NOT_LEAD UINT64_C(7)     /* the client does not lead */
#define CINDROLF_REFUSAL_OTHER_STAGE UINT64_C(8)       /* the client is at another stage */
#define CINDROLF_REFUSAL_IMPOSSIBLE_MEMORY UINT64_C(9) /* the client remembers what cannot be: never met from a fresh log */
#define CINDROLF_REFUSAL_NO_LEDGER_NUMBER UINT64_C(10) /* no ledger number is left: all 255 are created */
#define CINDROLF_REFUSAL_VALUE_TOO_WIDE UINT64_C(11)   /* the value has more than fifty two bits: it is 2^52 or more */
#define CINDROLF_REFUSAL_LEDGER_FENCED UINT64_C(12)    /* another leader has fenced the ledger */
#define CINDROLF_REFUSAL_LOG_FULL UINT64_C(13)         /* the log is full: it has as many entries as the entry buffer has words */
#define CINDROLF_REFUSAL_LEDGER_EMPTY UINT64_C(14)     /* the ledger has no entry: withdrawn, no operation gives it */
#define CINDROLF_REFUSAL_NOT_LISTED UINT64_C(15)       /* the ledger is not in the list */
#define CINDROLF_REFUSAL_OUTPUT_TOO_SHORT UINT64_C(16) /* the output buffer is shorter than the reading */
#define CINDROLF_REFUSAL_CLIENT_COUNT UINT64_C(17)     /* the client count is not one to sixteen */
#define CINDROLF_REFUSAL_SCORE_COUNT UINT64_C(18)      /* there are no scores or more than four thousand */
#define CINDROLF_REFUSAL_SCORE_TOO_HIGH UINT64_C(19)   /* a score is above three hundred and seventy two: 372 is the highest */
#define CINDROLF_REFUSAL_WINDOW_LENGTH UINT64_C(20)    /* the window length is zero or too large: 256 is the largest */
#define CINDROLF_REFUSAL_MARK_NAME_TAKEN UINT64_C(21)  /* the name of the mark is taken or all zero */
#define CINDROLF_REFUSAL_MARKS_FULL UINT64_C(22)       /* thirty two marks are kept already */
#define CINDROLF_REFUSAL_MARK_NOT_KEPT UINT64_C(23)    /* no mark of this name is kept */
#define CINDROLF_REFUSAL_MISSING_RIGHT UINT64_C(24)    /* the client lacks the right to this step */
#define CINDROLF_REFUSAL_UNKNOWN_STEP UINT64_C(25)     /* the step number is above nine */
#define CINDROLF_REFUSAL_STORAGE_LENGTH UINT64_C(26)   /* too many words or not eight bytes for each: 4096 words are the most */
#define CINDROLF_REFUSAL_TEXT_TOO_SHORT UINT64_C(27)   /* the text buffer has fewer than ninety six bytes */
#define CINDROLF_REFUSAL_NO_SENTENCE UINT64_C(28)      /* there is no sentence for these numbers */

/* The numbers of the steps, in this order. cindrolf_advise answers them, or a refusal, or CINDROLF_NO_STEP; cindrolf_take and
 * cindrolf_sentence take them; step words contain them; and cindrolf_read_sentence returns them. Name is never advised. */
#define CINDROLF_STEP_NAME UINT64_C(0)
#define CINDROLF_STEP_BECOME UINT64_C(1)
#define CINDROLF_STEP_ABDICATE UINT64_C(2)
#define CINDROLF_STEP_FETCH UINT64_C(3)
#define CINDROLF_STEP_CLOSE_LAST UINT64_C(4)
#define CINDROLF_STEP_FINISH UINT64_C(5)
#define CINDROLF_STEP_CREATE UINT64_C(6)
#define CINDROLF_STEP_APPEND UINT64_C(7)
#define CINDROLF_STEP_WRITE UINT64_C(8)
#define CINDROLF_STEP_CLOSE_OWN UINT64_C(9)
#define CINDROLF_NO_STEP UINT64_C(15)

/* The parts of an entry's word: ledger number (0 in what cindrolf_read_chain and cindrolf_mark_read write), client, and value. */
static inline uint64_t cindrolf_word_ledger(uint64_t word) { return word >> 56; }
static inline uint64_t cindrolf_word_client(uint64_t word) { return (word >> 52) & 15; }
static inline uint64_t cindrolf_word_value(uint64_t word) { return word & ((UINT64_C(1) << 52) - 1); }

/* Makes the buffers an empty log for 1 to 16 clients, of which client 0 is the named leader, and answers done.
 * A refusal (1 or 17) changes nothing. */
uint64_t cindrolf_fresh(uint64_t *state, size_t state_length, uint64_t *entries, size_t entries_length, uint64_t client_count);

/* Whether the buffers have the right lengths and hold a log: true exactly if no operation gives refusal 1 or 2 for these two. It changes
 * nothing. */
bool cindrolf_well_formed(const uint64_t *state, size_t state_length, const uint64_t *entries, size_t entries_length);

/* The steps. Each first gives refusal 1, 2 or 3 if one applies, then those named at the step, in their order. A refusal changes nothing.
 * These functions take no rights: each client has all of them. */

/* The client becomes the named leader: done, or refusal 4. */
uint64_t cindrolf_name(uint64_t *state, size_t state_length, uint64_t *entries, size_t entries_length, uint64_t client);

/* The named client starts to lead, and has to fetch next: done, or refusal 5 or 6. */
uint64_t cindrolf_become(uint64_t *state, size_t state_length, uint64_t *entries, size_t entries_length, uint64_t client);

/* A leader that is no longer named stops leading: done, or refusal 7 or 4. */
uint64_t cindrolf_abdicate(uint64_t *state, size_t state_length, uint64_t *entries, size_t entries_length, uint64_t client);

/* The leader remembers the list's length and last ledger, which it has to close next; with an empty list it has to create one.
 * Done, or refusal 7 or 8. */
uint64_t cindrolf_fetch(uint64_t *state, size_t state_length, uint64_t *entries, size_t entries_length, uint64_t client);

/* The leader fences the ledger that it fetched, which is recovering from now on: done. If it was recovering when fetched, it does not
 * change: done. After either the leader has to finish it. If it was closed when fetched: was closed, and the leader has to create one. If
 * it was fenced or closed since: `behind`, and the leader has to fetch again. Or refusal 7, 8 or 9. */
uint64_t cindrolf_close_last(uint64_t *state, size_t state_length, uint64_t *entries, size_t entries_length, uint64_t client);

/* The leader closes the recovering ledger, whichever client fenced it, and has to create one next: done. If another client closed it:
 * `behind`, and the leader has to fetch again. Or refusal 7, 8 or 9. */
uint64_t cindrolf_finish(uint64_t *state, size_t state_length, uint64_t *entries, size_t entries_length, uint64_t client);

/* The leader creates an open ledger with the next number, and has to append it next: done, or refusal 7, 8 or 10. */
uint64_t cindrolf_create(uint64_t *state, size_t state_length, uint64_t *entries, size_t entries_length, uint64_t client);

/* The leader's new ledger goes to the end of the list, and the leader may write: done. If the list has grown since the client last fetched
 * or appended: `behind`, and the client stops leading. Or refusal 7, 8 or 9. */
uint64_t cindrolf_append(uint64_t *state, size_t state_length, uint64_t *entries, size_t entries_length, uint64_t client);

/* The leader adds an entry to its ledger: CINDROLF_ENTRY or more, with its number and its place as above, or refusal 7, 8, 9, 11, 12 or 13.
 * The named leader does not matter. */
uint64_t cindrolf_write(uint64_t *state, size_t state_length, uint64_t *entries, size_t entries_length, uint64_t client, uint64_t value);

/* The leader adds an entry to its ledger whose value is the sum of the error probabilities of these quality scores, each score in quarters
 * of a Phred unit and each probability in whole parts of 10^-12: as cindrolf_write answers, or refusal 18, 19, 7, 8, 9, 12 or 13. The
 * scores are only read. A null pointer with length 0 is a list without scores, which is refused with 18. If your scores have a wider type,
 * test them before you narrow them: 65541 would become score 5 unnoticed. */
uint64_t cindrolf_write_scores(uint64_t *state, size_t state_length, uint64_t *entries, size_t entries_length, uint64_t client,
                               const uint16_t *scores, size_t scores_length);

/* The leader closes its own ledger, which may be empty, without a fence, and has to create one next: done. If another client closed it:
 * `behind`, and the client stops leading. Or refusal 7, 8 or 9. */
uint64_t cindrolf_close_own(uint64_t *state, size_t state_length, uint64_t *entries, size_t entries_length, uint64_t client);

/* The same steps under rights: a buffer of CINDROLF_RIGHTS_WORDS words that is only read, in which the word of client c is rights[c]. A bit
 * that is no right, and any bit in a word from the client count on, makes it not well formed (2). The lengths of all three buffers come
 * before the words of any. Refusal 24, a missing right, comes after 3, and with scores after 19; then come those that the step names above.
 * With all ten rights of each client below the client count a step does and answers the same as above. An additional right for such a
 * client changes only a step that 24 refused. The log keeps no rights: each step uses those that you pass with it. */
uint64_t cindrolf_name_with(uint64_t *state, size_t state_length, uint64_t *entries, size_t entries_length, const uint64_t *rights,
                            size_t rights_length, uint64_t client);
uint64_t cindrolf_become_with(uint64_t *state, size_t state_length, uint64_t *entries, size_t entries_length, const uint64_t *rights,
                              size_t rights_length, uint64_t client);
uint64_t cindrolf_abdicate_with(uint64_t *state, size_t state_length, uint64_t *entries, size_t entries_length, const uint64_t *rights,
                                size_t rights_length, uint64_t client);
uint64_t cindrolf_fetch_with(uint64_t *state, size_t state_length, uint64_t *entries, size_t entries_length, const uint64_t *rights,
                             size_t rights_length, uint64_t client);
uint64_t cindrolf_close_last_with(uint64_t *state, size_t state_length, uint64_t *entries, size_t entries_length, const uint64_t *rights,
                                  size_t rights_length, uint64_t client);
uint64_t cindrolf_finish_with(uint64_t *state, size_t state_length, uint64_t *entries, size_t entries_length, const uint64_t *rights,
                              size_t rights_length, uint64_t client);
uint64_t cindrolf_create_with(uint64_t *state, size_t state_length, uint64_t *entries, size_t entries_length, const uint64_t *rights,
                              size_t rights_length, uint64_t client);
uint64_t cindrolf_append_with(uint64_t *state, size_t state_length, uint64_t *entries, size_t entries_length, const uint64_t *rights,
                              size_t rights_length, uint64_t client);
uint64_t cindrolf_write_with(uint64_t *state, size_t state_length, uint64_t *entries, size_t entries_length, const uint64_t *rights,
                             size_t rights_length, uint64_t client, uint64_t value);
uint64_t cindrolf_write_scores_with(uint64_t *state, size_t state_length, uint64_t *entries, size_t entries_length, const uint64_t *rights,
                                    size_t rights_length, uint64_t client, const uint16_t *scores, size_t scores_length);
uint64_t cindrolf_close_own_with(uint64_t *state, size_t state_length, uint64_t *entries, size_t entries_length, const uint64_t *rights,
                                 size_t rights_length, uint64_t client);

/* A step by its number, CINDROLF_STEP_NAME to CINDROLF_STEP_CLOSE_OWN. If the number is above nine, refusal 25 comes before all others,
 * whatever the buffers, the rights and the client. Otherwise it does and answers the same as the step's own function, without rights or
 * with them. The value counts only for a write. A write of scores has no number. */
uint64_t cindrolf_take(uint64_t *state, size_t state_length, uint64_t *entries, size_t entries_length, uint64_t step, uint64_t client,
                       uint64_t value);
uint64_t cindrolf_take_with(uint64_t *state, size_t state_length, uint64_t *entries, size_t entries_length, const uint64_t *rights,
                            size_t rights_length, uint64_t step, uint64_t client, uint64_t value);

/* Plans. A step word means a step by a client: the step's number as above in the 4 most significant bits, the client in the 8 below, and a
 * value in 52, which counts only for a write. A write of scores has no word. */

/* The word of this step, client and value. If one of them does not fit its bits the word is UINT64_MAX, which names no step. */
static inline uint64_t cindrolf_step_word(uint64_t step, uint64_t client, uint64_t value) {
    if (step > 15 || client > 255 || value >> 52 != 0)
        return UINT64_MAX;
    return step << 60 | client << 52 | value;
}

/* Takes the steps of a plan one after the other under these rights, up to the budget, and returns how many it took: the smaller of the
 * budget and the plan's length. A refused step counts, changes nothing, and the next is taken. Both buffers end as after the same steps
 * taken one by one, with the functions above that take rights. The run itself refuses nothing: a word that names no step has refusal 25 as
 * its answer, before any other, and if the buffers or the rights have wrong lengths (1) or are not well formed (2) each step has that
 * answer, and counts. The buffers are checked once, whatever the length of the plan. */
uint64_t cindrolf_run_plan(uint64_t *state, size_t state_length, uint64_t *entries, size_t entries_length, const uint64_t *rights,
                           size_t rights_length, const uint64_t *plan, size_t plan_length, uint64_t budget);

/* What a run adds: entries, the ledger numbers that done creates take, and how many of its steps are refused. Was closed and `behind` are
 * no refusals. */
struct cindrolf_plan_counts {
    uint64_t entries;
    uint64_t ledgers;
    uint64_t refusals;
};

/* Exactly what cindrolf_run_plan would add with the same buffers, rights, plan and budget. It changes nothing. It works on a copy of the
 * log, which needs some 37 KB of stack. */
struct cindrolf_plan_counts cindrolf_forecast(const uint64_t *state, size_t state_length, const uint64_t *entries, size_t entries_length,
                                              const uint64_t *rights, size_t rights_length, const uint64_t *plan, size_t plan_length,
                                              uint64_t budget);

/* The step that a client should take next, as numbered above; CINDROLF_NO_STEP if another client is named and this one does not lead; or
 * refusal 1, 2 or 3. It changes nothing. On a log that began with cindrolf_fresh, with two ledger numbers and one entry left, a named
 * leader that takes these steps has a write accepted at the tenth or earlier, as long as no other client steps or is named, what it writes
 * is neither too wide nor refused for its scores, and it lacks no right. The adviser checks neither limits nor rights: it may advise a
 * create or a write that 10 or 13 refuses. */
uint64_t cindrolf_advise(const uint64_t *state, size_t state_length, const uint64_t *entries, size_t entries_length, uint64_t client);

/* One ledger's part of the entry buffer: the words entries[start] to entries[start + count - 1]. Both are 0 if it is empty. */
struct cindrolf_ledger_part {
    uint64_t answer;
    uint64_t start;
    uint64_t count;
};

/* Says where in the entry buffer a listed ledger's entries are: done, or refusal 1, 2 or 15 with an empty part. It changes nothing. */
struct cindrolf_ledger_part cindrolf_read_ledger(const uint64_t *state, size_t state_length, const uint64_t *entries, size_t entries_length,
                                                 uint64_t ledger);

/* How many words cindrolf_read_chain or cindrolf_mark_read wrote, 0 on a refusal. */
struct cindrolf_chain_count {
    uint64_t answer;
    uint64_t count;
};

/* Writes the entries of all listed ledgers, in the order of the list, to the front of the output buffer, each without its ledger number;
 * the words after them stay. Done, or refusal 1, 2 or 16, which changes nothing. As many words of output as the entry buffer has are enough
 * for every log that began with cindrolf_fresh. */
struct cindrolf_chain_count cindrolf_read_chain(const uint64_t *state, size_t state_length, const uint64_t *entries, size_t entries_length,
                                                uint64_t *output, size_t output_length);

/* The ledger at a list place, 0 on a refusal. */
struct cindrolf_listed_ledger {
    uint64_t answer;
    uint64_t ledger;
};

/* Says which ledger is at a place of the list. Places count from 1: done, or refusal 1, 2 or 15, which means place 0 or a place past the
 * end of the list. To get the whole list, ask for place 1, 2 and so on until the answer is 15. It changes nothing. */
struct cindrolf_listed_ledger cindrolf_ledger_at(const uint64_t *state, size_t state_length, const uint64_t *entries, size_t entries_length,
                                                 uint64_t place);

/* How many entries a ledger has and the sum of their values, both 0 on a refusal. A sum is below 2^64. */
struct cindrolf_summed_ledger {
    uint64_t answer;
    uint64_t entries;
    uint64_t sum;
};

/* Adds up the values of a listed ledger's entries: done, or refusal 1, 2 or 15. It changes nothing. */
struct cindrolf_summed_ledger cindrolf_ledger_sum(const uint64_t *state, size_t state_length, const uint64_t *entries,
                                                  size_t entries_length, uint64_t ledger);

/* The sum of the run is ones * 10^12 + parts, where the parts are below 10^12. As values are in parts of 10^-12, printing ones, a point and
 * the parts as twelve digits gives the exact sum. `rounded` is that sum in thousandths, rounded once, a half up. All are 0 on a refusal. */
struct cindrolf_summed_run {
    uint64_t answer;
    uint64_t ones;
    uint64_t parts;
    uint64_t rounded;
};

/* Adds up the values of all listed ledgers: done, or refusal 1 or 2. It changes nothing. On a log that began with cindrolf_fresh the sum is
 * below 2^64; in other logs a ledger can be listed many times, and counts each time. */
struct cindrolf_summed_run cindrolf_run_total(const uint64_t *state, size_t state_length, const uint64_t *entries, size_t entries_length);

/* Whether cindrolf_first_window found a window, 0 or 1, and its start: a place in the reading, from 0. Both are 0 if none was found, and on
 * a refusal. */
struct cindrolf_window_found {
    uint64_t answer;
    uint64_t found;
    uint64_t start;
};

/* Finds the first window of the chain reading, that is `window` words of it in a row, whose values add up to more than the limit. Done, or
 * refusal 1, 2 or 20. None is found if no such window goes over, or if the reading has fewer words. It changes nothing and needs no output
 * buffer. */
struct cindrolf_window_found cindrolf_first_window(const uint64_t *state, size_t state_length, const uint64_t *entries,
                                                   size_t entries_length, uint64_t window, uint64_t limit);

/* Marks: named points of a run. The buffer holds, for each mark in the order of setting, its name and a word with the log's entry count
 * when it was set, in the 13 most significant bits; zeros follow, and a buffer of zeros keeps no mark. The functions only read the log.
 * They give refusal 1 if one of the three buffers has another length, or 2 if the two hold no log or the marks are not of this log; then
 * those named at each. A refusal changes nothing. A mark with more entries than the log has gives refusal 2, so persist a log before its
 * marks, or with them, and clear the marks when you begin a new log. */

/* The name of these eight bytes, the first the most significant. It reads all eight: pad a shorter name with zeros. */
static inline uint64_t cindrolf_mark_name(const char bytes[8]) {
    uint64_t name = 0;
    for (int i = 0; i < 8; i++)
        name = name << 8 | (unsigned char)bytes[i];
    return name;
}

/* Keeps a mark at the log's entry count, after the marks that are kept: done, or refusal 21 or 22. To move a mark, drop it first. */
uint64_t cindrolf_mark_set(const uint64_t *state, size_t state_length, const uint64_t *entries, size_t entries_length, uint64_t *marks,
                           size_t marks_length, uint64_t name);

/* Drops a mark; those after it move up: done, or refusal 23. */
uint64_t cindrolf_mark_drop(const uint64_t *state, size_t state_length, const uint64_t *entries, size_t entries_length, uint64_t *marks,
                            size_t marks_length, uint64_t name);

/* Writes the log's entries up to a mark to the front of the output buffer, in the order of their numbers, each without its ledger number;
 * the words after them stay. Done, or refusal 23 or 16. At a mark that was set on this log since its cindrolf_fresh, it is what
 * cindrolf_read_chain gave then, whatever steps came after. As many words of output as the entry buffer has are enough for every mark. */
struct cindrolf_chain_count cindrolf_mark_read(const uint64_t *state, size_t state_length, const uint64_t *entries, size_t entries_length,
                                               const uint64_t *marks, size_t marks_length, uint64_t name, uint64_t *output,
                                               size_t output_length);

/* Words rearranged for storage on archive disks, and back. The words may be the entries of a log or any others: the functions do not check
 * them. */

/* Writes words to eight times as many bytes: the first word, and then the difference of each word from the word before it, wrapping at 2^64;
 * of these all most significant bytes, then all next bytes, and so on. The words stay. Done, or refusal 26, which changes nothing. No words
 * give no bytes. */
uint64_t cindrolf_rearrange(const uint64_t *words, size_t words_length, uint8_t *bytes, size_t bytes_length);

/* Gives back the words that cindrolf_rearrange wrote to these bytes, an eighth as many. Any bytes, eight for each word, belong to some
 * words. Done, or refusal 26, which changes nothing. */
uint64_t cindrolf_restore(const uint8_t *bytes, size_t bytes_length, uint64_t *words, size_t words_length);

/* How many bytes the sentence of cindrolf_sentence has, 0 on a refusal. */
struct cindrolf_sentence_bytes {
    uint64_t answer;
    uint64_t length;
};

/* Writes a refusal as one sentence to the front of the text buffer, without a byte 0 at its end; the bytes after it stay. It is the step's
 * name, " of client ", the client's number, ": " and the refusal's reason, all in small letters, as in "write of client 7: the log is
 * full". Different numbers never give the same sentence. Done; or refusal 27 if the buffer has fewer than CINDROLF_TEXT_BYTES bytes, or 28
 * if the step is above CINDROLF_STEP_CLOSE_OWN, the client above 255, or the refusal 0 or above CINDROLF_REFUSAL_NO_SENTENCE. A refusal
 * changes no byte. Pass the refusal's number without CINDROLF_REFUSED. */
struct cindrolf_sentence_bytes cindrolf_sentence(uint64_t step, uint64_t client, uint64_t refusal, char *text, size_t text_length);

/* Whether a text is a sentence, 0 or 1, and the step, the client and the refusal that it says. All are 0 if it is none. */
struct cindrolf_sentence_said {
    uint64_t found;
    uint64_t step;
    uint64_t client;
    uint64_t refusal;
};

/* Reads a sentence back: the numbers with which cindrolf_sentence writes exactly these bytes. You may pass a text of any length and
 * content. A text with one byte more, less or different is no sentence, nor is one with a byte 0 or a line's end after it. The client is at
 * most 255. It refuses nothing and changes nothing. */
struct cindrolf_sentence_said cindrolf_read_sentence(const char *text, size_t text_length);

/* Sharing a log among controllers on many machines, through an engine that appends rows to one table: docs/SHARING.md says how. A
 * controller is in a phase; the next event decides the next phase and what to do. CINDROLF_PHASE_WAITING comes with the id of the awaited
 * append. */
#define CINDROLF_PHASE_IDLE UINT64_C(0)    /* it has nothing to do */
#define CINDROLF_PHASE_ASKED UINT64_C(1)   /* it was asked for a request */
#define CINDROLF_PHASE_CURRENT UINT64_C(2) /* it was asked, and has read the rows since */
#define CINDROLF_PHASE_WAITING UINT64_C(3) /* it has sent an append, and has no answer to give yet */
#define CINDROLF_PHASE_HALTED UINT64_C(4)  /* the engine has another history than it knows: it does nothing until it is started again */

/* The events, with their numbers `first` and `second`. Places count from 0. */
#define CINDROLF_SEEN_ASKED UINT64_C(0)         /* a caller asks for a request */
#define CINDROLF_SEEN_READ UINT64_C(1)          /* a read that began after the latest turn is over; now `first` rows are known, none awaited */
#define CINDROLF_SEEN_NEXT UINT64_C(2)          /* a read has reached a row: `first` rows are known before it, and its id is `second` */
#define CINDROLF_SEEN_PLACED UINT64_C(3)        /* the reply to the append: `first` rows are known, and the row is at place `second` */
#define CINDROLF_SEEN_ACCEPTED UINT64_C(4)      /* the request is accepted on the copy; `first` is an id that no append ever had, or 0 */
#define CINDROLF_SEEN_REFUSED UINT64_C(5)       /* the request is refused on the copy, each of its steps */
#define CINDROLF_SEEN_SILENCE UINT64_C(6)       /* no reply came */
#define CINDROLF_SEEN_STOP UINT64_C(7)          /* the caller waits no longer */
#define CINDROLF_SEEN_OTHER_HISTORY UINT64_C(8) /* the engine's rows are not the known ones */

/* What to do. */
#define CINDROLF_ACT_NOTHING UINT64_C(0)
#define CINDROLF_ACT_READ UINT64_C(1)     /* read the rows after those known and take their steps on the copy; stop before the awaited row */
#define CINDROLF_ACT_TRY UINT64_C(2)      /* take the request on the copy, and take it back */
#define CINDROLF_ACT_APPEND UINT64_C(3)   /* send the append with the awaited id, the first time or again */
#define CINDROLF_ACT_TELL UINT64_C(4)     /* take the request on the copy, keep the result, and give its answers */
#define CINDROLF_ACT_REFUSE UINT64_C(5)   /* give the refusals */
#define CINDROLF_ACT_WITHDRAW UINT64_C(6) /* say that the request was not taken, and never will be */
#define CINDROLF_ACT_UNKNOWN UINT64_C(7)  /* say that it is unknown whether the request was or will be taken */

/* The next phase, the awaited id, which is 0 in every phase but waiting, and what to do. */
struct cindrolf_turn {
    uint64_t phase;
    uint64_t id;
    uint64_t act;
};

/* What a controller does next. You may pass any number: one of no phase means halted, in which nothing is done, and one of no event means
 * silence. The id counts only in phase waiting, `first` and `second` only where they are named above. It touches no memory. */
struct cindrolf_turn cindrolf_decide(uint64_t phase, uint64_t id, uint64_t seen, uint64_t first, uint64_t second);

/* The id of a request: start * 2^32 + count, from the number that the controller drew from the engine when it started, 1 to 2^32 - 1, and
 * its count of requests since, from 0. Different numbers have different ids. If one of the two does not fit, the result is 0, which is no
 * id; a request that is accepted with id 0 is withdrawn. Draw another number then. */
uint64_t cindrolf_request_id(uint64_t start, uint64_t count);

#ifdef __cplusplus
}
#endif

#endif

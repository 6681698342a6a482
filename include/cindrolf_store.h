/* A log that controllers in C, C++ and Python share, in a file or on a server: the functions of libcindrolf_store. `./install PREFIX` puts it,
 * this header and a file for pkg-config (cindrolf-store) below PREFIX. cindrolf_store.hpp is the same for C++.
 *
 * A store keeps the steps of a log, and answers a step when it is on the disk. If a process is killed at any moment, each write that was
 * answered is stored once. Steps, answers, refusals, words, marks and rights are as in cindrolf.h.
 *
 * Statuses. Every function that returns an int returns a status: CINDROLF_STORE_OK, or why it was not done. After any status but OK,
 * UNKNOWN, UNWITNESSED and INTERNAL nothing is stored. A function writes its results through pointers only with OK, and answers with OK and
 * with REFUSED. cindrolf_store_message gives the reason of the last call on a handle in words. After opening and closing there may be no
 * handle to ask, so these write the reason to your memory.
 *
 * Handles. A handle is a number that the library gives once, in the form of a pointer: it leads to no memory. A handle that is null, closed
 * or made up gives CINDROLF_STORE_BAD_HANDLE.
 *
 * Threads. Any thread may use any handle, but only one call at a time: a call on a handle that another thread is using does nothing and
 * gives CINDROLF_STORE_IN_USE at once. Calls on different handles run in parallel, also on handles of one log. So open a handle for each
 * thread. After a fork, open the log again in the child: there a handle of the parent gives CINDROLF_STORE_OPEN_AGAIN. Do not fork while
 * another thread is in one of these functions. A signal handler may call only cindrolf_store_end_waiting.
 *
 * You must make sure that a pointer that is not null is valid for what it should point to, that a text ends with a byte 0, that the pieces
 * of memory of one call do not overlap, and that no other thread uses them during the call. Null with length 0 is an empty buffer. A
 * pointer that is null where it must not be, or is not aligned, and a wrong length give CINDROLF_STORE_BAD_ARGUMENT. No function panics,
 * throws or ends the process, unless memory runs out.
 */
#ifndef CINDROLF_STORE_H
#define CINDROLF_STORE_H

#include "cindrolf.h"

#ifdef __cplusplus
extern "C" {
#endif

/* The number of this interface. It increases with every change that a caller has to follow. */
#define CINDROLF_STORE_VERSION UINT64_C(1)

/* The number of the interface that the library has. Compare it with CINDROLF_STORE_VERSION before the first call. */
uint64_t cindrolf_store_version(void);

/* An open log. */
typedef struct cindrolf_store cindrolf_store;

/* How a call ended. */
enum cindrolf_store_status {
    CINDROLF_STORE_OK = 0,            /* done, and stored if it stores anything */
    CINDROLF_STORE_REFUSED = 1,       /* the log refused it: the answer is CINDROLF_REFUSED and the refusal's number */
    CINDROLF_STORE_NOT_STORED = 2,    /* something failed, such as a full disk: try again */
    CINDROLF_STORE_UNKNOWN = 3,       /* it may be stored: settle the request, or read the log, before you try again */
    CINDROLF_STORE_UNWITNESSED = 4,   /* it is stored, and the witness file could not be written: read the log for the answer */
    CINDROLF_STORE_DAMAGED = 5,       /* the log is inconsistent, or has lost rows: stop */
    CINDROLF_STORE_UNREACHABLE = 6,   /* the server cannot be reached: try again */
    CINDROLF_STORE_BUSY = 7,          /* another process held the lock for longer than this one waits: try again */
    CINDROLF_STORE_FULL = 8,          /* the log takes no more rows: go on with another log */
    CINDROLF_STORE_FORBIDDEN = 9,     /* the server forbids it to this user */
    CINDROLF_STORE_READ_ONLY = 10,    /* the log was opened only to read, or is of an earlier version */
    CINDROLF_STORE_MISSING = 11,      /* there is no such log: create it */
    CINDROLF_STORE_EXISTS = 12,       /* there is a log of this name already: open it */
    CINDROLF_STORE_NO_LOG = 13,       /* what is there is no log of this version, or no log can be kept there */
    CINDROLF_STORE_OPEN_AGAIN = 14,   /* the file was replaced, or the process was forked: close the handle, and open the log again */
    CINDROLF_STORE_BAD_ARGUMENT = 15, /* an argument is wrong: the message says which */
    CINDROLF_STORE_BAD_HANDLE = 16,   /* the handle is null, closed, or not of this process */
    CINDROLF_STORE_IN_USE = 17,       /* another call is using the handle */
    CINDROLF_STORE_INTERNAL = 18      /* this library has a fault: close the handle, read the log, and report it */
};

/* The limits. Each is the largest value that is accepted: bytes of a note and of a process's name, and milliseconds of a wait, which is a
 * day. */
#define CINDROLF_STORE_NOTE_LIMIT 200
#define CINDROLF_STORE_PROCESS_LIMIT 100
#define CINDROLF_STORE_WAIT_LIMIT UINT64_C(86400000)

/* Bytes that are enough for every message that names a file, and for the text of a row. */
#define CINDROLF_STORE_MESSAGE_BYTES 1024
#define CINDROLF_STORE_ROW_BYTES 64

/* What a status means and what to do, as a static sentence. A number that is no status has one too. */
const char *cindrolf_store_status_text(int status);

/* Opening and closing. An address is the path of a file, or postgresql://HOST/DATABASE/LOG for a log on a server. The message is cut to
 * message_size and ends with a byte 0; it is empty on success. Pass null with size 0 if you want none. If a log is not opened, *store is
 * null. */

/* Opens a log, and checks that it is consistent. If many processes may create the log, open it, create it if it is MISSING, and open it
 * again if it EXISTS by then. */
int cindrolf_store_open(const char *address, cindrolf_store **store, char *message, size_t message_size);

/* The same, only to read: each step gives CINDROLF_STORE_READ_ONLY. */
int cindrolf_store_open_read_only(const char *address, cindrolf_store **store, char *message, size_t message_size);

/* Makes a fresh log for 1 to 16 clients, of which client 0 is the named leader, with CINDROLF_ENTRY_WORDS or CINDROLF_SMALL_ENTRY_WORDS. */
int cindrolf_store_create(const char *address, uint64_t client_count, size_t entry_words, cindrolf_store **store, char *message,
                          size_t message_size);

/* Closes a log. After this the handle is invalid, whatever the status, except IN_USE. No step depends on it: what was answered is
 * stored. */
int cindrolf_store_close(cindrolf_store *store, char *message, size_t message_size);

/* Why the last call on this handle failed, cut and ended as above; empty on success. If the handle is invalid or in use, the text and the
 * status say so. */
int cindrolf_store_message(cindrolf_store *store, char *text, size_t text_size);

/* The id of the request for which the last call on this handle gave CINDROLF_STORE_UNKNOWN, for cindrolf_store_settle; otherwise 0. A log
 * in a file has no ids: read the log instead. */
int cindrolf_store_unknown_request(cindrolf_store *store, uint64_t *request);

/* How long a call waits for another process, or for the server: 10,000 milliseconds until you change it. */
int cindrolf_store_set_patience(cindrolf_store *store, uint64_t milliseconds);

/* The name with which rows are stored from now on, for people to read, in UTF-8. */
int cindrolf_store_set_process_name(cindrolf_store *store, const char *name);

/* From now on keeps the last row in this file after each answer. A log that has lost the row in the file is DAMAGED. */
int cindrolf_store_keep_witness(cindrolf_store *store, const char *file);

/* From now on no call of this process waits longer than a second: use it before the process ends. A signal handler may call it. */
void cindrolf_store_end_waiting(void);

/* Steps. Each call is one request, under the rights that the log keeps. The answer is as in cindrolf.h; pass null if you want none. */

/* Takes a step by its number, CINDROLF_STEP_NAME to CINDROLF_STEP_CLOSE_OWN. The value counts only for a write. */
int cindrolf_store_take(cindrolf_store *store, uint64_t step, uint64_t client, uint64_t value, uint64_t *answer);

/* The leader adds an entry whose value is the sum over these quality scores, as in cindrolf_write_scores. */
int cindrolf_store_write_scores(cindrolf_store *store, uint64_t client, const uint16_t *scores, size_t scores_length, uint64_t *answer);

/* The kinds of a batch in addition to the numbers of steps. */
#define CINDROLF_STORE_KIND_WRITE_SCORES UINT64_C(10)
#define CINDROLF_STORE_KIND_SET_MARK UINT64_C(11)
#define CINDROLF_STORE_KIND_DROP_MARK UINT64_C(12)
#define CINDROLF_STORE_KIND_SET_RIGHTS UINT64_C(13)

/* A step of a batch. The value is a write's value, a mark's name, or a client's word of rights. The scores count only for
 * CINDROLF_STORE_KIND_WRITE_SCORES. The note is for people, in UTF-8, such as the name of a read; null is none. */
struct cindrolf_store_asked {
    uint64_t kind;
    uint64_t client;
    uint64_t value;
    const uint16_t *scores;
    size_t scores_length;
    const char *note;
};

/* Takes steps one after the other as one request: all of them are stored, or none, with one wait for the disk. Each has its answer, which
 * may be a refusal, and the next one is taken. OK if one of them was accepted, or there are none; REFUSED if each is refused, and nothing
 * stored. */
int cindrolf_store_take_all(cindrolf_store *store, const struct cindrolf_store_asked *asked, size_t asked_length, uint64_t *answers,
                            size_t answers_length);

/* Takes the steps of a plan up to the budget as one request, and gives how many it took, as cindrolf_run_plan does. cindrolf_forecast on a
 * snapshot says beforehand what it adds. */
int cindrolf_store_run_plan(cindrolf_store *store, const uint64_t *plan, size_t plan_length, uint64_t budget, uint64_t *taken);

/* Keeps a mark at the log's entry count, or drops it. cindrolf_mark_name makes the name. */
int cindrolf_store_set_mark(cindrolf_store *store, uint64_t name, uint64_t *answer);
int cindrolf_store_drop_mark(cindrolf_store *store, uint64_t name, uint64_t *answer);

/* Gives a client the right to a step, by the step's number, or takes it away, for the steps of every process from now on. In a new log each
 * client has all ten. */
int cindrolf_store_grant(cindrolf_store *store, uint64_t client, uint64_t step, uint64_t *answer);
int cindrolf_store_revoke(cindrolf_store *store, uint64_t client, uint64_t step, uint64_t *answer);

/* Sets the rights from now on, CINDROLF_RIGHTS_WORDS words. */
int cindrolf_store_set_rights(cindrolf_store *store, const uint64_t *rights, size_t rights_length, uint64_t *answer);

/* About a snapshot: how many rows the log had, how many clients it has, and how many words of `entries` it uses. */
struct cindrolf_store_taken {
    uint64_t rows;
    uint64_t clients;
    uint64_t entry_words;
};

/* Copies the log of this moment to your buffers. Pass `state` and the first entry_words words of `entries` to any reading function of
 * cindrolf.h, and `marks` and `rights` where it takes them. The buffers need CINDROLF_STATE_WORDS, CINDROLF_MARK_WORDS and
 * CINDROLF_RIGHTS_WORDS words, and as many entries as the log has words: CINDROLF_ENTRY_WORDS are enough for every log. Pass null with
 * length 0 for each buffer that you do not want, and null for `taken`. */
int cindrolf_store_snapshot(cindrolf_store *store, uint64_t *state, size_t state_length, uint64_t *entries, size_t entries_length,
                            uint64_t *marks, size_t marks_length, uint64_t *rights, size_t rights_length, struct cindrolf_store_taken *taken);

/* Waits until the log has rows that this handle has neither read nor stored, up to that many milliseconds, and says whether it has: 1 or 0. A
 * snapshot reads them. After cindrolf_store_end_waiting it does not wait. */
int cindrolf_store_changed(cindrolf_store *store, uint64_t milliseconds, uint64_t *changed);

/* What became of a request that was UNKNOWN: whether it is stored, 1 or 0, and if so how many rows come before its own. A request that is
 * not stored may still come, as long as a message with it is on its way. */
int cindrolf_store_settle(cindrolf_store *store, uint64_t request, uint64_t *found, uint64_t *rows_before);

/* The last row that this handle has read or stored, as N:CHAIN, a number and 32 hexadecimal digits: after an answer the row of that answer,
 * and after a refusal the row at which it was decided. Keep it to check later that the log still has it. */
int cindrolf_store_last_row(cindrolf_store *store, char *row, size_t row_size);

/* Checks that the log still has a row and all before it: OK, or DAMAGED if it has lost it or has another. */
int cindrolf_store_has_row(cindrolf_store *store, const char *row);

/* Checks the whole log, by taking each row once more: OK with how many rows there are, and how many have a stored answer that is not the
 * log's; or DAMAGED. Pass null for a number that you do not want. */
int cindrolf_store_check(cindrolf_store *store, uint64_t *rows, uint64_t *wrong);

/* Copies what is stored from the files beside a log's file to the file itself, and says whether that is all of it, 1 or 0. */
int cindrolf_store_checkpoint(cindrolf_store *store, uint64_t *whole);

/* Copies the log as it is now to a new one at this address, whole or not at all. EXISTS and NOT_STORED are about the copy. */
int cindrolf_store_copy(cindrolf_store *store, const char *address);

#ifdef __cplusplus
}
#endif

#endif

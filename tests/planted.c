/* Mistakes that tests/fuzz.c has to find: the number PLANTED chooses one function that replaces the library's. */
#define _GNU_SOURCE
#include "cindrolf_store.h"

#include <dlfcn.h>
#include <string.h>

/* The message of the library itself. */
static inline int library_message(cindrolf_store *store, char *text, size_t text_size) {
    int (*function)(cindrolf_store *, char *, size_t);
    void *found = dlsym(RTLD_NEXT, "cindrolf_store_message");
    memcpy(&function, &found, sizeof function);
    return function(store, text, text_size);
}

#if PLANTED == 1
/* It writes a byte more than it may. */
int cindrolf_store_message(cindrolf_store *store, char *text, size_t text_size) {
    int status = library_message(store, text, text_size);
    if (text != NULL)
        ((volatile char *)text)[text_size] = 0;
    return status;
}
#elif PLANTED == 2
/* It takes a handle for a pointer. */
int cindrolf_store_check(cindrolf_store *store, uint64_t *rows, uint64_t *wrong) {
    (void)rows, (void)wrong;
    return store == NULL || *(volatile char *)store == 7 ? CINDROLF_STORE_BAD_HANDLE : CINDROLF_STORE_OK;
}
#elif PLANTED == 3
/* It reads a word more than it may. */
bool cindrolf_well_formed(const uint64_t *state, size_t state_length, const uint64_t *entries, size_t entries_length) {
    (void)state, (void)state_length;
    return entries != NULL && ((volatile const uint64_t *)entries)[entries_length] != 0;
}
#elif PLANTED == 4
/* It answers for a handle that is closed. */
int cindrolf_store_set_patience(cindrolf_store *store, uint64_t milliseconds) {
    (void)milliseconds;
    return store == NULL ? CINDROLF_STORE_BAD_HANDLE : CINDROLF_STORE_OK;
}
#elif PLANTED == 5
/* It refuses, and changes a word all the same. */
uint64_t cindrolf_name(uint64_t *state, size_t state_length, uint64_t *entries, size_t entries_length, uint64_t client) {
    (void)entries, (void)entries_length, (void)client;
    if (state_length > 0)
        state[0] ^= 1;
    return CINDROLF_REFUSED + CINDROLF_REFUSAL_ALREADY_NAMED;
}
#elif PLANTED == 6
/* It does not end the text that it writes. */
int cindrolf_store_message(cindrolf_store *store, char *text, size_t text_size) {
    int status = library_message(store, text, text_size);
    if (text_size > 0)
        text[strlen(text)] = '.';
    return status;
}
#else
#error "there is no such mistake"
#endif

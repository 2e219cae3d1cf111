/* A library to preload. It counts the calls of malloc and realloc from 1, and makes those from
   REFUSE_FIRST to REFUSE_LAST fail, with a line on standard error for each. If REQUEST_COUNT is
   set, it writes the number of calls to that file when the program ends. */
#include <stddef.h>
#include <stdio.h>
#include <stdlib.h>
#include <unistd.h>

extern void *__libc_malloc(size_t);
extern void *__libc_realloc(void *, size_t);

/* Returns the number in an environment variable, or 0 if it is not set. */
static long number(const char *name) {
    const char *word = getenv(name);
    return word ? atol(word) : 0;
}

/* Number of calls so far. */
static long met;

/* Counts a call, and returns whether it has to fail. */
static int is_refused(void) {
    static long first, last;
    if (met++ == 0) {
        first = number("REFUSE_FIRST");
        last = number("REFUSE_LAST");
    }
    return first <= met && met <= last && write(2, "refused\n", 8) == 8;
}

void *malloc(size_t size) { return is_refused() ? NULL : __libc_malloc(size); }
void *realloc(void *old, size_t size) { return is_refused() ? NULL : __libc_realloc(old, size); }

__attribute__((destructor)) static void write_count(void) {
    const char *path = getenv("REQUEST_COUNT");
    long count = met;
    FILE *file = path ? fopen(path, "w") : NULL;
    if (file) {
        fprintf(file, "%ld\n", count);
        fclose(file);
    }
}

/*
 * Memory between pages that cannot be accessed, so that a program stops if the library accesses
 * bytes outside of what a test passes to it. A test defines _DEFAULT_SOURCE before it includes any
 * header, for MAP_ANONYMOUS.
 */
#ifndef SOCKDIAG_TESTS_AREAS_H
#define SOCKDIAG_TESTS_AREAS_H

#include "check.h"

#include <sys/mman.h>
#include <unistd.h>

/* Returns an area of this size, a multiple of the page size, between two pages that cannot be
 * accessed; or NULL if there is no memory. */
static inline uint8_t *new_area(size_t size) {
    const size_t page = (size_t)sysconf(_SC_PAGESIZE);
    const int flags = MAP_PRIVATE | MAP_ANONYMOUS;
    void *start = mmap(NULL, size + 2 * page, PROT_NONE, flags, -1, 0);
    uint8_t *area = (uint8_t *)start + page;
    if (start == MAP_FAILED || mprotect(area, size, PROT_READ | PROT_WRITE) != 0)
        return NULL;
    return area;
}

#endif

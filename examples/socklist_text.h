/*
 * socklist_text.h: text that grows, for the lines of socklist. It is valid C99 and C++.
 */
#ifndef SOCKLIST_TEXT_H
#define SOCKLIST_TEXT_H

#include "kernel.h"

#include <stdio.h>
#include <stdlib.h>
#include <string.h>

/* Width to which sslist pads an address. */
#define WIDTH 30

/* Text that grows. */
struct text {
    char *bytes;
    size_t length, capacity;
};

/* Returns allocated memory, or ends the program if there is none. */
static void *allocated(void *memory) {
    if (memory != NULL)
        return memory;
    fputs(PROGRAM ": out of memory\n", stderr);
    exit(EXIT_FAILURE);
}

/* Returns the array with space for one more item. Ends the program if there is no memory. */
static void *grown(void *array, size_t count, size_t *capacity, size_t size) {
    if (count < *capacity)
        return array;
    *capacity = 2 * count + 64;
    return allocated(realloc(array, *capacity * size));
}

static void add_byte(struct text *text, char byte) {
    text->bytes = (char *)grown(text->bytes, text->length, &text->capacity, 1);
    text->bytes[text->length++] = byte;
}

static void add_bytes(struct text *text, const char *bytes, size_t length) {
    while (length-- > 0)
        add_byte(text, *bytes++);
}

static void add_string(struct text *text, const char *string) {
    add_bytes(text, string, strlen(string));
}

static void add_number(struct text *text, long number) {
    char digits[32];
    snprintf(digits, sizeof digits, "%ld", number);
    add_string(text, digits);
}

/* Adds spaces until the text from a position on has the width of an address, and one more. */
static void pad(struct text *text, size_t start) {
    while (text->length < start + WIDTH)
        add_byte(text, ' ');
    add_byte(text, ' ');
}

/* Adds a name. As in the table of sslist, `\x` and two digits show a backslash, a byte that is not
 * a visible ASCII character, and here also a quotation mark. A space is shown as it is. */
static void add_name(struct text *text, const char *name) {
    char escape[8];
    for (; *name != '\0'; name++) {
        if (*name >= ' ' && *name <= '~' && *name != '\\' && *name != '"') {
            add_byte(text, *name);
            continue;
        }
        snprintf(escape, sizeof escape, "\\x%02x", (unsigned)(unsigned char)*name);
        add_string(text, escape);
    }
}

#endif

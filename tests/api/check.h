/*
 * What the C programs of this folder share: checks that are counted, and attributes that are built.
 * Also compiles as C++.
 */
#ifndef SOCKDIAG_TESTS_CHECK_H
#define SOCKDIAG_TESTS_CHECK_H

#include "sockdiag.h"

#include <stdio.h>
#include <string.h>

/* What a struct or a buffer contains before a call. */
#define UNTOUCHED 0xaa

/* Number of checks that failed. */
static int failures;

static inline void check_at(int holds, const char *what, const char *file, int line) {
    if (!holds) {
        fprintf(stderr, "%s:%d: failed: %s\n", file, line, what);
        failures++;
    }
}

#define check(holds, what) check_at(holds, what, __FILE__, __LINE__)

/* Prints whether all checks of a program hold. Returns its exit status. */
static inline int end_of_tests(const char *program) {
    if (failures == 0)
        printf("%s: all tests pass\n", program);
    return failures != 0;
}

static inline int is_untouched(const void *found, size_t length) {
    const uint8_t *bytes = (const uint8_t *)found;
    size_t index = 0;
    while (index < length && bytes[index] == UNTOUCHED)
        index++;
    return index == length;
}

/* Sets each byte to the low byte of its offset, so that fields at different offsets differ. */
static inline void number_bytes(uint8_t *bytes, size_t length) {
    size_t index;
    for (index = 0; index < length; index++)
        bytes[index] = (uint8_t)index;
}

/* Returns the little-endian number of this size. */
static inline uint64_t number_at(const uint8_t *bytes, size_t size) {
    uint64_t number = 0;
    while (size-- > 0)
        number = number << 8 | bytes[size];
    return number;
}

/* The field has the little-endian number at these bytes. */
#define FIELD(field, bytes) check((field) == number_at(bytes, sizeof(field)), #field)

/* The number is present, and has this value. */
static inline int is(struct sockdiag_number number, uint32_t value) {
    return number.is_set == 1 && number.value == value;
}

/* Writes the header of an attribute: the length of the whole attribute, and its type field. */
static inline void put_header(uint8_t *bytes, size_t length, uint16_t type_word) {
    bytes[0] = (uint8_t)length;
    bytes[1] = (uint8_t)(length >> 8);
    bytes[2] = (uint8_t)type_word;
    bytes[3] = (uint8_t)(type_word >> 8);
}

/* Writes an attribute at an offset with zeros as padding, and returns the offset after it. The
 * bytes of its value are those at `value`. */
static inline size_t put(uint8_t *bytes, size_t at, uint16_t type_word, const void *value,
                         size_t length) {
    memset(bytes + at, 0, length + 7);
    put_header(bytes + at, 4 + length, type_word);
    memcpy(bytes + at + 4, value, length);
    return at + (length + 7) / 4 * 4;
}

/* sockdiag_explain for one kind of bytes. */
#define EXPLAINS_AS(name, what)                                                                 \
    static inline uint32_t explain_##name(const uint8_t *bytes, size_t length,                  \
                                          struct sockdiag_error_details *error) {               \
        return sockdiag_explain(what, bytes, length, error, sizeof *error);                     \
    }

EXPLAINS_AS(unix, 1)
EXPLAINS_AS(inet, 2)
EXPLAINS_AS(netlink, 16)
EXPLAINS_AS(packet, 17)
EXPLAINS_AS(vsock, 40)
EXPLAINS_AS(xdp, 44)
EXPLAINS_AS(message, SOCKDIAG_EXPLAIN_MESSAGE)
EXPLAINS_AS(datagram, SOCKDIAG_EXPLAIN_DATAGRAM)
EXPLAINS_AS(unix_attribute, SOCKDIAG_EXPLAIN_UNIX_ATTRIBUTE)
EXPLAINS_AS(inet_attribute, SOCKDIAG_EXPLAIN_INET_ATTRIBUTE)

/* Explains an attribute of a family by itself: the bytes before it, which are in the reply, take
 * the place of the header. `length` is that of this attribute, or of all bytes that are left if
 * they are not an attribute. */
#define EXPLAINS_ATTRIBUTE(family, ATTRIBUTES)                                                  \
    static inline uint32_t explain_##family##_attribute(const uint8_t *bytes, size_t length,    \
                                                        struct sockdiag_error_details *error) { \
        return explain_##family(bytes - (ATTRIBUTES), length + (ATTRIBUTES), error);            \
    }

EXPLAINS_ATTRIBUTE(netlink, SOCKDIAG_NETLINK_ATTRIBUTES)
EXPLAINS_ATTRIBUTE(packet, SOCKDIAG_PACKET_ATTRIBUTES)
EXPLAINS_ATTRIBUTE(vsock, SOCKDIAG_VSOCK_ATTRIBUTES)
EXPLAINS_ATTRIBUTE(xdp, SOCKDIAG_XDP_ATTRIBUTES)

#endif

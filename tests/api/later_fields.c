/*
 * Structs that have more fields in a later version. c_api.sh compiles this program with the header,
 * and, with LATER_HEADER, with one in which four fields follow each details struct. With
 * LATER_LIBRARY it is linked with a library that fills these fields: each call is wrapped by one
 * that does.
 */
#include "check.h"

#include <stdlib.h>

/* The fields that a later version appends to each details struct: more of a later header. */
static const uint32_t later_fields[4] = {1, 2, 3, 4};

/* Stores the fields of a later version that a struct of this size has, after a call that has stored
 * the other ones. */
static inline void fill_later(int has_stored, uint8_t *later, size_t length) {
    if (has_stored && length > 0)
        memcpy(later, later_fields, length < sizeof later_fields ? length : sizeof later_fields);
}

#ifdef LATER_LIBRARY
#define WRAP(family, it)                                                                        \
    uint32_t __real_sockdiag_##family##_fill_details(const uint8_t *, size_t, struct it *,      \
                                                     uint8_t *, size_t);                        \
    uint32_t __wrap_sockdiag_##family##_fill_details(const uint8_t *payload, size_t length,     \
                                                     struct it *details, uint8_t *later,        \
                                                     size_t later_length);                      \
    uint32_t __wrap_sockdiag_##family##_fill_details(const uint8_t *payload, size_t length,     \
                                                     struct it *details, uint8_t *later,        \
                                                     size_t later_length) {                     \
        const uint32_t code = __real_sockdiag_##family##_fill_details(payload, length, details, \
                                                                      later, later_length);     \
        fill_later(code == SOCKDIAG_OK, later, later_length);                                   \
        return code;                                                                            \
    }

uint32_t __real_sockdiag_fill_explain(uint32_t, const uint8_t *, size_t,
                                      struct sockdiag_error_details *, uint8_t *, size_t);
uint32_t __wrap_sockdiag_fill_explain(uint32_t what, const uint8_t *bytes, size_t length,
                                      struct sockdiag_error_details *error, uint8_t *later,
                                      size_t later_length);
uint32_t __wrap_sockdiag_fill_explain(uint32_t what, const uint8_t *bytes, size_t length,
                                      struct sockdiag_error_details *error, uint8_t *later,
                                      size_t later_length) {
    const uint32_t code =
        __real_sockdiag_fill_explain(what, bytes, length, error, later, later_length);
    fill_later(code != SOCKDIAG_OK && code != SOCKDIAG_INVALID_ARGUMENT, later, later_length);
    return code;
}

uint32_t __real_sockdiag_fill_parse_filter(const uint8_t *, size_t, uint8_t *, size_t,
                                           struct sockdiag_filter_details *, uint8_t *, size_t);
uint32_t __wrap_sockdiag_fill_parse_filter(const uint8_t *text, size_t length, uint8_t *program,
                                           size_t program_length,
                                           struct sockdiag_filter_details *filter, uint8_t *later,
                                           size_t later_length);
uint32_t __wrap_sockdiag_fill_parse_filter(const uint8_t *text, size_t length, uint8_t *program,
                                           size_t program_length,
                                           struct sockdiag_filter_details *filter, uint8_t *later,
                                           size_t later_length) {
    const uint32_t code = __real_sockdiag_fill_parse_filter(text, length, program, program_length,
                                                            filter, later, later_length);
    fill_later(1, later, later_length);
    return code;
}
#else
#define WRAP(family, it)
#endif

#ifdef LATER_HEADER
#define EXPECT_LATER(details)                                                                   \
    check(memcmp((details)->more, expected_later(), sizeof later_fields) == 0, "later fields")
#else
#define EXPECT_LATER(details) (void)expected_later()
#endif

/* Returns the fields that this library stores: none, which is zeros, or those of a later one. */
static const void *expected_later(void) {
#ifdef LATER_LIBRARY
    return later_fields;
#else
    static const uint32_t zeros[4] = {0, 0, 0, 0};
    return zeros;
#endif
}

/* Calls both functions of a family with a reply: into a struct that is too small; of a truncated
 * reply; and into a struct in memory of its own, which ends at its end. */
#define FAMILY(family, it, reply, size)                                                         \
    WRAP(family, it)                                                                            \
    static void try_##family(void) {                                                            \
        struct it *details = (struct it *)malloc(sizeof *details);                              \
        struct sockdiag_rejections rejections;                                                  \
        if (details == NULL)                                                                    \
            exit(1);                                                                            \
        memset(details, UNTOUCHED, sizeof *details);                                            \
        memset(&rejections, UNTOUCHED, sizeof rejections);                                      \
        check(sockdiag_##family##_get_details(reply, size, details, 8) ==                       \
                  SOCKDIAG_INVALID_ARGUMENT, "a struct that is too small");                     \
        check(sockdiag_##family##_get_lenient_details(reply, size, details, 8, &rejections) ==  \
                  SOCKDIAG_INVALID_ARGUMENT, "a struct that is too small, leniently");          \
        check(sockdiag_##family##_get_details(reply, (size) - 1, details, sizeof *details) ==   \
                  SOCKDIAG_BUFFER_TOO_SMALL, "a truncated reply");                              \
        check(sockdiag_##family##_get_lenient_details(reply, (size) - 1, details,               \
                                                      sizeof *details, &rejections) ==          \
                  SOCKDIAG_BUFFER_TOO_SMALL, "a truncated reply, leniently");                   \
        check(is_untouched(details, sizeof *details) &&                                         \
                  is_untouched(&rejections, sizeof rejections), "an error stores nothing");     \
        check(sockdiag_##family##_get_lenient_details(reply, size, details, sizeof *details,    \
                                                      &rejections) == SOCKDIAG_OK,              \
              "a reply, leniently");                                                            \
        check(rejections.first == SOCKDIAG_OK, "no rejections");                                \
        memset(details, UNTOUCHED, sizeof *details);                                            \
        check(sockdiag_##family##_get_details(reply, size, details, sizeof *details) ==         \
                  SOCKDIAG_OK, "a reply");                                                      \
        EXPECT_LATER(details);                                                                  \
        EXPECT_FIELDS_##family                                                                  \
        free(details);                                                                          \
    }

#define EXPECT_FIELDS_unix                                                                      \
    check(details->header.inode == 0x07060504 && details->owner.is_set == 0, "fields of unix");
#define EXPECT_FIELDS_inet                                                                      \
    check(details->header.inode == 0x47464544 && details->options.is_set == 0, "fields of inet");
#define EXPECT_FIELDS_netlink                                                                   \
    check(details->header.protocol == 2 && details->flags.is_set == 0, "fields of netlink");
#define EXPECT_FIELDS_packet                                                                    \
    check(details->header.inode == 0x07060504 && details->filter.kind == 0, "fields of packet");
#define EXPECT_FIELDS_vsock check(details->source_port == 0x0b0a0908, "fields of vsock");
#define EXPECT_FIELDS_xdp                                                                       \
    check(details->header.inode == 0x07060504 && details->has_statistics == 0, "fields of xdp");

static uint8_t numbered[72];
static uint8_t inet[72];

FAMILY(unix, sockdiag_unix_details, numbered, 16)
FAMILY(inet, sockdiag_inet_details, inet, 72)
FAMILY(netlink, sockdiag_netlink_details, numbered, 28)
FAMILY(packet, sockdiag_packet_details, numbered, 16)
FAMILY(vsock, sockdiag_vsock_header, numbered, 32)
FAMILY(xdp, sockdiag_xdp_details, numbered, 16)

static void try_explaining(void) {
    struct sockdiag_error_details *error =
        (struct sockdiag_error_details *)malloc(sizeof *error);
    if (error == NULL)
        exit(1);
    memset(error, UNTOUCHED, sizeof *error);
    check(sockdiag_explain(1, numbered, 3, error, 8) == SOCKDIAG_INVALID_ARGUMENT &&
              sockdiag_explain(1, numbered, 16, error, sizeof *error) == SOCKDIAG_OK &&
              is_untouched(error, sizeof *error), "nothing to explain");
    check(sockdiag_explain(1, numbered, 3, error, sizeof *error) == SOCKDIAG_BUFFER_TOO_SMALL &&
              error->got == 3 && error->offset == 0, "an explained error");
    EXPECT_LATER(error);
    free(error);
}

static void try_filter(const char *text, uint32_t code, size_t error_offset) {
    struct sockdiag_filter_details *filter =
        (struct sockdiag_filter_details *)malloc(sizeof *filter);
    if (filter == NULL)
        exit(1);
    memset(filter, UNTOUCHED, sizeof *filter);
    check(sockdiag_parse_filter((const uint8_t *)text, strlen(text), NULL, 0, filter, 8) ==
              SOCKDIAG_INVALID_ARGUMENT && is_untouched(filter, sizeof *filter),
          "a struct of a filter that is too small");
    check(sockdiag_parse_filter((const uint8_t *)text, strlen(text), NULL, 0, filter,
                                sizeof *filter) == code && filter->error_offset == error_offset,
          "a filter");
    EXPECT_LATER(filter);
    free(filter);
}

int main(void) {
    number_bytes(numbered, sizeof numbered);
    number_bytes(inet, sizeof inet);
    inet[0] = 2;
    try_unix();
    try_inet();
    try_netlink();
    try_packet();
    try_vsock();
    try_xdp();
    try_explaining();
    try_filter("state listening", SOCKDIAG_OK, 0);
    try_filter("sport = :1", SOCKDIAG_NO_SPACE, 0);
    try_filter("state frob", SOCKDIAG_FILTER_UNEXPECTED, 6);
    return end_of_tests("later_fields");
}

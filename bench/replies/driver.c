/* Measures the library of lib.rt.in on replies of 1, 3, 9 and 11 attributes of each family. */
#define _POSIX_C_SOURCE 199309L
#include <stddef.h>
#include <stdint.h>
#include <stdio.h>
#include <stdlib.h>
#include <string.h>
#include <time.h>

#define ROUNDS 9
#define REPLIES 200000

size_t read_unix_reply(const uint8_t *bytes, size_t length);
size_t read_inet_reply(const uint8_t *bytes, size_t length);
size_t rewrite_unix_reply(const uint8_t *bytes, size_t length, uint8_t *buffer, size_t room,
                          uint64_t again);
size_t rewrite_inet_reply(const uint8_t *bytes, size_t length, uint8_t *buffer, size_t room,
                          uint64_t again);

/* With -Wl,--wrap the linker calls these instead of the C library's functions, so that allocations
   are counted. */
void *__real_malloc(size_t size);
void *__real_calloc(size_t count, size_t size);
void *__real_realloc(void *block, size_t size);

static unsigned long requests;

void *__wrap_malloc(size_t size)
{
    requests++;
    return __real_malloc(size);
}

void *__wrap_calloc(size_t count, size_t size)
{
    requests++;
    return __real_calloc(count, size);
}

void *__wrap_realloc(void *block, size_t size)
{
    requests++;
    return __real_realloc(block, size);
}

/* An attribute: its type, the length of its value, and its value, or NULL for the bytes
   1, 2, 3, .. */
struct attribute {
    uint16_t kind;
    uint16_t length;
    const char *text;
};

struct family {
    const char *name;
    size_t (*read)(const uint8_t *, size_t);
    size_t (*rewrite)(const uint8_t *, size_t, uint8_t *, size_t, uint64_t);
    uint8_t header[72];
    size_t header_length;
    struct attribute attributes[11];
};

static const char zeros[36];

static const struct family families[] = {
    {
        "unix", read_unix_reply, rewrite_unix_reply,
        {1, 1, 1, 0, 0xb7, 0x7c, 0, 0, 0x22, 0, 0, 0, 0, 0, 0, 0}, 16,
        {
            {0, 19, "/run/user/1000/bus"}, /* UNIX_DIAG_NAME, with its terminating NUL */
            {1, 8, NULL},                  /* UNIX_DIAG_VFS */
            {2, 4, NULL},                  /* UNIX_DIAG_PEER */
            {3, 8, NULL},                  /* UNIX_DIAG_ICONS */
            {4, 8, NULL},                  /* UNIX_DIAG_RQLEN */
            {5, 36, zeros},                /* UNIX_DIAG_MEMINFO: fields that are not parsed are
                                              serialized as zeros */
            {6, 1, NULL},                  /* UNIX_DIAG_SHUTDOWN */
            {1, 8, NULL}, {2, 4, NULL}, {4, 8, NULL}, {6, 1, NULL},
        },
    },
    {
        "inet", read_inet_reply, rewrite_inet_reply,
        {
            2, 1, 2, 0, 0xeb, 0x14, 1, 0xbb, 192, 168, 178, 60, 0, 0, 0, 0, 0, 0, 0, 0, 0, 0, 0, 0,
            172, 217, 23, 131, 0, 0, 0, 0, 0, 0, 0, 0, 0, 0, 0, 0, 0, 0, 0, 0, 0x52, 3, 0, 0,
            0, 0, 0, 0, 0x80, 0x60, 0, 0, 0, 0, 0, 0, 0, 0, 0, 0, 0xe8, 3, 0, 0,
            0xa8, 0xda, 0x29, 0,
        }, 72,
        {
            {5, 1, NULL},    /* INET_DIAG_TOS */
            {6, 1, NULL},    /* INET_DIAG_TCLASS */
            {8, 1, NULL},    /* INET_DIAG_SHUTDOWN */
            {7, 36, NULL},   /* INET_DIAG_SKMEMINFO */
            {4, 6, "cubic"}, /* INET_DIAG_CONG, with its terminating NUL */
            {2, 232, NULL},  /* INET_DIAG_INFO */
            {1, 16, NULL},   /* INET_DIAG_MEMINFO */
            {15, 4, NULL},   /* INET_DIAG_MARK */
            {17, 4, NULL},   /* INET_DIAG_CLASS_ID */
            {10, 1, NULL},   /* INET_DIAG_PROTOCOL */
            {11, 1, NULL},   /* INET_DIAG_SKV6ONLY */
        },
    },
};

/* Writes a reply with the first `attributes` attributes of the family, and returns its length in
   bytes. */
static size_t build(const struct family *family, size_t attributes, uint8_t *bytes)
{
    size_t at = family->header_length;
    memcpy(bytes, family->header, at);
    for (size_t i = 0; i < attributes; i++) {
        const struct attribute *it = &family->attributes[i];
        uint16_t words[2] = {4 + it->length, it->kind};
        memcpy(bytes + at, words, 4);
        at += 4;
        for (size_t place = 0; place < it->length; place++)
            bytes[at++] = it->text ? (uint8_t)it->text[place] : (uint8_t)(place + 1);
        while (at % 4)
            bytes[at++] = 0;
    }
    return at;
}

static double now(void)
{
    struct timespec time;
    clock_gettime(CLOCK_MONOTONIC, &time);
    return 1e9 * time.tv_sec + time.tv_nsec;
}

/* Returns the least time of ROUNDS rounds in nanoseconds for one reply: to parse it, or to parse
   and serialize it if there is a buffer. */
static double measure(const struct family *family, const uint8_t *bytes, size_t length,
                      uint8_t *buffer, size_t room)
{
    double best = 1e18;
    for (int round = 0; round < ROUNDS; round++) {
        double start = now();
        for (int i = 0; i < REPLIES; i++) {
            if (buffer)
                family->rewrite(bytes, length, buffer, room, 0);
            else
                family->read(bytes, length);
        }
        double each = (now() - start) / REPLIES;
        if (each < best)
            best = each;
    }
    return best;
}

static void print_row(const struct family *family, size_t attributes)
{
    uint8_t bytes[1024], buffer[1024] = {0};
    size_t length = build(family, attributes, bytes);
    unsigned long before = requests;
    size_t found = family->read(bytes, length);
    unsigned long taken = requests - before;
    size_t written = family->rewrite(bytes, length, buffer, sizeof buffer, 0);
    if (found != attributes || written != length || memcmp(bytes, buffer, length)) {
        fprintf(stderr,
                "replies: %s reply with %zu attributes: parsed %zu attributes, "
                "serialized %zu bytes, expected %zu\n",
                family->name, attributes, found, written, length);
        exit(1);
    }
    double read = measure(family, bytes, length, NULL, 0);
    double both = measure(family, bytes, length, buffer, sizeof buffer);
    printf("%-6s  %10zu  %5zu  %8.0f  %22.0f  %11lu\n", family->name, attributes, length, read,
           both, taken);
    fflush(stdout);
}

int main(void)
{
    static const size_t attributes[] = {1, 3, 9, 11};
    printf("family  attributes  bytes  ns parse  ns parse and serialize  allocations\n");
    for (size_t i = 0; i < sizeof families / sizeof *families; i++)
        for (size_t j = 0; j < sizeof attributes / sizeof *attributes; j++)
            print_row(&families[i], attributes[j]);
    return 0;
}

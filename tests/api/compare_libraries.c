/* compare LIBRARY OTHER SEEDS ROUNDS SEED: calls each function of two shared libraries with equal
 * inputs, and compares the results, and all bytes of structs and buffers. compare_libraries.py
 * writes calls.h and the file of seeds. */
#define _POSIX_C_SOURCE 200809L
#include <dlfcn.h>
#include <inttypes.h>
#include <stdio.h>
#include <stdlib.h>
#include <string.h>

/* The most parameters that are structs, and the sizes of the areas for them, and for inputs. */
enum { STRUCTS = 4, AREA = 1024, INPUT = 8192, LONGEST = 4096, SEEDS = 400000 };

typedef void (*function)(void);

/* The calls of one function. `mask` has a text for each struct: `p` is a byte of padding, and `t`
 * one of the pointer to a text. */
struct call {
    const char *name;
    uint64_t (*call)(function);
    int cursor;
    const char *family;
    const char *mask[STRUCTS];
    function of[2];
    unsigned long calls, zeros, differing;
};

struct seed {
    const uint8_t *bytes;
    size_t length;
    char family[8];
};

/* The parameters of the calls. The buffer is in the last area. */
static const uint8_t *input[2];
static size_t length[2], buffer_length, struct_size;
static uint8_t *buffer;
static _Alignas(16) uint8_t area[STRUCTS + 1][AREA];
static uint32_t message_type, flags, number, what;

#include "calls.h"

enum { CALLS = sizeof calls / sizeof *calls };

static uint8_t inputs[2][INPUT], before[STRUCTS + 1][AREA], first[STRUCTS + 1][AREA];
static struct seed seeds[SEEDS];
static size_t seed_count;
static uint64_t state;

/* Returns a random number below the limit (xorshift64). */
static uint32_t any(uint32_t limit) {
    state ^= state << 13;
    state ^= state >> 7;
    state ^= state << 17;
    return (uint32_t)(state >> 32) % limit;
}

static uint8_t any_byte(void) {
    return (uint8_t)any(256);
}

static void fail(const char *what) {
    fprintf(stderr, "compare_libraries: %s\n", what);
    exit(2);
}

static void read_seeds(const char *path) {
    static char family[16], digits[2 * INPUT + 1];
    FILE *file = fopen(path, "r");
    if (!file)
        fail(path);
    while (fscanf(file, "%15s %16384s", family, digits) == 2 && seed_count < SEEDS) {
        struct seed *seed = &seeds[seed_count];
        size_t count = strlen(digits) / 2;
        uint8_t *bytes = malloc(count + 1);
        unsigned byte;
        if (!bytes)
            fail("out of memory");
        for (size_t at = 0; at < count; at++) {
            sscanf(digits + 2 * at, "%2x", &byte);
            bytes[at] = (uint8_t)byte;
        }
        seed->bytes = bytes;
        seed->length = count;
        snprintf(seed->family, sizeof seed->family, "%.7s", family);
        seed_count += count <= LONGEST;
    }
    fclose(file);
}

/* Appends an attribute with random bytes, often a text. Returns the new length. */
static size_t with_attribute(uint8_t *bytes, size_t count) {
    static const uint16_t lengths[] = {0,  1,  2,  3,  4,  5,  8,  12,  16,  20,
                                       24, 28, 32, 36, 48, 72, 100, 128, 232, 280};
    size_t size = lengths[any(sizeof lengths / sizeof *lengths)], start = (count + 3) & ~(size_t)3;
    if (start + 4 + size > LONGEST)
        return count;
    memset(bytes + count, 0, start - count);
    bytes[start] = (uint8_t)(4 + size);
    bytes[start + 1] = (uint8_t)((4 + size) >> 8);
    bytes[start + 2] = (uint8_t)any(26);
    bytes[start + 3] = any(8) ? 0 : (uint8_t)(any(4) << 6);
    for (size_t at = 0; at < size; at++)
        bytes[start + 4 + at] = any(3) ? any_byte() : at + 1 < size ? (uint8_t)('a' + any(26)) : 0;
    return start + 4 + size;
}

static size_t with_bytes(uint8_t *bytes, size_t count, const uint8_t *added, size_t size) {
    if (count + size > LONGEST)
        return count;
    for (size_t at = 0; at < size; at++)
        bytes[count + at] = added ? added[at] : any_byte();
    return count + size;
}

/* Changes an input once, and returns its new length. */
static size_t changed(uint8_t *bytes, size_t count) {
    static const uint8_t limits[8] = {0, 1, 2, 4, 8, 16, 0x7f, 0xff};
    const struct seed *other = &seeds[any((uint32_t)seed_count)];
    size_t at = count ? any((uint32_t)count) : 0, field = at & ~(size_t)3;
    uint32_t value = any(4) ? any(300) : any(UINT32_MAX);
    switch (count ? any(11) : 7) {
    case 0: bytes[at] ^= (uint8_t)(1u << any(8)); break;
    case 1: bytes[at] = limits[any(8)]; break;
    case 2: bytes[field] = (uint8_t)any(60); break;
    case 3: return at;
    case 4: memset(bytes + at, any(2) ? 0 : 0xff, (count - at) % 9); break;
    case 5:
    case 6: return with_attribute(bytes, count);
    case 7: return with_bytes(bytes, count, NULL, any(64));
    case 8: return with_bytes(bytes, count, other->bytes, other->length);
    case 9:
        if (field + 4 <= count)
            memcpy(bytes + field, &value, any(2) ? 2 : 4);
        break;
    default: bytes[at] = any_byte();
    }
    return count;
}

/* Makes an input, at the end or the start of its area: random bytes or a seed with changes, of the
 * family of the function. */
static void make_input(int which, const char *family) {
    uint8_t *bytes = inputs[which];
    size_t count = 0;
    if (any(20) == 0) {
        count = with_bytes(bytes, 0, NULL, any(200));
    } else {
        const struct seed *seed = &seeds[any((uint32_t)seed_count)];
        int tries = any(20) && *family ? 200 : 0;
        for (; tries && strcmp(seed->family, family) != 0; tries--)
            seed = &seeds[any((uint32_t)seed_count)];
        count = with_bytes(bytes, 0, seed->bytes, seed->length);
        for (uint32_t changes = any(4); changes; changes--)
            count = changed(bytes, count);
    }
    input[which] = any(2) ? memmove(bytes + INPUT - count, bytes, count) : bytes;
    length[which] = count;
    if (count == 0 && any(2))
        input[which] = NULL;
}

/* Makes the bytes that structs and the buffer have before a call: all equal, random, or small
 * numbers. */
static void make_areas(const struct call *call) {
    static const uint8_t families[8] = {2, 10, 1, 16, 17, 40, 44, 2};
    for (int which = 0; which <= STRUCTS; which++) {
        uint32_t way = any(4);
        memset(before[which], any_byte(), AREA);
        for (int at = 0; way > 1 && at < 400; at++)
            before[which][at] = way == 2 ? any_byte() : at % 4 ? 0 : (uint8_t)any(50);
    }
    if (call->cursor >= 0) {
        size_t cursor = any(2) ? 0 : any(8) ? any((uint32_t)length[0] + 8) : SIZE_MAX - any(20);
        if (any(2))
            cursor &= ~(size_t)3;
        memcpy(before[call->cursor], &cursor, sizeof cursor);
    }
    /* A request that can be written: small numbers, a family, and TCP. */
    if (strncmp(call->name, "sockdiag_write_", 15) == 0 && any(4)) {
        for (int at = 0; at < 200; at++)
            if (any(3))
                before[0][at] = any(3) ? 0 : any_byte();
        before[0][12] = families[any(8)];
        before[0][13] = any(2) ? 6 : any_byte();
        if (any(2))
            buffer_length = any(AREA), buffer = area[STRUCTS];
    }
    if (strcmp(call->name, "sockdiag_is_answer") == 0 && any(2))
        memcpy(&number, before[0] + 16, 4);
}

/* Makes the payload of an error message, mostly with the flag NLM_F_ACK_TLVS: an error number, the
 * header of the request or all of it, and attributes. */
static void make_error(void) {
    static const uint16_t types[4] = {2, 2, 2, 3};
    uint32_t size = 16 + (any(2) ? 0 : any(40));
    size_t count = 4;
    message_type = types[any(4)];
    if (any(4))
        flags |= 0x200;
    with_bytes(inputs[0], 0, NULL, 200);
    if (any(2))
        memset(inputs[0], 0, 4);
    if (message_type == 2) {
        memcpy(inputs[0] + 4, &size, 4);
        count += any(2) ? size : 16;
    }
    for (uint32_t changes = any(4); changes; changes--)
        count = changed(inputs[0], count);
    input[0] = inputs[0];
    length[0] = count;
}

static void make_numbers(void) {
    static const uint16_t kinds[12] = {1, 2, 10, 16, 17, 40, 44, 256, 257, 258, 259, 260};
    message_type = any(4) ? 20 : any(65536);
    flags = any(2) ? any(65536) : 0x200 | 0x100 * any(2);
    what = any(4) ? kinds[any(12)] : any(300);
    number = any(3) ? any(3000000) : any(UINT32_MAX);
    struct_size = any(3) ? any(300) : any(AREA);
    buffer_length = any(3) ? any(AREA) : any(120);
    buffer = area[STRUCTS] + (any(2) ? AREA - buffer_length : 0);
    if (buffer_length == 0 && any(2))
        buffer = NULL;
}

/* Returns whether both libraries wrote a byte alike, or a byte that is not defined. */
static int is_same(const char *mask, int which, size_t at) {
    if (first[which][at] == area[which][at] || (mask && at < strlen(mask) && mask[at] == 'p'))
        return 1;
    if (!mask || at >= strlen(mask) || mask[at] != 't')
        return 0;
    while (mask[at - 1] == 't')
        at--;
    return memcmp(first[which] + at - 8, "\0\0\0", 4) == 0 &&
           memcmp(area[which] + at - 8, "\0\0\0", 4) == 0;
}

static int compare(struct call *call) {
    uint64_t results[2];
    for (int library = 0; library < 2; library++) {
        memcpy(area, before, sizeof area);
        results[library] = call->call(call->of[library]);
        if (library == 0)
            memcpy(first, area, sizeof first);
    }
    call->calls++;
    call->zeros += results[0] == 0;
    int same = results[0] == results[1];
    if (memcmp(first, area, sizeof first) != 0)
        for (int which = 0; which <= STRUCTS; which++)
            for (size_t at = 0; at < AREA; at++)
                same &= is_same(which < STRUCTS ? call->mask[which] : NULL, which, at);
    if (!same && call->differing++ == 0)
        printf("%s: the first difference at call %lu: %" PRIu64 " and %" PRIu64 "\n", call->name,
               call->calls, results[0], results[1]);
    return same;
}

static void load(int library, const char *path) {
    void *handle = dlopen(path, RTLD_NOW | RTLD_LOCAL);
    if (!handle)
        fail(dlerror());
    for (int at = 0; at < CALLS; at++)
        if (!(*(void **)&calls[at].of[library] = dlsym(handle, calls[at].name)))
            fail(calls[at].name);
}

int main(int count, char **words) {
    unsigned long total = 0, differing = 0;
    if (count != 6)
        fail("usage: compare LIBRARY OTHER SEEDS ROUNDS SEED");
    load(0, words[1]);
    load(1, words[2]);
    read_seeds(words[3]);
    unsigned long rounds = strtoul(words[4], NULL, 10);
    state = strtoull(words[5], NULL, 10) * 0x9e3779b97f4a7c15u | 1;
    for (unsigned long round = 0; round < rounds; round++)
        for (struct call *call = calls; call < calls + CALLS; call++, total++) {
            make_input(0, call->family);
            make_input(1, call->family);
            make_numbers();
            if (strcmp(call->name, "sockdiag_find_error_attributes") == 0 && any(4))
                make_error();
            make_areas(call);
            differing += !compare(call);
        }
    int constant = 0;
    for (struct call *call = calls; call < calls + CALLS; call++)
        if (call->zeros == call->calls)
            constant = printf("%s returned 0 in all calls\n", call->name);
    printf("compare_libraries: %lu calls of %d functions, from %zu inputs: %lu differ\n", total,
           CALLS, seed_count, differing);
    return differing || constant;
}

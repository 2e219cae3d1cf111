/*
 * print_replies: reads replies from standard input, a line each, and prints a line for each: what
 * the lenient calls of include/sockdiag.h return, and the errors with their fields.
 * tests/api/reply_reader.py describes both formats and prints the same lines by other code;
 * tests/api/compare_replies.sh compares them.
 *
 * The bytes of a reply and each struct are next to a page that cannot be accessed, so the program
 * stops if the library accesses bytes outside of them. The program also compares the lenient call
 * with the strict one: its code, and its details if no attribute is rejected. The status is 1 if a
 * comparison fails, and 2 if a line is not a reply.
 */
#define _DEFAULT_SOURCE /* For MAP_ANONYMOUS. */
#include "areas.h"
#include "sockdiag.h"

#include <stdarg.h>
#include <stdio.h>
#include <stdlib.h>
#include <string.h>

/* Size of an area in bytes, a multiple of the page size, and the maximum length of a reply. */
#define AREA ((size_t)1 << 17)

static unsigned long line_number;
/* The reply, and the structs that the calls fill, at the end of an area each. */
static const uint8_t *payload;
static size_t payload_length;
static uint8_t *end_of_details;
static struct sockdiag_rejections *rejections;
static struct sockdiag_error_details *error;

static void expect(int holds, const char *what) {
    if (holds)
        return;
    fprintf(stderr, "print_replies: line %lu: failed: %s\n", line_number, what);
    exit(1);
}

/* Returns the end of an area. A struct there is aligned, since its size is a multiple of its
 * alignment. */
static uint8_t *end_of_new_area(void) {
    uint8_t *area = new_area(AREA);
    expect(area != NULL, "an area");
    return area + AREA;
}

/* The words of a line. */
struct words {
    char text[8 * AREA];
    size_t length;
};

static void add(struct words *words, const char *format, ...) {
    const size_t room = sizeof words->text - words->length;
    va_list arguments;
    int length;
    va_start(arguments, format);
    length = vsnprintf(words->text + words->length, room, format, arguments);
    va_end(arguments);
    expect(length >= 0 && (size_t)length < room, "room for a line");
    words->length += (size_t)length;
}

static void add_bytes(struct words *words, const uint8_t *bytes, size_t length) {
    size_t index;
    for (index = 0; index < length; index++)
        add(words, "%02x", bytes[index]);
}

static void add_field(struct words *words, const char *name, const uint8_t *bytes, size_t length) {
    add(words, "%s=", name);
    add_bytes(words, bytes, length);
    add(words, " ");
}

static void add_number(struct words *words, const char *name, struct sockdiag_number number) {
    expect(number.is_set <= 1 && (number.is_set || number.value == 0), "a number");
    if (number.is_set)
        add(words, "%s=%lu ", name, (unsigned long)number.value);
    else
        add(words, "%s=- ", name);
}

static void add_text(struct words *words, const char *name, const struct sockdiag_text *text) {
    static const char *const kinds[] = {"", "text", "abstract", "bytes"};
    expect(text->kind <= SOCKDIAG_BYTES, "the kind of a text");
    if (text->kind == 0) {
        add(words, "%s=- ", name);
        return;
    }
    expect(text->bytes >= payload && text->length <= payload_length &&
               (size_t)(text->bytes - payload) <= payload_length - text->length,
           "a text in the payload");
    add(words, "%s=%s:", name, kinds[text->kind]);
    add_bytes(words, text->bytes, text->length);
    add(words, " ");
}

static void add_memory(struct words *words, const struct sockdiag_memory *it) {
    add_number(words, "memory_receive_queue", it->receive_queue);
    add_number(words, "memory_receive_queue_max", it->receive_queue_max);
    add_number(words, "memory_bottom_send_queues", it->bottom_send_queues);
    add_number(words, "memory_send_queue_max", it->send_queue_max);
    add_number(words, "memory_cache", it->cache);
    add_number(words, "memory_send_queue", it->send_queue);
    add_number(words, "memory_options", it->options);
    add_number(words, "memory_backlog_queue_length", it->backlog_queue_length);
    add_number(words, "memory_drops", it->drops);
}

/* Adds a record of numbers, or `-` if it is not present: then it is all zeros. */
static void add_record(struct words *words, const char *name, uint32_t has,
                       const uint64_t *numbers, size_t count) {
    size_t index;
    expect(has <= 1, "whether there is a record");
    add(words, "%s=%s", name, has ? "" : "-");
    for (index = 0; index < count; index++) {
        expect(has || numbers[index] == 0, "a record of zeros");
        if (has)
            add(words, "%s%llu", index ? "," : "", (unsigned long long)numbers[index]);
    }
    add(words, " ");
}

static void add_unix(struct words *words, const struct sockdiag_unix_details *it) {
    add(words, "kind=%u state=%u inode=%lu ", it->header.kind, it->header.state,
        (unsigned long)it->header.inode);
    add_field(words, "cookie", it->header.cookie, sizeof it->header.cookie);
    add_text(words, "name", &it->name);
    add_number(words, "file_inode", it->file_inode);
    add_number(words, "file_device", it->file_device);
    add_number(words, "peer", it->peer);
    add_number(words, "recv_queue", it->recv_queue);
    add_number(words, "send_queue", it->send_queue);
    add_memory(words, &it->memory);
    add_number(words, "shutdown", it->shutdown);
    add_number(words, "owner", it->owner);
}

static void add_inet_header(struct words *words, const struct sockdiag_inet_header *it) {
    add(words, "family=%u state=%u timer=%u retransmits=%u expires=%lu ", it->family, it->state,
        it->timer, it->retransmits, (unsigned long)it->expires);
    add(words, "source_port=%u destination_port=%u ", it->source_port, it->destination_port);
    add_field(words, "source_address", it->source_address, sizeof it->source_address);
    add_field(words, "destination_address", it->destination_address,
              sizeof it->destination_address);
    add(words, "interface_id=%lu ", (unsigned long)it->interface_id);
    add_field(words, "cookie", it->cookie, sizeof it->cookie);
    add(words, "recv_queue=%lu send_queue=%lu ", (unsigned long)it->recv_queue,
        (unsigned long)it->send_queue);
    add(words, "uid=%lu inode=%lu ", (unsigned long)it->uid, (unsigned long)it->inode);
}

static void add_legacy_memory(struct words *words, const struct sockdiag_inet_details *it) {
    const uint64_t numbers[4] = {
        it->legacy_memory.receive_queue, it->legacy_memory.send_queue, it->legacy_memory.cache,
        it->legacy_memory.bottom_send_queues,
    };
    add_record(words, "legacy_memory", it->has_legacy_memory, numbers, 4);
}

static void add_inet(struct words *words, const struct sockdiag_inet_details *it) {
    add_inet_header(words, &it->header);
    add_legacy_memory(words, it);
    add_text(words, "congestion", &it->congestion);
    add_number(words, "tos", it->tos);
    add_number(words, "tclass", it->tclass);
    add_memory(words, &it->memory);
    add_number(words, "shutdown", it->shutdown);
    add_number(words, "protocol", it->protocol);
    add_number(words, "v6only", it->v6only);
    add_number(words, "mark", it->mark);
    add_number(words, "class_id", it->class_id);
    add_record(words, "cgroup_id", it->has_cgroup_id, &it->cgroup_id, 1);
    add_number(words, "options", it->options);
}

static void add_netlink(struct words *words, const struct sockdiag_netlink_details *it) {
    const struct sockdiag_netlink_header *header = &it->header;
    add(words, "kind=%u protocol=%u state=%u port=%lu destination_port=%lu ", header->kind,
        header->protocol, header->state, (unsigned long)header->port,
        (unsigned long)header->destination_port);
    add(words, "destination_group=%lu inode=%lu cookie=%llu ",
        (unsigned long)header->destination_group, (unsigned long)header->inode,
        (unsigned long long)header->cookie);
    add_memory(words, &it->memory);
    add_text(words, "groups", &it->groups);
    add_number(words, "flags", it->flags);
}

static void add_ring(struct words *words, const char *name, uint32_t has,
                     const struct sockdiag_packet_ring *it) {
    const uint64_t numbers[7] = {it->block_size, it->blocks, it->frame_size, it->frames,
                                 it->retire_timeout, it->private_size, it->features};
    add_record(words, name, has, numbers, 7);
}

static void add_packet(struct words *words, const struct sockdiag_packet_details *it) {
    const struct sockdiag_packet_info *info = &it->info;
    const uint64_t numbers[6] = {info->interface, info->version, info->reserve,
                                 info->copy_threshold, info->timestamp, info->flags};
    add(words, "kind=%u protocol=%u inode=%lu cookie=%llu ", it->header.kind, it->header.protocol,
        (unsigned long)it->header.inode, (unsigned long long)it->header.cookie);
    add_record(words, "info", it->has_info, numbers, 6);
    add_text(words, "memberships", &it->memberships);
    add_ring(words, "receive_ring", it->has_receive_ring, &it->receive_ring);
    add_ring(words, "send_ring", it->has_send_ring, &it->send_ring);
    add_number(words, "fanout", it->fanout);
    add_number(words, "owner", it->owner);
    add_memory(words, &it->memory);
    add_text(words, "filter", &it->filter);
}

static void add_vsock(struct words *words, const struct sockdiag_vsock_header *it) {
    add(words, "kind=%u state=%u shutdown=%u source_context=%lu source_port=%lu ", it->kind,
        it->state, it->shutdown, (unsigned long)it->source_context,
        (unsigned long)it->source_port);
    add(words, "destination_context=%lu destination_port=%lu inode=%lu cookie=%llu ",
        (unsigned long)it->destination_context, (unsigned long)it->destination_port,
        (unsigned long)it->inode, (unsigned long long)it->cookie);
}

static void add_xdp(struct words *words, const struct sockdiag_xdp_details *it) {
    const struct sockdiag_xdp_umem *umem = &it->umem;
    const struct sockdiag_xdp_statistics *counters = &it->statistics;
    const uint64_t info[2] = {it->info.interface, it->info.queue};
    const uint64_t memory[9] = {umem->size, umem->id, umem->pages, umem->chunk_size,
                                umem->headroom, umem->interface, umem->queue, umem->flags,
                                umem->references};
    const uint64_t statistics[6] = {counters->received_dropped, counters->received_invalid,
                                    counters->received_full, counters->fill_ring_empty,
                                    counters->sent_invalid, counters->send_ring_empty};
    add(words, "kind=%u inode=%lu cookie=%llu ", it->header.kind, (unsigned long)it->header.inode,
        (unsigned long long)it->header.cookie);
    add_record(words, "info", it->has_info, info, 2);
    add_number(words, "owner", it->owner);
    add_number(words, "receive_ring", it->receive_ring);
    add_number(words, "send_ring", it->send_ring);
    add_record(words, "umem", it->has_umem, memory, 9);
    add_number(words, "fill_ring", it->fill_ring);
    add_number(words, "completion_ring", it->completion_ring);
    add_memory(words, &it->memory);
    add_record(words, "statistics", it->has_statistics, statistics, 6);
}

typedef uint32_t explain(const uint8_t *, size_t, struct sockdiag_error_details *);

/* Explains the bytes of the reply from `start` to `end`. Returns the code of their error, or 0. */
static uint32_t explain_part(explain *call, size_t start, size_t end) {
    uint32_t code;
    memset(error, UNTOUCHED, sizeof *error);
    code = call(payload + start, end - start, error);
    if (code == SOCKDIAG_OK)
        expect(is_untouched(error, sizeof *error), "an unchanged error");
    else
        expect(error->code == code, "the code of an error");
    return code;
}

static void add_error(struct words *words) {
    add(words, "%lu/%lu/%lu/", (unsigned long)error->code, (unsigned long)error->record_name,
        (unsigned long)error->family);
    expect(error->kind.is_set <= 1 && (error->kind.is_set || error->kind.value == 0), "a kind");
    if (error->kind.is_set)
        add(words, "%lu", (unsigned long)error->kind.value);
    else
        add(words, "-");
    add(words, "/%lu/%lu/%lu/%lu", (unsigned long)error->got, (unsigned long)error->need,
        (unsigned long)error->length, (unsigned long)error->index);
}

/* Adds the first error, of this code, and what the lenient call returned about rejections. */
static void add_rejections(struct words *words, uint32_t first) {
    const char *separator = "";
    size_t kind;
    expect(rejections->first == first, "the code of the first error");
    add(words, "first=");
    if (first == SOCKDIAG_OK) {
        add(words, "0 offset=-");
    } else {
        add_error(words);
        add(words, " offset=%lu", (unsigned long)error->offset);
    }
    add(words, " framing=%lu errors=", (unsigned long)rejections->framing);
    for (kind = 0; kind < sizeof rejections->errors; kind++)
        if (rejections->errors[kind] != 0) {
            add(words, "%s%lu:%u", separator, (unsigned long)kind, rejections->errors[kind]);
            separator = ",";
        }
    add(words, "%s rejected=", *separator ? "" : "-");
}

/* Returns the end of the attribute that an iteration returned; or the end of the reply, if it
 * returned a framing error. */
static size_t end_of_item(uint32_t answer, size_t offset) {
    return answer == SOCKDIAG_ITEM && offset < payload_length ? offset : payload_length;
}

/* Adds the error of each attribute that is rejected. Each is explained by itself. */
static void add_each_error(struct words *words, explain *call, size_t offset) {
    struct sockdiag_cursor cursor;
    struct sockdiag_attribute attribute;
    const char *separator = "";
    uint32_t answer, code;
    cursor.offset = offset;
    for (;; offset = cursor.offset) {
        answer = sockdiag_next_attribute(payload, payload_length, &cursor, &attribute);
        if (answer == SOCKDIAG_END)
            break;
        code = explain_part(call, offset, end_of_item(answer, cursor.offset));
        expect(answer == SOCKDIAG_ITEM || answer == code, "a framing error");
        if (code == SOCKDIAG_OK)
            continue;
        add(words, "%s", separator);
        separator = ",";
        if (answer == SOCKDIAG_ITEM)
            add(words, "%u:", attribute.type_word & SOCKDIAG_NLA_TYPE_MASK);
        else
            add(words, "framing:");
        add_error(words);
    }
    add(words, "%s", *separator ? "" : "-");
}

static void print_header_error(struct words *words) {
    expect(is_untouched(rejections, sizeof *rejections), "unchanged rejections");
    expect(error->offset == 0, "the offset of the error of a header");
    add(words, "error ");
    add_error(words);
    puts(words->text);
}

/* Prints what a family's calls return for the reply, and compares the lenient one with the strict
 * one. `type` is the struct of the details, `start` the offset of the first attribute, and `each`
 * the call that explains one attribute. */
#define TRY(family, type, start, each)                                                           \
    static void try_##family(void) {                                                             \
        static struct words words, strict_words;                                                 \
        type strict, *found = (type *)(void *)(end_of_details - sizeof strict);                  \
        uint32_t code, first;                                                                    \
        words.length = strict_words.length = 0;                                                  \
        memset(&strict, UNTOUCHED, sizeof strict);                                               \
        memset(found, UNTOUCHED, sizeof *found);                                                 \
        memset(rejections, UNTOUCHED, sizeof *rejections);                                       \
        first = sockdiag_##family##_get_details(payload, payload_length, &strict, sizeof strict); \
        expect(first == SOCKDIAG_OK || is_untouched(&strict, sizeof strict),                     \
               "unchanged details of a strict call");                                            \
        code = sockdiag_##family##_get_lenient_details(payload, payload_length, found,           \
                                                       sizeof *found, rejections);               \
        expect(explain_part(explain_##family, 0, payload_length) == first,            \
               "the first error");                                                               \
        if (code != SOCKDIAG_OK) {                                                               \
            expect(code == first, "the error of the header");                                    \
            expect(is_untouched(found, sizeof *found), "unchanged details");                     \
            print_header_error(&words);                                                          \
            return;                                                                              \
        }                                                                                        \
        add_##family(&words, found);                                                             \
        if (first == SOCKDIAG_OK) {                                                              \
            add_##family(&strict_words, &strict);                                                \
            expect(strcmp(words.text, strict_words.text) == 0, "equal details");                 \
        }                                                                                        \
        add_rejections(&words, first);                                                           \
        add_each_error(&words, each, start);                                                     \
        puts(words.text);                                                                        \
    }

TRY(unix, struct sockdiag_unix_details, SOCKDIAG_UNIX_ATTRIBUTES, explain_unix_attribute)
TRY(inet, struct sockdiag_inet_details, SOCKDIAG_INET_ATTRIBUTES, explain_inet_attribute)
TRY(netlink, struct sockdiag_netlink_details, SOCKDIAG_NETLINK_ATTRIBUTES,
    explain_netlink_attribute)
TRY(packet, struct sockdiag_packet_details, SOCKDIAG_PACKET_ATTRIBUTES, explain_packet_attribute)
TRY(vsock, struct sockdiag_vsock_header, SOCKDIAG_VSOCK_ATTRIBUTES, explain_vsock_attribute)
TRY(xdp, struct sockdiag_xdp_details, SOCKDIAG_XDP_ATTRIBUTES, explain_xdp_attribute)

/* The kinds of replies, by the word at the start of a line. */
static const struct {
    const char *name;
    void (*run)(void);
} replies[] = {
    {"unix ", try_unix},     {"inet ", try_inet},   {"netlink ", try_netlink},
    {"packet ", try_packet}, {"vsock ", try_vsock}, {"xdp ", try_xdp},
};

static unsigned digit_value(char digit) {
    static const char digits[] = "0123456789abcdef";
    const char *found = digit != '\0' ? strchr(digits, digit) : NULL;
    if (found == NULL) {
        fprintf(stderr, "print_replies: line %lu: not hexadecimal digits\n", line_number);
        exit(2);
    }
    return (unsigned)(found - digits);
}

/* Stores the bytes of the digits, up to a line feed. Returns their number. */
static size_t read_digits(const char *digits, uint8_t *bytes) {
    size_t length = 0;
    while (*digits != '\n' && *digits != '\0') {
        const unsigned high = digit_value(digits[0]);
        expect(length < AREA, "a reply that fits");
        bytes[length++] = (uint8_t)(high << 4 | digit_value(digits[1]));
        digits += 2;
    }
    return length;
}

int main(void) {
    static char line[2 * AREA + 8];
    static uint8_t bytes[AREA];
    uint8_t *const end_of_input = end_of_new_area();
    end_of_details = end_of_new_area();
    rejections = (struct sockdiag_rejections *)(void *)(end_of_new_area() - sizeof *rejections);
    error = (struct sockdiag_error_details *)(void *)(end_of_new_area() - sizeof *error);
    while (fgets(line, sizeof line, stdin) != NULL) {
        size_t kind = 0;
        uint8_t *copy;
        line_number++;
        while (kind < 6 && strncmp(line, replies[kind].name, strlen(replies[kind].name)) != 0)
            kind++;
        if (kind == 6)
            return fprintf(stderr, "print_replies: line %lu: not a reply\n", line_number), 2;
        payload_length = read_digits(line + strlen(replies[kind].name), bytes);
        /* At the start of the area or at its end. */
        copy = line_number % 2 ? end_of_input - payload_length : end_of_input - AREA;
        memcpy(copy, bytes, payload_length);
        payload = payload_length == 0 ? NULL : copy;
        replies[kind].run();
    }
    return ferror(stdin) || fflush(stdout) != 0 || ferror(stdout) ? 1 : 0;
}

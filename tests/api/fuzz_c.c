/*
 * fuzz_c COUNT CAPTURE [SEED]: calls the functions of include/sockdiag.h COUNT times with changed
 * copies of the messages in a capture of netlink, such as crates/sslist/stdin. compare_replies.sh
 * tries the lenient calls.
 *
 * Each input, buffer and struct is next to a page that cannot be accessed, at its start or at its
 * end, so the program stops if the library accesses bytes outside of them. What the calls return is
 * compared with what the header says: which values are possible, what is unchanged, that texts are
 * parts of the payload, that iterations end, and that a canonical form is its own canonical form.
 *
 * Build it with -fsanitize=address,undefined, as tests/api/c_api.sh does, which runs it. The status
 * is 1 if a comparison fails; the seed that is printed repeats the run.
 */
#define _DEFAULT_SOURCE /* For MAP_ANONYMOUS. */
#include "areas.h"

#include <stddef.h>
#include <stdlib.h>

/* Size of an area in bytes, a multiple of the page size. */
#define AREA ((size_t)1 << 16)
#define MOST_SAMPLES 4096

struct sample {
    uint8_t *bytes;
    size_t length;
};

static struct sample samples[MOST_SAMPLES];
static size_t sample_count;
static uint8_t *input_area, *output_area, *buffer_area;
static uint64_t state, first_state;

static uint32_t random_below(uint32_t limit) {
    state ^= state << 13;
    state ^= state >> 7;
    state ^= state << 17;
    return (uint32_t)(state >> 32) % limit;
}

static void expect(int holds, const char *what) {
    if (holds)
        return;
    fprintf(stderr, "fuzz_c: failed: %s (seed %llu)\n", what, (unsigned long long)first_state);
    exit(1);
}

/* Returns bytes at the start or at the end of an area, with one value. A length of a struct is a
 * multiple of its alignment, so that a struct is aligned at the end, too. */
static uint8_t *bytes_in(uint8_t *area, size_t length) {
    uint8_t *bytes = random_below(2) ? area : area + AREA - length;
    memset(bytes, UNTOUCHED, length);
    return bytes;
}

static void add_sample(const uint8_t *bytes, size_t length) {
    struct sample *sample = &samples[sample_count];
    if (sample_count == MOST_SAMPLES || length > AREA / 2)
        return;
    sample->bytes = (uint8_t *)malloc(length + 1);
    expect(sample->bytes != NULL, "memory");
    memcpy(sample->bytes, bytes, length);
    sample->length = length;
    sample_count++;
}

/* Adds a datagram and the payload of each of its messages. */
static void add_datagram(const uint8_t *bytes, size_t length) {
    struct sockdiag_cursor cursor = {0};
    struct sockdiag_message message;
    add_sample(bytes, length);
    while (sockdiag_next_any_message(bytes, length, &cursor, &message) == SOCKDIAG_ITEM)
        add_sample(bytes + message.offset, message.length);
}

/* Reads a capture: a header of 24 bytes; then packets, each after 16 bytes with its length at 8. A
 * packet has a header of 16 bytes before the datagram. */
static void read_capture(const char *path) {
    static uint8_t bytes[1 << 20];
    FILE *file = fopen(path, "rb");
    size_t length, index = 24;
    expect(file != NULL, "the capture");
    length = fread(bytes, 1, sizeof bytes, file);
    fclose(file);
    while (index + 16 <= length) {
        const size_t packet = bytes[index + 8] | (size_t)bytes[index + 9] << 8;
        index += 16;
        if (packet < 16 || packet > length - index)
            break;
        add_datagram(bytes + index + 16, packet - 16);
        index += packet;
    }
    expect(sample_count > 0, "a capture with datagrams");
}

/* Appends an attribute of one of the first 24 kinds, with some of the lengths of their values. */
static size_t append_attribute(uint8_t *bytes, size_t length) {
    static const uint16_t lengths[16] = {0,  1,  2,  3,  4,   5,   8,   12,
                                         16, 28, 36, 100, 128, 224, 232, 280};
    const size_t value = lengths[random_below(16)], start = (length + 3) / 4 * 4;
    size_t index;
    if (start + 4 + value > AREA / 2)
        return length;
    memset(bytes + length, 0, start - length);
    put_header(bytes + start, 4 + value,
               (uint16_t)(random_below(24) | (random_below(8) ? 0 : 0x8000)));
    for (index = 0; index < value; index++)
        bytes[start + 4 + index] = (uint8_t)(index + 1 < value ? random_below(128) : 0);
    return start + 4 + value;
}

/* Changes one thing of the bytes, which have a capacity of AREA / 2. Returns their length. */
static size_t change(uint8_t *bytes, size_t length) {
    static const uint8_t numbers[8] = {0, 1, 2, 4, 8, 16, 0x7f, 0xff};
    /* About the lengths of the headers of messages and replies. */
    static const uint8_t lengths[8] = {3, 15, 16, 27, 31, 71, 72, 75};
    const uint8_t shorter = lengths[random_below(8)];
    const size_t index = length > 0 ? random_below((uint32_t)length) : 0;
    const struct sample *other = &samples[random_below((uint32_t)sample_count)];
    const size_t room = AREA / 2 - length;
    switch (length > 0 ? random_below(8) : 7) {
    case 0:
        bytes[index] ^= (uint8_t)(1u << random_below(8));
        return length;
    case 1:
        bytes[index] = numbers[random_below(8)];
        return length;
    case 2:
        bytes[index & ~(size_t)3] = (uint8_t)random_below(40);
        return length;
    case 3:
        return random_below(2) || shorter > length ? index : shorter;
    case 4:
        memset(bytes + index, random_below(2) ? 0 : 0xff, (length - index) % 5);
        return length;
    case 5:
    case 6:
        return append_attribute(bytes, length);
    default:
        if (other->length > room)
            return length;
        memcpy(bytes + length, other->bytes, other->length);
        return length + other->length;
    }
}

/* A text is a part of the payload, after a header and the header of an attribute. */
static void expect_text(const struct sockdiag_text *text, const uint8_t *payload, size_t length) {
    expect(text->kind <= SOCKDIAG_BYTES, "the kind of a text");
    if (text->kind == 0)
        return;
    expect(text->bytes >= payload && text->length <= length &&
           (size_t)(text->bytes - payload) <= length - text->length, "a text in the payload");
    expect(text->length == 0 || text->bytes - payload >= 20, "a text after a header");
}

/* Calls a function that fills a struct or returns an error between 2 and 15. */
#define CALL(it, type, call)                                                                   \
    type *it = (type *)(void *)bytes_in(output_area, sizeof(type));                            \
    const uint32_t it##_fault = call;                                                          \
    expect(it##_fault == SOCKDIAG_OK || (it##_fault >= SOCKDIAG_BUFFER_TOO_SMALL &&            \
                                         it##_fault <= SOCKDIAG_NAME_WITHOUT_END), #call);     \
    expect(it##_fault == SOCKDIAG_OK || is_untouched(it, sizeof(type)), "a rejected " #call)

typedef uint32_t explain(const uint8_t *, size_t, struct sockdiag_error_details *);

/* The error of bytes has the code that another call returned, and no field that is too large. */
static void try_explaining(explain *call, const uint8_t *bytes, size_t length, uint32_t code) {
    struct sockdiag_error_details *it =
        (struct sockdiag_error_details *)(void *)bytes_in(output_area, sizeof *it);
    expect(call(bytes, length, it) == code, "the code of an explained error");
    if (code == SOCKDIAG_OK) {
        expect(is_untouched(it, sizeof *it), "an error that is not there");
        return;
    }
    expect(it->code == code && it->got <= length && it->index <= length && it->offset <= length &&
           it->record_name <= SOCKDIAG_RECORD_FAMILY_ATTRIBUTE && it->kind.is_set <= 1,
           "an explained error");
    expect((it->record_name != 0) == (code == SOCKDIAG_BUFFER_TOO_SMALL), "the record of an error");
    expect(code != SOCKDIAG_BUFFER_TOO_SMALL || it->got < it->need, "a record that is too small");
}

/* Calls a getter of a single value, which accepts these lengths. */
#define VALUE(type, call, accepts)                                                         \
    do {                                                                                   \
        type *it = (type *)(void *)bytes_in(output_area, sizeof(type));                    \
        expect(call(bytes, length, it) == ((accepts) ? SOCKDIAG_OK : SOCKDIAG_WRONG_LENGTH), \
               #call);                                                                     \
        expect((accepts) || is_untouched(it, sizeof(type)), #call " of a rejected value"); \
    } while (0)

/* Steps through a value by a call, from an offset. Each item has `size` bytes. */
#define STEPS(type, call, size)                                                        \
    do {                                                                               \
        type *it = (type *)(void *)bytes_in(output_area, sizeof(type));                \
        struct sockdiag_cursor cursor = {start};                                       \
        const size_t left = start > length ? 0 : length - start;                       \
        size_t items = 0;                                                              \
        uint32_t code;                                                                 \
        while ((code = call(bytes, length, &cursor, it)) == SOCKDIAG_ITEM)             \
            expect(cursor.offset == start + ++items * (size), #call);                  \
        expect(items == left / (size), #call " at the end");                           \
        expect(code == (left % (size) ? SOCKDIAG_WRONG_LENGTH : SOCKDIAG_END) &&       \
               cursor.offset == (left ? length : start), #call " after the last item"); \
        expect(items > 0 || is_untouched(it, sizeof(type)), #call " without an item"); \
    } while (0)

static void try_values(const uint8_t *bytes, size_t length) {
    const size_t start = random_below(4) ? 0 : random_below(200);
    VALUE(struct sockdiag_vegas_info, sockdiag_get_vegas_info, length >= 16);
    VALUE(struct sockdiag_dctcp_info, sockdiag_get_dctcp_info, length >= 16);
    VALUE(struct sockdiag_bbr_info, sockdiag_get_bbr_info, length >= 20);
    STEPS(uint32_t, sockdiag_next_pending, 4);
    STEPS(struct sockdiag_md5_signature, sockdiag_next_md5_signature, 100);
    STEPS(struct sockdiag_stored_address, sockdiag_next_address, 128);
    STEPS(struct sockdiag_packet_membership, sockdiag_next_membership, 44);
    STEPS(struct sockdiag_filter_instruction, sockdiag_next_instruction, 8);
    VALUE(uint64_t, sockdiag_get_number,
          length == 1 || length == 2 || length == 4 || length == 8);
}

/* The value, with a struct of each size. The value of MPTCP is the same attribute. */
static void try_info(const uint8_t *payload, size_t length) {
    const size_t size = random_below(300);
    struct sockdiag_tcp_info *tcp =
        (struct sockdiag_tcp_info *)(void *)bytes_in(output_area, sizeof *tcp);
    uint8_t *other = bytes_in(buffer_area, size);
    const size_t both = size < sizeof *tcp ? size : sizeof *tcp;
    size_t found = 0, again = 0;
    if (sockdiag_inet_get_tcp_info(payload, length, tcp, sizeof *tcp, &found) != SOCKDIAG_OK) {
        expect(found == 0 && is_untouched(tcp, sizeof *tcp), "no tcp_info");
        return;
    }
    expect(found > 0 && found <= length, "the length of tcp_info");
    expect(found > 232 || (tcp->rcv_wnd == 0 && tcp->ecn_mode == 0 && tcp->options2 == 0),
           "fields after the end of tcp_info");
    expect(sockdiag_inet_get_tcp_info(payload, length, (struct sockdiag_tcp_info *)(void *)other,
                                      size, &again) == SOCKDIAG_OK &&
           again == found && memcmp(tcp, other, both) == 0, "a struct of another size");
    expect(sockdiag_inet_get_mptcp_info(payload, length,
                                        (struct sockdiag_mptcp_info *)(void *)other, size,
                                        &again) == SOCKDIAG_OK &&
           again == found && memcmp(tcp, other, both) == 0, "the connection of MPTCP");
}

static uint32_t try_unix(const uint8_t *payload, size_t length) {
    CALL(header, struct sockdiag_unix_header, sockdiag_check_unix_reply(payload, length, header));
    CALL(it, struct sockdiag_unix_details, sockdiag_unix_get_details(payload, length, it,
                                                                     sizeof *it));
    expect(it_fault == header_fault, "the error of the details of a UNIX reply");
    if (it_fault == SOCKDIAG_OK)
        expect_text(&it->name, payload, length);
    try_explaining(explain_unix, payload, length, it_fault);
    return it_fault;
}

static uint32_t try_inet(const uint8_t *payload, size_t length) {
    CALL(header, struct sockdiag_inet_header, sockdiag_check_inet_reply(payload, length, header));
    CALL(it, struct sockdiag_inet_details, sockdiag_inet_get_details(payload, length, it,
                                                                     sizeof *it));
    expect(it_fault == header_fault, "the error of the details of an internet reply");
    if (it_fault == SOCKDIAG_OK)
        expect_text(&it->congestion, payload, length);
    try_info(payload, length);
    try_explaining(explain_inet, payload, length, it_fault);
    return it_fault;
}

static void try_families(const uint8_t *payload, size_t length) {
    {
        CALL(it, struct sockdiag_netlink_details,
             sockdiag_netlink_get_details(payload, length, it, sizeof *it));
        if (it_fault == SOCKDIAG_OK)
            expect_text(&it->groups, payload, length);
        try_explaining(explain_netlink, payload, length, it_fault);
    }
    {
        CALL(it, struct sockdiag_packet_details, sockdiag_packet_get_details(payload, length, it,
                                                                             sizeof *it));
        if (it_fault == SOCKDIAG_OK) {
            expect_text(&it->memberships, payload, length);
            expect_text(&it->filter, payload, length);
        }
        try_explaining(explain_packet, payload, length, it_fault);
    }
    {
        CALL(it, struct sockdiag_xdp_details, sockdiag_xdp_get_details(payload, length, it,
                                                                       sizeof *it));
        try_explaining(explain_xdp, payload, length, it_fault);
    }
    {
        CALL(it, struct sockdiag_vsock_header, sockdiag_vsock_get_details(payload, length, it,
                                                                          sizeof *it));
        try_explaining(explain_vsock, payload, length, it_fault);
    }
}

/* What a call writes, and stores as its length, belongs to the code that it returns. */
static void expect_written(uint32_t code, size_t written, const uint8_t *buffer, size_t capacity) {
    const size_t done = code == SOCKDIAG_OK ? written : 0;
    expect(code == SOCKDIAG_OK ? written <= capacity
                               : written == 0 || (code == SOCKDIAG_NO_SPACE && written > capacity),
           "the length that is stored");
    expect(is_untouched(buffer + done, capacity - done), "the bytes after what was written");
}

typedef uint32_t rewrite(const uint8_t *, size_t, uint8_t *, size_t, size_t *);

/* Writes the canonical form to a buffer of a random length. `error` is the error of the reply. */
static void try_rewriting(rewrite *call, const uint8_t *payload, size_t length, uint32_t error) {
    static uint8_t again[AREA];
    const size_t capacity = random_below((uint32_t)length + 8);
    uint8_t *buffer = bytes_in(buffer_area, capacity);
    size_t written, other;
    const uint32_t code = call(payload, length, buffer, capacity, &written);
    expect_written(code, written, buffer, capacity);
    expect(code == error || (error == SOCKDIAG_OK && code == SOCKDIAG_NO_SPACE),
           "the error of a canonical form");
    if (code != SOCKDIAG_OK)
        return;
    expect(call(buffer, written, again, sizeof again, &other) == SOCKDIAG_OK &&
               other == written && memcmp(buffer, again, written) == 0,
           "a canonical form is its own canonical form");
}

/* An iteration from a place ends. Its items are in the bytes. */
static void try_attributes(const uint8_t *bytes, size_t length, size_t index) {
    struct sockdiag_cursor cursor;
    struct sockdiag_attribute *it;
    uint32_t answer;
    size_t items = 0;
    cursor.offset = index;
    it = (struct sockdiag_attribute *)(void *)bytes_in(output_area, sizeof *it);
    while ((answer = sockdiag_next_attribute(bytes, length, &cursor, it)) == SOCKDIAG_ITEM)
        expect(++items <= length / 4 && it->offset <= length && it->length <= length - it->offset,
               "an attribute in the bytes");
    expect(answer == SOCKDIAG_END || (answer >= SOCKDIAG_ATTRIBUTE_HEADER_CUT &&
                                      answer <= SOCKDIAG_ATTRIBUTE_LENGTH_PAST),
           "the end of an iteration over attributes");
    expect(items > 0 || is_untouched(it, sizeof *it), "an attribute that is not there");
    expect(sockdiag_next_attribute(bytes, length, &cursor, it) == SOCKDIAG_END, "nothing is left");
}

/* The calls about a message compare its fields. */
static void try_message(const struct sockdiag_message *it) {
    const uint32_t number = it->sequence_number ^ random_below(2), port = it->port_number;
    expect(sockdiag_is_answer(it, number, port) == (number == it->sequence_number) &&
               sockdiag_is_answer(it, it->sequence_number, port ^ 1u << random_below(32)) == 0,
           "an answer");
    expect(sockdiag_is_interrupted(it) == (it->flags >> 4 & 1), "an interrupted dump");
    expect(sockdiag_ends_answer(it) == (it->message_type >> 1 == 1), "the end of an answer");
}

/* Both iterations over messages have the same items. */
static void try_messages(const uint8_t *bytes, size_t length) {
    struct sockdiag_cursor cursor = {0}, checked = {0};
    struct sockdiag_message message, *it;
    uint32_t answer, other;
    size_t items = 0, end = 0;
    it = (struct sockdiag_message *)(void *)bytes_in(buffer_area, sizeof *it);
    while ((answer = sockdiag_next_any_message(bytes, length, &cursor, it)) == SOCKDIAG_ITEM) {
        expect(++items <= length / 16 && it->offset <= length && it->length <= length - it->offset,
               "a message in the bytes");
        try_message(it);
        other = sockdiag_next_message(bytes, length, &checked, &message);
        expect((other == SOCKDIAG_ITEM || (other >= SOCKDIAG_BUFFER_TOO_SMALL &&
                                           other <= SOCKDIAG_NAME_WITHOUT_END)) &&
               message.offset == it->offset && message.length == it->length &&
               checked.offset == cursor.offset, "the same message, checked");
        if (message.message_type == SOCKDIAG_SOCK_DIAG_BY_FAMILY)
            try_explaining(explain_message, bytes + it->offset, it->length,
                           other == SOCKDIAG_ITEM ? SOCKDIAG_OK : other);
        end = cursor.offset;
    }
    expect(answer == SOCKDIAG_END || (answer >= SOCKDIAG_ENVELOPE_CUT &&
                                      answer <= SOCKDIAG_ENVELOPE_LENGTH_PAST),
           "the end of an iteration over messages");
    if (answer != SOCKDIAG_END)
        try_explaining(explain_datagram, bytes + end, length - end, answer);
    expect(sockdiag_next_message(bytes, length, &checked, &message) == answer, "the same end");
}

/* Fills a request with the bytes, as far as there are any. */
#define REQUEST(name, type)          \
    type name;                       \
    memset(&name, 0x55, sizeof name); \
    memcpy(&name, bytes, length < sizeof name ? length : sizeof name)

static void try_requests(const uint8_t *bytes, size_t length) {
    const size_t capacity = random_below(100);
    uint8_t *buffer = bytes_in(buffer_area, capacity);
    REQUEST(unix_request, struct sockdiag_unix_request);
    REQUEST(inet, struct sockdiag_inet_request);
    REQUEST(show, struct sockdiag_show_request);
    size_t written;
    uint32_t code;
    REQUEST(vsock, struct sockdiag_vsock_request);
    inet.family = random_below(4) ? 2 + 8 * (uint8_t)random_below(2) : inet.family;
    show.family = random_below(4) ? 16 + (uint8_t)random_below(2) : show.family;
    code = sockdiag_write_unix_request(&unix_request, buffer, capacity, &written);
    expect_written(code, written, buffer, capacity);
    buffer = bytes_in(buffer_area, capacity);
    code = sockdiag_write_inet_request(&inet, buffer, capacity, &written);
    expect_written(code, written, buffer, capacity);
    buffer = bytes_in(buffer_area, capacity);
    code = sockdiag_write_inet_destroy(&inet, buffer, capacity, &written);
    expect_written(code, written, buffer, capacity);
    buffer = bytes_in(buffer_area, capacity);
    code = sockdiag_write_show_request(&show, buffer, capacity, &written);
    expect_written(code, written, buffer, capacity);
    buffer = bytes_in(buffer_area, capacity);
    code = sockdiag_write_vsock_request(&vsock, buffer, capacity, &written);
    expect_written(code, written, buffer, capacity);
}

static void try_attributes_of_request(const uint8_t *bytes, size_t length) {
    const size_t capacity = random_below((uint32_t)length + 100);
    uint8_t *buffer = bytes_in(buffer_area, capacity);
    size_t written;
    uint32_t code;
    REQUEST(inet, struct sockdiag_inet_request);
    inet.family = random_below(8) ? 2 + 8 * (uint8_t)random_below(2) : 1;
    code = sockdiag_write_inet_request_with_attributes(&inet, bytes, length, buffer, capacity,
                                                       &written);
    expect_written(code, written, buffer, capacity);
    if (inet.family == 1)
        expect(code == SOCKDIAG_UNSUPPORTED_FAMILY, "the error of another family");
    else
        expect(code == SOCKDIAG_OK || code == SOCKDIAG_NO_SPACE ||
                   (code >= SOCKDIAG_ATTRIBUTE_HEADER_CUT &&
                    code <= SOCKDIAG_ATTRIBUTE_LENGTH_PAST),
               "the error of attributes of a request");
}

static void try_error_attributes(const uint8_t *bytes, size_t length) {
    const uint16_t type = (uint16_t)random_below(5), flags = (uint16_t)random_below(1024);
    struct sockdiag_cursor cursor = {length + 1};
    uint32_t found = sockdiag_find_error_attributes(bytes, length, type, flags, &cursor);
    expect(found == SOCKDIAG_OK
               ? cursor.offset >= 4 && cursor.offset <= length
               : found == (type == 2 || type == 3 ? SOCKDIAG_WRONG_LENGTH
                                                  : SOCKDIAG_UNKNOWN_MESSAGE_TYPE) &&
                     cursor.offset == length + 1,
           "the offset of the attributes of an error");
}

/* Parses a text, into a buffer that may be too short. */
static void try_filter(const uint8_t *text, size_t length) {
    const size_t capacity = random_below(64);
    uint8_t *program = bytes_in(buffer_area, capacity);
    struct sockdiag_filter_details *it =
        (struct sockdiag_filter_details *)(void *)bytes_in(output_area, sizeof *it);
    const uint32_t code =
        sockdiag_parse_filter(text, length, program, capacity, it, sizeof *it);
    const int is_filter = code == SOCKDIAG_OK || code == SOCKDIAG_NO_SPACE;
    expect(is_filter || (code >= SOCKDIAG_FILTER_UNEXPECTED && code <= SOCKDIAG_FILTER_TOO_LONG),
           "the code of a filter");
    expect(it->error_offset <= length && (!is_filter || it->error_offset == 0) &&
               (it->error_offset == length) >= (code == SOCKDIAG_FILTER_INCOMPLETE),
           "the offset of an error");
    expect(it->program_length % 4 == 0 && it->program_length <= SOCKDIAG_FILTER_PROGRAM_LENGTH &&
               (it->program_length > capacity) == (code == SOCKDIAG_NO_SPACE) &&
               (is_filter || (it->program_length == 0 && it->states.is_set == 0)),
           "the length of a program");
    if (code != SOCKDIAG_OK)
        expect(is_untouched(program, capacity), "the program of an error");
    else
        expect(is_untouched(program + it->program_length, capacity - it->program_length),
               "the bytes after a program");
}

/* Parses up to eight random words. */
static void try_words(void) {
    static const char *const words[] = {
        "state ", "exclude ", "listening ", "all ", "sport ", "dport ", "src ", "dst ", "dev ",
        "= ", ">= ", "!= ", "( ", ") ", "! ", "and ", "or ", ":443 ", "1 ", "10.0.0.0/8:53 ",
        "[::1]:0 ", "autobound ", "fwmark ", "0x1/0x3 ", "cgroup ", "x ", "\n",
    };
    char text[8 * 16] = "";
    uint32_t count = random_below(9);
    size_t length;
    uint8_t *copy;
    while (count-- > 0)
        strcat(text, words[random_below(sizeof words / sizeof *words)]);
    length = strlen(text);
    copy = bytes_in(input_area, length);
    memcpy(copy, text, length);
    try_filter(copy, length);
}

static void try_all(const uint8_t *bytes, size_t length) {
    int32_t *number = (int32_t *)(void *)bytes_in(output_area, sizeof *number);
    const uint16_t type = random_below(8) ? SOCKDIAG_SOCK_DIAG_BY_FAMILY : (uint16_t)length;
    expect(sockdiag_get_error_number(bytes, length, number) ==
               (length >= 4 ? SOCKDIAG_OK : SOCKDIAG_WRONG_LENGTH),
           "an error number");
    expect(length >= 4 || is_untouched(number, sizeof *number), "no error number");
    {
        CALL(it, struct sockdiag_reply, sockdiag_check_message(bytes, length, type, it));
        expect(it_fault != SOCKDIAG_OK || it->kind == SOCKDIAG_UNIX || it->kind == SOCKDIAG_INET,
               "the kind of a reply");
    }
    try_rewriting(sockdiag_rewrite_unix_reply, bytes, length, try_unix(bytes, length));
    try_rewriting(sockdiag_rewrite_inet_reply, bytes, length, try_inet(bytes, length));
    try_families(bytes, length);
    try_attributes(bytes, length, random_below(80));
    try_messages(bytes, length);
    try_values(bytes, length);
    try_values(bytes, length % 25);
    try_error_attributes(bytes, length);
    try_requests(bytes, length);
    try_attributes_of_request(bytes, length);
    try_filter(bytes, length);
    try_words();
}

int main(int argc, char **argv) {
    static uint8_t copy[AREA / 2];
    unsigned long count;
    if (argc < 3 || argc > 4)
        return fputs("usage: fuzz_c COUNT CAPTURE [SEED]\n", stderr), 2;
    first_state = state = argc > 3 ? strtoull(argv[3], NULL, 10) : 1;
    input_area = new_area(AREA);
    output_area = new_area(AREA);
    buffer_area = new_area(AREA);
    expect(input_area != NULL && output_area != NULL && buffer_area != NULL, "three areas");
    read_capture(argv[2]);
    expect(state != 0, "a seed above 0");
    for (count = strtoul(argv[1], NULL, 10); count > 0; count--) {
        const struct sample *sample = &samples[random_below((uint32_t)sample_count)];
        size_t length = sample->length;
        uint32_t changes;
        uint8_t *input;
        memcpy(copy, sample->bytes, length);
        for (changes = random_below(5); changes > 0; changes--)
            length = change(copy, length);
        input = bytes_in(input_area, length);
        memcpy(input, copy, length);
        try_all(input, length);
    }
    printf("fuzz_c: %s inputs, seed %llu\n", argv[1], (unsigned long long)first_state);
    return 0;
}

/*
 * cost: counts the instructions of each call of include/sockdiag.h, and checks that they are at
 * most linear in the length of its input. Inputs of several forms have 8 KiB and 64 KiB: many small
 * attributes, many rejected ones, one long text, list or array, and many messages. The longer input
 * may take MOST_FACTOR times as many instructions as the shorter one, where linear work is 8 times
 * and quadratic work 64 times. tests/api/c_api.sh runs this program under callgrind, which counts;
 * its argument is the start of the names of the files that callgrind writes. The status is 1 if a
 * call takes more.
 */
#include "check.h"

#include <valgrind/callgrind.h>

#define SHORT ((size_t)8 << 10)
#define LONG ((size_t)64 << 10)
#define MOST_FACTOR 16

static uint8_t input[LONG], output[LONG + 128];
static volatile uint64_t sink;

/* ---- forms of inputs */

typedef void fill(uint8_t *bytes, size_t length);

/* Fills the bytes from an offset with attributes of this length, a multiple of 4. */
static void put_many(uint8_t *bytes, size_t at, size_t end, size_t length, uint16_t kind) {
    memset(bytes, 0, end);
    for (; at + length <= end; at += length)
        put_header(bytes + at, length, kind);
}

/* Puts one attribute with as many bytes as its length field permits, each of them `byte`. */
static void put_one(uint8_t *bytes, size_t at, size_t end, int byte, uint16_t kind) {
    memset(bytes, 0, at);
    memset(bytes + at, byte, end - at);
    put_header(bytes + at, end - at, kind);
}

/* A reply of a family with attributes from an offset on, by put_many or put_one. */
#define REPLY(name, family, at, put, argument, kind)         \
    static void name(uint8_t *bytes, size_t length) {         \
        put(bytes, at, length, argument, kind);              \
        bytes[0] = family;                                   \
    }

REPLY(unix_empty, 1, SOCKDIAG_UNIX_ATTRIBUTES, put_many, 4, 99)
REPLY(unix_peers, 1, SOCKDIAG_UNIX_ATTRIBUTES, put_many, 8, SOCKDIAG_UNIX_DIAG_PEER)
REPLY(unix_rejected, 1, SOCKDIAG_UNIX_ATTRIBUTES, put_many, 4, SOCKDIAG_UNIX_DIAG_NAME)
REPLY(unix_text, 1, SOCKDIAG_UNIX_ATTRIBUTES, put_one, 'a', SOCKDIAG_UNIX_DIAG_NAME)
REPLY(unix_pending, 1, SOCKDIAG_UNIX_ATTRIBUTES, put_one, 1, SOCKDIAG_UNIX_DIAG_ICONS)
REPLY(inet_empty, 2, SOCKDIAG_INET_ATTRIBUTES, put_many, 4, 99)
REPLY(inet_marks, 2, SOCKDIAG_INET_ATTRIBUTES, put_many, 8, SOCKDIAG_INET_DIAG_MARK)
REPLY(inet_rejected, 2, SOCKDIAG_INET_ATTRIBUTES, put_many, 4, SOCKDIAG_INET_DIAG_INFO)
REPLY(inet_text, 2, SOCKDIAG_INET_ATTRIBUTES, put_one, 'a', SOCKDIAG_INET_DIAG_CONG)
REPLY(netlink_empty, 16, SOCKDIAG_NETLINK_ATTRIBUTES, put_many, 4, 99)
REPLY(netlink_rejected, 16, SOCKDIAG_NETLINK_ATTRIBUTES, put_many, 4, 4)
REPLY(packet_rejected, 17, SOCKDIAG_PACKET_ATTRIBUTES, put_many, 4, 2)
REPLY(packet_text, 17, SOCKDIAG_PACKET_ATTRIBUTES, put_one, 'a', 7)
REPLY(vsock_empty, 40, SOCKDIAG_VSOCK_ATTRIBUTES, put_many, 4, 99)
REPLY(xdp_rejected, 44, SOCKDIAG_XDP_ATTRIBUTES, put_many, 4, 9)

static void unix_path(uint8_t *bytes, size_t length) {
    unix_text(bytes, length);
    bytes[length - 1] = 0;
}

/* A framing error after small attributes: the length field of the last one is under 4. */
static void unix_cut(uint8_t *bytes, size_t length) {
    unix_empty(bytes, length);
    put_header(bytes + length - 4, 3, 0);
}

static void many_messages(uint8_t *bytes, size_t length) {
    size_t at;
    memset(bytes, 0, length);
    for (at = 0; at + 16 <= length; at += 16)
        bytes[at] = 16, bytes[at + 4] = SOCKDIAG_NLMSG_NOOP;
}

static void one_message(uint8_t *bytes, size_t length) {
    unix_empty(bytes + 16, length - 16);
    memset(bytes, 0, 16);
    bytes[1] = (uint8_t)(length >> 8);
    bytes[2] = (uint8_t)(length >> 16);
    bytes[4] = SOCKDIAG_SOCK_DIAG_BY_FAMILY;
}

static void attributes(uint8_t *bytes, size_t length) {
    put_many(bytes, 0, length, 4, 99);
}

static void value(uint8_t *bytes, size_t length) {
    memset(bytes, 1, length);
}

static void spaces(uint8_t *bytes, size_t length) {
    memset(bytes, ' ', length);
}

/* ---- calls */

typedef void run(const uint8_t *bytes, size_t length);

static void check_message(const uint8_t *bytes, size_t length) {
    struct sockdiag_reply reply;
    sink += sockdiag_check_message(bytes, length, SOCKDIAG_SOCK_DIAG_BY_FAMILY, &reply);
}

static void tcp_info(const uint8_t *bytes, size_t length) {
    struct sockdiag_tcp_info info;
    size_t found;
    sink += sockdiag_inet_get_tcp_info(bytes, length, &info, sizeof info, &found);
}

static void mptcp_info(const uint8_t *bytes, size_t length) {
    struct sockdiag_mptcp_info info;
    size_t found;
    sink += sockdiag_inet_get_mptcp_info(bytes, length, &info, sizeof info, &found);
}

static void find_error_attributes(const uint8_t *bytes, size_t length) {
    struct sockdiag_cursor cursor = {0};
    sink += sockdiag_find_error_attributes(bytes, length, SOCKDIAG_NLMSG_ERROR,
                                           SOCKDIAG_NLM_F_ACK_TLVS, &cursor);
}

/* All errors of a reply: each attribute is explained from its offset on. */
static void explain_each(const uint8_t *bytes, size_t length) {
    struct sockdiag_error_details error;
    struct sockdiag_attribute attribute;
    struct sockdiag_cursor cursor = {SOCKDIAG_UNIX_ATTRIBUTES};
    size_t start = cursor.offset;
    while (sockdiag_next_attribute(bytes, length, &cursor, &attribute) == SOCKDIAG_ITEM) {
        sink += explain_unix_attribute(bytes + start, length - start, &error);
        start = cursor.offset;
    }
}

static void write_request(const uint8_t *bytes, size_t length) {
    struct sockdiag_inet_request request;
    size_t written;
    memset(&request, 0, sizeof request);
    request.family = 2;
    sink += sockdiag_write_inet_request_with_attributes(&request, bytes, length, output,
                                                        sizeof output, &written);
}

static void write_requests(const uint8_t *bytes, size_t length) {
    struct sockdiag_unix_request unix_request;
    struct sockdiag_inet_request inet;
    struct sockdiag_show_request show;
    struct sockdiag_vsock_request vsock;
    size_t written;
    (void)bytes;
    memset(&unix_request, 0, sizeof unix_request);
    memset(&inet, 0, sizeof inet);
    memset(&show, 0, sizeof show);
    memset(&vsock, 0, sizeof vsock);
    inet.family = 2;
    show.family = 16;
    sink += sockdiag_write_unix_request(&unix_request, output, length, &written);
    sink += sockdiag_write_inet_request(&inet, output, length, &written);
    sink += sockdiag_write_inet_destroy(&inet, output, length, &written);
    sink += sockdiag_write_show_request(&show, output, length, &written);
    sink += sockdiag_write_vsock_request(&vsock, output, length, &written);
    sink += sockdiag_version();
}

static void parse_filter(const uint8_t *bytes, size_t length) {
    struct sockdiag_filter_details filter;
    sink += sockdiag_parse_filter(bytes, length, output, sizeof output, &filter, sizeof filter);
}

/* Each row has a call, the type of what it stores, which is not read, and forms of inputs. */
#define ROWS(STRUCT, DETAILS, LENIENT, WALK, REWRITE, OTHER)                                    \
    STRUCT(sockdiag_check_unix_reply, struct sockdiag_unix_header, unix_empty, unix_peers,      \
           unix_path, unix_pending, unix_cut)                                                   \
    STRUCT(sockdiag_check_inet_reply, struct sockdiag_inet_header, inet_empty, inet_marks,      \
           inet_text)                                                                           \
    OTHER(check_message, , inet_empty, inet_marks, inet_text)                                   \
    DETAILS(sockdiag_unix_get_details, struct sockdiag_unix_details, unix_empty, unix_peers,    \
           unix_path, unix_pending, unix_cut)                                                   \
    DETAILS(sockdiag_inet_get_details, struct sockdiag_inet_details, inet_empty, inet_marks,    \
           inet_text)                                                                           \
    DETAILS(sockdiag_netlink_get_details, struct sockdiag_netlink_details, netlink_empty)       \
    DETAILS(sockdiag_packet_get_details, struct sockdiag_packet_details, unix_empty)            \
    DETAILS(sockdiag_vsock_get_details, struct sockdiag_vsock_header, vsock_empty)              \
    DETAILS(sockdiag_xdp_get_details, struct sockdiag_xdp_details, unix_empty)                  \
    LENIENT(sockdiag_unix_get_lenient_details, struct sockdiag_unix_details, unix_empty,        \
            unix_peers, unix_path, unix_pending, unix_rejected, unix_cut)                       \
    LENIENT(sockdiag_inet_get_lenient_details, struct sockdiag_inet_details, inet_empty,        \
            inet_marks, inet_text, inet_rejected)                                               \
    LENIENT(sockdiag_netlink_get_lenient_details, struct sockdiag_netlink_details,              \
            netlink_empty, netlink_rejected)                                                    \
    LENIENT(sockdiag_packet_get_lenient_details, struct sockdiag_packet_details, unix_empty,    \
            packet_rejected, packet_text, unix_cut)                                             \
    LENIENT(sockdiag_vsock_get_lenient_details, struct sockdiag_vsock_header, vsock_empty)      \
    LENIENT(sockdiag_xdp_get_lenient_details, struct sockdiag_xdp_details, unix_empty,          \
            xdp_rejected, unix_cut)                                                             \
    OTHER(tcp_info, , inet_empty, inet_rejected)                                                \
    OTHER(mptcp_info, , inet_empty, inet_rejected)                                              \
    STRUCT(sockdiag_get_error_number, int32_t, value)                                           \
    STRUCT(sockdiag_get_vegas_info, struct sockdiag_vegas_info, value)                          \
    STRUCT(sockdiag_get_dctcp_info, struct sockdiag_dctcp_info, value)                          \
    STRUCT(sockdiag_get_bbr_info, struct sockdiag_bbr_info, value)                              \
    STRUCT(explain_unix, struct sockdiag_error_details, unix_empty, unix_peers,        \
           unix_path, unix_pending, unix_cut)                                                   \
    STRUCT(explain_inet, struct sockdiag_error_details, inet_empty, inet_marks,        \
           inet_text, inet_rejected)                                                            \
    STRUCT(explain_netlink, struct sockdiag_error_details, netlink_empty)              \
    STRUCT(explain_packet, struct sockdiag_error_details, unix_empty, unix_cut)        \
    STRUCT(explain_vsock, struct sockdiag_error_details, vsock_empty)                  \
    STRUCT(explain_xdp, struct sockdiag_error_details, unix_empty, unix_cut)           \
    STRUCT(explain_message, struct sockdiag_error_details, inet_empty, inet_marks, inet_text)   \
    STRUCT(explain_datagram, struct sockdiag_error_details, many_messages, one_message) \
    STRUCT(explain_unix_attribute, struct sockdiag_error_details, attributes, value)   \
    STRUCT(explain_inet_attribute, struct sockdiag_error_details, attributes, value)   \
    OTHER(find_error_attributes, , value)                                                       \
    OTHER(explain_each, , unix_empty, unix_rejected, unix_path)                                 \
    WALK(sockdiag_next_attribute, struct sockdiag_attribute, attributes)                        \
    WALK(sockdiag_next_message, struct sockdiag_message, many_messages, one_message)            \
    WALK(sockdiag_next_any_message, struct sockdiag_message, many_messages, one_message)        \
    WALK(sockdiag_next_pending, uint32_t, value)                                                \
    WALK(sockdiag_next_md5_signature, struct sockdiag_md5_signature, value)                     \
    WALK(sockdiag_next_address, struct sockdiag_stored_address, value)                          \
    WALK(sockdiag_next_membership, struct sockdiag_packet_membership, value)                    \
    WALK(sockdiag_next_instruction, struct sockdiag_filter_instruction, value)                  \
    REWRITE(sockdiag_rewrite_unix_reply, , unix_empty, unix_peers, unix_path, unix_pending)     \
    REWRITE(sockdiag_rewrite_inet_reply, , inet_empty, inet_marks, inet_text)                   \
    OTHER(parse_filter, , spaces, value)                                                        \
    OTHER(write_request, , attributes)                                                          \
    OTHER(write_requests, , value)

/* Defines a function that calls `call` with the whole input. An iteration calls it for each item,
 * and OTHER is for a function that is defined above. */
#define RUN_STRUCT(call, type, ...)                                     \
    static void run_##call(const uint8_t *bytes, size_t length) {        \
        type it;                                                        \
        sink += call(bytes, length, &it);                               \
    }
#define RUN_DETAILS(call, type, ...)                                    \
    static void run_##call(const uint8_t *bytes, size_t length) {        \
        type it;                                                        \
        sink += call(bytes, length, &it, sizeof it);                    \
    }
#define RUN_LENIENT(call, type, ...)                                    \
    static void run_##call(const uint8_t *bytes, size_t length) {        \
        type it;                                                        \
        struct sockdiag_rejections rejections;                          \
        sink += call(bytes, length, &it, sizeof it, &rejections);       \
    }
#define RUN_WALK(call, type, ...)                                       \
    static void run_##call(const uint8_t *bytes, size_t length) {        \
        struct sockdiag_cursor cursor = {0};                            \
        type it;                                                        \
        while (call(bytes, length, &cursor, &it) == SOCKDIAG_ITEM)      \
            sink += cursor.offset;                                      \
    }
#define RUN_REWRITE(call, type, ...)                                    \
    static void run_##call(const uint8_t *bytes, size_t length) {        \
        size_t written;                                                 \
        sink += call(bytes, length, output, sizeof output, &written);   \
    }
#define RUN_OTHER(call, type, ...)
ROWS(RUN_STRUCT, RUN_DETAILS, RUN_LENIENT, RUN_WALK, RUN_REWRITE, RUN_OTHER)

#define ROW(call, type, ...) {#call, run_##call, {__VA_ARGS__}},
#define OTHER_ROW(call, type, ...) {#call, call, {__VA_ARGS__}},
static const struct {
    const char *name;
    run *call;
    fill *forms[6];
} rows[] = {ROWS(ROW, ROW, ROW, ROW, ROW, OTHER_ROW)};

/* Returns the number of instructions that callgrind has written to its file with this number. */
static uint64_t count_in(const char *start, int number) {
    char name[4096], line[4096];
    unsigned long long count = 0;
    FILE *file;
    snprintf(name, sizeof name, "%s.%d", start, number);
    file = fopen(name, "r");
    while (file != NULL && fgets(line, sizeof line, file) != NULL)
        sscanf(line, "totals: %llu", &count);
    if (file != NULL)
        fclose(file);
    return count;
}

/* Returns the number of instructions of a call with an input of this length, but at least the
 * length: memcpy copies several bytes by an instruction, and a long input byte by byte. Returns 0
 * if nothing is counted. */
static uint64_t measure(run *call, fill *form, size_t length, const char *start) {
    static int number;
    uint64_t count;
    form(input, length);
    CALLGRIND_ZERO_STATS;
    call(input, length);
    CALLGRIND_DUMP_STATS;
    count = count_in(start, ++number);
    return count > 0 && count < length ? length : count;
}

int main(int count, char **arguments) {
    double worst = 0;
    size_t row, form;
    int failed = 0;
    if (count != 2)
        return 2;
    for (row = 0; row < sizeof rows / sizeof *rows; row++) {
        for (form = 0; form < 6 && rows[row].forms[form] != NULL; form++) {
            fill *fill = rows[row].forms[form];
            const uint64_t few = measure(rows[row].call, fill, SHORT - 4, arguments[1]);
            const uint64_t many = measure(rows[row].call, fill, LONG - 4, arguments[1]);
            const double factor = few == 0 ? MOST_FACTOR + 1.0 : (double)many / (double)few;
            if (factor > worst)
                worst = factor;
            if (factor <= MOST_FACTOR)
                continue;
            fprintf(stderr, "cost: %s takes %llu and, for 8 times the bytes, %llu instructions\n",
                    rows[row].name, (unsigned long long)few, (unsigned long long)many);
            failed = 1;
        }
    }
    printf("cost: at most %.1f times as many instructions for 8 times the bytes\n", worst);
    return failed;
}

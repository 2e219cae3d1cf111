/*
 * Calls the functions of two sections of include/sockdiag.h, "values of single attributes" and
 * "errors with their fields", with input that they accept and input that they reject. Each field of
 * each struct is compared with bytes that no other field has, and what a call leaves unchanged with
 * its contents before. The expected numbers are worked out by hand from sock_diag(7) and the
 * kernel's headers. tests/api/compare_replies.sh tests the details of replies. tests/api/c_api.sh
 * builds and runs this program.
 */
#include "check.h"

#include "../../examples/dump.h"

/* The header of a reply about a UNIX socket in state 10 with the inode 78, and of one about an IPv4
 * socket with the inode 12345. */
static const uint8_t unix_header[16] = {1, 1, 10, 0, 78, 0, 0, 0, 1, 2, 3, 4, 5, 6, 7, 8};
static const uint8_t inet_header[72] = {
    2, 1, 0, 0, 0, 80, 0, 0, 0, 0, 0, 0, 0, 0, 0, 0, 0, 0, 0, 0, 0, 0, 0, 0, 0, 0, 0, 0, 0, 0, 0, 0,
    0, 0, 0, 0, 0, 0, 0, 0, 0, 0, 0, 0, 0, 0, 0, 0, 0, 0, 0, 0, 0, 0, 0, 0, 0, 0, 0, 0, 0, 0, 0, 0,
    0, 0, 0, 0, 0x39, 0x30, 0, 0,
};

/* The rejections have this code for this kind, and none for another kind. */
static int has_one(const struct sockdiag_rejections *it, uint32_t kind, uint32_t code) {
    uint32_t other;
    for (other = 0; other < SOCKDIAG_REJECTION_KINDS; other++)
        if (it->errors[other] != (other == kind ? code : 0))
            return 0;
    return it->first == code && it->framing == 0;
}

/* An error with these fields. `kind` is below 0 if there is none. */
struct expected {
    uint32_t code, record_name, family;
    int kind;
    size_t got, need, length, index;
};

/* Errors by the fields that they have, and no error. */
#define NO_ERROR {SOCKDIAG_OK, 0, 0, -1, 0, 0, 0, 0}
#define LENGTHS(code, got, length) {code, 0, 0, -1, got, 0, length, 0}
#define OTHER(code, family) {code, 0, family, -1, 0, 0, 0, 0}
#define WRONG(kind, got, need) {SOCKDIAG_WRONG_LENGTH, 0, 0, kind, got, need, 0, 0}
#define SMALL(record, got, need) {SOCKDIAG_BUFFER_TOO_SMALL, record, 0, -1, got, need, 0, 0}
#define SMALL_OF(record, family, kind, got, need) \
    {SOCKDIAG_BUFFER_TOO_SMALL, record, family, kind, got, need, 0, 0}

typedef uint32_t explain(const uint8_t *, size_t, struct sockdiag_error_details *);

/* The call returns the code for these bytes, and stores the error with its fields, or nothing if
 * there is no error. */
static void check_error(explain *call, const uint8_t *bytes, size_t length,
                        const struct expected *expected, const char *what) {
    struct sockdiag_error_details it;
    const uint32_t is_set = expected->kind >= 0;
    memset(&it, UNTOUCHED, sizeof it);
    check(call(bytes, length, &it) == expected->code, what);
    if (expected->code == SOCKDIAG_OK) {
        check(is_untouched(&it, sizeof it), what);
        return;
    }
    check(it.code == expected->code && it.record_name == expected->record_name &&
          it.family == expected->family, what);
    check(it.kind.is_set == is_set && it.kind.value == (is_set ? (uint32_t)expected->kind : 0),
          what);
    check(it.got == expected->got && it.need == expected->need &&
          it.length == expected->length && it.index == expected->index, what);
}

#define EXPLAINS(call, bytes, length, ...)                                             \
    do {                                                                               \
        const struct expected expected = __VA_ARGS__;                                  \
        check_error(call, bytes, length, &expected, #call ", " #length ": " #__VA_ARGS__); \
    } while (0)

/* The first error of a kind, the first of all, and the framing error. */
static void has_the_first_errors(void) {
    uint8_t bytes[128];
    struct sockdiag_unix_details it;
    struct sockdiag_rejections rejections;
    size_t end;
    memcpy(bytes, unix_header, 16);
    end = put(bytes, 16, 6, "\3", 1);
    end = put(bytes, end, 5, "", 0);
    end = put(bytes, end, 0, "/a", 2);
    end = put(bytes, end, 0, "", 0);
    end = put(bytes, end, 99, "", 0);
    memcpy(bytes + end, "\3\0\2\0\0", 5);
    end += 5;
    check(sockdiag_unix_get_lenient_details(bytes, end, &it, sizeof it, &rejections) == SOCKDIAG_OK,
          "a reply with three rejected attributes");
    check(rejections.first == SOCKDIAG_BUFFER_TOO_SMALL, "the first error");
    check(rejections.framing == SOCKDIAG_ATTRIBUTE_LENGTH_UNDER_4, "the framing error");
    check(rejections.errors[5] == SOCKDIAG_BUFFER_TOO_SMALL &&
          rejections.errors[0] == SOCKDIAG_NAME_WITHOUT_END && rejections.errors[6] == 0 &&
          rejections.errors[2] == 0, "the first error of each kind");
    check(it.name.kind == 0 && is(it.shutdown, 3), "what is valid");
    check(sockdiag_unix_get_lenient_details(bytes, 16 + 8 + 3, &it, sizeof it, &rejections) ==
          SOCKDIAG_OK &&
          rejections.first == SOCKDIAG_ATTRIBUTE_HEADER_CUT &&
          rejections.framing == SOCKDIAG_ATTRIBUTE_HEADER_CUT && is(it.shutdown, 3),
          "a framing error by itself");
    check(sockdiag_unix_get_lenient_details(bytes, 16, &it, sizeof it, &rejections) ==
          SOCKDIAG_OK &&
          has_one(&rejections, 0, 0) && it.shutdown.is_set == 0, "a header by itself");
}

/* Each field of struct sockdiag_tcp_info after snd_wnd, the last one of Linux 5.4. */
static void check_later_fields(const struct sockdiag_tcp_info *it, const uint8_t *bytes) {
    FIELD(it->rcv_wnd, bytes + 232);
    FIELD(it->rehash, bytes + 236);
    FIELD(it->total_rto, bytes + 240);
    FIELD(it->total_rto_recoveries, bytes + 242);
    FIELD(it->total_rto_time, bytes + 244);
    FIELD(it->received_ce, bytes + 248);
    FIELD(it->delivered_e1_bytes, bytes + 252);
    FIELD(it->delivered_e0_bytes, bytes + 256);
    FIELD(it->delivered_ce_bytes, bytes + 260);
    FIELD(it->received_e1_bytes, bytes + 264);
    FIELD(it->received_e0_bytes, bytes + 268);
    FIELD(it->received_ce_bytes, bytes + 272);
    check(it->ecn_mode == (bytes[276] & 3), "the ECN mode");
    check(it->accecn_opt_seen == (bytes[276] >> 2 & 3), "the options of accurate ECN");
    check(it->accecn_fail_mode == bytes[276] >> 4, "the failures of accurate ECN");
    check(it->options2 == number_at(bytes + 277, 3), "the other bits");
}

/* The last four bytes of struct tcp_info, as Linux 7.2 sends them for a connection with ECN as in
 * RFC 3168, for one with accurate ECN, and for one that is not established yet; then with failures
 * and other bits; and the numbers that they contain. */
static void reads_bit_fields(void) {
    static const struct {
        uint8_t bytes[4];
        uint32_t ecn_mode, accecn_opt_seen, accecn_fail_mode, options2;
    } rows[] = {
        {{0x00, 0, 0, 0}, 0, 0, 0, 0},
        {{0x01, 0, 0, 0}, 1, 0, 0, 0},
        {{0x0a, 0, 0, 0}, 2, 2, 0, 0},
        {{0x03, 0, 0, 0}, 3, 0, 0, 0},
        {{0xf0, 0, 0, 0}, 0, 0, 15, 0},
        {{0x96, 0x34, 0x12, 0x80}, 2, 1, 9, 0x801234},
    };
    uint8_t payload[400], value[280];
    size_t row;
    memcpy(payload, inet_header, 72);
    number_bytes(value, sizeof value);
    for (row = 0; row < sizeof rows / sizeof rows[0]; row++) {
        struct sockdiag_tcp_info it;
        size_t end, found;
        memcpy(value + 276, rows[row].bytes, 4);
        memset(&it, UNTOUCHED, sizeof it);
        end = put(payload, 72, 2, value, 280);
        check(sockdiag_inet_get_tcp_info(payload, end, &it, sizeof it, &found) == SOCKDIAG_OK &&
              found == 280, "280 bytes of tcp_info");
        check(it.ecn_mode == rows[row].ecn_mode &&
              it.accecn_opt_seen == rows[row].accecn_opt_seen &&
              it.accecn_fail_mode == rows[row].accecn_fail_mode &&
              it.options2 == rows[row].options2, "the bit fields of tcp_info");
    }
}

/* A value that ends within a field: the bytes that are there are copied, and the other ones are 0.
 */
static void reads_a_part_of_a_field(void) {
    uint8_t payload[100], value[10];
    struct sockdiag_tcp_info tcp;
    struct sockdiag_mptcp_info mptcp;
    size_t end, length, other;
    memcpy(payload, inet_header, 72);
    memset(value, 0xff, sizeof value);
    end = put(payload, 72, 2, value, sizeof value);
    memset(&tcp, UNTOUCHED, sizeof tcp);
    memset(&mptcp, UNTOUCHED, sizeof mptcp);
    check(sockdiag_inet_get_tcp_info(payload, end, &tcp, sizeof tcp, &length) == SOCKDIAG_OK &&
          sockdiag_inet_get_mptcp_info(payload, end, &mptcp, sizeof mptcp, &other) ==
              SOCKDIAG_OK && length == 10 && other == 10, "a value of 10 bytes");
    check(tcp.delivery_rate_app_limited == 0xff && tcp.rto == 0xffff && tcp.ato == 0,
          "a part of a field of tcp_info");
    check(mptcp.flags == 0xffff && mptcp.token == 0, "a part of a field of mptcp_info");
    check(SOCKDIAG_HAS(length, tcp, delivery_rate_app_limited) && !SOCKDIAG_HAS(length, tcp, rto) &&
          !SOCKDIAG_HAS(length, tcp, ato) && SOCKDIAG_HAS(length, mptcp, add_addr_accepted_max) &&
          !SOCKDIAG_HAS(length, mptcp, flags), "whether a value of 10 bytes has a field");
    check(SOCKDIAG_HAS(12, tcp, rto) && !SOCKDIAG_HAS(11, tcp, rto), "whether a field is whole");
}

/* Values of several lengths, each with structs of several sizes: of an older header, of this one,
 * and of a newer one. */
static void reads_tcp_info(void) {
    const size_t lengths[8] = {1, 104, 224, 232, 248, 279, 280, 290};
    const size_t sizes[6] = {0, 1, 232, 279, 280, 300};
    uint8_t bytes[400], value[300];
    size_t row, column;
    memcpy(bytes, inet_header, 72);
    number_bytes(value, sizeof value);
    for (row = 0; row < 8; row++) {
        struct sockdiag_tcp_info it;
        uint8_t padded[300];
        const size_t length = lengths[row], end = put(bytes, 72, 2, value, length);
        size_t found;
        memset(padded, 0, sizeof padded);
        memcpy(padded, value, length);
        memset(&it, UNTOUCHED, sizeof it);
        check(sockdiag_inet_get_tcp_info(bytes, end, &it, sizeof it, &found) == SOCKDIAG_OK &&
              found == length, "a length of tcp_info");
        check(memcmp(&it, padded, 280) == 0, "the bytes of tcp_info");
        check_later_fields(&it, padded);
        check(it.rto == (length >= 12 ? 0x0b0a0908 : 0) && it.state == value[0], "two fields");
        for (column = 0; column < 6; column++) {
            union {
                struct sockdiag_tcp_info info;
                uint8_t bytes[304];
            } area;
            const size_t size = sizes[column];
            memset(&area, UNTOUCHED, sizeof area);
            check(sockdiag_inet_get_tcp_info(bytes, end, &area.info, size, &found) ==
                      SOCKDIAG_OK && found == length, "a struct of another size");
            check(memcmp(area.bytes, padded, size) == 0 && area.bytes[size] == UNTOUCHED,
                  "the bytes of a struct of another size");
        }
    }
    {
        struct sockdiag_tcp_info it;
        size_t found = 7;
        memset(&it, UNTOUCHED, sizeof it);
        check(sockdiag_inet_get_tcp_info(inet_header, 72, &it, sizeof it, &found) ==
                  SOCKDIAG_END && found == 7 && is_untouched(&it, sizeof it), "no tcp_info");
        check(sockdiag_inet_get_tcp_info(NULL, 0, NULL, 0, &found) == SOCKDIAG_END,
              "null pointers");
    }
}

/* Each field of struct sockdiag_mptcp_info, at its offset in struct mptcp_info. */
static void check_mptcp_info(const struct sockdiag_mptcp_info *it, const uint8_t *bytes) {
    FIELD(it->subflows, bytes);
    FIELD(it->add_addr_signal, bytes + 1);
    FIELD(it->add_addr_accepted, bytes + 2);
    FIELD(it->subflows_max, bytes + 3);
    FIELD(it->add_addr_signal_max, bytes + 4);
    FIELD(it->add_addr_accepted_max, bytes + 5);
    FIELD(it->flags, bytes + 8);
    FIELD(it->token, bytes + 12);
    FIELD(it->write_seq, bytes + 16);
    FIELD(it->snd_una, bytes + 24);
    FIELD(it->rcv_nxt, bytes + 32);
    FIELD(it->local_addr_used, bytes + 40);
    FIELD(it->local_addr_max, bytes + 41);
    FIELD(it->csum_enabled, bytes + 42);
    FIELD(it->retransmits, bytes + 44);
    FIELD(it->bytes_retrans, bytes + 48);
    FIELD(it->bytes_sent, bytes + 56);
    FIELD(it->bytes_received, bytes + 64);
    FIELD(it->bytes_acked, bytes + 72);
    FIELD(it->subflows_total, bytes + 80);
    FIELD(it->endp_laminar_max, bytes + 81);
    FIELD(it->endp_fullmesh_max, bytes + 82);
    FIELD(it->last_data_sent, bytes + 84);
    FIELD(it->last_data_recv, bytes + 88);
    FIELD(it->last_ack_recv, bytes + 92);
}

static void reads_mptcp_info(void) {
    uint8_t bytes[200], value[100];
    const size_t lengths[8] = {1, 40, 47, 48, 80, 95, 96, 100};
    size_t row;
    memcpy(bytes, inet_header, 72);
    number_bytes(value, sizeof value);
    for (row = 0; row < 8; row++) {
        struct sockdiag_mptcp_info it;
        uint8_t padded[96];
        const size_t length = lengths[row], end = put(bytes, 72, 2, value, length);
        size_t found;
        memset(padded, 0, sizeof padded);
        memcpy(padded, value, length < 96 ? length : 96);
        memset(&it, UNTOUCHED, sizeof it);
        check(sockdiag_inet_get_mptcp_info(bytes, end, &it, sizeof it, &found) == SOCKDIAG_OK &&
              found == length, "a length of mptcp_info");
        check(memcmp(&it, padded, 96) == 0, "the bytes of mptcp_info");
        check_mptcp_info(&it, padded);
    }
    {
        const size_t end = put(bytes, 72, 2, value, 0);
        struct sockdiag_mptcp_info it;
        size_t found = 7;
        memset(&it, UNTOUCHED, sizeof it);
        check(sockdiag_inet_get_mptcp_info(bytes, end, &it, sizeof it, &found) == SOCKDIAG_END &&
              found == 7 && is_untouched(&it, sizeof it), "an empty mptcp_info");
        check(sockdiag_inet_get_mptcp_info(NULL, 0, &it, sizeof it, &found) == SOCKDIAG_END,
              "no mptcp_info at a null pointer");
    }
}

/* Calls a getter with each length up to 24 of a value. It accepts lengths from `least` to `most`,
 * and leaves the target unchanged otherwise. */
#define GETTER(it, type, call, least, most)                                                      \
    type it;                                                                                     \
    do {                                                                                         \
        size_t length_;                                                                          \
        for (length_ = 0; length_ <= 24; length_++) {                                            \
            const uint32_t accepted = length_ >= (least) && length_ <= (most);                   \
            memset(&it, UNTOUCHED, sizeof it);                                                   \
            check(call(bytes, length_, &it) ==                                                   \
                      (accepted ? SOCKDIAG_OK : SOCKDIAG_WRONG_LENGTH), #call);                  \
            check(accepted || is_untouched(&it, sizeof it), #call " with a rejected value");     \
        }                                                                                        \
        check(call(NULL, 0, &it) == SOCKDIAG_WRONG_LENGTH, #call " with a null pointer");        \
        call(bytes, (most) < 24 ? (most) : 24, &it);                                             \
    } while (0)

static void reads_single_values(void) {
    uint8_t bytes[24];
    number_bytes(bytes, sizeof bytes);
    {
        GETTER(it, struct sockdiag_vegas_info, sockdiag_get_vegas_info, 16, SIZE_MAX);
        FIELD(it.enabled, bytes);
        FIELD(it.rtt_count, bytes + 4);
        FIELD(it.rtt, bytes + 8);
        FIELD(it.min_rtt, bytes + 12);
    }
    {
        GETTER(it, struct sockdiag_dctcp_info, sockdiag_get_dctcp_info, 16, SIZE_MAX);
        FIELD(it.enabled, bytes);
        FIELD(it.ce_state, bytes + 2);
        FIELD(it.alpha, bytes + 4);
        FIELD(it.marked_bytes, bytes + 8);
        FIELD(it.acked_bytes, bytes + 12);
    }
    {
        GETTER(it, struct sockdiag_bbr_info, sockdiag_get_bbr_info, 20, SIZE_MAX);
        FIELD(it.bandwidth, bytes);
        FIELD(it.min_rtt, bytes + 8);
        FIELD(it.pacing_gain, bytes + 12);
        FIELD(it.window_gain, bytes + 16);
    }
}

static void reads_pending_connections(void) {
    uint8_t bytes[15];
    struct sockdiag_cursor cursor = {0};
    uint32_t inode = 0, index;
    number_bytes(bytes, sizeof bytes);
    for (index = 0; index < 3; index++) {
        check(sockdiag_next_pending(bytes, 15, &cursor, &inode) == SOCKDIAG_ITEM &&
              cursor.offset == 4 * (index + 1), "a pending connection");
        FIELD(inode, bytes + 4 * index);
    }
    inode = 7;
    check(sockdiag_next_pending(bytes, 15, &cursor, &inode) == SOCKDIAG_WRONG_LENGTH &&
          inode == 7 && cursor.offset == 15, "three bytes after the connections");
    check(sockdiag_next_pending(bytes, 15, &cursor, &inode) == SOCKDIAG_END && inode == 7 &&
          cursor.offset == 15, "the end after an error");
    cursor.offset = SIZE_MAX;
    check(sockdiag_next_pending(bytes, 15, &cursor, &inode) == SOCKDIAG_END && inode == 7 &&
          cursor.offset == SIZE_MAX, "an offset after the connections");
    cursor.offset = 0;
    check(sockdiag_next_pending(NULL, 0, &cursor, &inode) == SOCKDIAG_END && cursor.offset == 0,
          "connections at a null pointer");
}

static void reads_md5_signatures(void) {
    uint8_t bytes[250];
    struct sockdiag_md5_signature it;
    struct sockdiag_cursor cursor = {0};
    size_t index;
    number_bytes(bytes, sizeof bytes);
    for (index = 0; index < 200; index += 100) {
        memset(&it, UNTOUCHED, sizeof it);
        check(sockdiag_next_md5_signature(bytes, 250, &cursor, &it) == SOCKDIAG_ITEM &&
              cursor.offset == index + 100, "an MD5 signature");
        FIELD(it.family, bytes + index);
        FIELD(it.prefix_length, bytes + index + 1);
        FIELD(it.key_length, bytes + index + 2);
        check(memcmp(it.address, bytes + index + 4, 16) == 0, "it.address");
        check(memcmp(it.key, bytes + index + 20, 80) == 0, "it.key");
    }
    memset(&it, UNTOUCHED, sizeof it);
    check(sockdiag_next_md5_signature(bytes, 250, &cursor, &it) == SOCKDIAG_WRONG_LENGTH &&
          cursor.offset == 250 && is_untouched(&it, sizeof it), "50 bytes after the signatures");
    cursor.offset = 251;
    check(sockdiag_next_md5_signature(bytes, 250, &cursor, &it) == SOCKDIAG_END &&
          cursor.offset == 251, "an offset after the signatures");
}

static void reads_addresses(void) {
    uint8_t bytes[300];
    struct sockdiag_stored_address it;
    struct sockdiag_cursor cursor = {0};
    size_t index, segment;
    number_bytes(bytes, sizeof bytes);
    for (index = 0; index < 256; index += 128) {
        const uint8_t *at = bytes + index;
        memset(&it, UNTOUCHED, sizeof it);
        check(sockdiag_next_address(bytes, 300, &cursor, &it) == SOCKDIAG_ITEM &&
              cursor.offset == index + 128, "an address");
        FIELD(it.family, at);
        check(it.port == (at[2] << 8 | at[3]), "it.port");
        check(memcmp(it.front, at + 4, 4) == 0, "it.front");
        for (segment = 0; segment < 8; segment++)
            check(it.segments[segment] == (at[8 + 2 * segment] << 8 | at[9 + 2 * segment]),
                  "it.segments");
        FIELD(it.scope_id, at + 24);
        check(memcmp(it.rest, at + 28, 100) == 0, "it.rest");
    }
    memset(&it, UNTOUCHED, sizeof it);
    check(sockdiag_next_address(bytes, 300, &cursor, &it) == SOCKDIAG_WRONG_LENGTH &&
          cursor.offset == 300 && is_untouched(&it, sizeof it), "44 bytes after the addresses");
    cursor.offset = 0;
    check(sockdiag_next_address(NULL, 0, &cursor, &it) == SOCKDIAG_END, "no addresses");
}

static void reads_memberships_and_filters(void) {
    uint8_t bytes[96];
    struct sockdiag_packet_membership it;
    struct sockdiag_filter_instruction step;
    struct sockdiag_cursor cursor = {44};
    number_bytes(bytes, sizeof bytes);
    check(sockdiag_next_membership(bytes, 96, &cursor, &it) == SOCKDIAG_ITEM &&
          cursor.offset == 88, "a membership");
    FIELD(it.interface, bytes + 44);
    FIELD(it.count, bytes + 48);
    FIELD(it.kind, bytes + 52);
    FIELD(it.address_length, bytes + 54);
    check(memcmp(it.address, bytes + 56, 32) == 0, "it.address");
    check(sockdiag_next_membership(bytes, 96, &cursor, &it) == SOCKDIAG_WRONG_LENGTH &&
          cursor.offset == 96, "8 bytes after the memberships");
    cursor.offset = 8;
    check(sockdiag_next_instruction(bytes, 16, &cursor, &step) == SOCKDIAG_ITEM &&
          cursor.offset == 16, "an instruction");
    FIELD(step.code, bytes + 8);
    FIELD(step.jump_if_met, bytes + 10);
    FIELD(step.jump_if_not_met, bytes + 11);
    FIELD(step.operand, bytes + 12);
    check(sockdiag_next_instruction(bytes, 16, &cursor, &step) == SOCKDIAG_END, "the last one");
}

static void reads_numbers(void) {
    uint8_t bytes[9];
    size_t length;
    number_bytes(bytes, sizeof bytes);
    bytes[0] = 0xff;
    for (length = 0; length <= 9; length++) {
        const int is_width = length == 1 || length == 2 || length == 4 || length == 8;
        uint64_t number = 7;
        check(sockdiag_get_number(bytes, length, &number) ==
                  (is_width ? SOCKDIAG_OK : SOCKDIAG_WRONG_LENGTH), "the length of a number");
        check(number == (is_width ? number_at(bytes, length) : 7), "a number");
    }
}

static void explains_headers_and_framing(void) {
    uint8_t bytes[128];
    memcpy(bytes, unix_header, 16);
    EXPLAINS(explain_unix, bytes, 16, NO_ERROR);
    EXPLAINS(explain_unix, bytes, 15, SMALL(SOCKDIAG_RECORD_UNIX_RESPONSE_HEADER, 15, 16));
    EXPLAINS(explain_unix, NULL, 0, SMALL(SOCKDIAG_RECORD_UNIX_RESPONSE_HEADER, 0, 16));
    memcpy(bytes + 16, "\3\0\0\0\11\1\0\0\0", 9);
    EXPLAINS(explain_unix, bytes, 19, LENGTHS(SOCKDIAG_ATTRIBUTE_HEADER_CUT, 3, 0));
    EXPLAINS(explain_unix, bytes, 21, LENGTHS(SOCKDIAG_ATTRIBUTE_LENGTH_UNDER_4, 0, 3));
    memcpy(bytes + 16, "\11\1\0\0", 4);
    EXPLAINS(explain_unix, bytes, 25, LENGTHS(SOCKDIAG_ATTRIBUTE_LENGTH_PAST, 9, 265));
    memcpy(bytes, inet_header, 72);
    EXPLAINS(explain_inet, bytes, 72, NO_ERROR);
    EXPLAINS(explain_inet, bytes, 71, SMALL(SOCKDIAG_RECORD_INET_RESPONSE_HEADER, 71, 72));
    bytes[0] = 1;
    EXPLAINS(explain_inet, bytes, 72, OTHER(SOCKDIAG_UNSUPPORTED_FAMILY, 1));
}

static void explains_other_replies(void) {
    const uint32_t header = SOCKDIAG_RECORD_FAMILY_RESPONSE_HEADER;
    const uint32_t value = SOCKDIAG_RECORD_FAMILY_ATTRIBUTE;
    uint8_t bytes[128], numbers[48];
    number_bytes(numbers, sizeof numbers);
    memset(bytes, 0, sizeof bytes);
    EXPLAINS(explain_netlink, bytes, SOCKDIAG_NETLINK_ATTRIBUTES, NO_ERROR);
    EXPLAINS(explain_packet, bytes, SOCKDIAG_PACKET_ATTRIBUTES, NO_ERROR);
    EXPLAINS(explain_vsock, bytes, SOCKDIAG_VSOCK_ATTRIBUTES, NO_ERROR);
    EXPLAINS(explain_xdp, bytes, SOCKDIAG_XDP_ATTRIBUTES, NO_ERROR);
    EXPLAINS(explain_netlink, bytes, 27, SMALL_OF(header, 16, -1, 27, 28));
    EXPLAINS(explain_packet, bytes, 1, SMALL_OF(header, 17, -1, 1, 16));
    EXPLAINS(explain_vsock, bytes, 31, SMALL_OF(header, 40, -1, 31, 32));
    EXPLAINS(explain_xdp, bytes, 15, SMALL_OF(header, 44, -1, 15, 16));
    EXPLAINS(explain_netlink, bytes, put(bytes, 28, 4, numbers, 3), WRONG(4, 3, 4));
    EXPLAINS(explain_packet, bytes, put(bytes, 16, 5, numbers, 8), WRONG(5, 8, 4));
    EXPLAINS(explain_xdp, bytes, put(bytes, 16, 6, numbers, 0), WRONG(6, 0, 4));
    EXPLAINS(explain_packet, bytes, put(bytes, 16, 6, numbers, 27),
             SMALL(SOCKDIAG_RECORD_MEM_INFO, 27, 28));
    EXPLAINS(explain_packet, bytes, put(bytes, 16, 3, numbers, 27),
             SMALL_OF(value, 17, 3, 27, 28));
    EXPLAINS(explain_xdp, bytes, put(bytes, 16, 9, numbers, 47),
             SMALL_OF(value, 44, 9, 47, 48));
    memset(bytes + 32, 0, 4);
    EXPLAINS(explain_vsock, bytes, 36, LENGTHS(SOCKDIAG_ATTRIBUTE_LENGTH_UNDER_4, 0, 0));
}

EXPLAINS_AS(other_family, 43)

static void explains_messages(void) {
    static const uint8_t other[16] = {17};
    struct sockdiag_error_details error;
    EXPLAINS(explain_message, unix_header, 16, NO_ERROR);
    EXPLAINS(explain_message, inet_header, 72, NO_ERROR);
    EXPLAINS(explain_message, unix_header, 1, LENGTHS(SOCKDIAG_MESSAGE_TOO_SHORT, 1, 0));
    EXPLAINS(explain_message, other, 16, OTHER(SOCKDIAG_UNKNOWN_FAMILY, 17));
    EXPLAINS(explain_other_family, unix_header, 16, OTHER(SOCKDIAG_UNKNOWN_FAMILY, 43));
    memset(&error, UNTOUCHED, sizeof error);
    check(sockdiag_explain(SOCKDIAG_EXPLAIN_INET_ATTRIBUTE + 1, NULL, 0, &error,
                           sizeof error) == SOCKDIAG_INVALID_ARGUMENT &&
          is_untouched(&error, sizeof error), "an unknown what");
    EXPLAINS(explain_message, unix_header, 12, SMALL(SOCKDIAG_RECORD_UNIX_RESPONSE_HEADER, 12, 16));
    EXPLAINS(explain_message, inet_header, 12, SMALL(SOCKDIAG_RECORD_INET_RESPONSE_HEADER, 12, 72));
}

static void explains_framing(void) {
    uint8_t bytes[20] = {20, 0, 0, 0, 3};
    EXPLAINS(explain_datagram, bytes, 20, NO_ERROR);
    EXPLAINS(explain_datagram, bytes, 15, LENGTHS(SOCKDIAG_ENVELOPE_CUT, 15, 0));
    EXPLAINS(explain_datagram, bytes, 19, LENGTHS(SOCKDIAG_ENVELOPE_LENGTH_PAST, 19, 20));
    bytes[0] = 15;
    EXPLAINS(explain_datagram, bytes, 20,
             LENGTHS(SOCKDIAG_ENVELOPE_LENGTH_UNDER_16, 0, 15));
    memset(bytes, 0xff, 4);
    EXPLAINS(explain_datagram, bytes, 20,
             LENGTHS(SOCKDIAG_ENVELOPE_LENGTH_PAST, 20, UINT32_MAX));
}

/* The kind 3 is a list of inodes in one family, and not parsed in the other. */
static void explains_attributes(void) {
    static const uint8_t inodes[12] = {9, 0, 3, 0, 1}, mark[16] = {9, 0, 15, 0, 1};
    explain *const of_unix = explain_unix_attribute;
    explain *const of_inet = explain_inet_attribute;
    EXPLAINS(of_inet, inodes, 12, NO_ERROR);
    EXPLAINS(of_unix, inodes, 12, LENGTHS(SOCKDIAG_NOT_MULTIPLE_OF_FOUR, 5, 0));
    EXPLAINS(of_unix, mark, 16, NO_ERROR);
    EXPLAINS(of_inet, mark, 16, WRONG(15, 5, 4));
    EXPLAINS(of_unix, NULL, 0, NO_ERROR);
    EXPLAINS(of_inet, NULL, 0, NO_ERROR);
    EXPLAINS(of_unix, mark, 8, LENGTHS(SOCKDIAG_ATTRIBUTE_LENGTH_PAST, 8, 9));
    EXPLAINS(of_inet, mark, 3, LENGTHS(SOCKDIAG_ATTRIBUTE_HEADER_CUT, 3, 0));
    EXPLAINS(of_inet, mark + 5, 8, LENGTHS(SOCKDIAG_ATTRIBUTE_LENGTH_UNDER_4, 0, 0));
}

/* Returns the offset of the error of the bytes. */
static size_t offset_of(uint32_t what, const uint8_t *bytes, size_t length) {
    struct sockdiag_error_details error;
    memset(&error, UNTOUCHED, sizeof error);
    check(sockdiag_explain(what, bytes, length, &error, sizeof error) != SOCKDIAG_OK, "an error");
    return error.offset;
}

/* The offset of the first attribute with an error, after one with 3 bytes of padding. The padding
 * of the last attribute may be missing. */
static void has_offsets(void) {
    /* A family, the length of its header, and a kind whose value has to have 4 bytes, or 99. */
    static const struct {
        uint8_t family, size;
        uint16_t kind;
    } rows[] = {{1, 16, 2}, {2, 72, 15}, {10, 72, 15}, {16, 28, 4}, {17, 16, 4}, {44, 16, 2},
                {40, 32, 99}};
    uint8_t bytes[128] = {0};
    size_t row, end;
    for (row = 0; row < sizeof rows / sizeof *rows; row++) {
        const uint8_t family = rows[row].family, size = rows[row].size;
        bytes[0] = family;
        end = put(bytes, size, 98, "12345", 5);
        check(end == size + 12u, "a padded attribute");
        end = put(bytes, end, rows[row].kind, "12345", 5);
        end = put(bytes, end, rows[row].kind, "1", 1);
        if (rows[row].kind != 99)
            check(offset_of(family, bytes, end) == size + 12u, "the first error of two");
        check(offset_of(family, bytes, size + 12u + 8) == size + 12u, "a truncated attribute");
        check(offset_of(family, bytes, size + 12u + 3) == size + 12u, "a truncated header");
        bytes[size + 12] = 3;
        check(offset_of(family, bytes, end) == size + 12u, "a length below 4");
        check(offset_of(family, bytes, size - 1u) == 0, "a truncated header of a reply");
        check(offset_of(SOCKDIAG_EXPLAIN_MESSAGE, bytes, end) ==
              (family == 1 || family == 2 || family == 10 ? size + 12u : 0), "a message");
    }
    bytes[0] = 43;
    check(offset_of(43, bytes, 16) == 0 && offset_of(SOCKDIAG_EXPLAIN_MESSAGE, bytes, 16) == 0 &&
          offset_of(SOCKDIAG_EXPLAIN_MESSAGE, bytes, 0) == 0, "a family that is unknown");
    bytes[0] = 1;
    check(offset_of(SOCKDIAG_EXPLAIN_DATAGRAM, bytes, 20) == 0 &&
          offset_of(SOCKDIAG_EXPLAIN_UNIX_ATTRIBUTE, bytes, 20) == 0 &&
          offset_of(SOCKDIAG_EXPLAIN_INET_ATTRIBUTE, bytes, 20) == 0, "an item by itself");
}

/* dump_replies, for a request that was not written. */
static void requests_no_bytes(void) {
    check(dump_replies(NULL, 0, NULL, NULL) == EINVAL, "a request without bytes");
}

/* Bits of the options, as struct inet_diag_sockopt of linux/inet_diag.h has them. */
static void has_numbers(void) {
    check(SOCKDIAG_OPTION_RECV_ERR == 1 && SOCKDIAG_OPTION_IS_ICSK == 2 &&
          SOCKDIAG_OPTION_FREE_BIND == 4 && SOCKDIAG_OPTION_HDR_INCL == 8 &&
          SOCKDIAG_OPTION_MC_LOOP == 16 && SOCKDIAG_OPTION_TRANSPARENT == 32 &&
          SOCKDIAG_OPTION_MC_ALL == 64 && SOCKDIAG_OPTION_NO_DEFRAG == 128 &&
          SOCKDIAG_OPTION_BIND_ADDRESS_NO_PORT == 256 && SOCKDIAG_OPTION_RECV_ERR_RFC4884 == 512 &&
          SOCKDIAG_OPTION_DEFER_CONNECT == 1024, "options of a socket");
    check(SOCKDIAG_RECORD_SOCKET_ID == 1 && SOCKDIAG_RECORD_INET_REQUEST == 2 &&
          SOCKDIAG_RECORD_UNIX_REQUEST == 4 && SOCKDIAG_RECORD_FAMILY_REQUEST == 11,
          "records of requests");
    check(SOCKDIAG_REJECTION_KINDS == 32 &&
          sizeof(((struct sockdiag_rejections *)0)->errors) == SOCKDIAG_REJECTION_KINDS,
          "the number of kinds");
}

int main(void) {
    has_the_first_errors();
    reads_tcp_info();
    reads_bit_fields();
    reads_a_part_of_a_field();
    reads_mptcp_info();
    reads_single_values();
    reads_pending_connections();
    reads_md5_signatures();
    reads_addresses();
    reads_memberships_and_filters();
    reads_numbers();
    explains_headers_and_framing();
    explains_other_replies();
    explains_messages();
    explains_framing();
    explains_attributes();
    has_offsets();
    requests_no_bytes();
    has_numbers();
    return end_of_tests("c_values");
}

/*
 * Calls the functions of include/sockdiag.h that check, walk and rewrite messages, write requests,
 * or return details of UNIX and internet sockets, with input that they accept and input that they
 * reject. The bytes are worked out by hand from the layouts of sock_diag(7), netlink(7) and the
 * kernel's headers. compare_replies.sh tries each field of the details, and c_values.c and
 * c_messages.c call the other functions. tests/api/c_api.sh builds and runs this program.
 */
#include "check.h"
#include "sockdiag.h" /* A second time: check.h includes it too. */

#include <linux/inet_diag.h>
#include <linux/netlink.h>
#include <linux/sock_diag.h>
#include <linux/unix_diag.h>

/* A reply about a UNIX socket: type 1, state 10, inode 0x11223344, a pathname "/a" with its NUL
 * and one byte of padding, a peer, and an attribute of type 0x63 without a value. The padding
 * and the byte at offset 3, which no parser reads, are not zero. */
static const uint8_t unix_reply[36] = {
    1, 1, 10, 0xee, 0x44, 0x33, 0x22, 0x11, 1, 2, 3, 4, 5, 6, 7, 8,
    7, 0, 0, 0, '/', 'a', 0, 0xff,
    8, 0, 2, 0, 0x78, 0x56, 0x34, 0x12,
    4, 0, 0x63, 0,
};

/* The header of a reply about an IPv4 socket: state 1, timer 1 with 3 retransmissions and 200
 * milliseconds, from 127.0.0.1 port 80 to 10.0.0.2 port 49152. Each address is followed by bytes
 * that no parser reads. */
static const uint8_t inet_reply[72] = {
    2, 1, 1, 3, 0, 80, 0xc0, 0,
    127, 0, 0, 1, 9, 9, 9, 9, 9, 9, 9, 9, 9, 9, 9, 9,
    10, 0, 0, 2, 9, 9, 9, 9, 9, 9, 9, 9, 9, 9, 9, 9,
    4, 0, 0, 0, 8, 7, 6, 5, 4, 3, 2, 1,
    200, 0, 0, 0, 1, 0, 0, 0, 2, 0, 0, 0, 0xe8, 3, 0, 0, 0x39, 0x30, 0, 0,
};

static void checks_unix(void) {
    static const uint8_t cookie[8] = {1, 2, 3, 4, 5, 6, 7, 8};
    struct sockdiag_unix_header header, before;
    memset(&header, UNTOUCHED, sizeof header);
    before = header;
    check(sockdiag_check_unix_reply(unix_reply, 15, &header) == SOCKDIAG_BUFFER_TOO_SMALL,
          "a truncated header");
    check(sockdiag_check_unix_reply(unix_reply, 22, &header) == SOCKDIAG_ATTRIBUTE_LENGTH_PAST,
          "a truncated attribute");
    check(sockdiag_check_unix_reply(unix_reply, 34, &header) == SOCKDIAG_ATTRIBUTE_HEADER_CUT,
          "a truncated attribute header");
    check(memcmp(&header, &before, sizeof header) == 0, "a header of a rejected reply is written");
    check(sockdiag_check_unix_reply(unix_reply, sizeof unix_reply, &header) == 0, "a UNIX reply");
    check(header.kind == 1 && header.state == 10 && header.inode == 0x11223344, "a UNIX header");
    check(memcmp(header.cookie, cookie, 8) == 0, "a UNIX cookie");
}

static void checks_inet(void) {
    static const uint8_t source[16] = {127, 0, 0, 1}, destination[16] = {10, 0, 0, 2};
    struct sockdiag_inet_header header;
    uint8_t other[72];
    memset(&header, 0, sizeof header);
    check(sockdiag_check_inet_reply(inet_reply, 71, &header) == SOCKDIAG_BUFFER_TOO_SMALL,
          "a truncated internet header");
    memcpy(other, inet_reply, sizeof other);
    other[0] = 3;
    check(sockdiag_check_inet_reply(other, 72, &header) == SOCKDIAG_UNSUPPORTED_FAMILY,
          "another family");
    check(sockdiag_check_inet_reply(inet_reply, 72, &header) == 0, "an internet reply");
    check(header.family == 2 && header.state == 1, "family and state");
    check(header.timer == 1 && header.retransmits == 3 && header.expires == 200, "timer");
    check(header.source_port == 80 && header.destination_port == 49152, "ports");
    check(memcmp(header.source_address, source, 16) == 0, "source address");
    check(memcmp(header.destination_address, destination, 16) == 0, "destination address");
    check(header.interface_id == 4 && header.cookie[0] == 8 && header.cookie[7] == 1,
          "interface and cookie");
    check(header.recv_queue == 1 && header.send_queue == 2, "queues");
    check(header.uid == 1000 && header.inode == 12345, "user and inode");
}

static void checks_messages(void) {
    static const uint8_t packet[2] = {17, 0};
    struct sockdiag_reply reply;
    memset(&reply, 0, sizeof reply);
    check(sockdiag_check_message(unix_reply, 1, 20, &reply) == SOCKDIAG_MESSAGE_TOO_SHORT,
          "a short payload");
    check(sockdiag_check_message(unix_reply, 36, 21, &reply) == SOCKDIAG_UNKNOWN_MESSAGE_TYPE,
          "another type");
    check(sockdiag_check_message(packet, 2, 20, &reply) == SOCKDIAG_UNKNOWN_FAMILY,
          "a packet socket");
    check(reply.kind == 0, "the reply is written for a rejected message");
    check(sockdiag_check_message(unix_reply, 36, 20, &reply) == 0, "a message");
    check(reply.kind == SOCKDIAG_UNIX && reply.unix_header.inode == 0x11223344,
          "a message about a UNIX socket");
    check(sockdiag_check_message(inet_reply, 72, 20, &reply) == 0, "an internet message");
    check(reply.kind == SOCKDIAG_INET && reply.inet_header.inode == 12345,
          "a message about an internet socket");
    check(reply.unix_header.inode == 0x11223344, "the other header changes");
}

static void tells_unix_details(void) {
    static const char memory[36] = {0, 0, 0, 0, 9, 0, 0, 0, 0, 0, 0, 0, 10, 0, 0, 0, 0, 0,
                                    0, 0, 11, 0, 0, 0, 0, 0, 0, 0, 0, 0, 0, 0, 12};
    uint8_t bytes[256];
    struct sockdiag_unix_details details, none;
    size_t end;
    memset(&details, 0, sizeof details);
    check(sockdiag_unix_get_details(unix_reply, sizeof unix_reply, &details, sizeof details) ==
          SOCKDIAG_OK,
          "details of a UNIX reply");
    check(details.header.kind == 1 && details.header.inode == 0x11223344, "a header in details");
    check(details.name.kind == SOCKDIAG_TEXT && details.name.length == 2, "a pathname");
    check(details.name.bytes == unix_reply + 20 && is(details.peer, 0x12345678),
          "a pathname's offset, and a peer");
    check(details.shutdown.is_set == 0 && details.shutdown.value == 0, "a number that is absent");
    memcpy(bytes, unix_reply, 16);
    end = put(bytes, 16, 0, "\0a\0b", 4);
    end = put(bytes, end, 1, "\1\0\0\0\2\0\0\0", 8);
    end = put(bytes, end, 2, "\3\0\0\0", 4);
    end = put(bytes, end, 3, "\4\0\0\0\5\1\0\0", 8);
    end = put(bytes, end, 4, "\6\0\0\0\7\0\0\0", 8);
    end = put(bytes, end, 5, memory, 36);
    end = put(bytes, end, 6, "\10", 1);
    end = put(bytes, end, 2, "\14\0\0\0", 4);
    check(sockdiag_unix_get_details(bytes, end, &details, sizeof details) == SOCKDIAG_OK,
          "all details of a UNIX reply");
    check(details.name.kind == SOCKDIAG_ABSTRACT && details.name.length == 3, "an abstract name");
    check(memcmp(details.name.bytes, "a\0b", 3) == 0, "an abstract name's bytes");
    check(is(details.file_inode, 1) && is(details.file_device, 2) && is(details.peer, 3),
          "file and first peer");
    check(is(details.recv_queue, 6) && is(details.send_queue, 7) && is(details.shutdown, 8),
          "queues and shutdown");
    check(is(details.memory.receive_queue_max, 9) && is(details.memory.send_queue_max, 10) &&
          is(details.memory.send_queue, 11) && is(details.memory.drops, 12), "memory");
    check(details.owner.is_set == 0, "no owner");
    end = put(bytes, end, 7, "\1\0\0", 3);
    check(sockdiag_unix_get_details(bytes, end, &details, sizeof details) == SOCKDIAG_OK &&
          details.owner.is_set == 0, "an owner of 3 bytes");
    end = put(bytes, end, 7, "\350\3\0\0", 4);
    check(sockdiag_unix_get_details(bytes, end, &details, sizeof details) == SOCKDIAG_OK &&
          is(details.owner, 1000),
          "the first valid owner");
    none = details;
    check(sockdiag_unix_get_details(bytes, 22, &details, sizeof details) ==
          SOCKDIAG_ATTRIBUTE_LENGTH_PAST,
          "details of a truncated reply");
    check(memcmp(&none, &details, sizeof none) == 0, "details are written for a rejected reply");
    check(sockdiag_unix_get_details(NULL, 0, &details, sizeof details) == SOCKDIAG_BUFFER_TOO_SMALL,
          "no bytes at a null pointer");
}

static void tells_inet_details(void) {
    uint8_t bytes[512], value[240];
    struct sockdiag_inet_details details;
    struct sockdiag_tcp_info info;
    size_t end, length;
    memset(&details, 0, sizeof details);
    memcpy(bytes, inet_reply, 72);
    end = put(bytes, 72, 4, "cubic", 6);
    end = put(bytes, end, 5, "\1", 1);
    end = put(bytes, end, 6, "\2", 1);
    end = put(bytes, end, 8, "\3", 1);
    end = put(bytes, end, 10, "\4", 1);
    end = put(bytes, end, 11, "\5", 1);
    end = put(bytes, end, 15, "\6\0\0\0", 4);
    end = put(bytes, end, 17, "\7\0\0\0", 4);
    check(sockdiag_inet_get_details(bytes, end, &details, sizeof details) == SOCKDIAG_OK,
          "details of an internet reply");
    check(details.header.inode == 12345 && details.congestion.kind == SOCKDIAG_TEXT,
          "header and algorithm");
    check(details.congestion.length == 5 && memcmp(details.congestion.bytes, "cubic", 5) == 0,
          "cubic");
    check(is(details.tos, 1) && is(details.tclass, 2) && is(details.shutdown, 3),
          "service, class and shutdown");
    check(is(details.protocol, 4) && is(details.v6only, 1), "protocol and IPv6 only");
    check(is(details.mark, 6) && is(details.class_id, 7), "mark and class");
    check(details.has_cgroup_id == 0 && details.cgroup_id == 0 && details.options.is_set == 0,
          "no control group and options");
    end = put(bytes, end, 21, "\1\2\3\4", 4);
    end = put(bytes, end, 21, "\1\2\3\4\5\6\7\10", 8);
    end = put(bytes, end, 22, "\1", 1);
    end = put(bytes, end, 22, "\1\2\3", 3);
    check(sockdiag_inet_get_details(bytes, end, &details, sizeof details) == SOCKDIAG_OK &&
          details.has_cgroup_id == 1 && details.cgroup_id == 0x807060504030201 &&
          is(details.options, 0x201), "the first valid control group and options");
    check(sockdiag_inet_get_tcp_info(bytes, end, &info, sizeof info, &length) == SOCKDIAG_END,
          "no TCP connection");
    check(details.has_legacy_memory == 0 && details.memory.receive_queue.is_set == 0, "no memory");
    number_bytes(value, sizeof value);
    end = put(bytes, end, 2, value, sizeof value);
    check(sockdiag_inet_get_details(bytes, end, &details, sizeof details) == SOCKDIAG_OK,
          "a TCP connection");
    check(sockdiag_inet_get_tcp_info(bytes, end, &info, sizeof info, &length) == SOCKDIAG_OK &&
          length == 240 && memcmp(&info, value, 240) == 0 && info.total_rto == 0 &&
              info.options2 == 0, "its bytes");
    check(info.rtt == 0x47464544 && info.pacing_rate == 0x6f6e6d6c6b6a6968 &&
          info.snd_wnd == 0xe7e6e5e4, "its fields");
    end = put(bytes, end, 7, value, 32);
    end = put(bytes, end, 1, value, 17);
    check(sockdiag_inet_get_details(bytes, end, &details, sizeof details) == SOCKDIAG_OK, "memory");
    check(is(details.memory.receive_queue, 0x03020100) &&
          is(details.memory.backlog_queue_length, 0x1f1e1d1c), "its words");
    check(details.memory.drops.is_set == 0, "a field that is absent");
    check(details.has_legacy_memory == 1 && details.legacy_memory.receive_queue == 0x03020100 &&
          details.legacy_memory.send_queue == 0x07060504 &&
          details.legacy_memory.cache == 0x0b0a0908 &&
          details.legacy_memory.bottom_send_queues == 0x0f0e0d0c, "memory of old kernels");
    put(bytes, 72, 2, value, 5);
    check(sockdiag_inet_get_details(bytes, 84, &details, sizeof details) ==
          SOCKDIAG_BUFFER_TOO_SMALL,
          "a short TCP connection");
    check(sockdiag_inet_get_tcp_info(bytes, 84, &info, sizeof info, &length) == SOCKDIAG_OK &&
          length == 5 && info.backoff == 4 && info.rto == 0, "its five bytes");
    check(sockdiag_inet_get_tcp_info(NULL, 0, &info, sizeof info, &length) == SOCKDIAG_END &&
          length == 5 && info.backoff == 4, "nothing at a null pointer");
}

static void tells_numbers_in_words(void) {
    static const uint8_t refused[5] = {0xfe, 0xff, 0xff, 0xff, 9};
    int32_t number = 7;
    uint32_t error;
    check(sockdiag_get_error_number(refused, 3, &number) == SOCKDIAG_WRONG_LENGTH && number == 7,
          "no errno");
    check(sockdiag_get_error_number(refused, 5, &number) == SOCKDIAG_OK && number == -2,
          "ENOENT");
    for (error = SOCKDIAG_BUFFER_TOO_SMALL; error <= SOCKDIAG_ENVELOPE_LENGTH_PAST; error++)
        check(strcmp(sockdiag_error_text(error), sockdiag_error_text(error + 1)) != 0,
              "the text of an error");
    check(strcmp(sockdiag_error_text(SOCKDIAG_OK), "no error") == 0, "the text of no error");
    check(strcmp(sockdiag_error_text(19), "unknown error code") == 0,
          "the text of an unknown error");
}

/* An extended acknowledgement: the number, the header of the request, and the attributes. */
static void finds_error_attributes(void) {
    static const uint8_t refused[] = {
        0xea, 0xff, 0xff, 0xff, 16, 0, 0, 0, 20, 0, 5, 0, 1, 0, 0, 0, 2, 0, 0, 0,
        8, 0, 2, 0, 16, 0, 0, 0, 6, 0, 1, 0, 'n', 0,
    };
    struct sockdiag_cursor cursor = {7};
    struct sockdiag_attribute attribute;
    const uint16_t flags = SOCKDIAG_NLM_F_ACK_TLVS;
    check(sockdiag_find_error_attributes(refused, 19, SOCKDIAG_NLMSG_ERROR, flags, &cursor) ==
          SOCKDIAG_WRONG_LENGTH && cursor.offset == 7, "no request");
    check(sockdiag_find_error_attributes(refused, 3, SOCKDIAG_NLMSG_DONE, flags, &cursor) ==
          SOCKDIAG_WRONG_LENGTH && cursor.offset == 7, "no number");
    check(sockdiag_find_error_attributes(refused, sizeof refused, SOCKDIAG_NLMSG_NOOP, flags,
                                         &cursor) == SOCKDIAG_UNKNOWN_MESSAGE_TYPE &&
          cursor.offset == 7,
          "another message");
    check(sockdiag_find_error_attributes(refused, sizeof refused, SOCKDIAG_NLMSG_ERROR, 0,
                                         &cursor) == SOCKDIAG_OK &&
          cursor.offset == sizeof refused, "no attributes");
    check(sockdiag_find_error_attributes(refused, sizeof refused, SOCKDIAG_NLMSG_DONE, flags,
                                         &cursor) == SOCKDIAG_OK && cursor.offset == 4,
          "the attributes of the end of a dump");
    check(sockdiag_find_error_attributes(refused, sizeof refused, SOCKDIAG_NLMSG_ERROR, flags,
                                         &cursor) == SOCKDIAG_OK && cursor.offset == 20,
          "the attributes of an error");
    check(sockdiag_next_attribute(refused, sizeof refused, &cursor, &attribute) == SOCKDIAG_ITEM &&
          attribute.type_word == SOCKDIAG_NLMSGERR_ATTR_OFFS && attribute.offset == 24,
          "the offset of the invalid attribute");
    check(sockdiag_next_attribute(refused, sizeof refused, &cursor, &attribute) == SOCKDIAG_ITEM &&
          attribute.type_word == SOCKDIAG_NLMSGERR_ATTR_MSG && attribute.length == 2,
          "the text of the error");
    check(sockdiag_next_attribute(refused, sizeof refused, &cursor, &attribute) == SOCKDIAG_END,
          "no more attributes");
}

static void walks_attributes(void) {
    struct sockdiag_cursor cursor = {SOCKDIAG_UNIX_ATTRIBUTES};
    struct sockdiag_attribute attribute = {0, 0, 0};
    check(sockdiag_next_attribute(unix_reply, 36, &cursor, &attribute) == SOCKDIAG_ITEM,
          "the first attribute");
    check(attribute.type_word == 0 && attribute.offset == 20 && attribute.length == 3 &&
          cursor.offset == 24, "a name");
    check(sockdiag_next_attribute(unix_reply, 36, &cursor, &attribute) == SOCKDIAG_ITEM,
          "the second attribute");
    check(attribute.type_word == 2 && attribute.offset == 28 && attribute.length == 4 &&
          cursor.offset == 32, "a peer");
    check(sockdiag_next_attribute(unix_reply, 36, &cursor, &attribute) == SOCKDIAG_ITEM,
          "the third attribute");
    check(attribute.type_word == 0x63 && attribute.length == 0 && cursor.offset == 36,
          "an attribute without value");
    check(sockdiag_next_attribute(unix_reply, 36, &cursor, &attribute) == SOCKDIAG_END,
          "the end of the attributes");
    cursor.offset = SIZE_MAX;
    check(sockdiag_next_attribute(unix_reply, 36, &cursor, &attribute) == SOCKDIAG_END,
          "an offset after the end");
    cursor.offset = 24;
    check(sockdiag_next_attribute(unix_reply, 31, &cursor, &attribute)
              == SOCKDIAG_ATTRIBUTE_LENGTH_PAST,
          "a truncated value");
    check(attribute.type_word == 0x63, "the attribute is written on an error");
    check(sockdiag_next_attribute(unix_reply, 31, &cursor, &attribute) == SOCKDIAG_END,
          "the iteration continues after an error");
}

/* Writes four messages and two more bytes: a reply, an NLMSG_NOOP, a message whose payload is
 * rejected, and the end of a dump. */
static size_t make_datagram(uint8_t *bytes) {
    static const uint8_t headers[4][16] = {
        {52, 0, 0, 0, 20, 0, 2, 0, 7, 0, 0, 0, 9, 0, 0, 0},
        {17, 0, 0, 0, 1, 0, 0, 0, 7, 0, 0, 0, 9, 0, 0, 0},
        {18, 0, 0, 0, 20, 0, 0, 0, 7, 0, 0, 0, 9, 0, 0, 0},
        {20, 0, 0, 0, 3, 0, 2, 0, 7, 0, 0, 0, 9, 0, 0, 0},
    };
    memset(bytes, 0, 128);
    memcpy(bytes, headers[0], 16);
    memcpy(bytes + 16, unix_reply, 36);
    memcpy(bytes + 52, headers[1], 16);
    memcpy(bytes + 72, headers[2], 16);
    memcpy(bytes + 92, headers[3], 16);
    return 114;
}

static void walks_messages(void) {
    uint8_t bytes[128];
    size_t length = make_datagram(bytes);
    struct sockdiag_cursor cursor = {0};
    struct sockdiag_message message;
    memset(&message, 0, sizeof message);
    check(sockdiag_next_message(bytes, length, &cursor, &message) == SOCKDIAG_ITEM,
          "a reply in a datagram");
    check(message.message_type == 20 && message.offset == 16 && message.length == 36,
          "the offset of a payload");
    check(message.flags == 2 && message.sequence_number == 7 && message.port_number == 9,
          "the fields of a header");
    check(sockdiag_next_message(bytes, length, &cursor, &message) == SOCKDIAG_ITEM, "NLMSG_NOOP");
    check(message.message_type == 1 && message.offset == 68 && message.length == 1, "its payload");
    check(sockdiag_next_message(bytes, length, &cursor, &message) == SOCKDIAG_UNKNOWN_FAMILY,
          "a rejected payload");
    check(message.message_type == 20 && message.offset == 88 && message.length == 2,
          "the offset of a rejected payload");
    check(sockdiag_next_message(bytes, length, &cursor, &message) == SOCKDIAG_ITEM,
          "the end of a dump");
    check(message.message_type == 3 && message.offset == 108 && message.length == 4,
          "the end's payload");
    check(cursor.offset == 112, "the offset after the end of the dump");
    check(sockdiag_next_message(bytes, length, &cursor, &message) == SOCKDIAG_ENVELOPE_CUT,
          "two remaining bytes");
    check(message.message_type == 3, "the message is written on an error");
    check(sockdiag_next_message(bytes, length, &cursor, &message) == SOCKDIAG_END,
          "the end of an iteration over messages");
}

/* Fields are set by their names, not in order, so that two swapped fields are seen. */
static void set_header(struct sockdiag_request_header *header, uint32_t sequence_number) {
    header->flags = 0x301;
    header->sequence_number = sequence_number;
    header->port_number = 0x0d0c0b0a;
}

static void writes_unix_request(void) {
    static const uint8_t want[40] = {
        40, 0, 0, 0, 20, 0, 1, 3, 5, 0, 0, 0, 10, 11, 12, 13,
        1, 0, 0, 0, 0xff, 0xfe, 0xff, 0xff, 6, 0, 0, 0, 0x3f, 0, 0, 0, 1, 2, 3, 4, 5, 6, 7, 8,
    };
    struct sockdiag_unix_request request;
    size_t written;
    uint8_t buffer[48], before[48];
    set_header(&request.header, 5);
    request.states = 0xfffffeff;
    request.inode = 6;
    request.show = 0x3f;
    memcpy(request.cookie, want + 32, 8);
    memset(buffer, UNTOUCHED, sizeof buffer);
    memcpy(before, buffer, sizeof buffer);
    check(sockdiag_write_unix_request(&request, buffer, 39, &written) == SOCKDIAG_NO_SPACE &&
          written == 40, "a short buffer");
    check(memcmp(buffer, before, sizeof buffer) == 0, "a short buffer is written to");
    check(sockdiag_write_unix_request(&request, buffer, sizeof buffer, &written) == SOCKDIAG_OK &&
          written == SOCKDIAG_UNIX_REQUEST_LENGTH, "a UNIX request");
    check(memcmp(buffer, want, 40) == 0, "a UNIX request's bytes");
    check(memcmp(buffer + 40, before + 40, 8) == 0, "the bytes after a request");
}

static void writes_inet_request(void) {
    static const uint8_t want[72] = {
        72, 0, 0, 0, 20, 0, 1, 3, 6, 0, 0, 0, 10, 11, 12, 13,
        10, 6, 0x41, 0, 0, 4, 0, 0, 0, 80, 0x1f, 0x90,
        0xfe, 0x80, 0, 0, 0, 0, 0, 0, 0, 0, 0, 0, 0, 0, 0, 1,
        0, 0, 0, 0, 0, 0, 0, 0, 0, 0, 0, 0, 0, 0, 0, 2,
        3, 0, 0, 0, 8, 7, 6, 5, 4, 3, 2, 1,
    };
    static const uint8_t attribute[8] = {8, 0, 3, 0, 6, 1, 0, 0};
    struct sockdiag_inet_request request;
    size_t written;
    uint8_t buffer[80];
    set_header(&request.header, 6);
    request.family = 10;
    request.extensions = 0x41;
    request.protocol = 6;
    request.states = 0x400;
    request.source_port = 80;
    request.destination_port = 8080;
    memcpy(request.source_address, want + 28, 16);
    memcpy(request.destination_address, want + 44, 16);
    request.interface_id = 3;
    memcpy(request.cookie, want + 64, 8);
    check(sockdiag_write_inet_request(&request, buffer, 71, &written) == SOCKDIAG_NO_SPACE &&
          written == 72,
          "a short buffer for an internet request");
    check(sockdiag_write_inet_request(&request, buffer, 72, &written) == SOCKDIAG_OK &&
          written == 72, "an internet request");
    check(memcmp(buffer, want, 72) == 0, "an internet request's bytes");
    request.family = 2;
    check(sockdiag_write_inet_request(&request, buffer, 72, &written) == SOCKDIAG_OK &&
          written == 72, "an IPv4 request");
    check(buffer[16] == 2 && buffer[28] == 0xfe && buffer[29] == 0x80 && buffer[43] == 0,
          "an IPv4 address and zeros");
    check(sockdiag_write_inet_destroy(&request, buffer, 72, &written) == SOCKDIAG_OK &&
          written == 72 && buffer[4] == 21 &&
          buffer[17] == 6, "a destroy");
    request.protocol = 262;
    check(sockdiag_write_inet_request(&request, buffer, 79, &written) == SOCKDIAG_NO_SPACE &&
          written == 80, "a short buffer for a protocol");
    check(sockdiag_write_inet_request(&request, buffer, 80, &written) == SOCKDIAG_OK &&
          written == SOCKDIAG_INET_REQUEST_LENGTH,
          "a request for MPTCP");
    check(buffer[0] == 80 && buffer[4] == 20 && buffer[17] == 0 &&
          memcmp(buffer + 72, attribute, 8) == 0, "its protocol");
    request.family = 1;
    check(sockdiag_write_inet_request(&request, buffer, 72, &written) ==
          SOCKDIAG_UNSUPPORTED_FAMILY && written == 0, "a request of another family");
}

static void writes_family_requests(void) {
    static const uint8_t want[36] = {
        36, 0, 0, 0, 20, 0, 1, 3, 5, 0, 0, 0, 10, 11, 12, 13,
        16, 255, 0, 0, 6, 0, 0, 0, 0xb, 0, 0, 0, 8, 7, 6, 5, 4, 3, 2, 1,
    };
    static const uint8_t vsock[24] = {40, 0, 0, 0, 0, 4, 0, 0, 0, 0, 0, 0, 0, 0, 0, 0, 9};
    struct sockdiag_show_request request;
    struct sockdiag_vsock_request other;
    size_t written;
    uint8_t buffer[41];
    set_header(&request.header, 5);
    request.family = 16;
    request.protocol = 255;
    request.inode = 6;
    request.show = 0xb;
    request.cookie = 0x102030405060708;
    set_header(&other.header, 5);
    other.states = 0x400;
    other.cookie = 9;
    memset(buffer, UNTOUCHED, sizeof buffer);
    check(sockdiag_write_show_request(&request, buffer, 35, &written) == SOCKDIAG_NO_SPACE &&
          written == 36 && buffer[0] == UNTOUCHED,
          "a short buffer for a request");
    check(sockdiag_write_show_request(&request, buffer, 41, &written) == SOCKDIAG_OK &&
          written == SOCKDIAG_SHOW_REQUEST_LENGTH,
          "a netlink request");
    check(memcmp(buffer, want, 36) == 0 && buffer[36] == UNTOUCHED,
          "its bytes, and those after it");
    request.family = 44;
    check(sockdiag_write_show_request(&request, buffer, 36, &written) == SOCKDIAG_OK &&
          written == 36 && buffer[16] == 44,
          "an XDP request");
    check(memcmp(buffer + 17, want + 17, 19) == 0, "its other bytes");
    request.family = 40;
    check(sockdiag_write_show_request(&request, buffer, 36, &written) == SOCKDIAG_UNKNOWN_FAMILY &&
          written == 0,
          "a vsock request of another form");
    check(sockdiag_write_vsock_request(&other, buffer, 39, &written) == SOCKDIAG_NO_SPACE &&
          written == 40,
          "a short buffer for a vsock request");
    check(sockdiag_write_vsock_request(&other, buffer, 41, &written) == SOCKDIAG_OK &&
          written == SOCKDIAG_VSOCK_REQUEST_LENGTH &&
          buffer[0] == 40 && buffer[4] == 20, "a vsock request");
    check(memcmp(buffer + 16, vsock, 24) == 0 && buffer[40] == UNTOUCHED, "its record");
}

static void writes_filtered_request(void) {
    static const uint8_t filter[13] = {8, 0, 1, 0, 1, 2, 3, 4, 5, 0, 2, 0, 9};
    struct sockdiag_inet_request request;
    size_t written = 9;
    uint8_t plain[80], buffer[100];
    memset(&request, 0, sizeof request);
    memset(buffer, UNTOUCHED, sizeof buffer);
    request.family = 10;
    request.protocol = 262;
    check(sockdiag_write_inet_request(&request, plain, sizeof plain, &written) == SOCKDIAG_OK &&
          written == 80,
          "a request without attributes");
    check(sockdiag_write_inet_request_with_attributes(&request, filter, 13, buffer, 95,
                                                      &written) == SOCKDIAG_NO_SPACE,
          "a short buffer");
    check(written == 96 && buffer[0] == UNTOUCHED,
          "the length of a filtered request");
    check(sockdiag_write_inet_request_with_attributes(&request, filter, 13, buffer, 100,
                                                      &written) == SOCKDIAG_OK &&
          written == 96,
          "a filter");
    check(buffer[0] == 96 && memcmp(buffer + 1, plain + 1, 79) == 0,
          "the request before a filter");
    check(memcmp(buffer + 80, filter, 13) == 0 && memcmp(buffer + 93, "\0\0\0\xaa", 4) == 0,
          "a filter and its padding");
    check(sockdiag_write_inet_request_with_attributes(&request, filter, 11, buffer, 100,
                                                      &written) ==
          SOCKDIAG_ATTRIBUTE_HEADER_CUT && written == 0,
          "a truncated filter");
    check(sockdiag_write_inet_request_with_attributes(&request, NULL, 0, buffer, 80,
                                                      &written) == SOCKDIAG_OK &&
          written == 80,
          "no attributes");
    check(memcmp(buffer, plain, 80) == 0, "a request with no attributes");
    request.family = 1;
    check(sockdiag_write_inet_request_with_attributes(&request, filter, 13, buffer, 100,
                                                      &written) ==
          SOCKDIAG_UNSUPPORTED_FAMILY && written == 0,
          "a family");
}

/* Parses a text in the words of ss(8), into a buffer of this length. */
static uint32_t parse(const char *text, uint8_t *program, size_t length,
                      struct sockdiag_filter_details *filter) {
    memset(filter, UNTOUCHED, sizeof *filter);
    return sockdiag_parse_filter((const uint8_t *)text, strlen(text), program, length, filter,
                                 sizeof *filter);
}

static void parses_filters(void) {
    /* sport >= :443: if not, a jump past the end. */
    static const uint8_t at_least[8] = {INET_DIAG_BC_S_GE, 8, 12, 0, 0, 0, 0xbb, 1};
    struct sockdiag_filter_details filter;
    uint8_t program[SOCKDIAG_FILTER_PROGRAM_LENGTH];
    char text[2 * 257 + 1];
    size_t index;
    memset(program, UNTOUCHED, sizeof program);
    check(parse("state listening sport >= :443", program, 7, &filter) == SOCKDIAG_NO_SPACE &&
          is(filter.states, 1u << SOCKDIAG_TCP_LISTEN) && filter.program_length == 8 &&
          filter.error_offset == 0 && is_untouched(program, sizeof program),
          "a short buffer for a program");
    check(parse("state listening sport >= :443", program, 8, &filter) == SOCKDIAG_OK &&
          is(filter.states, 1u << SOCKDIAG_TCP_LISTEN) && filter.program_length == 8 &&
          filter.error_offset == 0, "a filter");
    check(memcmp(program, at_least, 8) == 0 && is_untouched(program + 8, sizeof program - 8),
          "its program");
    memset(program, UNTOUCHED, sizeof program);
    check(parse("", NULL, 0, &filter) == SOCKDIAG_OK && filter.states.is_set == 0 &&
          filter.states.value == 0 && filter.program_length == 0, "an empty text");
    check(parse("dst 10.0.0.0/8 frob", program, sizeof program, &filter) ==
          SOCKDIAG_FILTER_UNEXPECTED &&
          filter.error_offset == 15 && filter.program_length == 0 && filter.states.is_set == 0,
          "a word that is unknown");
    check(parse("( sport = :1 ", program, sizeof program, &filter) == SOCKDIAG_FILTER_INCOMPLETE &&
          filter.error_offset == 13 && filter.program_length == 0, "an open group");
    for (index = 0; index < 257; index++)
        memcpy(text + 2 * index, "! ", 3);
    check(parse(text, program, sizeof program, &filter) == SOCKDIAG_FILTER_TOO_LONG &&
          filter.error_offset == 512, "a word too many");
    check(sockdiag_parse_filter((const uint8_t *)text, 1, program, 0, &filter, 23) ==
          SOCKDIAG_INVALID_ARGUMENT, "a struct that is too small");
    check(is_untouched(program, sizeof program), "the program of a text that is no filter");
}

static void rewrites_unix_reply(void) {
    uint8_t want[36], buffer[40];
    size_t written;
    memset(buffer, UNTOUCHED, sizeof buffer);
    memcpy(want, unix_reply, sizeof want);
    want[3] = 0;
    want[23] = 0;
    check(sockdiag_rewrite_unix_reply(unix_reply, 36, buffer, 35, &written) == SOCKDIAG_NO_SPACE,
          "a short buffer for a reply");
    check(written == 36, "the length of the canonical form");
    check(buffer[0] == UNTOUCHED && buffer[34] == 0xaa, "a short buffer is written to in part");
    check(sockdiag_rewrite_unix_reply(unix_reply, 36, buffer, 40, &written) == SOCKDIAG_OK &&
          written == 36,
          "a canonical UNIX reply");
    check(memcmp(buffer, want, 36) == 0, "its bytes");
    check(buffer[36] == UNTOUCHED, "the bytes after the canonical form");
    check(sockdiag_rewrite_unix_reply(unix_reply, 15, buffer, 40, &written) ==
          SOCKDIAG_BUFFER_TOO_SMALL && written == 0,
          "a rejected UNIX reply");
}

static void rewrites_inet_reply(void) {
    uint8_t want[72], buffer[72];
    size_t written;
    memcpy(want, inet_reply, sizeof want);
    memset(want + 12, 0, 12);
    memset(want + 28, 0, 12);
    check(sockdiag_rewrite_inet_reply(inet_reply, 72, buffer, 72, &written) == SOCKDIAG_OK &&
          written == 72,
          "a canonical internet reply");
    check(memcmp(buffer, want, 72) == 0, "an internet reply's bytes");
    check(sockdiag_rewrite_inet_reply(unix_reply, 36, buffer, 72, &written) ==
          SOCKDIAG_BUFFER_TOO_SMALL && written == 0,
          "a rejected internet reply");
}

/* Checks a header with the bytes 10, 11, timer, 3, 4, 5, .. */
static void check_inet_header(const struct sockdiag_inet_header *it, const uint8_t *bytes) {
    FIELD(it->family, bytes);
    FIELD(it->state, bytes + 1);
    FIELD(it->timer, bytes + 2);
    check(it->source_port == 0x0405 && it->destination_port == 0x0607, "the ports of a header");
    check(memcmp(it->source_address, bytes + 8, 16) == 0, "it->source_address");
    check(memcmp(it->destination_address, bytes + 24, 16) == 0, "it->destination_address");
    FIELD(it->interface_id, bytes + 40);
    check(memcmp(it->cookie, bytes + 44, 8) == 0, "it->cookie");
    FIELD(it->recv_queue, bytes + 56);
    FIELD(it->send_queue, bytes + 60);
    FIELD(it->uid, bytes + 64);
    FIELD(it->inode, bytes + 68);
}

/* The timer is as in the message, whatever its kind is. */
static void reads_each_field_of_inet_headers(void) {
    uint8_t bytes[SOCKDIAG_INET_ATTRIBUTES];
    struct sockdiag_inet_header it;
    uint8_t timer;
    for (timer = 0; timer < 6; timer++) {
        number_bytes(bytes, sizeof bytes);
        bytes[0] = 10;
        bytes[1] = 11;
        bytes[2] = timer;
        memset(&it, UNTOUCHED, sizeof it);
        check(sockdiag_check_inet_reply(bytes, sizeof bytes, &it) == SOCKDIAG_OK, "a timer");
        FIELD(it.retransmits, bytes + 3);
        FIELD(it.expires, bytes + 52);
        check_inet_header(&it, bytes);
    }
}

/* Checks the fields of 4 bytes, which are consecutive in struct tcp_info. */
static void check_words_of_tcp_info(const struct sockdiag_tcp_info *it, const uint8_t *at) {
    const uint32_t first[24] = {
        it->rto, it->ato, it->snd_mss, it->rcv_mss, it->unacked, it->sacked, it->lost, it->retrans,
        it->fackets, it->last_data_sent, it->last_ack_sent, it->last_data_recv, it->last_ack_recv,
        it->pmtu, it->rcv_ssthresh, it->rtt, it->rttvar, it->snd_ssthresh, it->snd_cwnd, it->advmss,
        it->reordering, it->rcv_rtt, it->rcv_space, it->total_retrans,
    };
    const uint32_t second[6] = {
        it->segs_out, it->segs_in, it->notsent_bytes, it->min_rtt, it->data_segs_in,
        it->data_segs_out,
    };
    const uint32_t third[2] = {it->delivered, it->delivered_ce};
    const uint32_t fourth[4] = {it->dsack_dups, it->reord_seen, it->rcv_ooopack, it->snd_wnd};
    check(memcmp(first, at + 8, sizeof first) == 0, "tcp_info from 8 on");
    check(memcmp(second, at + 136, sizeof second) == 0, "tcp_info from 136 on");
    check(memcmp(third, at + 192, sizeof third) == 0, "tcp_info from 192 on");
    check(memcmp(fourth, at + 216, sizeof fourth) == 0, "tcp_info from 216 on");
}

/* Checks the fields of 1 and of 8 bytes, which are consecutive in struct tcp_info. */
static void check_tcp_info(const struct sockdiag_tcp_info *it, const uint8_t *at) {
    const uint8_t first[8] = {
        it->state, it->ca_state, it->retransmits, it->probes, it->backoff, it->options, it->wscale,
        it->delivery_rate_app_limited,
    };
    const uint64_t second[4] = {
        it->pacing_rate, it->max_pacing_rate, it->bytes_acked, it->bytes_received,
    };
    const uint64_t third[4] = {
        it->delivery_rate, it->busy_time, it->rwnd_limited, it->sndbuf_limited,
    };
    const uint64_t fourth[2] = {it->bytes_sent, it->bytes_retrans};
    check(memcmp(first, at, sizeof first) == 0, "tcp_info from 0 on");
    check(memcmp(second, at + 104, sizeof second) == 0, "tcp_info from 104 on");
    check(memcmp(third, at + 160, sizeof third) == 0, "tcp_info from 160 on");
    check(memcmp(fourth, at + 200, sizeof fourth) == 0, "tcp_info from 200 on");
}

static void reads_each_field_of_records(void) {
    uint8_t bytes[400], value[232];
    const uint8_t *memory = value + 100;
    struct sockdiag_tcp_info info;
    struct sockdiag_inet_details details;
    const struct sockdiag_memory *it = &details.memory;
    size_t end, length;
    memset(&info, UNTOUCHED, sizeof info);
    memset(&details, UNTOUCHED, sizeof details);
    number_bytes(value, sizeof value);
    memcpy(bytes, inet_reply, 72);
    end = put(bytes, 72, SOCKDIAG_INET_DIAG_INFO, value, sizeof value);
    end = put(bytes, end, SOCKDIAG_INET_DIAG_SKMEMINFO, memory, 36);
    check(sockdiag_inet_get_tcp_info(bytes, end, &info, sizeof info, &length) == SOCKDIAG_OK &&
          length == 232, "the fields of a TCP connection to 232");
    check_tcp_info(&info, value);
    check_words_of_tcp_info(&info, value);
    check(sockdiag_inet_get_details(bytes, end, &details, sizeof details) == SOCKDIAG_OK,
          "all fields of memory");
    FIELD(it->receive_queue.value, memory);
    FIELD(it->receive_queue_max.value, memory + 4);
    FIELD(it->bottom_send_queues.value, memory + 8);
    FIELD(it->send_queue_max.value, memory + 12);
    FIELD(it->cache.value, memory + 16);
    FIELD(it->send_queue.value, memory + 20);
    FIELD(it->options.value, memory + 24);
    FIELD(it->backlog_queue_length.value, memory + 28);
    FIELD(it->drops.value, memory + 32);
}

/* The messages of make_datagram: sequence number 7, port 9, flags 2. */
static void follows_a_dump(void) {
    uint8_t bytes[128];
    const size_t length = make_datagram(bytes);
    struct sockdiag_cursor cursor = {0};
    struct sockdiag_message message;
    int messages;
    for (messages = 0; messages < 4; messages++) {
        check(sockdiag_next_any_message(bytes, length, &cursor, &message) == SOCKDIAG_ITEM,
              "a message, whatever its payload is");
        check(sockdiag_is_answer(&message, 7, 9), "an answer");
        check(!sockdiag_is_answer(&message, 8, 9), "a message with another sequence number");
        check(!sockdiag_is_answer(&message, 7, 0), "a message for another socket");
        check(!sockdiag_is_interrupted(&message), "a dump that is not interrupted");
        check(sockdiag_ends_answer(&message) == (messages == 3), "the end of an answer");
    }
    check(message.message_type == SOCKDIAG_NLMSG_DONE && message.offset == 108, "the end");
    check(sockdiag_next_any_message(bytes, length, &cursor, &message) == SOCKDIAG_ENVELOPE_CUT,
          "two remaining bytes after messages");
    check(sockdiag_next_any_message(bytes, length, &cursor, &message) == SOCKDIAG_END,
          "the end of an iteration over all messages");
    message.flags = 0x12;
    check(sockdiag_is_interrupted(&message), "a dump that is interrupted");
    message.message_type = SOCKDIAG_NLMSG_ERROR;
    check(sockdiag_ends_answer(&message), "an error");
    message.message_type = SOCKDIAG_NLMSG_OVERRUN;
    check(!sockdiag_ends_answer(&message), "lost data");
}

/* The version, and a constant of each enum with the number in the kernel's headers. */
static void has_numbers(void) {
    unsigned first, second, third;
    check(sscanf(SOCKDIAG_VERSION, "%u.%u.%u", &first, &second, &third) == 3 &&
          SOCKDIAG_VERSION_NUMBER == 1000000 * first + 1000 * second + third, "the version");
    check(sockdiag_version() == SOCKDIAG_VERSION_NUMBER, "the version of the library");
    check(SOCKDIAG_NETLINK_SOCK_DIAG == NETLINK_SOCK_DIAG &&
          SOCKDIAG_SOCK_DIAG_BY_FAMILY == SOCK_DIAG_BY_FAMILY &&
          SOCKDIAG_NLMSG_DONE == NLMSG_DONE && SOCKDIAG_NLM_F_DUMP_INTR == NLM_F_DUMP_INTR,
          "constants of netlink");
    check(SOCKDIAG_NLA_TYPE_MASK == (uint16_t)NLA_TYPE_MASK, "the bits of a kind");
    check(SOCKDIAG_TCP_ESTABLISHED == 1 && SOCKDIAG_TCP_CLOSE == 7 && SOCKDIAG_TCP_LISTEN == 10 &&
          SOCKDIAG_TCP_BOUND_INACTIVE == 13, "states");
    check((int)SOCKDIAG_UDIAG_SHOW_ICONS == UDIAG_SHOW_ICONS &&
          (int)SOCKDIAG_UNIX_DIAG_ICONS == UNIX_DIAG_ICONS, "constants of UNIX sockets");
    check((int)SOCKDIAG_INET_DIAG_CONG == INET_DIAG_CONG &&
          (int)SOCKDIAG_INET_DIAG_REQ_BYTECODE == INET_DIAG_REQ_BYTECODE,
          "constants of internet sockets");
    check(SOCKDIAG_TCP_CA_LOSS == 4 && SOCKDIAG_TCPI_OPT_ECN == 8, "constants of connections");
    check(SOCKDIAG_NDIAG_SHOW_FLAGS == 8 && SOCKDIAG_XDP_SHOW_STATS == 16, "other families");
    check((int)SOCKDIAG_SKNLGRP_INET6_UDP_DESTROY == SKNLGRP_INET6_UDP_DESTROY &&
          (int)SOCKDIAG_SK_DIAG_BPF_STORAGE_MAP_VALUE == SK_DIAG_BPF_STORAGE_MAP_VALUE,
          "groups and storages");
    check(SOCKDIAG_NETLINK_DIAG_FLAGS == 4 && SOCKDIAG_PACKET_DIAG_FILTER == 7 &&
          SOCKDIAG_XDP_DIAG_STATS == 9, "attributes of other families");
}

int main(void) {
    checks_unix();
    checks_inet();
    checks_messages();
    tells_unix_details();
    tells_inet_details();
    tells_numbers_in_words();
    finds_error_attributes();
    walks_attributes();
    walks_messages();
    writes_unix_request();
    writes_inet_request();
    writes_family_requests();
    writes_filtered_request();
    parses_filters();
    rewrites_unix_reply();
    rewrites_inet_reply();
    reads_each_field_of_inet_headers();
    reads_each_field_of_records();
    follows_a_dump();
    has_numbers();
    return end_of_tests("c_api");
}

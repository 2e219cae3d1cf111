/*
 * libmnl CAPTURE            prints the least time per reply of each subject
 * libmnl CAPTURE SUBJECT    parses the dumps once, by the function pass_SUBJECT
 *
 * CAPTURE is a pcap file of netlink messages that bench/dumps.py wrote. The subjects check, strict
 * and lenient are calls of the C library. The subject libmnl is a program over libmnl that fills
 * the same structs, and checks the lengths of the same attributes. The subject macros fills them by
 * the macros of the kernel's headers, and checks only the framing. Sums of the fields are compared.
 * bench/tools.py builds and runs this program.
 */
#include "sockdiag.h"

#include <arpa/inet.h>
#include <libmnl/libmnl.h>
#include <linux/inet_diag.h>
#include <linux/rtnetlink.h>
#include <linux/sock_diag.h>
#include <linux/tcp.h>
#include <linux/unix_diag.h>
#include <stdio.h>
#include <stdlib.h>
#include <string.h>
#include <sys/socket.h>
#include <time.h>

#define ROUNDS 400
#define MOST_DATAGRAMS 4096

/* Received datagrams, and what was parsed in them. */
struct dumps {
    size_t count;
    uint8_t *datagrams[MOST_DATAGRAMS];
    size_t lengths[MOST_DATAGRAMS];
    size_t replies;
    size_t rejected;
    uint64_t sum; /* Of the fields that add_unix and add_inet name. */
};

static void add_unix(struct dumps *dumps, const struct sockdiag_unix_details *it) {
    dumps->sum += it->header.inode + it->peer.value + it->send_queue.value + it->name.length +
                  it->memory.receive_queue_max.value + it->shutdown.value;
}

static void add_inet(struct dumps *dumps, const struct sockdiag_inet_details *it) {
    dumps->sum += it->header.inode + it->header.source_port + it->congestion.length +
                  it->protocol.value + it->shutdown.value + it->class_id.value;
}

/* ---- the C library */

typedef uint32_t parse(struct dumps *dumps, const uint8_t *payload, size_t length);

static uint32_t check(struct dumps *dumps, const uint8_t *payload, size_t length) {
    struct sockdiag_unix_header unix_header;
    struct sockdiag_inet_header inet_header;
    uint32_t error;
    if (payload[0] == AF_UNIX) {
        error = sockdiag_check_unix_reply(payload, length, &unix_header);
        dumps->sum += error == SOCKDIAG_OK ? unix_header.inode : 0;
    } else {
        error = sockdiag_check_inet_reply(payload, length, &inet_header);
        dumps->sum += error == SOCKDIAG_OK ? inet_header.inode : 0;
    }
    return error;
}

static uint32_t strict(struct dumps *dumps, const uint8_t *payload, size_t length) {
    struct sockdiag_unix_details unix_details;
    struct sockdiag_inet_details inet_details;
    uint32_t error;
    if (payload[0] == AF_UNIX) {
        error = sockdiag_unix_get_details(payload, length, &unix_details, sizeof unix_details);
        if (error == SOCKDIAG_OK)
            add_unix(dumps, &unix_details);
    } else {
        error = sockdiag_inet_get_details(payload, length, &inet_details, sizeof inet_details);
        if (error == SOCKDIAG_OK)
            add_inet(dumps, &inet_details);
    }
    return error;
}

static uint32_t lenient(struct dumps *dumps, const uint8_t *payload, size_t length) {
    struct sockdiag_unix_details unix_details;
    struct sockdiag_inet_details inet_details;
    struct sockdiag_rejections rejections;
    uint32_t error;
    if (payload[0] == AF_UNIX) {
        error = sockdiag_unix_get_lenient_details(payload, length, &unix_details,
                                                  sizeof unix_details,
                                                 &rejections);
        if (error == SOCKDIAG_OK)
            add_unix(dumps, &unix_details);
    } else {
        error = sockdiag_inet_get_lenient_details(payload, length, &inet_details,
                                                  sizeof inet_details,
                                                 &rejections);
        if (error == SOCKDIAG_OK)
            add_inet(dumps, &inet_details);
    }
    return error;
}

static inline void walk(struct dumps *dumps, parse *parse_reply) {
    struct sockdiag_message message;
    size_t index;
    for (index = 0; index < dumps->count; index++) {
        const uint8_t *datagram = dumps->datagrams[index];
        struct sockdiag_cursor cursor = {0};
        while (sockdiag_next_any_message(datagram, dumps->lengths[index], &cursor, &message) ==
               SOCKDIAG_ITEM) {
            if (sockdiag_ends_answer(&message) || sockdiag_is_interrupted(&message))
                continue;
            dumps->replies++;
            dumps->rejected +=
                parse_reply(dumps, datagram + message.offset, message.length) != SOCKDIAG_OK;
        }
    }
}

void pass_check(struct dumps *dumps) {
    walk(dumps, check);
}

void pass_strict(struct dumps *dumps) {
    walk(dumps, strict);
}

void pass_lenient(struct dumps *dumps) {
    walk(dumps, lenient);
}

/* ---- libmnl */

/* Length of the value of each kind: of a number, or the least of a struct. It is 0 for texts and
 * for kinds that are not used here. */
static const size_t unix_lengths[UNIX_DIAG_MAX + 1] = {
    [UNIX_DIAG_VFS] = sizeof(struct unix_diag_vfs),
    [UNIX_DIAG_PEER] = 4,
    [UNIX_DIAG_RQLEN] = sizeof(struct unix_diag_rqlen),
    [UNIX_DIAG_MEMINFO] = 9 * 4,
    [UNIX_DIAG_SHUTDOWN] = 1,
    [UNIX_DIAG_UID] = 4,
};
static const size_t inet_lengths[INET_DIAG_MAX + 1] = {
    [INET_DIAG_MEMINFO] = sizeof(struct inet_diag_meminfo),
    [INET_DIAG_INFO] = 232,
    [INET_DIAG_TOS] = 1,
    [INET_DIAG_TCLASS] = 1,
    [INET_DIAG_SKMEMINFO] = 9 * 4,
    [INET_DIAG_SHUTDOWN] = 1,
    [INET_DIAG_PROTOCOL] = 1,
    [INET_DIAG_SKV6ONLY] = 1,
    [INET_DIAG_MARK] = 4,
    [INET_DIAG_CLASS_ID] = 4,
    [INET_DIAG_CGROUP_ID] = 8,
    [INET_DIAG_SOCKOPT] = 2,
};

/* The first attribute of each kind, and the least lengths of their values. */
struct table {
    const size_t *lengths;
    uint16_t most;
    const struct nlattr *first[INET_DIAG_MAX + 1];
};

/* Returns whether a value has the length of a number, or at least that of a struct. */
static int is_valid(const struct nlattr *attribute, size_t length) {
    switch (length) {
    case 1:
        return mnl_attr_validate(attribute, MNL_TYPE_U8) == 0;
    case 4:
        return mnl_attr_validate(attribute, MNL_TYPE_U32) == 0;
    default:
        return mnl_attr_get_payload_len(attribute) >= length;
    }
}

static int store(const struct nlattr *attribute, void *data) {
    struct table *table = data;
    const uint16_t kind = mnl_attr_get_type(attribute);
    if (mnl_attr_type_valid(attribute, table->most) < 0)
        return MNL_CB_OK;
    if (!is_valid(attribute, table->lengths[kind]))
        return MNL_CB_ERROR;
    if (table->first[kind] == NULL)
        table->first[kind] = attribute;
    return MNL_CB_OK;
}

static void set(struct sockdiag_number *number, uint32_t value) {
    number->is_set = 1;
    number->value = value;
}

static void set_u8(struct sockdiag_number *number, const struct nlattr *attribute) {
    if (attribute != NULL)
        set(number, mnl_attr_get_u8(attribute));
}

static void set_u32(struct sockdiag_number *number, const struct nlattr *attribute) {
    if (attribute != NULL)
        set(number, mnl_attr_get_u32(attribute));
}

/* An abstract name follows a NUL. A path ends with one. */
static void set_name(struct sockdiag_text *text, const struct nlattr *attribute) {
    const uint8_t *bytes = mnl_attr_get_payload(attribute);
    const size_t length = mnl_attr_get_payload_len(attribute);
    const int is_abstract = length > 0 && bytes[0] == 0;
    text->kind = is_abstract ? SOCKDIAG_ABSTRACT : SOCKDIAG_TEXT;
    text->bytes = is_abstract ? bytes + 1 : bytes;
    text->length = is_abstract ? length - 1 : strnlen((const char *)bytes, length);
}

static void set_memory(struct sockdiag_memory *it, const struct nlattr *attribute) {
    const uint32_t *memory = mnl_attr_get_payload(attribute);
    set(&it->receive_queue, memory[SK_MEMINFO_RMEM_ALLOC]);
    set(&it->receive_queue_max, memory[SK_MEMINFO_RCVBUF]);
    set(&it->bottom_send_queues, memory[SK_MEMINFO_WMEM_ALLOC]);
    set(&it->send_queue_max, memory[SK_MEMINFO_SNDBUF]);
    set(&it->cache, memory[SK_MEMINFO_FWD_ALLOC]);
    set(&it->send_queue, memory[SK_MEMINFO_WMEM_QUEUED]);
    set(&it->options, memory[SK_MEMINFO_OPTMEM]);
    set(&it->backlog_queue_length, memory[SK_MEMINFO_BACKLOG]);
    set(&it->drops, memory[SK_MEMINFO_DROPS]);
}

static void fill_unix(struct sockdiag_unix_details *it, const struct unix_diag_msg *message,
                      const struct nlattr *const *first) {
    memset(it, 0, sizeof *it);
    it->header.kind = message->udiag_type;
    it->header.state = message->udiag_state;
    it->header.inode = message->udiag_ino;
    memcpy(it->header.cookie, message->udiag_cookie, sizeof it->header.cookie);
    if (first[UNIX_DIAG_NAME] != NULL)
        set_name(&it->name, first[UNIX_DIAG_NAME]);
    if (first[UNIX_DIAG_VFS] != NULL) {
        const struct unix_diag_vfs *vfs = mnl_attr_get_payload(first[UNIX_DIAG_VFS]);
        set(&it->file_inode, vfs->udiag_vfs_ino);
        set(&it->file_device, vfs->udiag_vfs_dev);
    }
    set_u32(&it->peer, first[UNIX_DIAG_PEER]);
    if (first[UNIX_DIAG_RQLEN] != NULL) {
        const struct unix_diag_rqlen *queues = mnl_attr_get_payload(first[UNIX_DIAG_RQLEN]);
        set(&it->recv_queue, queues->udiag_rqueue);
        set(&it->send_queue, queues->udiag_wqueue);
    }
    if (first[UNIX_DIAG_MEMINFO] != NULL)
        set_memory(&it->memory, first[UNIX_DIAG_MEMINFO]);
    set_u8(&it->shutdown, first[UNIX_DIAG_SHUTDOWN]);
    set_u32(&it->owner, first[UNIX_DIAG_UID]);
}

static void fill_inet(struct sockdiag_inet_details *it, const struct inet_diag_msg *message,
                      const struct nlattr *const *first) {
    const size_t length = message->idiag_family == AF_INET ? 4 : 16;
    memset(it, 0, sizeof *it);
    it->header.family = message->idiag_family;
    it->header.state = message->idiag_state;
    it->header.timer = message->idiag_timer;
    it->header.retransmits = message->idiag_retrans;
    it->header.expires = message->idiag_expires;
    it->header.source_port = ntohs(message->id.idiag_sport);
    it->header.destination_port = ntohs(message->id.idiag_dport);
    memcpy(it->header.source_address, message->id.idiag_src, length);
    memcpy(it->header.destination_address, message->id.idiag_dst, length);
    it->header.interface_id = message->id.idiag_if;
    memcpy(it->header.cookie, message->id.idiag_cookie, sizeof it->header.cookie);
    it->header.recv_queue = message->idiag_rqueue;
    it->header.send_queue = message->idiag_wqueue;
    it->header.uid = message->idiag_uid;
    it->header.inode = message->idiag_inode;
    if (first[INET_DIAG_CONG] != NULL) {
        it->congestion.kind = SOCKDIAG_TEXT;
        it->congestion.bytes = mnl_attr_get_payload(first[INET_DIAG_CONG]);
        it->congestion.length = strnlen(mnl_attr_get_str(first[INET_DIAG_CONG]),
                                        mnl_attr_get_payload_len(first[INET_DIAG_CONG]));
    }
    set_u8(&it->tos, first[INET_DIAG_TOS]);
    set_u8(&it->tclass, first[INET_DIAG_TCLASS]);
    set_u8(&it->shutdown, first[INET_DIAG_SHUTDOWN]);
    set_u8(&it->protocol, first[INET_DIAG_PROTOCOL]);
    set_u8(&it->v6only, first[INET_DIAG_SKV6ONLY]);
    set_u32(&it->mark, first[INET_DIAG_MARK]);
    set_u32(&it->class_id, first[INET_DIAG_CLASS_ID]);
    if (first[INET_DIAG_SKMEMINFO] != NULL)
        set_memory(&it->memory, first[INET_DIAG_SKMEMINFO]);
    if (first[INET_DIAG_MEMINFO] != NULL) {
        it->has_legacy_memory = 1;
        memcpy(&it->legacy_memory, mnl_attr_get_payload(first[INET_DIAG_MEMINFO]),
               sizeof it->legacy_memory);
    }
    if (first[INET_DIAG_CGROUP_ID] != NULL) {
        it->has_cgroup_id = 1;
        it->cgroup_id = mnl_attr_get_u64(first[INET_DIAG_CGROUP_ID]);
    }
    if (first[INET_DIAG_SOCKOPT] != NULL)
        set(&it->options, mnl_attr_get_u16(first[INET_DIAG_SOCKOPT]));
}

/* Fills the struct of a reply, of which the table has the attributes. */
static void fill(struct dumps *dumps, const uint8_t *payload, const struct table *table) {
    struct sockdiag_unix_details unix_details;
    struct sockdiag_inet_details inet_details;
    if (payload[0] == AF_UNIX) {
        fill_unix(&unix_details, (const void *)payload, table->first);
        add_unix(dumps, &unix_details);
    } else {
        fill_inet(&inet_details, (const void *)payload, table->first);
        add_inet(dumps, &inet_details);
    }
}

/* Makes the table empty, for a reply of this family. */
static void clear(struct table *table, uint8_t family) {
    memset(table, 0, sizeof *table);
    table->lengths = family == AF_UNIX ? unix_lengths : inet_lengths;
    table->most = family == AF_UNIX ? UNIX_DIAG_MAX : INET_DIAG_MAX;
}

/* Returns the length of the header of a reply. */
static size_t header_for(uint8_t family) {
    return family == AF_UNIX ? sizeof(struct unix_diag_msg) : sizeof(struct inet_diag_msg);
}

static int parse_message(const struct nlmsghdr *message, void *data) {
    struct dumps *dumps = data;
    const uint8_t *payload = mnl_nlmsg_get_payload(message);
    const size_t header = header_for(payload[0]);
    struct table table;
    clear(&table, payload[0]);
    dumps->replies++;
    if (mnl_nlmsg_get_payload_len(message) >= header &&
        mnl_attr_parse(message, (unsigned)header, store, &table) >= 0)
        fill(dumps, payload, &table);
    else
        dumps->rejected++;
    return MNL_CB_OK;
}

void pass_libmnl(struct dumps *dumps) {
    size_t index;
    for (index = 0; index < dumps->count; index++)
        if (mnl_cb_run(dumps->datagrams[index], dumps->lengths[index], 0, 0, parse_message,
                       dumps) < 0)
            dumps->rejected++;
}

/* ---- macros of the kernel's headers, as in ss(8) */

/* Stores the attributes. Their lengths are not compared with those of their kinds. */
static void parse_unchecked(struct dumps *dumps, const struct nlmsghdr *message) {
    const uint8_t *payload = NLMSG_DATA(message);
    const size_t header = header_for(payload[0]);
    const struct rtattr *attribute = (const void *)(payload + header);
    size_t left = message->nlmsg_len - NLMSG_LENGTH(header);
    struct table table;
    clear(&table, payload[0]);
    for (; RTA_OK(attribute, left); attribute = RTA_NEXT(attribute, left)) {
        const uint16_t kind = attribute->rta_type & NLA_TYPE_MASK;
        if (kind <= table.most && table.first[kind] == NULL)
            table.first[kind] = (const struct nlattr *)(const void *)attribute;
    }
    dumps->replies++;
    fill(dumps, payload, &table);
}

void pass_macros(struct dumps *dumps) {
    size_t index;
    for (index = 0; index < dumps->count; index++) {
        const struct nlmsghdr *message = (const void *)dumps->datagrams[index];
        size_t left = dumps->lengths[index];
        for (; NLMSG_OK(message, left); message = NLMSG_NEXT(message, left))
            if (message->nlmsg_type == SOCKDIAG_SOCK_DIAG_BY_FAMILY)
                parse_unchecked(dumps, message);
    }
}

/* ---- the measurements */

struct subject {
    const char *name;
    void (*pass)(struct dumps *dumps);
    double least; /* Nanoseconds. */
};

static struct subject subjects[] = {
    {"check", pass_check, 1e18},
    {"strict", pass_strict, 1e18},
    {"lenient", pass_lenient, 1e18},
    {"libmnl", pass_libmnl, 1e18},
    {"macros", pass_macros, 1e18},
};
#define SUBJECTS (sizeof subjects / sizeof *subjects)

static uint32_t number_at(const uint8_t *bytes) {
    uint32_t number;
    memcpy(&number, bytes, sizeof number);
    return number;
}

/* Reads the packets of a capture, except requests. Each has a cooked header of 16 bytes. */
static int read_dumps(struct dumps *dumps, const char *path) {
    uint8_t head[24], packet[16];
    FILE *file = fopen(path, "rb");
    if (file == NULL || fread(head, sizeof head, 1, file) != 1 || number_at(head) != 0xa1b2c3d4u)
        return -1;
    while (dumps->count < MOST_DATAGRAMS && fread(packet, sizeof packet, 1, file) == 1) {
        const size_t length = number_at(packet + 8) - 16;
        uint8_t *datagram = malloc(length);
        if (datagram == NULL || fread(head, 16, 1, file) != 1 ||
            fread(datagram, length, 1, file) != 1)
            return -1;
        if (((const struct nlmsghdr *)(const void *)datagram)->nlmsg_flags & NLM_F_REQUEST) {
            free(datagram);
            continue;
        }
        dumps->datagrams[dumps->count] = datagram;
        dumps->lengths[dumps->count++] = length;
    }
    return fclose(file);
}

static double now(void) {
    struct timespec time;
    clock_gettime(CLOCK_MONOTONIC, &time);
    return (double)time.tv_sec * 1e9 + (double)time.tv_nsec;
}

static void run(struct dumps *dumps, struct subject *subject) {
    double start, end;
    dumps->replies = dumps->rejected = dumps->sum = 0;
    start = now();
    subject->pass(dumps);
    end = now();
    if (end - start < subject->least)
        subject->least = end - start;
}

/* Measures the subjects in turn. Returns 0 if all of them that fill details have equal sums. */
static int measure(struct dumps *dumps) {
    uint64_t sums[SUBJECTS];
    size_t index, round;
    for (round = 0; round < ROUNDS; round++)
        for (index = 0; index < SUBJECTS; index++) {
            run(dumps, &subjects[index]);
            sums[index] = dumps->sum;
            if (dumps->rejected != 0)
                return fprintf(stderr, "%s: %zu replies or dumps are rejected\n",
                               subjects[index].name, dumps->rejected), -1;
        }
    for (index = 0; index < SUBJECTS; index++)
        printf("%s %zu %.1f\n", subjects[index].name, dumps->replies,
               subjects[index].least / (double)dumps->replies);
    for (index = 2; index < SUBJECTS; index++)
        if (sums[index] != sums[1])
            return fputs("sums differ\n", stderr), -1;
    return 0;
}

int main(int argc, char **argv) {
    static struct dumps dumps;
    size_t index;
    if (argc < 2 || argc > 3)
        return fputs("usage: libmnl CAPTURE [SUBJECT]\n", stderr), 2;
    if (read_dumps(&dumps, argv[1]) != 0)
        return fputs("libmnl: the capture cannot be read\n", stderr), 1;
    if (argc == 2)
        return measure(&dumps) != 0;
    for (index = 0; index < SUBJECTS; index++)
        if (strcmp(subjects[index].name, argv[2]) == 0)
            run(&dumps, &subjects[index]);
    return dumps.replies == 0;
}

/*
 * sockdump: requests the sockets of this machine from the kernel, and writes the requests and the
 * answers as a capture to standard output, for sslist: see sockdump(1).
 *
 * Each kind is requested from NETLINK_SOCK_DIAG by a dump request, as sock_diag(7) shows, in all
 * states unless FILTER names some, and with the attributes that sslist decodes. The capture is in
 * pcap format with link type 253 (LINKTYPE_NETLINK).
 *
 * Only a FILTER needs the C library: compile with -DWITH_FILTERS, and link with -lsockdiag. The
 * program is valid C99 and C++.
 */
#ifndef _GNU_SOURCE
#define _GNU_SOURCE /* For setns. */
#endif
#define PROGRAM "sockdump"

#include "kernel.h"

#ifdef WITH_FILTERS
#include "sockdiag.h"
#endif

#include <linux/inet_diag.h>
#include <linux/netlink_diag.h>
#include <linux/packet_diag.h>
#include <linux/sock_diag.h>
#include <linux/unix_diag.h>
#include <linux/vm_sockets_diag.h>
#include <linux/xdp_diag.h>
#include <netinet/in.h>
#include <poll.h>
#include <signal.h>
#include <stdint.h>
#include <stdio.h>
#include <stdlib.h>
#include <string.h>
#include <sys/socket.h>
#include <time.h>
#include <unistd.h>

#define VERSION "1.0.0"

/* Missing in older headers of the C library. */
#define PROTOCOL_MPTCP 262
#define FAMILY_VSOCK 40
#define FAMILY_XDP 44

/* Largest length of a packet that sslist reads, in bytes. */
#define SNAPSHOT_LENGTH 262144

/* Length of the cooked header before each datagram, in bytes. */
#define COOKED_LENGTH 16

/* Longest time between the starts of two rounds, in seconds. */
#define MOST_SECONDS 86400

/* A request for the sockets of one kind. */
struct request {
    struct nlmsghdr header;
    union {
        struct unix_diag_req unix_sockets;
        struct {
            struct inet_diag_req_v2 fixed;
            struct nlattr head; /* INET_DIAG_REQ_PROTOCOL, for a protocol above 255. */
            uint32_t protocol;
        } inet;
        struct netlink_diag_req netlink;
        struct packet_diag_req packet;
        struct vsock_diag_req vsock;
        struct xdp_diag_req xdp;
    } body;
};

/* A kind of socket: its name as an argument, its family and protocol, and the function that fills
 * the body of its request for sockets in these states, and returns the length of the body. */
struct kind {
    const char *name;
    const char *module; /* The module of the kernel that lists such sockets. */
    uint8_t family;
    uint16_t protocol;
    size_t (*fill)(struct request *request, const struct kind *kind, uint32_t states);
};

/* What the kernel selects: states, and an attribute INET_DIAG_REQ_BYTECODE for internet sockets. */
struct filter {
    uint32_t states;
    size_t length; /* Length of the attribute in bytes, or 0. */
    uint8_t attribute[8192];
};

/* A datagram that was sent or received. */
struct datagram {
    struct timespec time;
    size_t length; /* Its length in bytes, of which at most sizeof data are stored. */
    union {
        struct nlmsghdr aligned;
        uint8_t bytes[1 << 16];
    } data;
};

static size_t stored_length(const struct datagram *it) {
    return it->length < sizeof it->data ? it->length : sizeof it->data;
}

static size_t fill_unix(struct request *request, const struct kind *kind, uint32_t states) {
    request->body.unix_sockets.sdiag_family = kind->family;
    request->body.unix_sockets.udiag_states = states;
    request->body.unix_sockets.udiag_show = UDIAG_SHOW_NAME | UDIAG_SHOW_VFS | UDIAG_SHOW_PEER
                                          | UDIAG_SHOW_ICONS | UDIAG_SHOW_RQLEN
                                          | UDIAG_SHOW_MEMINFO | UDIAG_SHOW_UID;
    return sizeof request->body.unix_sockets;
}

static size_t fill_inet(struct request *request, const struct kind *kind, uint32_t states) {
    request->body.inet.fixed.sdiag_family = kind->family;
    request->body.inet.fixed.sdiag_protocol = (uint8_t)kind->protocol;
    request->body.inet.fixed.idiag_ext = UINT8_MAX;
    request->body.inet.fixed.idiag_states = states;
    if (kind->protocol <= UINT8_MAX)
        return sizeof request->body.inet.fixed;
    /* Some kernels without MPTCP ignore the attribute. By the low byte of the protocol,
     * IPPROTO_TCP, they would list TCP sockets. For 0 they answer with ENOENT. */
    request->body.inet.fixed.sdiag_protocol = 0;
    request->body.inet.head.nla_type = INET_DIAG_REQ_PROTOCOL;
    request->body.inet.head.nla_len = sizeof request->body.inet.head
                                    + sizeof request->body.inet.protocol;
    request->body.inet.protocol = kind->protocol;
    return sizeof request->body.inet;
}

static size_t fill_netlink(struct request *request, const struct kind *kind, uint32_t states) {
    (void)states;
    request->body.netlink.sdiag_family = kind->family;
    request->body.netlink.sdiag_protocol = NDIAG_PROTO_ALL;
    request->body.netlink.ndiag_show = NDIAG_SHOW_MEMINFO | NDIAG_SHOW_GROUPS | NDIAG_SHOW_FLAGS;
    return sizeof request->body.netlink;
}

static size_t fill_packet(struct request *request, const struct kind *kind, uint32_t states) {
    (void)states;
    request->body.packet.sdiag_family = kind->family;
    request->body.packet.pdiag_show = PACKET_SHOW_INFO | PACKET_SHOW_MCLIST | PACKET_SHOW_RING_CFG
                                    | PACKET_SHOW_FANOUT | PACKET_SHOW_MEMINFO
                                    | PACKET_SHOW_FILTER;
    return sizeof request->body.packet;
}

static size_t fill_vsock(struct request *request, const struct kind *kind, uint32_t states) {
    request->body.vsock.sdiag_family = kind->family;
    request->body.vsock.vdiag_states = states;
    return sizeof request->body.vsock;
}

static size_t fill_xdp(struct request *request, const struct kind *kind, uint32_t states) {
    (void)states;
    request->body.xdp.sdiag_family = kind->family;
    request->body.xdp.xdiag_show = XDP_SHOW_INFO | XDP_SHOW_RING_CFG | XDP_SHOW_UMEM
                                 | XDP_SHOW_MEMINFO | XDP_SHOW_STATS;
    return sizeof request->body.xdp;
}

/* The answer to a request for TCP or UDP sockets does not contain the protocol. sslist takes it
 * from the request, which it finds among the last 16. */
static const struct kind kinds[] = {
    {"unix", "unix_diag", AF_UNIX, 0, fill_unix},
    {"tcp", "tcp_diag", AF_INET, IPPROTO_TCP, fill_inet},
    {"tcp", "tcp_diag", AF_INET6, IPPROTO_TCP, fill_inet},
    {"udp", "udp_diag", AF_INET, IPPROTO_UDP, fill_inet},
    {"udp", "udp_diag", AF_INET6, IPPROTO_UDP, fill_inet},
    {"mptcp", "mptcp_diag", AF_INET, PROTOCOL_MPTCP, fill_inet},
    {"mptcp", "mptcp_diag", AF_INET6, PROTOCOL_MPTCP, fill_inet},
    {"raw", "raw_diag", AF_INET, IPPROTO_RAW, fill_inet},
    {"raw", "raw_diag", AF_INET6, IPPROTO_RAW, fill_inet},
    {"netlink", "netlink_diag", AF_NETLINK, 0, fill_netlink},
    {"packet", "af_packet_diag", AF_PACKET, 0, fill_packet},
    {"vsock", "vsock_diag", FAMILY_VSOCK, 0, fill_vsock},
    {"xdp", "xsk_diag", FAMILY_XDP, 0, fill_xdp},
};

enum { KINDS = sizeof kinds / sizeof kinds[0] };

/* A group of messages about destroyed sockets, and the protocol of the sockets. */
struct group {
    const char *protocol;
    int number;
};

static const struct group groups[] = {
    {"tcp", SKNLGRP_INET_TCP_DESTROY},
    {"tcp", SKNLGRP_INET6_TCP_DESTROY},
    {"udp", SKNLGRP_INET_UDP_DESTROY},
    {"udp", SKNLGRP_INET6_UDP_DESTROY},
};

enum { GROUPS = sizeof groups / sizeof groups[0] };

/* What the arguments select. */
struct selection {
    uint8_t is_named[KINDS];
    int has_names; /* Whether a kind is named. If not, all are requested. */
    int seconds;   /* Time between the starts of two rounds, or 0 for one round. */
    uint8_t is_joined[GROUPS];
    int has_events;         /* Whether a group is joined. Then nothing is requested. */
    const char *name_space; /* The file of a network namespace to enter, or NULL. */
    struct filter filter;
};

/* The exit status after the readers of the pipe have closed it. */
static volatile sig_atomic_t closed_status;

static int write_bytes(const void *bytes, size_t length) {
    return fwrite(bytes, 1, length, stdout) == length ? 0 : fail("standard output");
}

/* Writes the header of the capture, in the byte order of this machine. */
static int write_file_header(void) {
    const uint16_t version[2] = {2, 4};
    uint32_t header[6] = {0xa1b2c3d4, 0, 0, 0, SNAPSHOT_LENGTH, 253};
    memcpy(&header[1], version, sizeof version);
    return write_bytes(header, sizeof header);
}

/* Writes a packet: its time and lengths, the cooked header with the hardware type ARPHRD_NETLINK
 * (824) and the protocol NETLINK_SOCK_DIAG (4), and the datagram. */
static int write_packet(const struct datagram *it) {
    static const uint8_t cooked[COOKED_LENGTH] = {0, 4, 3, 0x38, 0, 0, 0, 0,
                                                  0, 0, 0, 0, 0, 0, 0, NETLINK_SOCK_DIAG};
    uint32_t header[4];
    header[0] = (uint32_t)it->time.tv_sec;
    header[1] = (uint32_t)(it->time.tv_nsec / 1000);
    header[2] = (uint32_t)(COOKED_LENGTH + stored_length(it));
    header[3] = (uint32_t)(COOKED_LENGTH + it->length);
    if (write_bytes(header, sizeof header) != 0 || write_bytes(cooked, sizeof cooked) != 0)
        return -1;
    return write_bytes(it->data.bytes, stored_length(it));
}

/* Returns whether a kind has internet sockets, to which the conditions of a filter apply. */
static int is_inet(const struct kind *kind) {
    return kind->fill == fill_inet;
}

/* Sends the request for a kind, and stores it in a datagram. */
static int send_request(int kernel, const struct kind *kind, const struct filter *filter,
                        struct datagram *sent) {
    struct request request;
    const size_t program_length = is_inet(kind) ? filter->length : 0;
    size_t start;
    ssize_t length;
    memset(&request, 0, sizeof request);
    start = sizeof request.header + kind->fill(&request, kind, filter->states);
    sent->length = start + program_length;
    request.header.nlmsg_len = (uint32_t)sent->length;
    request.header.nlmsg_type = SOCK_DIAG_BY_FAMILY;
    request.header.nlmsg_flags = NLM_F_REQUEST | NLM_F_DUMP;
    request.header.nlmsg_seq = (uint32_t)(kind - kinds) + 1;
    memcpy(sent->data.bytes, &request, start);
    memcpy(sent->data.bytes + start, filter->attribute, program_length);
    clock_gettime(CLOCK_REALTIME, &sent->time);
    do
        length = send(kernel, sent->data.bytes, sent->length, 0);
    while (length < 0 && errno == EINTR);
    return length < 0 ? fail("send") : 0;
}

/* Receives a datagram. */
static int receive(int kernel, struct datagram *received) {
    ssize_t length;
    do
        length = recv(kernel, received->data.bytes, sizeof received->data.bytes, MSG_TRUNC);
    while (length < 0 && errno == EINTR);
    if (length < 0)
        return fail("recv");
    received->length = (size_t)length;
    clock_gettime(CLOCK_REALTIME, &received->time);
    return 0;
}

/* Returns the message that ends an answer, NLMSG_DONE or NLMSG_ERROR, or NULL if the datagram has
 * none. Sets *is_truncated if bytes follow that are not a message: they may have the end. */
static const struct nlmsghdr *find_end(const struct datagram *it, int *is_truncated) {
    const size_t length = stored_length(it);
    size_t offset = 0;
    *is_truncated = 0;
    while (offset < length) {
        const struct nlmsghdr *message =
            (const struct nlmsghdr *)(const void *)(it->data.bytes + offset);
        *is_truncated = length - offset < sizeof *message || message->nlmsg_len < sizeof *message
                        || message->nlmsg_len > length - offset;
        if (*is_truncated)
            return NULL;
        if (message->nlmsg_type == NLMSG_DONE || message->nlmsg_type == NLMSG_ERROR)
            return message;
        offset += NLMSG_ALIGN(message->nlmsg_len);
    }
    return NULL;
}

/* Returns the number of the error with which an answer ends in a datagram, or 0. */
static int error_of(const struct datagram *it) {
    int32_t error = 0;
    int is_truncated;
    const struct nlmsghdr *end = find_end(it, &is_truncated);
    if (end != NULL && end->nlmsg_len >= NLMSG_LENGTH(sizeof error))
        memcpy(&error, NLMSG_DATA(end), sizeof error);
    return error < 0 ? -error : 0;
}

/* Returns whether a datagram is the answer of a kernel that does not list sockets of a kind. */
static int is_missing(const struct kind *kind, const struct datagram *it) {
    const int error = error_of(it);
    int is_truncated;
    return find_end(it, &is_truncated) == &it->data.aligned
        && (error == ENOENT || (error == EINVAL && !is_inet(kind)));
}

/* Reports an error with which an answer ends, of both IP versions of a kind once. */
static void report_error(const struct kind *kind, const struct datagram *it) {
    static const char *reported;
    const int error = error_of(it);
    if (error == 0 || (reported != NULL && strcmp(reported, kind->name) == 0))
        return;
    reported = kind->name;
    if (is_missing(kind, it))
        fprintf(stderr,
                "sockdump: %s: note: this kernel does not list such sockets; their module is %s\n",
                kind->name, kind->module);
    else
        fprintf(stderr, "sockdump: %s: %s\n", kind->name, strerror(error));
}

/* Returns whether a file of proc(5) has sockets in these states: the fourth column. */
static int has_sockets(const char *path, uint32_t states) {
    char line[512];
    unsigned state;
    int found = 0;
    FILE *file = fopen(path, "re");
    while (file != NULL && !found && fgets(line, sizeof line, file) != NULL)
        found = sscanf(line, "%*s %*s %*s %x", &state) == 1 && state < 32
             && (states >> state & 1) != 0;
    if (file != NULL)
        fclose(file);
    return found;
}

/* Returns whether there are raw sockets in the selected states, which this kernel does not list. */
static int lacks_sockets(const struct kind *kind, const struct filter *filter) {
    const char *path = kind->family == AF_INET ? "/proc/net/raw" : "/proc/net/raw6";
    return kind->protocol == IPPROTO_RAW && has_sockets(path, filter->states);
}

/* Requests a kind, and writes the request and its answer, unless the kernel does not list the kind
 * and no argument names it. */
static int dump(int kernel, const struct kind *kind, const struct filter *filter, int is_named) {
    static struct datagram sent, received;
    int is_truncated = 0;
    if (send_request(kernel, kind, filter, &sent) != 0 || receive(kernel, &received) != 0)
        return -1;
    if (!is_named && is_missing(kind, &received)) {
        if (lacks_sockets(kind, filter))
            report_error(kind, &received);
        return 0;
    }
    if (write_packet(&sent) != 0 || write_packet(&received) != 0)
        return -1;
    while (received.length <= sizeof received.data && find_end(&received, &is_truncated) == NULL
           && !is_truncated)
        if (receive(kernel, &received) != 0 || write_packet(&received) != 0)
            return -1;
    report_error(kind, &received);
    if (is_truncated)
        return fprintf(stderr, "sockdump: %s: truncated message\n", kind->name), -1;
    if (received.length <= sizeof received.data)
        return 0;
    fprintf(stderr, "sockdump: %s: datagram of %lu bytes exceeds the buffer\n", kind->name,
            (unsigned long)received.length);
    return -1;
}

/* Requests the selected kinds, and writes what is received of their answers. */
static int dump_round(int kernel, const struct selection *selection) {
    const struct filter *filter = &selection->filter;
    int index, failed = 0;
    for (index = 0; index < KINDS && failed == 0; index++)
        if (selection->has_names ? selection->is_named[index]
                                 : filter->length == 0 || is_inet(&kinds[index]))
            failed = dump(kernel, &kinds[index], filter, selection->is_named[index]);
    /* A write that failed is reported already. */
    if (!ferror(stdout) && fflush(stdout) != 0)
        failed = fail("standard output");
    return failed;
}

/* Waits until a time. Returns 1, or 0 as soon as the readers of the pipe at standard output have
 * closed it, which poll(2) reports although no event is requested. */
static int wait_until(int64_t time) {
    struct pollfd output = {STDOUT_FILENO, 0, 0};
    int64_t left;
    while ((left = time - milliseconds()) > 0)
        if (poll(&output, 1, (int)left) > 0)
            return 0;
    return 1;
}

/* Writes a round, and with --every further ones. */
static int dump_rounds(int kernel, const struct selection *selection) {
    int64_t start;
    do {
        start = milliseconds();
        if (dump_round(kernel, selection) != 0)
            return -1;
    } while (selection->seconds > 0 && wait_until(start + (int64_t)selection->seconds * 1000));
    return 0;
}

/* Ends the program when the readers of the pipe have closed it, which is no error with --every and
 * --events. */
static void end_quietly(int number) {
    (void)number;
    _exit(closed_status);
}

/* Joins the selected groups. The buffer of the socket gets the largest size that the kernel
 * permits. */
static int join_groups(int kernel, const struct selection *selection) {
    static const int size = 1 << 30;
    int index;
    if (setsockopt(kernel, SOL_SOCKET, SO_RCVBUF, &size, sizeof size) != 0)
        return fail("setsockopt");
    for (index = 0; index < GROUPS; index++)
        if (selection->is_joined[index]
            && setsockopt(kernel, SOL_NETLINK, NETLINK_ADD_MEMBERSHIP, &groups[index].number,
                          sizeof groups[index].number) != 0)
            return fail("setsockopt");
    return 0;
}

/* Receives the message of an event, and writes it. The kernel reports by ENOBUFS that it dropped
 * messages. */
static int write_event(int kernel) {
    static struct datagram received;
    const ssize_t length = recv(kernel, received.data.bytes, sizeof received.data.bytes, MSG_TRUNC);
    if (length < 0 && errno == EINTR)
        return 0;
    if (length < 0 && errno == ENOBUFS) {
        closed_status = 1;
        return fputs("sockdump: events were lost\n", stderr), 0;
    }
    if (length < 0)
        return fail("recv");
    received.length = (size_t)length;
    clock_gettime(CLOCK_REALTIME, &received.time);
    return write_packet(&received);
}

/* Writes events until the readers of the pipe have closed it. What is written is flushed as soon as
 * no other event waits. */
static int write_events(int kernel) {
    struct pollfd waits[2] = {{kernel, POLLIN, 0}, {STDOUT_FILENO, 0, 0}};
    for (;;) {
        int count = poll(waits, 2, 0);
        if (count == 0 && fflush(stdout) != 0)
            return fail("standard output");
        if (count == 0)
            count = poll(waits, 2, -1);
        if (count < 0 && errno != EINTR)
            return fail("poll");
        if (count > 0 && waits[1].revents != 0)
            return closed_status == 0 ? 0 : -1;
        if (count > 0 && write_event(kernel) != 0)
            return -1;
    }
}

static const char usage[] =
    "usage: sockdump [--netns=FILE] [--every=SECONDS] [KIND ..] [-- FILTER]\n"
    "       sockdump [--netns=FILE] --events[=tcp,udp]\n"
    "       sockdump --help | --version\n\n"
    "Requests the sockets of this machine from the kernel, and writes the answers as\n"
    "a capture to standard output: sockdump | sslist\n\n"
    "KIND is unix, tcp, udp, mptcp, raw, netlink, packet, vsock or xdp. Without KIND\n"
    "all are requested.\n\n"
    "FILTER, in the words of ss(8), selects states, such as -- state listening, and\n"
    "internet sockets by conditions, such as -- dport = :443.\n"
    "With conditions, other sockets are requested only if KIND names them.\n\n"
    "With --every they are requested every SECONDS seconds, 1 to 86400, until the\n"
    "output is closed or a signal ends the program.\n\n"
    "With --events nothing is requested: each TCP and UDP socket is written as it is\n"
    "destroyed, until the output is closed or a signal ends the program.\n\n"
    "With --netns the sockets are those of the network namespace of FILE, such as\n"
    "/run/netns/NAME or /proc/PID/ns/net.\n";

/* Prints a text. Returns the exit status. */
static int print(const char *text) {
    if (fputs(text, stdout) < 0 || fflush(stdout) != 0)
        return fail("standard output"), 1;
    return 0;
}

/* Selects the kinds of this name. Returns how many there are. */
static int select_kinds(const char *name, struct selection *selection) {
    int index, count = 0;
    for (index = 0; index < KINDS; index++)
        if (strcmp(name, kinds[index].name) == 0) {
            selection->is_named[index] = 1;
            count++;
        }
    selection->has_names |= count > 0;
    return count;
}

/* Reads what follows --every, which has to be an equals sign and a number. */
static int read_seconds(const char *text, int *seconds) {
    char *end;
    unsigned long number;
    if (text[0] == '=' && text[1] >= '0' && text[1] <= '9') {
        number = strtoul(text + 1, &end, 10);
        if (*end == '\0' && number > 0 && number <= MOST_SECONDS)
            return *seconds = (int)number, 0;
    }
    fprintf(stderr, "sockdump: --every=SECONDS needs a whole number from 1 to %d\n", MOST_SECONDS);
    return -1;
}

/* Reports a wrong word of this length. A byte that could control a terminal is shown as a question
 * mark. Returns -1. */
static int reject(const char *word, size_t length) {
    for (; length > 0; word++, length--)
        fputc(*word > ' ' && *word <= '~' ? *word : '?', stderr);
    return fputs("; try sockdump -h\n", stderr), -1;
}

#ifdef WITH_FILTERS
/* Joins the words of a filter by spaces. Returns the text, which free(3) frees, or NULL. */
static char *join(char **words) {
    size_t length = 1, count;
    char *text;
    for (count = 0; words[count] != NULL; count++)
        length += strlen(words[count]) + 1;
    text = (char *)calloc(length, 1);
    for (length = 0; text != NULL && *words != NULL; words++)
        length += (size_t)sprintf(text + length, "%s%s", length > 0 ? " " : "", *words);
    return text;
}

/* Reads the text of a filter. */
static int parse_filter(const char *text, struct filter *filter) {
    struct sockdiag_filter_details found = {{0, 0}, 0, 0};
    struct nlattr head = {0, INET_DIAG_REQ_BYTECODE};
    const uint32_t code = sockdiag_parse_filter(
        (const uint8_t *)text, strlen(text), filter->attribute + sizeof head,
        sizeof filter->attribute - sizeof head, &found, sizeof found);
    if (code != SOCKDIAG_OK) {
        const char *word = text + found.error_offset;
        fprintf(stderr, "sockdump: filter: %s at byte %lu%s", sockdiag_error_text(code),
                (unsigned long)found.error_offset, *word == '\0' ? "" : ": ");
        return reject(word, strcspn(word, " \t\n\f\r"));
    }
    if (found.states.is_set)
        filter->states = found.states.value;
    /* A TCP socket that is only bound is closed in replies, and has a state of its own in requests.
     * It is requested with closed sockets, but not next to listening ones, as by -l of ss(8). */
    if ((filter->states & 1u << SOCKDIAG_TCP_CLOSE) == 0)
        filter->states &= ~(1u << SOCKDIAG_TCP_BOUND_INACTIVE);
    else if ((filter->states & 1u << SOCKDIAG_TCP_LISTEN) == 0)
        filter->states |= 1u << SOCKDIAG_TCP_BOUND_INACTIVE;
    head.nla_len = (uint16_t)(sizeof head + found.program_length);
    memcpy(filter->attribute, &head, sizeof head);
    filter->length = found.program_length > 0 ? head.nla_len : 0;
    return 0;
}

/* Reads the words of a filter, up to NULL. */
static int read_filter(char **words, struct filter *filter) {
    char *text = join(words);
    const int failed = text == NULL ? fail("filter") : parse_filter(text, filter);
    free(text);
    return failed;
}
#else
static int read_filter(char **words, struct filter *filter) {
    (void)words;
    (void)filter;
    return fputs("sockdump: filter: this program was built without the C library\n", stderr), -1;
}
#endif

/* Selects the groups of a protocol, whose name has this length. Returns how many there are. */
static int select_groups(const char *name, size_t length, struct selection *selection) {
    int index, count = 0;
    for (index = 0; index < GROUPS; index++)
        if (strlen(groups[index].protocol) == length
            && strncmp(name, groups[index].protocol, length) == 0) {
            selection->is_joined[index] = 1;
            count++;
        }
    return count;
}

/* Reads what follows --events: nothing, which selects all protocols, or an equals sign and names of
 * protocols, separated by commas. */
static int read_events(const char *text, struct selection *selection) {
    selection->has_events = 1;
    if (*text == '\0')
        text = "=tcp,udp";
    do {
        const size_t length = strcspn(++text, ",");
        if (select_groups(text, length, selection) == 0)
            return fputs("sockdump: --events takes tcp, udp or tcp,udp\n", stderr), -1;
        text += length;
    } while (*text != '\0');
    return 0;
}

static int read_argument(const char *argument, struct selection *selection) {
    const char *text;
    if ((text = after_name(argument, "--every")) != NULL)
        return read_seconds(text, &selection->seconds);
    if ((text = after_name(argument, "--events")) != NULL && (*text == '=' || *text == '\0'))
        return read_events(text, selection);
    if ((text = after_name(argument, "--netns=")) != NULL)
        return selection->name_space = text, 0;
    if (select_kinds(argument, selection) > 0)
        return 0;
    fputs(*argument == '-' ? "sockdump: unknown option, or one without its value: "
                           : "sockdump: unknown kind, or a filter without -- before it: ",
          stderr);
    return reject(argument, strlen(argument));
}

/* Reads the arguments. Returns 0, or -1 if one is wrong. */
static int read_arguments(char **arguments, struct selection *selection) {
    int has_filter;
    selection->filter.states = UINT32_MAX;
    while (*++arguments != NULL && strcmp(*arguments, "--") != 0)
        if (read_argument(*arguments, selection) != 0)
            return -1;
    has_filter = *arguments != NULL;
    if (has_filter && read_filter(arguments + 1, &selection->filter) != 0)
        return -1;
    if (!selection->has_events
        || (!selection->has_names && selection->seconds == 0 && !has_filter))
        return 0;
    return fputs("sockdump: --events takes no KIND, no --every and no FILTER\n", stderr), -1;
}

/* Writes the capture. Returns the exit status. */
static int capture(int kernel, const struct selection *selection) {
    if (selection->has_events || selection->seconds > 0)
        signal(SIGPIPE, end_quietly);
    if (selection->has_events && join_groups(kernel, selection) != 0)
        return 1;
    return write_file_header() != 0
        || (selection->has_events ? write_events(kernel) : dump_rounds(kernel, selection)) != 0;
}

int main(int argc, char **argv) {
    static struct selection selection;
    int kernel, status;
    if (argc > 1 && (strcmp(argv[1], "-h") == 0 || strcmp(argv[1], "--help") == 0))
        return print(usage);
    if (argc > 1 && (strcmp(argv[1], "-V") == 0 || strcmp(argv[1], "--version") == 0))
        return print("sockdump " VERSION "\n");
    if (read_arguments(argv, &selection) != 0)
        return 2;
    if (isatty(STDOUT_FILENO))
        return fputs("sockdump: standard output is a terminal; try sockdump | sslist\n", stderr), 1;
    if (open_streams() != 0)
        return 1;
    if (selection.name_space != NULL && enter(selection.name_space) != 0)
        return 1;
    kernel = open_kernel();
    if (kernel < 0)
        return 1;
    status = capture(kernel, &selection);
    close(kernel);
    return status;
}

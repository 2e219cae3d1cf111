/*
 * Calls of the C library for the example listers, with answers that a kernel seldom sends. Linked
 * with a lister, or preloaded, they take the place of those of the C library.
 *
 * If the environment variable FAKE_KERNEL_REPLIES is the name of a file, requests are answered with
 * its replies, by a datagram each. A line is a protocol, which is unix, tcp, udp, mptcp, netlink or
 * packet, a space, and the payload in hexadecimal digits. Other lines are comments. A dump has the
 * replies with the protocol, the family and the states of the request, without the attributes that
 * the request does not select. Two kinds are always sent, for listers that have to report an
 * invalid one: those of MPTCP, whose INET_DIAG_INFO is no struct tcp_info, and the memory of
 * netlink sockets. If no line has the protocol, the answer is ENOENT for IPv4 and IPv6, and EINVAL
 * for other families. If the file has no mptcp, the attribute with the protocol is ignored, as
 * kernels without MPTCP do. A filter by the local port selects replies as the kernel does. After
 * the end of an answer, where a kernel blocks, recv fails with ETIMEDOUT. tests/api/kernels.py runs
 * listers in this way, and tests/api/sockdump.py sockdump. These variables change the datagrams:
 *
 * - Each datagram begins with the end of a dump that another socket requested, which a lister
 *   recognizes by its port id. With FAKE_KERNEL_ALONE there is no other socket.
 * - With FAKE_KERNEL_ODD it then has an NLMSG_NOOP of an odd length, whose payload is a reply.
 * - If FAKE_KERNEL_EXCESS is a number, each datagram has so many bytes more than the buffer. It
 *   ends with an NLMSG_NOOP, which fills the rest of the buffer if the excess is cut.
 * - If FAKE_KERNEL_LACK is a number below 20, each datagram lacks so many of its last bytes.
 * - If FAKE_KERNEL_LENGTH is a number, it is the length field of the last message of each datagram.
 * - If FAKE_KERNEL_END is a number, each dump ends with it. If it is empty, with no number.
 * - If FAKE_KERNEL_INTERRUPTIONS is a number, so many dumps are interrupted: that of a request, and
 *   those of the requests that follow and are the same but for the sequence number. Their end has a
 *   flag, or with FAKE_KERNEL_OVERRUN an NLMSG_OVERRUN precedes it.
 *
 * Otherwise the first request is answered by a dump that is interrupted. The second one, which has
 * to be the same with another sequence number, is answered by the end of another dump, a reply that
 * is too short, a reply about a socket, and a reply with an attribute that is too short; then by
 * the end of the dump. Of the first answer about UDP sockets over IPv4 a datagram was dropped, and
 * the first one over IPv6 has a truncated message. Neither of these dumps ends, so they have to be
 * requested again on another socket. Each other request is answered by ENOENT. The state of the
 * sockets shows which states were requested. tests/api/c_api.sh compares the output.
 *
 * If FAKE_KERNEL_SIGNALS is set, a signal interrupts each second call that sends or receives,
 * beginning with the first one.
 *
 * A socket that joins the groups of destroyed sockets, and has requested a receive buffer of at
 * least 1 MiB before, receives the replies of the file about TCP and UDP sockets of these groups,
 * as events. If FAKE_KERNEL_DROPS is set, an event was dropped before the first one. With the text
 * closed, this is received when the readers of the pipe at standard output have closed it.
 *
 * A request of type SOCK_DESTROY is appended to the file FAKE_KERNEL_CLOSED, as a line of
 * hexadecimal digits, and answered by the error number FAKE_KERNEL_DESTROY, or else by 0. With
 * FAKE_KERNEL_DESTROY_FIRST only the first one is answered so, and the others by 0. With
 * FAKE_KERNEL_DESTROY_STALE the answer to another request precedes, and with
 * FAKE_KERNEL_DESTROY_ENDS the answer is an NLMSG_DONE. With FAKE_KERNEL_DESTROY_DENIES it is not
 * sent, with EPERM.
 *
 * If FAKE_KERNEL_DELAY is a number, each send takes so many milliseconds.
 *
 * If FAKE_KERNEL_TIME is a number of seconds with nine decimal places, it is always the time of
 * CLOCK_REALTIME.
 *
 * The program is aborted if its socket gets the number of standard input, output or error, if
 * exec(2) does not close it, or if the previous one is still open; and if the length, the type or
 * the flags of a request are wrong, or one for a dump names a single socket. A socket has to be
 * connected to the kernel before it sends and receives. If FAKE_KERNEL_REFUSES is set, connect
 * fails, or with the text socket this call. Requests are answered all the same, as a kernel does:
 * a lister that ignores the failure of connect lists sockets. If FAKE_KERNEL_DENIES is set, recv
 * fails with EPERM, and so does joining a group.
 */
#define _DEFAULT_SOURCE /* For syscall. */
#include "sockdiag.h"

#include <errno.h>
#include <fcntl.h>
#include <linux/inet_diag.h>
#include <linux/netlink.h>
#include <netinet/in.h>
#include <poll.h>
#include <stdio.h>
#include <stdlib.h>
#include <string.h>
#include <sys/socket.h>
#include <sys/syscall.h>
#include <time.h>
#include <unistd.h>

/* The port id of the socket. If a process has two, the kernel chooses one above INT32_MAX. */
#define OWN_PORT 0xfedcba77u
/* IPPROTO_MPTCP, which older headers of the C library lack. */
#define PROTOCOL_MPTCP 262

/* Maximum length of a reply in a file, in bytes. */
#define MOST_REPLY 4096

static uint8_t request[128], first_request[128];
static size_t request_length;
static int requests, datagrams, sockets, is_connected, kernel = -1;
/* How many requests precede this one that are the same but for the sequence number. */
static size_t repetitions;
/* The file of replies, or null; whether it has replies of the requested protocol; and whether it
 * has replies of MPTCP. */
static FILE *replies;
static int has_protocol, has_mptcp;
/* Whether the answer from the file has ended. */
static int has_ended;
/* A bit for each group that the socket has joined, and whether an event was dropped. */
static unsigned joined;
static int has_dropped, has_buffer;

/* Returns the number in an environment variable, or 0. */
static size_t variable(const char *name) {
    const char *text = getenv(name);
    return text == NULL ? 0 : strtoul(text, NULL, 10);
}

/* Opens the file of replies. Returns whether this succeeds. */
static int open_replies(const char *path) {
    char line[8];
    replies = fopen(path, "r");
    while (replies != NULL && fgets(line, sizeof line, replies) != NULL)
        has_mptcp |= strncmp(line, "mptcp ", 6) == 0;
    return replies != NULL;
}

int socket(int family, int type, int protocol) {
    const char *path = getenv("FAKE_KERNEL_REPLIES");
    const char *refuses = getenv("FAKE_KERNEL_REFUSES");
    const int is_open = kernel >= 0 && fcntl(kernel, F_GETFD) >= 0;
    errno = EPERM;
    if (refuses != NULL && strcmp(refuses, "socket") == 0)
        return -1;
    if (family != AF_NETLINK || protocol != NETLINK_SOCK_DIAG)
        return -1;
    kernel = open("/dev/null", O_RDWR);
    if (kernel <= STDERR_FILENO || (type & SOCK_CLOEXEC) == 0 || is_open)
        abort();
    if (path != NULL && replies == NULL && !open_replies(path))
        return -1;
    sockets++;
    is_connected = 0;
    return kernel;
}

int connect(int fd, const struct sockaddr *address, socklen_t length) {
    const struct sockaddr_nl *it = (const struct sockaddr_nl *)(const void *)address;
    is_connected = fd == kernel && length == sizeof *it && it->nl_family == AF_NETLINK &&
                   it->nl_pid == 0 && it->nl_groups == 0;
    errno = EPERM;
    return is_connected && getenv("FAKE_KERNEL_REFUSES") == NULL ? 0 : -1;
}

/* Returns whether the socket is connected, or sets errno. */
static int has_connected(void) {
    errno = ENOTCONN;
    return is_connected;
}

int getsockname(int fd, struct sockaddr *address, socklen_t *length) {
    if (fd != kernel || *length != sizeof(struct sockaddr_nl))
        abort();
    ((struct sockaddr_nl *)(void *)address)->nl_pid = OWN_PORT;
    return 0;
}

int setsockopt(int fd, int level, int name, const void *value, socklen_t length) {
    int number;
    if (level == SOL_SOCKET && name == SO_RCVBUF)
        has_buffer = *(const int *)value >= 1 << 20;
    if (level != SOL_NETLINK || name != NETLINK_ADD_MEMBERSHIP)
        return 0;
    if (fd != kernel || length != sizeof number || !has_buffer)
        abort();
    errno = EPERM;
    if (getenv("FAKE_KERNEL_DENIES") != NULL)
        return -1;
    memcpy(&number, value, sizeof number);
    joined |= 1u << number;
    if (replies != NULL)
        rewind(replies);
    return 0;
}

/* Reports that no event waits, if the program asks so; the dropped event alone, if it is dropped
 * when standard output is closed; and else what is so. */
int poll(struct pollfd *waits, nfds_t count, int milliseconds) {
    const struct timespec time = {milliseconds / 1000, milliseconds % 1000 * 1000000L};
    const char *drops = getenv("FAKE_KERNEL_DROPS");
    if (joined != 0 && milliseconds == 0)
        return 0;
    if (joined != 0 && !has_dropped && drops != NULL && strcmp(drops, "closed") == 0) {
        waits[0].revents = POLLIN;
        return 1;
    }
    return (int)syscall(SYS_ppoll, waits, count, milliseconds < 0 ? NULL : &time, NULL, 0);
}

/* Returns whether a signal interrupts a call, which is each second one, and sets errno. */
static int is_interrupted(void) {
    static int calls;
    errno = EINTR;
    return getenv("FAKE_KERNEL_SIGNALS") != NULL && calls++ % 2 == 0;
}

/* Returns whether the request is the same as another one, but for the sequence number. */
static int repeats(const uint8_t *other) {
    return memcmp(request, other, 8) == 0 && memcmp(request + 8, other + 8, 4) != 0
        && memcmp(request + 12, other + 12, sizeof request - 12) == 0;
}

/* Returns whether the stored request, of this length, is one to close a socket, or for a dump. The
 * latter has zeros in the fields that name a single socket, except ports, and for a cookie zeros or
 * INET_DIAG_NOCOOKIE. */
static int is_answered(size_t length) {
    const size_t show = request[16] == AF_UNIX ? 28 : 24;
    const size_t cookie = request[16] == AF_UNIX ? 32 : 64;
    struct nlmsghdr head;
    size_t at;
    memcpy(&head, request, sizeof head);
    if (head.nlmsg_len != length || (head.nlmsg_flags & NLM_F_REQUEST) == 0)
        return 0;
    if (head.nlmsg_type == SOCKDIAG_SOCK_DESTROY)
        return 1;
    for (at = 24; at < 72 && at < length; at++)
        if (request[at] != 0 && (at < show || at >= show + 4)
            && (at < cookie || request[at] != 0xff))
            return 0;
    return head.nlmsg_type == SOCKDIAG_SOCK_DIAG_BY_FAMILY
        && (head.nlmsg_flags & NLM_F_DUMP) == NLM_F_DUMP;
}

ssize_t send(int fd, const void *bytes, size_t length, int flags) {
    static uint8_t previous[sizeof request];
    if (fd != kernel || flags != 0)
        abort();
    if (is_interrupted() || !has_connected())
        return -1;
    errno = EPERM;
    if (((const uint8_t *)bytes)[4] == SOCKDIAG_SOCK_DESTROY
        && getenv("FAKE_KERNEL_DESTROY_DENIES") != NULL)
        return -1;
    poll(NULL, 0, (int)variable("FAKE_KERNEL_DELAY"));
    memcpy(previous, request, sizeof previous);
    memset(request, 0, sizeof request);
    request_length = length < sizeof request ? length : sizeof request;
    memcpy(request, bytes, request_length);
    if (!is_answered(length))
        abort();
    repetitions = repeats(previous) ? repetitions + 1 : 0;
    requests++;
    datagrams = 0;
    has_protocol = has_ended = 0;
    if (replies != NULL)
        rewind(replies);
    if (requests == 1)
        memcpy(first_request, request, sizeof request);
    return (ssize_t)length;
}

/* Writes a message, and returns the number of bytes, a multiple of 4. */
static size_t put(uint8_t *bytes, uint16_t type, uint16_t flags, uint32_t number,
                  const void *payload, size_t length) {
    const struct nlmsghdr header = {(uint32_t)(16 + length), type, flags, number, OWN_PORT};
    memcpy(bytes, &header, 16);
    memcpy(bytes + 16, payload, length);
    return 16 + length;
}

/* Returns the name of the protocol of a request for IPv4 or IPv6 sockets. A protocol above 255 is
 * an attribute after the record, which starts at 72. */
static const char *requested_inet_protocol(void) {
    uint32_t protocol = request[17];
    if (has_mptcp && request[0] >= 80 && request[74] == SOCKDIAG_INET_DIAG_REQ_PROTOCOL)
        memcpy(&protocol, request + 76, sizeof protocol);
    switch (protocol) {
    case IPPROTO_TCP:
        return "tcp";
    case IPPROTO_UDP:
        return "udp";
    case PROTOCOL_MPTCP:
        return "mptcp";
    default:
        return "";
    }
}

/* Returns the protocol of the request, as the lines of the file name it. */
static const char *requested_protocol(void) {
    switch (request[16]) {
    case AF_UNIX:
        return "unix";
    case AF_NETLINK:
        return "netlink";
    case AF_PACKET:
        return "packet";
    default:
        return requested_inet_protocol();
    }
}

/* Returns whether a filter accepts a local port. Each operation has a port in the next one, and the
 * lengths of the jumps if it is accepted and if not. A jump to the end accepts, one past the end
 * rejects. */
static int accepts_port(const uint8_t *filter, size_t length, uint16_t port) {
    size_t offset = 0;
    while (offset + 8 <= length) {
        struct inet_diag_bc_op step, operand;
        memcpy(&step, filter + offset, sizeof step);
        memcpy(&operand, filter + offset + sizeof step, sizeof operand);
        if (step.code != INET_DIAG_BC_S_GE && step.code != INET_DIAG_BC_S_LE)
            return 0;
        offset += (step.code == INET_DIAG_BC_S_GE ? port >= operand.no : port <= operand.no)
                      ? step.yes
                      : step.no;
    }
    return offset == length;
}

/* Returns whether the filter of the request, if it has one, accepts a local port. */
static int is_filtered(uint16_t port) {
    struct nlattr head;
    size_t offset = 72;
    while (offset + sizeof head <= request_length) {
        memcpy(&head, request + offset, sizeof head);
        if (head.nla_len < sizeof head || head.nla_len > request_length - offset)
            return 1;
        if (head.nla_type == SOCKDIAG_INET_DIAG_REQ_BYTECODE)
            return !accepts_port(request + offset + sizeof head, head.nla_len - sizeof head, port);
        offset += NLA_ALIGN(head.nla_len);
    }
    return 0;
}

/* Returns whether the request selects the reply: by the family, and by the states or, of netlink
 * sockets, the protocol, and by the filter. */
static int is_requested(const uint8_t *reply) {
    const uint8_t state = reply[0] == AF_UNIX ? reply[2] : reply[1];
    uint32_t states;
    if (reply[0] != request[16])
        return 0;
    if (reply[0] == AF_NETLINK)
        return request[17] == SOCKDIAG_NDIAG_PROTO_ALL || request[17] == reply[2];
    if (reply[0] == AF_INET || reply[0] == AF_INET6)
        if (is_filtered((uint16_t)(reply[4] << 8 | reply[5])))
            return 0;
    memcpy(&states, request + 20, sizeof states);
    return reply[0] == AF_PACKET || (states >> state & 1) != 0;
}

/* Returns whether attributes of a type are sent: those that the request selects, and those without
 * a bit in the request. */
static int is_selected(unsigned type) {
    const uint8_t family = request[16];
    uint32_t show;
    memcpy(&show, request + (family == AF_UNIX ? 28 : 24), sizeof show);
    switch (family) {
    case AF_UNIX:
        return type == SOCKDIAG_UNIX_DIAG_SHUTDOWN || (show >> (type < 6 ? type : 6) & 1) != 0;
    case AF_NETLINK:
        return type != 1 || (show & SOCKDIAG_NDIAG_SHOW_GROUPS) != 0;
    case AF_PACKET:
        return type != 0 || (show & SOCKDIAG_PACKET_SHOW_INFO) != 0;
    default:
        return type == 0 || type > 7 || request[17] == 0 || (request[18] >> (type - 1) & 1) != 0;
    }
}

/* Returns the length of the header of a reply, in bytes. */
static size_t header_length(uint8_t family) {
    switch (family) {
    case AF_UNIX:
    case AF_PACKET:
        return 16;
    case AF_NETLINK:
        return 28;
    default:
        return 72;
    }
}

/* Removes the attributes that the request does not select from a reply. Returns its new length.
 * Bytes that are no attribute stay. */
static size_t select_attributes(uint8_t *reply, size_t length) {
    size_t offset = header_length(reply[0]), end = offset;
    struct nlattr head;
    if (length < offset)
        return length;
    while (offset + sizeof head <= length) {
        size_t step;
        memcpy(&head, reply + offset, sizeof head);
        step = NLA_ALIGN(head.nla_len);
        if (head.nla_len < sizeof head || step > length - offset)
            break;
        if (is_selected(head.nla_type)) {
            memmove(reply + end, reply + offset, step);
            end += step;
        }
        offset += step;
    }
    memmove(reply + end, reply + offset, length - offset);
    return length - offset + end;
}

/* Stores the bytes of hexadecimal digits. Returns their number. */
static size_t put_digits(uint8_t *bytes, const char *digits) {
    size_t length = 0;
    unsigned byte;
    while (length < MOST_REPLY && sscanf(digits + 2 * length, "%2x", &byte) == 1)
        bytes[length++] = (uint8_t)byte;
    return length;
}

/* Stores the next reply of the file that the request selects. Returns its length, or 0 if there is
 * none. */
static size_t next_reply(uint8_t *reply) {
    static char line[2 * MOST_REPLY + 16];
    const char *protocol = requested_protocol();
    const size_t length = strlen(protocol);
    while (fgets(line, sizeof line, replies) != NULL) {
        size_t got;
        if (length == 0 || strncmp(line, protocol, length) != 0 || line[length] != ' ')
            continue;
        has_protocol = 1;
        got = put_digits(reply, line + length + 1);
        if (got > 2 && is_requested(reply))
            return select_attributes(reply, got);
    }
    return 0;
}

/* Writes the end of a dump that another socket requested by the same sequence number, if there is
 * another one. */
static size_t put_other_end(uint8_t *bytes, uint32_t number) {
    static const uint32_t other_port = OWN_PORT + 1;
    static const int32_t success = 0;
    size_t length;
    if (getenv("FAKE_KERNEL_ALONE") != NULL)
        return 0;
    length = put(bytes, NLMSG_DONE, NLM_F_MULTI, number, &success, 4);
    memcpy(bytes + 12, &other_port, sizeof other_port);
    return length;
}

/* Writes an NLMSG_NOOP, whose payload is a reply about a UNIX socket and one byte more. Returns its
 * length with three bytes of padding. */
static size_t put_odd(uint8_t *bytes, uint32_t number) {
    static const uint8_t reply[20] = {AF_UNIX, SOCK_STREAM, SOCKDIAG_TCP_LISTEN};
    const size_t padded = put(bytes, NLMSG_NOOP, 0, number, reply, sizeof reply);
    const uint32_t length = (uint32_t)padded - 3;
    memcpy(bytes, &length, sizeof length);
    return padded;
}

/* Writes the end of a dump, with the number that FAKE_KERNEL_END has, after an NLMSG_OVERRUN if
 * FAKE_KERNEL_OVERRUN is set and the dump is interrupted. Returns its length. */
static size_t put_end(uint8_t *bytes, uint32_t number) {
    const char *text = getenv("FAKE_KERNEL_END");
    const int32_t result = text == NULL ? 0 : (int32_t)strtol(text, NULL, 10);
    const size_t length = text != NULL && *text == '\0' ? 0 : sizeof result;
    const int is_last = repetitions >= variable("FAKE_KERNEL_INTERRUPTIONS");
    const int is_overrun = !is_last && getenv("FAKE_KERNEL_OVERRUN") != NULL;
    const uint16_t flags = is_last || is_overrun ? NLM_F_MULTI : NLM_F_MULTI | NLM_F_DUMP_INTR;
    const size_t start = is_overrun ? put(bytes, NLMSG_OVERRUN, 0, number, "", 0) : 0;
    return start + put(bytes + start, NLMSG_DONE, flags, number, &result, length);
}

/* Writes the next message of an answer by the replies of the file. Returns its length. */
static size_t put_from_file(uint8_t *bytes, uint32_t number) {
    static uint8_t reply[MOST_REPLY];
    const int32_t failure = request[16] == AF_INET || request[16] == AF_INET6 ? -ENOENT : -EINVAL;
    const size_t length = next_reply(reply);
    if (length > 0)
        return put(bytes, SOCKDIAG_SOCK_DIAG_BY_FAMILY, NLM_F_MULTI, number, reply, length);
    has_ended = 1;
    if (!has_protocol)
        return put(bytes, NLMSG_ERROR, 0, number, &failure, 4);
    return put_end(bytes, number);
}

/* Fills the buffer, after the first bytes of a datagram, with a message that exceeds it. Returns
 * the length that recv returns. */
static ssize_t exceed(uint8_t *bytes, size_t start, size_t capacity, size_t excess, int flags) {
    const size_t length = (flags & MSG_TRUNC) != 0 ? capacity + excess : capacity;
    const struct nlmsghdr header = {(uint32_t)(length - start), NLMSG_NOOP, 0, 0, OWN_PORT};
    memset(bytes + start, 0, capacity - start);
    memcpy(bytes + start, &header, sizeof header);
    return (ssize_t)length;
}

/* Writes the next datagram of an answer by the replies of the file, as the variables change it.
 * Returns the length that recv returns. */
static ssize_t put_datagram(uint8_t *bytes, uint32_t number, size_t capacity, int flags) {
    const size_t first = put_other_end(bytes, number);
    const size_t odd = getenv("FAKE_KERNEL_ODD") != NULL ? put_odd(bytes + first, number) : 0;
    const size_t start = first + odd;
    const size_t end = start + put_from_file(bytes + start, number) - variable("FAKE_KERNEL_LACK");
    const size_t excess = variable("FAKE_KERNEL_EXCESS");
    const uint32_t length = (uint32_t)variable("FAKE_KERNEL_LENGTH");
    if (getenv("FAKE_KERNEL_LENGTH") != NULL)
        memcpy(bytes + start, &length, sizeof length);
    return excess == 0 ? (ssize_t)end : exceed(bytes, end, capacity, excess, flags);
}

/* Stores a request to close a socket, and answers it. Returns the length of the answer. */
static ssize_t put_closed(uint8_t *bytes, uint32_t number) {
    const char *path = getenv("FAKE_KERNEL_CLOSED"), *text = getenv("FAKE_KERNEL_DESTROY");
    const int is_first = getenv("FAKE_KERNEL_DESTROY_FIRST") == NULL || requests == 1;
    const int32_t result = text == NULL || !is_first ? 0 : (int32_t)strtol(text, NULL, 10);
    const uint16_t type = getenv("FAKE_KERNEL_DESTROY_ENDS") == NULL ? NLMSG_ERROR : NLMSG_DONE;
    static int stale;
    if (getenv("FAKE_KERNEL_DESTROY_STALE") != NULL && stale++ % 2 == 0)
        return (ssize_t)put(bytes, NLMSG_ERROR, 0, number - 1, &stale, 4);
    FILE *closed = path == NULL ? NULL : fopen(path, "a");
    size_t index;
    for (index = 0; closed != NULL && index < request_length; index++)
        fprintf(closed, "%02x", request[index]);
    if (closed != NULL && (fputc('\n', closed) == EOF || fclose(closed) != 0))
        abort();
    has_ended = 1;
    return (ssize_t)put(bytes, type, 0, number, &result, 4);
}

/* Answers a request for UDP sockets. The first answer of each family loses data. A request on the
 * same socket is answered by EBUSY, and one on another socket by ENOENT. */
static ssize_t lose_data(uint8_t *bytes, uint32_t number) {
    static const int32_t failure = -ENOENT, busy = -EBUSY;
    /* How many answers lost data, and the number of sockets at the last one. */
    static int lost, sockets_then;
    if (lost > 0 && sockets_then == sockets)
        return (ssize_t)put(bytes, NLMSG_ERROR, 0, number, &busy, 4);
    if (lost == (request[16] == AF_INET ? 0 : 1)) {
        lost++;
        sockets_then = sockets;
        errno = ENOBUFS;
        return lost == 1 ? -1 : (ssize_t)put(bytes, NLMSG_DONE, 0, number, &failure, 4) - 2;
    }
    return (ssize_t)put(bytes, NLMSG_ERROR, 0, number, &failure, 4);
}

/* Returns the group of a line of the file, which begins with a protocol. */
static int group_of(const char *line, uint8_t family) {
    if (strncmp(line, "tcp ", 4) == 0)
        return family == AF_INET ? 1 : 3;
    return strncmp(line, "udp ", 4) == 0 ? family == AF_INET ? 2 : 4 : 0;
}

/* Writes the next event of the file that the socket receives. Returns what recv returns. */
static ssize_t put_event(uint8_t *bytes) {
    static char line[2 * MOST_REPLY + 16];
    static uint8_t reply[MOST_REPLY];
    const char *drops = getenv("FAKE_KERNEL_DROPS");
    struct pollfd output = {STDOUT_FILENO, 0, 0};
    if (drops != NULL && !has_dropped) {
        has_dropped = 1;
        if (strcmp(drops, "closed") == 0)
            poll(&output, 1, -1);
        errno = ENOBUFS;
        return -1;
    }
    while (fgets(line, sizeof line, replies) != NULL) {
        const char *digits = strchr(line, ' ');
        const size_t length = digits == NULL ? 0 : put_digits(reply, digits + 1);
        if (length > 2 && (joined >> group_of(line, reply[0]) & 1) != 0) {
            const size_t written =
                put(bytes, SOCKDIAG_SOCK_DIAG_BY_FAMILY, 0, 0, reply, length);
            memset(bytes + 12, 0, 4);
            return (ssize_t)written;
        }
    }
    errno = ETIMEDOUT;
    return -1;
}

ssize_t recv(int fd, void *buffer, size_t capacity, int flags) {
    static const int32_t success = 0, failure = -ENOENT;
    const uint8_t state = request[21] == 4 ? SOCKDIAG_TCP_LISTEN : SOCKDIAG_TCP_CLOSE;
    const uint8_t reply[16] = {AF_UNIX, SOCK_STREAM, state, 0, (uint8_t)requests};
    /* The memory of a socket, of 4 bytes instead of 36. */
    static const uint8_t memory[8] = {8, 0, SOCKDIAG_UNIX_DIAG_MEMINFO};
    uint8_t short_memory[24];
    uint8_t *bytes = (uint8_t *)buffer;
    uint32_t number;
    size_t end = 0;
    if (fd != kernel || (flags & ~MSG_TRUNC) != 0)
        abort();
    if (is_interrupted() || !has_connected())
        return -1;
    errno = ETIMEDOUT;
    if (has_ended)
        return -1;
    errno = EPERM;
    if (getenv("FAKE_KERNEL_DENIES") != NULL)
        return -1;
    if (joined != 0)
        return put_event(bytes);
    memcpy(&number, request + 8, 4);
    if (request[4] == SOCKDIAG_SOCK_DESTROY)
        return put_closed(bytes, number);
    if (capacity < 32768)
        abort();
    if (replies != NULL)
        return put_datagram(bytes, number, capacity, flags);
    datagrams++;
    if (request[16] != AF_UNIX && request[17] == IPPROTO_UDP)
        return lose_data(bytes, number);
    if (requests > 2 || (requests == 2 && !repeats(first_request)))
        return (ssize_t)put(bytes, NLMSG_ERROR, 0, number, &failure, 4);
    if (datagrams == 2)
        return (ssize_t)put(bytes, NLMSG_DONE, NLM_F_MULTI, number, &success, 4);
    if (requests == 1)
        return (ssize_t)put(bytes, SOCKDIAG_SOCK_DIAG_BY_FAMILY, NLM_F_MULTI | NLM_F_DUMP_INTR,
                            number, reply, 16);
    end += put(bytes, NLMSG_DONE, NLM_F_MULTI, number - 1, &success, 4);
    end += put(bytes + end, SOCKDIAG_SOCK_DIAG_BY_FAMILY, NLM_F_MULTI, number, reply, 8);
    end += put(bytes + end, SOCKDIAG_SOCK_DIAG_BY_FAMILY, NLM_F_MULTI, number, reply, 16);
    memcpy(short_memory, reply, 16);
    memcpy(short_memory + 16, memory, 8);
    end += put(bytes + end, SOCKDIAG_SOCK_DIAG_BY_FAMILY, NLM_F_MULTI, number, short_memory, 24);
    return (ssize_t)end;
}

int clock_gettime(clockid_t clock, struct timespec *time) {
    const char *text = getenv("FAKE_KERNEL_TIME");
    if (clock != CLOCK_REALTIME || text == NULL)
        return (int)syscall(SYS_clock_gettime, clock, time);
    return sscanf(text, "%ld.%ld", &time->tv_sec, &time->tv_nsec) == 2 ? 0 : -1;
}

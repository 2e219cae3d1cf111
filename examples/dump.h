/*
 * dump.h: requests the sockets of a kind from the kernel, and calls a function for each reply. Copy
 * this file into your program; list_sockets.c and list_rtt.c use it. It is valid C99 and C++.
 *
 * A dump is requested from NETLINK_SOCK_DIAG, as sock_diag(7) shows. One that was interrupted, or
 * of which data was lost, is requested again, each time on another socket: the rest of the answer
 * is not received there. Replies are stored until the dump ends, so the function is called for
 * those of the last attempt only. If sockets open or close during a dump, they and others, which
 * were open all the time, may be missing or listed twice all the same: the kernel does not report
 * it.
 */
#ifndef DUMP_H
#define DUMP_H

#include "sockdiag.h"

#include <errno.h>
#include <fcntl.h>
#include <linux/netlink.h>
#include <stddef.h>
#include <stdlib.h>
#include <string.h>
#include <sys/socket.h>
#include <unistd.h>

/* How often a dump is requested if it is always interrupted or data is always lost. */
#define DUMP_ATTEMPTS 10

/* Length of the buffer for a datagram, in bytes. The datagrams of a dump have at most 32 KiB. */
#define DUMP_BUFFER_LENGTH 65536

/* State of a dump that has not ended. All others are 0 or an error number. */
#define DUMP_GOES_ON (-1)

struct dump {
    int fd;
    uint32_t port_number;     /* Port id of the socket, which the kernel's answers have. */
    uint32_t sequence_number; /* That of the last request. */
    uint32_t is_interrupted;
    uint8_t *replies; /* The length of each reply, which is a size_t, and its bytes. */
    size_t length, capacity;
};

static int dump_store(struct dump *dump, const uint8_t *reply, size_t length) {
    const size_t total = dump->length + sizeof length + length;
    if (total > dump->capacity) {
        const size_t capacity = 2 * total;
        uint8_t *replies = (uint8_t *)realloc(dump->replies, capacity);
        if (replies == NULL)
            return ENOMEM;
        dump->replies = replies;
        dump->capacity = capacity;
    }
    memcpy(dump->replies + dump->length, &length, sizeof length);
    memcpy(dump->replies + dump->length + sizeof length, reply, length);
    dump->length = total;
    return DUMP_GOES_ON;
}

/* Returns the state that an NLMSG_ERROR or an NLMSG_DONE leads to. */
static int dump_end(const struct dump *dump, const uint8_t *payload, size_t length) {
    int32_t number;
    if (sockdiag_get_error_number(payload, length, &number) != SOCKDIAG_OK || number > 0
        || number < -4095)
        return EPROTO;
    return number == 0 && dump->is_interrupted != 0 ? EAGAIN : -number;
}

/* Stores the replies of a datagram, up to the message that ends the dump. */
static int dump_read(struct dump *dump, const uint8_t *datagram, size_t length) {
    struct sockdiag_cursor cursor = {0};
    struct sockdiag_message message;
    uint32_t answer;
    int state = DUMP_GOES_ON;
    while (state == DUMP_GOES_ON
           && (answer = sockdiag_next_any_message(datagram, length, &cursor, &message))
                  != SOCKDIAG_END) {
        const uint8_t *payload;
        /* After a framing error the rest of the datagram is unknown, and may have the end. */
        if (answer != SOCKDIAG_ITEM || message.message_type == SOCKDIAG_NLMSG_OVERRUN)
            return EAGAIN;
        payload = datagram + message.offset;
        if (!sockdiag_is_answer(&message, dump->sequence_number, dump->port_number))
            continue;
        dump->is_interrupted |= sockdiag_is_interrupted(&message);
        if (sockdiag_ends_answer(&message))
            return dump_end(dump, payload, message.length);
        if (message.message_type == SOCKDIAG_SOCK_DIAG_BY_FAMILY)
            state = dump_store(dump, payload, message.length);
    }
    return state;
}

/* Receives datagrams until the dump ends. With MSG_TRUNC, recv(2) returns the length of a datagram
 * that exceeds the buffer; without it, it cuts the datagram silently. It fails with ENOBUFS if
 * datagrams were dropped. */
static int dump_receive(struct dump *dump) {
    uint8_t datagram[DUMP_BUFFER_LENGTH];
    int state = DUMP_GOES_ON;
    while (state == DUMP_GOES_ON) {
        const ssize_t got = recv(dump->fd, datagram, sizeof datagram, MSG_TRUNC);
        if (got < 0 && errno == EINTR)
            continue;
        if (got < 0)
            return errno == ENOBUFS ? EAGAIN : errno;
        if ((size_t)got > sizeof datagram)
            return EMSGSIZE;
        state = dump_read(dump, datagram, (size_t)got);
    }
    return state;
}

/* Sends the request. Returns 0, or -1 with errno. */
static int dump_send(const struct dump *dump, const uint8_t *request, size_t length) {
    ssize_t sent;
    do
        sent = send(dump->fd, request, length, 0);
    while (sent < 0 && errno == EINTR);
    return sent < 0 ? -1 : 0;
}

/* Returns whether standard input, output and error are open. If one is not, the socket gets its
 * number, and the kernel receives what is written there. */
static int dump_has_streams(void) {
    return fcntl(STDIN_FILENO, F_GETFD) >= 0 && fcntl(STDOUT_FILENO, F_GETFD) >= 0
        && fcntl(STDERR_FILENO, F_GETFD) >= 0;
}

/* Opens a socket to which only the kernel can send, requests the dump, and receives it. */
static int dump_once(struct dump *dump, uint8_t *request, size_t length) {
    struct sockaddr_nl address;
    socklen_t size = sizeof address;
    int state;
    dump->sequence_number++;
    dump->is_interrupted = 0;
    dump->length = 0;
    memcpy(request + offsetof(struct nlmsghdr, nlmsg_seq), &dump->sequence_number, 4);
    memset(&address, 0, sizeof address);
    address.nl_family = AF_NETLINK;
    if (!dump_has_streams())
        return EBADF;
    dump->fd = socket(AF_NETLINK, SOCK_DGRAM | SOCK_CLOEXEC, SOCKDIAG_NETLINK_SOCK_DIAG);
    if (dump->fd < 0)
        return errno;
    if (connect(dump->fd, (struct sockaddr *)&address, sizeof address) != 0
        || getsockname(dump->fd, (struct sockaddr *)&address, &size) != 0
        || dump_send(dump, request, length) != 0) {
        state = errno;
    } else {
        dump->port_number = address.nl_pid;
        state = dump_receive(dump);
    }
    close(dump->fd);
    return state;
}

/*
 * Requests a dump, whose sequence number it sets, and calls a function for each reply, with its
 * payload. Returns 0, or an error number, before which the replies may be incomplete: EAGAIN if
 * each attempt was interrupted or lost data, EBADF if standard input, output or error is not open,
 * EINVAL if the request has no bytes, EMSGSIZE if a datagram exceeds the buffer, EPROTO if the end
 * is invalid, that of a failed call, or that which the kernel sent: ENOENT or EINVAL if it lacks
 * the protocol or the family.
 */
static inline int dump_replies(uint8_t *request, size_t length,
                               void (*call)(void *context, const uint8_t *payload, size_t length),
                               void *context) {
    struct dump dump;
    int attempt, state = EAGAIN;
    size_t offset = 0, size;
    /* The call that writes the request has failed: the family is invalid, for example. */
    if (length == 0)
        return EINVAL;
    memset(&dump, 0, sizeof dump);
    for (attempt = 0; state == EAGAIN && attempt < DUMP_ATTEMPTS; attempt++)
        state = dump_once(&dump, request, length);
    for (; offset < dump.length; offset += sizeof size + size) {
        memcpy(&size, dump.replies + offset, sizeof size);
        call(context, dump.replies + offset + sizeof size, size);
    }
    free(dump.replies);
    return state;
}

/* Returns the text of an error number that dump_replies returns. */
static inline const char *dump_error_text(int error) {
    if (error == EBADF)
        return "standard input, output or error is not open";
    return error == EAGAIN ? "interrupted, or data lost, at each attempt" : strerror(error);
}

#endif

/*
 * Answers the dump requests that a program sends to NETLINK_SOCK_DIAG from a file, in place of the
 * kernel: the first one by the first dump of the file, and so on. A shared library for LD_PRELOAD.
 * The environment variable REPLAY names the file, a pcap file that bench/dumps.py wrote. Packets
 * that are requests are skipped, and the port id in the answers becomes that of the program's
 * socket.
 */
#define _GNU_SOURCE
#include <dlfcn.h>
#include <errno.h>
#include <linux/netlink.h>
#include <stdint.h>
#include <stdio.h>
#include <stdlib.h>
#include <string.h>
#include <sys/socket.h>

static union {
    struct nlmsghdr aligned;
    uint8_t bytes[1 << 18];
} datagram;
static size_t length; /* That of the datagram, or 0 if none is read. */
static FILE *file;

static int is_sock_diag(int fd) {
    int domain = 0, protocol = 0;
    socklen_t size = sizeof domain;
    return getsockopt(fd, SOL_SOCKET, SO_DOMAIN, &domain, &size) == 0 && domain == AF_NETLINK &&
           getsockopt(fd, SOL_SOCKET, SO_PROTOCOL, &protocol, &size) == 0 &&
           protocol == NETLINK_SOCK_DIAG;
}

/* Reads the next packet that is not a request. */
static int read_datagram(int fd) {
    uint8_t head[32]; /* The packet header, with the length at 8, and the cooked header. */
    struct sockaddr_nl local;
    socklen_t size = sizeof local;
    uint32_t recorded;
    struct nlmsghdr *message = &datagram.aligned;
    int left;
    do {
        if (fread(head, sizeof head, 1, file) != 1)
            return -1;
        memcpy(&recorded, head + 8, sizeof recorded);
        length = recorded - 16;
        if (length > sizeof datagram || fread(datagram.bytes, length, 1, file) != 1)
            return -1;
    } while (message->nlmsg_flags & NLM_F_REQUEST);
    if (getsockname(fd, (struct sockaddr *)&local, &size) != 0)
        return -1;
    for (left = (int)length; NLMSG_OK(message, left); message = NLMSG_NEXT(message, left))
        message->nlmsg_pid = local.nl_pid;
    return 0;
}

/* Opens the file at the first request. Returns whether the request is answered from the file. */
static int is_answered(int fd) {
    const char *path = getenv("REPLAY");
    if (path == NULL || !is_sock_diag(fd))
        return 0;
    if (file == NULL && ((file = fopen(path, "rb")) == NULL || fseek(file, 24, SEEK_SET) != 0))
        abort();
    return 1;
}

ssize_t send(int fd, const void *bytes, size_t size, int flags) {
    ssize_t (*next)(int, const void *, size_t, int) = dlsym(RTLD_NEXT, "send");
    return is_answered(fd) ? (ssize_t)size : next(fd, bytes, size, flags);
}

ssize_t sendmsg(int fd, const struct msghdr *message, int flags) {
    ssize_t (*next)(int, const struct msghdr *, int) = dlsym(RTLD_NEXT, "sendmsg");
    return is_answered(fd) ? (ssize_t)sizeof(struct nlmsghdr) : next(fd, message, flags);
}

ssize_t recvmsg(int fd, struct msghdr *message, int flags) {
    ssize_t (*next)(int, struct msghdr *, int) = dlsym(RTLD_NEXT, "recvmsg");
    size_t copied;
    if (file == NULL || !is_sock_diag(fd))
        return next(fd, message, flags);
    if (length == 0 && read_datagram(fd) != 0)
        return errno = EIO, -1;
    memset(message->msg_name, 0, message->msg_namelen);
    message->msg_flags = 0;
    copied = length;
    if (message->msg_iov->iov_len < length) {
        copied = message->msg_iov->iov_len;
        message->msg_flags = MSG_TRUNC;
    }
    memcpy(message->msg_iov->iov_base, datagram.bytes, copied);
    if (flags & MSG_TRUNC)
        copied = length;
    if (!(flags & MSG_PEEK))
        length = 0;
    return (ssize_t)copied;
}

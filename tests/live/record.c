/* A library to preload. It records what a program sends and receives on AF_NETLINK in the file
   CAPTURE, a pcap capture of packets as an nlmon device has them. */
#define _GNU_SOURCE
#include <fcntl.h>
#include <stdint.h>
#include <stdlib.h>
#include <string.h>
#include <sys/socket.h>
#include <sys/syscall.h>
#include <sys/uio.h>
#include <unistd.h>

static void record(int fd, const struct iovec *parts, size_t count, ssize_t length)
{
    static const uint8_t header[24] = {0xd4, 0xc3, 0xb2, 0xa1, 2, 0, 4, 0, [18] = 4, [20] = 253};
    static int file = -1;
    int domain = 0, protocol = 0;
    socklen_t size = sizeof domain;
    if (length <= 0 || getsockopt(fd, SOL_SOCKET, SO_DOMAIN, &domain, &size)
        || domain != AF_NETLINK)
        return;
    size = sizeof protocol;
    getsockopt(fd, SOL_SOCKET, SO_PROTOCOL, &protocol, &size);
    if (file < 0) {
        file = open(getenv("CAPTURE"), O_WRONLY | O_CREAT | O_APPEND, 0600);
        (void)!write(file, header, sizeof header);
    }
    uint32_t lengths[4] = {0, 0, length + 16, length + 16};
    uint8_t front[16] = {0, 4, 3, 0x38, [14] = protocol >> 8, [15] = protocol};
    (void)!write(file, lengths, sizeof lengths);
    (void)!write(file, front, sizeof front);
    for (size_t i = 0; i < count && length > 0; i++) {
        size_t part = parts[i].iov_len < (size_t)length ? parts[i].iov_len : (size_t)length;
        (void)!write(file, parts[i].iov_base, part);
        length -= part;
    }
}

/* System calls, since dlsym(3) would need the version of glibc that built this library. */
ssize_t sendmsg(int fd, const struct msghdr *m, int flags)
{
    ssize_t length = syscall(SYS_sendmsg, fd, m, flags);
    record(fd, m->msg_iov, m->msg_iovlen, length);
    return length;
}

ssize_t recvmsg(int fd, struct msghdr *m, int flags)
{
    ssize_t length = syscall(SYS_recvmsg, fd, m, flags);
    if (!(flags & MSG_PEEK))
        record(fd, m->msg_iov, m->msg_iovlen, length);
    return length;
}

ssize_t send(int fd, const void *bytes, size_t count, int flags)
{
    struct iovec part = {(void *)bytes, count};
    ssize_t length = syscall(SYS_sendto, fd, bytes, count, flags, NULL, 0);
    record(fd, &part, 1, length);
    return length;
}

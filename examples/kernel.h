/*
 * kernel.h: what sockdump.c and socklist.c share. It opens a socket of the kernel, in a network
 * namespace. Functions that return an int return -1 after they have reported an error, as a line
 * that begins with PROGRAM, the name of the program. It is valid C99 and C++.
 */
#ifndef KERNEL_H
#define KERNEL_H

#include <errno.h>
#include <fcntl.h>
#include <linux/netlink.h>
#include <sched.h>
#include <stdint.h>
#include <stdio.h>
#include <string.h>
#include <sys/socket.h>
#include <time.h>
#include <unistd.h>

/* Returns the time of a clock that is never set, in milliseconds. */
static inline int64_t milliseconds(void) {
    struct timespec time;
    clock_gettime(CLOCK_MONOTONIC, &time);
    return (int64_t)time.tv_sec * 1000 + time.tv_nsec / 1000000;
}

/* Returns what follows the name of an option in an argument, or NULL if the argument is another
 * one. */
static inline const char *after_name(const char *argument, const char *name) {
    const size_t length = strlen(name);
    return strncmp(argument, name, length) == 0 ? argument + length : NULL;
}

/* Reports that a call failed, by the text of errno. */
static inline int fail(const char *what) {
    fprintf(stderr, PROGRAM ": %s: %s\n", what, strerror(errno));
    return -1;
}

/* Opens /dev/null in place of standard input and of standard error if they are closed: a socket or
 * a pipe would get their numbers, and the kernel would receive what is written there. Returns 0, or
 * -1 if standard output is closed or a call fails. */
static inline int open_streams(void) {
    int stream;
    for (stream = STDIN_FILENO; stream <= STDERR_FILENO; stream++) {
        if (fcntl(stream, F_GETFD) >= 0)
            continue;
        if (stream == STDOUT_FILENO)
            return fputs(PROGRAM ": standard output is not open\n", stderr), -1;
        if (open("/dev/null", O_RDWR) != stream)
            return fail("/dev/null");
    }
    return 0;
}

/* Enters the network namespace of a file. */
static inline int enter(const char *path) {
    const int file = open(path, O_RDONLY | O_CLOEXEC);
    int failed = file < 0 || setns(file, CLONE_NEWNET) != 0 ? fail(path) : 0;
    if (file >= 0)
        close(file);
    return failed;
}

/* Opens a socket to which only the kernel can send. */
static inline int open_kernel(void) {
    struct sockaddr_nl address;
    const int kernel = socket(AF_NETLINK, SOCK_DGRAM | SOCK_CLOEXEC, NETLINK_SOCK_DIAG);
    memset(&address, 0, sizeof address);
    address.nl_family = AF_NETLINK;
    if (kernel < 0)
        return fail("socket");
    if (connect(kernel, (struct sockaddr *)&address, sizeof address) == 0)
        return kernel;
    fail("connect");
    close(kernel);
    return -1;
}

#endif

/*
 * socklist_close.h: has the kernel close the sockets that sslist lists as objects of JSON. It is
 * valid C99 and C++.
 */
#ifndef SOCKLIST_CLOSE_H
#define SOCKLIST_CLOSE_H

#include "sockdiag.h"
#include "socklist_objects.h"

#include <arpa/inet.h>
#include <errno.h>
#include <linux/netlink.h>
#include <netinet/in.h>
#include <sys/socket.h>
#include <unistd.h>

/* The sockets to close. */
struct targets {
    struct sockdiag_inet_request *items;
    size_t count, capacity;
};

/* Reads the number of a member. Returns 0, or -1 if it is missing. */
static int read_number(const char *object, const char *name, unsigned long *number) {
    const char *found = find_member(object, name);
    *number = found != NULL ? strtoul(found, NULL, 10) : 0;
    return found != NULL ? 0 : -1;
}

/* Reads the address of a member. Returns 0, or -1 if it is missing or no address. */
static int read_address(const char *object, const char *name, int family, uint8_t *address) {
    const char *found = find_member(object, name);
    char digits[INET6_ADDRSTRLEN];
    const size_t length = found != NULL ? strcspn(found, "\"") : sizeof digits;
    if (length >= sizeof digits)
        return -1;
    memcpy(digits, found, length);
    digits[length] = '\0';
    return inet_pton(family, digits, address) == 1 ? 0 : -1;
}

/* Reads the cookie: hexadecimal digits of a number, whose lowest byte is the first one. Returns 0,
 * or -1 if it is missing. */
static int read_cookie(const char *object, uint8_t *cookie) {
    const char *found = find_member(object, ",\"cookie\":\"");
    unsigned long long number = found != NULL ? strtoull(found, NULL, 16) : 0;
    size_t index;
    for (index = 0; index < 8; index++, number >>= 8)
        cookie[index] = (uint8_t)number;
    return found != NULL ? 0 : -1;
}

/* Reads the socket that an object of sslist describes. Returns 0, or -1 if it is no TCP or UDP
 * socket. */
static int read_target(const char *object, struct sockdiag_inet_request *target) {
    static const char tcp[] = "{\"netid\":\"tcp\"", udp[] = "{\"netid\":\"udp\"";
    unsigned long family, source, destination, interface_id;
    const int is_tcp = strncmp(object, tcp, sizeof tcp - 1) == 0;
    memset(target, 0, sizeof *target);
    if ((!is_tcp && strncmp(object, udp, sizeof udp - 1) != 0)
        || read_number(object, ",\"family\":", &family) != 0
        || read_number(object, ",\"sport\":", &source) != 0
        || read_number(object, ",\"dport\":", &destination) != 0
        || read_number(object, ",\"if\":", &interface_id) != 0
        || read_address(object, ",\"src\":\"", (int)family, target->source_address) != 0
        || read_address(object, ",\"dst\":\"", (int)family, target->destination_address) != 0)
        return -1;
    target->family = (uint8_t)family;
    target->protocol = is_tcp ? IPPROTO_TCP : IPPROTO_UDP;
    target->states = UINT32_MAX;
    target->source_port = (uint16_t)source;
    target->destination_port = (uint16_t)destination;
    target->interface_id = (uint32_t)interface_id;
    return read_cookie(object, target->cookie);
}

/* Stores the socket of an object of sslist. */
static int store_target(void *context, const char *object) {
    struct targets *targets = (struct targets *)context;
    targets->items = (struct sockdiag_inet_request *)grown(
        targets->items, targets->count, &targets->capacity, sizeof *targets->items);
    if (read_target(object, &targets->items[targets->count]) == 0)
        return targets->count++, 0;
    fprintf(stderr, PROGRAM ": not a TCP or UDP socket: %.60s\n", object);
    return -1;
}

/* Asks on the terminal whether sockets shall be closed. Returns 1 if the answer begins with y or
 * Y, else 0. */
static int is_wanted(size_t count) {
    FILE *terminal = fopen("/dev/tty", "r+e");
    int answer;
    if (terminal == NULL)
        return fputs(PROGRAM ": no terminal to ask on; --yes closes without asking\n", stderr), 0;
    fprintf(terminal, "Close %lu socket%s? [y/N] ", (unsigned long)count, count == 1 ? "" : "s");
    fflush(terminal);
    answer = fgetc(terminal);
    fclose(terminal);
    if (answer == 'y' || answer == 'Y')
        return 1;
    return fputs(PROGRAM ": nothing was closed\n", stderr), 0;
}

/* The kernel's answer to a request: an NLMSG_ERROR, whose number is 0 if the socket was closed. */
struct answer {
    struct nlmsghdr header;
    struct nlmsgerr error;
};

/* Receives the answer to the request with this sequence number. Returns 0 or an error number. */
static int receive_answer(int kernel, uint32_t sequence_number) {
    struct answer answer;
    ssize_t length;
    do
        length = recv(kernel, &answer, sizeof answer, 0);
    while ((length < 0 && errno == EINTR)
           || (length >= (ssize_t)sizeof answer.header
               && answer.header.nlmsg_seq != sequence_number));
    if (length < 0)
        return errno;
    if (length < (ssize_t)NLMSG_LENGTH(sizeof answer.error.error)
        || answer.header.nlmsg_type != NLMSG_ERROR)
        return EPROTO;
    return -answer.error.error;
}

/* Requests the kernel to close a socket. Returns 0 or an error number. */
static int close_socket(int kernel, struct sockdiag_inet_request *target) {
    static uint32_t sequence_number;
    uint8_t request[SOCKDIAG_INET_REQUEST_LENGTH];
    size_t length;
    ssize_t sent;
    target->header.flags = NLM_F_REQUEST | NLM_F_ACK;
    target->header.sequence_number = ++sequence_number;
    if (sockdiag_write_inet_destroy(target, request, sizeof request, &length) != SOCKDIAG_OK)
        return EINVAL;
    do
        sent = send(kernel, request, length, 0);
    while (sent < 0 && errno == EINTR);
    return sent < 0 ? errno : receive_answer(kernel, sequence_number);
}

/* Reports a socket that was not closed. */
static void report(const struct sockdiag_inet_request *target, int error) {
    char source[INET6_ADDRSTRLEN] = "", destination[INET6_ADDRSTRLEN] = "";
    inet_ntop(target->family, target->source_address, source, sizeof source);
    inet_ntop(target->family, target->destination_address, destination, sizeof destination);
    fprintf(stderr, PROGRAM ": not closed: %s %s port %u, %s port %u: %s\n",
            target->protocol == IPPROTO_TCP ? "tcp" : "udp", source, target->source_port,
            destination, target->destination_port, strerror(error));
}

/* Closes the sockets. One that the kernel does not find was closed meanwhile, for example with the
 * other end of its connection. Returns the exit status. */
static int close_sockets(const struct targets *targets) {
    const int kernel = open_kernel();
    size_t index;
    int failed = kernel < 0;
    for (index = 0; kernel >= 0 && index < targets->count; index++) {
        const int error = close_socket(kernel, &targets->items[index]);
        if (error == 0 || error == ENOENT)
            continue;
        report(&targets->items[index], error);
        failed = 1;
    }
    if (kernel >= 0)
        close(kernel);
    return failed ? EXIT_FAILURE : 0;
}

#endif

/*
 * list_sockets [-l] [PORT]: lists the sockets of this machine, one line for each UNIX socket, for
 * each TCP, UDP and MPTCP socket over IPv4 and IPv6, and for each netlink and packet socket. With
 * -l, lists only UNIX, TCP and MPTCP sockets that listen, and UDP sockets without a peer. With a
 * port, lists only TCP, UDP and MPTCP sockets with this local port.
 *
 * dump.h requests each kind from the kernel. An attribute that is rejected does not hide its
 * socket: the line ends with its kind and its error. Only a short INET_DIAG_INFO of TCP is not
 * reported if it contains the round-trip time. A reply whose header is rejected is reported. The
 * exit status is 0 if every reply was listed and the last dump of each request was complete, 1 if
 * not, and 2 for wrong arguments. A protocol that the kernel lacks is reported, and is not a
 * failure. The program is valid C99 and C++.
 */
#include "dump.h"

#include <arpa/inet.h>
#include <netinet/in.h>
#include <stdio.h>

/* Missing in older headers of the C library. */
#define PROTOCOL_MPTCP 262

/* The sockets to list. */
struct selection {
    int only_listening;
    uint16_t port; /* Local port, or 0 for all. */
};

/* The replies to a request. */
struct listing {
    const char *protocol;
    int has_rejected_reply;
};

/* Prints a text. Bytes that are not printable are printed as dots, and an abstract name is printed
 * after an @. */
static void print_text(const struct sockdiag_text *text) {
    size_t index;
    if (text->kind == 0)
        return;
    putchar(' ');
    if (text->kind == SOCKDIAG_ABSTRACT)
        putchar('@');
    for (index = 0; index < text->length; index++) {
        const uint8_t byte = text->bytes[index];
        putchar(byte >= 0x20 && byte < 0x7f ? byte : '.');
    }
}

static void print_number(const char *name, struct sockdiag_number number) {
    if (number.is_set)
        printf(" %s %u", name, number.value);
}

/* Prints the inodes of the sockets that connected and were not yet accepted. They are the value of
 * an attribute that the details lack. */
static void print_pending(const uint8_t *payload, size_t length) {
    struct sockdiag_cursor cursor = {SOCKDIAG_UNIX_ATTRIBUTES}, step = {0};
    struct sockdiag_attribute it;
    uint32_t inode;
    while (sockdiag_next_attribute(payload, length, &cursor, &it) == SOCKDIAG_ITEM) {
        if ((it.type_word & SOCKDIAG_NLA_TYPE_MASK) != SOCKDIAG_UNIX_DIAG_ICONS)
            continue;
        while (sockdiag_next_pending(payload + it.offset, it.length, &step, &inode)
               == SOCKDIAG_ITEM)
            printf(" pending %u", inode);
        return;
    }
}

/* Ends a line: prints the kinds of the attributes that are rejected, with their errors. */
static void end_line(const struct sockdiag_rejections *rejections) {
    unsigned kind;
    for (kind = 0; kind < SOCKDIAG_REJECTION_KINDS; kind++) {
        const uint32_t error = rejections->errors[kind];
        if (error != 0)
            printf(" rejected %u (%s)", kind, sockdiag_error_text(error));
    }
    if (rejections->framing != 0)
        printf(" rejected (%s)", sockdiag_error_text(rejections->framing));
    putchar('\n');
}

static uint32_t print_unix(const uint8_t *payload, size_t length) {
    struct sockdiag_unix_details it;
    struct sockdiag_rejections rejections;
    const uint32_t error =
        sockdiag_unix_get_lenient_details(payload, length, &it, sizeof it, &rejections);
    if (error != SOCKDIAG_OK)
        return error;
    printf("unix type %u state %u inode %u", it.header.kind, it.header.state, it.header.inode);
    print_text(&it.name);
    print_number("peer", it.peer);
    print_number("received", it.recv_queue);
    print_number("sent", it.send_queue);
    if (rejections.errors[SOCKDIAG_UNIX_DIAG_ICONS] == 0)
        print_pending(payload, length);
    end_line(&rejections);
    return SOCKDIAG_OK;
}

static uint32_t print_inet(const char *protocol, const uint8_t *payload, size_t length) {
    char source[INET6_ADDRSTRLEN] = "", destination[INET6_ADDRSTRLEN] = "";
    struct sockdiag_inet_details it;
    struct sockdiag_rejections rejections;
    struct sockdiag_tcp_info info;
    size_t info_length;
    const uint32_t error =
        sockdiag_inet_get_lenient_details(payload, length, &it, sizeof it, &rejections);
    if (error != SOCKDIAG_OK)
        return error;
    inet_ntop(it.header.family, it.header.source_address, source, sizeof source);
    inet_ntop(it.header.family, it.header.destination_address, destination, sizeof destination);
    printf("%s state %u %s %u %s %u uid %u inode %u", protocol, it.header.state, source,
           it.header.source_port, destination, it.header.destination_port, it.header.uid,
           it.header.inode);
    print_text(&it.congestion);
    print_number("mark", it.mark);
    /* Each kernel sends struct tcp_info in its own size, and a short one is rejected. Does it
     * contain this field? An MPTCP socket has struct mptcp_info there. */
    if (strcmp(protocol, "tcp") == 0
        && sockdiag_inet_get_tcp_info(payload, length, &info, sizeof info, &info_length)
               == SOCKDIAG_OK
        && SOCKDIAG_HAS(info_length, info, rtt)) {
        rejections.errors[SOCKDIAG_INET_DIAG_INFO] = SOCKDIAG_OK;
        /* 0: not measured, as of a socket that listens. */
        if (info.rtt != 0)
            printf(" rtt %uus", info.rtt);
    }
    end_line(&rejections);
    return SOCKDIAG_OK;
}

/* Prints the multicast groups of a netlink socket. Each has a bit: group 1 is the lowest bit of the
 * first byte. */
static void print_groups(const struct sockdiag_text *groups) {
    size_t index;
    if (groups->kind == 0)
        return;
    for (index = 0; index < 8 * groups->length; index++)
        if ((groups->bytes[index / 8] >> index % 8 & 1) != 0)
            printf(" group %lu", (unsigned long)index + 1);
}

/* A netlink socket that is in a group is listed twice by the kernel, with the same cookie. */
static uint32_t print_netlink(const uint8_t *payload, size_t length) {
    struct sockdiag_netlink_details it;
    struct sockdiag_rejections rejections;
    const uint32_t error =
        sockdiag_netlink_get_lenient_details(payload, length, &it, sizeof it, &rejections);
    if (error != SOCKDIAG_OK)
        return error;
    printf("netlink protocol %u port %u inode %u", it.header.protocol, it.header.port,
           it.header.inode);
    print_groups(&it.groups);
    end_line(&rejections);
    return SOCKDIAG_OK;
}

/* The interface is in an attribute, and not in the header: a reply may lack it. */
static uint32_t print_packet(const uint8_t *payload, size_t length) {
    struct sockdiag_packet_details it;
    struct sockdiag_rejections rejections;
    const uint32_t error =
        sockdiag_packet_get_lenient_details(payload, length, &it, sizeof it, &rejections);
    if (error != SOCKDIAG_OK)
        return error;
    printf("packet type %u protocol %u", it.header.kind, it.header.protocol);
    if (it.has_info)
        printf(" interface %u", it.info.interface);
    printf(" inode %u", it.header.inode);
    end_line(&rejections);
    return SOCKDIAG_OK;
}

/* Prints the socket of a reply by the call for its family, which is the first byte. Returns
 * SOCKDIAG_OK, or the code of the error of the header. */
static uint32_t print_socket(const char *protocol, const uint8_t *payload, size_t length) {
    switch (length > 0 ? payload[0] : AF_UNSPEC) {
    case AF_UNIX:
        return print_unix(payload, length);
    case AF_NETLINK:
        return print_netlink(payload, length);
    case AF_PACKET:
        return print_packet(payload, length);
    default:
        return print_inet(protocol, payload, length);
    }
}

/* Prints the socket of a reply. Reports a reply whose header is rejected. */
static void print_reply(void *context, const uint8_t *payload, size_t length) {
    struct listing *listing = (struct listing *)context;
    const uint32_t error = print_socket(listing->protocol, payload, length);
    if (error == SOCKDIAG_OK)
        return;
    listing->has_rejected_reply = 1;
    fprintf(stderr, "list_sockets: %s: invalid reply: %s\n", listing->protocol,
            sockdiag_error_text(error));
}

/* Requests a dump, and prints its sockets. Returns 0 if it is complete, and no reply is rejected. A
 * kernel that lacks the protocol or the family sends ENOENT or EINVAL. The code is that of the call
 * that wrote the request. */
static int list(const char *protocol, uint32_t code, uint8_t *request, size_t length) {
    struct listing listing = {protocol, 0};
    int error;
    if (code != SOCKDIAG_OK)
        return fprintf(stderr, "list_sockets: %s: %s\n", protocol, sockdiag_error_text(code)), -1;
    error = dump_replies(request, length, print_reply, &listing);
    if (error != 0)
        fprintf(stderr, "list_sockets: %s: %s\n", protocol, dump_error_text(error));
    if (error != 0 && error != ENOENT && error != EINVAL)
        return -1;
    return listing.has_rejected_reply ? -1 : 0;
}

static int list_unix(const struct selection *selection) {
    uint8_t bytes[SOCKDIAG_UNIX_REQUEST_LENGTH];
    struct sockdiag_unix_request request;
    size_t length;
    uint32_t code;
    memset(&request, 0, sizeof request);
    request.header.flags = SOCKDIAG_NLM_F_REQUEST | SOCKDIAG_NLM_F_DUMP;
    request.states = selection->only_listening ? 1u << SOCKDIAG_TCP_LISTEN : UINT32_MAX;
    request.show = SOCKDIAG_UDIAG_SHOW_NAME | SOCKDIAG_UDIAG_SHOW_PEER | SOCKDIAG_UDIAG_SHOW_ICONS
                 | SOCKDIAG_UDIAG_SHOW_RQLEN;
    code = sockdiag_write_unix_request(&request, bytes, sizeof bytes, &length);
    return list("unix", code, bytes, length);
}

/* Writes the filter for a local port, or for all if it is 0: an attribute INET_DIAG_REQ_BYTECODE.
 * Returns its length, or 0 if there is no filter. */
static size_t write_filter(uint16_t port, uint8_t *attribute, size_t size) {
    char text[40] = "";
    struct nlattr head = {0, SOCKDIAG_INET_DIAG_REQ_BYTECODE};
    struct sockdiag_filter_details filter;
    if (port != 0)
        sprintf(text, "sport >= :%u and sport <= :%u", (unsigned)port, (unsigned)port);
    if (sockdiag_parse_filter((const uint8_t *)text, strlen(text), attribute + sizeof head,
                              size - sizeof head, &filter, sizeof filter)
            != SOCKDIAG_OK
        || filter.program_length == 0)
        return 0;
    head.nla_len = (uint16_t)(sizeof head + filter.program_length);
    memcpy(attribute, &head, sizeof head);
    return head.nla_len;
}

/* Lists the sockets of a protocol in the given states. */
static int list_inet(const char *name, uint32_t protocol, uint8_t extensions, uint32_t states,
                     uint16_t port) {
    static const uint8_t families[2] = {AF_INET, AF_INET6};
    uint8_t filter[64], bytes[SOCKDIAG_INET_REQUEST_LENGTH + sizeof filter];
    const size_t filter_length = write_filter(port, filter, sizeof filter);
    struct sockdiag_inet_request request;
    size_t length;
    uint32_t code;
    int index, failed = 0;
    memset(&request, 0, sizeof request);
    request.header.flags = SOCKDIAG_NLM_F_REQUEST | SOCKDIAG_NLM_F_DUMP;
    request.protocol = protocol;
    request.extensions = extensions;
    request.states = states;
    for (index = 0; index < 2; index++) {
        request.family = families[index];
        code = sockdiag_write_inet_request_with_attributes(&request, filter, filter_length, bytes,
                                                           sizeof bytes, &length);
        failed |= list(name, code, bytes, length);
    }
    return failed;
}

/* Lists the sockets of a family whose requests do not select states, which is AF_NETLINK or
 * AF_PACKET. Requests the attributes whose bits are in show. */
static int list_family(const char *name, uint8_t family, uint8_t protocol, uint32_t show) {
    uint8_t bytes[SOCKDIAG_SHOW_REQUEST_LENGTH];
    struct sockdiag_show_request request;
    size_t length;
    uint32_t code;
    memset(&request, 0, sizeof request);
    request.header.flags = SOCKDIAG_NLM_F_REQUEST | SOCKDIAG_NLM_F_DUMP;
    request.family = family;
    request.protocol = protocol;
    request.show = show;
    code = sockdiag_write_show_request(&request, bytes, sizeof bytes, &length);
    return list(name, code, bytes, length);
}

/* Lists netlink sockets of all protocols, and packet sockets. The protocol 0 of a request for
 * netlink sockets selects those of NETLINK_ROUTE only. */
static int list_netlink_and_packet(void) {
    int failed = list_family("netlink", AF_NETLINK, SOCKDIAG_NDIAG_PROTO_ALL,
                             SOCKDIAG_NDIAG_SHOW_GROUPS);
    failed |= list_family("packet", AF_PACKET, 0, SOCKDIAG_PACKET_SHOW_INFO);
    return failed;
}

/* Lists the selected sockets. A listening TCP or MPTCP socket is in state TCP_LISTEN, and a UDP
 * socket without a peer in state TCP_CLOSE. Netlink and packet sockets have no port of TCP or UDP,
 * and do not listen. */
static int list_selected(const struct selection *selection) {
    const uint8_t with_info = 1u << (SOCKDIAG_INET_DIAG_INFO - 1);
    const uint8_t with_congestion = 1u << (SOCKDIAG_INET_DIAG_CONG - 1);
    uint32_t tcp = UINT32_MAX, udp = UINT32_MAX;
    int failed = 0;
    if (selection->only_listening) {
        tcp = 1u << SOCKDIAG_TCP_LISTEN;
        udp = 1u << SOCKDIAG_TCP_CLOSE;
    }
    if (selection->port == 0)
        failed |= list_unix(selection);
    failed |= list_inet("tcp", IPPROTO_TCP, with_info | with_congestion, tcp, selection->port);
    failed |= list_inet("udp", IPPROTO_UDP, 0, udp, selection->port);
    failed |= list_inet("mptcp", PROTOCOL_MPTCP, 0, tcp, selection->port);
    if (selection->port == 0 && !selection->only_listening)
        failed |= list_netlink_and_packet();
    return failed;
}

/* Returns the port that a text has in decimal digits, or 0 if it is none. strtoul(3) also accepts
 * spaces and a sign before them, and any bytes after them. */
static uint16_t read_port(const char *text) {
    const unsigned long port = strtoul(text, NULL, 10);
    return text[strspn(text, "0123456789")] == '\0' && port <= UINT16_MAX ? (uint16_t)port : 0;
}

/* Reads the arguments. Returns 0, or -1 if they are wrong. */
static int read_arguments(int count, char **arguments, struct selection *selection) {
    int index = 1;
    selection->only_listening = count > 1 && strcmp(arguments[1], "-l") == 0;
    selection->port = 0;
    index += selection->only_listening;
    if (index < count) {
        selection->port = read_port(arguments[index]);
        if (selection->port == 0)
            return -1;
        index++;
    }
    return index == count ? 0 : -1;
}

int main(int argc, char **argv) {
    struct selection selection;
    int failed;
    if (read_arguments(argc, argv, &selection) != 0)
        return fputs("usage: list_sockets [-l] [PORT], with a PORT from 1 to 65535\n", stderr), 2;
    failed = list_selected(&selection);
    if (fflush(stdout) != 0 || ferror(stdout))
        return perror("list_sockets: standard output"), 1;
    return failed != 0;
}

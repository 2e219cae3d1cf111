/*
 * list_rtt: lists the established TCP connections of this machine, with their round-trip times. A
 * connection whose kernel sends a struct tcp_info without this field has none. The program is valid
 * C99 and C++.
 */
#include "dump.h"

#include <arpa/inet.h>
#include <netinet/in.h>
#include <stdio.h>

static void print_connection(void *context, const uint8_t *payload, size_t length) {
    char source[INET6_ADDRSTRLEN] = "", destination[INET6_ADDRSTRLEN] = "";
    struct sockdiag_inet_details it;
    struct sockdiag_rejections rejections;
    struct sockdiag_tcp_info info;
    size_t info_length;
    const uint32_t error = sockdiag_inet_get_lenient_details(payload, length, &it, sizeof it,
                                                             &rejections);
    if (error != SOCKDIAG_OK) {
        fprintf(stderr, "list_rtt: invalid reply: %s\n", sockdiag_error_text(error));
        *(int *)context = 1;
        return;
    }
    inet_ntop(it.header.family, it.header.source_address, source, sizeof source);
    inet_ntop(it.header.family, it.header.destination_address, destination, sizeof destination);
    printf("%s %u %s %u", source, it.header.source_port, destination, it.header.destination_port);
    if (sockdiag_inet_get_tcp_info(payload, length, &info, sizeof info, &info_length)
            == SOCKDIAG_OK
        && SOCKDIAG_HAS(info_length, info, rtt))
        printf(" rtt %uus", info.rtt);
    putchar('\n');
}

int main(void) {
    static const uint8_t families[2] = {AF_INET, AF_INET6};
    int index, error, failed = 0;
    for (index = 0; index < 2; index++) {
        uint8_t bytes[SOCKDIAG_INET_REQUEST_LENGTH];
        struct sockdiag_inet_request request;
        size_t length;
        memset(&request, 0, sizeof request);
        request.header.flags = SOCKDIAG_NLM_F_REQUEST | SOCKDIAG_NLM_F_DUMP;
        request.family = families[index];
        request.protocol = IPPROTO_TCP;
        request.states = 1u << SOCKDIAG_TCP_ESTABLISHED;
        request.extensions = 1u << (SOCKDIAG_INET_DIAG_INFO - 1);
        if (sockdiag_write_inet_request(&request, bytes, sizeof bytes, &length) != SOCKDIAG_OK)
            return 1;
        error = dump_replies(bytes, length, print_connection, &failed);
        if (error != 0) {
            fprintf(stderr, "list_rtt: %s\n", dump_error_text(error));
            failed = 1;
        }
    }
    if (fflush(stdout) != 0 || ferror(stdout))
        return perror("list_rtt: standard output"), 1;
    return failed;
}

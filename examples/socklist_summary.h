/*
 * socklist_summary.h: counts the sockets in the table of sslist, and prints their numbers as ss -s
 * does. It is valid C99 and C++.
 */
#ifndef SOCKLIST_SUMMARY_H
#define SOCKLIST_SUMMARY_H

#include "socklist_options.h"
#include "socklist_table.h"

/* Other kinds than IPv4 and IPv6, in the order of their indices: the letter with which the column
 * Netid begins, and the name. */
static const struct { char letter; const char *name; } others[] = {
    {'u', "UNIX"}, {'p', "PACKET"}, {'n', "NETLINK"}, {'v', "VSOCK"}, {'x', "XDP"}, {0, NULL},
};

enum { OTHERS = sizeof others / sizeof *others - 1 };

/* Numbers of sockets. */
struct summary {
    unsigned long all;
    unsigned long inet[PROTOCOLS][2]; /* By protocol, and of IPv4 or of IPv6. */
    unsigned long others[OTHERS];
    unsigned long tcp, established, closed, orphaned, waiting; /* Of TCP. */
};

/* Returns whether the state of a socket is one of these, each of which a space follows. */
static int has_state(const struct columns *columns, const char *const *states) {
    while (*states != NULL && !begins(columns, STATE, *states))
        states++;
    return *states != NULL;
}

/* Counts a TCP socket, whose timer follows the columns. Returns whether the rows count it too, as
 * in ss(8): those that are closed do not count there, nor those in TIME-WAIT and SYN-RECV, which
 * have smaller structures. */
static int count_tcp(struct summary *summary, const struct columns *columns) {
    static const char *const established[] = {"ESTAB ", "CLOSE-WAIT ", NULL};
    static const char *const closed[] = {"UNCONN ", NULL}, *const waiting[] = {"TIME-WAIT ", NULL};
    static const char *const starting[] = {"SYN-RECV ", NULL};
    static const char *const ending[] = {"FIN-WAIT-1 ", "FIN-WAIT-2 ", "LAST-ACK ", "CLOSING ",
                                         NULL};
    /* By its timer, a socket in FIN-WAIT-2 may have the smaller structure of TIME-WAIT. */
    const int waits = has_state(columns, waiting)
                      || strstr(columns->start[PEER], " timer:(timewait,") != NULL;
    const int is_small = waits || has_state(columns, starting);
    summary->tcp++;
    summary->established += has_state(columns, established);
    summary->closed += has_state(columns, closed);
    summary->waiting += waits;
    summary->orphaned += !waits && begins(columns, INODE, "0 ") && has_state(columns, ending);
    summary->all += !is_small;
    return !is_small && !has_state(columns, closed);
}

/* Counts the socket of a line. */
static void count_line(struct summary *summary, const char *line) {
    struct columns columns;
    size_t protocol, index;
    if (!split(line, &columns) || begins(&columns, NETID, "Netid "))
        return;
    protocol = find_protocol(&columns);
    summary->all += protocol != PROTOCOL_TCP;
    /* An IPv6 address is in brackets, or `*`. */
    if (protocol < PROTOCOLS)
        summary->inet[protocol][strchr("[*", *columns.start[LOCAL]) != NULL] +=
            protocol != PROTOCOL_TCP || count_tcp(summary, &columns);
    for (index = 0; protocol == PROTOCOLS && others[index].name != NULL; index++)
        summary->others[index] += *line == others[index].letter;
}

/* Prints a row of the summary of IPv4 and IPv6 sockets. */
static void print_row(const char *name, const unsigned long *numbers) {
    printf("%-9s %-9lu %-9lu %lu\n", name, numbers[0] + numbers[1], numbers[0], numbers[1]);
}

/* Returns whether a kind is counted: all are if none is selected. */
static int is_counted(const struct options *options, size_t kind) {
    return options->is_selected[kind] || (!has_selected(options, 0) && !has_selected(options, 1));
}

/* Prints the numbers of the selected kinds. Returns 0 or -1. */
static int print_summary(const struct options *options, const struct summary *summary) {
    static const struct { size_t kind, protocol; const char *name; } rows[] = {
        {RAW, PROTOCOL_RAW, "RAW"}, {UDP, PROTOCOL_UDP, "UDP"},
        {TCP, PROTOCOL_TCP, "TCP"}, {MPTCP, PROTOCOL_MPTCP, "MPTCP"},
    };
    unsigned long inet[2] = {0, 0};
    size_t index;
    for (index = 0; index < PROTOCOLS; index++) {
        inet[0] += summary->inet[index][0];
        inet[1] += summary->inet[index][1];
    }
    printf("Total: %lu\nTCP:   %lu (estab %lu, closed %lu, orphaned %lu, timewait %lu)\n\n",
           summary->all, summary->tcp, summary->established, summary->closed, summary->orphaned,
           summary->waiting);
    printf("Transport Total     IP        IPv6\n");
    for (index = 0; index < sizeof rows / sizeof *rows; index++)
        if (is_counted(options, rows[index].kind))
            print_row(rows[index].name, summary->inet[rows[index].protocol]);
    print_row("INET", inet);
    for (index = 0; others[index].name != NULL; index++)
        if (is_counted(options, UNIX + index))
            printf("%-9s %lu\n", others[index].name, summary->others[index]);
    return ferror(stdout) || fflush(stdout) != 0 ? fail("standard output") : 0;
}

#endif

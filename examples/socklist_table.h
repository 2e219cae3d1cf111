/*
 * socklist_table.h: changes a line of the table of sslist: adds the processes, and shows names in
 * place of numbers. It is valid C99 and C++.
 */
#ifndef SOCKLIST_TABLE_H
#define SOCKLIST_TABLE_H

#include "socklist_names.h"

/* The columns of the table that sslist writes. */
#define COLUMNS 8
#define NETID 0
#define STATE 1
#define INODE 4
#define LOCAL 6
#define PEER 7

/* The columns of a line of the table. */
struct columns {
    const char *start[COLUMNS];
    size_t length[COLUMNS];
};

/* Splits a line. Returns whether it is the heading or a socket: it has all columns, and begins with
 * a letter. Other lines begin with a tab, a hyphen or an equals sign, or are empty. */
static int split(const char *line, struct columns *columns) {
    int index;
    if (*line < 'A')
        return 0;
    for (index = 0; index < COLUMNS; index++) {
        line += strspn(line, " ");
        columns->start[index] = line;
        columns->length[index] = strcspn(line, " ");
        line += columns->length[index];
    }
    return columns->length[COLUMNS - 1] > 0;
}

/* Returns whether a column begins with a text. */
static int begins(const struct columns *columns, int index, const char *text) {
    return strncmp(columns->start[index], text, strlen(text)) == 0;
}

/* Returns the index of the protocol of a socket, or PROTOCOLS if it is not of IPv4 or IPv6. */
static size_t find_protocol(const struct columns *columns) {
    size_t index = 0;
    while (index < PROTOCOLS
           && (strlen(protocols[index]) != columns->length[NETID]
               || !begins(columns, NETID, protocols[index])))
        index++;
    return index;
}

/* Adds a port, as the name of its service if it has one. `*` is no number. */
static void add_port(struct text *text, const struct names *names, size_t protocol,
                     const char *port, size_t length) {
    char *end;
    const unsigned long number = strtoul(port, &end, 10);
    const char *name = end == port + length ? find_service(names, protocol, number) : NULL;
    if (name != NULL)
        add_name(text, name);
    else
        add_bytes(text, port, length);
}

/* Adds an address, as the name of its host if it has one. Those of all interfaces have none: `*` of
 * both IP versions, `[::]` of IPv6, and 0.0.0.0 of IPv4. */
static void add_host(struct text *text, struct names *names, const char *address, size_t length) {
    const size_t brackets = *address == '[';
    const char *name = "";
    if (names->has_hosts && *address != '*' && strncmp(address, "[::]", 4) != 0
        && strncmp(address, "0.0.0.0", 7) != 0)
        name = find_host(names, address + brackets, length - 2 * brackets);
    if (*name != '\0')
        add_name(text, name);
    else
        add_bytes(text, address, length);
}

/* Adds an address of an IPv4 or IPv6 socket: after a percent sign the interface, and after the last
 * colon the port. */
static void add_address(struct text *text, struct names *names, size_t protocol, const char *start,
                        size_t length) {
    const char *percent = (const char *)memchr(start, '%', length);
    const char *colon = (const char *)memrchr(start, ':', length);
    const char *end = colon != NULL ? colon : start + length;
    add_host(text, names, start, (size_t)((percent != NULL ? percent : end) - start));
    if (percent != NULL) {
        add_byte(text, '%');
        add_interface(text, names, percent + 1, (size_t)(end - percent - 1));
    }
    if (colon == NULL)
        return;
    add_byte(text, ':');
    add_port(text, names, protocol, colon + 1, (size_t)(start + length - colon - 1));
}

/* Adds the column Local. Of a netlink or a packet socket, the protocol precedes the colon; of a
 * packet socket, the interface follows it, and of an XDP socket it precedes it. */
static void add_local(struct text *text, struct names *names, const struct columns *columns,
                      size_t protocol) {
    const char *local = columns->start[LOCAL], *end = local + columns->length[LOCAL];
    const char *colon = (const char *)memrchr(local, ':', columns->length[LOCAL]);
    if (protocol < PROTOCOLS) {
        add_address(text, names, protocol, local, columns->length[LOCAL]);
    } else if (colon != NULL && begins(columns, NETID, "p_")) {
        add_ethertype(text, names, local, (size_t)(colon - local));
        add_byte(text, ':');
        add_interface(text, names, colon + 1, (size_t)(end - colon - 1));
    } else if (colon != NULL && begins(columns, NETID, "nl ") && !names->is_numeric) {
        add_netlink(text, names, local, colon, end);
    } else if (colon != NULL && begins(columns, NETID, "xdp")) {
        add_interface(text, names, local, (size_t)(colon - local));
        add_bytes(text, colon, (size_t)(end - colon));
    } else {
        add_bytes(text, local, columns->length[LOCAL]);
    }
}

/* Adds the column with the processes that have a socket open, or its heading. */
static void add_process_column(struct text *text, const struct processes *processes,
                               const struct columns *columns, size_t peer) {
    const unsigned long long inode = strtoull(columns->start[INODE], NULL, 10);
    if (begins(columns, NETID, "Netid")) {
        pad(text, peer);
        add_string(text, "Process");
    } else if (has_user(processes, inode)) {
        pad(text, peer);
        add_users(text, processes, inode);
    }
}

/* Adds a socket, or the heading. The columns of a name that is not changed are not counted: it may
 * have wide characters. */
static void add_row(struct text *text, struct names *names, const struct processes *processes,
                    const struct columns *columns) {
    const size_t protocol = find_protocol(columns), start = text->length;
    const char *spaces = columns->start[LOCAL] + columns->length[LOCAL];
    size_t peer;
    add_local(text, names, columns, protocol);
    if (text->length - start == columns->length[LOCAL])
        add_bytes(text, spaces, (size_t)(columns->start[PEER] - spaces));
    else
        pad(text, start);
    peer = text->length;
    if (protocol < PROTOCOLS)
        add_address(text, names, protocol, columns->start[PEER], columns->length[PEER]);
    else
        add_bytes(text, columns->start[PEER], columns->length[PEER]);
    if (processes != NULL)
        add_process_column(text, processes, columns, peer);
}

/* Adds a detail: with its unit if it is a time or a rate of a TCP connection, and with the path of
 * a control group in place of its id. */
static void add_detail(struct text *text, const char *detail, size_t length) {
    static const struct { const char *name, *unit; } units[] = {
        {"rto:", "us"}, {"ato:", "us"}, {"rtt:", "us"}, {"rttvar:", "us"}, {"rcv_rtt:", "us"},
        {"minrtt:", "us"}, {"busy:", "us"}, {"rwnd_limited:", "us"}, {"sndbuf_limited:", "us"},
        {"lastsnd:", "ms"}, {"lastrcv:", "ms"}, {"lastack:", "ms"}, {"total_rto_time:", "ms"},
        {"pacing_rate:", "B/s"}, {"max_pacing_rate:", "B/s"}, {"delivery_rate:", "B/s"},
        {"bw:", "B/s"}, {"mrtt:", "us"}, {"pacing_gain:", "/256"}, {"cwnd_gain:", "/256"},
        {NULL, NULL},
    };
    static const char group[] = "cgroup:";
    char path[PATH_MAX];
    size_t index;
    if (strncmp(detail, group, strlen(group)) == 0
        && find_group(strtoull(detail + strlen(group), NULL, 10), path, sizeof path) == 0) {
        add_string(text, group);
        add_name(text, path);
        return;
    }
    add_bytes(text, detail, length);
    for (index = 0; units[index].name != NULL; index++)
        if (strncmp(units[index].name, detail, strlen(units[index].name)) == 0)
            add_string(text, units[index].unit);
}

/* Adds details, and what is between them. */
static void add_details(struct text *text, const char *details) {
    static const char between[] = " \t,()";
    size_t length;
    for (; *details != '\0'; details += length) {
        length = strspn(details, between);
        add_bytes(text, details, length);
        details += length;
        length = strcspn(details, between);
        if (length > 0)
            add_detail(text, details, length);
    }
}

/* Adds a line of the table, with the processes unless they are NULL. Returns whether it is shown:
 * a line of details is not if none are selected. */
static int add_line(struct text *text, int has_details, struct names *names,
                    const struct processes *processes, const char *line) {
    struct columns columns;
    if (!split(line, &columns)) {
        if (*line != '\t')
            add_string(text, line);
        else if (has_details)
            add_details(text, line);
        return has_details || *line != '\t';
    }
    add_bytes(text, line, (size_t)(columns.start[LOCAL] - line));
    add_row(text, names, processes, &columns);
    if (has_details)
        add_details(text, columns.start[PEER] + columns.length[PEER]);
    return 1;
}

#endif

/*
 * socklist_names.h: names that ss(8) shows in place of numbers: of services, interfaces and hosts,
 * which only the running system has, and of protocols. It is valid C99 and C++.
 */
#ifndef SOCKLIST_NAMES_H
#define SOCKLIST_NAMES_H

#include "socklist_processes.h"
#include "socklist_programs.h"

#include <limits.h>
#include <linux/if_ether.h>
#include <net/if.h>
#include <sys/stat.h>

/* Where the hierarchies of control groups are mounted: of version 2 there, or in `unified`. */
#define GROUPS_FOLDER "/sys/fs/cgroup"
#define UNIFIED "/unified"

/* What the column Netid of IPv4 and IPv6 sockets has. Services have none of the last two. */
static const char *const protocols[] = {"tcp",  "udp",     "mptcp", "raw",  "sctp",
                                        "dccp", "udplite", "inet",  "inet6"};

/* Indices of protocols. */
enum { PROTOCOL_TCP, PROTOCOL_UDP, PROTOCOL_MPTCP, PROTOCOL_RAW };

#define PROTOCOLS (sizeof protocols / sizeof *protocols)
#define PORTS (UINT16_MAX + 1)

/* The name of a host, or "" if the address has none. */
struct host {
    char *address, *name;
};

/* Which names are shown, and those that were read. They are not freed: the program ends then. */
struct names {
    int is_numeric;     /* No names of services and protocols. */
    int has_hosts;      /* Names of hosts. */
    char **services;    /* For each protocol and port the name, or NULL. */
    unsigned low, high; /* The kernel chooses local ports from low to high. */
    struct host *hosts;
    size_t count, capacity;
    int failed; /* -1 if names were not found for another reason than that there are none. */
};

/* A line of /etc/services, such as `http 80/tcp www`, or of /etc/protocols. */
struct entry {
    char line[1024];
    const char *name, *protocol;
    unsigned long number;
    char *aliases; /* The remaining words, for strtok_r. */
};

/* Reads the next entry of a file. Returns whether there is one. */
static int read_entry(FILE *file, struct entry *entry) {
    while (fgets(entry->line, sizeof entry->line, file) != NULL) {
        char *number, *end;
        entry->line[strcspn(entry->line, "#")] = '\0';
        entry->name = strtok_r(entry->line, " \t\n", &entry->aliases);
        number = strtok_r(NULL, " \t\n", &entry->aliases);
        entry->number = number != NULL ? strtoul(number, &end, 10) : PORTS;
        if (entry->number >= PORTS)
            continue;
        entry->protocol = *end == '/' ? end + 1 : end;
        return 1;
    }
    return 0;
}

/* Opens a file with names. Returns NULL if it is out of reach, or after an error is reported. */
static FILE *open_names(const char *path, int *failed) {
    FILE *file = fopen(path, "re");
    if (file == NULL && !is_out_of_reach())
        *failed = fail(path);
    return file;
}

/* Closes a file, if it is open. Reports that it was not read to its end. */
static void close_names(FILE *file, const char *path, int *failed) {
    if (file != NULL && ferror(file) && !is_out_of_reach())
        *failed = fail(path);
    if (file != NULL)
        fclose(file);
}

/* Stores the names of a file. Those without a protocol are of raw sockets, whose port is the
 * protocol of their packets. */
static void load_names(struct names *names, const char *path) {
    FILE *file = open_names(path, &names->failed);
    struct entry entry;
    size_t index;
    while (file != NULL && read_entry(file, &entry)) {
        const char *protocol = *entry.protocol != '\0' ? entry.protocol : "raw";
        for (index = 0; index < PROTOCOLS; index++) {
            char **name = &names->services[index * PORTS + entry.number];
            if (*name == NULL && strcmp(protocols[index], protocol) == 0)
                *name = (char *)allocated(strdup(entry.name));
        }
    }
    close_names(file, path, &names->failed);
}

/* Reads the names of services and of protocols, and which ports the kernel chooses. Returns 0 or
 * -1. */
static int load_services(struct names *names) {
    static const char path[] = "/proc/sys/net/ipv4/ip_local_port_range";
    FILE *range = open_names(path, &names->failed);
    names->services = (char **)allocated(calloc(PROTOCOLS * PORTS, sizeof *names->services));
    load_names(names, "/etc/services");
    load_names(names, "/etc/protocols");
    if (range == NULL || fscanf(range, "%u %u", &names->low, &names->high) != 2)
        names->low = 32768, names->high = 60999;
    close_names(range, path, &names->failed);
    return names->failed;
}

/* Returns the name of a service, or NULL if it has none or the kernel chooses such ports. MPTCP has
 * the services of TCP. */
static const char *find_service(const struct names *names, size_t protocol, unsigned long port) {
    const size_t index = protocol == PROTOCOL_MPTCP ? (size_t)PROTOCOL_TCP : protocol;
    if (names->services == NULL || port >= PORTS
        || (protocol != PROTOCOL_RAW && port >= names->low && port <= names->high))
        return NULL;
    return names->services[index * PORTS + port];
}

/* Runs getent(1) for an address or a name of a host, and calls a function for each line. Returns 0,
 * or -1 if it fails. getnameinfo(3) may load libraries of the system, and a statically linked
 * program can only load those of its own version of the C library. */
static int get_host(const char *database, const char *key, int (*take)(void *, const char *),
                    void *context) {
    const char *items[] = {"getent", database, key, NULL};
    const struct arguments getent = {items, 3, 0};
    const int input = fcntl(STDIN_FILENO, F_DUPFD_CLOEXEC, 0);
    int status;
    if (input < 0)
        return fail("fcntl");
    status = take_output(&getent, input, take, context);
    if (status == 0 || status == 2) /* 2: there is none. */
        return 0;
    return fputs(PROGRAM ": getent failed\n", stderr), -1;
}

/* Stores the name of a line of getent, such as `192.0.2.1       example.org`. */
static int store_host(void *context, const char *line) {
    struct host *host = (struct host *)context;
    const char *name = line + strcspn(line, " ");
    name += strspn(name, " ");
    if (host->name == NULL)
        host->name = (char *)allocated(strndup(name, strcspn(name, " ")));
    return 0;
}

/* Returns the name of a host, or "" if it has none. Each is looked up once, and an IPv4-mapped
 * address as the one of IPv4. */
static const char *find_host(struct names *names, const char *address, size_t length) {
    static const char mapped[] = "::ffff:";
    struct host *host;
    size_t index;
    if (strncmp(address, mapped, sizeof mapped - 1) == 0 && memchr(address, '.', length) != NULL)
        address += sizeof mapped - 1, length -= sizeof mapped - 1;
    for (index = 0; index < names->count; index++)
        if (strncmp(names->hosts[index].address, address, length) == 0
            && names->hosts[index].address[length] == '\0')
            return names->hosts[index].name;
    names->hosts = (struct host *)grown(names->hosts, names->count, &names->capacity,
                                        sizeof *names->hosts);
    host = &names->hosts[names->count++];
    host->address = (char *)allocated(strndup(address, length));
    host->name = NULL;
    if (names->failed == 0 && get_host("hosts", host->address, store_host, host) != 0)
        names->failed = -1;
    if (host->name == NULL)
        host->name = (char *)allocated(strdup(""));
    return host->name;
}

/* Adds the name of an interface, or its number if it has no name. */
static void add_interface(struct text *text, struct names *names, const char *number,
                          size_t length) {
    char name[IF_NAMESIZE], *end;
    const unsigned long index = strtoul(number, &end, 10);
    const int is_index = end == number + length && index > 0 && index <= UINT_MAX;
    if (is_index && if_indextoname((unsigned)index, name) != NULL) {
        add_name(text, name);
        return;
    }
    if (is_index && errno != ENXIO)
        names->failed = fail("if_indextoname");
    add_bytes(text, number, length);
}

/* Adds the process of a netlink socket, whose port id is most often the process id. */
static void add_owner(struct text *text, struct names *names, const char *port_id, size_t length) {
    char path[64], name[64] = "";
    FILE *file;
    snprintf(path, sizeof path, "/proc/%.*s/comm", (int)length, port_id);
    file = open_names(path, &names->failed);
    if (file != NULL && fgets(name, sizeof name, file) != NULL) {
        name[strcspn(name, "\n")] = '\0';
        add_name(text, name);
        add_byte(text, '/');
    }
    close_names(file, path, &names->failed);
    add_bytes(text, port_id, length);
}

/* A number of the kernel, and the name that ss(8) has for it. */
struct named {
    const char *name;
    unsigned number;
};

/* Adds the name of a number that digits show, or the digits if it has none. */
static void add_named(struct text *text, const struct named *names, size_t count,
                      const char *digits, size_t length) {
    const unsigned long number = strtoul(digits, NULL, 10);
    size_t index = 0;
    while (index < count && names[index].number != number)
        index++;
    if (index < count)
        add_string(text, names[index].name);
    else
        add_bytes(text, digits, length);
}

/* Netlink protocols. */
static const struct named netlink_protocols[] = {
    {"rtnl", NETLINK_ROUTE},           {"unused", NETLINK_UNUSED},
    {"usersock", NETLINK_USERSOCK},    {"fw", NETLINK_FIREWALL},
    {"tcpdiag", NETLINK_SOCK_DIAG},    {"nflog", NETLINK_NFLOG},
    {"xfrm", NETLINK_XFRM},            {"selinux", NETLINK_SELINUX},
    {"iscsi", NETLINK_ISCSI},          {"audit", NETLINK_AUDIT},
    {"fiblookup", NETLINK_FIB_LOOKUP}, {"connector", NETLINK_CONNECTOR},
    {"nft", NETLINK_NETFILTER},        {"ip6fw", NETLINK_IP6_FW},
    {"dec-rt", NETLINK_DNRTMSG},       {"uevent", NETLINK_KOBJECT_UEVENT},
    {"genl", NETLINK_GENERIC},         {"scsi-trans", NETLINK_SCSITRANSPORT},
    {"ecryptfs", NETLINK_ECRYPTFS},    {"rdma", NETLINK_RDMA},
    {"crypto", NETLINK_CRYPTO},
};

/* Adds the protocol and the port id of a netlink socket. */
static void add_netlink(struct text *text, struct names *names, const char *local,
                        const char *colon, const char *end) {
    add_named(text, netlink_protocols, sizeof netlink_protocols / sizeof *netlink_protocols, local,
              (size_t)(colon - local));
    add_byte(text, ':');
    if (colon[1] == '0')
        add_string(text, "kernel");
    else
        add_owner(text, names, colon + 1, (size_t)(end - colon - 1));
}

/* Protocols of packet sockets. The first one is all protocols, which has no number in ss(8). Older
 * headers of the kernel lack those that are numbers here. */
static const struct named ethertypes[] = {
    {"*", ETH_P_ALL},               {"802_3", ETH_P_802_3},         {"ax25", ETH_P_AX25},
    {"802_2", ETH_P_802_2},         {"snap", ETH_P_SNAP},           {"ddcmp", ETH_P_DDCMP},
    {"wan_ppp", ETH_P_WAN_PPP},     {"ppp_mp", ETH_P_PPP_MP},       {"localtalk", ETH_P_LOCALTALK},
    {"can", ETH_P_CAN},             {"ppptalk", ETH_P_PPPTALK},     {"tr_802_2", ETH_P_TR_802_2},
    {"mobitex", ETH_P_MOBITEX},     {"control", ETH_P_CONTROL},     {"irda", ETH_P_IRDA},
    {"econet", ETH_P_ECONET},       {"loop", ETH_P_LOOP},           {"pup", ETH_P_PUP},
    {"pupat", ETH_P_PUPAT},         {"ip", ETH_P_IP},               {"x25", ETH_P_X25},
    {"arp", ETH_P_ARP},             {"ieeepup", ETH_P_IEEEPUP},     {"ieeepupat", ETH_P_IEEEPUPAT},
    {"dec", ETH_P_DEC},             {"dna_dl", ETH_P_DNA_DL},       {"dna_rc", ETH_P_DNA_RC},
    {"dna_rt", ETH_P_DNA_RT},       {"lat", ETH_P_LAT},             {"diag", ETH_P_DIAG},
    {"cust", ETH_P_CUST},           {"sca", ETH_P_SCA},             {"teb", ETH_P_TEB},
    {"rarp", ETH_P_RARP},           {"atalk", ETH_P_ATALK},         {"aarp", ETH_P_AARP},
    {"802.1Q", ETH_P_8021Q},        {"ipx", ETH_P_IPX},             {"ipv6", ETH_P_IPV6},
    {"mpls_uc", ETH_P_MPLS_UC},     {"mpls_mc", ETH_P_MPLS_MC},     {"atmmpoa", ETH_P_ATMMPOA},
    {"ppp_disc", ETH_P_PPP_DISC},   {"ppp_ses", ETH_P_PPP_SES},     {"atmfate", ETH_P_ATMFATE},
    {"profinet", 0x8892},           {"aoe", ETH_P_AOE},             {"ethercat", 0x88a4},
    {"802.1ad", ETH_P_8021AD},      {"tipc", ETH_P_TIPC},           {"LLDP", 0x88cc},
};

/* Adds the protocol of a packet socket. */
static void add_ethertype(struct text *text, const struct names *names, const char *number,
                          size_t length) {
    const size_t count = names->is_numeric ? 1 : sizeof ethertypes / sizeof *ethertypes;
    add_named(text, ethertypes, count, number, length);
}

/* Stores the path of the control group with this id, below its hierarchy. Returns 0, or -1 if there
 * is none, or if the user is not root. */
static int find_group(uint64_t id, char *path, size_t size) {
    uint64_t storage[(sizeof(struct file_handle) + sizeof id) / sizeof id + 1];
    struct file_handle *handle = (struct file_handle *)(void *)storage;
    const int mount = open(GROUPS_FOLDER UNIFIED, O_RDONLY | O_CLOEXEC | O_DIRECTORY);
    const int folder = mount >= 0 ? mount : open(GROUPS_FOLDER, O_RDONLY | O_CLOEXEC | O_DIRECTORY);
    const char *root = mount >= 0 ? GROUPS_FOLDER UNIFIED : GROUPS_FOLDER;
    char link[32], target[PATH_MAX];
    ssize_t length;
    int group = -1;
    handle->handle_bytes = sizeof id;
    handle->handle_type = 0xfe; /* FILEID_KERNFS of the kernel. */
    memcpy(handle->f_handle, &id, sizeof id);
    if (folder >= 0)
        group = open_by_handle_at(folder, handle, O_RDONLY | O_CLOEXEC | O_DIRECTORY);
    snprintf(link, sizeof link, "/proc/self/fd/%d", group);
    length = readlink(link, target, sizeof target - 1);
    if (group >= 0)
        close(group);
    if (folder >= 0)
        close(folder);
    if (length < 0)
        return -1;
    target[length] = '\0';
    if (strncmp(target, root, strlen(root)) != 0)
        return -1;
    snprintf(path, size, "%s", target[strlen(root)] == '\0' ? "/" : target + strlen(root));
    return 0;
}

#endif

/*
 * socklist_options.h: reads the arguments of socklist, and makes those of sockdump and sslist. It
 * is valid C99 and C++.
 */
#ifndef SOCKLIST_OPTIONS_H
#define SOCKLIST_OPTIONS_H

#include "socklist_words.h"

/* A kind of socket: its letter, or 0; the name of its option, which is that of sockdump for it; and
 * whether its sockets are of IPv4 and IPv6. */
struct kind {
    char letter;
    const char *name;
    int is_inet;
};

static const struct kind kinds[] = {
    {'t', "tcp", 1},    {'u', "udp", 1},   {'M', "mptcp", 1}, {'w', "raw", 1}, {'x', "unix", 0},
    {'0', "packet", 0}, {0, "netlink", 0}, {0, "vsock", 0},   {0, "xdp", 0},   {0, NULL, 0},
};

/* Indices of kinds. */
enum { TCP, UDP, MPTCP, RAW, UNIX, PACKET, NETLINK, VSOCK, XDP, KINDS };

struct options {
    struct arguments recorder; /* Of sockdump. */
    struct arguments lister;   /* The options for sslist. */
    struct text words;         /* The words of a filter, as they were read. */
    const char *states;        /* Words for the states that -a or -l selects, or NULL. */
    struct filter filter;
    const char *name_space;    /* The file of a network namespace, or NULL. */
    int is_selected[KINDS];
    int has_version; /* -4 or -6. */
    int has_words;   /* -- was read. */
    int has_events;
    int is_repeated; /* --every or --events. */
    int is_json;
    int is_summary;
    int is_numeric;
    int has_hosts;   /* Names of hosts. */
    int has_details; /* -o, -m, -i or -e. */
    int has_timers;  /* -e, which shows timers too. */
    char printed;    /* h for the usage, V for the version. */
    int has_processes;
    int has_kill;
    int is_confirmed; /* --yes. */
};

static const char usage[] =
    "usage: socklist [OPTION ..] [FILTER ..]\n"
    "       socklist --help | --version\n\n"
    "Lists the sockets of this machine, by sockdump and sslist. Options as in ss(8):\n\n"
    "  -t, -u, -M, -w, -x, -0  TCP, UDP, MPTCP, raw, UNIX and packet sockets; also\n"
    "                          --vsock, --xdp and -f FAMILY; without these all\n"
    "  -A KIND,..              these kinds, with the names that sockdump has\n"
    "  -4, -6                  only those of IPv4, of IPv6\n"
    "  -a                      in all states; -l only listening; without these only\n"
    "                          connections, unless the filter names states\n"
    "  -p, --processes         the processes that have the socket open\n"
    "  -n, --numeric           numbers, not names, of ports and protocols\n"
    "  -r, --resolve           names of hosts\n"
    "  -s, --summary           only the numbers of the selected sockets\n"
    "  -E, --events            TCP and UDP sockets as they are destroyed\n"
    "  -N, --net NAME          the network namespace /run/netns/NAME\n"
    "      --netns=FILE        the network namespace of a file\n"
    "      --every=SECONDS     a list every SECONDS seconds\n"
    "  -K, --kill              close the TCP and UDP sockets that are listed, which\n"
    "                          needs a filter, such as dport = :443\n"
    "      --yes               with -K, do not ask\n"
    "  -o, -m, -i, -e          timers, memory, TCP connections, and all other details\n"
    "                          with the timers\n"
    "  -H, -O, --json, --utf8, --requests\n"
    "                          the format, as of sslist\n\n"
    "Words that are no options, and all after --, are a filter as in ss(8):\n"
    "state established '( dport = :https or dst 10.0.0.0/8 )'.\n";

/* Prints a text. Returns the exit status. */
static int print(const char *text) {
    if (fputs(text, stdout) < 0 || fflush(stdout) != 0)
        return fail("standard output"), EXIT_FAILURE;
    return 0;
}

/* Reports a wrong argument. Returns -1. */
static int reject(const char *why) {
    fprintf(stderr, PROGRAM ": %s; try socklist --help\n", why);
    return -1;
}

/* Selects the kind with a name of this length. Returns whether there is one. */
static int select_kind(struct options *options, const char *name, size_t length) {
    size_t index;
    for (index = 0; kinds[index].name != NULL; index++)
        if (strlen(kinds[index].name) == length && strncmp(kinds[index].name, name, length) == 0)
            return options->is_selected[index] = 1;
    return 0;
}

/* Selects the kinds of a group: all, or those of IPv4 and IPv6. Returns whether there is one with a
 * name of this length. */
static int select_group(struct options *options, const char *name, size_t length) {
    const int is_all = length == 3 && strncmp(name, "all", length) == 0;
    const int is_inet = length == 4 && strncmp(name, "inet", length) == 0;
    size_t index;
    for (index = 0; kinds[index].name != NULL; index++)
        if (is_all || (is_inet && kinds[index].is_inet))
            options->is_selected[index] = 1;
    return is_all || is_inet;
}

/* Selects the kinds of a list of names, which commas separate. */
static int select_kinds(struct options *options, const char *names) {
    size_t length;
    do {
        length = strcspn(names, ",");
        if (!select_kind(options, names, length) && !select_group(options, names, length))
            return reject_word("unknown kind; kinds are tcp, udp, mptcp, raw, unix, packet, "
                               "netlink, vsock, xdp, inet and all", names), -1;
        names += length;
    } while (*names++ == ',');
    return 0;
}

/* Reads a family. Those of IPv4 and IPv6 are left to sslist. */
static int read_family(struct options *options, const char *name) {
    static const char *const inet[] = {"inet", "inet6", NULL};
    const char *kind = strcmp(name, "link") == 0 ? "packet" : name;
    size_t index;
    for (index = 0; kinds[index].name != NULL; index++)
        if (!kinds[index].is_inet && strcmp(kinds[index].name, kind) == 0)
            return options->is_selected[index] = 1, 0;
    if (!is_among(name, inet))
        return reject_word("unknown family; families are inet, inet6, unix, link, netlink, vsock "
                           "and xdp", name), -1;
    options->has_version = 1;
    append(&options->lister, "-f");
    append(&options->lister, name);
    return 0;
}

/* Reads the name of a network namespace, as ip-netns(8) makes them. */
static int read_name_space(struct options *options, const char *name) {
    static char path[PATH_MAX];
    if ((size_t)snprintf(path, sizeof path, "/run/netns/%s", name) >= sizeof path)
        return reject("the name of the namespace is too long");
    options->name_space = path;
    return 0;
}

/* Reads an option that has a value, by its letter. */
static int read_value(struct options *options, char letter, const char *value) {
    if (value == NULL)
        return reject("-A, -f and -N need a value");
    if (letter == 'A')
        return select_kinds(options, value);
    return letter == 'f' ? read_family(options, value) : read_name_space(options, value);
}

/* Reads a letter. Returns whether sslist does not get it. */
static int read_letter(struct options *options, char letter) {
    size_t index;
    for (index = 0; kinds[index].name != NULL; index++)
        if (kinds[index].letter == letter)
            return options->is_selected[index] = 1;
    options->has_version |= letter == '4' || letter == '6';
    options->has_details |= strchr("omie", letter) != NULL;
    options->has_timers |= letter == 'e';
    if (letter == 'h' || letter == 'V')
        options->printed = letter;
    if (letter == 'a' || letter == 'l')
        options->states = letter == 'a' ? "" : "state listening state closed";
    options->has_processes |= letter == 'p';
    options->is_numeric |= letter == 'n';
    options->has_hosts |= letter == 'r';
    options->is_summary |= letter == 's';
    options->has_events |= letter == 'E';
    options->is_repeated |= letter == 'E';
    options->has_kill |= letter == 'K';
    return strchr("alpnrsEKhV", letter) != NULL;
}

/* Rejects an option that is a letter. Returns -1. */
static int reject_letter(char letter) {
    const char option[] = {'-', letter, '\0'};
    return reject_word("unknown option", option), -1;
}

/* Reads joined letters. Those for sslist stay in the argument. If a letter has a value, it is the
 * rest of the argument or the next one. Returns how many arguments were read, or -1. */
static int read_letters(struct options *options, char *argument, const char *next) {
    char *letter = argument + 1, *end = argument + 1;
    char last;
    for (; *letter != '\0' && strchr("AfN", *letter) == NULL; letter++) {
        if (read_letter(options, *letter))
            continue;
        if (strchr("46omieHO", *letter) == NULL)
            return reject_letter(*letter);
        *end++ = *letter;
    }
    last = *letter;
    *end = '\0';
    if (end > argument + 1)
        append(&options->lister, argument);
    if (last == '\0')
        return 1;
    if (letter[1] != '\0')
        return read_value(options, last, letter + 1) == 0 ? 1 : -1;
    return read_value(options, last, next) == 0 ? 2 : -1;
}

/* Long options that are the same as a letter. */
static const struct { const char *name; char letter; } names[] = {
    {"--processes", 'p'}, {"--numeric", 'n'}, {"--resolve", 'r'}, {"--summary", 's'},
    {"--events", 'E'},    {"--kill", 'K'},    {"--options", 'o'}, {"--memory", 'm'},
    {"--info", 'i'},      {"--extended", 'e'}, {"--ipv4", '4'},   {"--ipv6", '6'},
    {"--all", 'a'},       {"--listening", 'l'}, {"--help", 'h'},  {"--version", 'V'},
};

/* Other long options of sslist. */
static const char *const of_lister[] = {"--json",     "--no-header", "--oneline",
                                         "--requests", "--utf8",      NULL};

/* Reads a long option that is the same as a letter. Returns whether it is one. */
static int read_name(struct options *options, const char *argument) {
    size_t index = 0;
    while (index < sizeof names / sizeof *names && strcmp(argument, names[index].name) != 0)
        index++;
    if (index == sizeof names / sizeof *names)
        return 0;
    if (!read_letter(options, names[index].letter))
        append(&options->lister, argument);
    return 1;
}

/* Reads a long option that sslist does not get. Returns whether it is one. */
static int read_own(struct options *options, const char *argument) {
    if (strcmp(argument, "--yes") == 0)
        return options->is_confirmed = 1;
    if (after_name(argument, "--netns=") != NULL)
        return options->name_space = after_name(argument, "--netns="), 1;
    if (after_name(argument, "--every=") == NULL)
        return select_kind(options, argument + 2, strlen(argument + 2));
    append(&options->recorder, argument);
    return options->is_repeated = 1;
}

/* Reads a long option that has a value, after an equals sign or as the next argument. Returns how
 * many arguments were read, or -1, or 0 if it is another option. */
static int read_valued(struct options *options, const char *argument, const char *next) {
    static const struct { const char *name; char letter; } valued[] = {
        {"--family", 'f'}, {"--net", 'N'}, {"--query", 'A'}, {"--socket", 'A'},
    };
    size_t index;
    for (index = 0; index < sizeof valued / sizeof *valued; index++) {
        const char *rest = after_name(argument, valued[index].name);
        if (rest != NULL && *rest == '=')
            return read_value(options, valued[index].letter, rest + 1) == 0 ? 1 : -1;
        if (rest != NULL && *rest == '\0')
            return read_value(options, valued[index].letter, next) == 0 ? 2 : -1;
    }
    return 0;
}

/* Reads a long option. Returns how many arguments were read, or -1. */
static int read_long(struct options *options, const char *argument, const char *next) {
    const char *protocols = after_name(argument, "--events=");
    const int step = read_valued(options, argument, next);
    if (step != 0 || read_name(options, argument) || read_own(options, argument))
        return step != 0 ? step : 1;
    if (protocols != NULL) {
        read_letter(options, 'E');
        return select_kinds(options, protocols) == 0 ? 1 : -1;
    }
    if (!is_among(argument, of_lister))
        return reject_word("unknown option, or one without its value", argument), -1;
    options->is_json |= strcmp(argument, "--json") == 0;
    append(&options->lister, argument);
    return 1;
}

/* Reads the arguments. Returns 0, or -1 if one is wrong. */
static int read_arguments(struct options *options, int count, char **arguments) {
    int index = 1, step = 1;
    for (; index < count && step > 0 && options->printed == '\0'; index += step) {
        char *argument = arguments[index];
        const char *next = index + 1 < count ? arguments[index + 1] : NULL;
        step = 1;
        if (options->has_words || argument[0] != '-' || argument[1] == '\0')
            add_word(&options->words, argument);
        else if (strcmp(argument, "--") == 0)
            options->has_words = 1;
        else if (argument[1] == '-')
            step = read_long(options, argument, next);
        else
            step = read_letters(options, argument, next);
    }
    add_byte(&options->words, '\0');
    return step > 0 ? 0 : -1;
}

/* Returns whether a kind is selected, of those that are of IPv4 and IPv6 or of the others. */
static int has_selected(const struct options *options, int is_inet) {
    size_t index;
    for (index = 0; kinds[index].name != NULL; index++)
        if (kinds[index].is_inet == is_inet && options->is_selected[index])
            return 1;
    return 0;
}

/* Rejects options that exclude each other. Returns 0 or -1. */
static int check(const struct options *options) {
    const int has_only_tcp_and_udp = !has_selected(options, 0) && !options->is_selected[MPTCP]
                                  && !options->is_selected[RAW];
    if (options->has_events && !has_only_tcp_and_udp)
        return reject("-E lists TCP and UDP sockets: -t and -u");
    if (options->has_events && options->recorder.count > 1)
        return reject("-E takes no --every");
    if (options->is_summary && (options->is_repeated || options->is_json || options->has_kill))
        return reject("-s takes no --every, --json, -E and -K");
    if (options->is_confirmed && !options->has_kill)
        return reject("--yes needs -K");
    if (!options->has_kill)
        return 0;
    if (!has_only_tcp_and_udp)
        return reject("-K closes TCP and UDP sockets: -t and -u");
    if (options->words.bytes[strspn(options->words.bytes, spaces)] == '\0')
        return reject("-K needs a filter, such as dport = :443");
    return options->is_repeated ? reject("-K takes no --every and no -E") : 0;
}

/* Selects the kinds that -K closes, if none is selected. */
static void select_closed(struct options *options) {
    if (options->has_kill && !has_selected(options, 1))
        options->is_selected[TCP] = options->is_selected[UDP] = 1;
}

/* Returns words that select the states which ss(8) lists without an option: of connections, without
 * TIME-WAIT and SYN-RECV, and of the kinds that have no other state, if one is selected. */
static const char *default_states(const struct options *options) {
    if (options->is_selected[PACKET] || options->is_selected[NETLINK] || options->is_selected[XDP])
        return "exclude listening exclude bucket";
    return "exclude listening exclude bucket exclude closed";
}

/* Makes the filter: states, and the words with numbers in place of names. Returns 0, or the exit
 * status after an error. */
static int make_filter(struct options *options) {
    const int has_tcp = options->is_selected[TCP] || options->is_selected[MPTCP];
    const int has_all = !has_tcp && !options->is_selected[UDP];
    const char *states = options->states;
    static struct words words;
    words.has_tcp = has_all || has_tcp;
    words.has_udp = has_all || options->is_selected[UDP];
    if (states == NULL && !options->is_summary)
        states = default_states(options);
    if (states != NULL && *states != '\0' && !has_states(options->words.bytes))
        add_word(&words.text, states);
    return read_words(&words, options->words.bytes, &options->filter);
}

/* Selects only kinds to which the conditions of the filter apply, if it has some. Returns 0, or -1
 * if none is selected, or packet sockets are. */
static int select_conditional(struct options *options) {
    const char *conditions = after_states(options->words.bytes);
    size_t index;
    if (conditions[strspn(conditions, spaces)] == '\0' || !has_selected(options, 0))
        return 0;
    if (!has_selected(options, 1) || options->is_selected[PACKET])
        return reject("conditions such as dport select IPv4 and IPv6 sockets: -t, -u, -M, -w");
    for (index = 0; kinds[index].name != NULL; index++)
        options->is_selected[index] &= kinds[index].is_inet;
    return 0;
}

/* Appends a text of a filter, unless it is empty. */
static void append_filter(const char *text, struct arguments *arguments) {
    if (*text == '\0')
        return;
    append(arguments, "--");
    append(arguments, text);
}

/* Appends what sockdump requests. If sslist selects by -4 or -6, and no kind of these is selected,
 * sockdump requests all. */
static void append_requests(struct options *options) {
    static const char *const events[] = {"--events", "--events=tcp", "--events=udp", "--events"};
    size_t index;
    if (options->has_events)
        append(&options->recorder,
               events[options->is_selected[TCP] + 2 * options->is_selected[UDP]]);
    if (options->has_events)
        return;
    for (index = 0; kinds[index].name != NULL; index++)
        if (options->is_selected[index] && (!options->has_version || has_selected(options, 1)))
            append(&options->recorder, kinds[index].name);
    append_filter(options->filter.text.bytes, &options->recorder);
}

/* Appends the kinds that sslist has to select next to -4 and -6: those of other families. Without
 * these options a capture has only what was requested. */
static void append_families(const struct options *options, struct arguments *lister) {
    size_t index;
    for (index = 0; options->has_version && kinds[index].name != NULL; index++)
        if (options->is_selected[index] && !kinds[index].is_inet) {
            append(lister, "-f");
            append(lister, kinds[index].name);
        }
}

/* Returns the filter of sslist. The kernel selects by the conditions, also by those on what no
 * reply has, but by the states only for some kinds, and not among events, which are all in the same
 * state. What is closed both have to select. */
static const char *lister_filter(const struct options *options) {
    const struct filter *filter = &options->filter;
    if (options->has_events)
        return filter->conditions;
    return options->has_kill ? filter->text.bytes : filter->states.bytes;
}

/* Returns the arguments of sslist, with another option if it is not NULL. */
static struct arguments lister_arguments(const struct options *options, const char *option) {
    struct arguments made = make_arguments("sslist");
    append_all(&made, &options->lister);
    if (option != NULL)
        append(&made, option);
    /* The timer is the fewest details: it is left out if no details are requested. */
    if (!options->has_details || options->has_timers)
        append(&made, "-o");
    if (options->is_summary)
        append(&made, "-O");
    append_families(options, &made);
    append_filter(lister_filter(options), &made);
    return made;
}

#endif

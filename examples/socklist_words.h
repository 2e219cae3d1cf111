/*
 * socklist_words.h: replaces the names in the words of a filter by numbers: services, hosts and
 * interfaces, which only the running system has. sockdump and sslist read the other words. It is
 * valid C99 and C++.
 */
#ifndef SOCKLIST_WORDS_H
#define SOCKLIST_WORDS_H

#include "sockdiag.h"
#include "socklist_names.h"

/* Exit status for wrong arguments, as of sockdump and sslist. */
#define USAGE_ERROR 2

static const char spaces[] = " \t\n\v\f\r";

/* Operators of conditions. */
static const char *const signs[] = {"=", "==", "eq", "!=", "ne", "neq", ">=", "ge", "geq",
                                    "<=", "le", "leq", ">", "gt", "<", "lt", NULL};

/* The words that were read. */
struct words {
    struct text text;  /* They, with numbers in place of names. */
    size_t start;      /* Where the condition begins to which the next word belongs. */
    const char *field; /* What this condition compares, or NULL if there is none. */
    const char *sign;  /* Its operator, or NULL if none was read. */
    int has_tcp, has_udp; /* Whose services are meant. */
};

/* A filter in the words of ss(8), with numbers in place of names. */
struct filter {
    struct text text;
    struct text states;     /* The words that select states, which precede all others. */
    const char *conditions; /* The other words. */
};

/* Adds a word. */
static void add_word(struct text *text, const char *word) {
    if (text->length > 0)
        add_byte(text, ' ');
    add_string(text, word);
}

/* Reports a wrong word of a filter, which may be missing at its end. Returns the exit status. */
static int reject_word(const char *why, const char *word) {
    static struct text shown;
    add_name(&shown, word);
    add_byte(&shown, '\0');
    fprintf(stderr, PROGRAM ": %s%s%s; try socklist --help\n", why, *word != '\0' ? ": " : "",
            shown.bytes);
    return USAGE_ERROR;
}

/* Returns whether an entry has a name. */
static int has_alias(struct entry *entry, const char *name) {
    const char *alias = entry->name;
    while (alias != NULL && strcmp(alias, name) != 0)
        alias = strtok_r(NULL, " \t\n", &entry->aliases);
    return alias != NULL;
}

/* Returns the port of a service of a protocol, or -1 if there is none. */
static long find_port(const char *name, const char *protocol, int *failed) {
    static const char path[] = "/etc/services";
    FILE *file = open_names(path, failed);
    struct entry entry;
    long port = -1;
    while (file != NULL && port < 0 && read_entry(file, &entry))
        if (strcmp(entry.protocol, protocol) == 0 && has_alias(&entry, name))
            port = (long)entry.number;
    close_names(file, path, failed);
    return port;
}

/* Returns whether a text is a number. */
static int is_number(const char *text) {
    char *end;
    strtoul(text, &end, 0);
    return *text >= '0' && *text <= '9' && *end == '\0';
}

/* Adds a port, of a service if it is no number. Nothing and an asterisk are any port. Returns 0, or
 * the exit status after an error. */
static int add_service(struct words *words, struct text *text, const char *port) {
    int failed = 0;
    const int is_known = *port == '\0' || strcmp(port, "*") == 0 || is_number(port);
    const long tcp = is_known || !words->has_tcp ? -1 : find_port(port, "tcp", &failed);
    const long udp = is_known || !words->has_udp ? -1 : find_port(port, "udp", &failed);
    if (failed != 0)
        return EXIT_FAILURE;
    if (tcp >= 0 && udp >= 0 && tcp != udp)
        return reject_word("-t or -u has to select one of the two ports of the service", port);
    if (is_known)
        add_string(text, port);
    else if (tcp < 0 && udp < 0)
        return reject_word("unknown service", port);
    else
        add_number(text, tcp >= 0 ? tcp : udp);
    return 0;
}

/* Stores the address of a line of getent, such as `192.0.2.1       STREAM example.org`. Further
 * lines have other types of sockets. An address with an interface cannot be compared. */
static int store_address(void *context, const char *line) {
    struct text *addresses = (struct text *)context;
    const size_t length = strcspn(line, " ");
    const char *type = line + length + strspn(line + length, " ");
    if (strncmp(type, "STREAM", 6) != 0 || memchr(line, '%', length) != NULL)
        return 0;
    add_bytes(addresses, line, length);
    add_byte(addresses, '\0');
    return 0;
}

/* Adds the condition of a field, in a group if the host has several addresses. */
static void add_conditions(struct words *words, const struct text *addresses, const char *port) {
    struct text *text = &words->text;
    const char *address = addresses->bytes, *end = addresses->bytes + addresses->length;
    const int is_group = address + strlen(address) + 1 < end;
    text->length = words->start;
    if (is_group)
        add_word(text, "(");
    for (; address < end; address += strlen(address) + 1) {
        if (address != addresses->bytes)
            add_word(text, "or");
        add_word(text, words->field);
        if (words->sign != NULL)
            add_word(text, words->sign);
        add_word(text, "[");
        add_string(text, address);
        add_byte(text, ']');
        add_string(text, port);
    }
    if (is_group)
        add_word(text, ")");
}

/* Adds the conditions for the addresses of a host, and a port with its colon. Returns 0, or the
 * exit status after an error. */
static int add_addresses(struct words *words, const char *host, const char *port) {
    struct text addresses = {NULL, 0, 0};
    int status = get_host("ahosts", host, store_address, &addresses) != 0 ? EXIT_FAILURE : 0;
    if (status == 0 && addresses.length == 0)
        status = reject_word("unknown host", host);
    if (status == 0)
        add_conditions(words, &addresses, port);
    free(addresses.bytes);
    return status;
}

/* Returns whether a text without a port is the name of a host: its last part begins with a letter,
 * and it has no slash and no bracket, and is no option of getent. */
static int is_host(const char *text) {
    const char *dot = strrchr(text, '.');
    const char first = dot != NULL ? dot[1] : *text;
    return ((first >= 'a' && first <= 'z') || (first >= 'A' && first <= 'Z'))
        && *text != '-' && strpbrk(text, "/[]") == NULL;
}

/* Returns whether the word of this length is one of a list. */
static int is_one_of(const char *word, size_t length, const char *const *list) {
    while (*list != NULL && (strlen(*list) != length || strncmp(*list, word, length) != 0))
        list++;
    return *list != NULL;
}

/* Returns whether a word is one of a list. */
static int is_among(const char *word, const char *const *list) {
    return is_one_of(word, strlen(word), list);
}

/* Adds the address of a condition. As in ss(8), zeros follow the first numbers of an IPv4 one. */
static void add_ip(struct text *text, const char *address) {
    const size_t length = strspn(address, "0123456789.");
    const int has_end = address[length] == '\0' || address[length] == '/';
    size_t index, missing = 3;
    add_bytes(text, address, length);
    for (index = 0; index < length && missing > 0; index++)
        missing -= address[index] == '.';
    if (length > 0 && has_end && address[length - 1] != '.')
        while (missing-- > 0)
            add_string(text, ".0");
    add_string(text, address + length);
}

/* Adds an address and a port, of which both may be missing: the port follows the last colon, unless
 * a slash or a bracket follows. Returns 0, or the exit status after an error. */
static int add_end(struct words *words, char *word) {
    static const char *const any[] = {"any", "all", "default", NULL};
    char *colon = strrchr(word, ':');
    struct text port = {NULL, 0, 0};
    int status = 0;
    if (colon != strchr(word, ':') && strpbrk(word, "[/") == NULL)
        return reject_word("an IPv6 address has brackets, such as [::1]:80 or [2001:db8::/32]",
                           word);
    if (colon != NULL && strpbrk(colon, "/]") == NULL) {
        add_byte(&port, ':');
        status = add_service(words, &port, colon + 1);
        *colon = '\0';
    }
    add_byte(&port, '\0');
    if (status == 0 && is_host(word) && !is_among(word, any)) {
        status = add_addresses(words, word, port.bytes);
    } else {
        add_word(&words->text, "");
        add_ip(&words->text, is_among(word, any) ? "*" : word);
        add_string(&words->text, port.bytes);
    }
    free(port.bytes);
    return status;
}

/* Adds the index of an interface. Returns 0, or the exit status after an error. */
static int add_index(struct text *text, const char *word) {
    unsigned index;
    if (is_number(word))
        return add_word(text, word), 0;
    index = if_nametoindex(word);
    if (index == 0 && errno != ENODEV)
        return fail("if_nametoindex"), EXIT_FAILURE;
    if (index == 0)
        return reject_word("unknown interface", word);
    add_word(text, "");
    add_number(text, (long)index);
    return 0;
}

/* Adds the id of a control group, which is the inode of its folder, if it is named by its path in
 * the hierarchy of version 2. Returns 0, or the exit status after an error. */
static int add_group(struct text *text, const char *word) {
    static const char *const roots[] = {"", GROUPS_FOLDER UNIFIED, GROUPS_FOLDER, NULL};
    char path[PATH_MAX];
    struct stat found;
    size_t index;
    if (is_number(word))
        return add_word(text, word), 0;
    /* A path may begin with the folder. */
    index = strncmp(word, GROUPS_FOLDER "/", strlen(GROUPS_FOLDER "/")) != 0;
    for (; roots[index] != NULL; index++)
        if ((size_t)snprintf(path, sizeof path, "%s/%s", roots[index], word) < sizeof path
            && stat(path, &found) == 0 && S_ISDIR(found.st_mode)) {
            snprintf(path, sizeof path, "%llu", (unsigned long long)found.st_ino);
            return add_word(text, path), 0;
        }
    return reject_word("unknown control group", word);
}

/* Adds the value of a condition. Returns 0, or the exit status after an error. */
static int add_value(struct words *words, char *word) {
    const char *field = words->field;
    if (strcmp(field, "cgroup") == 0)
        return add_group(&words->text, word);
    if (strcmp(field, "src") == 0 || strcmp(field, "dst") == 0)
        return add_end(words, word);
    if (strcmp(field, "dev") == 0)
        return add_index(&words->text, word);
    add_word(&words->text, *word == ':' ? ":" : "");
    return add_service(words, &words->text, word + (*word == ':'));
}

/* Reads a word. Returns 0, or the exit status after an error. */
static int read_word(struct words *words, char *word) {
    static const char *const fields[] = {"sport", "dport", "src", "dst", "dev", "cgroup",
                                         NULL};
    int status = 0;
    if (words->field != NULL && (words->sign != NULL || !is_among(word, signs))) {
        status = add_value(words, word);
        words->field = NULL;
        return status;
    }
    if (words->field != NULL)
        words->sign = word;
    else
        words->start = words->text.length, words->sign = NULL;
    if (words->field == NULL && is_among(word, fields))
        words->field = word;
    add_word(&words->text, word);
    return 0;
}

/* The words before a wrong value, and why it is wrong. */
static const struct { const char *field, *why; } values[] = {
    {"state", "unknown state"}, {"exclude", "unknown state"}, {"excl", "unknown state"},
    {"sport", "no port from 0 to 65535"}, {"dport", "no port from 0 to 65535"},
    {"src", "no address, such as 192.0.2.0/24, [2001:db8::/32] or *:80"},
    {"dst", "no address, such as 192.0.2.0/24, [2001:db8::/32] or *:80"},
    {"fwmark", "no mark, such as 1 or 0x1/0x3"}, {"cgroup", "no id of a control group"},
    {"dev", "no index of an interface from 0 to 4294967295"},
};

/* Returns where the spaces, or the other bytes, begin that end at an offset of a text. */
static size_t before(const char *text, size_t offset, int are_spaces) {
    while (offset > 0 && (strchr(spaces, text[offset - 1]) != NULL) == are_spaces)
        offset--;
    return offset;
}

/* Returns why the word at an offset of a text is wrong, if it is the value of a condition or a
 * state, or NULL. An operator may precede it. */
static const char *find_reason(const char *text, size_t offset) {
    const size_t end = before(text, offset, 1), start = before(text, end, 0);
    size_t index;
    for (index = 0; index < sizeof values / sizeof *values; index++)
        if (strlen(values[index].field) == end - start
            && strncmp(values[index].field, text + start, end - start) == 0)
            return values[index].why;
    return is_one_of(text + start, end - start, signs) ? find_reason(text, start) : NULL;
}

/* Returns whether a filter begins with words that select states. */
static int has_states(const char *words) {
    static const char *const names[] = {"state", "exclude", "excl", NULL};
    const char *word = words + strspn(words, spaces);
    return is_one_of(word, strcspn(word, spaces), names);
}

/* Returns what follows the first word of a text. */
static const char *after_word(const char *text) {
    text += strspn(text, spaces);
    return text + strcspn(text, spaces);
}

/* Returns what follows the words that select states, which are the first ones. */
static const char *after_states(const char *words) {
    while (has_states(words))
        words = after_word(after_word(words));
    return words;
}

/* Returns 0 if a text is that of a filter, or the exit status after an error. */
static int check_filter(char *text) {
    static uint8_t program[SOCKDIAG_FILTER_PROGRAM_LENGTH];
    struct sockdiag_filter_details found;
    char why[96];
    const uint32_t code = sockdiag_parse_filter((const uint8_t *)text, strlen(text), program,
                                                sizeof program, &found, sizeof found);
    const char *reason;
    if (code == SOCKDIAG_OK)
        return 0;
    reason = code == SOCKDIAG_FILTER_UNEXPECTED ? find_reason(text, found.error_offset) : NULL;
    text += found.error_offset;
    text[strcspn(text, spaces)] = '\0';
    snprintf(why, sizeof why, "filter: %s", reason != NULL ? reason : sockdiag_error_text(code));
    return reject_word(why, text);
}

/* Reads the words of a text, which is changed, and makes the filter. Returns 0, or the exit status
 * after an error. */
static int read_words(struct words *words, char *text, struct filter *filter) {
    char *rest, *word = strtok_r(text, spaces, &rest);
    const char *end;
    int status = 0;
    for (; word != NULL && status == 0; word = strtok_r(NULL, spaces, &rest))
        status = read_word(words, word);
    add_byte(&words->text, '\0');
    if (status != 0 || (status = check_filter(words->text.bytes)) != 0)
        return status;
    filter->text = words->text;
    end = after_states(filter->text.bytes);
    add_bytes(&filter->states, filter->text.bytes, (size_t)(end - filter->text.bytes));
    add_byte(&filter->states, '\0');
    filter->conditions = end + strspn(end, spaces);
    return 0;
}

#endif

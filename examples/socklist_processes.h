/*
 * socklist_processes.h: finds the processes that have sockets open, by the links in /proc, and adds
 * them to a line of the table or of JSON. It is valid C99 and C++.
 */
#ifndef SOCKLIST_PROCESSES_H
#define SOCKLIST_PROCESSES_H

#include "socklist_text.h"

#include <dirent.h>
#include <errno.h>
#include <fcntl.h>
#include <stdint.h>
#include <sys/types.h>
#include <unistd.h>

/* For how long the processes that were found are shown, in milliseconds: shorter than the time
 * between two lists. */
#define STALE_AFTER 500

/* A socket that a process has open. */
struct descriptor {
    unsigned long long inode;
    int process, number;
    size_t name; /* Where the name of the process begins. */
};

/* The sockets of all processes, ordered by inode, process and number. */
struct processes {
    struct descriptor *items;
    size_t count, capacity;
    struct text names; /* Of the processes. Each ends with a zero. */
    int64_t stale_at;  /* The time from which they are found again, in milliseconds. */
    int failed;        /* -1 if some were not found, which is reported. */
};

/* Returns whether errno is that of a process which has ended, or belongs to another user. */
static int is_out_of_reach(void) {
    return errno == EACCES || errno == EPERM || errno == ENOENT || errno == ESRCH;
}

/* Stores the name of a process, whose folder fd is open. Returns where it begins. */
static size_t add_process_name(struct processes *processes, int folder) {
    const size_t start = processes->names.length;
    char name[64];
    const int file = openat(folder, "../comm", O_RDONLY | O_CLOEXEC);
    const ssize_t length = file < 0 ? -1 : read(file, name, sizeof name);
    if (length < 0 && !is_out_of_reach())
        processes->failed = fail("/proc");
    if (file >= 0)
        close(file);
    if (length > 0) /* The last byte is a newline. */
        add_bytes(&processes->names, name, (size_t)length - 1);
    add_byte(&processes->names, '\0');
    return start;
}

/* Stores a descriptor of a process, if it is a socket. `name` is where the name of the process
 * begins, or SIZE_MAX if it is not stored yet. Returns the same of now. */
static size_t add_descriptor(struct processes *processes, int folder, const char *process,
                             const char *number, size_t name) {
    struct descriptor *added;
    char target[64];
    unsigned long long inode;
    const ssize_t length = readlinkat(folder, number, target, sizeof target - 1);
    /* EINVAL: the entry is a folder. */
    if (length < 0 && errno != EINVAL && !is_out_of_reach())
        processes->failed = fail("/proc");
    if (length < 0)
        return name;
    target[length] = '\0';
    if (sscanf(target, "socket:[%llu]", &inode) != 1)
        return name;
    if (name == SIZE_MAX)
        name = add_process_name(processes, folder);
    processes->items = (struct descriptor *)grown(processes->items, processes->count,
                                                  &processes->capacity, sizeof *processes->items);
    added = &processes->items[processes->count++];
    added->inode = inode;
    added->process = atoi(process);
    added->number = atoi(number);
    added->name = name;
    return name;
}

/* Returns the next entry of a folder, or NULL after the last one and after an error. */
static const struct dirent *next_entry(struct processes *processes, DIR *folder) {
    const struct dirent *entry;
    errno = 0;
    entry = readdir(folder);
    if (entry == NULL && errno != 0 && !is_out_of_reach())
        processes->failed = fail("/proc");
    return entry;
}

/* Stores the sockets of a process. */
static void add_process(struct processes *processes, const char *process) {
    char path[64];
    size_t name = SIZE_MAX;
    const struct dirent *entry;
    DIR *folder;
    snprintf(path, sizeof path, "/proc/%.20s/fd", process);
    folder = opendir(path);
    if (folder == NULL && !is_out_of_reach())
        processes->failed = fail(path);
    if (folder == NULL)
        return;
    while ((entry = next_entry(processes, folder)) != NULL)
        name = add_descriptor(processes, dirfd(folder), process, entry->d_name, name);
    closedir(folder);
}

static int compare_descriptors(const void *one, const void *other) {
    const struct descriptor *a = (const struct descriptor *)one;
    const struct descriptor *b = (const struct descriptor *)other;
    if (a->inode != b->inode)
        return a->inode < b->inode ? -1 : 1;
    return a->process != b->process ? a->process - b->process : a->number - b->number;
}

/* Finds the sockets of all processes, unless that was done just before. Returns 0, or -1 if some
 * were not found. */
static int find_processes(struct processes *processes) {
    const struct dirent *entry;
    DIR *folder;
    if (milliseconds() < processes->stale_at)
        return 0;
    folder = opendir("/proc");
    if (folder == NULL)
        return fail("/proc");
    processes->count = processes->names.length = 0;
    while (processes->failed == 0 && (entry = next_entry(processes, folder)) != NULL)
        if (atoi(entry->d_name) > 0)
            add_process(processes, entry->d_name);
    closedir(folder);
    if (processes->count > 0)
        qsort(processes->items, processes->count, sizeof *processes->items, compare_descriptors);
    processes->stale_at = milliseconds() + STALE_AFTER;
    return processes->failed;
}

/* Returns the index of the first descriptor of an inode, or of a higher one. */
static size_t find_inode(const struct processes *processes, unsigned long long inode) {
    size_t low = 0, high = processes->count;
    while (low < high) {
        const size_t middle = low + (high - low) / 2;
        if (processes->items[middle].inode < inode)
            low = middle + 1;
        else
            high = middle;
    }
    return low;
}

/* Returns the next descriptor of an inode, or NULL if there is no other one. */
static const struct descriptor *next_user(const struct processes *processes, size_t index,
                                          unsigned long long inode) {
    if (index >= processes->count || processes->items[index].inode != inode)
        return NULL;
    return &processes->items[index];
}

/* Returns whether a process has a socket open. */
static int has_user(const struct processes *processes, unsigned long long inode) {
    return next_user(processes, find_inode(processes, inode), inode) != NULL;
}

/* Adds the processes that have a socket open, as ss -p shows them. */
static void add_users(struct text *text, const struct processes *processes,
                      unsigned long long inode) {
    size_t index = find_inode(processes, inode);
    const struct descriptor *user;
    const char *before = "users:((\"";
    for (; (user = next_user(processes, index, inode)) != NULL; index++) {
        add_string(text, before);
        add_name(text, processes->names.bytes + user->name);
        add_string(text, "\",pid=");
        add_number(text, user->process);
        add_string(text, ",fd=");
        add_number(text, user->number);
        before = "),(\"";
    }
    add_string(text, "))");
}

/* Returns the length of the character of UTF-8 at the start of a string, or 0 if it is invalid. The
 * rows are those of the table of well-formed byte sequences in the Unicode standard (3.9): the
 * ranges of the first and of the second byte, and the length. The last row has no second byte. */
static size_t character_length(const unsigned char *bytes) {
    static const unsigned char forms[][5] = {
        {0xc2, 0xdf, 0x80, 0xbf, 2}, {0xe0, 0xe0, 0xa0, 0xbf, 3}, {0xe1, 0xec, 0x80, 0xbf, 3},
        {0xed, 0xed, 0x80, 0x9f, 3}, {0xee, 0xef, 0x80, 0xbf, 3}, {0xf0, 0xf0, 0x90, 0xbf, 4},
        {0xf1, 0xf3, 0x80, 0xbf, 4}, {0xf4, 0xf4, 0x80, 0x8f, 4}, {0xf5, 0xff, 1, 0, 0},
    };
    size_t row = 0, length = 2;
    if (bytes[0] < 0x80)
        return 1;
    while (bytes[0] > forms[row][1])
        row++;
    if (bytes[0] < forms[row][0] || bytes[1] < forms[row][2] || bytes[1] > forms[row][3])
        return 0;
    while (length < forms[row][4] && (bytes[length] & 0xc0) == 0x80)
        length++;
    return length == forms[row][4] ? length : 0;
}

static int is_utf8(const char *string) {
    const unsigned char *bytes = (const unsigned char *)string;
    size_t length;
    for (; *bytes != '\0'; bytes += length)
        if ((length = character_length(bytes)) == 0)
            return 0;
    return 1;
}

/* Adds the member with the name of a process to an object. As in the lines of sslist, its name ends
 * with _hex, and its value is hexadecimal digits, if it is not valid UTF-8. */
static void add_name_member(struct text *text, const char *name) {
    const int is_valid = is_utf8(name);
    char escape[8];
    add_string(text, is_valid ? "{\"name\":\"" : "{\"name_hex\":\"");
    for (; *name != '\0'; name++) {
        const char *form = is_valid ? "\\u%04x" : "%02x";
        snprintf(escape, sizeof escape, form, (unsigned)(unsigned char)*name);
        if (is_valid && (*name == '"' || *name == '\\'))
            add_byte(text, '\\');
        if (is_valid && (unsigned char)*name >= ' ')
            add_byte(text, *name);
        else
            add_string(text, escape);
    }
    add_string(text, "\",\"pid\":");
}

/* Adds the member `processes` with the processes that have a socket open. */
static void add_users_member(struct text *text, const struct processes *processes,
                             unsigned long long inode) {
    size_t index = find_inode(processes, inode);
    const struct descriptor *user;
    const char *before = "";
    add_string(text, ",\"processes\":[");
    for (; (user = next_user(processes, index, inode)) != NULL; index++) {
        add_string(text, before);
        add_name_member(text, processes->names.bytes + user->name);
        add_number(text, user->process);
        add_string(text, ",\"fd\":");
        add_number(text, user->number);
        add_byte(text, '}');
        before = ",";
    }
    add_byte(text, ']');
}

#endif

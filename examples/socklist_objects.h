/*
 * socklist_objects.h: reads the members of an object of JSON that sslist writes, and adds those of
 * the processes to it. It is valid C99 and C++.
 */
#ifndef SOCKLIST_OBJECTS_H
#define SOCKLIST_OBJECTS_H

#include "socklist_processes.h"

/* Returns what follows a text in an object of sslist, which begins the value of a member, or NULL.
 * The members of the header are first, so the first one with this name is that of the header. No
 * string has such a text: in a string, a backslash precedes each quotation mark. */
static const char *find_member(const char *object, const char *name) {
    const char *found = strstr(object, name);
    return found == NULL ? NULL : found + strlen(name);
}

/* Returns the inode in an object of sslist. */
static unsigned long long inode_member(const char *object) {
    const char *inode = find_member(object, ",\"ino\":");
    if (inode == NULL)
        inode = find_member(object, ",\"inode\":");
    return inode == NULL ? 0 : strtoull(inode, NULL, 10);
}

/* Adds an object of sslist, with the processes unless they are NULL. */
static void add_object(struct text *text, const struct processes *processes, const char *object) {
    const size_t length = strlen(object);
    if (processes == NULL || length == 0 || object[length - 1] != '}') {
        add_string(text, object);
        return;
    }
    add_bytes(text, object, length - 1);
    add_users_member(text, processes, inode_member(object));
    add_byte(text, '}');
}

#endif

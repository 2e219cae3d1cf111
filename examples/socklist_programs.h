/*
 * socklist_programs.h: starts other programs, and reads the lines of their output. It is valid C99
 * and C++.
 */
#ifndef SOCKLIST_PROGRAMS_H
#define SOCKLIST_PROGRAMS_H

#include "socklist_text.h"

#include <errno.h>
#include <fcntl.h>
#include <limits.h>
#include <poll.h>
#include <signal.h>
#include <stdint.h>
#include <sys/prctl.h>
#include <sys/types.h>
#include <sys/wait.h>
#include <unistd.h>

/* Arguments of a program, which end with a null pointer. */
struct arguments {
    const char **items;
    size_t count, capacity;
};

/* Appends an argument, and the null pointer after it. */
static void append(struct arguments *arguments, const char *argument) {
    arguments->items = (const char **)grown(arguments->items, arguments->count + 1,
                                            &arguments->capacity, sizeof *arguments->items);
    arguments->items[arguments->count++] = argument;
    arguments->items[arguments->count] = NULL;
}

/* Appends arguments to others. */
static void append_all(struct arguments *arguments, const struct arguments *added) {
    size_t index;
    for (index = 0; index < added->count; index++)
        append(arguments, added->items[index]);
}

/* Makes arguments, which begin with the name of a program. */
static struct arguments make_arguments(const char *program) {
    struct arguments made = {NULL, 0, 0};
    append(&made, program);
    return made;
}

/* Where lines are read. */
struct reader {
    int file;
    struct text text;
    size_t start; /* Of the next line. */
};

/* Waits until a file can be read. Ends the program as a write would if the readers of the pipe at
 * standard output have closed it, which poll(2) reports although no event is requested. */
static int wait_for_input(int file) {
    struct pollfd waits[2] = {{file, POLLIN, 0}, {STDOUT_FILENO, 0, 0}};
    while (poll(waits, 2, -1) < 0)
        if (errno != EINTR)
            return fail("poll");
    if ((waits[1].revents & (POLLERR | POLLHUP)) == 0)
        return 0;
    raise(SIGPIPE);
    errno = EPIPE;
    return fail("standard output");
}

/* Reads more bytes. Returns their number, which is 0 at the end, or -1. */
static ssize_t read_more(struct reader *reader) {
    struct text *text = &reader->text;
    ssize_t got;
    text->length -= reader->start;
    if (reader->start > 0)
        memmove(text->bytes, text->bytes + reader->start, text->length);
    reader->start = 0;
    text->bytes = (char *)grown(text->bytes, text->length + PIPE_BUF, &text->capacity, 1);
    if (wait_for_input(reader->file) != 0)
        return -1;
    do
        got = read(reader->file, text->bytes + text->length, text->capacity - text->length);
    while (got < 0 && errno == EINTR);
    if (got < 0)
        return fail("read");
    text->length += (size_t)got;
    return got;
}

/* Reads a line, whose newline is replaced by a zero. Returns 1, or 0 at the end, or -1. */
static int read_line(struct reader *reader, const char **line) {
    char *newline = NULL;
    ssize_t got = 1;
    while (got > 0) {
        const size_t length = reader->text.length - reader->start;
        if (length > 0)
            newline = (char *)memchr(reader->text.bytes + reader->start, '\n', length);
        if (newline != NULL)
            break;
        got = read_more(reader);
    }
    if (newline == NULL)
        return (int)got;
    *newline = '\0';
    *line = reader->text.bytes + reader->start;
    reader->start = (size_t)(newline + 1 - reader->text.bytes);
    return 1;
}

/* Calls a function for each line that is read from a program. Returns 0, or -1 if reading or the
 * function fails; the rest is not read then. */
static int take_lines(int file, int (*take)(void *, const char *), void *context) {
    struct reader reader;
    const char *line = NULL;
    int got;
    memset(&reader, 0, sizeof reader);
    reader.file = file;
    do
        got = read_line(&reader, &line);
    while (got > 0 && (got = take(context, line)) == 0);
    free(reader.text.bytes);
    if (got == 0 && fflush(stdout) != 0)
        return fail("standard output");
    return got;
}

/* Runs a program in the place of this process, from the folder of this one or else by PATH. Returns
 * after an error. */
static void run(const struct arguments *arguments) {
    static const char name[] = "/proc/self/exe";
    const char *program = arguments->items[0];
    char path[PATH_MAX + 16];
    const ssize_t length = readlink(name, path, PATH_MAX);
    char *slash = length > 0 ? (char *)memrchr(path, '/', (size_t)length) : NULL;
    if (slash != NULL) {
        strcpy(slash + 1, program);
        execv(path, (char *const *)(uintptr_t)arguments->items);
    }
    execvp(program, (char *const *)(uintptr_t)arguments->items);
    fail(program);
}

/* Starts a program with this standard input and output. It ends with this process. Returns its
 * process id, or -1. */
static pid_t start(const struct arguments *arguments, int input, int output) {
    const pid_t parent = getpid(), process = fork();
    if (process < 0)
        return fail("fork");
    if (process > 0)
        return process;
    if (prctl(PR_SET_PDEATHSIG, SIGTERM) != 0 || dup2(input, STDIN_FILENO) < 0
        || dup2(output, STDOUT_FILENO) < 0) {
        fail("dup2");
        _exit(EXIT_FAILURE);
    }
    if (getppid() == parent)
        run(arguments);
    _exit(EXIT_FAILURE);
}

/* Waits for the end of a program. Returns its exit status, or 1 if a signal ended it, which is
 * reported, except for that of a closed pipe: why it is closed is reported elsewhere. */
static int wait_for(pid_t process, const struct arguments *arguments) {
    int status;
    while (waitpid(process, &status, 0) < 0)
        if (errno != EINTR)
            return fail("waitpid"), EXIT_FAILURE;
    if (WIFEXITED(status))
        return WEXITSTATUS(status);
    if (WTERMSIG(status) != SIGPIPE)
        fprintf(stderr, PROGRAM ": %s: %s\n", arguments->items[0], strsignal(WTERMSIG(status)));
    return EXIT_FAILURE;
}

/* Runs a program with a standard input, which is closed here, and calls a function for each line of
 * its output. Returns the exit status. */
static int take_output(const struct arguments *program, int input,
                       int (*take)(void *, const char *), void *context) {
    int ends[2], status, failed;
    pid_t process;
    if (pipe2(ends, O_CLOEXEC) != 0) {
        close(input);
        return fail("pipe"), EXIT_FAILURE;
    }
    process = start(program, input, ends[1]);
    close(input);
    close(ends[1]);
    failed = process < 0 ? -1 : take_lines(ends[0], take, context);
    close(ends[0]);
    if (process < 0)
        return EXIT_FAILURE;
    if (failed == 0)
        return wait_for(process, program);
    kill(process, SIGKILL);
    while (waitpid(process, &status, 0) < 0 && errno == EINTR)
        ;
    return EXIT_FAILURE;
}

#endif

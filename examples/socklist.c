/*
 * socklist [OPTION ..] [FILTER ..]: lists the sockets of this machine, as ss(8) does. It runs
 * sockdump, which requests them from the kernel, and sslist, which lists them, and accepts the
 * options of both. In place of numbers that sslist writes it has names of interfaces, services and
 * protocols, and with -r of hosts. It adds the processes that have the sockets open with -p, counts
 * the sockets with -s, and has the kernel close the sockets that it has listed with -K.
 *
 * Both programs are looked for in the folder of this one, and then on PATH. The exit status is 0 if
 * all was listed and closed, 1 if not, and 2 for wrong arguments. It needs the library. The program
 * is valid C99 and C++.
 */
#ifndef _GNU_SOURCE
#define _GNU_SOURCE /* For setns, pipe2 and memfd_create. */
#endif
#define PROGRAM "socklist"

#include "kernel.h"
#include "sockdiag.h"
#include "socklist_close.h"
#include "socklist_options.h"
#include "socklist_summary.h"

#include <sys/mman.h>

/* A listing: what is done with each line of sslist. */
struct listing {
    const struct options *options;
    struct names names;
    struct processes processes;
    struct summary summary;
    struct text line;
};

/* Prints a line of sslist with the names and the processes, or only counts the socket. */
static int print_line(void *context, const char *line) {
    struct listing *it = (struct listing *)context;
    const struct processes *processes = it->options->has_processes ? &it->processes : NULL;
    if (it->options->is_summary)
        return count_line(&it->summary, line), 0;
    if (processes != NULL && find_processes(&it->processes) != 0)
        return -1;
    it->line.length = 0;
    if (it->options->is_json)
        add_object(&it->line, processes, line);
    else if (!add_line(&it->line, it->options->has_details, &it->names, processes, line))
        return 0;
    add_byte(&it->line, '\n');
    if (fwrite(it->line.bytes, 1, it->line.length, stdout) != it->line.length)
        return fail("standard output");
    if (it->options->is_repeated && fflush(stdout) != 0)
        return fail("standard output");
    return it->names.failed;
}

/* Returns the exit status for those of both programs. */
static int joined_status(int one, int other) {
    if (one == USAGE_ERROR || other == USAGE_ERROR)
        return USAGE_ERROR;
    return one != 0 || other != 0 ? EXIT_FAILURE : 0;
}

/* Lists the sockets while they are recorded. */
static int list_recorded(const struct arguments *recorder, const struct arguments *lister,
                         struct listing *listing) {
    int ends[2], status;
    pid_t process;
    if (pipe2(ends, O_CLOEXEC) != 0)
        return fail("pipe"), EXIT_FAILURE;
    process = start(recorder, STDIN_FILENO, ends[1]);
    close(ends[1]);
    if (process < 0) {
        close(ends[0]);
        return EXIT_FAILURE;
    }
    status = take_output(lister, ends[0], print_line, listing);
    return joined_status(status, wait_for(process, recorder));
}

/* Records the sockets in a file in memory. Returns it, or -1 and the exit status. */
static int record(const struct arguments *recorder, int *status) {
    const int file = memfd_create("capture", MFD_CLOEXEC);
    pid_t process;
    *status = EXIT_FAILURE;
    if (file < 0)
        return fail("memfd_create");
    process = start(recorder, STDIN_FILENO, file);
    if (process >= 0)
        *status = wait_for(process, recorder);
    if (*status == 0)
        return file;
    close(file);
    return -1;
}

/* Lists a file from its start. */
static int list_file(const struct arguments *lister, int file,
                     int (*take)(void *, const char *), void *context) {
    const int copy = fcntl(file, F_DUPFD_CLOEXEC, 0);
    if (copy < 0 || lseek(file, 0, SEEK_SET) < 0) {
        if (copy >= 0)
            close(copy);
        return fail("capture"), EXIT_FAILURE;
    }
    return take_output(lister, copy, take, context);
}

/* Records the sockets, lists them, asks, and closes them. Nothing is closed if not all were listed.
 * `objects` are the arguments by which sslist lists the same sockets as objects. */
static int close_listed(const struct arguments *recorder, const struct arguments *lister,
                        const struct arguments *objects, struct listing *listing) {
    static struct targets targets;
    int status;
    const int file = record(recorder, &status);
    if (file < 0)
        return status;
    status = list_file(lister, file, print_line, listing);
    if (status == 0)
        status = list_file(objects, file, store_target, &targets);
    close(file);
    if (status == EXIT_FAILURE)
        fputs(PROGRAM ": nothing was closed, since not all sockets were listed\n", stderr);
    if (status == 0 && targets.count > 0)
        status = listing->options->is_confirmed || is_wanted(targets.count)
                     ? close_sockets(&targets)
                     : EXIT_FAILURE;
    return status;
}

/* Lists the sockets, and with -K closes them. Returns the exit status. */
static int list_sockets(const struct options *options) {
    const struct arguments lister = lister_arguments(options, NULL);
    const struct arguments objects = lister_arguments(options, "--json");
    static struct listing listing;
    int status = EXIT_FAILURE;
    listing.options = options;
    listing.names.is_numeric = options->is_numeric;
    listing.names.has_hosts = options->has_hosts;
    if (options->is_numeric || options->is_json || options->is_summary
        || load_services(&listing.names) == 0)
        status = options->has_kill ? close_listed(&options->recorder, &lister, &objects, &listing)
                                   : list_recorded(&options->recorder, &lister, &listing);
    if (options->is_summary && status == 0 && print_summary(options, &listing.summary) != 0)
        status = EXIT_FAILURE;
    free(lister.items);
    free(objects.items);
    return status;
}

int main(int argc, char **argv) {
    static struct options options;
    int status;
    options.recorder = make_arguments("sockdump");
    if (read_arguments(&options, argc, argv) != 0)
        return USAGE_ERROR;
    if (options.printed != '\0')
        return print(options.printed == 'h' ? usage : "socklist " SOCKDIAG_VERSION "\n");
    if (check(&options) != 0)
        return USAGE_ERROR;
    if (open_streams() != 0 || (options.name_space != NULL && enter(options.name_space) != 0))
        return EXIT_FAILURE;
    select_closed(&options);
    if (select_conditional(&options) != 0)
        return USAGE_ERROR;
    if ((status = make_filter(&options)) != 0)
        return status;
    append_requests(&options);
    return list_sockets(&options);
}

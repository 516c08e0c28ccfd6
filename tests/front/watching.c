/* For a program that loads this first: notes in the file WATCH_LOG what is done to the files of a replacement, and sends SIGTERM to the program before the
 * call that TERM_BEFORE names: "fsync" (the new file's) or "renameat". */
#define _GNU_SOURCE
#include <fcntl.h>
#include <signal.h>
#include <stdarg.h>
#include <stdio.h>
#include <stdlib.h>
#include <string.h>
#include <sys/syscall.h>
#include <sys/types.h>
#include <unistd.h>

static void note(const char *what)
{
    const char *name = getenv("WATCH_LOG"), *before = getenv("TERM_BEFORE");
    static int sent;
    int log;

    if (before != NULL && !sent && strcmp(what, before) == 0) {
        sent = 1;
        kill(getpid(), SIGTERM);
    }
    if (name == NULL || (log = open(name, O_WRONLY | O_APPEND | O_CREAT, 0600)) < 0)
        return;
    dprintf(log, "%s\n", what);
    close(log);
}

int openat(int folder, const char *name, int flags, ...)
{
    va_list list;
    int mode;

    va_start(list, flags);
    mode = flags & O_CREAT ? va_arg(list, int) : 0;
    va_end(list);
    if (flags & O_CREAT)
        note(flags & O_EXCL && flags & O_NOFOLLOW ? "openat exclusively" : "openat");
    return (int)syscall(SYS_openat, folder, name, flags, mode);
}

int fchown(int file, uid_t owner, gid_t group)
{
    note("fchown");
    return (int)syscall(SYS_fchown, file, owner, group);
}

int fchmod(int file, mode_t mode)
{
    note("fchmod");
    return (int)syscall(SYS_fchmod, file, mode);
}

int fsync(int file)
{
    note("fsync");
    return (int)syscall(SYS_fsync, file);
}

int renameat(int from, const char *old, int to, const char *new)
{
    note("renameat");
    return (int)syscall(SYS_renameat, from, old, to, new);
}

int fcntl(int file, int command, ...)
{
    va_list list;
    void *argument;

    va_start(list, command);
    argument = va_arg(list, void *);
    va_end(list);
    if (command == F_SETLKW)
        note("lock");
    return (int)syscall(SYS_fcntl, file, command, argument);
}

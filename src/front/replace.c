/* for realpath */
#define _XOPEN_SOURCE 700

#include "replace.h"

#include <errno.h>
#include <fcntl.h>
#include <limits.h>
#include <signal.h>
#include <stdio.h>
#include <stdlib.h>
#include <string.h>
#include <sys/stat.h>
#include <unistd.h>

#include "access.h"
#include "say.h"

/* The new file while it has a name of its own. */
typedef struct {
    char name[64];
    int descriptor;
} Draft;

static void split_path(Target *target)
{
    char *slash = strrchr(target->path, '/');

    target->base = slash + 1;
    *slash = '\0';
    target->folder = open(target->path[0] == '\0' ? "/" : target->path, O_RDONLY | O_DIRECTORY | O_CLOEXEC);
    if (target->folder < 0)
        fail("cannot open the folder of %s: %s", target->name, strerror(errno));
}

/* What may be replaced. A mode without any w is respected by root too, whom it would not stop. */
static void check_target(const Target *target)
{
    struct stat found;

    if (fstat(target->file, &found) != 0)
        fail("cannot read %s: %s", target->name, strerror(errno));
    if (!S_ISREG(found.st_mode))
        fail("%s is not a regular file: --write cannot replace it", target->name);
    if ((found.st_mode & (S_IWUSR | S_IWGRP | S_IWOTH)) == 0)
        fail("%s is read-only: --write leaves it as it is (chmod u+w permits the change)", target->name);
    if (found.st_nlink > 1)
        fail("%s has another name (a hard link), which would keep the old table: --write leaves it as it is", target->name);
}

void open_target(Target *target, const char *name, Source *source)
{
    *target = (Target){.name = name, .path = realpath(name, NULL)};
    if (target->path == NULL)
        cannot_read(name);
    /* O_NONBLOCK: a FIFO is told from a file without waiting for its writer */
    target->file = open(target->path, O_RDWR | O_NOFOLLOW | O_NONBLOCK | O_NOCTTY | O_CLOEXEC);
    if (target->file < 0 && (errno == EACCES || errno == EPERM || errno == EROFS))
        fail("you may not write %s: --write leaves it as it is (%s)", name, strerror(errno));
    if (target->file < 0)
        cannot_read(name);
    check_target(target);
    split_path(target);
    source->name = name;
    if (!read_all(target->file, &source->text, MOST_TEXT))
        cannot_read(name);
}

/* Of two programs that replace one file, the second waits here, and then finds the change. */
static void lock_target(const Target *target)
{
    struct flock lock = {.l_type = F_WRLCK, .l_whence = SEEK_SET};

    while (fcntl(target->file, F_SETLKW, &lock) != 0)
        if (errno != EINTR)
            fail("cannot lock %s: %s", target->name, strerror(errno));
}

/* Whether the name still has this file, and the file the text that was read. */
static bool unchanged(const Target *target, Slice old)
{
    struct stat named, held;
    Text now = {0};
    bool same;

    if (fstatat(target->folder, target->base, &named, AT_SYMLINK_NOFOLLOW) != 0 || fstat(target->file, &held) != 0)
        return false;
    if (named.st_dev != held.st_dev || named.st_ino != held.st_ino)
        return false;
    same = lseek(target->file, 0, SEEK_SET) == 0 && read_all(target->file, &now, MOST_TEXT) && now.length == old.length &&
           (old.length == 0 || memcmp(now.bytes, old.bytes, old.length) == 0);
    text_free(&now);
    return same;
}

static void open_draft(const Target *target, Draft *draft)
{
    for (unsigned attempt = 0; attempt < 1000; attempt++) {
        snprintf(draft->name, sizeof draft->name, ".desk-%ld-%u", (long)getpid(), attempt);
        draft->descriptor = openat(target->folder, draft->name, O_RDWR | O_CREAT | O_EXCL | O_NOFOLLOW | O_CLOEXEC, S_IRUSR | S_IWUSR);
        if (draft->descriptor >= 0)
            return;
        if (errno != EEXIST)
            break;
    }
    fail("cannot create a temporary file next to %s: %s", target->name, strerror(errno));
}

/* Ends with TROUBLE, the file as it was and the draft gone. */
static void give_up(const Target *target, const Draft *draft, const char *what, int why)
{
    unlinkat(target->folder, draft->name, 0);
    if (why == 0)
        fail("%s: %s is as it was", what, target->name);
    fail("%s: %s; %s is as it was", what, strerror(why), target->name);
}

static void write_draft(const Target *target, const Draft *draft, Slice new)
{
    if (!write_all(draft->descriptor, new))
        give_up(target, draft, "cannot write the new file", errno);
    if (!keep_access(target->file, draft->descriptor))
        give_up(target, draft, "cannot keep the file's group and permissions for a new file", errno);
    if (fsync(draft->descriptor) != 0)
        give_up(target, draft, "cannot write the new file", errno);
}

/* The signals that would end the program, those that it was started to ignore aside. */
static void ending_signals(sigset_t *set)
{
    static const int signals[] = {SIGHUP, SIGINT, SIGQUIT, SIGTERM, SIGALRM, SIGUSR1, SIGUSR2};
    struct sigaction found;

    sigemptyset(set);
    for (size_t at = 0; at < sizeof signals / sizeof signals[0]; at++)
        if (sigaction(signals[at], NULL, &found) == 0 && found.sa_handler != SIG_IGN)
            sigaddset(set, signals[at]);
}

/* A signal that came meanwhile ends the program here, with the file as it was and the draft gone. */
static void heed_signals(const Target *target, const Draft *draft, const sigset_t *ending, const sigset_t *before)
{
    sigset_t pending;

    sigpending(&pending);
    for (int number = 1; number < 32; number++)
        if (sigismember(ending, number) == 1 && sigismember(&pending, number) == 1) {
            unlinkat(target->folder, draft->name, 0);
            sigprocmask(SIG_SETMASK, before, NULL);
            fail("interrupted: %s is as it was", target->name);
        }
}

/* The rename, and what can go wrong after it. */
static void rename_draft(const Target *target, const Draft *draft)
{
    struct stat named, held;

    if (renameat(target->folder, draft->name, target->folder, target->base) != 0)
        give_up(target, draft, "cannot replace the file", errno);
    if (fsync(target->folder) != 0)
        say("%s is replaced, but the folder could not be written to the disk: %s", target->name, strerror(errno));
    if (fstat(draft->descriptor, &held) != 0 || fstatat(target->folder, target->base, &named, AT_SYMLINK_NOFOLLOW) != 0 ||
        held.st_ino != named.st_ino || held.st_dev != named.st_dev)
        fail("%s was replaced by another program at the same moment", target->name);
}

void replace_target(Target *target, Slice old, Slice new)
{
    sigset_t ending, before;
    Draft draft;

    lock_target(target);
    if (!unchanged(target, old))
        fail("%s has changed since it was read and is left as it is: run the command again", target->name);
    ending_signals(&ending);
    sigprocmask(SIG_BLOCK, &ending, &before);
    open_draft(target, &draft);
    write_draft(target, &draft, new);
    if (!unchanged(target, old))
        give_up(target, &draft, "the file has changed since it was read", 0);
    heed_signals(target, &draft, &ending, &before);
    /* From the rename on the signals stay blocked until the end: the file is the new one, and the status says so. */
    rename_draft(target, &draft);
}

void free_target(Target *target)
{
    free(target->path);
}

#include "streams.h"

#include <errno.h>
#include <fcntl.h>
#include <poll.h>
#include <signal.h>
#include <string.h>
#include <sys/stat.h>
#include <unistd.h>

#include "say.h"

static bool closed[3];
static struct sigaction found_pipe, found_xfsz;

void open_streams(void)
{
    struct sigaction ignored = {.sa_handler = SIG_IGN};

    for (int stream = 0; stream < 3; stream++)
        if (fcntl(stream, F_GETFD) < 0) {
            closed[stream] = true;
            /* the lowest free number is this one */
            if (open("/dev/null", stream == 0 ? O_RDONLY : O_WRONLY) != stream)
                fail("cannot open /dev/null");
        }
    sigemptyset(&ignored.sa_mask);
    sigaction(SIGPIPE, &ignored, &found_pipe);
    sigaction(SIGXFSZ, &ignored, &found_xfsz);
}

void restore_signals(void)
{
    sigaction(SIGPIPE, &found_pipe, NULL);
    sigaction(SIGXFSZ, &found_xfsz, NULL);
}

bool read_all(int descriptor, Text *text, size_t most)
{
    char piece[4096];

    while (text->length < most) {
        size_t wanted = most - text->length < sizeof piece ? most - text->length : sizeof piece;
        ssize_t got = read(descriptor, piece, wanted);

        if (got == 0)
            return true;
        if (got > 0)
            text_add(text, piece, (size_t)got);
        else if (errno != EINTR)
            return false;
    }
    return true;
}

bool write_all(int descriptor, Slice slice)
{
    while (slice.length > 0) {
        ssize_t put = write(descriptor, slice.bytes, slice.length);
        struct pollfd ready = {descriptor, POLLOUT, 0};

        if (put >= 0) {
            slice.bytes += put;
            slice.length -= (size_t)put;
        } else if (errno == EAGAIN) {
            poll(&ready, 1, -1);
        } else if (errno != EINTR) {
            return false;
        }
    }
    return true;
}

void cannot_read(const char *name)
{
    if (errno == ENOENT)
        fail("there is no file %s", name);
    if (errno == EISDIR)
        fail("%s is a folder, not a file", name);
    fail("cannot read %s: %s", name, strerror(errno));
}

static void read_standard_input(Source *source, size_t most)
{
    source->name = "standard input";
    source->standard = true;
    if (closed[0])
        fail("cannot read standard input: it is closed");
    if (isatty(0))
        say("reading the table from standard input; end it with Ctrl-D");
    if (!read_all(0, &source->text, most))
        fail("cannot read standard input: %s", strerror(errno));
}

void read_source(Source *source, const char *name, size_t most, bool dash)
{
    int descriptor;

    if (dash && strcmp(name, "-") == 0) {
        read_standard_input(source, most);
        return;
    }
    source->name = name;
    descriptor = open(name, O_RDONLY | O_CLOEXEC | O_NOCTTY);
    if (descriptor < 0 || !read_all(descriptor, &source->text, most))
        cannot_read(name);
    close(descriptor);
}

/* Ends by SIGPIPE as other filters do, unless the caller ignores that signal. */
static void reader_left(void)
{
    sigset_t set;

    if (found_pipe.sa_handler == SIG_IGN)
        return;
    found_pipe.sa_handler = SIG_DFL;
    sigaction(SIGPIPE, &found_pipe, NULL);
    sigemptyset(&set);
    sigaddset(&set, SIGPIPE);
    sigprocmask(SIG_UNBLOCK, &set, NULL);
    raise(SIGPIPE);
}

void emit(Slice slice)
{
    struct stat before;
    off_t at = lseek(1, 0, SEEK_CUR);
    int why;

    if (closed[1])
        fail("cannot write the output: standard output is closed");
    if (fstat(1, &before) != 0)
        fail("cannot write the output: %s", strerror(errno));
    if (write_all(1, slice))
        return;
    why = errno;
    if (why == EPIPE)
        reader_left();
    if (S_ISREG(before.st_mode) && (ftruncate(1, before.st_size) != 0 || (at >= 0 && lseek(1, at, SEEK_SET) < 0)))
        say("cannot remove the part of the output that was written");
    fail("cannot write the output: %s", strerror(why));
}

#include "child.h"

#include <errno.h>
#include <fcntl.h>
#include <poll.h>
#include <stdio.h>
#include <stdlib.h>
#include <string.h>
#include <sys/types.h>
#include <sys/wait.h>
#include <unistd.h>

#include "say.h"

enum { MOST_WORDS = 24, INPUT = 0, OUTPUT = 1, ERRORS = 2, SECOND = 3, STREAMS = 4, NOT_RUN = 127 };

/* A child's streams as its parent holds them: descriptors, -1 once closed, what is left to write, and what was read. */
typedef struct {
    int own[STREAMS], lent[STREAMS];
    Slice left[STREAMS];
    Text got[STREAMS];
} Streams;

/* The folder of the proved programs: $TOZBIERDU_LIBEXEC, or ../libexec/tozbierdu beside the folder of this program. */
static void put_folder(Text *path)
{
    const char *given = getenv("TOZBIERDU_LIBEXEC");
    char own[4096];
    ssize_t length;

    if (given != NULL && given[0] != '\0') {
        text_put(path, given);
        return;
    }
    length = readlink("/proc/self/exe", own, sizeof own);
    while (length > 0 && own[length - 1] != '/')
        length--;
    if (length <= 0)
        fail("cannot find the folder of this program: set TOZBIERDU_LIBEXEC to the folder that has parts and listing");
    text_add(path, own, (size_t)length);
    text_put(path, "../libexec/tozbierdu");
}

static void make_pipe(Streams *streams, int stream)
{
    int ends[2];
    bool reads = stream == OUTPUT || stream == ERRORS;

    if (pipe(ends) != 0)
        fail("cannot make a pipe: %s", strerror(errno));
    streams->own[stream] = reads ? ends[0] : ends[1];
    streams->lent[stream] = reads ? ends[1] : ends[0];
    fcntl(streams->own[stream], F_SETFD, FD_CLOEXEC);
    fcntl(streams->own[stream], F_SETFL, O_NONBLOCK);
    if (stream != SECOND)
        fcntl(streams->lent[stream], F_SETFD, FD_CLOEXEC);
}

static void close_stream(Streams *streams, int stream)
{
    close(streams->own[stream]);
    streams->own[stream] = -1;
}

/* In the child. The path is shown if the program can't be run. */
static void become(const char *path, char *const *words, const Streams *streams)
{
    for (int stream = INPUT; stream <= ERRORS; stream++)
        if (dup2(streams->lent[stream], stream) < 0)
            _exit(NOT_RUN);
    restore_signals();
    execv(path, words);
    fprintf(stderr, "cannot run %s: %s\n", path, strerror(errno));
    fflush(stderr);
    _exit(NOT_RUN);
}

/* One step of writing what is left; a child that has stopped reading is not an error. */
static void push(Streams *streams, int stream)
{
    Slice *left = &streams->left[stream];
    ssize_t put = left->length == 0 ? 0 : write(streams->own[stream], left->bytes, left->length);

    if (put > 0) {
        left->bytes += put;
        left->length -= (size_t)put;
    } else if (put == 0 || (errno != EAGAIN && errno != EINTR)) {
        close_stream(streams, stream);
    }
}

/* One step of reading. */
static void pull(Streams *streams, int stream)
{
    char piece[65536];
    ssize_t got = read(streams->own[stream], piece, sizeof piece);

    if (got > 0)
        text_add(&streams->got[stream], piece, (size_t)got);
    else if (got == 0 || (errno != EAGAIN && errno != EINTR))
        close_stream(streams, stream);
}

/* Writes and reads until the child has closed its outputs. */
static void exchange(Streams *streams)
{
    struct pollfd ready[STREAMS];

    while (streams->own[OUTPUT] >= 0 || streams->own[ERRORS] >= 0) {
        for (int stream = 0; stream < STREAMS; stream++)
            ready[stream] = (struct pollfd){streams->own[stream], stream == OUTPUT || stream == ERRORS ? POLLIN : POLLOUT, 0};
        if (poll(ready, STREAMS, -1) < 0 && errno != EINTR)
            fail("cannot wait for a program: %s", strerror(errno));
        for (int stream = 0; stream < STREAMS; stream++)
            if (ready[stream].fd >= 0 && ready[stream].revents != 0) {
                if (stream == OUTPUT || stream == ERRORS)
                    pull(streams, stream);
                else
                    push(streams, stream);
            }
    }
    for (int stream = 0; stream < STREAMS; stream++)
        if (streams->own[stream] >= 0)
            close_stream(streams, stream);
}

/* Starts the child, exchanges the texts and returns how it ended, as waitpid has it. */
static int converse(const char *path, char *const *words, Streams *streams)
{
    pid_t child = fork();
    int ended;

    if (child < 0)
        fail("cannot start %s: %s", path, strerror(errno));
    if (child == 0)
        become(path, words, streams);
    for (int stream = 0; stream < STREAMS; stream++)
        if (streams->lent[stream] >= 0)
            close(streams->lent[stream]);
    exchange(streams);
    while (waitpid(child, &ended, 0) < 0)
        if (errno != EINTR)
            fail("cannot wait for %s: %s", path, strerror(errno));
    return ended;
}

/* Whether standard error has nothing, or only the line that blames the second file for a refusal. */
static bool is_blame(const Text *errors, bool refused)
{
    static const char second[] = "second file";
    size_t width = sizeof second - 1;

    for (size_t at = 0; refused && at + width <= errors->length; at++)
        if (memcmp(errors->bytes + at, second, width) == 0)
            return true;
    return false;
}

/* Ends unless the program gave an answer or a refusal. */
static void judge(const char *path, int ended, Streams *streams, Answer *answer)
{
    Text *errors = &streams->got[ERRORS];
    bool refused;

    answer->output = streams->got[OUTPUT];
    refused = answer->output.length > 8 && memcmp(answer->output.bytes, "refused ", 8) == 0;
    answer->second_refused = is_blame(errors, refused);
    if (errors->length > 0 && !answer->second_refused)
        fprintf(stderr, "%.*s", (int)errors->length, errors->bytes);
    if (WIFSIGNALED(ended))
        fail("the program %s was ended by signal %d", path, WTERMSIG(ended));
    if (WEXITSTATUS(ended) == NOT_RUN)
        fail("set TOZBIERDU_LIBEXEC to the folder that has parts and listing");
    if (ended != 0 && !(refused && WEXITSTATUS(ended) == REFUSED))
        fail("the program %s ended with status %d", path, WEXITSTATUS(ended));
    if (errors->length > 0 && !answer->second_refused)
        fail("the program %s reported trouble", path);
    text_free(errors);
}

void ask(const char *program, const char *const *words, const Text *input, const Text *second, Answer *answer)
{
    Streams streams = {.own = {-1, -1, -1, -1}, .lent = {-1, -1, -1, -1}};
    char *given[MOST_WORDS + 2], name[32];
    Text path = {0};
    size_t count = 0;

    put_folder(&path);
    text_put(&path, "/");
    text_add(&path, program, strlen(program) + 1);
    given[count++] = path.bytes;
    /* execv takes words that it does not change as char * */
    for (size_t at = 0; words[at] != NULL && at < MOST_WORDS; at++)
        given[count++] = (char *)words[at];
    for (int stream = INPUT; stream <= ERRORS; stream++)
        make_pipe(&streams, stream);
    streams.left[INPUT] = slice_of(input);
    if (second != NULL) {
        make_pipe(&streams, SECOND);
        streams.left[SECOND] = slice_of(second);
        snprintf(name, sizeof name, "/dev/fd/%d", streams.lent[SECOND]);
        given[count++] = name;
    }
    given[count] = NULL;
    judge(path.bytes, converse(path.bytes, given, &streams), &streams, answer);
    text_free(&path);
}

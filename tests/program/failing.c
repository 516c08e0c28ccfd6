/* read for a program that loads this first: of standard input, FAIL_AFTER bytes, one at a time, and then a failure. */
#define _GNU_SOURCE
#include <errno.h>
#include <stdlib.h>
#include <sys/syscall.h>
#include <unistd.h>

ssize_t read(int fd, void *to, size_t count)
{
    static long taken;
    const char *most = getenv("FAIL_AFTER");

    if (fd != 0 || most == NULL)
        return syscall(SYS_read, fd, to, count);
    if (taken++ < atol(most))
        return syscall(SYS_read, fd, to, count > 0);
    errno = EIO;
    return -1;
}

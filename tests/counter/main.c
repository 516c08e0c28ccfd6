/*
 * Tests of the calls that a program in C has, on the archive itself. Each test runs in a process of
 * its own; the last line is 'N passed, M failed'. Arguments: [test].
 */
#include <stdio.h>
#include <string.h>
#include <sys/wait.h>
#include <unistd.h>

#include "table.h"

static const struct test *const lists[] = { answer_tests, refusal_tests, room_tests };

enum { PASSED, FAILED, SKIPPED };

/* A library that crashes fails one test, and the rest still run. */
static int outcome(const struct test *test)
{
    int status = -1;
    pid_t child;

    fflush(stdout);
    child = fork();
    if (child == 0) {
        test->run();
        fflush(stdout);
        _exit(failures > 0 ? FAILED : skipped ? SKIPPED : PASSED);
    }
    return child > 0 && waitpid(child, &status, 0) == child && WIFEXITED(status) ? WEXITSTATUS(status) : FAILED;
}

int main(int count, char **given)
{
    unsigned passed = 0, failed = 0;
    const struct test *test;
    size_t i;

    for (i = 0; i < sizeof lists / sizeof *lists; i++)
        for (test = lists[i]; test->name != NULL; test++) {
            if (count > 1 && strcmp(given[1], test->name) != 0)
                continue;
            switch (outcome(test)) {
            case PASSED: passed++; break;
            case SKIPPED: printf("skipped %s\n", test->name); break;
            default:
                printf("failed %s\n", test->name);
                failed++;
            }
        }
    printf("%u passed, %u failed\n", passed, failed);
    return failed > 0 || passed == 0;
}

#include "say.h"

#include <stdarg.h>
#include <stdio.h>
#include <stdlib.h>

const char *program_name = "front";

static void say_list(const char *format, va_list list)
{
    fprintf(stderr, "%s: ", program_name);
    vfprintf(stderr, format, list);
    fputc('\n', stderr);
}

void say(const char *format, ...)
{
    va_list list;

    va_start(list, format);
    say_list(format, list);
    va_end(list);
}

void fail(const char *format, ...)
{
    va_list list;

    va_start(list, format);
    say_list(format, list);
    va_end(list);
    exit(TROUBLE);
}

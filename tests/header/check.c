/* Checks, and what ends them. */
#define _DEFAULT_SOURCE
#include <inttypes.h>
#include <signal.h>
#include <stdarg.h>
#include <stdio.h>
#include <string.h>
#include <unistd.h>
#include "check.h"

/* The seconds that all checks may take. */
enum { SECONDS = 300 };

static const char *check_file = "", *check_text = "", *function_name = "";
static int check_line;
static unsigned long done;

void begin_check(const char *file, int line, const char *text)
{
    check_file = file;
    check_line = line;
    check_text = text;
    give_back();
}

void function_is(const char *name)
{
    function_name = name;
}

unsigned long compared(void)
{
    return done;
}

void compared_one(void)
{
    done++;
}

void fail(const char *format, ...)
{
    va_list values;
    va_start(values, format);
    fprintf(stderr, "%s:%d: %s: %s: ", check_file, check_line, function_name, check_text);
    vfprintf(stderr, format, values);
    fprintf(stderr, "\n");
    va_end(values);
    _exit(1);
}

/* Neither the library nor a comparison prints, so no printing is interrupted here. */
static void fault(int number, siginfo_t *info, void *context)
{
    (void)context;
    if (number == SIGSEGV || number == SIGBUS)
        fail_at(info->si_addr);
    fail("ended by signal %d", number);
}

void catch_faults(void)
{
    const int numbers[] = {SIGSEGV, SIGBUS, SIGILL, SIGFPE, SIGABRT, SIGALRM};
    struct sigaction action;
    memset(&action, 0, sizeof action);
    action.sa_sigaction = fault;
    action.sa_flags = SA_SIGINFO;
    for (size_t i = 0; i < sizeof numbers / sizeof numbers[0]; i++)
        sigaction(numbers[i], &action, NULL);
    alarm(SECONDS);
}

void is(const char *what, int64_t number, int64_t expected)
{
    if (number != expected)
        fail("%s is %" PRId64 ", not %" PRId64, what, number, expected);
    compared_one();
}

void drawn_is(tc_drawn drawn, uint32_t refused, uint32_t place, uint64_t count, uint64_t fresh)
{
    is("refused", drawn.refused, refused);
    is("place", drawn.place, place);
    is("count", (int64_t)drawn.count, (int64_t)count);
    is("fresh", (int64_t)drawn.fresh, (int64_t)fresh);
}

tc_ends line(int32_t x0, int32_t y0, int32_t x1, int32_t y1)
{
    tc_ends e;
    e.x0 = x0;
    e.y0 = y0;
    e.x1 = x1;
    e.y1 = y1;
    return e;
}

tc_window window(int32_t left, int32_t top, uint32_t width, uint32_t height)
{
    tc_window w;
    w.left = left;
    w.top = top;
    w.width = width;
    w.height = height;
    return w;
}

/* Preloaded before the C library: at the call of FAIL_CALL (read or write) with the number FAIL_AT, counted from 1,
   something goes wrong, which FAIL_HOW names: EIO or EINTR, the call fails so; zero, it answers 0 and has moved
   nothing; one, it moves one byte; ones, so does each call after it. At the end of the process two numbers are written
   to the descriptor COUNT_TO: how many such calls there were, and how many writes to the same descriptor came after
   the one that went wrong. */
#define _GNU_SOURCE
#include <errno.h>
#include <stdio.h>
#include <stdlib.h>
#include <string.h>
#include <sys/syscall.h>
#include <unistd.h>

static unsigned long fail_at, calls, later;
static const char *fail_call = "", *fail_how = "";
static int count_to = -1, failed = -1;

static const char *word(const char *name)
{
    const char *value = getenv(name);
    return value ? value : "";
}

__attribute__((constructor)) static void begin(void)
{
    fail_call = word("FAIL_CALL");
    fail_how = word("FAIL_HOW");
    fail_at = strtoul(word("FAIL_AT"), NULL, 10);
    count_to = *word("COUNT_TO") ? atoi(word("COUNT_TO")) : -1;
}

__attribute__((destructor)) static void end(void)
{
    char text[64];
    int length = snprintf(text, sizeof text, "%lu %lu", calls, later);
    if (count_to >= 0)
        syscall(SYS_write, count_to, text, (size_t)length);
    count_to = -1;
}

void _exit(int status)
{
    end();
    for (;;)
        syscall(SYS_exit_group, status);
}

static int is(const char *how)
{
    return strcmp(fail_how, how) == 0;
}

/* Whether this call goes wrong: then what it answers is in `answer`, or the length is made 1. */
static int wrong(const char *call, int descriptor, size_t *length, ssize_t *answer)
{
    if (strcmp(call, "write") == 0 && descriptor == failed)
        later++;
    if (strcmp(call, fail_call) != 0)
        return 0;
    calls++;
    if (*length > 1 && ((is("one") && calls == fail_at) || (is("ones") && fail_at && calls >= fail_at)))
        *length = 1;
    if (calls != fail_at || is("one") || is("ones"))
        return 0;
    failed = descriptor;
    errno = is("EINTR") ? EINTR : EIO;
    *answer = is("zero") ? 0 : -1;
    return 1;
}

ssize_t read(int descriptor, void *bytes, size_t length)
{
    ssize_t answer;
    return wrong("read", descriptor, &length, &answer) ? answer : syscall(SYS_read, descriptor, bytes, length);
}

ssize_t write(int descriptor, const void *bytes, size_t length)
{
    ssize_t answer;
    return wrong("write", descriptor, &length, &answer) ? answer : syscall(SYS_write, descriptor, bytes, length);
}

ssize_t __write(int descriptor, const void *bytes, size_t length)
{
    return write(descriptor, bytes, length);
}

// Loaded before the C library (LD_PRELOAD): counts the calls of malloc, calloc and realloc that a program makes, from
// 1, refuses those from FIRST_REFUSED to LAST_REFUSED, and says on standard error how many there were.
#include <errno.h>
#include <stddef.h>
#include <stdio.h>
#include <stdlib.h>
#include <unistd.h>

void *__libc_malloc(size_t size);
void *__libc_calloc(size_t count, size_t size);
void *__libc_realloc(void *old, size_t size);

static unsigned long first, last, calls, refused;

static unsigned long number(const char *name)
{
    const char *text = getenv(name);
    return text ? strtoul(text, NULL, 10) : 0;
}

__attribute__((constructor)) static void begin(void)
{
    first = number("FIRST_REFUSED");
    last = number("LAST_REFUSED");
}

__attribute__((destructor)) static void end(void)
{
    char line[80];
    int length = snprintf(line, sizeof line, "%lu calls, %lu refused\n", calls, refused);
    if (write(2, line, length) != length)
        _exit(99);
}

static int refuse(void)
{
    calls++;
    if (calls < first || calls > last)
        return 0;
    refused++;
    errno = ENOMEM;
    return 1;
}

void *malloc(size_t size)
{
    return refuse() ? NULL : __libc_malloc(size);
}

void *calloc(size_t count, size_t size)
{
    return refuse() ? NULL : __libc_calloc(count, size);
}

void *realloc(void *old, size_t size)
{
    return refuse() ? NULL : __libc_realloc(old, size);
}

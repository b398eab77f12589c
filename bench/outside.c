// What may happen outside while the program runs, for bench/outside: a library that is loaded before the C library. By
// words of the environment:
// RENAME_AFTER, FROM, TO: behind the read of this number FROM gets the name TO.
// INTERRUPTED: every other read and write is interrupted by a signal.
// KILL_AT, KILL_PART: before the step of this number the process is killed; where it is a write, so many bytes are
// written first. A step is a write, a call that brings a file to the disk, or one that renames.
#define _GNU_SOURCE
#include <dlfcn.h>
#include <errno.h>
#include <signal.h>
#include <stdio.h>
#include <stdlib.h>
#include <unistd.h>

static long number(const char *name) {
    const char *text = getenv(name);
    return text ? atol(text) : 0;
}

static int is_interrupted(void) {
    static int calls;
    if (!getenv("INTERRUPTED") || calls++ % 2)
        return 0;
    errno = EINTR;
    return 1;
}

static int is_last_step(void) {
    static int steps;
    return ++steps == number("KILL_AT");
}

ssize_t read(int file, void *into, size_t count) {
    static ssize_t (*next)(int, void *, size_t);
    static int reads;
    if (!next)
        next = (ssize_t (*)(int, void *, size_t))dlsym(RTLD_NEXT, "read");
    if (is_interrupted())
        return -1;
    ssize_t got = next(file, into, count);
    if (++reads == number("RENAME_AFTER"))
        rename(getenv("FROM"), getenv("TO"));
    return got;
}

ssize_t write(int file, const void *bytes, size_t count) {
    static ssize_t (*next)(int, const void *, size_t);
    if (!next)
        next = (ssize_t (*)(int, const void *, size_t))dlsym(RTLD_NEXT, "write");
    if (is_interrupted())
        return -1;
    if (is_last_step()) {
        size_t part = (size_t)number("KILL_PART");
        next(file, bytes, part < count ? part : count);
        raise(SIGKILL);
    }
    return next(file, bytes, count);
}

int fsync(int file) {
    static int (*next)(int);
    if (!next)
        next = (int (*)(int))dlsym(RTLD_NEXT, "fsync");
    if (is_last_step())
        raise(SIGKILL);
    return next(file);
}

int rename(const char *from, const char *to) {
    static int (*next)(const char *, const char *);
    if (!next)
        next = (int (*)(const char *, const char *))dlsym(RTLD_NEXT, "rename");
    if (is_last_step())
        raise(SIGKILL);
    return next(from, to);
}

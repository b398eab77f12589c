// hurt STACK MEMORY SECONDS PROGRAM WORDS..: runs a program with limits of stack and address space in KiB and of
// processor time in seconds, and says on standard error: its status, its signal (0: none), milliseconds of processor
// time, and its peak of resident memory in KiB.
#include <stdio.h>
#include <stdlib.h>
#include <sys/resource.h>
#include <sys/wait.h>
#include <unistd.h>

static void limit(int what, const char *amount, rlim_t unit)
{
    rlim_t most = strtoul(amount, NULL, 10) * unit;
    struct rlimit both = {most, most};
    if (setrlimit(what, &both))
        _exit(99);
}

static double milliseconds(struct timeval time)
{
    return time.tv_sec * 1e3 + time.tv_usec / 1e3;
}

int main(int count, char **words)
{
    int ended;
    struct rusage used;
    if (count < 5)
        return 99;
    pid_t child = fork();
    if (child < 0)
        return 99;
    if (!child) {
        limit(RLIMIT_CORE, "0", 1);
        limit(RLIMIT_STACK, words[1], 1024);
        limit(RLIMIT_AS, words[2], 1024);
        limit(RLIMIT_CPU, words[3], 1);
        execv(words[4], words + 4);
        _exit(99);
    }
    if (wait4(child, &ended, 0, &used) != child)
        return 99;
    int status = WIFEXITED(ended) ? WEXITSTATUS(ended) : 0;
    int signal = WIFSIGNALED(ended) ? WTERMSIG(ended) : 0;
    double took = milliseconds(used.ru_utime) + milliseconds(used.ru_stime);
    fprintf(stderr, "%d %d %.1f %ld\n", status, signal, took, used.ru_maxrss);
    return 0;
}

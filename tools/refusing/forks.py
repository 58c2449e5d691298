"""Functions of the C library that stand before those of a test: it is refused an allocation in a child of its process.

A test comes to each of its allocations once. There the process forks: the child is refused this one, alone or with all
that follow, and runs to its end; then the process itself continues with the memory. So a refusal costs what the test
does after it, and the fork, which takes the longer the more memory the test has. Where that is more than the time that
a test is given, allocations are passed over. A child shares what its parent has open, so a test that reads a file can't
be tried in this way."""

import os
import subprocess
from pathlib import Path

from common.files import write_over
from streams.shim import compiler

# Tests ask for memory by malloc and realloc alone. A line is written for each child: the number of the allocation,
# whether all that follow were refused, how the child ended, and the first line of what it told on standard error; last
# how many allocations there were.
SOURCE = r"""
#include <errno.h>
#include <fcntl.h>
#include <stdio.h>
#include <stdlib.h>
#include <sys/resource.h>
#include <sys/wait.h>
#include <unistd.h>

extern void *__libc_malloc(size_t size);
extern void *__libc_realloc(void *old, size_t size);

enum { PLAIN, FORKS, REFUSED_ONE, REFUSED_ALL };

static int state, report;
static long allocations, last, edge, budget, seconds;

static long number(const char *name) {
    const char *text = getenv(name);
    return text ? atol(text) : 0;
}

static void limit_time(void) {
    struct rlimit limit = {(rlim_t)seconds, (rlim_t)seconds + 1};
    setrlimit(RLIMIT_CPU, &limit);
}

__attribute__((constructor)) static void begin(void) {
    const char *path = getenv("REFUSING_REPORT");
    report = path ? open(path, O_WRONLY | O_CREAT | O_APPEND | O_CLOEXEC, 0600) : -1;
    state = report < 0 ? PLAIN : FORKS;
    last = number("REFUSING_LAST");
    edge = number("REFUSING_EDGE");
    budget = number("REFUSING_BUDGET");
    seconds = number("REFUSING_SECONDS");
    if (state == FORKS && last == 0)
        limit_time();
}

static long long microseconds(int who) {
    struct rusage used;
    getrusage(who, &used);
    return (used.ru_utime.tv_sec + used.ru_stime.tv_sec) * 1000000LL + used.ru_utime.tv_usec + used.ru_stime.tv_usec;
}

/* Whether the test and its children took at most the share of the budget that falls to the allocations so far. */
static int is_in_time(void) {
    long long used = microseconds(RUSAGE_SELF) + microseconds(RUSAGE_CHILDREN);
    return used * last <= budget * 1000000LL * allocations;
}

static int is_chosen(void) {
    return last > 0 && (allocations <= edge || allocations > last - edge || is_in_time());
}

/* The first line from a stream, without what is not printable; the rest is read and dropped. */
static void first_line(int from, char *line, size_t room) {
    char bytes[512];
    ssize_t got;
    size_t used = 0;
    int ended = 0;
    while ((got = read(from, bytes, sizeof bytes)) > 0)
        for (ssize_t at = 0; at < got && !ended; at++) {
            ended = bytes[at] == '\n' || used + 1 == room;
            if (!ended)
                line[used++] = bytes[at] < ' ' || bytes[at] > '~' ? '?' : bytes[at];
        }
    line[used] = 0;
}

/* Whether this is the child, which is refused the allocation; the parent tells how the child ended. */
static int is_refused_in_child(int all) {
    int ends[2], status = -1, size;
    char told[200], line[256];
    pid_t child = pipe(ends) ? -1 : fork();
    if (child < 0)
        _exit(125);
    if (child == 0) {
        state = all ? REFUSED_ALL : REFUSED_ONE;
        dup2(ends[1], 2);
        close(ends[0]);
        close(ends[1]);
        limit_time();
        return 1;
    }
    close(ends[1]);
    first_line(ends[0], told, sizeof told);
    close(ends[0]);
    waitpid(child, &status, 0);
    size = snprintf(line, sizeof line, "%ld %d %d %s\n", allocations, all, status, told);
    if (write(report, line, (size_t)size) != size)
        _exit(125);
    return 0;
}

static int is_refused(void) {
    int kept = errno, refused = state == REFUSED_ALL;
    allocations++;
    if (state == FORKS && is_chosen())
        refused = is_refused_in_child(0) || is_refused_in_child(1);
    errno = kept;
    return refused;
}

void *malloc(size_t size) { return is_refused() ? 0 : __libc_malloc(size); }

void *realloc(void *old, size_t size) { return is_refused() ? 0 : __libc_realloc(old, size); }

__attribute__((destructor)) static void end(void) {
    char line[64];
    if (state == FORKS) {
        int size = snprintf(line, sizeof line, "%ld\n", allocations);
        if (write(report, line, (size_t)size) != size)
            _exit(125);
    }
}
"""


class Forks:
    """The compiled functions, in a folder."""

    def __init__(self, folder: Path) -> None:
        self.library = folder / "forks.so"
        source = folder / "forks.c"
        write_over(source, SOURCE)
        subprocess.run([compiler() or "cc", "-O1", "-shared", "-fPIC", "-o", self.library, source], check=True)

    def environment(self, report: Path, seconds: int, **settings: int) -> dict[str, str]:
        """The environment in which allocations are counted into a report. A child has some seconds of processor time,
        as the test has it where none is refused. Allocations are refused to children where it is said how many there
        are (last), how many of the first and of the last are refused in any case (edge), and how many seconds of
        processor time all may take (budget)."""
        named = {"REPORT": report, "SECONDS": seconds} | {key.upper(): value for key, value in settings.items()}
        words = {f"REFUSING_{key}": str(value) for key, value in named.items()}
        return {"PATH": os.environ.get("PATH", ""), "LD_PRELOAD": str(self.library), **words}

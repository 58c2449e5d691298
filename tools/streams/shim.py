"""Functions of the C library that stand before the program's: each lets one call fail, or give or take less."""

import os
import shutil
import subprocess
from pathlib import Path

from common.files import write_over

# The program asks for memory by malloc and realloc alone, and for files by read and write.
SOURCE = r"""
#include <errno.h>
#include <fcntl.h>
#include <stdlib.h>
#include <sys/syscall.h>
#include <unistd.h>

extern void *__libc_malloc(size_t size);
extern void *__libc_realloc(void *old, size_t size);

static long number(const char *name) {
    const char *text = getenv(name);
    return text ? atol(text) : -1;
}

static int is_met(const char *name, long *count) {
    long wanted = number(name);
    *count += 1;
    if (wanted < 0 || (number("SHIM_ON") > 0 ? *count < wanted : *count != wanted))
        return 0;
    syscall(SYS_close, syscall(SYS_openat, AT_FDCWD, getenv("SHIM_MET"), O_CREAT | O_WRONLY, 0600));
    return 1;
}

static long allocations, reads, writes;

void *malloc(size_t size) { return is_met("SHIM_MALLOC", &allocations) ? 0 : __libc_malloc(size); }

void *realloc(void *old, size_t size) {
    return is_met("SHIM_MALLOC", &allocations) ? 0 : __libc_realloc(old, size);
}

static long limited(long call, int file, void *bytes, size_t size, int met) {
    if (met && number("SHIM_ERRNO") >= 0) {
        errno = (int)number("SHIM_ERRNO");
        return -1;
    }
    if (met && number("SHIM_BYTES") >= 0 && size > (size_t)number("SHIM_BYTES"))
        size = (size_t)number("SHIM_BYTES");
    return size == 0 ? 0 : syscall(call, file, bytes, size);
}

ssize_t read(int file, void *bytes, size_t size) {
    return limited(SYS_read, file, bytes, size, is_met("SHIM_READ", &reads));
}

ssize_t write(int file, const void *bytes, size_t size) {
    return limited(SYS_write, file, (void *)bytes, size, is_met("SHIM_WRITE", &writes));
}

ssize_t __write(int file, const void *bytes, size_t size) { return write(file, bytes, size); }
"""


def compiler() -> str | None:
    """A C compiler, if there is one."""
    return next(filter(None, map(shutil.which, ("cc", "gcc", "clang"))), None)


class Shim:
    """The compiled functions, in a folder."""

    def __init__(self, folder: Path) -> None:
        self.library = folder / "shim.so"
        self.met = folder / "met"
        source = folder / "shim.c"
        write_over(source, SOURCE)
        subprocess.run([compiler() or "cc", "-O1", "-shared", "-fPIC", "-o", self.library, source], check=True)

    def environment(self, **settings: int) -> dict[str, str]:
        """The environment in which a call is met: `malloc`, `read` or `write` is its number, from 1 on."""
        self.met.unlink(missing_ok=True)
        named = {f"SHIM_{key.upper()}": str(value) for key, value in settings.items()}
        return {"PATH": os.environ.get("PATH", ""), "LD_PRELOAD": str(self.library), "SHIM_MET": str(self.met), **named}

    def was_met(self) -> bool:
        return self.met.exists()

"""launch LIMIT PROGRAM [WORD..]: runs a program whose output nobody reads, at most LIMIT seconds of processor time, and
prints its status, its processor time in seconds, and its peak of memory in bytes.

Linux counts a program's peak from that of the process that starts it, so this one is small.
"""

import os
import resource
import sys


def main(limit: int, words: list[str]) -> None:
    child = os.fork()
    if child == 0:
        os.dup2(os.open(os.devnull, os.O_WRONLY), sys.stdout.fileno())
        resource.setrlimit(resource.RLIMIT_CPU, (limit, limit))
        os.execvp(words[0], words)
    _, status, used = os.wait4(child, 0)
    print(os.waitstatus_to_exitcode(status), used.ru_utime + used.ru_stime, used.ru_maxrss * 1024)


if __name__ == "__main__":
    main(int(sys.argv[1]), sys.argv[2:])

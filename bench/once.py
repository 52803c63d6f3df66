"""Runs a program once and prints its status, processor seconds, seconds and peak memory in KB.

    python3 -I -S once.py OUTPUT SECONDS MEGABYTES PROGRAM WORD..

What the program writes goes to the file OUTPUT. The program is stopped after that many processor seconds, and memory
above that many megabytes is refused to it; 0 is no bound. A status below 0 is the number of the signal that ended it.

This is a process of its own because Linux counts the memory of a process before it executes a program as memory of
the program. So this file imports little, and the peak is about 5 MB at least.
"""

import os
import resource
import sys
import time


def become(output, seconds, megabytes, words):
    """Executes the program in this process."""
    try:
        os.dup2(os.open(os.devnull, os.O_RDONLY), 0)
        os.dup2(os.open(output, os.O_WRONLY | os.O_CREAT | os.O_TRUNC, 0o644), 1)
        resource.setrlimit(resource.RLIMIT_CORE, (0, 0))
        if seconds:
            resource.setrlimit(resource.RLIMIT_CPU, (seconds, seconds + 1))
        if megabytes:
            resource.setrlimit(resource.RLIMIT_AS, (megabytes << 20, megabytes << 20))
        os.execv(words[0], words)
    except OSError as fault:
        print(f"bench: {words[0]}: {fault}", file=sys.stderr, flush=True)
    finally:
        os._exit(127)


def main(output, seconds, megabytes, *words):
    start = time.monotonic()
    child = os.fork()
    if child == 0:
        become(output, int(seconds), int(megabytes), list(words))
    _, ended, used = os.wait4(child, 0)
    elapsed = time.monotonic() - start
    status = -os.WTERMSIG(ended) if os.WIFSIGNALED(ended) else os.WEXITSTATUS(ended)
    print(status, used.ru_utime + used.ru_stime, elapsed, used.ru_maxrss)


main(*sys.argv[1:])

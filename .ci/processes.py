"""The processes of this machine and what they take of its processors, as /proc tells."""
import contextlib
import os
import time

TICKS = os.sysconf("SC_CLK_TCK")


def read(path):
    with open(path, encoding="utf-8", errors="replace") as file:
        return file.read()


def processes():
    """The name, the parent, the start and the processor time of each process."""
    found = {}
    for pid in filter(str.isdigit, os.listdir("/proc")):
        with contextlib.suppress(OSError):
            name, _, rest = read(f"/proc/{pid}/stat").partition("(")[2].rpartition(")")
            rest = rest.split()
            found[int(pid)] = name, int(rest[1]), rest[19], (int(rest[11]) + int(rest[12])) / TICKS
    return found


def is_below(pid, top, found):
    while pid in found and pid != top:
        pid = found[pid][1]
    return pid == top


def below(top, name, found):
    """The processes of this name that a process has started, or that these have."""
    return [pid for pid, it in found.items() if it[0] == name and is_below(pid, top, found)]


def words_of(pid):
    """The command line of a process."""
    return read(f"/proc/{pid}/cmdline").split("\0")


def idle_seconds():
    """For how long the processors that this process may use had nothing to do, in all."""
    usable = {f"cpu{it}" for it in os.sched_getaffinity(0)}
    fields = [it.split() for it in read("/proc/stat").split("\n")]
    return sum((int(it[4]) + int(it[5])) / TICKS for it in fields if it and it[0] in usable)


def idle_processors(seconds):
    """How many of the processors that this process may use had nothing to do, on average over the next seconds."""
    began, idle = time.monotonic(), idle_seconds()
    time.sleep(seconds)
    return (idle_seconds() - idle) / (time.monotonic() - began)

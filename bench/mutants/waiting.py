"""Tells a program that waits for ever from one that a slow machine lets wait: by what its processes do, and not by the clock."""

import collections
import glob
import os
import signal
import time

# How many looks in a row have to find it waiting. One comes every second, or later on a slow machine.
LOOKS = 60


def states():
    """The parent and the state of each process."""
    found = {}
    for path in glob.glob("/proc/[0-9]*/task/[0-9]*/stat"):
        try:
            with open(path, encoding="utf-8", errors="replace") as it:
                state, parent = it.read().rpartition(")")[2].split()[:2]
        except OSError:
            continue
        found.setdefault(int(path.split("/")[2]), (int(parent), []))[1].append(state)
    return found


def all_wait(pid):
    """Whether this process and all below it wait: none of their threads runs, is about to, or waits for a disk."""
    found, below = states(), collections.defaultdict(list)
    for it, (parent, _) in found.items():
        below[parent].append(it)
    asked = [pid]
    for it in asked:
        asked += below[it]
    return all(state in "SZ" for it in asked if it in found for state in found[it][1])


def ended(process):
    """Waits until the process has ended, or waits for ever: then its group is killed. Answers its status, as os.wait4 does, and what it
    has spent, and whether it was killed."""
    looks = idle = 0
    pause = 0.001
    while True:
        done, status, spent = os.wait4(process.pid, os.WNOHANG)
        if done:
            return status, spent, False
        looks += 1
        if looks % 20 == 0:
            idle = idle + 1 if all_wait(process.pid) else 0
        if idle > LOOKS:
            os.killpg(process.pid, signal.SIGKILL)
            _, status, spent = os.wait4(process.pid, 0)
            return status, spent, True
        time.sleep(pause)
        pause = min(pause * 1.5, 0.05)

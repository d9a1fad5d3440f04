#!/usr/bin/env python3
"""Runs a program and says what it took: child.py INPUT OUTPUT PROGRAM WORD.. prints nanoseconds and kilobytes.

The time is from its start to its end, the kilobytes are the most that it had in memory at a time. The system counts the
memory of a program from before it is loaded, when it is still that of the script that starts it. So this small script
starts it, and prints 0 if the program needs no more than the script itself.
"""

import resource
import subprocess
import sys
import time


def own_memory():
    """The most kilobytes that this script had; getrusage would count those of the program that started it."""
    with open("/proc/self/status", encoding="ascii") as lines:
        return next(int(text.split()[1]) for text in lines if text.startswith("VmHWM:"))


def main():
    with open(sys.argv[1], "rb") as source, open(sys.argv[2], "wb") as target:
        start = time.monotonic_ns()
        subprocess.run(sys.argv[3:], stdin=source, stdout=target, check=True)
        taken = time.monotonic_ns() - start
    most = resource.getrusage(resource.RUSAGE_CHILDREN).ru_maxrss
    print(taken, most if most > own_memory() else 0)


if __name__ == "__main__":
    main()

#!/usr/bin/env python3
"""Times a command of the proved program on a file: the least processor time of three runs, and the peak memory.

Usage: bench/measure.py PROGRAM COMMAND COUNT FILE
Prints the count, how many of them a second, the peak in MiB, and seconds for one.
"""
import os, sys

program, command, count, path = sys.argv[1], sys.argv[2], int(sys.argv[3]), sys.argv[4]
least, peak = None, 0
for _ in range(3):
    child = os.fork()
    if child == 0:
        os.dup2(os.open(os.devnull, os.O_WRONLY), 1)
        os.execv(program, [program, command, path])
    _, status, usage = os.wait4(child, 0)
    taken = usage.ru_utime + usage.ru_stime
    if status != 0:
        sys.exit("bench/measure.py: the program ended with status %d" % os.waitstatus_to_exitcode(status))
    least = taken if least is None else min(least, taken)
    peak = max(peak, usage.ru_maxrss)
print("%d %.0f %.1f %.9f" % (count, count / least, peak / 1024, least / count))

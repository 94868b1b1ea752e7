#!/usr/bin/env python3
"""Runs a program and writes what it took: meter.py FILE PROGRAM [WORD..].

FILE gets the wall seconds, the processor seconds and the peak of memory in KiB; the status is that of the program. Linux
counts what a process held that started a program into its peak, so that this one must be small: it is best run with
`python3 -S -E`, and a peak below some 9 MiB is its own.
"""

import os
import sys
import time

figures, *words = sys.argv[1:]
begun = time.perf_counter()
child = os.posix_spawn(words[0], words, os.environ)
_, status, used = os.wait4(child, 0)
wall = time.perf_counter() - begun
with open(figures, "w") as file:
    file.write(f"{wall} {used.ru_utime + used.ru_stime} {used.ru_maxrss}\n")
sys.exit(os.waitstatus_to_exitcode(status) % 256)

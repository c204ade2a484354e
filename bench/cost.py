#!/usr/bin/env python3
"""Runs a program, and prints the microseconds of processor time that it took.

usage: cost.py SCRIPT REPLIES PROGRAM [ARGUMENT..]

The program reads the file SCRIPT and writes the file REPLIES. `time` counts in hundredths of a second, which a short run
has few of.
"""
import os
import sys


def main():
    script, replies, *words = sys.argv[1:]
    pid = os.fork()
    if pid == 0:
        os.dup2(os.open(script, os.O_RDONLY), 0)
        os.dup2(os.open(replies, os.O_WRONLY | os.O_CREAT | os.O_TRUNC), 1)
        os.execv(words[0], words)
    _, status, use = os.wait4(pid, 0)
    print(round((use.ru_utime + use.ru_stime) * 1e6))
    sys.exit(os.waitstatus_to_exitcode(status) != 0)


if __name__ == "__main__":
    main()

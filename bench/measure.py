#!/usr/bin/env python3
"""measure.py [--runs N] [--copy FROM TO] [--processor] INPUT OUTPUT PROGRAM WORD..: runs the program on the input.

It prints what it took: the seconds of the fastest of N runs, by default three, and the kilobytes of the
greatest memory of a further one, with a space between. With --processor it prints the least processor
seconds of the N runs, of the program and of the system for it, in place of the kilobytes. Each run writes
the output anew, and with --copy finds TO as a fresh copy of FROM that is synced.
"""
import argparse
import os
import shutil
import subprocess
import sys
import tempfile
import time

GNU_TIME = "/usr/bin/time"


def renew(copy):
    """Copies the first of the two paths to the second, and syncs it."""
    source, target = copy
    shutil.copyfile(source, target)
    with open(target, "rb") as copied:
        os.fsync(copied.fileno())


def run(words, source, target):
    """Runs the words from one file into another, and gives the seconds and the usage."""
    with open(source, "rb") as given, open(target, "wb") as taken:
        start = time.perf_counter()
        child = subprocess.Popen(words, stdin=given, stdout=taken)
        _, status, usage = os.wait4(child.pid, 0)
        seconds = time.perf_counter() - start
    if status != 0:
        sys.exit(f"{words[0]} ended with {os.waitstatus_to_exitcode(status)}")
    return seconds, usage


def peak(words, source, target):
    """The kilobytes of a run. Without GNU time they are at least those of this interpreter."""
    if not os.access(GNU_TIME, os.X_OK):
        return run(words, source, target)[1].ru_maxrss
    with tempfile.NamedTemporaryFile("r") as told:
        run([GNU_TIME, "-f", "%M", "-o", told.name] + words, source, target)
        return int(told.read().split()[-1])


def words_given():
    words = argparse.ArgumentParser()
    words.add_argument("--runs", type=int, default=3)
    words.add_argument("--copy", nargs=2)
    words.add_argument("--processor", action="store_true")
    words.add_argument("source")
    words.add_argument("target")
    words.add_argument("words", nargs=argparse.REMAINDER)
    return words.parse_args()


def main():
    given = words_given()
    taken = []

    def again(call):
        if given.copy:
            renew(given.copy)
        return call(given.words, given.source, given.target)

    for _ in range(given.runs):
        seconds, usage = again(run)
        taken.append((seconds, usage.ru_utime + usage.ru_stime))
    seconds, processor = map(min, zip(*taken))
    print(f"{seconds:.3f}", f"{processor:.3f}" if given.processor else again(peak))


main()

#!/usr/bin/env python3
"""pivots.py PROGRAM BASELINE [ADDS [QUERIES]]: what pivots spare, and what they cost.

For three kinds of objects it plays one script with 0, 1, 3, 5 and 8 pivots on the program and on a plain Rust program
with the same table of distances to pivots, and without pivots once more on the plain one: a scan. It prints the distances
that a range and a question for the nearest take on the average, those of the two joins, and the seconds of all queries:
the time of the whole script less that of its samples and adds. It fails where the two print different bytes.
"""
import re
import subprocess
import sys
import tempfile
import time

import make_data

RUNS = 3
PIVOTS = (0, 1, 3, 5, 8)
KINDS = (("l1", ["mem", "l1", "16", "255"]), ("hamming", ["mem", "hamming", "32"]), ("sets", ["mem", "sets", "1000", "16"]))


def play(program, words, script):
    """The text that the program answers, and the seconds of the fastest run."""
    fastest = float("inf")
    for _ in range(RUNS):
        with tempfile.TemporaryFile() as given, tempfile.TemporaryFile() as taken:
            given.write(script)
            given.seek(0)
            start = time.perf_counter()
            subprocess.run([program] + words, stdin=given, stdout=taken, check=True)
            fastest = min(fastest, time.perf_counter() - start)
            taken.seek(0)
            text = taken.read()
    return text, fastest


def evals(text, name):
    """How often the reply is there, and the sum of its distances."""
    counts = [int(count) for count in re.findall(rb"^%s \d+ evals (\d+)" % name, text, re.MULTILINE)]
    return len(counts), sum(counts)


def average(text, name):
    many, total = evals(text, name)
    return total / many


def script_of(kind, adds, queries):
    return "".join(line + "\n" for line in make_data.script(kind, adds, queries)).encode()


def queries_of(program, words, whole, adds):
    """The text, and the seconds that the queries take."""
    text, seconds = play(program, words, whole)
    return text, max(seconds - play(program, words, adds)[1], 0.001)


def table(program, baseline, kind, words, sizes):
    whole, adds = script_of(kind, *sizes), script_of(kind, sizes[0], 0)
    _, scan = queries_of(baseline, words, whole, adds)
    print(f"{' '.join(words)}: {sizes[0]} objects, {sizes[1]} ranges, {sizes[1]} near, 2 joins; plain Rust scan {scan:.3f} s")
    print("pivots  range evals  near evals  join evals     spb s  Rust with pivots s  ratio  to the scan")
    for pivots in PIVOTS:
        asked = words + [str(pivots)]
        text, seconds = queries_of(program, asked, whole, adds)
        other, plain = queries_of(baseline, asked, whole, adds)
        if text != other:
            sys.exit(f"pivots: the two print different bytes with {pivots} pivots")
        print(f"{pivots:6}  {average(text, b'range'):11.1f}  {average(text, b'near'):10.1f}  {evals(text, b'join')[1]:10}  "
              f"{seconds:8.3f}  {plain:18.3f}  {seconds / plain:5.2f}  {seconds / scan:11.2f}")


def main():
    program, baseline, *sizes = sys.argv[1:]
    adds = int(sizes[0]) if sizes else 20000
    queries = int(sizes[1]) if len(sizes) > 1 else 200
    for kind, words in KINDS:
        table(program, baseline, kind, words, (adds, queries))


main()

#!/usr/bin/env python3
"""Kills `spb run` in mid-run, thousands of times, and opens the file again each time.

    bench/kill.py [--times N] [--seed S] [--place DIR] [SPB]

A script of additions and removals goes in line by line without waiting, and after a random time the program is killed with
SIGKILL. Let k be the number of replies that it wrote. The file, opened again, has to be the store after k lines or after
k + 1. What is found becomes the state of the next round, on the same file. It prints how many rounds ended in mid-change,
and ends with 1 at the first store that is neither.

SIGKILL leaves what was written in the system's cache, so this tests the order of the program's writes and its recovery, not
the medium.
"""
import argparse
import os
import random
import subprocess
import sys
import tempfile
import threading
import time

CAP = 200
IDS = 60


def spb(program, *words, script=""):
    done = subprocess.run([program, *words], input=script.encode(), capture_output=True)
    if done.returncode != 0:
        sys.exit(f"{words} ended with {done.returncode}: {done.stderr.decode()}")
    return done.stdout.decode().splitlines()


def next_state(state, line):
    """The state after a line, and the reply to it."""
    name, c, i, *rest = line.split(" ")
    key = (int(c), int(i))
    if name == "add":
        if key in state:
            return state, "exists"
        if len(state) == CAP:
            return state, "full"
        return {**state, key: rest[0]}, "ok"
    if key not in state:
        return state, "absent"
    return {k: o for k, o in state.items() if k != key}, "ok"


def draw_line(draw):
    c, i = draw.randrange(4), draw.randrange(IDS)
    if draw.random() < 0.6:
        return f"add {c} {i} {draw.randrange(256)},{draw.randrange(256)}"
    return f"drop {c} {i}"


def read_store(program, path):
    keys = [(c, i) for c in range(4) for i in range(IDS)]
    replies = spb(program, "run", path, script="".join(f"get {c} {i}\n" for c, i in keys))
    return {key: reply[7:] for key, reply in zip(keys, replies) if reply != "absent"}


def killed_run(program, path, lines, after):
    """The replies that came before the kill."""
    run = subprocess.Popen([program, "run", path], stdin=subprocess.PIPE, stdout=subprocess.PIPE)

    def feed():
        try:
            run.stdin.write("".join(line + "\n" for line in lines).encode())
            run.stdin.flush()
        except (BrokenPipeError, OSError):
            pass

    feeder = threading.Thread(target=feed)
    feeder.start()
    time.sleep(after)
    run.kill()
    text = run.stdout.read().decode()
    run.wait()
    feeder.join()
    try:
        run.stdin.close()
    except (BrokenPipeError, OSError):
        pass
    return text.split("\n")[:-1]


def main():
    words = argparse.ArgumentParser()
    words.add_argument("--times", type=int, default=1000)
    words.add_argument("--seed", type=int, default=1)
    words.add_argument("--place", default=None)
    words.add_argument("program", nargs="?", default=os.path.join(os.path.dirname(__file__), "..", "crates", "spb_cli", "out", "spb_cli"))
    given = words.parse_args()
    draw = random.Random(given.seed)
    with tempfile.TemporaryDirectory(dir=given.place) as place:
        path = os.path.join(place, "killed.spb")
        spb(given.program, "make", path, "z", "2", str(CAP), "l1", "2", "255", script="sample 0,0\nsample 255,0\n")
        state, torn, answered = {}, 0, 0
        for turn in range(given.times):
            lines = [draw_line(draw) for _ in range(400)]
            replies = killed_run(given.program, path, lines, draw.random() * 0.03)
            for line, reply in zip(lines, replies):
                state, wanted = next_state(state, line)
                if reply != wanted:
                    sys.exit(f"round {turn}: '{line}' was answered '{reply}', not '{wanted}'")
            answered += len(replies)
            found = read_store(given.program, path)
            after = next_state(state, lines[len(replies)])[0] if len(replies) < len(lines) else state
            if found == after and found != state:
                torn += 1
            elif found != state:
                sys.exit(f"round {turn}: after {len(replies)} replies the file holds another store")
            state = found
        print(f"{given.times} kills, {answered} lines answered, {torn} stores with one change more than was answered: each file reopened")


if __name__ == "__main__":
    main()

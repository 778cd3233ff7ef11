#!/usr/bin/env python3
"""random_stores.py PROGRAM [STORES] [SEED]: reads stores that the program made by read_store.py, and compares.

Each store is of a kind, a curve, a cap and pivots drawn at random. `spb run` adds and drops objects and is killed while it
does. The file as the kill left it is read by read_store.py, and then by `spb check` and `get` for each id. Then copies of
which some bytes were changed are read by both. It ends with 1 at the first store on which they differ.
"""
import pathlib
import random
import subprocess
import sys
import tempfile
import time

import read_store

IDS = 40
DAMAGES = 30


def draw_space(draw):
    """The word of a kind, and its parameters."""
    kind = draw.choice(list(read_store.KINDS.values()))
    if kind == "hamming":
        return kind, [draw.choice([1, 8, 120])]
    if kind == "sets":
        return kind, [draw.choice([5, 1000]), draw.choice([1, 4, 30])]
    return kind, [draw.choice([1, 2, 30]), draw.choice([1, 255, 10**6])]


def most_pivots(kind, limits):
    """The most pivots whose keys have at most 64 bits."""
    code = next(code for code, word in read_store.KINDS.items() if word == kind)
    return min(8, 64 // read_store.Space(code, *limits, *[0] * (2 - len(limits))).bits())


def draw_object(draw, kind, limits):
    if kind == "hamming":
        return draw.randbytes(limits[0]).hex()
    if kind == "sets":
        elements = draw.sample(range(limits[0]), draw.randint(0, min(limits)))
        return ",".join(map(str, sorted(elements))) or "-"
    return ",".join(str(draw.randint(0, limits[1])) for _ in range(limits[0]))


def run(program, *words, script=""):
    return subprocess.run([program, *map(str, words)], input=script, capture_output=True, text=True)


def make_store(draw, program, path):
    """Makes a store, changes it, and kills the program at a random time."""
    kind, limits = draw_space(draw)
    samples = "".join(f"sample {draw_object(draw, kind, limits)}\n" for _ in range(12))
    curve, pivots, cap = draw.choice(["z", "hilbert"]), draw.randint(1, most_pivots(kind, limits)), draw.choice([3, 100, 150])
    made = run(program, "make", path, curve, pivots, cap, kind, *limits, script=samples)
    if made.returncode:
        sys.exit(made.stderr)
    lines = [f"add {draw.randrange(4)} {draw.randrange(IDS)} {draw_object(draw, kind, limits)}" if draw.random() < 0.7
             else f"drop {draw.randrange(4)} {draw.randrange(IDS)}" for _ in range(400)]
    changing = subprocess.Popen([program, "run", path], stdin=subprocess.PIPE, stdout=subprocess.DEVNULL)
    changing.stdin.write("".join(line + "\n" for line in lines).encode())
    changing.stdin.flush()
    time.sleep(draw.random() * 0.05)
    changing.kill()
    changing.communicate()


def told_by_reader(data):
    """What read_store.py says of a file: its status, its last line, and the objects."""
    try:
        space, objects = read_store.read_store(data)
    except read_store.NotStore:
        return 7, "not a store", {}
    except read_store.Damaged as why:
        return 8, str(why), {}
    return 0, f"sound {len(objects)}", {key: space.text(item) for key, item in objects.items()}


def told_by_program(program, path):
    """What the program says of a file: its status, and the line that goes with it."""
    checked = run(program, "check", path)
    line = checked.stdout if checked.returncode == 0 else checked.stderr.removeprefix("spb: ")
    return checked.returncode, line.strip()


def objects_of(program, path):
    keys = [(c, i) for c in range(4) for i in range(IDS)]
    replies = run(program, "run", path, script="".join(f"get {c} {i}\n" for c, i in keys)).stdout.splitlines()
    return {key: reply.removeprefix("object ") for key, reply in zip(keys, replies) if reply != "absent"}


def damaged(draw, data):
    """The file with some bytes changed, most of them before the pool, or of another length."""
    if draw.random() < 0.1:
        return data[:draw.choice([100, len(data) - 1, len(data) - 512])]
    changed, end = bytearray(data), draw.choice([1024, 2560, len(data)])
    for _ in range(draw.randint(1, 3)):
        changed[draw.randrange(end)] = draw.choice([0, 1, 2, 255, draw.randrange(256)])
    return bytes(changed)


def main():
    program = sys.argv[1]
    stores = int(sys.argv[2]) if len(sys.argv) > 2 else 100
    draw = random.Random(int(sys.argv[3]) if len(sys.argv) > 3 else 1)
    unfinished = refused = 0
    with tempfile.TemporaryDirectory() as room:
        path, copy = pathlib.Path(room, "store.spb"), pathlib.Path(room, "copy.spb")
        for store in range(stores):
            path.unlink(missing_ok=True)
            make_store(draw, program, path)
            data = path.read_bytes()
            unfinished += data[16] == 1
            *verdict, objects = told_by_reader(data)
            if tuple(verdict) != told_by_program(program, path) or objects != objects_of(program, path):
                sys.exit(f"store {store} is read differently")
            for _ in range(DAMAGES):
                changed = damaged(draw, data)
                copy.write_bytes(changed)
                *verdict, _ = told_by_reader(changed)
                if tuple(verdict) != told_by_program(program, copy):
                    sys.exit(f"store {store}, changed, is read differently: {verdict}, {told_by_program(program, copy)}")
                refused += verdict[0] != 0
    print(f"{stores} stores, {unfinished} of them stopped in a change, and {stores * DAMAGES} changed copies, {refused} of them refused: read alike")


if __name__ == "__main__":
    main()

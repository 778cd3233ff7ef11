#!/usr/bin/env python3
"""Prints a script of commands for a store of the kind: samples, adds, then ranges, questions for the nearest and joins.

    make_data.py KIND [ADDS [QUERIES]]

The objects stand in clusters, and each query asks round a point of a cluster, so that its answer holds some of that
cluster. Collections 0 and 1 get most objects; 2 and 3 get 1,000 each at most, and are joined. The same words give the
same script at each run.
"""
import random
import sys

SEED = 20240229
COMPONENTS = 16
BYTES = 32
MOST = 255
UNIVERSE = 1000
CLUSTERS = 60
CHANGED = 0.3
SPREAD = 6
SAMPLES = 200
JOINED = 1000
NEAREST = 20
# the least and the greatest radius of a range, and the radius of the join
RADII = {"l1": (55, 75, 40), "linf": (6, 9, 5), "hamming": (2, 5, 3), "sets": (2, 5, 3)}


def vector(chance, center):
    """A point whose components are within SPREAD of the center's."""
    return [min(MOST, max(0, at + chance.randint(-SPREAD, SPREAD))) for at in center]


def string(chance, center):
    """A string of which a few bytes differ from the center's."""
    return [chance.randint(0, MOST) if chance.random() < 0.06 else at for at in center]


def set_of(chance, center):
    """A set that has most of the center's elements, and a few others."""
    kept = {at for at in center if chance.random() < 0.9}
    kept.update(chance.randrange(UNIVERSE) for _ in range(chance.randint(0, 1)))
    return sorted(kept)[:COMPONENTS]


MAKERS = {"l1": vector, "linf": vector, "hamming": string, "sets": set_of}


def text(kind, point):
    if kind == "hamming":
        return bytes(point).hex()
    return ",".join(map(str, point)) or "-"


def first_center(kind, chance):
    if kind == "sets":
        return sorted(chance.sample(range(UNIVERSE), COMPONENTS))
    return [chance.randint(0, MOST) for _ in range(BYTES if kind == "hamming" else COMPONENTS)]


def next_center(kind, chance, centers):
    """A vector anywhere; a string or a set that comes from an earlier one, as codes and tags do."""
    if kind in ("l1", "linf"):
        return first_center(kind, chance)
    parent = chance.choice(centers)
    if kind == "hamming":
        return [chance.randint(0, MOST) if chance.random() < CHANGED else at for at in parent]
    kept = {at for at in parent if chance.random() >= CHANGED}
    kept.update(chance.sample(range(UNIVERSE), chance.randint(1, COMPONENTS // 2)))
    return sorted(kept)[:COMPONENTS]


def script(kind, adds, queries):
    chance = random.Random(SEED)
    centers = [first_center(kind, chance)]
    while len(centers) < CLUSTERS:
        centers.append(next_center(kind, chance, centers))
    least, most, joined = RADII[kind]

    def point():
        return text(kind, MAKERS[kind](chance, chance.choice(centers)))

    for _ in range(SAMPLES):
        yield f"sample {point()}"
    ids = chance.sample(range(2**32), adds)
    few = min(JOINED, adds // 4)
    for number, name in enumerate(ids):
        collection = 2 + number % 2 if number < 2 * few else number % 2
        yield f"add {collection} {name} {point()}"
    for number in range(queries):
        yield f"range {number % 2} {chance.randint(least, most)} {point()}"
        yield f"near {number % 2} {NEAREST} {point()}"
    if queries:
        yield f"join 2 3 {joined}"
        yield f"join 2 2 {joined}"


def main():
    kind = sys.argv[1]
    adds = int(sys.argv[2]) if len(sys.argv) > 2 else 30000
    queries = int(sys.argv[3]) if len(sys.argv) > 3 else 100
    for line in script(kind, adds, queries):
        print(line)


if __name__ == "__main__":
    main()

#!/usr/bin/env python3
"""picture.py PROGRAM [PICTURE]: draws how many distances a range takes over its radius, with 0, 1, 3, 5 and 8 pivots.

It plays a store in memory of vectors that stand in clusters, asks for ranges of growing radius round the same points, and
takes the numbers from the replies. The picture is an SVG, by default docs/evaluations.svg.
"""
import pathlib
import random
import re
import subprocess
import sys

import make_data

WORDS = ["mem", "l1", "16", "255"]
OBJECTS = 5000
QUERIES = 10
PIVOTS = (0, 1, 3, 5, 8)
RADII = range(0, 4081, 80)
COLORS = ("#767676", "#d1802b", "#2f7d4f", "#2b62a8", "#8a3b8f")
WIDTH, HEIGHT = 760, 420
LEFT, RIGHT, TOP, BOTTOM = 70, 110, 50, 60


def script():
    """The lines of the session; its ranges come last, the radii one after the other."""
    chance = random.Random(make_data.SEED)
    centers = [make_data.first_center("l1", chance) for _ in range(make_data.CLUSTERS)]

    def point():
        return make_data.text("l1", make_data.vector(chance, chance.choice(centers)))

    lines = [f"sample {point()}" for _ in range(make_data.SAMPLES)]
    lines += [f"add 0 {number} {point()}" for number in range(OBJECTS)]
    asked = [point() for _ in range(QUERIES)]
    lines += [f"range 0 {radius} {query}" for radius in RADII for query in asked]
    return "".join(line + "\n" for line in lines).encode()


def averages(program, pivots, lines):
    """How many distances a range of each radius takes on the average."""
    played = subprocess.run([program] + WORDS + [str(pivots)], input=lines, stdout=subprocess.PIPE, check=True)
    evals = [int(count) for count in re.findall(rb"^range \d+ evals (\d+)", played.stdout, re.MULTILINE)]
    return [sum(evals[at:at + QUERIES]) / QUERIES for at in range(0, len(evals), QUERIES)]


def x_of(radius):
    return LEFT + radius * (WIDTH - LEFT - RIGHT) / RADII[-1]


def y_of(evals):
    return HEIGHT - BOTTOM - evals * (HEIGHT - TOP - BOTTOM) / OBJECTS


def text(x, y, words, anchor="middle", color="#333333"):
    return f'<text x="{x:.1f}" y="{y:.1f}" text-anchor="{anchor}" fill="{color}">{words}</text>'


def axes():
    yield f'<path d="M{LEFT} {TOP}V{HEIGHT - BOTTOM}H{WIDTH - RIGHT}" fill="none" stroke="#333333"/>'
    for radius in range(0, RADII[-1] + 1, 1000):
        yield text(x_of(radius), HEIGHT - BOTTOM + 20, radius)
    for evals in range(0, OBJECTS + 1, 1000):
        yield text(LEFT - 8, y_of(evals) + 4, evals, "end")
        yield f'<path d="M{LEFT} {y_of(evals):.1f}H{WIDTH - RIGHT}" stroke="#dddddd"/>'
    yield text((LEFT + WIDTH - RIGHT) / 2, HEIGHT - 18, "radius of the range")
    yield text(LEFT, TOP - 24, f"distances evaluated for one range over {OBJECTS} vectors, L1 of 16 components", "start")


def curve(pivots, color, evals):
    points = " ".join(f"{x_of(radius):.1f},{y_of(count):.1f}" for radius, count in zip(RADII, evals))
    return f'<polyline points="{points}" fill="none" stroke="{color}" stroke-width="2"><title>{pivots} pivots</title></polyline>'


def legend():
    for place, (pivots, color) in enumerate(zip(PIVOTS, COLORS)):
        y = TOP + 20 + 22 * place
        yield f'<path d="M{WIDTH - RIGHT + 10} {y}h20" stroke="{color}" stroke-width="2"/>'
        yield text(WIDTH - RIGHT + 36, y + 4, f"{pivots} pivot" + ("" if pivots == 1 else "s"), "start", color)


def main():
    program = sys.argv[1]
    default = pathlib.Path(__file__).resolve().parent.parent / "docs" / "evaluations.svg"
    picture = pathlib.Path(sys.argv[2]) if len(sys.argv) > 2 else default
    lines = script()
    parts = [f'<svg xmlns="http://www.w3.org/2000/svg" viewBox="0 0 {WIDTH} {HEIGHT}" font-family="sans-serif" font-size="13">',
             f'<rect width="{WIDTH}" height="{HEIGHT}" fill="#ffffff"/>']
    parts += axes()
    parts += [curve(pivots, color, averages(program, pivots, lines)) for pivots, color in zip(PIVOTS, COLORS)]
    parts += legend()
    picture.write_text("\n".join(parts + ["</svg>"]) + "\n")


main()

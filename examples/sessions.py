#!/usr/bin/env python3
"""sessions.py PROGRAM: plays a session of each kind over data that this machine has, with 5 pivots, and shows the replies.

Vectors are the letter counts of this repository's documents, strings the first bytes of programs, and sets the
packages that installed packages depend on, or the letters of words where there is no dpkg.
"""
import pathlib
import re
import shutil
import string
import subprocess
import sys

TOP = pathlib.Path(__file__).resolve().parent.parent
PIVOTS = "5"
SAMPLES = 200


def letters_of(text):
    """How often each letter stands among a thousand letters of the text."""
    letters = [c for c in text.lower() if c in string.ascii_lowercase]
    return [1000 * letters.count(c) // max(1, len(letters)) for c in string.ascii_lowercase]


def documents():
    return {str(path.relative_to(TOP)): letters_of(path.read_text()) for path in sorted(TOP.rglob("*.md"))}


def beginnings(length):
    """The first bytes of some of the files in /usr/bin, in hexadecimal."""
    found = {}
    for path in sorted(pathlib.Path("/usr/bin").iterdir())[:400]:
        if path.is_file() and (head := path.open("rb").read(length)) and len(head) == length:
            found[path.name] = head.hex()
    return found


def dependencies():
    """The numbers of the packages that each installed package depends on, and how many numbers there are."""
    if shutil.which("dpkg-query") is None:
        words = set(re.findall("[a-z]{4,12}", (TOP / "README.md").read_text().lower()))
        return {word: sorted({ord(c) - 97 for c in word}) for word in sorted(words)}, 26
    told = subprocess.run(["dpkg-query", "-W", "-f", "${Package}\t${Depends}\n"], capture_output=True, text=True, check=True)
    numbers, found = {}, {}
    for line in told.stdout.splitlines():
        name, needs = line.split("\t")
        first = {need.split("|")[0].split()[0].split(":")[0] for need in needs.split(",") if need.strip()}
        found[name] = sorted(numbers.setdefault(need, len(numbers)) for need in sorted(first))[:30]
    return found, len(numbers)


def numbers(point):
    return ",".join(map(str, point)) or "-"


def play(program, words, objects, questions):
    """Takes some of the objects as samples, adds all with the ids 0, 1 and so on, asks, and shows each question with
    its reply and the names."""
    names = list(objects)
    words = words + [PIVOTS]
    lines = [f"sample {text}" for text in list(objects.values())[:SAMPLES]]
    lines += [f"add 0 {i} {text}" for i, text in enumerate(objects.values())] + questions
    told = subprocess.run([program, *words], input="\n".join(lines), capture_output=True, text=True, check=True)
    print("$ spb", *words, f"   # {len(objects)} objects")
    for question, reply in list(zip(lines, told.stdout.splitlines()))[-len(questions):]:
        head, _, items = reply.partition(":")
        shown = [re.sub(r"\d+(?=@|-|$)", lambda id: names[int(id[0])], item, count=1) if "-" not in item
                 else " - ".join(names[int(id)] for id in item.split("-")) for item in items.split()[:6]]
        print(f"{question[:70]}\n    {head}{': ' if shown else ''}{', '.join(shown)}")
    print()


def main():
    program = sys.argv[1]
    texts = {name: numbers(counts) for name, counts in documents().items()}
    first = next(iter(texts.values()))
    play(program, ["mem", "l1", "26", "1000"], texts, [f"near 0 3 {first}", f"range 0 150 {first}", "join 0 0 90"])
    play(program, ["mem", "linf", "26", "1000"], texts, [f"near 0 3 {first}", "join 0 0 15"])
    heads = beginnings(64)
    play(program, ["mem", "hamming", "64"], heads, [f"near 0 3 {next(iter(heads.values()))}", "join 0 0 4"])
    sets, universe = dependencies()
    texts = {name: numbers(elements) for name, elements in sets.items()}
    last = list(texts.values())[-1]
    play(program, ["mem", "sets", str(universe), "30"], texts, [f"near 0 4 {last}", f"range 0 3 {last}", "count 0"])


main()

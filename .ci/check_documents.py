#!/usr/bin/env python3
"""Checks the documents against the repository.

- Every edit, test, clause, crate and file that docs/PROMISES.md, README.md and the other pages name exists.
- Every must-fail edit and every test is named in docs/PROMISES.md.
- The sessions in README.md print what it says, byte for byte. They need the program, which `rt ci` builds at
  crates/spb_cli/out/spb_cli; SPB=PATH names another one.

It prints what is wrong, a line each, and ends with 1 if anything is.
"""
import functools
import os
import re
import subprocess
import sys
import tempfile
from pathlib import Path

TOP = Path(__file__).resolve().parent.parent
CRATES = TOP / "crates"
PAGES = [TOP / "README.md", TOP / "CONTRIBUTING.md", *sorted((TOP / "docs").glob("*.md"))]
problems = []


def problem(page, text):
    problems.append(f"{page.relative_to(TOP)}: {text}")


def sources():
    return [f for f in CRATES.glob("*/src/**/*.rt")]


@functools.cache
def edits():
    return {f.stem: f for f in CRATES.glob("*/must-fail/*.edit")}


def tests():
    found = {}
    for f in sources():
        for name in re.findall(r"#\[test\]\s*(?:#\[[^\]]*\]\s*)*fn (\w+)", f.read_text()):
            found[name] = f
    return found


def clauses():
    """The names of the clauses and ghost members by function, over all crates."""
    found = {}
    for f in sources():
        name = None
        for line in f.read_text().splitlines():
            if m := re.match(r"\s*(?:pub(?:\([^)]*\))? )?fn (\w+)", line):
                name = m.group(1)
            elif m := re.match(r"\s*(?:pub )?ghost (\w+)\s*[:=]", line):
                found.setdefault("ghost", set()).add(m.group(1))
            elif (m := re.match(r"\s*ensures (\w+) \{", line)) and name:
                found.setdefault(name, set()).add(m.group(1))
    return found


def words(page):
    return re.findall(r"`([^`\n]+)`", page.read_text())


def check_promises():
    page = TOP / "docs" / "PROMISES.md"
    text = page.read_text()
    have_edits, have_tests, have_clauses = edits(), tests(), clauses()
    for row in text.splitlines():
        cells = [c.strip() for c in row.strip().strip("|").split("|")]
        if len(cells) < 4 or set(cells[0]) <= {"-", " "} or cells[0] == "Promise":
            continue
        calls, guards = cells[1], cells[2]
        for name in re.findall(r"`(\w+)`", guards):
            if name not in have_edits and name not in have_tests and not (CRATES / name).is_dir() and not known_word(name):
                problem(page, f"`{name}` is neither an edit nor a test")
        for call, listed in re.findall(r"`([\w:]+)`: ((?:`\w+`(?:, | and )?)+)", calls):
            function = call.split("::")[-1]
            for clause in re.findall(r"`(\w+)`", listed):
                if clause in have_clauses.get(function, set()) or is_item(clause):
                    continue
                problem(page, f"`{call}` has no clause `{clause}`")
        for call in re.findall(r"`((?:\w+::)+\w+)`", calls):
            if not is_item(call):
                problem(page, f"`{call}` isn't there")
    named = set(re.findall(r"`(\w+)`", text))
    for name, f in {**have_edits, **have_tests}.items():
        if name not in named:
            problem(page, f"doesn't name `{name}` of {f.relative_to(TOP)}")


@functools.cache
def is_item(call):
    """A function, a type or a method of the crate that the path begins with, or of any."""
    crate, name = call.split("::")[0], call.split("::")[-1]
    files = list((CRATES / crate).glob("src/**/*.rt")) if (CRATES / crate).is_dir() else sources()
    return any(re.search(rf"\b(?:fn|struct|enum|trait|type|const|mod) {name}\b", f.read_text()) for f in files)


def check_names():
    """Paths in any page lead somewhere, and `crate::item` is an item of the crate."""
    for page in PAGES:
        for word in words(page):
            path = word.split(" ")[0].rstrip("/")
            if re.fullmatch(r"[\w.-]+(?:/[\w.{},*-]+)+", path) and path.split("/")[0] in os.listdir(TOP) + os.listdir(CRATES):
                base = TOP if (TOP / path.split("/")[0]).exists() else CRATES
                if "/out/" in path or path.startswith("out/") or "NAME" in path:
                    continue
                spread = [path]
                if m := re.search(r"\{([^}]*)\}", path):
                    spread = [path.replace(m.group(0), part) for part in m.group(1).split(",")]
                for one in spread:
                    if not list(base.glob(one)):
                        problem(page, f"`{one}` isn't there")
        for target in re.findall(r"\]\(([^)#]+)(?:#[^)]*)?\)", page.read_text()):
            if not target.startswith("http") and not (page.parent / target).exists():
                problem(page, f"a link leads to {target}, which isn't there")
        for crate in re.findall(r"`((?:spb|answer|metric|curve|z|hilbert|metrics|scan|object|cmd|pivot|row|range|query|nn|redo)_\w+)`", page.read_text()):
            if not (CRATES / crate).is_dir() and crate not in edits() and not known_word(crate):
                problem(page, f"`{crate}` is no crate and no word of one")


@functools.cache
def known_word(word):
    return any(re.search(rf"\b{word}\b", f.read_text()) for f in [*sources(), *CRATES.glob("*/specs/*.antt"), *CRATES.glob("*/proofs/**/*.antt")])


def check_sessions():
    page = TOP / "README.md"
    program = Path(os.environ.get("SPB", CRATES / "spb_cli" / "out" / "spb_cli"))
    if not program.exists():
        problem(page, f"the sessions can't be run: no program at {program}")
        return
    with tempfile.TemporaryDirectory() as place:
        os.symlink(program.resolve(), Path(place) / "spb")
        env = dict(os.environ, PATH=f"{place}:{os.environ['PATH']}")
        for block in re.findall(r"```console\n(.*?)```", page.read_text(), re.S):
            for command, wanted in re.findall(r"^\$ (.*)\n((?:(?!\$ ).*\n)*)", block, re.M):
                if not re.search(r"\bspb\b", command):
                    continue
                done = subprocess.run(["bash", "-c", command], capture_output=True, env=env, cwd=place, timeout=60)
                if done.stdout != wanted.encode():
                    problem(page, f"`{command}` prints\n{done.stdout.decode(errors='replace')}instead of\n{wanted}")


check_promises()
check_names()
check_sessions()
for text in problems:
    print(text)
sys.exit(1 if problems else 0)

#!/usr/bin/env python3
"""load_sqlite.py FILE MODE: puts the objects of `add` lines into an empty SQLite file, one transaction each.

MODE is the journal mode, `delete` (SQLite's default) or `wal`; each transaction is synced (synchronous=FULL).
It prints `ok` after each commit. There are no pivots, and no rows in memory.
"""
import sqlite3
import struct
import sys

COMPONENTS = 16


def main():
    path, mode = sys.argv[1:]
    pack = struct.Struct(f">{COMPONENTS}I").pack
    base = sqlite3.connect(path, isolation_level=None)
    if base.execute(f"pragma journal_mode={mode}").fetchone()[0] != mode:
        sys.exit(f"load_sqlite: no journal mode {mode}")
    base.execute("pragma synchronous=full")
    base.execute("create table objects (c, id, object blob, primary key (c, id))")
    for line in sys.stdin:
        _, c, i, components = line.split(" ")
        row = int(c), int(i), pack(*map(int, components.split(",")))
        base.execute("insert into objects values (?, ?, ?)", row)
        sys.stdout.write("ok\n")
        sys.stdout.flush()
    base.close()


main()

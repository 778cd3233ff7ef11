#!/usr/bin/env python3
"""read_store.py FILE: reads the file of a store as docs/FORMAT.md describes it, and writes nothing.

It prints the objects, a line each with the collection, the id and the object's text, in ascending order, and then
`sound N`, the number of them. A file that is no store ends with 7 and one that breaks a rule with 8, each with the
line that `spb check` has on standard error. A change that a crash cut off reads as finished.
"""
import struct
import sys

PAGE = 512
MAGIC = b"spbstore"
FIRST_SLOT_PAGE = 85
NUMBERS = 2**32 - 1
KINDS = {1: "l1", 2: "linf", 3: "hamming", 4: "sets"}


class NotStore(Exception):
    """The file isn't a store of this format."""


class Damaged(Exception):
    """The file breaks a rule."""

    def __init__(self, page, rule):
        super().__init__(f"damaged page {page} rule {rule}")


def number(data, at, size=4):
    return int.from_bytes(data[at:at + size], "big")


class Space:
    """What a store's objects are, by the kind and the two parameters of the profile."""

    def __init__(self, kind, first, second):
        self.kind, self.first, self.second = KINDS.get(kind), first, second

    def is_one(self):
        if self.kind == "l1":
            return 1 <= self.first <= 30 and 1 <= self.second and self.first * self.second <= NUMBERS
        if self.kind == "linf":
            return 1 <= self.first <= 30 and 1 <= self.second
        if self.kind == "hamming":
            return 1 <= self.first <= 120 and self.second == 0
        return self.kind == "sets" and 1 <= self.first and 1 <= self.second <= 30

    def greatest_distance(self):
        return {"l1": self.first * self.second, "linf": self.second, "hamming": self.first,
                "sets": min(2 * self.second, self.first)}[self.kind]

    def bits(self):
        return max(1, self.greatest_distance().bit_length())

    def has(self, item):
        if self.kind == "hamming":
            return len(item) == self.first
        if len(item) % 4:
            return False
        parts = struct.unpack(f">{len(item) // 4}I", item)
        if self.kind == "sets":
            return len(parts) <= self.second and all(a < b for a, b in zip(parts, parts[1:])) and all(p < self.first for p in parts)
        return len(parts) == self.first and all(p <= self.second for p in parts)

    def text(self, item):
        if self.kind == "hamming":
            return item.hex()
        return ",".join(map(str, struct.unpack(f">{len(item) // 4}I", item))) or "-"


class Profile:
    """The fields of page 1."""

    def __init__(self, page):
        self.curve, self.pivots, self.bits = page[3], page[4], page[5]
        self.space = Space(page[2], number(page, 8), number(page, 12))
        self.cap, width = number(page, 16), number(page, 20)
        self.roots = [(number(page, at), page[at + 4], page[at + 5:at + 8]) for at in range(32, 96, 8)]
        zeros = page[6:8] + page[24:32] + page[96:] + b"".join(rest for _, _, rest in self.roots)
        if not (self.space.is_one() and self.curve in (1, 2) and 1 <= self.pivots <= 8
                and self.bits == self.space.bits() and self.pivots * self.bits <= 64
                and 1 <= self.cap <= 65536 and width == 1 and not any(zeros) and all(map(self.is_root, range(8)))):
            raise Damaged(1, "profile")

    def is_root(self, place):
        """Whether a root is empty or has a height from 1 to 5, and is empty if that of the collection's other tree is."""
        page, height, _ = self.roots[place]
        return height <= 5 and (height > 0 or page == 0) and (height > 0) == (self.roots[place ^ 1][1] > 0)

    def pages(self):
        return FIRST_SLOT_PAGE + -(-self.cap // 4) + 4 * (self.cap // 15 + 4) + 24


class Image:
    """The pages of a file, those of an open journal in their places."""

    def __init__(self, data):
        if len(data) < 5 * PAGE or data[:8] != MAGIC:
            raise NotStore()
        if len(data) % PAGE or not FIRST_SLOT_PAGE <= len(data) // PAGE <= NUMBERS:
            raise Damaged(0, "size")
        self.data, self.total, self.laid = data, len(data) // PAGE, {}
        if data[16] == 1:
            self.lay_journal(self.page(4))

    def lay_journal(self, header):
        count = number(header, 0)
        homes = [number(header, 8 + 4 * i) for i in range(min(count, 80))]
        in_range = all(1 <= n <= 3 or FIRST_SLOT_PAGE <= n < self.total for n in homes)
        if not (1 <= count <= 80 and in_range and all(a < b for a, b in zip(homes, homes[1:]))):
            raise Damaged(4, "journal")
        self.laid = {n: self.page(5 + i) for i, n in enumerate(homes)}

    def page(self, n):
        return self.laid.get(n) or self.data[n * PAGE:(n + 1) * PAGE]

    def record(self, first_page, i):
        return self.page(first_page + i // 4)[128 * (i % 4):][:128]


def read_record(record, is_owner):
    """The first byte, the id and the object of a pivot's or a slot's record; None if it isn't one."""
    length = record[1]
    if not is_owner(record[0]) or length > 120 or any(record[2:4]) or any(record[8 + length:]):
        return None
    return record[0], number(record, 4), record[8:8 + length]


def check_pivots(image, profile):
    for i in range(8):
        record = image.record(2, i)
        if i >= profile.pivots:
            is_sound = not any(record)
        else:
            read = read_record(record, lambda owner: owner == 0)
            is_sound = read is not None and read[1] == 0 and profile.space.has(read[2])
        if not is_sound:
            raise Damaged(2 + i // 4, "pivot")


def read_objects(image, profile):
    """The objects in the slots, by collection and id."""
    found = {}
    for slot in range(profile.cap):
        record = image.record(FIRST_SLOT_PAGE, slot)
        if record[0] == 255:
            continue
        read = read_record(record, lambda owner: owner <= 3)
        if read is None or not profile.space.has(read[2]) or read[:2] in found:
            raise Damaged(FIRST_SLOT_PAGE + slot // 4, "slot")
        found[read[:2]] = read[2]
    return found


def read_store(data):
    """The space of a store, and its objects by collection and id."""
    image = Image(data)
    if number(image.page(1), 0, 2) != 1:
        raise NotStore()
    profile = Profile(image.page(1))
    if image.total != profile.pages():
        raise Damaged(0, "size")
    check_pivots(image, profile)
    if any(height for _, height, _ in profile.roots):
        raise Damaged(1, "page")
    return profile.space, read_objects(image, profile)


def main():
    with open(sys.argv[1], "rb") as file:
        data = file.read()
    try:
        space, objects = read_store(data)
    except NotStore:
        print("not a store", file=sys.stderr)
        return 7
    except Damaged as why:
        print(why, file=sys.stderr)
        return 8
    for (c, i), item in sorted(objects.items()):
        print(c, i, space.text(item))
    print("sound", len(objects))
    return 0


if __name__ == "__main__":
    sys.exit(main())

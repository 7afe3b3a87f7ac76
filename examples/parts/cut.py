#!/usr/bin/env python3
"""Cuts a collection into parts of whole lines and about as many bytes each.

    cut.py COLLECTION FOLDER PARTS

PARTS is 1, 2, 4, 8 and so on. A part is named by how the collection is halved: `all0` is its first half, `all01` the second
half of that. FOLDER/all01.tsv is that part, a collection of its own.

Each part begins with a line of weights: that of the collection, or else that of the usual ones. The indexes of parts are only
merged where all have the same; and at the head of a part a title `#weights ..` would be read as such a line.
"""
import os
import pathlib
import re
import sys

MARK = b"\xef\xbb\xbf"     # is skipped in front of a collection, and nowhere else
USUAL = b"#weights title=4 facet=2 text=1\n"


def names(parts):
    """The names of the parts, in their order."""
    digits = parts.bit_length() - 1
    return ["all" + f"{part:0{digits}b}"[:digits] for part in range(parts)]


def weights_of(collection):
    """The line of weights that the collection begins with, or the usual one; what follows is left to be read."""
    begin = len(MARK) if collection.read(len(MARK)) == MARK else 0
    collection.seek(begin)
    line = collection.readline()
    if re.match(rb"#weights( |\r?$)", line):
        return line
    collection.seek(begin)
    return USUAL


def cut(path, folder, parts):
    size = os.path.getsize(path)
    with open(path, "rb") as collection:
        weights = weights_of(collection)
        for number, name in enumerate(names(parts), 1):
            with open(folder / f"{name}.tsv", "wb") as part:
                part.write(weights)
                while collection.tell() < size * number // parts:
                    part.write(collection.readline())


def main():
    if len(sys.argv) != 4 or not re.fullmatch("[0-9]{1,4}", sys.argv[3]) or int(sys.argv[3]).bit_count() != 1:
        sys.exit("usage: cut.py COLLECTION FOLDER PARTS, where PARTS is 1, 2, 4, 8 and so on")
    path, folder, parts = sys.argv[1:]
    cut(path, pathlib.Path(folder), int(parts))


if __name__ == "__main__":
    main()

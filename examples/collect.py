#!/usr/bin/env python3
"""Leaves the collection of the example in a folder, with an address and a line of text for each document.

    examples/collect.py FOLDER

FOLDER/collection.tsv is `papers.tsv`, and FOLDER/addresses.txt has the address of document 0 on its first line, that of
document 1 on the next, and so on. These papers have no address of their own, so it is that of a search for their title.
FOLDER/texts.txt has, in the same order, what is shown under each title: here its third column, which may be empty.
`rebuild.sh` calls it; for documents of your own, write one that leaves the same files (`docs/COLLECTION.md`).
"""
import pathlib
import shutil
import sys
import urllib.parse

PAPERS = pathlib.Path(__file__).with_name("papers.tsv")
TEXT = 200    # characters that are shown of a text at most; a page shows one line


def address_of(title):
    """Where a paper is looked for."""
    return "https://dblp.org/search?q=" + urllib.parse.quote_plus(title)


def write_list(path, lines):
    path.write_text("".join(f"{line}\n" for line in lines), encoding="utf-8")


def main():
    folder = pathlib.Path(sys.argv[1])
    shutil.copyfile(PAPERS, folder / "collection.tsv")
    columns = [line.split("\t") for line in PAPERS.read_text(encoding="utf-8").splitlines()]
    write_list(folder / "addresses.txt", (address_of(title) for title, *_ in columns))
    write_list(folder / "texts.txt", (" ".join(more[1:])[:TEXT] for _, *more in columns))


main()

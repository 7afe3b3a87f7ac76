#!/usr/bin/env python3
"""Runs all checks that the gate doesn't: prints what is wrong, with its place, and nothing where all holds. The status is 1 then.

    reference/check.py

Run it at the top of the repository. It reads sources and pages alone, and takes some seconds.

    names            names that mean two things (`names.py`)
    missing names    names in backticks that are nowhere in the sources (`pages.py`, which says how they are looked for)
    clauses          labels in `docs/PROMISES.md` and `docs/STATEMENTS.md` that no call beside them has
    wrong bodies     those that no page names, names of ones that aren't there, and texts that don't stand once in their file
    sizes            files over 800 lines, and functions over 40, counted between their braces
    words            numbers of papers, and words about how work was organised, which say nothing to a reader
    worked rows      the tables of `docs/QUERY.md`, the reply of `README.md` and the files of `docs/INDEX_FILE.md`, computed by the reference (`worked.py`)
"""
import pathlib
import re
import sys

import names
import pages
import worked

FILE_LINES, FUNCTION_LINES = 800, 40
PAPERS = re.compile(r"(?<![\w%+])(?:[DTRW][0-9]{1,2}|row [1-9][0-9](?! [0-9])|document 0[0-9])\b")
ORGANISED = re.compile(r"\b(?:helpers?|sittings?|issues? [0-9]+)\b", re.I)
TEXTS = (*pages.SOURCES, ".md", ".edit", "")    # suffixes of what is read for words
HERE = pathlib.Path("reference/check.py")


def files():
    """All files of the repository but what a build leaves."""
    return [path for path in sorted(pathlib.Path(".").rglob("*"))
            if path.is_file() and not {".git", "out", "target", "__pycache__"} & set(path.parts)]


def sizes():
    for path in sorted(pathlib.Path("crates").glob("*/src/**/*.rt")):
        lines = path.read_text(encoding="utf-8").splitlines()
        if len(lines) > FILE_LINES:
            yield str(path), f"{len(lines)} lines"
        for number, line in enumerate(lines):
            if (found := pages.FUNCTION.match(line)) and (count := body_lines(lines[number:], found["margin"])) > FUNCTION_LINES:
                yield f"{path}:{number + 1}", f"{found['name']} has {count} lines"


def body_lines(lines, margin):
    """How many lines a function has between its braces, of which each stands as far in as the function; 0 where it has no body."""
    begin = None
    for number, line in enumerate(lines):
        outside = line.strip() and len(line) - len(line.lstrip()) < len(margin)
        if outside or number and line.startswith(margin) and (next_one := pages.FUNCTION.match(line)) and next_one["margin"] == margin:
            return 0
        if begin is None and line.endswith("{") and len(line) - len(line.lstrip()) == len(margin):
            begin = number
        elif begin is not None and line == margin + "}":
            return number - begin - 1
    return 0


def words(all_files):
    for path in all_files:
        if path.suffix not in TEXTS or path == HERE or path.parts[:2] == ("docs", "history"):
            continue
        for number, line in enumerate(path.read_text(encoding="utf-8", errors="replace").splitlines(), 1):
            for found in (*PAPERS.finditer(line), *ORGANISED.finditer(line)):
                yield f"{path}:{number}", f"'{found[0]}' says nothing to a reader"


def findings():
    all_files = files()
    sources = pages.Sources(all_files)
    yield from pages.missing_names(sources)
    yield from pages.missing_clauses(sources)
    yield from pages.wrong_bodies(sources)
    yield from sizes()
    yield from words(all_files)
    yield from worked.rows()


def main():
    if len(sys.argv) > 1 or not pathlib.Path("crates").is_dir():
        sys.exit("usage: reference/check.py, at the top of the repository")
    status = names.main()
    for place, what in findings():
        status = 1
        print(f"{place}: {what}")
    return status


if __name__ == "__main__":
    sys.exit(main())

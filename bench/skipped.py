#!/usr/bin/env python3
"""How many blocks requests within a year meet, and how many of them reach one of its documents.

    bench/skipped.py PROGRAM [DOCUMENTS [OTHER]]

It makes a collection of made words in the order of the years and the same one in no order, has PROGRAM build both, and counts from the
directory of each index file: for the words of the last part, and for the facet `year`, the blocks that hold one, and those whose bounds
reach a document of the year. Then it has PROGRAM, and OTHER where it is named, answer the requests, counts the reads (it needs strace) and
takes the processor time, the least of nine runs, the time of an empty script left out.
"""
import bisect
import itertools
import pathlib
import random
import re
import resource
import struct
import subprocess
import sys
import tempfile

sys.path.insert(0, str(pathlib.Path(__file__).parent.parent / "reference"))
import index_files

YEARS, VOCABULARY, REQUESTS = range(1900, 2024), 60_000, 200


def documents(count):
    """So many documents in the order of their years: eight words that are ever rarer, a topic and an author."""
    letters = "abcdefghijklmnopqrstuvwxyz"
    words = sorted({"".join(random.choices(letters, k=random.randint(3, 9))) for _ in range(VOCABULARY)})
    random.shuffle(words)
    weights = list(itertools.accumulate(1 / (rank + 3) for rank in range(len(words))))
    for number in range(count):
        year = YEARS[number * len(YEARS) // count]
        title = " ".join(random.choices(words, cum_weights=weights, k=8))
        yield f"{title}\tyear={year};topic={random.choice(words[:400])};author={random.choice(words[400:20_400])}"


def typed(lines):
    """Requests within a year that ask for all years: the year alone, and then up to four letters of a word."""
    for _ in range(REQUESTS):
        year, word = random.choice(YEARS), random.choice(lines).split()[0]
        for letters in range(min(4, len(word)) + 1):
            yield year, word[:letters]


def directory(path):
    """The words of an index file, and of each block its first word, the word behind its last one, and its bounds."""
    file = index_files.File(path.read_bytes())
    words, place = [], index_files.HEADER_BYTES
    for _ in range(file.words):
        size = file.data[place]
        words.append(file.data[place + 1:place + 1 + size])
        place += 1 + size
    entries = struct.iter_unpack(">6I", file.data[file.directory_at:file.blocks_at])
    return words, [(first, first + count, least, greatest) for first, count, _, _, least, greatest in entries]


def met(words, blocks, prefix):
    """The blocks that hold a word with this prefix."""
    first, behind = bisect.bisect_left(words, prefix), bisect.bisect_left(words, prefix + b"\xff")
    return [block for block in blocks if block[0] < behind and first < block[1]] if first < behind else []


def count(name, folder, lines, requests):
    """Prints the counts of one order."""
    words, blocks = directory(folder / f"{name}.index")
    of_year = {}
    for number, line in enumerate(lines):
        of_year.setdefault(int(re.search(r"year=(\d+)", line)[1]), []).append(number)

    def reached(some, hits):
        return sum(bisect.bisect_right(hits, block[3]) > bisect.bisect_left(hits, block[2]) for block in some)
    parts, years = [0, 0], [0, 0]
    for year, letters in requests:
        for sums, prefix in ((parts, letters.encode()), (years, b":year:")):
            some = met(words, blocks, prefix) if prefix else []
            sums[0] += len(some)
            sums[1] += reached(some, of_year[year])
    print(f"{name}: {len(requests)} requests; last parts meet {parts[0]} blocks, of which {parts[1]} reach the year;"
          f" the facet meets {years[0]}, of which {years[1]} do")


def reads(program, folder, name):
    """How often the program reads of its file for all requests, opening left out."""
    told = folder / "told"
    runs = []
    for script in ("none", "requests"):
        subprocess.run(["strace", "-f", "-c", "-e", "trace=pread64", "-o", told, program, "replay", folder / f"{name}.index", folder / script],
                       stdout=subprocess.DEVNULL, check=True)
        found = re.search(r"(\d+)\s+pread64", told.read_text())
        runs.append(int(found[1]) if found else 0)
    return runs[1] - runs[0]


def milliseconds(program, folder, name):
    """Processor time for all requests, opening left out."""
    taken = {}
    for script in ("none", "requests") * 9:
        before = resource.getrusage(resource.RUSAGE_CHILDREN)
        subprocess.run([program, "replay", folder / f"{name}.index", folder / script], stdout=subprocess.DEVNULL, check=True)
        after = resource.getrusage(resource.RUSAGE_CHILDREN)
        spent = after.ru_utime + after.ru_stime - before.ru_utime - before.ru_stime
        taken[script] = min(spent, taken.get(script, spent))
    return round(1_000 * (taken["requests"] - taken["none"]))


def main():
    program, size = sys.argv[1], int(sys.argv[2]) if len(sys.argv) > 2 else 300_000
    random.seed(9)
    lines = list(documents(size))
    requests = list(typed(lines))
    with tempfile.TemporaryDirectory() as made:
        folder = pathlib.Path(made)
        (folder / "none").write_text("")
        (folder / "requests").write_text("".join(f"q=year:{year}{'+' * bool(letters)}{letters}&f=year\n" for year, letters in requests))
        for name in ("in order", "in no order"):
            (folder / "collection").write_text("\n".join(lines) + "\n")
            subprocess.run([program, "build", folder / "collection", folder / f"{name}.index"], check=True)
            count(name, folder, lines, requests)
            for one in [program, *sys.argv[3:4]]:
                print(f"{name}: {one} takes {reads(one, folder, name)} reads and {milliseconds(one, folder, name)} ms")
            random.shuffle(lines)


if __name__ == "__main__":
    main()

#!/usr/bin/env python3
"""Times the commands that make and open index files, and requests of some kinds, and prints what was seen. Run it by hand:

    bench/commands.py PROGRAM COLLECTION [RUNS]

PROGRAM is crates/complete/out/complete, COLLECTION what examples/catalogue.py wrote. Of each of RUNS (5) runs the least wall time and the
least processor time count, and the greatest peak of memory. It builds the collection, imports the same records as a table and as lines of
JSON, builds both halves of its lines and merges them, upgrades, and opens; `import` and `merge` must make the file that `build` makes. Then
`replay` answers one request with 26 alternatives of a letter, the letter `a` alone, 8,000 lines that name eight facets which no document
has, and a script of typed words; that script once more under `ulimit -v` at some sizes, where lines that say want of memory are counted.
"""
import csv
import json
import os
import pathlib
import random
import resource
import string
import subprocess
import sys
import tempfile

MIB = 1 << 20
SIZES = 40, 48, 60, 80
SESSIONS, REQUESTS_OF_NAMES, NAMES = 100, 8000, 8
WANT = b'{"error":"memory"}'


def run(words, runs, limit=None):
    """The least wall and processor seconds, the greatest peak in MiB, and under a limit what was printed."""
    wall, processor, peak, out = [], [], 0, b""
    for _ in range(runs):
        with tempfile.TemporaryFile() as sink:
            room = (lambda: resource.setrlimit(resource.RLIMIT_AS, (limit, limit))) if limit else None
            begun = os.times().elapsed
            child = subprocess.Popen(words, stdout=sink, stderr=subprocess.DEVNULL, preexec_fn=room)
            _, _, used = os.wait4(child.pid, 0)
            child.returncode = 0
            wall.append(os.times().elapsed - begun)
            processor.append(used.ru_utime + used.ru_stime)
            peak = max(peak, used.ru_maxrss / 1024)
            if limit:
                sink.seek(0)
                out = sink.read()
    return min(wall), min(processor), peak, out


def shown(name, found):
    wall, processor, peak, _ = found
    print(f"| {name} | {processor:.3f} | {wall:.2f} | {peak:.0f} |", flush=True)


def typed(lines):
    """Words of some titles, one behind another, letter by letter."""
    dice, script = random.Random(7), []
    for number in range(SESSIONS):
        words = [word for word in dice.choice(lines).split("\t")[0].split() if word.isascii() and word.isalnum()]
        front = ""
        for word in words[:3]:
            script += [f"q={front}{word[:k]}" + ("&f=section,maintainer" if number % 2 else "") for k in range(1, len(word) + 1)]
            front += word + "+"
    return script


def prepare(collection):
    """Writes both halves of a collection, its records in other forms, and scripts, into the folder that it stands in."""
    lines = pathlib.Path(collection).read_bytes().decode().split("\n")[:-1]
    half = len(lines) // 2
    pathlib.Path("first").write_bytes("".join(line + "\n" for line in lines[:half]).encode())
    pathlib.Path("second").write_bytes("".join(line + "\n" for line in lines[half:]).encode())
    with open("table.csv", "w", encoding="utf-8", newline="") as table, open("lines.jsonl", "w", encoding="utf-8", newline="\n") as texts:
        rows = csv.writer(table, lineterminator="\n")
        rows.writerow(("title", "facets", "text"))
        for line in lines:
            fields = (line.split("\t") + ["", ""])[:3]
            rows.writerow(fields)
            texts.write(json.dumps(dict(zip(("title", "facets", "text"), fields)), ensure_ascii=False) + "\n")
    scripts = {
        "empty": [],
        "alternatives": ["q=" + "|".join(string.ascii_lowercase)],
        "letter": ["q=a"],
        "names": ["q=a&f=" + ",".join(f"n{i}x{k}" for k in range(NAMES)) for i in range(REQUESTS_OF_NAMES)],
        "typed": typed(lines),
    }
    for name, script in scripts.items():
        pathlib.Path(name).write_text("".join(line + "\n" for line in script))


def apart(call, *given):
    """Calls in a process of its own, whose memory counts for no run behind it."""
    child = os.fork()
    if child == 0:
        call(*given)
        os._exit(0)
    assert os.waitpid(child, 0)[1] == 0


def same(first, second):
    return subprocess.run(["cmp", "-s", first, second]).returncode == 0


def main():
    if len(sys.argv) not in (3, 4):
        sys.exit("usage: bench/commands.py PROGRAM COLLECTION [RUNS]")
    program, collection, runs = os.path.realpath(sys.argv[1]), os.path.realpath(sys.argv[2]), int(sys.argv[3]) if sys.argv[3:] else 5
    with tempfile.TemporaryDirectory() as folder:
        os.chdir(folder)
        apart(prepare, collection)
        print("| what | processor s | wall s | peak MiB |\n|---|---|---|---|")
        shown("`build`", run([program, "build", collection, "whole"], runs))
        for form, source in (("csv", "table.csv"), ("jsonl", "lines.jsonl")):
            shown(f"`import {form}`", run([program, "import", form, source, "same"], runs))
            assert same("same", "whole"), form
        for part in ("first", "second"):
            run([program, "build", part, part + ".index"], 1)
        shown("`merge` of two halves", run([program, "merge", "first.index", "second.index", "same"], runs))
        assert same("same", "whole"), "merge"
        shown("`upgrade`", run([program, "upgrade", "whole", "same"], runs))
        for name in ("empty", "alternatives", "letter", "names", "typed"):
            shown(f"`replay`: {name}", run([program, "replay", "whole", name], runs))
        asked = pathlib.Path("typed").read_text().count("\n")
        for size in SIZES:
            out = run([program, "replay", "whole", "typed"], 1, size * MIB)[3]
            put = out.split(b"\n")[:-1]
            print(f"{size} MiB of address space: {sum(WANT != line for line in put)} of {asked} answered")


main()

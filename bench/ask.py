#!/usr/bin/env python3
"""Times `complete ask` on keystrokes, by the arrival of each line. Run it by hand:

    bench/ask.py PROGRAM COLLECTION [FACETS]

PROGRAM is crates/complete/out/complete, COLLECTION what examples/catalogue.py wrote. 500 keystrokes are typed: words of
titles, letter by letter, one word and then a second one behind it. FACETS, as `section,priority`, are asked with each.
It prints the seconds until the first reply, which holds the reading of the collection, then the mean, the 95 % and the
greatest milliseconds of the further replies, and the peak memory.
"""
import random
import re
import resource
import subprocess
import sys
import tempfile
import time


def keystrokes(path, facets, count=500):
    """Parameter strings: two neighbouring title words, typed letter by letter."""
    random.seed(7)
    with open(path, encoding="utf-8") as file:
        titles = [line.split("\t")[0] for line in random.sample(file.readlines(), 400)]
    asked = f"&f={facets}" if facets else ""
    lines = []
    for title in titles:
        words = re.findall(r"[a-z0-9]+", title.lower())
        if len(words) < 3:
            continue
        first, second = words[1][:8], words[2][:8]
        typed = [first[: n + 1] for n in range(len(first))] + [f"{first}+{second[: n + 1]}" for n in range(len(second))]
        lines += [f"q={text}{asked}" for text in typed]
        if len(lines) >= count:
            return lines[:count]
    return lines


def main():
    if len(sys.argv) not in (3, 4):
        sys.exit("usage: bench/ask.py PROGRAM COLLECTION [FACETS]")
    program, collection = sys.argv[1:3]
    facets = sys.argv[3] if len(sys.argv) > 3 else ""
    lines = keystrokes(collection, facets)
    with tempfile.NamedTemporaryFile("w", suffix=".txt") as script:
        script.write("\n".join(lines) + "\n")
        script.flush()
        begun = time.perf_counter()
        child = subprocess.Popen([program, "ask", collection, script.name], stdout=subprocess.PIPE)
        times = [time.perf_counter() for _ in child.stdout]
        child.wait()
    steps = sorted((b - a) * 1000 for a, b in zip(times, times[1:]))
    usage = resource.getrusage(resource.RUSAGE_CHILDREN)
    print(
        f"{len(times)} replies, status {child.returncode}: ready in {times[0] - begun:.1f} s, then mean {sum(steps) / len(steps):.1f} ms,"
        f" 95 % {steps[len(steps) * 95 // 100]:.1f} ms, greatest {steps[-1]:.1f} ms; peak {usage.ru_maxrss // 1024} MiB;"
        f" processor {usage.ru_utime + usage.ru_stime:.1f} s"
    )


if __name__ == "__main__":
    main()

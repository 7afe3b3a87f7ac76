#!/usr/bin/env python3
"""Writes a script of the requests that read most: each letter, and the most frequent words of a collection, alone and in pairs.

    bench/frequent.py COLLECTION [FACETS [WORDS]] > SCRIPT

WORDS, 20 where it is left out, says how many words are taken; every second request asks FACETS, names joined by commas. The order of
pairs is drawn with a fixed seed, so a script is the same each time."""
import collections
import itertools
import random
import re
import string
import sys


def main():
    if len(sys.argv) not in (2, 3, 4) or not all(word.isdigit() for word in sys.argv[3:]):
        sys.exit("usage: bench/frequent.py COLLECTION [FACETS [WORDS]] > SCRIPT")
    facets = sys.argv[2] if len(sys.argv) > 2 else ""
    count = int(sys.argv[3]) if len(sys.argv) > 3 else 20
    seen = collections.Counter()
    with open(sys.argv[1], encoding="utf-8") as lines:
        for line in lines:
            title, _, rest = line.partition("\t")
            seen.update(re.findall(r"[a-z0-9]+", (title + " " + rest.partition("\t")[2]).lower()))
    words = [word for word, _ in seen.most_common(count)]
    alone = list(string.ascii_lowercase) + words
    pairs = list(itertools.permutations(words, 2)) + list(itertools.product(words, string.ascii_lowercase[::5]))
    random.Random(1).shuffle(pairs)
    for i, query in enumerate(alone + ["+".join(pair) for pair in pairs[:200]]):
        print("q=" + query + ("&f=" + facets if facets and i % 2 else ""))


main()

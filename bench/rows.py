#!/usr/bin/env python3
"""Writes the largest collection by documents that is accepted to standard output: 2^20 documents, of 16 rows or of nine.

    bench/rows.py > rows.tsv
    bench/rows.py facets > facets.tsv

A document has 3 title words, one of 256 values of the facet `kind`, and 12 text words: as many rows as are accepted. With `facets` it has
two and four words, and a value of each of three facets: `kind` of 256, `author` of 4,096, `year` of 64. Words are of two to four syllables, and
the k-th of about 600,000 comes about as often as one k-th of the first, as words do. The same bytes come out on each machine.
"""
import itertools
import random
import sys

DOCUMENTS, KINDS, AUTHORS, YEARS = 2**20, 256, 4096, 64
WORDS = 600_000
SYLLABLES = [first + second + third for first in "bdfgklmnprst" for second in "aeiou" for third in ("", "n", "r")]


def spelled():
    """Different words, short ones first."""
    for count in itertools.count(2):
        for syllables in itertools.product(SYLLABLES, repeat=count):
            yield "".join(syllables)


def main():
    if sys.argv[1:] not in ([], ["facets"]):
        sys.exit("usage: bench/rows.py [facets] > rows.tsv")
    title_words, text_words = (2, 4) if sys.argv[1:] else (3, 12)
    dice = random.Random(24)
    words = list(dict.fromkeys(itertools.islice(spelled(), 2 * WORDS)))[:WORDS]
    dice.shuffle(words)
    weights = list(itertools.accumulate(1 / (rank + 10) for rank in range(len(words))))
    for number in range(DOCUMENTS):
        drawn = dice.choices(words, cum_weights=weights, k=title_words + text_words)
        title, text = " ".join(drawn[:title_words]), " ".join(drawn[title_words:])
        more = f";author=a{dice.randrange(AUTHORS)};year=y{dice.randrange(YEARS)}" if sys.argv[1:] else ""
        sys.stdout.write(f"{title}\tkind=k{number % KINDS}{more}\t{text}\n")


main()

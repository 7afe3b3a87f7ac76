#!/usr/bin/env python3
"""Counts by which plans the requests of a script are answered, one after the other over one list of kept answers.

    plans.py COLLECTION SCRIPT

It prints the lines `same`, `narrow`, `extend` and `fresh`, each with a number, and `refused` for the lines that ask nothing,
by the definitions of the reference beside it. A large collection of plain prefixes is counted in a minute or two, since the
rows of a prefix are found by sorted words; all else is filtered there.
"""
import bisect
import collections
import sys

from answers import request_of, rows_of_part, script_lines
from basics import Refused
from documents import collection_of, corpus_of
from queries import Prefix, canonical, keys_of
from trials import EXTEND, FRESH, KEPT_SIZE, NARROW, SAME, keys_after, plan_of

BEHIND = "\U0010ffff"    # greater than each character of a word


class Counting:
    """How many rows of a part each document has, and so how large the entry of a query is."""

    def __init__(self, corpus):
        self.corpus = corpus
        self.docs_of = collections.defaultdict(list)
        for row in corpus.rows:
            self.docs_of[row.word].append(row.doc)
        self.words = sorted(self.docs_of)
        self.found = {}    # by canonical texts, since atoms of two kinds with one word are equal as tuples

    def once(self, text, made):
        """What was made under this text before, else what is made now."""
        if text not in self.found:
            self.found[text] = made()
        return self.found[text]

    def rows_by_document(self, part):
        """Each document that has rows of the part, with their number."""
        return self.once(("rows", canonical((part,))), lambda: self.counted(part))

    def counted(self, part):
        if len(part.chains) == 1 and len(part.chains[0]) == 1 and isinstance(part.chains[0][0].atom, Prefix):
            prefix = part.chains[0][0].atom.word
            words = self.words[bisect.bisect_left(self.words, prefix):bisect.bisect_left(self.words, prefix + BEHIND)]
            return collections.Counter(doc for word in words for doc in self.docs_of[word])
        return collections.Counter(row.doc for row in rows_of_part(self.corpus, part))

    def hits(self, query):
        """The documents with a row of every positive part and none of an excluded one."""
        return self.once(("hits", canonical(query)), lambda: self.filtered(query))

    def filtered(self, query):
        found = set(self.corpus.titles)
        for part in query:
            rows = self.rows_by_document(part).keys()
            found = found - rows if part.excluded else found & rows
        return found

    def fits(self, query):
        """Whether the entry of a query may be kept: its pairs, and the hits that it goes on from where it has such."""
        last_counts = query and not query[-1].excluded
        rows = self.rows_by_document(query[-1]) if last_counts else {}
        base = query[:-1] if last_counts else query
        size = sum(rows[doc] for doc in self.hits(query)) if last_counts else 0
        return size + (len(self.hits(base)) if base else 0) <= KEPT_SIZE


def main():
    collection, script = (open(name, "rb").read() for name in sys.argv[1:3])
    counting, kept, plans = Counting(corpus_of(collection_of(collection))), [], collections.Counter()
    for line in script_lines(script):
        try:
            query = request_of(line).query
        except Refused:
            plans["refused"] += 1
            continue
        keys = keys_of(query)
        plan, used = plan_of(kept, keys)
        kept = keys_after(kept, keys, used, counting.fits(query))
        plans[plan] += 1
    for plan in (SAME, NARROW, EXTEND, FRESH, "refused"):
        print(plan, plans[plan])


main()

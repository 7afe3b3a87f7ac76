"""Corpora that are joined or changed: two index files as one, and documents that come and go while queries are answered."""
import re
from collections import namedtuple

from answers import text_of
from basics import Ended, compact
from documents import DOCUMENTS, Corpus, document_of, rows_limit, rows_of
from index_files import Image

TITLES_BYTES = 2**32              # of an index file: so many or more have no place in it
ADD, DELETE = b"add ", b"del "


# ---- Joined ----
def joined(first, second):
    """The documents of the second corpus are numbered behind those of the first, rows likewise."""
    behind = len(first.titles)
    titles = {**first.titles, **{behind + number: title for number, title in second.titles.items()}}
    return Corpus(titles, first.rows | {row._replace(doc=behind + row.doc) for row in second.rows})


def merged(first, second):
    """What the index file of both holds. They have one target and the same weights, and meet the limits together."""
    if first.target != second.target:
        raise Ended(10, f"merge: targets {first.target} and {second.target} differ")
    if first.weights != second.weights:
        raise Ended(10, "merge: weights differ")
    both = joined(first.corpus, second.corpus)
    if len(both.titles) > DOCUMENTS:
        raise Ended(10, "merge: too many documents")
    if sum(len(title.encode()) for title in both.titles.values()) >= TITLES_BYTES:
        raise Ended(10, "merge: titles too large")
    if limit := rows_limit(both.rows):
        raise Ended(10, f"merge: too many {limit}")
    return Image(both, first.target, first.weights)


# ---- Changes ----
State = namedtuple("State", "corpus used rows changes")    # the corpus now; numbers that were used, and rows that ever were in it; how many changes


def added(state, weights, line):
    """The state behind an addition, and its answer. A number is used once."""
    if not line:
        return state, {"error": "change"}
    try:
        document = document_of(line)
    except ValueError as refusal:
        return state, {"error": "document", "rule": str(refusal)}
    rows = set(rows_of(state.used, document, weights))
    full = "documents" if state.used == DOCUMENTS else rows_limit(state.rows | rows)
    if full:
        return state, {"error": "full", "which": full.split()[-1]}
    corpus = Corpus({**state.corpus.titles, state.used: document.title}, state.corpus.rows | rows)
    return State(corpus, state.used + 1, state.rows | rows, state.changes + 1), {"doc": state.used, "state": state.changes + 1}


def deleted(state, digits):
    """The state behind a deletion, and its answer. Title and rows of the document go."""
    if not re.fullmatch(b"[0-9]{1,7}", digits):
        return state, {"error": "change"}
    if int(digits) not in state.corpus.titles:
        return state, {"error": "no document"}
    titles = {number: title for number, title in state.corpus.titles.items() if number != int(digits)}
    corpus = Corpus(titles, {row for row in state.corpus.rows if row.doc != int(digits)})
    return state._replace(corpus=corpus, changes=state.changes + 1), {"state": state.changes + 1}


def course(image, lines):
    """The texts that answer lines one after the other, over what an index file holds and the changes so far."""
    state = State(image.corpus, len(image.corpus.titles), image.corpus.rows, 0)
    for line in lines:
        if line.startswith(ADD):
            state, answer = added(state, image.weights, line.removeprefix(ADD))
            yield compact(answer)
        elif line.startswith(DELETE):
            state, answer = deleted(state, line.removeprefix(DELETE))
            yield compact(answer)
        else:
            yield text_of(state.corpus, line)

"""Excerpts: the shortest run of a document's text words that has a word of every part."""
from answers import reply_of, rows_of_part
from documents import text_position, words_of

EXCERPT_WORDS = 32


def served_places(corpus, part, number, document):
    """The places, from 0, of the text words of a document that a part has rows at."""
    first, places = text_position(document, 1), range(len(words_of(document.text)))
    return {row.pos - first for row in rows_of_part(corpus, part) if row.doc == number and row.pos - first in places}


def excerpt_of(corpus, query, number, document):
    """Of the runs that have a word of each positive part which the text serves, the shortest, and of these the first."""
    served = [places for part in query if not part.excluded if (places := served_places(corpus, part, number, document))]
    words = [f"[{word}]" if any(place in places for places in served) else word for place, word in enumerate(words_of(document.text))]
    runs = (range(first, first + length) for length in range(1, len(words) + 1) for first in range(len(words) - length + 1))
    covering = (run for run in runs if all(not places.isdisjoint(run) for places in served))
    return " ".join(words[place] for place in next(covering)[:EXCERPT_WORDS]) if served else ""


def excerpts_from(documents):
    """A reply in which each hit that is shown has its excerpt."""
    def reply(corpus, request):
        replied = reply_of(corpus, request)
        for hit in replied["hits"]:
            hit["excerpt"] = excerpt_of(corpus, request.query, hit["doc"], documents[hit["doc"]])
        return replied
    return reply

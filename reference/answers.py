"""Answers to queries over a corpus, requests, and the texts of replies."""
import re
from collections import namedtuple

from basics import Ended, Refused, compact, lines_of, text_or_none
from documents import is_name, norm
from queries import NO_LINK, PHRASE, Exact, Linked, Part, Prefix, judge_query, query_of, shown

REACH = 8                         # positions that nearness spans
SHOWN, LEFT_OUT, FACETS_ASKED, SHOWN_UNASKED = 100, 10_000, 8, 10
SCRIPT_LINE_BYTES = 4096

# ---- Answers ----
def rows_of_atom(corpus, atom):
    if isinstance(atom, Prefix):
        return {row for row in corpus.rows if row.word.startswith(atom.word)}
    if isinstance(atom, Exact):
        return {row for row in corpus.rows if row.word == atom.word}
    inside = hits(corpus, atom.query)
    shared = {row.word for row in corpus.rows if row.doc in inside}
    return {row for row in corpus.rows if row.word.startswith(f":{atom.name}:") and row.word in shared}


def rows_of_link(before, link, rows):
    """The rows that a row before them leads to. Facet words have no position, so none leads to or from them."""
    places = {(row.doc, row.pos) for row in before if row.pos >= 1}
    steps = [-1] if link == PHRASE else [step for step in range(-REACH, REACH + 1) if step]
    return {row for row in rows if row.pos >= 1 and any((row.doc, row.pos + step) in places for step in steps)}


def rows_of_part(corpus, part):
    """The rows of the alternatives together; the links of each are read from the left."""
    united = set()
    for chain in part.chains:
        rows = rows_of_atom(corpus, chain[0].atom)
        for linked in chain[1:]:
            rows = rows_of_link(rows, linked.link, rows_of_atom(corpus, linked.atom))
        united |= rows
    return united


def hits(corpus, query):
    """The documents with a row of every positive part and none of an excluded one, each with its score."""
    found = {doc: 0 for doc in corpus.titles}
    for part in query:
        best = {}
        for row in rows_of_part(corpus, part):
            best[row.doc] = max(best.get(row.doc, 0), row.score)
        if part.excluded:
            found = {doc: score for doc, score in found.items() if doc not in best}
        else:
            found = {doc: score + best[doc] for doc, score in found.items() if doc in best}
    return found


def pairs(corpus, query):
    """The rows of the last part in hits; none where it is excluded, or where there is no part."""
    found = hits(corpus, query)
    return {row for row in rows_of_part(corpus, query[-1]) if row.doc in found} if query and not query[-1].excluded else set()


def ranked(corpus, query):
    """Hits and scores, the greatest score first, then by document."""
    return sorted(hits(corpus, query).items(), key=lambda hit: (-hit[1], hit[0]))


def table(corpus, query):
    """The words of the pairs with their numbers of documents, the greatest number first, then by bytes."""
    documents = {}
    for row in pairs(corpus, query):
        documents.setdefault(row.word, set()).add(row.doc)
    return sorted(((word, len(docs)) for word, docs in documents.items()), key=lambda entry: (-entry[1], entry[0]))


def facet_table(corpus, query, name):
    """The table of the query with one more part, which asks all values of the facet."""
    return table(corpus, (*query, Part(False, ((Linked(NO_LINK, Prefix(f":{name}:")),),))))


# ---- Parameters ----
Request = namedtuple("Request", "query hits completions offset facets")


def decoded(text):
    """A name or a value of a form (URL Standard, section 5); what isn't UTF-8 is read as U+FFFD."""
    plain = re.sub(rb"%([0-9A-Fa-f]{2})", lambda found: bytes.fromhex(found[1].decode()), text.replace(b"+", b" "))
    return plain.decode(errors="replace")


def parameters_of(text):
    """The parameters by name. The first of a name counts, and nothing between two `&` is none."""
    parameters = {}
    for name, _, value in (piece.partition(b"=") for piece in text.split(b"&") if piece):
        parameters.setdefault(decoded(name), decoded(value))
    return parameters


def number_of(parameters, name, default, greatest):
    """The number that a parameter gives."""
    value = parameters.get(name, str(default))
    if not re.fullmatch("[0-9]{1,5}", value) or int(value) > greatest:
        raise Refused({"error": "param", "param": name})
    return int(value)


def request_of(text):
    """What a string of parameters asks; they are judged in the order h, c, o, f, q."""
    parameters = parameters_of(text)
    shown_hits = number_of(parameters, "h", SHOWN_UNASKED, SHOWN)
    completions = number_of(parameters, "c", SHOWN_UNASKED, SHOWN)
    offset = number_of(parameters, "o", 0, LEFT_OUT)
    facets = {name for name in parameters.get("f", "").split(",") if name}
    if not all(map(is_name, facets)) or len(facets) > FACETS_ASKED:
        raise Refused({"error": "param", "param": "f"})
    key_text = norm(parameters.get("q", ""))
    judge_query(key_text)
    return Request(query_of(key_text), shown_hits, completions, offset, sorted(facets))


# ---- Replies ----
def entries(words, request):
    """A table as it is shown."""
    return [{"docs": docs, "word": shown(word)} for word, docs in words[:request.completions]]


def reply_of(corpus, request):
    """The reply: each list is ordered whole, counted, then cut."""
    found, words = ranked(corpus, request.query), table(corpus, request.query)
    return {
        "completions": entries(words, request),
        "facets": {name: entries(facet_table(corpus, request.query, name), request) for name in request.facets},
        "hits": [{"doc": doc, "score": score, "title": corpus.titles[doc]} for doc, score in found[request.offset:][:request.hits]],
        "total": {"completions": len(words), "hits": len(found)},
    }


def text_of(corpus, parameters, reply=reply_of):
    """The text that answers a string of parameters: the reply, or the first refusal."""
    try:
        return compact(reply(corpus, request_of(parameters)))
    except Refused as refusal:
        return compact(refusal.args[0])


# ---- Scripts ----
def script_lines(script):
    """The lines of a script that have bytes. One that can't be read ends the run where it is met."""
    for number, line in enumerate(lines_of(script), 1):
        if len(line) > SCRIPT_LINE_BYTES or text_or_none(line) is None:
            raise Ended(8, f"script: line {number}: " + ("too long" if len(line) > SCRIPT_LINE_BYTES else "not UTF-8"))
        if line:
            yield line

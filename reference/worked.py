"""The worked rows of pages, computed by the reference: what `docs/QUERY.md` says of its three documents, the reply in `README.md`, and the
files of `docs/INDEX_FILE.md` with what is damaged in them.

A row whose text is in words, as "121 letters", isn't computed.
"""
import json
import pathlib
import re
import unicodedata

from answers import Request, reply_of, text_of
from basics import Ended, Refused
from documents import collection_of, corpus_of, norm
from index_files import FIRST, SECOND, image_of, index_bytes, open_index
from pages import QUOTED, table_rows
from queries import canonical, judge_query, keys_of, query_of

QUERY, README, INDEX_FILE = pathlib.Path("docs/QUERY.md"), pathlib.Path("README.md"), pathlib.Path("docs/INDEX_FILE.md")
DOCUMENTS = pathlib.Path("crates/complete/data/C")
EMPTY = "the empty text"
FENCE = re.compile(r"^```(\w*)\n(.*?)^```", re.M | re.S)


def texts_in(cell):
    """The texts that a cell has in backticks, and the empty one where it is named; None where it says more."""
    texts = [text.replace("\\|", "|") for text in QUOTED.findall(cell)] + [""] * (EMPTY in cell)
    left = QUOTED.sub("", cell).replace(EMPTY, "")
    return texts if re.fullmatch(r"(?:,|and|\s)*", left) else None


def numbered(entries):
    """A table as pages write it."""
    return ", ".join(f"`{entry['word']}` {entry['docs']}" for entry in entries) or "none"


def answer(corpus, text, facets=()):
    """Hits, completions and facets of a query as a page writes them, or its refusal."""
    try:
        key_text = norm(text)
        judge_query(key_text)
    except Refused as refusal:
        return [f"`{json.dumps(refusal.args[0], separators=(',', ':'))}`", "", ""]
    reply = reply_of(corpus, Request(query_of(key_text), 10, 10, 0, sorted(facets)))
    hits = ", ".join(f"{hit['doc']} with {hit['score']}" for hit in reply["hits"]) or "none"
    return [hits, numbered(reply["completions"]), "; ".join(f"`{name}`: {numbered(entries)}" for name, entries in reply["facets"].items())]


def refusal_of(text):
    """The refusal of a text in the words of the table; none where it is accepted."""
    try:
        judge_query(norm(text))
    except Refused as refusal:
        fault = refusal.args[0]
        return f"{fault['error']} at {fault['at']}" + (f", `{fault['which'].capitalize()}`" if "which" in fault else "")
    return "accepted"


def composed(text):
    """A page may write a letter and its accent as one character, where a key text has two."""
    return unicodedata.normalize("NFC", text)


def narrow_of(text):
    """The keys of a query as a page writes them: shorter prefixes with the bytes that are left of each, and the key of what is extended."""
    keys = keys_of(query_of(norm(text)))
    whole = len(keys.same.encode())
    last = shortest_prefix(keys.same)
    narrow = ", ".join(f"`{key}` ({last - whole + len(key.encode())})" for key in keys.narrow) or "none"
    return [composed(narrow), "none" if keys.extend is None else f"`{keys.extend}`"]


def shortest_prefix(key):
    """How many bytes the last prefix of a canonical text has; a facet's has its leading colon too."""
    word = re.split(r"[ .|]", key)[-1]
    return len(word.encode()) + (":" in word)


def judge(row, corpus):
    """Pairs of what a row says and what the reference does; none where the row is none of these tables or is in words."""
    if {"query", "hits", "completions", "why"} <= set(row) and (texts := texts_in(row["query"])):
        yield from (([row["hits"], row["completions"]], answer(corpus, text)[:2]) for text in texts)
    elif {"query and facets", "facets"} <= set(row):
        text, *facets = QUOTED.findall(row["query and facets"])
        yield [row["hits"], row["completions"], row["facets"]], answer(corpus, text, facets)
    elif set(row) == {"text", "answer"} and (texts := texts_in(row["text"])):
        yield from ((row["answer"].partition(":")[0], refusal_of(text)) for text in texts)
    elif set(row) == {"text", "canonical text"} and (texts := texts_in(row["text"])):
        yield from ((texts_in(row["canonical text"]), [canonical(query_of(norm(text)))]) for text in texts)
    elif {"query", "`narrow`", "`extend`"} <= set(row):
        for text in texts_in(row["query"].partition(",")[0] if "characters" in row["query"] else row["query"]):
            yield [composed(row["`narrow`"]), row["`extend`"]], narrow_of(text)


def rows():
    corpus = corpus_of(collection_of(DOCUMENTS.read_bytes()))
    computed = 0
    for number, row in table_rows(QUERY.read_text(encoding="utf-8")):
        for said, right in judge(row, corpus):
            computed += 1
            if said != right:
                yield f"{QUERY}:{number}", f"it says {said}, and the reference {right}"
    if computed < 40:
        yield str(QUERY), f"only {computed} worked rows were found: the tables have other heads than reference/worked.py knows"
    yield from readme()
    yield from index_files()


def readme():
    """The reply of `q=typ` over the collection in front of it, each of which is one line that may be broken."""
    text = README.read_text(encoding="utf-8")
    blocks = {kind: body for kind, body in reversed(FENCE.findall(text))}
    shown = "".join(line.strip() for line in blocks.get("json", "").splitlines())
    corpus = corpus_of(collection_of(blocks.get("text", "").replace(" → ", "\t").encode()))
    if shown != text_of(corpus, b"q=typ"):
        yield str(README), f"the reply to q=typ is {text_of(corpus, b'q=typ')}"


# ---- Index files ----
DUMPED = re.compile(r"^ *(\d+)((?: +[0-9A-F]{2}\b)+)", re.M)      # a line of a hexdump: a place, and the bytes from there on


def dumped(dump):
    """The bytes of a hexdump, each line of which names the place of its first byte."""
    data = b""
    for place, line in DUMPED.findall(dump):
        if int(place) != len(data):
            return None
        data += bytes.fromhex(line)
    return data


def damage_of(data):
    """The first broken rule and its place as a page writes them."""
    try:
        open_index(data)
    except Ended as end:
        return end.args[1].removeprefix("index: rule ")
    return "none"


def index_files():
    """The hexdumps of the files, and the tables of the two with a document, of which one byte is set."""
    text = INDEX_FILE.read_text(encoding="utf-8")
    worked = {version: index_bytes(image_of(b"Ab\tk=C\tb a"), version) for version in (SECOND, FIRST)}
    dumps = [dumped(body) for kind, body in FENCE.findall(text) if kind == "hexdump"]
    if dumps != [index_bytes(image_of(b"")), *worked.values()]:
        yield str(INDEX_FILE), "a hexdump isn't the file that the reference makes"
    computed = 0
    for number, row in table_rows(text):
        for version, name in ((SECOND, "in version 2"), (FIRST, "in version 1")):
            if said := row.get(f"{name}: the first broken rule, and where"):
                place, byte = int(row["place"]), bytes.fromhex(row["set to"].strip("`"))
                right = damage_of(worked[version][:place] + byte + worked[version][place + 1:])
                computed += 1
                if said.partition(":")[0] != right:
                    yield f"{INDEX_FILE}:{number}", f"it says {said}, and the reference {right}"
    if computed < 20:
        yield str(INDEX_FILE), f"only {computed} damaged files were found"

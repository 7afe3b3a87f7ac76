"""The language of queries: tokens, the grammar, refusals and their places, canonical texts and keys."""
import functools
import re
from collections import namedtuple

from basics import Refused
from documents import WORD_BYTES, is_name, is_word_character

QUERY_BYTES, PARTS, ATOMS, DEPTH = 1024, 16, 32, 3

# ---- Tokens ----
Token = namedtuple("Token", "kind text")
WORD, RUN, VALUE, GAP, START = "word", "run", "value", "gap", "start"    # each sign is a kind of its own
SHAPES = re.compile(r"(?P<word>w+)|(?P<run>[-._']+)|(?P<gap> +)|(?P<sign>[$|\[\]])|:(?P<value>[-_'w]*)")


@functools.cache
def shape_of(character):
    return "w" if is_word_character(character) else character if character in "$|:[].-_'" else " "


def tokens_of(text):
    """The tokens of a key text. Behind each `:` stands a value, which may be empty."""
    tokens = []
    for found in SHAPES.finditer("".join(map(shape_of, text))):
        kind = found.lastgroup
        if kind == "value":
            tokens.append(Token(":", ":"))
        piece = text[found.start(kind):found.end(kind)]
        tokens.append(Token(piece if kind == "sign" else kind, piece))
    return tokens


# ---- The grammar ----
Prefix, Exact, Join = namedtuple("Prefix", "word"), namedtuple("Exact", "word"), namedtuple("Join", "name query")
Part = namedtuple("Part", "excluded chains")     # a query is a tuple of parts
Linked = namedtuple("Linked", "link atom")       # a chain is a tuple of them, the first with no link
NO_LINK, PHRASE, NEAR = "", ".", ".."


def kind_at(tokens, place):
    return tokens[place].kind if 0 <= place < len(tokens) else START


def link_at(tokens, place):
    """The link that the token is; none where it separates."""
    if kind_at(tokens, place) != RUN or kind_at(tokens, place + 1) != WORD or kind_at(tokens, place - 1) not in (WORD, "$", "]"):
        return NO_LINK
    run = tokens[place].text
    return PHRASE if len(run) == 1 else NEAR if run == ".." else NO_LINK


def excludes(tokens, place):
    """Whether the token is the dash before an excluded part, whose first word stands behind it."""
    return kind_at(tokens, place) == RUN and tokens[place].text == "-" and kind_at(tokens, place - 1) in (START, GAP, "[")


def read_atom(tokens, place):
    """The atom that begins with this word, and the place behind it."""
    word, behind = tokens[place].text, kind_at(tokens, place + 1)
    if behind == "[":
        query, place = read_query(tokens, place + 2)
        return Join(word, query), place + 1
    if behind == ":":
        place += 2
        word = f":{word}:" + re.sub("[-']", "_", tokens[place].text)
    return (Exact(word), place + 2) if kind_at(tokens, place + 1) == "$" else (Prefix(word), place + 1)


def read_chain(tokens, place):
    atom, place = read_atom(tokens, place)
    chain = [Linked(NO_LINK, atom)]
    while link := link_at(tokens, place):
        atom, place = read_atom(tokens, place + 1)
        chain.append(Linked(link, atom))
    return tuple(chain), place


def read_part(tokens, place):
    """The alternatives from this word on. A bar with nothing behind it is dropped."""
    chain, place = read_chain(tokens, place)
    if kind_at(tokens, place) == "|" and kind_at(tokens, place + 1) == WORD:
        chains, place = read_part(tokens, place + 1)
        return (chain, *chains), place
    return (chain,), place + (kind_at(tokens, place) == "|")


def read_query(tokens, place):
    """The parts up to a closing bracket or the end, and that place. What is neither part nor bracket separates."""
    parts = []
    while place < len(tokens) and tokens[place].kind != "]":
        if tokens[place].kind == WORD:
            excluded = excludes(tokens, place - 1)
            chains, place = read_part(tokens, place)
            parts.append(Part(excluded, chains))
        else:
            place += 1
    return tuple(parts), place


def query_of(text):
    """The query that an accepted key text means; brackets that are open at its end are closed there."""
    return read_query(tokens_of(text), 0)[0]


def atoms_of(query):
    """All atoms of a query, those within joins too."""
    for part in query:
        for chain in part.chains:
            for linked in chain:
                yield linked.atom
                if isinstance(linked.atom, Join):
                    yield from atoms_of(linked.atom.query)


# ---- Refusals of a query ----
def is_bad(tokens):
    """Whether the grammar refuses the last character, by the tokens of the text up to it."""
    *earlier, last = tokens[:-1] if tokens[-1] == Token(VALUE, "") else tokens    # an empty value was opened by the colon before it
    before = earlier[-1] if earlier else Token(START, "")
    if last.kind == "$":
        return not (before.kind == WORD or before.kind == VALUE and before.text)
    if last.kind in (":", "["):
        return not (before.kind == WORD and is_name(before.text))
    if last.kind == "]":
        return open_brackets(earlier) == 0
    if last.kind == "|":
        return before.kind not in (WORD, VALUE, "$", "]")
    return before.kind in {WORD: ("$", "]"), GAP: ("|",), RUN: ("|",), VALUE: ()}[last.kind]


def open_brackets(tokens):
    kinds = [token.kind for token in tokens]
    return kinds.count("[") - kinds.count("]")


def limit_passed(text, tokens):
    """The first limit that a text passes whose last character the grammar accepts."""
    query, word = read_query(tokens, 0)[0], tokens[-1].text if tokens[-1].kind in (WORD, VALUE) else ""
    atoms = list(atoms_of(query))
    parts = len(query) + sum(len(atom.query) for atom in atoms if isinstance(atom, Join))
    counted = [("query", len(text.encode()) + open_brackets(tokens), QUERY_BYTES), ("word", len(word.encode()), WORD_BYTES),
               ("parts", parts, PARTS), ("atoms", len(atoms), ATOMS), ("depth", open_brackets(tokens), DEPTH)]
    return next((limit for limit, count, most in counted if count > most), None)


def judge_query(text):
    """Each character of a key text is judged by the text up to and with it; the first that is refused refuses the text."""
    for end in range(1, len(text) + 1):
        tokens, place = tokens_of(text[:end]), len(text[:end - 1].encode())
        if is_bad(tokens):
            raise Refused({"at": place, "error": "bad"})
        if limit := limit_passed(text[:end], tokens):
            raise Refused({"at": place, "error": "limit", "which": limit})


# ---- Canonical texts and keys ----
Keys = namedtuple("Keys", "same narrow extend")


def canonical_chain(chain):
    text = ""
    for link, atom in chain:
        written = f"{atom.name}[{canonical(atom.query)}]" if isinstance(atom, Join) else shown(atom.word)
        text += link + written + ("$" if isinstance(atom, Exact) else "")
    return text


def canonical(query):
    """The one text in which a query is written, which is its key."""
    return " ".join(("-" if part.excluded else "") + "|".join(map(canonical_chain, part.chains)) for part in query)


def shown(word):
    """A word as it is shown and written: a facet's without its leading colon."""
    return word.removeprefix(":")


def keys_of(query):
    """The keys of a query, of those whose last prefix is shorter, the longest first, and of that without the last part.

    A canonical text ends with its last prefix, so that with a shorter one is the same without its last characters.
    """
    same, last = canonical(query), query[-1].chains[-1][-1].atom if query else None
    shorter = 0
    if isinstance(last, Prefix) and not query[-1].excluded and len(query[-1].chains) == 1:
        shorter = len(last.word.split(":")[2]) if last.word.startswith(":") else len(last.word) - 1
    return Keys(same, [same[:-dropped] for dropped in range(1, shorter + 1)], canonical(query[:-1]) if len(query) > 1 else None)

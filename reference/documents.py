"""Words, collections, and the rows of their documents."""
import functools
import re
import unicodedata
from collections import namedtuple

from basics import Ended, lines_of, text_or_none
from features import HAS

WORD_BYTES, NAME_BYTES = 120, 16  # a word, a slug, a word or value of a query; a facet's name
COLLECTION_BYTES, LINE_BYTES = 2**28, 2**20    # a line without its ending, and so a title
DOCUMENTS, DOCUMENT_WORDS, ROWS, WORDS = 2**20, 100_000, 2**24, 2**22
GAP_OF_COLUMNS = 8                # positions left free between title and text

# ---- Key text, words, slugs ----
def norm(text):
    """The key text: canonical decomposition of the case folding of the canonical decomposition."""
    return unicodedata.normalize("NFD", unicodedata.normalize("NFD", text).casefold())


@functools.cache
def is_word_character(character):
    """Below U+0080 ASCII letters and digits; else letters, marks and numbers."""
    if character < "\x80":
        return character.isalnum()
    return unicodedata.category(character)[0] in "LMN"


def cut(text):
    """The longest prefix of whole characters that a word may have."""
    return text.encode()[:WORD_BYTES].decode(errors="ignore")


def words_of(text):
    """The maximal runs of word characters of the key text, each cut."""
    return [cut(word) for word in "".join(c if is_word_character(c) else " " for c in norm(text)).split(" ") if word]


def slug(value):
    """The words of a facet's value in one; empty where it has none."""
    return cut("_".join(words_of(value)))


def is_name(text):
    """The form of a facet's name."""
    return len(text) <= NAME_BYTES and re.fullmatch("[a-z][a-z0-9]*", text) is not None


# ---- Collections ----
Weights = namedtuple("Weights", "title facet text")              # what a row counts for by the column of its word
Document = namedtuple("Document", "title facets text")           # the columns as they stand
Collection = namedtuple("Collection", "weights documents")
USUAL, GREATEST_WEIGHT = Weights(4, 2, 1), 255


def is_weights_line(number, line):
    """Whether this line gives the weights, in whatever form; then it is no document."""
    return "weights" in HAS and number == 1 and (line == b"#weights" or line.startswith(b"#weights "))


def line_text(line):
    """The text of a line; what isn't one is refused."""
    text = text_or_none(line)
    if text is None or len(line) > LINE_BYTES:
        raise ValueError("not UTF-8" if text is None else "line too long")
    return text


def weights_of(line):
    """The weights of a weights line; another form is refused."""
    found = re.fullmatch("#weights title=([0-9]{1,3}) facet=([0-9]{1,3}) text=([0-9]{1,3})", line_text(line))
    weights = Weights(*map(int, found.groups())) if found else ()
    if not found or not all(1 <= weight <= GREATEST_WEIGHT for weight in weights):
        raise ValueError("bad weights")
    return weights


def facet_words(facets):
    """The words `:name:slug` of a facets column; a piece that is no facet is refused."""
    words = []
    for piece in filter(None, (piece.strip(" ") for piece in facets.split(";"))):
        name, equals, value = piece.partition("=")
        name = norm(name.rstrip(" "))
        if not equals or not is_name(name):
            raise ValueError("bad facet name" if equals else "bad facet")
        words += [f":{name}:{slug(value)}"] if slug(value) else []
    return words


def document_of(line):
    """The document of a line that has bytes; a line that breaks a rule is refused by the first that it breaks."""
    document = Document(*(line_text(line).split("\t", 2) + ["", ""])[:3])
    if len(words_of(document.title)) + len(words_of(document.text)) > DOCUMENT_WORDS:
        raise ValueError("too many words")
    facet_words(document.facets)
    return document


def collection_of(data):
    """Weights and documents, one for each other line that has bytes; the least line that breaks a rule is refused."""
    if len(data) > COLLECTION_BYTES:
        raise Ended(3, "collection: too large")
    weights, documents = USUAL, []
    for number, line in enumerate(lines_of(data), 1):
        try:
            if is_weights_line(number, line):
                weights = weights_of(line)
            elif line:
                documents.append(document_of(line))
        except ValueError as refusal:
            raise Ended(3, f"collection: line {number}: {refusal}") from None
        if len(documents) > DOCUMENTS:
            raise Ended(3, f"collection: line {number}: too many documents")
    return Collection(weights, documents)


# ---- Rows and corpus ----
Row = namedtuple("Row", "doc pos word score")    # in this order rows ascend; texts compare as their bytes in UTF-8 do
Corpus = namedtuple("Corpus", "titles rows")     # titles by document number; the set of rows


def text_position(document, place):
    """The position of the text word at a place, from 1."""
    return len(words_of(document.title)) + GAP_OF_COLUMNS + place


def rows_of(number, document, weights):
    """The rows of one document."""
    yield from (Row(number, pos, word, weights.title) for pos, word in enumerate(words_of(document.title), 1))
    yield from (Row(number, pos, word, weights.text) for pos, word in enumerate(words_of(document.text), text_position(document, 1)))
    yield from (Row(number, 0, word, weights.facet) for word in facet_words(document.facets))


def corpus_of(collection):
    """Titles and rows of a collection."""
    weights, documents = collection
    rows = {row for number, document in enumerate(documents) for row in rows_of(number, document, weights)}
    if limit := rows_limit(rows):
        raise Ended(3, f"collection: too many {limit}")
    return Corpus({number: document.title for number, document in enumerate(documents)}, rows)


def rows_limit(rows):
    """The first limit that is passed by rows together."""
    return "rows" if len(rows) > ROWS else "distinct words" if len({row.word for row in rows}) > WORDS else None

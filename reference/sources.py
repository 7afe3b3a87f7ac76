"""Sources of other forms, CSV (RFC 4180) and lines of JSON (RFC 8259), as collections.

The translation is a collection with a weights line in front, and what is refused in it is refused in the source.
"""
import json
import math
import re
from collections import namedtuple

from basics import MARK, Ended, lines_of, text_or_none
from documents import COLLECTION_BYTES, collection_of, corpus_of
from index_files import TARGET, Image

NESTED = 127                      # levels of arrays and objects in one another
WEIGHTS_LINE = b"#weights title=4 facet=2 text=1\n"
FLAT = bytes.maketrans(b"\t\n\r", b"   ")
COLUMNS = (b"title", b"facets", b"text")
Translation = namedtuple("Translation", "data bad")     # a collection up to the first bad line; its number and what is wrong, if there is one


def translated(title, facets, text):
    """The line of a document, with a space for each tab, LF and CR in its columns."""
    return b"\t".join(column.translate(FLAT) for column in (title, facets, text)) + b"\n"


# ---- Records of CSV ----
LINE_ENDS = re.compile(rb"[\r\n]*")
FIELD = re.compile(rb'(?:"((?:[^"]|"")*)(?:"|\Z))?([^,\r\n]*)')


def record_at(data, place):
    """The fields of the record that begins here, and the place of what ends it: a CR, an LF, or the end of the source.

    A field that begins with a quote goes on to the next single one, a pair standing for one quote, or to the end of the source.
    What follows up to a comma or the end of the record belongs to it as it stands, quotes too, as in a field without them.
    """
    fields = []
    while True:
        found = FIELD.match(data, place)
        fields.append((found[1] or b"").replace(b'""', b'"') + found[2])
        place = found.end() + 1
        if data[found.end():place] != b",":
            return fields, found.end()


def records_of(data):
    """The records; a line without bytes is none."""
    data, place, records = data.removeprefix(MARK), 0, []
    while (place := LINE_ENDS.match(data, place).end()) < len(data):
        record, place = record_at(data, place)
        records.append(record)
    return records


def translation_of_csv(data):
    """The first record is the header: `title` once, `facets` and `text` at most once, in either case; other columns don't count."""
    records, lines = records_of(data), [WEIGHTS_LINE]
    if not records:
        return Translation(WEIGHTS_LINE, None)
    names = [name.lower() for name in records[0]]
    title, facets, text = map(names.count, COLUMNS)
    if title != 1 or facets > 1 or text > 1:
        return Translation(WEIGHTS_LINE, (1, "bad header"))
    for record in records[1:]:
        columns = dict(zip(names, record))       # a record may have fewer fields than names, and more
        lines.append(translated(*(columns.get(name, b"") for name in COLUMNS)))
    return Translation(b"".join(lines), None)


# ---- Lines of JSON ----
Members = namedtuple("Members", "pairs")         # an object, each pair of a key and a value as it stands


def finite(digits):
    """A number, in whatever form, is one where a double holds it."""
    if not math.isfinite(float(digits)):
        raise ValueError(digits)
    return float(digits)


def no_constant(name):
    raise ValueError(name)


def is_sound(value, levels=NESTED):
    """Whether arrays and objects nest within the limit, and no text has half a pair of surrogates."""
    if isinstance(value, str):
        return not re.search("[\ud800-\udfff]", value)
    if not isinstance(value, (list, Members)):
        return True
    inside = value if isinstance(value, list) else [part for pair in value.pairs for part in pair]
    return levels > 0 and all(is_sound(part, levels - 1) for part in inside)


def value_of(line):
    """The value of a line; a line that has none is refused."""
    try:
        value = json.loads(line.decode(), object_pairs_hook=Members, parse_int=finite, parse_float=finite, parse_constant=no_constant)
    except (ValueError, RecursionError):         # what isn't UTF-8 has a ValueError too
        raise ValueError("not JSON") from None
    if not is_sound(value):
        raise ValueError("not JSON")
    return value


def column_of(value):
    """The column that a value gives, a list only that of facets."""
    if value is None:
        return b""
    if not isinstance(value, str):
        raise ValueError("bad field")
    return value.encode()


def translated_line(line):
    """The line of the collection for a line of JSON; of equal keys the last counts."""
    if not line:
        return b"\n"
    value = value_of(line)
    if not isinstance(value, Members):
        raise ValueError("bad field")
    members = dict(value.pairs)
    facets = members.get("facets")
    if isinstance(facets, list):
        if not all(isinstance(facet, str) for facet in facets):
            raise ValueError("bad field")
        facets = ";".join(facets)
    return translated(column_of(members.get("title")), column_of(facets), column_of(members.get("text")))


def translation_of_jsonl(data):
    """Each line is an object, or has no bytes and is no document."""
    lines = [WEIGHTS_LINE]
    for number, line in enumerate(lines_of(data), 1):
        try:
            lines.append(translated_line(line))
        except ValueError as refusal:
            return Translation(b"".join(lines), (number, refusal))
    return Translation(b"".join(lines), None)


# ---- Sources ----
TRANSLATIONS = {"csv": translation_of_csv, "jsonl": translation_of_jsonl}


def line_before(words):
    """Words on a line of the translation as words on the line before it."""
    return re.sub("line ([0-9]+)", lambda found: f"line {int(found[1]) - 1}", words)


def image_of_source(form, data):
    """What the index file of a source holds. Refusals name the number of a record, which is its line in the translation, or of a line."""
    if len(data) > COLLECTION_BYTES:
        raise Ended(3, "collection: too large")
    translation = TRANSLATIONS[form](data)
    try:
        collection = collection_of(translation.data)
    except Ended as end:
        raise Ended(3, end.args[1] if form == "csv" else line_before(end.args[1])) from None
    if translation.bad:
        raise Ended(3, "collection: line {}: {}".format(*translation.bad))
    return Image(corpus_of(collection), TARGET, collection.weights)

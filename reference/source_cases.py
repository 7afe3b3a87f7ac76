"""Random sources for `import`: records of CSV and lines of JSON, and texts that are near them."""
from basics import MARK
from cases import column, facet, lines
from documents import COLLECTION_BYTES
from sources import WEIGHTS_LINE

# ---- CSV ----

OTHER_NAMES = ["year", "", "title ", " text", "titles", "tıtle", "facetſ", "ﬅitle", "id", "id", "Te\nxt", 'te"xt', "facet"]
BREAKS = ['"', '""', ",", "\n", "\r", "\r\n", "\t", " ", ";", '"\n', '",', ',"', '"x', "x\""]


def cased(dice, name):
    return dice.choice([name, name, name.upper(), name.title(), name[:1].upper() + name[1:-1] + name[-1:].upper()])


def header(dice):
    """The names of columns; most often each that counts is there once."""
    names = ["title", *(name for name in ("facets", "text") if dice.random() < 0.8), *dice.choices(OTHER_NAMES, k=dice.choice([0, 0, 1, 2]))]
    if dice.random() < 0.06:
        names.append(dice.choice(["title", "facets", "text"]))
    if dice.random() < 0.03:
        names.remove("title")
    dice.shuffle(names)
    return [cased(dice, name) for name in names]


def value(dice, world, name):
    """What a column has; at times with signs of CSV within."""
    if name.lower() == "facets":
        made = ";".join(facet(dice, world) for _ in range(dice.choice([0, 1, 1, 2])))
    else:
        made = column(dice, world, dice.choice([1, 5, 12])) if dice.random() < 0.97 else "#weights title=9 facet=9 text=9"
    while dice.random() < 0.15:
        place = dice.randint(0, len(made))
        made = made[:place] + dice.choice(BREAKS) + made[place:]
    return made


def field(dice, text):
    """A field in one of the ways to write it, which a reader may read otherwise."""
    quoted = '"' + text.replace('"', '""') + '"'
    plain = quoted if any(sign in text for sign in '",\r\n') else text
    return dice.choices([plain, quoted, text, '"' + text + '"', quoted + dice.choice(["x", " ", 'a"b', '"'])], [50, 30, 3, 2, 4])[0]


def csv_source(dice, world):
    names = header(dice)
    columns = names if dice.random() < 0.95 else [*names, "more", "more"]
    records = [names] + [[value(dice, world, name) for name in columns] for _ in range(dice.choice([0, 1, 2, 4, 8]))]
    records = [record[:dice.randint(0, len(record))] if dice.random() < 0.06 else record for record in records]
    end, made = dice.choice(["\n", "\n", "\r\n", "\r"]), ""
    for record in records:
        made += ",".join(field(dice, text) for text in record) + (end if dice.random() < 0.9 else dice.choice(["\n\n", "\r\n\r\n", "\n\r", "\r\r", " \n", "\n \n", ",\n", "\n,\n", '\n""\n']))
    if dice.random() < 0.3:
        made = made.removesuffix(end)
    for _ in range(dice.choice([0, 0, 0, 1, 2])):
        place = dice.randint(0, len(made))
        made = made[:place] + dice.choice([*BREAKS, "", "", "é"]) + made[place + dice.randint(0, 2):]
    data = MARK * dice.choices([0, 1, 2], [90, 8, 2])[0] + dice.choices(["", "\n", "\r\n\n", " "], [94, 2, 2, 2])[0].encode() + made.encode()
    return broken(dice, data) if dice.random() < 0.02 else data


def broken(dice, data):
    """Bytes that aren't UTF-8 among these."""
    place = dice.randint(0, len(data))
    return data[:place] + dice.choice([b"\xff", b"\xc3", b"\xed\xa0\x80", b"\x80"]) + data[place:]


# ---- JSON ----

NUMERALS = ["0", "-0", "1", "-1", "12", "1.5", "1e5", "1E+5", "1e-400", "-1e-400", "0e99999999999", "0.0e400", "18446744073709551616", "-9223372036854775809", "1e308", "9" * 308, "9" * 309, "9" * 310,
            "1" + "0" * 308, "1" + "0" * 309, "1.7976931348623157e308", "1.7976931348623158e308", "1.7976931348623159e308", "-1.7976931348623159e308", "1e309", "-1e400", "1e99999999999",
            "0" * 2, "01", "-01", "1.", "1.e1", ".5", "-", "+1", "1e", "1e+", "0x1", "1_0", "NaN", "Infinity", "-Infinity", "nan", "1" * 5000, "1." + "0" * 5000]
LITERALS = ["true", "false", "null", "True", "nul", "nulll", "truefalse", "None", "undefined", "'a'", "", "tru e"]
ESCAPES = ["\\n", "\\t", "\\r", "\\b", "\\f", "\\/", "\\\\", "\\\"", "\\u0000", "\\u000a", "\\u0009", "\\u00e9", "\\u00E9", "\\ud83d\\ude00", "\\uD83D\\uDE00", "\\ud835\\udd04", "\\u2028", "\\ufeff", "\\u000d"]
HOSTILE_ESCAPES = ["\\ud83d", "\\ude00", "\\ud83d\\ud83d\\ude00", "\\ude00\\ud83d", "\\ud83dx", "\\ud83d\\n", "\\ud83d\\u0041", "\\u12", "\\u12g4", "\\u 123", "\\u+123", "\\x41", "\\a", "\\'", "\\U0041", "\\", "\\ud83d\\uDE0",
                   "\\u-123", "\\u1_23", "\\ud83d\\\\ude00", "\\udbff\\udfff", "\\ud800\\udc00", "\\udc00", "\\udbff"]
LEVELS = [1, 2, 3, 60, 63, 64, 124, 125, 126, 127, 128, 200, 1200]


def string(dice, text):
    """A string of JSON, each character in one of its ways; at times with what no string has."""
    made = ""
    raw = dice.random()
    for c in text:
        if c in '"\\' or c < " ":
            made += f"\\u{ord(c):04x}" if dice.random() < 0.5 or c not in '"\\' else "\\" + c
        elif dice.random() < raw / 4:
            code = c.encode("utf-16-be").hex()
            made += "".join("\\u" + (code[place:place + 4].upper() if dice.random() < 0.5 else code[place:place + 4]) for place in range(0, len(code), 4))
        else:
            made += c
    if dice.random() < 0.12:
        place = dice.choice([0, len(made)])
        made = made[:place] + dice.choice(ESCAPES) + made[place:]
    if dice.random() < 0.015:
        made += dice.choice([*HOSTILE_ESCAPES, "\x00", "\x01", "\x1f", "\x7f", "\x80", "\t", '"', "\ufeff"])
    return f'"{made}"'


def spaced(dice):
    return dice.choices(["", " ", "  ", "\t", "\r", " \t "], [90, 6, 1, 1, 1, 1])[0] if dice.random() < 0.995 else dice.choice(["\f", "\v", "\u00a0", "\ufeff", "\0", "/**/", ","])


def array(dice, items):
    return "[" + spaced(dice) + (spaced(dice) + "," + spaced(dice)).join(items) + spaced(dice) + "]"


def members(dice, pairs):
    return "{" + spaced(dice) + (spaced(dice) + "," + spaced(dice)).join(f"{key}{spaced(dice)}:{spaced(dice)}{text}" for key, text in pairs) + spaced(dice) + "}"


def nested(dice):
    """Arrays and objects in one another."""
    kinds = dice.choices(dice.choice(["[", "{", "[{"]), k=dice.choice(LEVELS))
    return "".join('{"a":' if kind == "{" else "[" for kind in kinds) + "1" + "".join("}" if kind == "{" else "]" for kind in reversed(kinds))


def anything(dice, world):
    """A value of any kind, most often a sound one."""
    shape = dice.choices(["string", "number", "literal", "list", "object", "nested"], [5, 5, 3, 2, 2, 2])[0]
    if shape == "string":
        return string(dice, column(dice, world, 2))
    if shape == "number":
        return dice.choice(NUMERALS[:18] if dice.random() < 0.8 else NUMERALS)
    if shape == "literal":
        return dice.choice(LITERALS[:3] if dice.random() < 0.95 else LITERALS)
    if shape == "nested":
        return nested(dice)
    inside = [anything(dice, world) for _ in range(dice.choice([0, 1, 2]))]
    return array(dice, inside) if shape == "list" else members(dice, [(string(dice, dice.choice(["a", "title", ""])), text) for text in inside])


def column_value(dice, world, name):
    """What stands for a column: most often a string, of facets a list too."""
    shape = dice.choices(["string", "null", "list", "other"], [70, 6, 30 if name == "facets" else 0.3, 0.7])[0]
    if shape == "null":
        return "null"
    if shape == "other":
        return anything(dice, world)
    if shape == "list":
        items = [string(dice, facet(dice, world)) for _ in range(dice.choice([0, 1, 2, 3]))]
        if dice.random() < 0.01:
            items.append(dice.choice(["null", "1", "[]", '["k=v"]', "{}"]))
        return array(dice, items)
    made = ";".join(facet(dice, world) for _ in range(dice.choice([0, 1, 2]))) if name == "facets" else column(dice, world, dice.choice([1, 5, 12]))
    return string(dice, made)


def object_line(dice, world):
    names = [name for name in ("title", "facets", "text") if dice.random() < 0.8]
    names += [dice.choice(["title", "facets", "text"])] * (dice.random() < 0.06)
    pairs = [(string(dice, name) if dice.random() < 0.1 else f'"{name}"', column_value(dice, world, name)) for name in names]
    for _ in range(dice.choice([0, 0, 0, 1, 2])):
        pairs.append((string(dice, dice.choice(["a", "Title", "year", "title ", ""])), anything(dice, world)))
    dice.shuffle(pairs)
    return spaced(dice) + members(dice, pairs) + spaced(dice)


def json_line(dice, world):
    shape = dice.choices(["object", "near", "empty", "value", "raw"], [92, 3, 6, 1, 1])[0]
    if shape == "empty":
        return ""
    if shape == "value":
        return anything(dice, world)
    if shape == "raw":
        return dice.choice([" ", "\t", "{", "}", "{}", "[]", "{} {}", "{}x", "\ufeff{}", '{"a":1,}', '{"a"}', "{1:2}", '{"a":1 "b":2}', "[1,]", "null", '{"title":"a"', "{,}", '{"a"::1}', "\ufeff", "#weights"])
    made = object_line(dice, world)
    if shape == "near":
        place = dice.randint(0, len(made))
        made = made[:place] + dice.choice(['"', "{", "}", "[", "]", ",", ":", "\\", "", "", "1", " ", "\x01"]) + made[place + dice.randint(0, 2):]
    return made.replace("\n", " ")


def jsonl_source(dice, world):
    data = lines(dice, [json_line(dice, world).encode() for _ in range(dice.choice([0, 1, 2, 3, 5]))])
    return broken(dice, data) if dice.random() < 0.02 else data


# ---- At limits ----

def limit_sources():
    """Sources as large as they may be and a byte above, and such as grow too large by what their translation adds."""
    most = COLLECTION_BYTES - len(WEIGHTS_LINE) - len(b"\t\t\n")
    for more in (0, 1):
        yield "csv", b"\n" * (COLLECTION_BYTES + more)
        yield "csv", b"title\n" + b"a" * (most + more)
        yield "jsonl", b" " * (COLLECTION_BYTES + more)
        yield "jsonl", b'{"title":"' + b"a" * (most + more) + b'"}'

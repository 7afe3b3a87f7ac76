"""Random texts, collections, queries and scripts.

Random texts keep to characters that Unicode 3.2 has, and to some later ones by name. Each table since then has them, and
folding and decomposition of a character that has a meaning are never changed. So a number is the same case whatever Python
runs it.
"""
import contextlib
import unicodedata

from answers import SCRIPT_LINE_BYTES
from basics import MARK, Ended
from documents import NAME_BYTES, WORD_BYTES, collection_of, corpus_of, norm
from index_files import TARGET
from queries import ATOMS, DEPTH, PARTS, QUERY_BYTES

# ---- Random texts ----

SIGNS = "$|:[].-_'"
FRIENDLY = "aaabbbcd"
ASCII = "efghxyzABCXYZ0123456789"
FOREIGN = ("éÉüÜñåÅßẞİıſσςΣΐᾳάǰŉﬁﬃ٣①Ⅷ²각가ㄱ豈が゙漢Ωℳ" "\u1100\u1161\u11a8\u0301\u0323\u0308\u0345\u0344\u2126\u212a\u212b"
           "\u0958\u0f77\u1fb7\u13a0\uab70\u10d0\u1c90\U00010400\U0001d15e\U0002f800\U0001e900\U0001f600")
OTHERS = " \u00a0\u2003\u037e\u2260\u00ad\u200d\ufeff\ufffd\u0000\u001b\u007f\u0085\u2028\"\\,;=&+%#/<>@^`{}~!?()*\r"
OLD = [c for c in map(chr, range(0x80, 0x110000)) if unicodedata.ucd_3_2_0.category(c) not in ("Cn", "Cs", "Co")]


def character(dice):
    kinds = [FRIENDLY, ASCII, FOREIGN, OTHERS, SIGNS, OLD]
    return dice.choice(dice.choices(kinds, [60, 12, 12, 4, 6, 3])[0])


def text(dice, most):
    return "".join(character(dice) for _ in range(dice.randint(0, most)))


def word(dice):
    """A short word over few letters, so that words begin alike; at times one at the limit."""
    if dice.random() < 0.04:
        letter = dice.choice("aé漢\U00010400")
        bytes_each = len(norm(letter).encode())
        return letter * (dice.randint(115, 125) // bytes_each) + "a" * dice.randint(0, 6)
    letters = dice.choices([FRIENDLY, ASCII, FOREIGN], [70, 10, 20], k=dice.randint(1, 5))
    return "".join(map(dice.choice, letters))


SPACED = [f"b{number}" for number in range(30)]     # words a known number of positions apart


class World:
    """The words and names that a case is made of."""

    def __init__(self, dice):
        self.spaced = 0.2 * (dice.random() < 0.15)
        self.words = [word(dice) for _ in range(dice.choice([1, 2, 4, 8, 25]))]
        self.names = [dice.choice(["k", "ks", "author", "y2", "z" * 16, "a"]) for _ in range(2)]


TARGETS_TRIED = [1, 2, 5, TARGET, TARGET]

# ---- Random collections ----

def column(dice, world, most):
    gaps = [" ", "  ", "-", ".", "_", ", ", "'", "\u00a0", "/"]
    pieces = []
    for _ in range(dice.randint(0, most)):
        pieces += [dice.choice(world.words) if dice.random() < 0.95 else text(dice, 6), dice.choices(gaps, [9] + [1] * 8)[0]]
    return "".join(pieces[:-1] if dice.random() < 0.9 else pieces)


def facet(dice, world):
    name = dice.choice(world.names)
    folded = name.replace("k", "\u212a").replace("s", "\u017f")
    name = dice.choices([name, name.upper(), folded, f" {name} ", "z" * 17, "1a", "", text(dice, 4)], [300, 20, 10, 20, 1, 1, 1, 2])[0]
    value = column(dice, world, 3) if dice.random() < 0.97 else dice.choice(["", "--", "=", "x" * 119 + "é", "a=b"])
    return f"{name}={value}" if dice.random() < 0.995 else name


def collection_line(dice, world):
    if dice.random() < world.spaced:
        return "\t".join([" ".join(SPACED[:dice.randint(0, 3)]), "", " ".join(SPACED[dice.randint(3, 8):])]).encode()
    facets = ";".join(facet(dice, world).replace(";", "") for _ in range(dice.choice([0, 0, 1, 1, 2, 3])))
    if dice.random() < 0.1:
        facets = f" ;{facets} ; ;"
    columns = [column(dice, world, 5), facets, column(dice, world, dice.choice([8, 8, 30]))]
    line = "\t".join(columns[:dice.choices([1, 2, 3], [2, 2, 6])[0]])
    if dice.random() < 0.02:
        line += "\t" + text(dice, 5)
    return line.replace("\n", " ").encode()


def lines(dice, made):
    """Lines with endings of any kind, some without bytes between, at times behind a byte order mark."""
    data = MARK * dice.choices([0, 1, 2], [90, 9, 1])[0]
    for line in made:
        data += line + dice.choices([b"\n", b"\r\n", b"\n\n", b"\r\r\n", b"\n\r\n"], [80, 8, 4, 2, 2])[0]
    return data.removesuffix(b"\n") if dice.random() < 0.3 else data


WEIGHTS = ["1", "2", "3", "4", "9", "16", "254", "255", "01", "007"]
HOSTILE_WEIGHTS = ["0", "000", "256", "999", "0001", "0255", "", "+1", "-1", "1 ", "١", "a", "1.0"]


def weights_line(dice):
    """A line that gives weights; at times one of another form, or one that only begins like it."""
    given = [dice.choice(WEIGHTS) for _ in range(3)] if dice.random() < 0.9 else ["4", "2", "1"]
    shape = dice.choices(["", "number", "signs", "bytes"], [80, 6, 12, 2])[0]
    if shape == "number":
        given[dice.randrange(3)] = dice.choice(HOSTILE_WEIGHTS)
    made = "#weights title={} facet={} text={}".format(*given)
    if shape == "signs":
        made = dice.choice([made[:8], made[:9], made[:-2], made + " ", made.replace(" ", "  ", 1), made.replace(" ", "\t", 1), made.replace("title", "Title"), " " + made,
                            made.replace("s", "", 1), made + "\tk=v", made + " x=1", "#weightsx", "#weights\ta", "#WEIGHTS", "#" + made, made.replace("=", "", 1)])
    return made.encode() + b"\xff" * (shape == "bytes")


def collection(dice, world, most=10):
    made = [collection_line(dice, world) for _ in range(dice.randint(0, most))]
    if dice.random() < 0.2:
        made.insert(dice.choices([0, len(made) // 2], [9, 1])[0], weights_line(dice))
    if made and dice.random() < 0.01:
        made[dice.randrange(len(made))] += dice.choice([b"\xff", b"\xc3", b"\xed\xa0\x80", b"\xf4\x90\x80\x80"])
    return lines(dice, made)


def accepted(dice, world, most=10):
    """A random collection that isn't refused."""
    while True:
        data = collection(dice, world, most)
        with contextlib.suppress(Ended):
            corpus_of(collection_of(data))
            return data


# ---- Random queries ----

def prefix(dice, world):
    whole = dice.choice(world.words)
    return whole[:dice.randint(1, len(whole))] if dice.random() < 0.6 else whole


def atom(dice, world, joins):
    shape = dice.choices(["word", "facet", "join"], [70, 20, 25 if joins else 0])[0]
    if shape == "word":
        made = prefix(dice, world)
    elif shape == "facet":
        value = dice.choice("-_'").join(prefix(dice, world) for _ in range(dice.choice([0, 1, 1, 2, 3])))
        made = f"{dice.choice(world.names)}:{value}"
    else:
        return f"{dice.choice(world.names)}[{query(dice, world, joins - 1)}{dice.choice([']'] * 9 + [''])}"
    return made + "$" * (dice.random() < 0.2)


def spaced_chain(dice):
    first, apart = dice.randrange(30), dice.choice([1, 2, 7, 8, 9])
    words = [SPACED[first], SPACED[(first + dice.choice([-1, 1]) * apart) % 30]]
    return dice.choice(["$..", "$..", "$."]).join(words) + "$"


def chain(dice, world, joins):
    if dice.random() < world.spaced:
        return spaced_chain(dice)
    made = atom(dice, world, joins)
    while dice.random() < 0.25:
        made += dice.choice([".", "-", "_", "'", "..", "..", "...", ".-"]) + atom(dice, world, joins)
    return made


def part(dice, world, joins):
    made = "-" * (dice.random() < 0.15) + chain(dice, world, joins)
    while dice.random() < 0.2:
        made += "|" + chain(dice, world, joins)
    return made + "|" * (dice.random() < 0.05)


def query(dice, world, joins):
    gaps = [" ", "  ", ", ", " . ", "/", " - ", "\ufffd", "-- "]
    made = ""
    for number in range(dice.choices([0, 1, 2, 3, 4], [1, 8, 8, 3, 1])[0]):
        made += (dice.choices(gaps, [16] + [1] * 7)[0] if number else "") + part(dice, world, joins)
    return made


def at_limits(dice):
    """A query a little below or above one of the limits."""
    more = dice.randint(-1, 2)
    return dice.choice([
        "a" * (WORD_BYTES + more), "k:" + "é" * 39 + "a" * (2 + more), " ".join("a" * (PARTS + more)),
        " -".join("a" * (PARTS + more)) + " -", "|".join("a" * (ATOMS + more)), "k[" * (DEPTH + more),
        ("k[a " + "b " * (PARTS - 2 + more) + "c"), "a." * (ATOMS - 1 + more) + "k:v", " " * (QUERY_BYTES + more),
        "k[" + " " * (QUERY_BYTES - 3 + more) + "]", "a" + " " * (QUERY_BYTES - 1 + more) + "|", "é " * 256 + " " * more,
        "k" * (NAME_BYTES + more) + ":", "k" * (NAME_BYTES + more) + "[", "k[k[k[a]]" + "]" * (1 + more),
        " ".join(["k[k[a b]"] * 4 + ["a"] * (4 + more)), "|".join(["k[k[a b]]"] * 8 + ["a"] * more),
    ])


def asked(dice, world, joins):
    """The text of a query: of the grammar, near it, of signs alone, or anything."""
    shape = dice.choices(["grammar", "near", "signs", "limits", "any"], [56, 25, 8, 3, 8])[0]
    if shape == "limits":
        return at_limits(dice)
    if shape == "any":
        return text(dice, 12)
    if shape == "signs":
        return "".join(dice.choice(SIGNS + "ak1é -") for _ in range(dice.randint(1, 12)))
    made = query(dice, world, joins)
    for _ in range(dice.randint(1, 3) if shape == "near" else 0):
        place = dice.randint(0, len(made))
        made = made[:place] + dice.choice([*SIGNS, " ", "", character(dice)]) + made[place + dice.randint(0, 1):]
    return made


# ---- Random parameters and scripts ----

def encoded(dice, value):
    """A value as a form writes it, each character in one of its ways; at times as it stands."""
    made = ""
    raw = dice.random()
    for c in value:
        if c == " " and dice.random() < 0.6:
            made += "+"
        elif c in "&%+\n\r" or dice.random() < raw / 2:
            made += "".join(dice.choice([f"%{byte:02X}", f"%{byte:02x}"]) for byte in c.encode())
        else:
            made += c
    return made


NUMBERS = ["0", "1", "2", "3", "10", "99", "100", "101", "00003", "000003", "", "-1", "+1", "%2B1", "1.0", "0x1", "١", "%31", "9999", "10000",
           "10001", "99999", "100000", " 1", "1 ", "a"]
BROKEN = ["%", "%4", "%zz", "%C3%28", "%ff", "%ED%A0%80", "%F0%9F%98", "%c3", "=", "a=b", "+", "%00", "%E2%80"]


def facets_asked(dice, world):
    names = [dice.choice([*world.names, *world.names, "zzz", "a1", ""]) for _ in range(dice.randint(0, 3))]
    if dice.random() < 0.1:
        names.append(dice.choice(["Author", "z" * 17, "1", "a b", "é", "%61", "a%2Cb", "%C3", "k:"]))
    if dice.random() < 0.03:
        names += [f"n{number}" for number in range(dice.randint(6, 9))]
    return ",".join(names)


def parameters(dice, world, joins=0):
    made = []
    if dice.random() < 0.97:
        made.append(dice.choices(["q", "%71", "Q"], [97, 2, 1])[0] + "=" + encoded(dice, asked(dice, world, joins)))
    for name in "hco":
        if dice.random() < 0.2:
            value = dice.choice(NUMBERS[:7]) if dice.random() < 0.8 else dice.choice(NUMBERS)
            made.append(f"{name}={value}" if dice.random() < 0.98 else name)
    if dice.random() < 0.3:
        made.append(f"f={facets_asked(dice, world)}")
    if dice.random() < 0.08:
        made.append(dice.choice(["q=", "q", "h=1", "x=y", "", "=", "&", "q=%80", "f", "c=2", "%68=1"]))
    if dice.random() < 0.1:
        dice.shuffle(made)
    whole = "&".join(made)
    if dice.random() < 0.06:
        place = dice.randint(0, len(whole))
        whole = whole[:place] + dice.choice(BROKEN) + whole[place:]
    return whole.replace("\n", "").encode()


def script(dice, world, joins=0):
    made = [parameters(dice, world, joins) for _ in range(dice.randint(1, 20))]
    if dice.random() < 0.03:
        length = SCRIPT_LINE_BYTES + dice.randint(-2, 3)
        made.insert(dice.randint(0, len(made)), b"q=a&x=" + b"b" * (length - 6))
    if dice.random() < 0.02:
        made.insert(dice.randint(0, len(made)), b"q=a" + dice.choice([b"\xff", b"\xc3", b"\xe2\x82"]))
    return lines(dice, made)


# ---- Random scripts with changes ----

def change(dice, world, documents):
    """An addition or a deletion, or a line that is near one."""
    shape = dice.choices(["add", "delete", "near"], [5, 4, 2])[0]
    if shape == "add":
        return b"add " + collection_line(dice, world)[:SCRIPT_LINE_BYTES - 4]
    if shape == "delete":
        number = dice.randint(0, documents + 3)
        return f"del {number:0{dice.choice([1, 1, 1, 2, 7])}}".encode()
    return dice.choice([b"add", b"add ", b"add \t", b"add \r", b"add  ", b"add #weights title=1 facet=1 text=1", b"add #weights", b" add a", b"ADD a", b"addx", b"add\ta",
                        b"add a\t=", b"add a\tk", b"add a\tK=;k=b;x", b"add a\tk=;1=a", b"add \xef\xbb\xbfa", b"add a\tk=a;k=a\tb\tc", b"del", b"del ", b"del 00000000", b"del 0000000",
                        b"del +0", b"del -1", b"del 0 ", b"del  0", b"del 0\r", b"del \xd9\xa1", b"del 9999999", b"del 1048576", b"del 0x0", b"del 1&q=a", b"DEL 0", b"delta"])


def changing_script(dice, world, documents):
    """A script over an index file of so many documents, with as many changes as questions; some questions come again."""
    made, asked_before = [], []
    for _ in range(dice.randint(1, 20)):
        if dice.random() < 0.5:
            made.append(change(dice, world, documents))
            documents += made[-1].startswith(b"add ")
        elif asked_before and dice.random() < 0.4:
            made.append(dice.choice(asked_before))
        else:
            made.append(parameters(dice, world, dice.choice([0, 0, 2])) if dice.random() < 0.8 else b"q=&h=100")
            asked_before.append(made[-1])
    if dice.random() < 0.03:
        made.insert(dice.randint(0, len(made)), dice.choice([b"add a\xff", b"add " + b"b " * 2047, b"add " + b"b " * 2046, b"add a" + b" b" * 2046]))
    return lines(dice, made)

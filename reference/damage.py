"""Index files with something changed, in each of their parts; and files with each of their bytes changed in turn."""
import contextlib
import struct

from basics import Ended
from index_files import ENTRY_BYTES, FIRST, HEADER_BYTES, ROW_BYTES, SECOND, TARGET, File, image_of, index_bytes


def with_number(data, place, number):
    return data[:place] + (number % 2**32).to_bytes(4, "big") + data[place + 4:]


def number_at(data, place):
    return int.from_bytes(data[place:place + 4], "big")


HOSTILE_FIELDS = [bytes([0, 4, 2, 1]), bytes([0, 4, 2, 2]), bytes([0, 0, 2, 1]), bytes([0, 4, 0, 1]), bytes([0, 4, 2, 0]), bytes([1, 9, 3, 2]), bytes([0, 255, 255, 255]),
                  bytes([0, 1, 1, 1]), bytes([255, 0, 0, 0]), bytes([0, 0, 0, 1])]


def damaged_version(dice, data, file):
    """The other version's first bytes; at times the directory has that version's entries then, with bounds that may be wrong."""
    other = SECOND if file.version == FIRST else FIRST
    directory = data[file.directory_at:file.blocks_at]
    if dice.random() < 0.7:
        entries = [directory[place:place + 16] for place in range(0, len(directory), file.entry_bytes)]
        bounds = [dice.choice([0, 0, 1, file.documents - 1]) for _ in range(2)]
        directory = b"".join(entry + struct.pack(">2I", *bounds) * (other == SECOND) for entry in entries)
    magic = dice.choices([other, b"HYBIDX3\n", b"HYBIDX0\n", b"HYBIDX2\r", b"HYBIDY1\n"], [8, 1, 1, 1, 1])[0]
    return magic + data[8:file.directory_at] + directory + data[file.blocks_at:]


def damaged_header(dice, data, file):
    shape = dice.choices(["target", "weights", "number"], [3, 2, 5])[0]
    if shape == "target":
        data = with_number(data, 24, dice.randint(1, 12))
        return damaged_bound(dice, data, file) if file.version == SECOND and file.blocks and dice.random() < 0.5 else data
    if shape == "weights":
        return data[:40] + dice.choice([*HOSTILE_FIELDS, bytes([0, *(dice.choice([1, 2, 4, 9]) for _ in range(3))])]) + data[44:]
    place = 8 + 4 * dice.randrange(9)
    numbers = [number_at(data, place) + dice.choice([-1, 1]), 0, *(2**power + more for power in (20, 22, 24) for more in (0, 1))]
    return with_number(data, place, dice.choice(numbers))


def damaged_bound(dice, data, file):
    """The least or the greatest document of an entry is another one."""
    place = file.directory_at + file.entry_bytes * dice.randrange(file.blocks) + dice.choice([16, 20])
    return with_number(data, place, dice.choice([number_at(data, place) + dice.choice([-1, 1]), 0, file.documents - 1, file.documents]))


HOSTILE_WORDS = ["", "a", "A", "é", "a_b", "a b", ":", "::a", ":k:", ":k:_", ":k:a:b", ":K:a", ":1:a", "k:a", ":k:a-b", ":" + "z" * 17 + ":a", "a" * 120, "a" * 121,
                 ":k:" + "a" * 120, ":k:" + "a" * 121, ":k:b", ":ks:a", "9"]


def damaged_words(dice, data, file):
    """A word in place of another, with all lengths put right."""
    place, places = HEADER_BYTES, []
    while place < file.offsets_at:
        places.append(place)
        place += 1 + data[place]
    place = dice.choice(places)
    end = place + 1 + data[place]
    other = dice.choice(places)
    word = dice.choice([dice.choice(HOSTILE_WORDS).encode(), data[other + 1:other + 1 + data[other]], data[place + 1:end] + b"\xff", data[place + 2:end]])
    return with_number(data[:place] + bytes([len(word) % 256]) + word + data[end:], 28, file.offsets_at - HEADER_BYTES + len(word) + 1 - (end - place))


def damaged_offsets(dice, data, file):
    place = file.offsets_at + 4 * dice.randint(0, file.documents)
    return with_number(data, place, number_at(data, place) + dice.choice([-2, -1, 1, 2, 2**20, 2**31]))


def damaged_directory(dice, data, file):
    """A number of an entry, or a boundary between two blocks, by one."""
    entry = file.directory_at + file.entry_bytes * dice.randrange(file.blocks)
    step = dice.choice([-1, 1])
    if dice.random() < 0.5:
        place = entry + 4 * dice.randrange(file.entry_bytes // 4)
        return with_number(data, place, dice.choice([number_at(data, place) + step, 0]))
    following = entry + file.entry_bytes
    if following < file.blocks_at:
        field = dice.choice([4, 8, 12])
        data = with_number(with_number(data, entry + field, number_at(data, entry + field) + step), following + field, number_at(data, following + field) - step)
        if field == 4:
            data = with_number(data, following, number_at(data, following) + step)
    return data


HOSTILE_GAPS = [b"\x80\x01", b"\x80\x80\x00", b"\x01\x01", b"\x80", b"\xff\xff\xff\xff\x0f", b"\xff\xff\xff\xff\x10", b"\x80\x80\x80\x80\x00",
                b"\x80\x80\x80\x80\x80", b"\x80\x80\x80\x80\x80\x01", b"\0" * 6]


def damaged_block(dice, data, file):
    """A value in one of the columns of a block, or a byte more among its gaps, with all sizes put right."""
    entries = range(file.directory_at, file.blocks_at, file.entry_bytes)
    number = dice.randrange(file.blocks)
    rows, size = number_at(data, entries[number] + 8), number_at(data, entries[number] + 12)
    begin = file.blocks_at + sum(number_at(data, entry + 12) for entry in entries[:number])
    words_at, row = begin + size - ROW_BYTES * rows, dice.randrange(rows)
    column = dice.choice(["gap", "longer", "word", "position", "score", "row"])
    if column == "longer":
        place = dice.randrange(begin, words_at)
        code = dice.choice([bytes([data[place] | 128, 0]), *HOSTILE_GAPS])
        data = data[:place] + code + data[place + 1:]
        return with_number(with_number(data, entries[number] + 12, size + len(code) - 1), 36, file.block_bytes + len(code) - 1)
    if column == "gap":
        place = dice.randrange(begin, words_at)
        return data[:place] + bytes([dice.choice([0, 1, data[place] + 1, 127, 128, 255]) % 256]) + data[place + 1:]
    if column == "word":
        place = words_at + 2 * row
        return data[:place] + ((int.from_bytes(data[place:place + 2], "big") + dice.choice([-1, 1])) % 2**16).to_bytes(2, "big") + data[place + 2:]
    if column == "position":
        place = words_at + 2 * rows + 4 * row
        return with_number(data, place, dice.choice([0, 1, 100_008, 100_009, number_at(data, place) + dice.choice([-1, 1])]))
    if column == "score":
        return data[:words_at + 6 * rows + row] + bytes([dice.choice([0, 1, 2, 3, 4, 5, *file.weights])]) + data[words_at + 6 * rows + row + 1:]
    other = dice.randrange(rows)                 # word, position and score of another row
    for at, width in ((words_at, 2), (words_at + 2 * rows, 4), (words_at + 6 * rows, 1)):
        data = data[:at + width * row] + data[at + width * other:][:width] + data[at + width * (row + 1):]
    return data


def damaged_bytes(dice, data, _file):
    """A byte changed, left out or added, or the end cut off."""
    place = dice.randrange(len(data))
    byte = bytes([dice.choice([0, 1, 4, 0x20, 0x3A, 0x7F, 0x80, 0xFF, dice.randrange(256), (data[place] + 1) % 256, (data[place] - 1) % 256])])
    return dice.choices([data[:place] + byte + data[place + 1:], data[:place], data[:place] + data[place + 1:], data[:place] + byte + data[place:]], [12, 1, 1, 1])[0]


def damaged(dice, data):
    """An index file damaged once, or a few times as long as its parts can be told."""
    for _ in range(dice.choice([1, 1, 1, 2, 3])):
        try:
            file = File(data)
        except Ended:
            return data
        hows = [damaged_header, damaged_version, damaged_offsets, damaged_bytes, damaged_bytes] + [damaged_words, damaged_directory, damaged_block, damaged_block] * (file.blocks > 0)
        hows += [damaged_bound] * (file.blocks > 0 and file.version == SECOND)
        with contextlib.suppress(IndexError, ValueError):    # the parts no longer tell where they lie
            data = dice.choice(hows)(dice, data, file)
    return data


# ---- Each byte in turn ----

WRITTEN_OVER = [0x00, 0x01, 0x7F, 0x80, 0xFF]
# One document; three, in four blocks; and two among many without words, so that a gap code has two bytes, in blocks of few rows.
WHOLE = [
    (b"Ab\tk=C\tb a", TARGET),
    (b"Type less find more\tauthor=Bast;author=Weber;year=2006\tautocompletion search with a succinct index\n"
     b"The CompleteSearch engine\tauthor=Bast;year=2007\ttype ahead search and faceted search\n"
     b"Typed lambda calculi\tauthor=Church;year=1940\ttypes\n", 20),
    ("#weights title=9 facet=3 text=128\né è\tk=a;k=b\ta b\n".encode() + b"\t\n" * 129 + "b\tk=aω;y=1\tb\n".encode(), 2),
]


def written_over():
    """Three index files in each version, with each byte set to each of some values."""
    for data, target in WHOLE:
        for version in ENTRY_BYTES:
            whole = index_bytes(image_of(data)._replace(target=target), version)
            for place, old in enumerate(whole):
                yield from (whole[:place] + bytes([byte]) + whole[place + 1:] for byte in WRITTEN_OVER if byte != old)

"""Index files: what they hold, their bytes in both versions, and the rules by which they are opened."""
import itertools
import re
import struct
from collections import namedtuple

from basics import Ended, text_or_none
from documents import (DOCUMENTS, DOCUMENT_WORDS, GAP_OF_COLUMNS, LINE_BYTES, ROWS, USUAL, WORD_BYTES, WORDS, Corpus, Row, Weights,
                       collection_of, corpus_of, is_name)
from features import HAS
from queries import shape_of

TARGET, TARGETS, BLOCK_WORDS = 8192, 2**20, 65_536
HEADER_BYTES, ROW_BYTES = 44, 7
FIRST, SECOND = b"HYBIDX1\n", b"HYBIDX2\n"      # the versions, by the bytes that a file begins with
ENTRY_BYTES = {FIRST: 16, SECOND: 24} if "version 2" in HAS else {FIRST: 16}
WRITTEN = list(ENTRY_BYTES)[-1]                 # the version that is written

# ---- Index files: image and bytes ----
Image = namedtuple("Image", "corpus target weights")    # what an index file holds; blocks and bounds follow from it


def image_of(data):
    """What the index file of a collection holds."""
    collection = collection_of(data)
    return Image(corpus_of(collection), TARGET, collection.weights)


def kind_of(word):
    """The kind of a word: plain, or the name of its facet."""
    return word.split(":")[1] if word.startswith(":") else ""


def blocks_of(corpus, target):
    """The words cut into runs, each as long as its kind, the target of rows and the greatest number of words let it be."""
    rows, runs = {}, []
    for row in sorted(corpus.rows):
        rows.setdefault(row.word, []).append(row)
    for word in sorted(rows):
        run = runs[-1] if runs else []
        held = sum(len(rows[other]) for other in run)
        if not run or kind_of(run[0]) != kind_of(word) or held + len(rows[word]) > target or len(run) == BLOCK_WORDS:
            runs.append([])
        runs[-1].append(word)
    return [(run, sorted(row for word in run for row in rows[word])) for run in runs]


def gap_code(number):
    """A number in base 128, the low digits first, with the top bit on each byte but the last."""
    return bytes([number]) if number < 128 else bytes([number % 128 + 128]) + gap_code(number // 128)


def block_bytes(words, rows):
    """The four columns of a block: gaps of documents, words, positions, scores."""
    docs = [row.doc for row in rows]
    return (b"".join(gap_code(doc - before) for before, doc in zip([0] + docs, docs))
            + b"".join(words.index(row.word).to_bytes(2, "big") for row in rows)
            + b"".join(row.pos.to_bytes(4, "big") for row in rows) + bytes(row.score for row in rows))


def weights_field(weights):
    """The field of weights: zero for the usual ones, else a zero and one byte for each."""
    return bytes(4) if weights == USUAL else bytes([0, *weights])


def entry_bytes(entry, rows, version):
    """An entry of the directory; from the second version on the bounds stand behind it, the documents of the first row and the last."""
    bounds = struct.pack(">2I", rows[0].doc, rows[-1].doc) if version == SECOND else b""
    return struct.pack(">4I", *entry) + bounds


def index_bytes(image, version=WRITTEN):
    """The index file: header, vocabulary, offsets of titles, titles, directory, blocks."""
    corpus = image.corpus
    words = sorted({row.word for row in corpus.rows})
    blocks = [(run, rows, block_bytes(run, rows)) for run, rows in blocks_of(corpus, image.target)]
    vocabulary = b"".join(bytes([len(word.encode())]) + word.encode() for word in words)
    titles = [corpus.titles[number].encode() for number in range(len(corpus.titles))]
    offsets = [0, *itertools.accumulate(map(len, titles))]
    directory = b"".join(entry_bytes((words.index(run[0]), len(run), len(rows), len(body)), rows, version) for run, rows, body in blocks)
    bodies = b"".join(body for *_, body in blocks)
    counts = [len(titles), len(words), len(corpus.rows), len(blocks), image.target, len(vocabulary), offsets[-1], len(bodies)]
    return b"".join([version, struct.pack(">8I", *counts), weights_field(image.weights), vocabulary, struct.pack(f">{len(offsets)}I", *offsets), *titles,
                     directory, bodies])


# ---- Index files: rules and places ----
Head = namedtuple("Head", "entry first words rows size bounds place")    # an entry of the directory, and the places of entry and block
GAP_CODE = re.compile(rb"[\x80-\xff]{0,4}[\x00-\x7f]")


def need(holds, rule, place):
    if not holds:
        raise Ended(4, f"index: rule {rule} at {place}")


def is_weights_field(field):
    """Whether these bytes may stand in the field of weights: the usual weights have one form, which is zero."""
    usual = field == bytes(4)
    return usual or "weights" in HAS and field[0] == 0 and 0 not in field[1:] and field != bytes([0, *USUAL])


class File:
    """The bytes of a file that may be an index, and where its parts begin, by rules 1 to 4."""

    def __init__(self, data):
        self.data, self.version, field = data, data[:len(FIRST)], data[40:HEADER_BYTES]
        need(len(data) >= HEADER_BYTES, 1, len(data))
        need(self.version in ENTRY_BYTES, 2, 0)
        (self.documents, self.words, self.rows, self.blocks, self.target,
         vocabulary_bytes, self.title_bytes, self.block_bytes) = struct.unpack_from(">8I", data, 8)
        for number, least, greatest, place in [(self.documents, 0, DOCUMENTS, 8), (self.words, 0, WORDS, 12), (self.rows, 0, ROWS, 16),
                                               (self.blocks, 0, self.words, 20), (self.target, 1, TARGETS, 24)]:
            need(least <= number <= greatest, 3, place)
        need(is_weights_field(field), 3, 40)
        self.weights = Weights(*field[1:]) if any(field) else USUAL
        self.offsets_at = HEADER_BYTES + vocabulary_bytes
        self.titles_at = self.offsets_at + 4 * (self.documents + 1)
        self.directory_at = self.titles_at + self.title_bytes
        self.entry_bytes = ENTRY_BYTES[self.version]
        self.blocks_at = self.directory_at + self.entry_bytes * self.blocks
        need(len(data) == self.blocks_at + self.block_bytes, 4, len(data))


def is_indexed_word(data):
    """Whether these bytes have the form of a word that an index may hold."""
    text = text_or_none(data) or ""
    shape = "".join(map(shape_of, text))
    if not text.startswith(":"):
        return len(data) <= WORD_BYTES and re.fullmatch("w+", shape) is not None
    return re.fullmatch(":w+:[w_]+", shape) is not None and is_name(kind_of(text)) and len(text.split(":")[2].encode()) <= WORD_BYTES


def read_vocabulary(file):
    """The words, by rules 5 to 7."""
    place, end, found = HEADER_BYTES, file.offsets_at, []
    for _ in range(file.words):
        need(place < end and 1 <= file.data[place] <= 138 and place + 1 + file.data[place] <= end, 5, place)
        found.append((place, file.data[place + 1:place + 1 + file.data[place]]))
        place += 1 + file.data[place]
    need(place == end, 5, place)
    for place, word in found:
        need(is_indexed_word(word), 6, place)
    for (_, before), (place, word) in zip(found, found[1:]):
        need(before < word, 7, place)
    return [word.decode() for _, word in found]


def read_titles(file):
    """The titles, by rules 8 and 9."""
    offsets = struct.unpack_from(f">{file.documents + 1}I", file.data, file.offsets_at)
    for number, (before, offset) in enumerate(zip((0,) + offsets, offsets)):
        follows = before <= offset <= before + LINE_BYTES if number else offset == 0
        need(follows and (number < file.documents or offset == file.title_bytes), 8, file.offsets_at + 4 * number)
    titles = [text_or_none(file.data[file.titles_at + begin:file.titles_at + end]) for begin, end in zip(offsets, offsets[1:])]
    for begin, title in zip(offsets, titles):
        need(title is not None, 9, file.titles_at + begin)
    return titles


def read_directory(file, words):
    """The entries of the directory, by rules 10 to 12."""
    heads, place = [], file.blocks_at
    for entry in range(file.directory_at, file.blocks_at, file.entry_bytes):
        first, count, rows, size, *bounds = struct.unpack_from(f">{file.entry_bytes // 4}I", file.data, entry)
        heads.append(Head(entry, first, count, rows, size, bounds, place))
        place += heads[-1].size
    word = 0
    for head in heads:
        need(head.first == word and head.words >= 1, 10, head.entry)
        word += head.words
    need(word == file.words, 10, file.blocks_at)
    for head in heads:
        kinds = {kind_of(word) for word in words[head.first:head.first + head.words]}
        need(head.words <= BLOCK_WORDS and len(kinds) == 1, 11, head.entry)
    for head in heads:
        need(head.rows >= head.words and 8 * head.rows <= head.size <= 12 * head.rows, 12, head.entry)
    need(sum(head.rows for head in heads) == file.rows and sum(head.size for head in heads) == file.block_bytes, 12, file.blocks_at)
    return heads


def read_gaps(column, count, at):
    """So many gap codes, each with its place in the file, by rule 13."""
    place, gaps = 0, []
    for _ in range(count):
        code = GAP_CODE.match(column, place)
        need(code is not None, 13, at + place)
        number = sum((byte & 127) << 7 * digit for digit, byte in enumerate(code[0]))
        need(number < 2**32 and gap_code(number) == code[0], 13, at + place)
        gaps.append((at + place, number))
        place += len(code[0])
    need(place == len(column), 13, at + place)
    return gaps


def read_block(file, head, words):
    """The rows of a block, by rules 13 to 17."""
    words_at = head.place + head.size - ROW_BYTES * head.rows
    positions_at = words_at + 2 * head.rows
    scores_at = positions_at + 4 * head.rows
    gaps = read_gaps(file.data[head.place:words_at], head.rows, head.place)
    docs = list(itertools.accumulate(gap for _, gap in gaps))
    for doc, (place, _) in zip(docs, gaps):
        need(doc < file.documents, 14, place)
    numbers = struct.unpack_from(f">{head.rows}H", file.data, words_at)
    for row, number in enumerate(numbers):
        need(number < head.words, 15, words_at + 2 * row)
    places = struct.unpack_from(f">{head.rows}I", file.data, positions_at)
    scores = file.data[scores_at:scores_at + head.rows]
    is_facet = words[head.first].startswith(":")
    for row, (pos, score) in enumerate(zip(places, scores)):
        plain = 1 <= pos <= DOCUMENT_WORDS + GAP_OF_COLUMNS and score in (file.weights.title, file.weights.text)
        need((pos == 0 and score == file.weights.facet) if is_facet else plain, 16, positions_at + 4 * row)
    rows = [Row(doc, pos, words[head.first + number], score) for doc, pos, number, score in zip(docs, places, numbers, scores)]
    for before, row, (place, _) in zip(rows, rows[1:], gaps[1:]):
        need(before[:3] < row[:3], 17, place)
    return rows


def judge_partition(file, heads, blocks, words):
    """Rule 18: each word has a row, and the runs are those of the target."""
    for number, (head, rows) in enumerate(zip(heads, blocks)):
        need(len({row.word for row in rows}) == head.words, 18, head.entry)
        need(head.words == 1 or head.rows <= file.target, 18, head.entry)
        if number + 1 < len(heads) and head.words < BLOCK_WORDS:
            word = words[heads[number + 1].first]
            together = head.rows + sum(1 for row in blocks[number + 1] if row.word == word)
            need(kind_of(word) != kind_of(words[head.first]) or together > file.target, 18, head.entry)


def judge_bounds(file, heads, blocks):
    """Rule 19, of the second version: the bounds are the documents of the first row and the last."""
    for head, rows in zip(heads, blocks):
        need(file.version == FIRST or head.bounds == [rows[0].doc, rows[-1].doc], 19, head.entry)


def open_index(data):
    """What an index file holds; the first broken rule ends the run."""
    file = File(data)
    words, titles = read_vocabulary(file), read_titles(file)
    heads = read_directory(file, words)
    blocks = [read_block(file, head, words) for head in heads]
    judge_partition(file, heads, blocks, words)
    judge_bounds(file, heads, blocks)
    return Image(Corpus(dict(enumerate(titles)), set().union(*blocks)), file.target, file.weights)

#!/usr/bin/env python3
"""What `complete` means, as plain filters over sets of rows: slow, short, and written from the subject alone.

It runs as the program does, with its words, the same bytes, words on standard error and statuses; `try.py` holds a program
against it. What the program hasn't yet is there too, and counts where `features.py` says so.

Nothing is made fast: a query filters all rows, each prefix of a query is judged anew, and each piece on a connection has the
whole connection answered again. The parts stand in the order of `docs/MEANING.md`: `documents.py`, `queries.py`,
`answers.py`, `index_files.py`, `trials.py` with what is kept of answers, `serving.py`, `changes.py`, `sources.py`,
`excerpts.py`; here are the commands.

Python's tables of Unicode (`unicodedata.unidata_version`) aren't the program's. A character that only one of them knows may
be read differently, so random cases keep to characters that both know.
"""
import re
import sys

from answers import script_lines, text_of
from basics import Ended
from changes import course, merged
from documents import collection_of, corpus_of
from excerpts import excerpts_from
from features import HAS
from index_files import image_of, index_bytes, open_index
from serving import serve
from sources import image_of_source
from trials import trial

# ---- The table of commands: what each is given ----
FORMS = [
    "build COLLECTION INDEX", "ask COLLECTION SCRIPT", "replay INDEX SCRIPT", "serve INDEX PORT CONNS", "trial N",
    "upgrade INDEX NEW", "import csv SOURCE INDEX", "import jsonl SOURCE INDEX", "excerpts COLLECTION SCRIPT", "merge INDEX1 INDEX2 NEW", "live INDEX SCRIPT",
]
BUILT = FORMS[:5] + [form for form in FORMS[5:] if form.split()[0] in HAS]
USAGE = "usage: complete " + " | ".join(BUILT)
NUMBERS = {"PORT": (5, 65_535), "CONNS": (7, 1_000_000), "N": (4, 1_000)}    # at most so many digits, and the greatest


def is_number(word, digits, greatest):
    return re.fullmatch(f"[0-9]{{1,{digits}}}", word) is not None and 1 <= int(word) <= greatest


def is_of_form(words, form):
    """Whether words are of a form: what is written small in it stands there, and what is written large is a number or any name."""
    parts = form.split()
    return len(words) == len(parts) and all(
        is_number(word, *NUMBERS[part]) if part in NUMBERS else part.isupper() or word == part for word, part in zip(words, parts))


# ---- Commands ----
def bytes_of(name):
    try:
        with open(name, "rb") as file:
            return file.read()
    except FileNotFoundError:
        raise Ended(5, f"absent: {name}") from None


def held(*names):
    """The bytes of files; the first that isn't there ends the run."""
    return [bytes_of(name) for name in names]


def write(name, image):
    data = index_bytes(image)
    with open(name, "wb") as file:
        file.write(data)


def put_lines(put, texts):
    for text in texts:
        put(text.encode() + b"\n")


def build(_put, collection, index):
    (data,) = held(collection)
    write(index, image_of(data))


def ask(put, collection, script):
    data, lines = held(collection, script)
    corpus = corpus_of(collection_of(data))
    put_lines(put, (text_of(corpus, line) for line in script_lines(lines)))


def replay(put, index, script):
    data, lines = held(index, script)
    corpus = open_index(data).corpus
    put_lines(put, (text_of(corpus, line) for line in script_lines(lines)))


def serve_index(put, index, port, connections):
    (data,) = held(index)
    serve(open_index(data).corpus, port, connections, put)


def run_trial(put, size):
    trial(int(size), put)


def upgrade(_put, index, new):
    (data,) = held(index)
    write(new, open_index(data))


def import_source(_put, form, source, index):
    (data,) = held(source)
    write(index, image_of_source(form, data))


def excerpts(put, collection, script):
    data, lines = held(collection, script)
    accepted = collection_of(data)
    corpus, reply = corpus_of(accepted), excerpts_from(accepted.documents)
    put_lines(put, (text_of(corpus, line, reply) for line in script_lines(lines)))


def merge(_put, *names):
    *indexes, new = names
    first, second = map(open_index, held(*indexes))
    write(new, merged(first, second))


def live(put, index, script):
    data, lines = held(index, script)
    put_lines(put, course(open_index(data), script_lines(lines)))


COMMANDS = {"build": build, "ask": ask, "replay": replay, "serve": serve_index, "trial": run_trial, "upgrade": upgrade, "import": import_source,
            "excerpts": excerpts, "merge": merge, "live": live}


# ---- Endings ----
def run(words, put, say):
    """Runs a command. `put` takes standard output piece by piece, `say` standard error; the answer is the status."""
    try:
        if not any(is_of_form(words, form) for form in BUILT):
            raise Ended(2, USAGE)
        command, *given = words
        COMMANDS[command](put, *given)
    except (Ended, OSError) as end:
        status, words = end.args if isinstance(end, Ended) else (6, "device failed")
        say(f"{words}\n".encode())
        return status
    return 0


def put_out(data):
    sys.stdout.buffer.write(data)
    sys.stdout.buffer.flush()


if __name__ == "__main__":
    sys.exit(run(sys.argv[1:], put_out, sys.stderr.buffer.write))

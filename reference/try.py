#!/usr/bin/env python3
"""Random cases for a program, held against the reference beside this file.

    try.py PROGRAM                       a few cases of each kind
    try.py PROGRAM KIND [COUNT [FIRST]]  so many cases of one kind, from number FIRST on; without COUNT as many as it should stand

PROGRAM is crates/complete/out/complete. Bytes on standard output, words on standard error, the status and the files left
behind are compared; of `serve`, what comes back on each connection. A case that differs is made smaller as long as it
differs, and printed with its number; the exit status is then 1.

A kind whose command the program hasn't yet, by `features.py`, isn't run unless COMPLETE_HAS names it. `cases.py`, `damage.py`,
`source_cases.py` and `streams.py` make what is random. The kind `characters` goes through all that this Python's table has, and
`bytes` through all bytes of some index files.
"""
import concurrent.futures
import contextlib
import functools
import io
import itertools
import os
import random
import socket
import subprocess
import sys
import tempfile
import time
import unicodedata

import complete
from basics import Ended
from cases import TARGETS_TRIED, World, accepted, changing_script, collection, encoded, script, weights_line
from damage import damaged, written_over
from documents import COLLECTION_BYTES, DOCUMENTS, DOCUMENT_WORDS, LINE_BYTES, collection_of, corpus_of
from features import ALL, HAS
from index_files import ENTRY_BYTES, TARGET, image_of, index_bytes
from serving import answers
from source_cases import csv_source, jsonl_source, limit_sources
from streams import stream, talk

SECONDS = 600
NO_END = "no end"
TRIES_TO_SHRINK = 1000

# ---- Kinds of cases: words and files; what is made is an index file of one of them ----


def made_of(dice, name):
    """How an index file is made of a collection: its name, the target, the version."""
    return name, dice.choice(TARGETS_TRIED), dice.choice(list(ENTRY_BYTES))


def ask_case(dice):
    world = World(dice)
    return {"words": ["ask", "C", "Q"], "files": {"C": collection(dice, world), "Q": script(dice, world, dice.choice([0, 0, 0, 0, 2, 3]))}}


def build_case(dice):
    """A random collection; at times one whose words have about as many rows together as a block may have."""
    if dice.random() < 0.02:
        words = [word for letter in dice.choice(["ab", "abc", "a1b"]) for word in [letter] * (TARGET // 2 + dice.randint(-1, 1))]
        return {"words": ["build", "C", "I"], "files": {"C": " ".join(words).encode()}}
    return {"words": ["build", "C", "I"], "files": {"C": collection(dice, World(dice), 20)}}


def replay_case(dice):
    world = World(dice)
    files = {"C": accepted(dice, world), "Q": script(dice, world, dice.choice([0, 0, 2, 3]))}
    return {"words": ["replay", "I", "Q"], "files": files, "made": {"I": made_of(dice, "C")}}


def damaged_file(dice, world):
    data, (_, target, version) = accepted(dice, world, 4), made_of(dice, "C")
    return damaged(dice, index_bytes(image_of(data)._replace(target=target), version))


def damage_case(dice):
    world = World(dice)
    return {"words": ["replay", "I", "Q"], "files": {"I": damaged_file(dice, world), "Q": script(dice, world)}}


def words_case(dice):
    """Command lines, most of them in the table or a word away from it."""
    numbers = ["0", "1", "00001", "000001", "65535", "65536", "1000000", "1000001", "0000001", "00000001", "+1", "-1", "1 ", "", "a", "١", "1.0"]
    names = ["C", "Q", "X", "I", "é", "absent name", "x/y"]
    kinds = {"names": names, "made": ["N", "x/y"], "numbers": numbers, "forms": ["csv", "jsonl", "csv", "jsonl", "CSV", "json", "xml", ""]}
    shapes = [["build", "names", "made"], ["ask", "names", "names"], ["replay", "names", "names"], ["serve", "names", "numbers", "numbers"], ["trial", "numbers"],
              ["upgrade", "names", "made"], ["import", "forms", "names", "made"], ["excerpts", "names", "names"], ["merge", "names", "names", "made"], ["live", "names", "names"]]
    words = [dice.choice(kinds.get(word, [word])) for word in dice.choice(shapes)]
    if dice.random() < 0.3:
        place = dice.randint(0, len(words))
        words[place:place + dice.randint(0, 1)] = [dice.choice([*names, *numbers, "ask", "ASK", "Ask", "help", "--help", "-", "csv"])] * dice.randint(0, 1)
    if words[:1] == ["trial"] and len(words) == 2 and complete.is_number(words[1], *complete.NUMBERS["N"]):
        words[1] = dice.choice(["1", "01", "0001"]) if dice.random() < 0.02 else "0"
    world = World(dice)
    files = {"C": collection(dice, world), "Q": script(dice, world), "I": b"HYBIDX1\n" + bytes(dice.randint(0, 60))}
    return {"words": words, "files": {name: data for name, data in files.items() if dice.random() < 0.9}}


def upgrade_case(dice):
    """An index file of either version, at times a damaged one; both names may be one."""
    world, new = World(dice), dice.choice(["N", "N", "I"])
    if dice.random() < 0.2:
        return {"words": ["upgrade", "I", new], "files": {"I": damaged_file(dice, world)}}
    return {"words": ["upgrade", "I", new], "files": {"C": accepted(dice, world, 20)}, "made": {"I": made_of(dice, "C")}}


def csv_case(dice):
    return {"words": ["import", "csv", "S", dice.choice(["N", "N", "S"])], "files": {"S": csv_source(dice, World(dice))}}


def jsonl_case(dice):
    return {"words": ["import", "jsonl", "S", dice.choice(["N", "N", "S"])], "files": {"S": jsonl_source(dice, World(dice))}}


def excerpts_case(dice):
    """Texts that are longer than an excerpt, of few words that come often and of some that don't; two of these are asked together."""
    world, filler, apart = World(dice), dice.choice(["x", "b", "xy"]), dice.choices(range(29, 34), k=4)
    rare = [dice.choice(world.words) for _ in range(2)]
    made = [weights_line(dice)] * (dice.random() < 0.05) + collection(dice, world, 3).split(b"\n")
    for _ in range(dice.randint(1, 4)):
        words = [dice.choice(world.words) if dice.random() < 0.15 else filler for _ in range(dice.choice([0, 5, 30]))]
        words += [rare[0], *[filler] * dice.choice([0, 3, *apart]), rare[1], *[filler] * dice.choice([0, 3, 40]), *rare[:dice.choice([0, 0, 1])]]
        made.append("\t".join([" ".join(dice.choices(world.words, k=dice.randint(0, 2))), dice.choice(["", f"{world.names[0]}={world.words[0]}"]), " ".join(words)]).encode())
    asked = script(dice, world, dice.choice([0, 0, 0, 2])) + b"\nq=" + encoded(dice, " ".join(rare)).encode()
    return {"words": ["excerpts", "C", "Q"], "files": {"C": b"\n".join(made), "Q": asked}}


def merge_case(dice):
    """Two index files, most often of one target and the same weights; at times one is damaged, or both are one."""
    world = World(dice)
    weights = weights_line(dice) + b"\n" if dice.random() < 0.3 else b""
    files = {"C": accepted(dice, world, 6), "D": accepted(dice, world, 6)}
    for name, data in files.items():
        with contextlib.suppress(Ended):
            image_of(weights + data)
            files[name] = weights + data
    first, second = made_of(dice, "C"), made_of(dice, "D")
    made = {"A": first, "B": second if dice.random() < 0.1 else ("D", first[1], second[2])}
    words = ["merge", "A", dice.choice(["B"] * 9 + ["A"]), dice.choice(["N", "N", "N", "A", "B"])]
    for name in dice.choice(["A", "B", "AB"]) if dice.random() < 0.1 else "":
        files[name] = damaged_file(dice, world)
        del made[name]
    return {"words": words, "files": files, "made": made}


def live_case(dice):
    world = World(dice)
    data = accepted(dice, world, dice.choice([0, 3, 8]))
    files = {"C": data, "Q": changing_script(dice, world, len(collection_of(data).documents))}
    return {"words": ["live", "I", "Q"], "files": files, "made": {"I": made_of(dice, "C")}}


def byte_cases():
    """Index files with one byte changed: what is said of each, what it answers, and what is read of it, as far as a file shows that."""
    for data in written_over():
        yield {"words": ["replay", "I", "Q"], "files": {"I": data, "Q": b"q=&h=100&c=100&f=k,author,year\nq=b\n"}}
        if "upgrade" in HAS:
            yield {"words": ["upgrade", "I", "N"], "files": {"I": data}}


def trial_cases():
    for size in itertools.count(1):
        yield {"words": ["trial", str(size)], "files": {}}


def character_cases():
    """Each character of this Python's table within a word, and as a word of its own; of those for private use the first."""
    known = [c for c in map(chr, range(0x110000)) if unicodedata.category(c) not in ("Cn", "Cs", "Co")] + ["\ue000"]
    for begin in range(0, len(known), 40):
        group = known[begin:begin + 40]
        titles = "".join(f"x{c}y {c}\n" for c in group if c not in "\t\n")
        queries = "".join(f"q=x{''.join(f'%{byte:02X}' for byte in c.encode())}y\n" for c in group)
        yield {"words": ["ask", "C", "Q"], "files": {"C": titles.encode(), "Q": f"q=x&c=100&h=100\n{queries}".encode()}}


def limit_cases():
    """Collections at the limits of lines, words and documents, and what is made of such by the further commands."""
    line, many, documents = LINE_BYTES, DOCUMENT_WORDS, DOCUMENTS
    collections = [
        b"a" * line + b"\nb", b"x\n" + b"a" * (line + 1), b"a" * line + b"\xff", b"\xff" * 3 + b"a" * line, b"a" * line + b"\r\n",
        b"a " * many, b"a " * many + b"b", b"a " * 50_000 + b"\t\t" + b"b " * 50_000, b"a " * 50_000 + b"\t\t" + b"b " * 50_001 + b"\t=",
        b"a\t=b\n" + b"c " * (many + 1), b"a " * (many + 1) + b"\t=b", b"\0" * (COLLECTION_BYTES + 1),
        b"#weights " + b"a" * (line - 9), b"#weights " + b"a" * (line - 8), b"#weights title=1 facet=1 text=1\n" + b"a\n" * documents + b"b",
        b"a\n" * documents + b"\n\nb\tc", b"a\n" * documents + b"\n\nb\r\n\xff", b"a\n" * documents,
    ]
    for data in collections:
        yield {"words": ["ask", "C", "Q"], "files": {"C": data, "Q": b"q=a&h=2\nq=b$..a\n"}}
    if "import" in HAS:
        for form, data in limit_sources():
            yield {"words": ["import", form, "S", "N"], "files": {"S": data}}
    almost, made = b"a\n" * (documents - 1), {"A": ("C", TARGET, list(ENTRY_BYTES)[-1]), "B": ("D", TARGET, list(ENTRY_BYTES)[0])}
    if "merge" in HAS:
        for data in (b"b", b"b\nb"):
            yield {"words": ["merge", "A", "B", "N"], "files": {"C": almost, "D": data}, "made": made}
    if "live" in HAS:
        yield {"words": ["live", "A", "Q"], "files": {"C": almost, "D": b"", "Q": b"add b\nadd b\ndel 0\nadd b\tx\nadd b\nq=b&h=2\n"}, "made": made}


# ---- Running both ----

@functools.lru_cache(maxsize=4)
def index_of(data, target, version):
    """The index file of a collection; none where it is refused."""
    try:
        return index_bytes(image_of(data)._replace(target=target), version)
    except Ended:
        return None


def files_of(case):
    """The files that a case begins with, those that are made among them."""
    made = {name: index_of(case["files"][source], target, version) for name, (source, target, version) in case.get("made", {}).items()}
    return {**case["files"], **{name: data for name, data in made.items() if data is not None}}


def fill(folder, case):
    for name, data in files_of(case).items():
        with open(os.path.join(folder, name), "wb") as file:
            file.write(data)


def files_in(folder):
    found = {}
    for name in sorted(os.listdir(folder)):
        with open(os.path.join(folder, name), "rb") as file:
            found[name] = file.read()
    return found


def outcome_of_program(program, case):
    with tempfile.TemporaryDirectory() as folder:
        fill(folder, case)
        try:
            ran = subprocess.run([program, *case["words"]], cwd=folder, capture_output=True, timeout=SECONDS, check=False)
        except subprocess.TimeoutExpired:
            return NO_END, b"", b"", {}
        return ran.returncode, ran.stdout, ran.stderr, files_in(folder)


def outcome_of_reference(case):
    put, said = [], io.BytesIO()
    here = os.getcwd()
    with tempfile.TemporaryDirectory() as folder:
        fill(folder, case)
        os.chdir(folder)
        try:
            status = complete.run(case["words"], put.append, said.write)
        finally:
            os.chdir(here)
        return status, put, said.getvalue(), files_in(folder)


def both(program, case):
    """What the program gives, and what the reference does."""
    status, put, said, left = outcome_of_reference(case)
    return outcome_of_program(program, case), (status, b"".join(put), said, left)


# ---- Connections ----

def serve_case(dice):
    world = World(dice)
    streams = [stream(dice, world) for _ in range(dice.randint(1, 6))]
    return {"files": {"C": accepted(dice, world)}, "made": {"I": made_of(dice, "C")}, "streams": streams}


def together_case(dice):
    """Ten connections at once."""
    world = World(dice)
    streams = [stream(dice, world) for _ in range(10)]
    return {"files": {"C": accepted(dice, world)}, "made": {"I": made_of(dice, "C")}, "streams": streams, "together": True}


def free_port():
    with socket.socket() as taken:
        taken.bind(("127.0.0.1", 0))
        return taken.getsockname()[1]


def served(program, case):
    port = free_port()
    with tempfile.TemporaryDirectory() as folder:
        fill(folder, case)
        words = [program, "serve", "I", str(port), str(max(1, len(case["streams"])))]
        pipes = {"stdin": subprocess.DEVNULL, "stdout": subprocess.PIPE, "stderr": subprocess.PIPE}
        with subprocess.Popen(words, cwd=folder, **pipes) as running:
            try:
                line, sent = running.stdout.readline(), []
                if line == b"serving %d\n" % port:
                    with concurrent.futures.ThreadPoolExecutor(10 if case.get("together") else 1) as clients:
                        sent = list(clients.map(lambda pieces: talk(port, pieces, SECONDS), case["streams"] or [[]]))
                out, said = running.communicate(timeout=SECONDS)
                return running.returncode, line.replace(b"%d" % port, b"PORT") + out, said, sent
            except subprocess.TimeoutExpired:
                return NO_END, b"", b"", []
            finally:
                running.kill()


def both_served(program, case):
    try:
        corpus = corpus_of(collection_of(case["files"]["C"]))
    except Ended:
        return None, None                       # no index can be made of it
    want = [answers(corpus, b"".join(pieces))[0] for pieces in case["streams"] or [[]]]
    return served(program, case), (0, b"serving PORT\n", b"", want)


# ---- Making a case smaller ----

def shortened(sequence, differs):
    """A part of a sequence of which the case still differs: pieces are left out, halves first."""
    size = max(1, len(sequence) // 2)
    while size:
        place = 0
        while place < len(sequence):
            shorter = sequence[:place] + sequence[place + size:]
            if differs(shorter):
                sequence = shorter
            else:
                place += size
        size //= 2
    return sequence


def smaller(case, both):
    """The case with files and streams made shorter as long as the outcomes differ."""
    left = [TRIES_TO_SHRINK]

    def differs(other):
        left[0] -= 1
        got, want = both(other) if left[0] > 0 else (0, 0)
        return got != want

    for name in case["files"].keys() - {"I", "A", "B"}:
        def with_file(data, name=name):
            return {**case, "files": {**case["files"], name: data}}
        rows = shortened(case["files"][name].split(b"\n"), lambda rows: differs(with_file(b"\n".join(rows))))
        case = with_file(b"\n".join(rows))
        case = with_file(shortened(case["files"][name], lambda data: differs(with_file(data))))
    if "streams" in case:
        case = {**case, "streams": shortened(case["streams"], lambda streams: differs({**case, "streams": streams}))}
        for number in range(len(case["streams"])):
            def with_stream(pieces, number=number):
                return {**case, "streams": [*case["streams"][:number], pieces, *case["streams"][number + 1:]]}
            case = with_stream(shortened(case["streams"][number], lambda pieces: differs(with_stream(pieces))))
            whole = b"".join(case["streams"][number])
            if differs(with_stream([whole])):
                case = with_stream([shortened(whole, lambda data: differs(with_stream([data])))])
    return case


def show(kind, number, case, got, want):
    print(f"DIFFERS: {kind} 1 {number}\n  words  {case.get('words', 'serve')}, made of collections {case.get('made', {})}")
    for name, data in case["files"].items():
        print(f"  file {name} {data[:2000]!r}{' ..' if len(data) > 2000 else ''}")
    for pieces in case.get("streams", []):
        print(f"  stream {pieces!r}")
    for what, one, other in zip(("status", "out", "err", "left"), got, want):
        if one != other:
            print(f"  {what}: program   {str(one)[:3000]}\n  {what}: reference {str(other)[:3000]}")


# ---- Kinds and counts ----

MADE = {"ask": ask_case, "words": words_case, "build": build_case, "replay": replay_case, "damage": damage_case, "serve": serve_case, "together": together_case, "upgrade": upgrade_case,
        "csv": csv_case, "jsonl": jsonl_case, "excerpts": excerpts_case, "merge": merge_case, "live": live_case}
LISTED = {"characters": character_cases, "limits": limit_cases, "bytes": byte_cases, "trial": trial_cases}
COUNTS = {"ask": 20_000, "words": 5_000, "characters": 10_000, "limits": 100, "build": 5_000, "damage": 10_000, "bytes": 100_000, "replay": 5_000, "serve": 3_000, "together": 500, "trial": 20,
          "upgrade": 3_000, "csv": 20_000, "jsonl": 20_000, "excerpts": 10_000, "merge": 5_000, "live": 10_000}
FEW = {"trial": 2, "characters": 50, "limits": 0, "bytes": 500, "serve": 50, "together": 20}
NEEDS = {"csv": "import", "jsonl": "import"}    # other kinds need the command of their name, where it is one of those to come


def is_there(kind):
    """Whether the program has what a kind tries."""
    feature = NEEDS.get(kind, kind)
    return feature not in ALL or feature in HAS


def cases_of(kind, count, first):
    if kind in LISTED:
        yield from enumerate(itertools.islice(LISTED[kind](), first, first + count), first)
    else:
        for number in range(first, first + count):
            yield number, MADE[kind](random.Random(f"{kind} {number}"))


def try_kind(program, kind, count, first):
    """Runs so many cases of a kind; says whether all were the same."""
    compare = both_served if kind in ("serve", "together") else both
    begun, done = time.monotonic(), 0
    for number, case in cases_of(kind, count, first):
        got, want = compare(program, case)
        if got != want:
            if got[0] != NO_END:
                case = smaller(case, lambda other: compare(program, other))
                got, want = compare(program, case)
            show(kind, number, case, got, want)
            return False
        done += 1
    print(f"{kind}: {done} cases without a difference, {time.monotonic() - begun:.0f} s", flush=True)
    return True


def main():
    if not 2 <= len(sys.argv) <= 5 or len(sys.argv) > 2 and sys.argv[2] not in COUNTS:
        sys.exit(__doc__ + "\nKinds: " + ", ".join(COUNTS))
    program = os.path.abspath(sys.argv[1])
    if len(sys.argv) == 2:
        same = [try_kind(program, kind, FEW.get(kind, 200), 0) for kind in COUNTS if is_there(kind)]
    else:
        kind, *numbers = sys.argv[2:]
        if not is_there(kind):
            sys.exit(f"{kind}: not there yet; features.py says how it is tried")
        count, first = [*map(int, numbers), *[COUNTS[kind], 0][len(numbers):]]
        same = [try_kind(program, kind, count, first)]
    return 0 if all(same) else 1


if __name__ == "__main__":
    sys.exit(main())

#!/usr/bin/env python3
"""Refuses the program each request for memory and each call of the system in turn, and judges how it ends then. Run it by hand:

    bench/refused.py PROGRAM [CASE [FAULT]]

PROGRAM is crates/complete/out/complete. A case is a command over some small files. `refused.c`, which is loaded before the program, fails
the first request for memory in a run of its own, then the second, and so on until a run has no such request; then all from the first
on, and so on. Reads, writes, `fsync`, accepts, receives and sends fail likewise, and are cut to one byte or interrupted. Then each case runs
under `ulimit -v` at sizes between what just starts and what suffices.

Each line or response must be as before, or say what was refused, memory or a read; a written file must be the older or the new one, whole,
with nothing beside; and all memory and all files are given back. What is otherwise is said, with the words that repeat it: CASE has one case tried,
and FAULT one run of it, as 'memory 17 once 12' or 'limit 2600'. At last comes a table. It needs Python 3.11 and a C compiler, `cc`,
and takes some minutes.
"""
import collections
import csv
import errno
import io
import json
import os
import pathlib
import re
import socket
import subprocess
import sys
import tempfile
import time
from typing import NamedTuple

ROOT = pathlib.Path(__file__).resolve().parent.parent
COUNTS = ["memory", "read", "write", "sync", "accept", "recv", "send", "open", "name", "wait", "seat", "refused", "held", "files", "ended"]
COUNT_BYTES = 8
SAID = {0: b"", 6: b"device failed\n", 7: b"memory\n"}
NO_MEMORY, NO_READ = b'{"error":"memory"}', b'{"error":"read"}'
SIZES, START, ENOUGH = 20, 1 << 8, 1 << 20    # of `ulimit -v`, in KiB
PATIENCE, PAUSE, REST = 20, 0.003, 0.15        # in seconds: for a run, between two pieces, for a server that is done
OLDER = b"an older file\n"


class Case(NamedTuple):
    """A command, the files that it runs over, the one that it writes, a link that leads to this, and what it is given by a pipe or by connections."""
    name: str
    words: list
    files: dict
    written: str = ""
    link: str = ""
    piped: bytes = b""
    pieces: tuple = ()


class Fault(NamedTuple):
    """What fails: a call of this class, of this number, alone or not, and by which error; without one it moves one byte. Or a limit of memory."""
    call: str
    number: int
    how: str = ""
    error: int = 0

    def words(self):
        return " ".join(str(part) for part in self if part)

    def is_nothing(self):
        """It is as if nothing failed."""
        return self.call != "limit" and self.error in (0, errno.EINTR, errno.EAGAIN)

    def wants_memory(self):
        return self.call in ("memory", "limit")

    def kind(self):
        if self.wants_memory():
            return f"memory, {self.how}"
        return "calls that are cut or interrupted" if self.is_nothing() else "calls that fail"


class Seen(NamedTuple):
    """What a run came to."""
    status: object
    out: bytes
    err: bytes
    files: dict
    sent: list
    counts: dict


class Outside(Exception):
    """An outcome that none of the promises has."""


def need(holds, reason):
    if not holds:
        raise Outside(reason)


# ---- Cases ----

DOCUMENTS = (ROOT / "crates" / "complete" / "data" / "C").read_bytes()
LINES = b"q=t\nq=ty\nq=typ\nq=typ+s\nq=typ+se\nq=typ\n"
WIDE = LINES + b"q=a&h=100&c=100&f=author,year\nq=a|s|t&f=venue\nq=author:&c=100\nq=author[a]+s\nq=the..a\nq=&h=100\n" + LINES
SMALL = {"ask": b"q=typ\n", "replay": LINES, "excerpts": b"q=typ\nq=type+search\n", "serve": b"q=typ&f=author\nq=typ&f=author\n"}
LARGE = dict.fromkeys(SMALL, WIDE)
CHANGES = {"live-add": b"add A typed search\tauthor=Bast\tsome text\n", "live-delete": b"del 1\n"}    # the last line, as others would depend on it
COPIES = 40
CUT = ((0, b""), (1, b""), (0, b"GET /search?q= HT"), (1, b"a" * 4096), (1, b"a" * 4096), (0, b"TP/1.1\r\n\r\n"), (0, None), (1, None))


def large():
    """More documents, so that memory runs out at more places."""
    papers = [[*line.split(b"\t"), b""][:3] for line in (ROOT / "examples" / "papers.tsv").read_bytes().splitlines()]
    return b"".join(b"%s\t%s\t%s, copy %d\n" % (*paper, number) for number in range(COPIES) for paper in papers)


def asked(lines):
    """Two connections that ask the same in turn."""
    heads = [b"GET /search?%s HTTP/1.1\r\n\r\n" % line for line in lines.splitlines()]
    return ((0, b""), (1, b""), *((number, head) for head in heads for number in (0, 1)), (0, None), (1, None))


def table(documents):
    """A table of comma-separated values."""
    written = io.StringIO()
    csv.writer(written).writerows([["title", "facets", "text"], *(line.split("\t") for line in documents.decode().splitlines())])
    return written.getvalue().encode()


def objects(documents):
    """Lines of JSON."""
    rows = [line.split("\t") for line in documents.decode().splitlines()]
    return "".join(json.dumps({"title": title, "facets": facets.split(";"), "text": text}) + "\n" for title, facets, text in rows).encode()


def first_version(documents):
    """The index file of version 1, by the reference."""
    os.environ["COMPLETE_HAS"] = "all"
    sys.path.insert(0, str(ROOT / "reference"))
    from index_files import FIRST, image_of, index_bytes
    return index_bytes(image_of(documents), FIRST)


def built(program, folder, documents):
    (folder / "C").write_bytes(documents)
    subprocess.run([program, "build", "C", "I"], cwd=folder, check=True)
    return (folder / "I").read_bytes()


def cases(program, folder, documents, lines):
    """Each command over these documents, with what is asked; `trial` makes its own."""
    parts = documents.splitlines(keepends=True)
    index, none, one, more = (built(program, folder, part) for part in (documents, b"", b"".join(parts[:1]), b"".join(parts[1:])))
    return [
        Case("ask", ["ask", "C", "Q"], {"C": documents, "Q": lines["ask"]}),
        Case("ask-pipe", ["ask", "C", "/dev/stdin"], {"C": documents}, piped=lines["replay"]),
        Case("replay", ["replay", "I", "Q"], {"I": index, "Q": lines["replay"]}),
        *(Case(name, ["live", "I", "Q"], {"I": index, "Q": lines["replay"] + line}) for name, line in CHANGES.items()),
        Case("excerpts", ["excerpts", "C", "Q"], {"C": documents, "Q": lines["excerpts"]}),
        Case("build", ["build", "C", "I"], {"C": documents, "I": OLDER}, "I"),
        Case("build-anew", ["build", "C", "I"], {"C": documents}, "I"),
        Case("build-link", ["build", "C", "L"], {"C": documents, "I": OLDER}, "I", "L"),
        Case("csv", ["import", "csv", "B", "I"], {"B": table(documents), "I": OLDER}, "I"),
        Case("jsonl", ["import", "jsonl", "B", "I"], {"B": objects(documents), "I": OLDER}, "I"),
        Case("upgrade", ["upgrade", "I", "N"], {"I": first_version(documents), "N": OLDER}, "N"),
        Case("merge", ["merge", "A", "B", "N"], {"A": one, "B": more, "N": OLDER}, "N"),
        Case("trial", ["trial", "1"], {}),
        Case("serve-cut", ["serve", "I", "PORT", "2"], {"I": none}, pieces=CUT),
        Case("serve", ["serve", "I", "PORT", "2"], {"I": index}, pieces=asked(lines["serve"])),
    ]


def faults(case):
    """The first of each row of faults: the ones behind it have the next numbers."""
    yield Fault("memory", 1, "once", errno.ENOMEM)
    if case.name != "trial":    # which has ten thousand such requests
        yield Fault("memory", 1, "long" if case.pieces else "ever", errno.ENOMEM)    # a server waits for memory until it comes back
    for call, error in (("read", errno.EIO), ("write", errno.ENOSPC), ("sync", errno.EIO), ("accept", errno.EMFILE), ("recv", errno.ECONNRESET),
                        ("send", errno.ECONNRESET), ("open", errno.EMFILE), ("name", errno.EIO)):
        yield Fault(call, 1, "once", error)
        yield Fault(call, 1, "ever", error)
    yield Fault("seat", 1, "once", errno.ENOSPC)
    yield Fault("seat", 1, "ever", errno.ENOSPC)
    yield Fault("send", 1, "once", errno.EAGAIN)
    for call in ("read", "write", "recv", "send"):
        yield Fault(call, 1, "once")
        yield Fault(call, 1, "ever")
    for call in ("read", "write", "sync", "accept", "recv", "send", "open", "wait"):
        yield Fault(call, 1, "once", errno.EINTR)
        yield Fault(call, 2, "each", errno.EINTR)


# ---- Runs ----

class World:
    """The program, and a folder with the library and for the files of runs."""

    def __init__(self, program, folder):
        self.program, self.folder, self.place = program, folder, folder / "place"
        self.counted, self.library = folder / "counted", folder / "refused.so"
        subprocess.run(["cc", "-shared", "-fPIC", "-O2", "-o", self.library, ROOT / "bench" / "refused.c", "-ldl"], check=True)
        self.place.mkdir()

    def cases(self, documents, lines):
        return cases(self.program, self.folder, documents, lines)

    def command(self, case, fault, port):
        words = [self.program, *(word.replace("PORT", str(port)) for word in case.words)]
        if fault and fault.call == "limit":
            words = ["sh", "-c", 'ulimit -v "$1"; shift; exec "$@"', "sh", str(fault.number), *words]
            return words, {}
        more = {"LD_PRELOAD": str(self.library), "COUNTED": str(self.counted)}
        return words, {**more, "REFUSED": fault.words()} if fault else more

    def run(self, case, fault):
        for name in os.listdir(self.place):
            os.remove(self.place / name)
        for name, data in case.files.items():
            (self.place / name).write_bytes(data)
        if case.link:
            (self.place / case.link).symlink_to(case.written)
        self.counted.write_bytes(bytes(COUNT_BYTES * len(COUNTS)))
        port = free_port() if case.pieces else 0
        words, more = self.command(case, fault, port)
        process = subprocess.Popen(words, cwd=self.place, env={**os.environ, **more}, stdin=subprocess.PIPE, stdout=subprocess.PIPE,
                                   stderr=subprocess.PIPE)
        line, sent = b"", []
        if case.pieces:
            line = process.stdout.readline()
            sent = spoken(port, case.pieces) if line == b"serving %d\n" % port else []
            waited_for(process, port)
        try:
            out, err = process.communicate(case.piped, timeout=PATIENCE)
            status = process.returncode
        except subprocess.TimeoutExpired:
            process.kill()
            out, err = process.communicate()
            status = "no end"
        files = {name: held(self.place / name) for name in os.listdir(self.place)}
        return Seen(status, line.replace(b"%d" % port, b"PORT") + out, err, files, sent, self.counts())

    def counts(self):
        data = self.counted.read_bytes()
        return {name: int.from_bytes(data[at:at + COUNT_BYTES], sys.byteorder, signed=True)
                for name, at in zip(COUNTS, range(0, len(data), COUNT_BYTES))}


def held(path):
    """The bytes of a file, or the name that a link leads to."""
    return os.readlink(path) if path.is_symlink() else path.read_bytes()


def free_port():
    with socket.socket() as asked:
        asked.bind(("127.0.0.1", 0))
        return asked.getsockname()[1]


def spoken(port, pieces):
    """What comes back on each connection on which these pieces are sent, and how it ends."""
    connections = {}
    for number, piece in pieces:
        try:
            if number not in connections:
                connections[number] = socket.create_connection(("127.0.0.1", port), timeout=PATIENCE)
                connections[number].setsockopt(socket.IPPROTO_TCP, socket.TCP_NODELAY, 1)
            elif piece is None:
                connections[number].shutdown(socket.SHUT_WR)
            else:
                connections[number].sendall(piece)
        except (OSError, KeyError):
            pass    # the program closed it, which is seen in what comes
        time.sleep(PAUSE)
    return [heard(connections.get(number)) for number in range(1 + max(number for number, _ in pieces))]


def heard(connection):
    came = []
    if not connection:
        return b"", "not connected"
    with connection:
        try:
            while piece := connection.recv(65536):
                came.append(piece)
        except OSError as error:
            return b"".join(came), type(error).__name__
    return b"".join(came), "end"


def waited_for(server, port):
    """Waits for the end of a server. Where a connection was lost before it was let in, others come in its place."""
    begun = time.monotonic()
    while server.poll() is None and time.monotonic() - begun < PATIENCE:
        try:
            server.wait(timeout=REST)
        except subprocess.TimeoutExpired:
            with socket.socket() as more:
                more.settimeout(REST)
                more.connect_ex(("127.0.0.1", port))


# ---- What a run may come to ----

def judged(case, before, fault, seen):
    """Counts what was seen; what may not be is Outside."""
    need(seen.status in SAID, f"it ends with {seen.status}, out {seen.out[-200:]}, err {seen.err[-200:]}")
    said = SAID[seen.status]
    need(seen.err == said or fault.call == "write" and said.startswith(seen.err), f"status {seen.status}, and err is {seen.err[-200:]}")
    if fault.is_nothing():
        need(seen[:5] == before[:5], f"it isn't as before: status {seen.status}, out {seen.out[-200:]}, sent {seen.sent}")
    if fault.call != "limit":
        need(seen.counts["ended"], "it doesn't end by itself")
        need(seen.counts["held"] == 0, f"{seen.counts['held']} pieces of memory aren't given back")
        need(seen.counts["files"] == 0, f"{seen.counts['files']} files are left open")
    need(seen.status in (0, 7 if fault.wants_memory() else 6), f"it ends with {seen.status}")
    tally = collections.Counter({"tried": 1, str(seen.status): 1})
    tally.update(judged_files(case, before, fault, seen))
    tally.update(judged_talk(before, fault, seen) if case.pieces else judged_lines(before, fault, seen))
    is_told = seen.status == 6 or tally["read's"]
    need(is_told or fault.is_nothing() or fault.call not in ("read", "write", "sync"), "nothing says that a call failed")
    return tally


def judged_files(case, before, fault, seen):
    """What is read stays; what is written is the older file or the new one, and nothing stands beside."""
    beside = set(seen.files) - set(case.files) - {case.written, case.link}
    need(not beside or (fault.call, fault.how) == ("name", "ever"), f"{sorted(beside)} is left")
    need(all(seen.files.get(name) == data for name, data in case.files.items() if name != case.written), "a file that is read has changed")
    need(not case.link or seen.files.get(case.link) == case.written, "the link isn't as before")
    if not case.written:
        return {}
    found, new, older = seen.files.get(case.written), before.files[case.written], case.files.get(case.written)
    need(found in (new, older), f"{case.written} is neither the older file nor the new one")
    need(seen.status != 0 or found == new, f"it ends with 0, and {case.written} is the older file")
    need(seen.status != 7 or found == older, f"it ends with 7, and {case.written} is the new file")
    return {"new file" if found == new else "older file": 1}


def judged_lines(before, fault, seen):
    """Each line is as before, or says what was refused."""
    wanted, tally = before.out.splitlines(keepends=True), collections.Counter()
    for number, line in enumerate(seen.out.splitlines(keepends=True)):
        need(number < len(wanted), f"a line too many: {line}")
        tally[kind_of(line.removesuffix(b"\n"), wanted[number].removesuffix(b"\n"), fault, NO_MEMORY, NO_READ, line.endswith(b"\n"))] += 1
    need(seen.status != 7 or not seen.out, "it ends with 7 behind a line")
    count = sum(tally.values())
    need(seen.status != 0 or count == len(wanted) and not tally["cut"], f"it ends with 0 behind {count} of {len(wanted)} lines")
    need(not tally["read's"] or seen.status == 6, "a line says that a read failed, and it ends with 0")
    return tally


def kind_of(text, wanted, fault, no_memory, no_read, is_whole=True):
    """What an answer is, where this one was wanted."""
    if text == wanted and is_whole:
        return "as before"
    if text == no_memory and fault.wants_memory():
        return "memory's"
    if text == no_read and fault.call == "read":
        return "read's"
    need(wanted.startswith(text) and fault.call in ("write", "send"), f"an answer is neither as before nor a fault: {text[:200]}")
    return "cut"


def response(head, body, close=b""):
    return b"HTTP/1.1 " + head + b"\r\nContent-Type: application/json\r\nContent-Length: %d\r\n" % len(body) + close + b"\r\n" + body


MEMORY_RESPONSE = response(b"503 Service Unavailable", NO_MEMORY, b"Connection: close\r\n")
READ_RESPONSE = response(b"500 Internal Server Error", NO_READ)


def responses(data):
    """The responses that these bytes are; the last one may be cut."""
    found = []
    while data:
        head, _, body = data.partition(b"\r\n\r\n")
        length = re.search(rb"Content-Length: (\d+)$", head, re.M)
        size = len(head) + 4 + int(length[1]) if length else len(data)
        found.append(data[:size])
        data = data[size:]
    return found


def judged_talk(before, fault, seen):
    """On each connection come the responses as before, or those for what was refused; behind that for want of memory comes nothing."""
    tally = collections.Counter()
    may_lack = fault.call in ("accept", "recv", "send", "seat") or seen.status != 0
    need(seen.out == before.out or seen.status != 0 and before.out.startswith(seen.out), f"out is {seen.out}")
    need(seen.status != 7 or not any(came for came, _ in seen.sent), "it ends with 7 behind a response")
    touched = sum(came != wanted for (wanted, _), (came, _) in zip(before.sent, seen.sent))
    need(touched < 2 or seen.status != 0 or fault.how != "once", "one failure is seen on two connections")
    for (wanted, _), (came, ending) in zip(before.sent, seen.sent):
        whole, kinds = responses(wanted), []
        for number, text in enumerate(responses(came)):
            need("memory's" not in kinds, f"behind the response for want of memory comes {text[:200]}")
            need(number < len(whole) or text == MEMORY_RESPONSE, f"a response too many: {text[:200]}")
            kinds.append(kind_of(text, whole[number] if number < len(whole) else b"", fault, MEMORY_RESPONSE, READ_RESPONSE))
        need(len(kinds) >= len(whole) or "memory's" in kinds or may_lack, f"{len(kinds)} responses come in place of {len(whole)}")
        need(ending == "end" or may_lack, f"a connection ends by {ending}")
        tally.update([*kinds, *["cut"] * (len(kinds) < len(whole) and "memory's" not in kinds)])
    return tally


# ---- All of them ----

def tried(world, case, before, first, rows):
    """Tries a fault at each number until there is no such call, and gives how many outcomes are outside."""
    outside, row = 0, rows[case.name, first.kind()]
    fault = first
    while (seen := world.run(case, fault)).counts["refused"]:
        outside += not counted(world, case, before, fault, seen, row)
        fault = fault._replace(number=fault.number + 1)
    return outside


def counted(world, case, before, fault, seen, row):
    """Adds an outcome to its row, and says one that is outside."""
    try:
        row.update(judged(case, before, fault, seen))
        return True
    except Outside as reason:
        row.update(["tried", "outside"])
        print(f"refused.py: {case.name}, {fault.words()}: {reason}\n    bench/refused.py {world.program} {case.name} '{fault.words()}'", flush=True)
        return False


def least(good, low, high):
    """The least number above `low`, and at most `high`, that is good."""
    while high - low > 1:
        middle = (low + high) // 2
        low, high = (low, middle) if good(middle) else (middle, high)
    return high


def limited(world, case, before, rows):
    """Tries sizes of memory between what just starts and what suffices."""
    def ends(size):
        return world.run(case, Fault("limit", size)).status in SAID

    def suffices(size):
        return world.run(case, Fault("limit", size))[:5] == before[:5]

    starts = least(ends, START, ENOUGH)
    enough = least(suffices, starts - 1, ENOUGH)
    outside = 0
    for step in range(SIZES):
        fault = Fault("limit", starts + (enough - starts) * step // (SIZES - 1))
        outside += not counted(world, case, before, fault, world.run(case, fault), rows[case.name, f"ulimit -v {starts} to {enough}"])
    return outside


COLUMNS = ["tried", "0", "6", "7", "as before", "memory's", "read's", "cut", "older file", "new file", "outside"]


def table_of(rows):
    yield "| case | refused | " + " | ".join(COLUMNS) + " |"
    yield "|---|---" + "|---" * len(COLUMNS) + "|"
    for (name, kind), row in rows.items():
        yield f"| {name} | {kind} | " + " | ".join(str(row[column] or "") for column in COLUMNS) + " |"


def one(world, case, words):
    """Repeats one run, and says what was seen."""
    call, number, *more = words.split()
    fault = Fault(call, int(number), *more[:1], *map(int, more[1:]))
    before, seen = begun(world, case), world.run(case, fault)
    print(*(f"{name} {value}" for name, value in seen._asdict().items()), sep="\n")
    return not counted(world, case, before, fault, seen, collections.Counter())


def begun(world, case):
    """What a case comes to where nothing is refused; None where the program hasn't the command."""
    before = world.run(case, None)
    if before.status == 2:
        print(f"refused.py: the program hasn't {case.name}")
        return None
    if before.status != 0 or any(NO_MEMORY in text for text in (before.out, *(came for came, _ in before.sent))):
        sys.exit(f"refused.py: {case.name} fails where nothing is refused: {before}")
    return before


def tried_in_all(world, small, large, rows):
    """Tries all faults of a case, and the sizes of memory over more documents."""
    before = begun(world, small)
    if not before:
        return 0
    outside = sum(tried(world, small, before, first, rows) for first in faults(small))
    return outside + limited(world, large, begun(world, large), rows)


def main():
    if len(sys.argv) not in (2, 3, 4):
        sys.exit("usage: bench/refused.py PROGRAM [CASE [FAULT]]")
    program, *asked_for = sys.argv[1:]
    rows, outside = collections.defaultdict(collections.Counter), 0
    with tempfile.TemporaryDirectory() as name:
        world = World(pathlib.Path(program).resolve(), pathlib.Path(name))
        pairs = [pair for pair in zip(world.cases(DOCUMENTS, SMALL), world.cases(large(), LARGE)) if pair[0].name in asked_for[:1] or not asked_for]
        if asked_for[1:] and pairs:
            sys.exit(one(world, pairs[0][asked_for[1].startswith("limit")], asked_for[1]))
        for small, wide in pairs:
            outside += tried_in_all(world, small, wide, rows)
    print(*table_of(rows), sep="\n")
    sys.exit(outside > 0)


main()

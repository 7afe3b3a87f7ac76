#!/usr/bin/env python3
"""Times a program beside the plain engine in C++ of `bench/plain.cpp`, over one collection and typed sessions, in one run.

    bench/beside.py COLLECTION PROGRAM [SESSIONS [FACETS]]

COLLECTION is what examples/catalogue.py wrote, or any other; PROGRAM is crates/complete/out/complete. A session types one to three
words of a document letter by letter, at times behind a facet's value, and goes back to the first; there are 100. Each second one
asks two facets with each request: FACETS, as `section,priority`, or the first two names that documents have.

The words are cut here by the reference, which takes a minute for 35 MB, and handed to the plain engine, so its time leaves cutting
out. Both programs answer in turn, five times, and the least time of each counts: of a whole run without that of an empty script for
PROGRAM, and inside its process for the plain engine. Then each request is timed through `serve`, by a client that sends one behind
the other, beside the same request in the plain engine. Replies are compared byte for byte, and the status is 1 where one differs.
A ratio holds on other machines about as well; a time doesn't. It needs g++.
"""
import concurrent.futures
import os
import pathlib
import random
import re
import socket
import subprocess
import sys
import tempfile
import time

HERE = pathlib.Path(__file__).resolve().parent
sys.path.insert(0, str(HERE.parent / "reference"))
from documents import collection_of, facet_words, words_of    # noqa: E402

PASSES, TYPED = 5, 12            # runs of each program, and the most letters of a word that are typed
CONNECTION_BYTES = 900_000       # of requests on one connection; `serve` takes 2^20


def cut(collection, name):
    """Writes the file of words for the plain engine; the answer has the words and facet words of each document."""
    weights, documents = collection_of(pathlib.Path(collection).read_bytes())
    cut_documents = [(words_of(title), sorted(set(facet_words(facets))), words_of(text)) for title, facets, text in documents]
    with open(name, "w", encoding="utf-8", newline="\n") as file:
        print(*weights, file=file)
        for document, columns in zip(documents, cut_documents):
            print(document.title, *map(" ".join, columns), sep="\t", file=file)
    return cut_documents


def escaped(text):
    return "".join(c if c.isascii() and c.isalnum() or c in ":_" else "+" if c == " " else "".join(f"%{byte:02X}" for byte in c.encode()) for c in text)


def session(dice, document, number):
    """The queries of one session; none where the document has too few words."""
    title, facets, text = document
    words = sorted({word for word in title + text if len(word) >= 3 and not word.isdigit()})
    if len(words) < 3:
        return []
    front = dice.choice(facets)[1:] + " " if number % 5 == 4 and facets else ""
    queries, picked = [front.strip()] * bool(front), dice.sample(words, {3: 3, 4: 1}.get(number % 5, 2))
    for word in picked:
        queries += [front + word[:end] for end in range(1, min(len(word), TYPED) + 1)]
        front += word + " "
    return queries + picked[:1] * (len(picked) > 1)


def typed(documents, sessions, facets):
    """The requests of so many sessions, the same in each run."""
    dice, lines, number = random.Random(1), [], 0
    for _ in range(100 * sessions):
        queries = session(dice, dice.choice(documents), number)
        lines += ["q=" + escaped(query) + (f"&f={facets}" if facets and number % 2 else "") for query in queries]
        number += bool(queries)
        if number == sessions:
            return lines
    sys.exit("too few documents have three words of three letters")


def first_facets(documents):
    names = dict.fromkeys(word.split(":")[1] for _, words, _ in documents for word in words)
    return ",".join(list(names)[:2])


def prepared(collection, name, sessions=100, facets=None):
    """Writes the file of words; the answer has the requests. It is called in a process of its own, since a program's peak counts what the
    process holds that starts it."""
    documents = cut(collection, name)
    return typed(documents, int(sessions), first_facets(documents) if facets is None else facets)


def run(*words, out=subprocess.DEVNULL):
    """Runs a program to its end: its wall seconds, its processor seconds and its peak in MiB."""
    begun = time.perf_counter()
    child = subprocess.Popen(list(map(str, words)), stdout=out)
    _, status, used = os.wait4(child.pid, 0)
    child.returncode = os.waitstatus_to_exitcode(status)
    if child.returncode:
        sys.exit(f"{words[0]} {words[1]} ended with {child.returncode}")
    return time.perf_counter() - begun, used.ru_utime + used.ru_stime, used.ru_maxrss / 1024


def connections(lines):
    """The requests as heads, in groups that each fit one connection."""
    groups, size = [[]], 0
    for line in lines:
        head = f"GET /search?{line} HTTP/1.1\r\nHost: localhost\r\n\r\n".encode()
        if size + len(head) > CONNECTION_BYTES:
            groups.append([])
            size = 0
        groups[-1].append(head)
        size += len(head)
    return groups


def served(program, index, lines):
    """The seconds of each request through `serve`, one behind the other."""
    groups, times = connections(lines), []
    with socket.socket() as free:
        free.bind(("127.0.0.1", 0))
        port = free.getsockname()[1]
    child = subprocess.Popen([program, "serve", index, str(port), str(len(groups))], stdout=subprocess.PIPE)
    try:
        if not child.stdout.readline().startswith(b"serving"):
            sys.exit("serve doesn't listen")
        for group in groups:
            with socket.create_connection(("127.0.0.1", port)) as connection:
                connection.setsockopt(socket.IPPROTO_TCP, socket.TCP_NODELAY, 1)
                times += [exchange(connection, head) for head in group]
        child.wait()
    finally:
        if child.poll() is None:
            child.kill()
    return times


def exchange(connection, head):
    """The seconds until the whole response to a request is there."""
    begun, came = time.perf_counter(), b""
    connection.sendall(head)
    while b"\r\n\r\n" not in came:
        came += connection.recv(65_536) or sys.exit("the connection was closed")
    front, _, body = came.partition(b"\r\n\r\n")
    length = int(re.search(rb"(?i)content-length: (\d+)", front)[1])
    while len(body) < length:
        body += connection.recv(65_536) or sys.exit("the connection was closed")
    return time.perf_counter() - begun


def parts(seconds):
    """Mean, median, 95 % and greatest, in ms."""
    ordered = sorted(seconds)
    return [1000 * value for value in (sum(ordered) / len(ordered), ordered[len(ordered) // 2], ordered[len(ordered) * 95 // 100], ordered[-1])]


def row(what, *cells):
    print(f"{what:36}", *(f"{cell:>10.3f}" if isinstance(cell, float) else f"{cell:>10}" for cell in cells))


def measure(collection, program, folder, lines):
    """Prints the figures; the answer is whether all replies are alike."""
    at = {name: str(folder / name) for name in ("plain", "words", "script", "empty", "index", "times", "plain.out", "program.out")}
    subprocess.run(["g++", "-O2", "-march=native", "-std=c++17", "-o", at["plain"], str(HERE / "plain.cpp")], check=True)
    pathlib.Path(at["script"]).write_text("\n".join(lines) + "\n")
    pathlib.Path(at["empty"]).write_text("")
    builds, opened, whole, readied, inside, singles = [], [], [], [], [], []
    for _ in range(PASSES):
        readied.append(run(at["plain"], "words", at["words"], at["empty"]))
        builds.append(run(program, "build", collection, at["index"]))
        with open(at["plain.out"], "wb") as out:
            run(at["plain"], "words", at["words"], at["script"], at["times"], out=out)
        inside.append([int(line) / 1e9 for line in open(at["times"])])
        opened.append(run(program, "replay", at["index"], at["empty"]))
        with open(at["program.out"], "wb") as out:
            whole.append(run(program, "replay", at["index"], at["script"], out=out))
        singles.append(served(program, at["index"], lines))
    row("", "program", "plain", "by plain")
    for place, what in enumerate(("build: wall s", "build: processor s", "build: peak MiB")):
        program_one, plain_one = (min(times[place] for times in runs) for runs in (builds, readied))
        row(what, program_one, plain_one, program_one / plain_one)
    replayed = 1000 * (min(times[0] for times in whole) - min(times[0] for times in opened)) / len(lines)
    plain_mean = 1000 * min(map(sum, inside)) / len(lines)
    row("a request of the script, mean ms", replayed, plain_mean, replayed / plain_mean)
    least = [parts(map(min, zip(*times))) for times in (singles, inside)]
    for what, program_one, plain_one in zip(("mean", "median", "95 %", "greatest"), *least):
        row(f"over a connection: {what} ms", program_one, plain_one, program_one / plain_one)
    replies = [open(at[name], "rb").readlines() for name in ("program.out", "plain.out")]
    alike = sum(one == other for one, other in zip(*replies))
    print(f"{alike} of {len(lines)} replies alike; load {os.getloadavg()[0]:.1f} on {os.cpu_count()} processors")
    return alike == len(lines) == len(replies[0]) == len(replies[1])


def main():
    if len(sys.argv) not in (3, 4, 5) or not all(word.isdigit() for word in sys.argv[3:4]):
        sys.exit("usage: bench/beside.py COLLECTION PROGRAM [SESSIONS [FACETS]]")
    collection, program = sys.argv[1], os.path.abspath(sys.argv[2])
    with tempfile.TemporaryDirectory(prefix="beside-") as folder:
        with concurrent.futures.ProcessPoolExecutor(1) as other:
            lines = other.submit(prepared, collection, os.path.join(folder, "words"), *sys.argv[3:]).result()
        return 0 if measure(collection, program, pathlib.Path(folder), lines) else 1


if __name__ == "__main__":
    sys.exit(main())

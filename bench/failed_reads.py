#!/usr/bin/env python3
"""Fails one read of `complete serve`, and puts another index file under the name before the first request. Run it by hand:

    bench/failed_reads.py PROGRAM [READS]

PROGRAM is crates/complete/out/complete. For each K up to READS (200) it serves the index file of `examples/papers.tsv`, and a
library that is loaded before the program fails the K-th call of `pread` once, with EIO; it counts from the call of `listen` on, as
a read that fails before ends the run. Another collection's index file is renamed over the name once the server listens. Each response
must be 500 or the right one, that of the file which was opened. It needs Python 3.9 and a C compiler, `cc`, and takes a minute.
"""
import os
import pathlib
import socket
import subprocess
import sys
import tempfile
import urllib.error
import urllib.request

ROOT = pathlib.Path(__file__).resolve().parent.parent
COLLECTION = ROOT / "examples" / "papers.tsv"
QUERIES = [f"q={q}{more}" for q in ("typ", "a", "searc+ind", "the+co", "inf") for more in ("", "&f=author,year", "&h=20")]

FAILING = r"""
#define _GNU_SOURCE
#include <dlfcn.h>
#include <errno.h>
#include <stdlib.h>
#include <unistd.h>

static int listens, calls;

int listen(int fd, int backlog) {
    int (*next)(int, int) = (int (*)(int, int))dlsym(RTLD_NEXT, "listen");
    listens = 1;
    return next(fd, backlog);
}

static int fails(void) {
    const char *failing = getenv("FAILING_READ");
    calls += listens;
    return listens && failing && atoi(failing) == calls;
}

ssize_t pread(int fd, void *bytes, size_t count, off_t at) {
    ssize_t (*next)(int, void *, size_t, off_t) = (ssize_t(*)(int, void *, size_t, off_t))dlsym(RTLD_NEXT, "pread");
    if (fails()) {
        errno = EIO;
        return -1;
    }
    return next(fd, bytes, count, at);
}

ssize_t pread64(int fd, void *bytes, size_t count, off_t at) {
    return pread(fd, bytes, count, at);
}
"""


def library(folder):
    source, made = folder / "failing.c", folder / "failing.so"
    source.write_text(FAILING)
    subprocess.run(["cc", "-shared", "-fPIC", "-o", made, source, "-ldl"], check=True)
    return made


def free_port():
    with socket.socket() as asked:
        asked.bind(("127.0.0.1", 0))
        return asked.getsockname()[1]


def served(program, index, environment, between=None):
    """The status and body of each query."""
    port = free_port()
    words = [program, "serve", index, str(port), str(len(QUERIES))]
    server = subprocess.Popen(words, env={**os.environ, **environment}, stdout=subprocess.PIPE, stderr=subprocess.DEVNULL)
    if not server.stdout.readline():
        sys.exit("failed_reads.py: the server doesn't start")
    if between:
        between()
    replies = []
    for query in QUERIES:
        try:
            with urllib.request.urlopen(f"http://127.0.0.1:{port}/search?{query}", timeout=20) as reply:
                replies.append((reply.status, reply.read()))
        except urllib.error.HTTPError as error:
            replies.append((error.code, error.read()))
    server.kill()
    server.wait()
    return replies


def main():
    if len(sys.argv) not in (2, 3) or not all(word.isdigit() for word in sys.argv[2:]):
        sys.exit("usage: bench/failed_reads.py PROGRAM [READS]")
    program = pathlib.Path(sys.argv[1]).resolve()
    reads = int(sys.argv[2]) if len(sys.argv) == 3 else 200
    with tempfile.TemporaryDirectory() as name:
        folder = pathlib.Path(name)
        failing, index, other = str(library(folder)), folder / "index", folder / "other.tsv"
        lines = COLLECTION.read_text().splitlines()
        other.write_text("\n".join(lines[::-1]))

        built = []
        for collection in (COLLECTION, other):
            subprocess.run([program, "build", collection, index], check=True)
            built.append(index.read_bytes())

        def rename():
            os.replace(folder / "new", index)

        index.write_bytes(built[0])
        right = served(program, index, {})
        seen = {"right": 0, "500": 0}
        for k in range(1, reads + 1):
            index.write_bytes(built[0])
            (folder / "new").write_bytes(built[1])
            replies = served(program, index, {"LD_PRELOAD": failing, "FAILING_READ": str(k)}, rename)
            for query, found, want in zip(QUERIES, replies, right):
                if found[0] != 500 and found != want:
                    sys.exit(f"failed_reads.py: {query} is answered wrong, the {k}. read failed: {found[1][:200]}")
                seen["500" if found[0] == 500 else "right"] += 1
        print(seen)


main()

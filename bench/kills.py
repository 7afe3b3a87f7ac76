#!/usr/bin/env python3
"""Ends `complete build` midway, again and again, and says what stands under the index file's name then. Run it by hand:

    bench/kills.py PROGRAM [KILLS [PAIRS]]

PROGRAM is crates/complete/out/complete. KILLS (500) times it builds `examples/papers.tsv` over an older index file and is killed:
every third time at a moment of the whole run, else up to 3 ms after the file beside is there. PAIRS (50) times two build two collections
into one name at once. Under the name must stand the older file
or the new one, whole, and of two at once one of both; what else is in the folder must say that it was being made. Then it counts the
calls of `fsync` of one build, by a library that is loaded before the program, and runs a build whose second one fails. It needs
Python 3.9 and a C compiler, `cc`, and takes a minute.
"""
import os
import pathlib
import subprocess
import sys
import tempfile
import time

ROOT = pathlib.Path(__file__).resolve().parent.parent
COLLECTION = ROOT / "examples" / "papers.tsv"

COUNTING = r"""
#define _GNU_SOURCE
#include <dlfcn.h>
#include <errno.h>
#include <stdio.h>
#include <stdlib.h>
#include <unistd.h>

static int calls;

int fsync(int fd) {
    int (*next)(int) = (int (*)(int))dlsym(RTLD_NEXT, "fsync");
    const char *failing = getenv("FAILING_FSYNC");
    calls++;
    dprintf(9, "%d\n", calls);
    if (failing && atoi(failing) == calls) {
        errno = EIO;
        return -1;
    }
    return next(fd);
}
"""


def library(folder):
    """The library that counts, built in this folder."""
    source, made = folder / "counting.c", folder / "counting.so"
    source.write_text(COUNTING)
    subprocess.run(["cc", "-shared", "-fPIC", "-o", made, source, "-ldl"], check=True)
    return made


def build(program, collection, index):
    return subprocess.Popen([program, "build", collection, index], stderr=subprocess.DEVNULL)


def index_of(program, collection, folder):
    """The bytes of the collection's index file."""
    made = folder / "whole"
    if build(program, collection, made).wait():
        sys.exit("kills.py: the program doesn't build")
    return made.read_bytes()


def leftovers(folder):
    """The names beside `index`; each must say what it is."""
    names = [name for name in os.listdir(folder) if name != "index"]
    strange = [name for name in names if not name.startswith("index.building-")]
    if strange:
        sys.exit(f"kills.py: {strange} was left")
    for name in names:
        os.remove(folder / name)
    return len(names)


def kill(program, place, old, new, kills, whole_time):
    seen = {"older": 0, "new": 0, "left beside": 0}
    for i in range(kills):
        (place / "index").write_bytes(old)
        run = build(program, COLLECTION, place / "index")
        if i % 3 == 0:
            time.sleep(whole_time * 1.1 * i / kills)
        else:
            while run.poll() is None and len(os.listdir(place)) == 1:
                time.sleep(0.0002)
            time.sleep(0.003 * i / kills)
        run.kill()
        run.wait()
        found = (place / "index").read_bytes()
        if found not in (old, new):
            sys.exit(f"kills.py: a broken file of {len(found)} bytes, kill {i}")
        seen["older" if found == old else "new"] += 1
        seen["left beside"] += leftovers(place)
    return seen


def pairs(program, place, second, both, count):
    seen = [0, 0]
    for i in range(count):
        runs = [build(program, COLLECTION, place / "index"), build(program, second, place / "index")]
        if any([run.wait() for run in runs]):
            sys.exit(f"kills.py: one of two failed, pair {i}")
        found = (place / "index").read_bytes()
        if found not in both:
            sys.exit(f"kills.py: a broken file of {len(found)} bytes, pair {i}")
        seen[both.index(found)] += 1
        if leftovers(place):
            sys.exit("kills.py: two that ended left a file")
    return seen


def synced(program, folder, place, failing):
    """The status of a build, and how many calls of `fsync` it made."""
    told = folder / "told"
    more = {"LD_PRELOAD": str(library(folder)), "FAILING_FSYNC": str(failing)}
    with open(told, "wb") as out:
        os.dup2(out.fileno(), 9)
        status = subprocess.run([program, "build", COLLECTION, place / "index"], env={**os.environ, **more},
                                stderr=subprocess.DEVNULL, pass_fds=[9]).returncode
        os.close(9)
    return status, len(told.read_text().split())


def main():
    if len(sys.argv) not in (2, 3, 4) or not all(word.isdigit() for word in sys.argv[2:]):
        sys.exit("usage: bench/kills.py PROGRAM [KILLS [PAIRS]]")
    program = pathlib.Path(sys.argv[1]).resolve()
    kills, count = [int(word) for word in sys.argv[2:] + ["500", "50"][len(sys.argv) - 2:]]
    with tempfile.TemporaryDirectory() as name:
        folder = pathlib.Path(name)
        place = folder / "place"
        place.mkdir()
        second = folder / "second.tsv"
        second.write_text("\n".join(COLLECTION.read_text().splitlines()[::-1]))
        begun = time.time()
        new = index_of(program, COLLECTION, folder)
        whole_time = time.time() - begun
        old = index_of(program, second, folder)
        print("killed:", kill(program, place, old, new, kills, whole_time))
        first, other = pairs(program, place, second, (new, old), count)
        print("two at once: the first one's", first, "and the other one's", other)
        (place / "index").write_bytes(old)
        print("calls of fsync, and status:", synced(program, folder, place, 0)[::-1])
        for failing, kept in ((1, old), (2, new)):
            (place / "index").write_bytes(old)
            status, calls = synced(program, folder, place, failing)
            found = (place / "index").read_bytes()
            if status != 6 or found != kept or leftovers(place):
                sys.exit(f"kills.py: a failing fsync, the {failing}. one, ends with {status}")
            print(f"the {failing}. fsync fails: status 6, and the", "older file" if found == old else "new one")


main()

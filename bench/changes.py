#!/usr/bin/env python3
"""What additions and deletions take in `live`, and a keystroke behind them, beside the same over the index alone.

    bench/changes.py PROGRAM COLLECTION [RUNS]

It builds the index of COLLECTION, types some words of its titles letter by letter, and has PROGRAM answer them as `replay` and as `live`:
with nothing changed, and behind 1,000 documents of 100 words added, or 1,000 deleted, or both. The first keystroke behind additions brings
their rows in, and is measured by itself. Each of these figures is a difference of processor time between a script and the same one without
what is measured, each the least of RUNS runs (5 where it is left out). Then it adds 110,000 documents, and reads the processor time as their
lines come out: rows are brought in once for many additions, so that a single difference says little of one.
"""
import os
import pathlib
import random
import re
import resource
import subprocess
import sys
import tempfile

WORDS, CHANGES, MANY, STEP, TYPED = 100, 1_000, 110_000, 10_000, 200


def processor_time(words):
    """Seconds that a run takes of a processor."""
    before = resource.getrusage(resource.RUSAGE_CHILDREN)
    subprocess.run(words, stdout=subprocess.DEVNULL, check=True)
    after = resource.getrusage(resource.RUSAGE_CHILDREN)
    return after.ru_utime + after.ru_stime - before.ru_utime - before.ru_stime


def additions(dice, known, count):
    """Lines that add so many documents of words that are known, and of one that isn't."""
    for number in range(count):
        yield f"add {' '.join(dice.choices(known, k=8))}\t\t{' '.join(dice.choices(known, k=WORDS - 9))} added{number}\n"


def typed(dice, titles):
    """Words of titles, letter by letter, each second time with another word of the title in front."""
    for _ in range(TYPED):
        words = re.findall(r"[a-z]+", dice.choice(titles).lower()) or ["a"]
        word = dice.choice(words)
        front = "" if dice.random() < 0.5 else words[0] + "+"
        for letters in range(1, len(word) + 1):
            yield f"q={front}{word[:letters]}\n"


def taken_by(process):
    """Milliseconds of a processor that a process has taken so far."""
    fields = pathlib.Path(f"/proc/{process}/stat").read_text().rsplit(")", 1)[1].split()
    return 1_000 * (int(fields[11]) + int(fields[12])) / os.sysconf("SC_CLK_TCK")


def by_steps(words):
    """What each STEP lines of a run take of a processor, in milliseconds a line."""
    with subprocess.Popen(words, stdout=subprocess.PIPE) as run:
        before = taken_by(run.pid)
        for number, _ in enumerate(run.stdout, 1):
            if number % STEP == 0:
                now = taken_by(run.pid)
                yield number, (now - before) / STEP
                before = now


def main():
    program, collection = sys.argv[1:3]
    runs = int(sys.argv[3]) if len(sys.argv) > 3 else 5
    dice = random.Random(20)
    lines = pathlib.Path(collection).read_text("utf-8").split("\n")
    known = sorted({word for line in dice.sample(lines, min(len(lines), 2_000)) for word in re.findall(r"[a-z]+", line.lower())})
    keys = list(typed(dice, [line.split("\t")[0] for line in lines]))
    some, many = list(additions(dice, known, 2 * CHANGES)), list(additions(dice, known, MANY))
    gone = [f"del {number}\n" for number in dice.sample(range(len(lines)), min(CHANGES, len(lines) // 2))]
    changed = some[:CHANGES] + gone
    with tempfile.TemporaryDirectory() as made:
        folder = pathlib.Path(made)
        subprocess.run([program, "build", collection, folder / "index"], check=True)

        def least(command, script, without):
            """The least difference of two scripts, in milliseconds."""
            taken = []
            for name, content in (("long", script), ("short", without)):
                (folder / name).write_text("".join(content))
                taken.append(min(processor_time([program, command, folder / "index", folder / name]) for _ in range(runs)))
            return 1_000 * (taken[0] - taken[1])

        first = keys[:1]
        alone = least("replay", first + keys, first) / len(keys)
        print(f"a keystroke: {alone:.3f} ms")
        print(f"the same in `live`, nothing changed: {least('live', first + keys, first) / len(keys) / alone:.2f} times")
        for name, before in (("additions", some[:CHANGES]), ("deletions", gone), ("additions and deletions", changed)):
            times = least("live", before + first + keys, before + first) / len(keys) / alone
            print(f"behind {CHANGES} {name}: {times:.2f} times, and the first one {least('live', before + first, before):.0f} ms more")
        print(f"an addition behind {CHANGES}: {least('live', some, some[:CHANGES]) / CHANGES:.3f} ms")
        (folder / "many").write_text("".join(many))
        for number, each in by_steps([program, "live", folder / "index", folder / "many"]):
            print(f"an addition, the {STEP} up to {number}: {each:.3f} ms")
        print(f"a deletion behind {CHANGES} additions: {least('live', changed, some[:CHANGES]) / len(gone):.3f} ms")


if __name__ == "__main__":
    main()

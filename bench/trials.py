#!/usr/bin/env python3
"""Times `trial 1000` beside `trial 10`, for one build of the program or several in turn.

    bench/trials.py ROUNDS PROGRAM ...

A round is one `trial 1000` and eight `trial 10` of each program. Printed are the least, the lower quartile and the middle of
the wall times in ms, and the one by the other of each; then the middle of the rounds' own ratios, each `trial 1000` by the
mean of its `trial 10`, and the peak of `trial 1000` in MiB. On a busy machine the least favours the short trial, which
finds a quiet moment sooner; a round's own ratio stays.
"""
import os
import sys
import time

SHORT, LONG = 10, 1000
SHORT_RUNS = 8


def timed(program, number):
    """The wall time of a trial in ms, and its peak in MiB."""
    begun = time.perf_counter()
    sink = [(os.POSIX_SPAWN_OPEN, 1, os.devnull, os.O_WRONLY, 0)]
    child = os.posix_spawn(program, [program, "trial", str(number)], os.environ, file_actions=sink)
    _, status, used = os.wait4(child, 0)
    taken = (time.perf_counter() - begun) * 1000
    assert status == 0, (program, number, status)
    return taken, used.ru_maxrss / 1024


def parts(values):
    """The least, the lower quartile and the middle."""
    ordered = sorted(values)
    return ordered[0], ordered[len(ordered) // 4], ordered[len(ordered) // 2]


def main():
    if len(sys.argv) < 3 or not sys.argv[1].isdigit():
        sys.exit("usage: bench/trials.py ROUNDS PROGRAM ...")
    rounds, programs = int(sys.argv[1]), sys.argv[2:]
    short = {program: [] for program in programs}
    long = {program: [] for program in programs}
    own = {program: [] for program in programs}
    peak = dict.fromkeys(programs, 0)
    for _ in range(rounds):
        for program in programs:
            few = [timed(program, SHORT)[0] for _ in range(SHORT_RUNS)]
            taken, most = timed(program, LONG)
            short[program] += few
            long[program].append(taken)
            own[program].append(taken * SHORT_RUNS / sum(few))
            peak[program] = max(peak[program], most)
    for program in programs:
        pairs = list(zip(parts(short[program]), parts(long[program])))
        print(program)
        for name, (few, many) in zip(("least", "lower quartile", "middle"), pairs):
            print(f"  {name:15} trial {SHORT} {few:7.2f}  trial {LONG} {many:7.1f}  by {many / few:5.1f}")
        print(f"  of a round, middle: by {parts(own[program])[2]:.1f}; peak {peak[program]:.0f} MiB")


if __name__ == "__main__":
    main()

"""The processor time of a pass: what blocks.sh and columns.sh share."""
import os
import subprocess


def run(program, call, rows, other, times):
    """What a program prints, and the seconds that it takes, with so many passes of a call."""
    child = subprocess.Popen([program, call, str(times), str(rows), str(other)], stdout=subprocess.PIPE, text=True)
    out = child.stdout.read().split()
    _, status, used = os.wait4(child.pid, 0)
    assert status == 0, (program, call, rows, other, status)
    return out, used.ru_utime + used.ru_stime


def pass_of(program, call, rows, other, count):
    """What a program prints with one pass and with so many more, and the seconds of one of these."""
    out, one = run(program, call, rows, other, 1)
    more, many = run(program, call, rows, other, count + 1)
    return out, more, (many - one) / count

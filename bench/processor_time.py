"""The time that a program takes of the processor, which other work on the machine changes little."""

import os
import subprocess
import time


def of_run(words, given=os.devnull, told=os.devnull):
    """The seconds of one run of a command, which has to end with status 0: with the file that it reads
    as its input, and the one that gets its output."""
    with open(given, "rb") as stdin, open(told, "wb") as stdout:
        child = subprocess.Popen(words, stdin=stdin, stdout=stdout)
        _, status, used = os.wait4(child.pid, 0)
    if status != 0:
        raise SystemExit("not the wanted answer: %s" % " ".join(words))
    return used.ru_utime + used.ru_stime


def least_of_three(words, given=os.devnull, told=os.devnull):
    """The least seconds of three runs."""
    return min(of_run(words, given, told) for _ in range(3))


def of_calls(call, turns):
    """The milliseconds of one of so many calls in this process, the least of three times."""

    def once():
        start = time.process_time()
        for _ in range(turns):
            call()
        return (time.process_time() - start) / turns * 1e3

    return min(once() for _ in range(3))

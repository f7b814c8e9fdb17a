#!/usr/bin/env python3
"""How long reading a response takes, whole, in arrivals of 1,000 bytes and byte by byte.

    (cd crates/http_benches && rt run)
    bench/http.py --bin crates/http_benches/out/http_benches

A body of a stated length, one in chunks of ten bytes and one that lasts until the close are read at 1 MB,
2 MB, 4 MB and 8 MB, and a head at 8 KB, 16 KB, 32 KB and 64 KB, which is its limit. Where reading is
linear in the bytes, the nanoseconds of a byte are about the same down each column. Where it is as dear in
small arrivals as in one piece, but for the calls themselves, they are about the same in the first two
columns. Times are the processor's, so that other work on the machine matters little. The program checks that
each response comes to its answer.
"""

import argparse
import os

from processor_time import least_of_three

BODIES = (1_000_000, 2_000_000, 4_000_000, 8_000_000)
HEADS = (8_000, 16_000, 32_000, 65_000)
ARRIVALS = (10**9, 1_000, 1)


def nanoseconds(program, form, size, arrival):
    """The least processor time of three runs, for one turn. A run makes its message once."""
    turns = max(3, 8_000_000 // size)
    words = [program, form, str(size), str(arrival), str(turns)]
    return least_of_three(words) / turns * 1e9


def main():
    parser = argparse.ArgumentParser()
    parser.add_argument("--bin", required=True)
    program = os.path.abspath(parser.parse_args().bin)
    print("%-8s %9s  %24s  %24s  %24s" % ("form", "bytes", "whole", "by 1,000", "byte by byte"))
    for form in ("stated", "chunked", "close", "head"):
        for size in HEADS if form == "head" else BODIES:
            cells = []
            for arrival in ARRIVALS:
                taken = nanoseconds(program, form, size, arrival)
                cells.append("%10.3f ms %6.2f ns/byte" % (taken / 1e6, taken / size))
            print("%-8s %9d  %s" % (form, size, "  ".join(cells)), flush=True)


if __name__ == "__main__":
    main()

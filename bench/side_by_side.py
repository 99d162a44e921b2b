#!/usr/bin/env python3
"""Ratios of two files of lines 'WORK SIZE NANOSECONDS', the proved program's and the plain one's."""

import sys


def times(path):
    with open(path) as lines:
        return {(work, int(size)): int(time) for work, size, time in (line.split() for line in lines)}


if __name__ == "__main__":
    proved, plain = times(sys.argv[1]), times(sys.argv[2])
    for (work, size), time in proved.items():
        beside = plain[work, size]
        print(f"{work} of {size}: {time / 1e6:.2f} ms, plain Rust {beside / 1e6:.2f} ms, ratio {time / beside:.2f}")
        tenth = (work, size // 10)
        if tenth in proved:
            print(f"  ten times as many: {time / proved[tenth]:.1f} times the time, plain {beside / plain[tenth]:.1f}")

#!/usr/bin/env python3
"""Whole commands beside `cat` of the same file: wall-clock time from start to end, the runs of both taken in turn."""

import os
import statistics
import subprocess
import tempfile
import time

RUNS = 400
PROGRAM = "../a2shop"
IMAGE = "../samples/hello.dsk"
TRACKS = "../samples/hello.nib"


def run(words):
    """The seconds of one run."""
    nowhere = os.open(os.devnull, os.O_RDWR)
    actions = [(os.POSIX_SPAWN_DUP2, nowhere, 0), (os.POSIX_SPAWN_DUP2, nowhere, 1)]
    start = time.perf_counter()
    child = os.posix_spawnp(words[0], words, os.environ, file_actions=actions)
    _, status = os.waitpid(child, 0)
    seconds = time.perf_counter() - start
    os.close(nowhere)
    if status != 0:
        raise SystemExit(f"{words} ended with {status}")
    return seconds


def peak_memory(words):
    """The peak memory of one run in kilobytes, by `time`, since a child of Python starts with Python's own peak."""
    found = subprocess.run(["time", "-f", "%M", *words], stdin=subprocess.DEVNULL, capture_output=True, text=True, check=True)
    return int(found.stderr.split()[-1])


def side_by_side(name, words, plain):
    ours, theirs = [], []
    for _ in range(RUNS):
        ours.append(run(words))
        theirs.append(run(plain))
    ours, theirs = statistics.median(ours), statistics.median(theirs)
    print(f"{name}: {ours * 1e3:.2f} ms, {' '.join(plain)}: {theirs * 1e3:.2f} ms, ratio {ours / theirs:.2f}, peak memory {peak_memory(words)} KB")


if __name__ == "__main__":
    side_by_side("catalog", [PROGRAM, "catalog", IMAGE, "--fs", "dos", "--order", "dos"], ["cat", IMAGE])
    with tempfile.TemporaryDirectory() as folder:
        for order, image in [("nibble", IMAGE), ("dos", TRACKS)]:
            given = "dos" if order == "nibble" else "nibble"
            words = ["convert", image, "--order", given, "--to", order, "--out", f"{folder}/converted"]
            side_by_side(f"convert to {order} order", [PROGRAM, *words], ["cp", image, f"{folder}/copied"])

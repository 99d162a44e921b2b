#!/usr/bin/env python3
"""Jobs on a file where it stands: the listing of a large volume beside the bare start of the program, its check beside a plain program
that reads the whole file, and its optimization in place beside a plain program that makes the same calls; and what it would cost to put
the file onto the disk after each write. The runs of both are taken in turn."""

import os
import shutil
import statistics
import subprocess
import tempfile

from large_volumes import PLAIN as PLAIN_LARGE, Volume
from whole_commands import PROGRAM, run

RUNS, SYNCED_RUNS = 40, 3
PLAIN = "out/plain_in_place"
CALLS = "out/calls.so"
BLOCKS = 65_535
SMALL_BLOCKS = 280


def fresh(image, copy, words):
    """The seconds of a run on a copy of an image that was just made."""
    shutil.copyfile(image, copy)
    os.sync()
    return run(words)


def medians(runs, one, other):
    pairs = [(one(), other()) for _ in range(runs)]
    return (statistics.median(column) for column in zip(*pairs))


def reading(image):
    form = [image, "--fs", "prodos", "--order", "prodos"]
    listed, started = medians(RUNS, lambda: run([PROGRAM, "catalog", *form]), lambda: run([PROGRAM, "--version"]))
    print(f"catalog of {BLOCKS} blocks: {listed * 1e3:.2f} ms, {(listed - started) * 1e3:.2f} ms over the bare start of {started * 1e3:.2f} ms")
    checked, plain = medians(RUNS, lambda: run([PROGRAM, "check", *form]), lambda: run([PLAIN_LARGE, "check", image]))
    print(f"check of {BLOCKS} blocks: {checked * 1e3:.2f} ms, plain, of the whole file, {plain * 1e3:.2f} ms, ratio {checked / plain:.2f}")


def placing(image, copy, calls, blocks):
    words = [PROGRAM, "optimize", copy, "--fs", "prodos", "--order", "prodos", "--in-place"]
    shutil.copyfile(image, copy)
    noted = {**os.environ, "LD_PRELOAD": os.path.abspath(CALLS), "A2SHOP_CALLS": calls}
    subprocess.run(words, env=noted, stdout=subprocess.DEVNULL, check=True)
    with open(calls, encoding="ascii") as file:
        kinds = [line[0] for line in file]
    plain = [PLAIN, copy, calls]
    ours, theirs = medians(RUNS, lambda: fresh(image, copy, words), lambda: fresh(image, copy, [*plain, "once"]))
    print(f"optimize in place of {blocks} blocks, {kinds.count('r')} reads and {kinds.count('w')} writes: {ours * 1e3:.2f} ms, plain {theirs * 1e3:.2f} ms, ratio {ours / theirs:.2f}")
    if blocks == SMALL_BLOCKS:
        synced = statistics.median(fresh(image, copy, [*plain, "each"]) for _ in range(SYNCED_RUNS))
        print(f"the same calls, plain, with the file put onto the disk after each write: {synced * 1e3:.2f} ms")


if __name__ == "__main__":
    os.makedirs("out", exist_ok=True)
    for source, program in (("in_place/plain.rs", PLAIN), ("large_volume/plain.rs", PLAIN_LARGE)):
        subprocess.run(["rustc", "-O", "--edition", "2024", "-o", program, source], check=True)
    subprocess.run(["cc", "-shared", "-fPIC", "-O2", "-o", CALLS, "in_place/calls.c"], check=True)
    with tempfile.TemporaryDirectory() as folder:
        image, copy, calls = f"{folder}/image", f"{folder}/copy", f"{folder}/calls"
        for blocks in (SMALL_BLOCKS, BLOCKS):
            with open(image, "wb") as file:
                file.write(Volume(blocks).image)
            placing(image, copy, calls, blocks)
        reading(image)

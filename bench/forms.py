#!/usr/bin/env python3
"""Files in a readable form, and saved from one: wall-clock time from start to end, beside the same file read and saved as it is, the runs
of both taken in turn, and peak memory."""

import os
import statistics
import sys
import tempfile

import large_volumes
from whole_commands import PROGRAM, peak_memory, run

RUNS = 60
WORDS = ["--fs", "prodos", "--order", "prodos"]
TEXT = ("The quick brown fox jumps over the lazy dog, " * 2 + "and so on.\n").encode()
LINES = ['HOME : PRINT "HELLO, WORLD"', "FOR I = 1 TO 10: PRINT I;: NEXT", "IF A < > B THEN 20", "HPLOT A TO B AT N: GOSUB 1000"]


def program_text(size):
    """A program whose lines have so many bytes or a few less as tokens."""
    lines = [f"{number} {LINES[number % len(LINES)]}\n" for number in range(size // 20)]
    return "".join(lines).encode()


def in_turn(name, ours, plain):
    seconds = [(run(ours), run(plain)) for _ in range(RUNS)]
    formed, as_it_is = (statistics.median(column) * 1e3 for column in zip(*seconds))
    print(f"{name}: {formed:.1f} ms, as it is {as_it_is:.1f} ms, {formed - as_it_is:.1f} ms more, peak memory {peak_memory(ours):,} KB")


def measure(name, form, given, volume, folder):
    """A file of these bytes in a form is saved, and read again; beside it the file's own bytes."""
    empty, source, image, made = (f"{folder}/{file}" for file in ("empty", "source", "image", "made"))
    body = f"{folder}/body.{form}"
    for path, data in [(empty, volume), (source, given)]:
        with open(path, "wb") as file:
            file.write(data)
    save = [PROGRAM, "save", empty, "F", *WORDS, "--from", source, "--as", form, "--out", image]
    run(save)
    read = [PROGRAM, "read", image, "F", *WORDS]
    run([*read, "--out", body])
    kind = {"text": "04", "applesoft": "FC"}[form]
    print(f"{name}: {os.path.getsize(source):,} bytes as a form, {os.path.getsize(body):,} on the volume")
    in_turn(f"{name}, read", [*read, "--as", form], read)
    plain = [PROGRAM, "save", empty, "F", *WORDS, "--from", body, "--type", kind, "--out", made]
    in_turn(f"{name}, saved", [*save[:-1], made], plain)


def main():
    volume = large_volumes.Volume(65_535, 0).image if "large" in sys.argv[1:] else large_volumes.Volume(3_200, 0).image
    with tempfile.TemporaryDirectory() as folder:
        measure("a text of a million bytes", "text", (TEXT * 20_000)[:1_000_000], volume, folder)
        measure("a program of 40 KB", "applesoft", program_text(40_000), volume, folder)


if __name__ == "__main__":
    main()

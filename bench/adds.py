#!/usr/bin/env python3
"""A folder of files into a volume: the best wall-clock time of a few runs from start to end, beside `cp -r` of the same folder, the runs of
both taken in turn, and peak memory beside the bytes of the image. Wanted: 105 files to a disk in less than 50 ms, 800 files of 32 MB in less
than 2 s."""

import os
import random
import shutil
import tempfile

import extracts
import large_volumes
from whole_commands import PROGRAM, peak_memory, run

RUNS = 7
BLOCKS, FILES, LENGTH = 65_535, 800, 40_000
DISK_FILES, DISK_LENGTH = 105, 764


class Bare(large_volumes.Volume):
    """A volume without a file, with one directory that has room for many."""

    def file(self, file):
        """Leaves the entry of a file as it is, and its blocks free."""


def folder_of(path, count, length):
    """A folder with so many files of so many bytes, none of whose units is zeros."""
    os.mkdir(path)
    chance = random.Random(count)
    for file in range(count):
        with open(f"{path}/F{file:05}#060300", "wb") as given:
            given.write(chance.randbytes(length))


def measure(name, image, given, words):
    out, copy = f"{image}.out", f"{given}.copy"
    ours = [PROGRAM, "add", image, "--from", given, "--out", out, *words]
    plainly = ["cp", "-r", given, copy]
    seconds, plain = zip(*((large_volumes.fresh(ours, out), extracts.fresh(plainly, copy)) for _ in range(RUNS)))
    os.remove(out)
    memory, size = peak_memory(ours), os.path.getsize(image)
    print(f"{name}: {min(seconds) * 1e3:.1f} ms, cp -r {min(plain) * 1e3:.1f} ms, ", end="")
    print(f"peak memory {memory:,} KB, {memory * 1024 / size:.2f} of the image", flush=True)
    shutil.rmtree(copy)


def main():
    with tempfile.TemporaryDirectory() as folder:
        disk, volume = f"{folder}/disk", f"{folder}/volume"
        run([PROGRAM, "create", "--fs", "dos", "--out", disk])
        folder_of(f"{folder}/few", DISK_FILES, DISK_LENGTH)
        measure(f"{DISK_FILES} files to a disk", disk, f"{folder}/few", ["--fs", "dos", "--order", "dos"])
        with open(volume, "wb") as file:
            file.write(Bare(BLOCKS, FILES).image)
        folder_of(f"{folder}/many", FILES, LENGTH)
        way = ["--fs", "prodos", "--order", "prodos", "--into", "FILES"]
        measure(f"{FILES} files of {FILES * LENGTH // 10**6} MB to {BLOCKS} blocks", volume, f"{folder}/many", way)


if __name__ == "__main__":
    main()

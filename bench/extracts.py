#!/usr/bin/env python3
"""All files out of a volume: wall-clock time from start to end, beside `cp -r` of the same files, the runs of both taken in turn, and peak
memory. Of a hostile volume memory alone."""

import os
import shutil
import statistics
import sys
import tempfile

import hostile_volumes
import large_volumes
from whole_commands import PROGRAM, peak_memory, run

SECTOR, TRACK = 256, 16


def full_disk():
    """A DOS 3.3 disk with 105 binary files of three sectors each."""
    image = bytearray(35 * TRACK * SECTOR)
    vtoc = 17 * TRACK * SECTOR
    image[vtoc + 1 : vtoc + 4] = bytes([17, 15, 3])
    image[vtoc + 6], image[vtoc + 0x27] = 254, 122
    image[vtoc + 0x34 : vtoc + 0x38] = bytes([35, 16, 0, 1])
    places = iter(place for place in range(3 * TRACK, 35 * TRACK) if place // TRACK != 17)
    for file in range(105):
        table, *bodies = (next(places) for _ in range(4))
        sector, slot = 15 - file // 7, file % 7
        at = vtoc + sector * SECTOR + 0x0B + 35 * slot
        image[at : at + 3] = bytes([*divmod(table, TRACK), 4])
        image[at + 3 : at + 33] = bytes(letter | 0x80 for letter in f"FILE {file}".ljust(30).encode())
        image[at + 33] = 4
        for number, body in enumerate(bodies):
            image[table * SECTOR + 0x0C + 2 * number : table * SECTOR + 0x0E + 2 * number] = bytes(divmod(body, TRACK))
        image[bodies[0] * SECTOR : bodies[0] * SECTOR + 4] = bytes([0, 3]) + (3 * SECTOR - 4).to_bytes(2, "little")
    for sector in range(1, 16):
        image[vtoc + sector * SECTOR + 1 : vtoc + sector * SECTOR + 3] = bytes([17, sector - 1] if sector > 1 else [0, 0])
    return image


def fresh(words, out):
    """The seconds of a run that makes a folder, which isn't there before."""
    shutil.rmtree(out, ignore_errors=True)
    return run(words)


def measure(name, image, words, runs, folder):
    path, out, copy = f"{folder}/image", f"{folder}/out", f"{folder}/copy"
    with open(path, "wb") as file:
        file.write(image)
    ours = [PROGRAM, "extract", path, *words, "--into", out]
    plain = ["cp", "-r", out, copy]
    seconds = [(fresh(ours, out), fresh(plain, copy)) for _ in range(runs)]
    proved, unproved = (statistics.median(column) for column in zip(*seconds))
    shutil.rmtree(out)
    memory = peak_memory(ours)
    print(f"{name}: {proved * 1e3:.1f} ms, cp -r {unproved * 1e3:.1f} ms, ratio {proved / unproved:.2f}, peak memory {memory:,} KB")
    shutil.rmtree(out, ignore_errors=True)
    shutil.rmtree(copy, ignore_errors=True)


def main():
    sys.setrecursionlimit(10_000)
    with tempfile.TemporaryDirectory() as folder:
        measure("105 files of a disk", full_disk(), ["--fs", "dos", "--order", "dos"], 100, folder)
        large_volumes.DATA_BLOCKS = 78
        volume = large_volumes.Volume(65_535, 800)
        measure("800 files of 32 MB", volume.image, ["--fs", "prodos", "--order", "prodos"], 20, folder)
        if "hostile" in sys.argv[1:]:
            volume = hostile_volumes.entries(2)
            measure("851,694 entries of one volume", volume.image, ["--fs", "prodos", "--order", "prodos"], 1, folder)


if __name__ == "__main__":
    main()

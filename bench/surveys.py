#!/usr/bin/env python3
"""Surveys of folders of images: wall-clock time from start to end, beside `sha256sum` of the same files, the runs of both taken in turn, and
peak memory."""

import os
import statistics
import tempfile

import large_volumes
from extracts import full_disk
from whole_commands import PROGRAM, peak_memory, run


def put(path, image):
    with open(path, "wb") as file:
        file.write(image)


def measure(name, folder, runs):
    paths = [os.path.join(folder, file) for file in sorted(os.listdir(folder))]
    ours, plain = [PROGRAM, "survey", folder], ["sha256sum", *paths]
    seconds = [(run(ours), run(plain)) for _ in range(runs)]
    proved, unproved = (statistics.median(column) for column in zip(*seconds))
    print(f"{name}: {proved:.2f} s, sha256sum {unproved:.2f} s, ratio {proved / unproved:.1f}, peak memory {peak_memory(ours):,} KB")


def main():
    with tempfile.TemporaryDirectory() as folder:
        disks, links, volume = (os.path.join(folder, name) for name in ["disks", "links", "volume"])
        for name in [disks, links, volume]:
            os.mkdir(name)
        for number in range(300):
            image = full_disk()
            image[-2:] = number.to_bytes(2, "little")
            put(f"{disks}/{number}.dsk", image)
        for number in range(10_000):
            os.link(f"{disks}/0.dsk", f"{links}/{number}.dsk")
        large_volumes.DATA_BLOCKS = 78
        put(f"{volume}/volume.po", large_volumes.Volume(65_535, 800).image)
        measure("300 disks with 105 files each", disks, 5)
        measure("10,000 names of one such disk", links, 1)
        measure("800 files of 32 MB", volume, 10)


if __name__ == "__main__":
    main()

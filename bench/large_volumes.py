#!/usr/bin/env python3
"""Checks and optimizes of large ProDOS volumes beside a plain program: wall-clock time from start to end, the runs of
both taken in turn, and peak memory beside the bytes of the image."""

import os
import random
import statistics
import subprocess
import tempfile

from whole_commands import PROGRAM, peak_memory, run

RUNS = 40
PLAIN = "out/plain_large_volume"
BLOCK, ENTRY, ENTRIES = 512, 0x27, 13
DATA_BLOCKS = 100
FREE_TENTH = 10


class Volume:
    """A volume whose files, each of 100 data blocks under an index block, lie in one directory and are scattered. They leave a tenth free,
    where it isn't said how many they are."""

    def __init__(self, blocks, files=None):
        self.image = bytearray(blocks * BLOCK)
        self.free = list(range(6 + -(-blocks // (8 * BLOCK)), blocks))
        random.Random(blocks).shuffle(self.free)
        if files is None:
            files = len(self.free) * (FREE_TENTH - 1) // FREE_TENTH // (DATA_BLOCKS + 2)
        self.directories(blocks, files)
        for file in range(files):
            self.file(file)
        for block in self.free:
            self.image[6 * BLOCK + block // 8] |= 0x80 >> block % 8

    def word(self, at, value):
        self.image[at : at + 2] = value.to_bytes(2, "little")

    def chain(self, blocks):
        for before, after in zip(blocks, blocks[1:]):
            self.word(before * BLOCK + 2, after)
            self.word(after * BLOCK, before)

    def name(self, at, storage, name):
        self.image[at : at + 1 + len(name)] = bytes([storage << 4 | len(name)]) + name
        self.image[at + 0x1E] = 0xC3

    def entry(self, at, storage, name, kind, key, used, end, directory):
        self.name(at, storage, name)
        self.image[at + 0x10] = kind
        self.word(at + 0x11, key)
        self.word(at + 0x13, used)
        self.image[at + 0x15 : at + 0x18] = end.to_bytes(3, "little")
        self.word(at + 0x25, directory)

    def header(self, key, storage, name, files, last):
        at = key * BLOCK + 4
        self.name(at, storage, name)
        self.image[at + 0x1F : at + 0x21] = bytes([ENTRY, ENTRIES])
        self.word(at + 0x21, files)
        self.image[at + 0x23 : at + 0x27] = last

    def directories(self, blocks, files):
        self.chain([2, 3, 4, 5])
        self.files = [self.free.pop() for _ in range(-(-(files + 1) // ENTRIES))]
        self.chain(self.files)
        key, size = self.files[0], len(self.files)
        self.header(2, 0xF, b"LARGE", 1, bytes([6, 0]) + blocks.to_bytes(2, "little"))
        self.entry(2 * BLOCK + 4 + ENTRY, 0xD, b"FILES", 0x0F, key, size, size * BLOCK, 2)
        self.header(key, 0xE, b"FILES", files, bytes([2, 0, 2, ENTRY]))
        self.image[key * BLOCK + 4 + 0x10] = 0x75

    def file(self, file):
        index = self.free.pop()
        for number in range(DATA_BLOCKS):
            block = self.free.pop()
            self.image[index * BLOCK + number] = block % 256
            self.image[index * BLOCK + 256 + number] = block // 256
            self.image[block * BLOCK : block * BLOCK + 4] = file.to_bytes(4, "little")
        directory, slot = self.files[(file + 1) // ENTRIES], (file + 1) % ENTRIES
        at = directory * BLOCK + 4 + slot * ENTRY
        self.entry(at, 2, b"F%05d" % file, 6, index, DATA_BLOCKS + 1, DATA_BLOCKS * BLOCK, self.files[0])


def fresh(words, out):
    """The seconds of a run that makes a file, which isn't there before."""
    if os.path.exists(out):
        os.remove(out)
    return run(words)


def side_by_side(name, ours, plain, out, size):
    seconds = [(fresh(ours, out), fresh(plain, out)) for _ in range(RUNS)]
    proved, unproved = (statistics.median(column) for column in zip(*seconds))
    if os.path.exists(out):
        os.remove(out)
    memory = peak_memory(ours) * 1024 / size
    print(f"{name}: {proved * 1e3:.1f} ms, plain {unproved * 1e3:.1f} ms, ratio {proved / unproved:.2f}, memory {memory:.2f} of the image")


if __name__ == "__main__":
    os.makedirs("out", exist_ok=True)
    subprocess.run(["rustc", "-O", "--edition", "2024", "-o", PLAIN, "large_volume/plain.rs"], check=True)
    with tempfile.TemporaryDirectory() as folder:
        image, out = f"{folder}/image", f"{folder}/out"
        for blocks in [8191, 16383, 32767, 65535]:
            with open(image, "wb") as file:
                file.write(Volume(blocks).image)
            form = [image, "--fs", "prodos", "--order", "prodos"]
            size = blocks * BLOCK
            side_by_side(f"check of {blocks} blocks", [PROGRAM, "check", *form], [PLAIN, "check", image], out, size)
            ours = [PROGRAM, "optimize", *form, "--out", out]
            side_by_side(f"optimize of {blocks} blocks", ours, [PLAIN, "optimize", image, out], out, size)

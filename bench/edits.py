#!/usr/bin/env python3
"""The commands that edit beside a plain program that makes the same image: wall-clock time from start to end, the runs of both taken in
turn, and peak memory beside the bytes of the image and of the file that is saved. Wanted: at most twice these on large volumes; on disks
a process takes more by itself."""

import os
import random
import statistics
import subprocess
import tempfile

from large_volumes import Volume, fresh
from whole_commands import PROGRAM, peak_memory

RUNS, LARGE_RUNS = 200, 40
PLAIN = "out/plain_edits"
DISKS = {"dos": "../samples/hello.dsk", "prodos": "../samples/work.po"}
FILES = {"dos": "HELLO", "prodos": "BIG"}
TYPES = {"dos": "T", "prodos": "06"}
BLOCKS = 65_535
DISK_FILE, LARGE_FILE = 20_000, 16_000_000
LINEAR = [1_000_000, 2_000_000, 4_000_000, 8_000_000]


class Edit:
    """A command on an image, for both programs: its words between the image and the options, and the file that it saves."""

    def __init__(self, command, system, image, words, file=None):
        self.command, self.system, self.image, self.words, self.file = command, system, image, words, file

    def ours(self, out):
        words = [PROGRAM, self.command, self.image, *self.words, "--fs", self.system, "--order", self.system, "--out", out]
        return words + ["--type", TYPES[self.system], "--from", self.file] if self.file else words

    def plain(self, out):
        return [PLAIN, self.command, self.image, *self.words, *([self.file] if self.file else []), out]

    def size(self):
        return os.path.getsize(self.image) + (os.path.getsize(self.file) if self.file else 0)


def made(words, out):
    """The image that a run makes."""
    fresh(words, out)
    with open(out, "rb") as file:
        return file.read()


def memory(words, out, size):
    os.remove(out)
    peak = peak_memory(words)
    return f"{peak} KB, {peak * 1024 / size:.2f} of image and file"


def side_by_side(name, edit, folder, runs):
    out = f"{folder}/out"
    ours, plain = edit.ours(out), edit.plain(out)
    if made(ours, out) != made(plain, out):
        raise SystemExit(f"{name}: the images differ")
    seconds = [(fresh(ours, out), fresh(plain, out)) for _ in range(runs)]
    proved, unproved = (statistics.median(column) for column in zip(*seconds))
    print(f"{name}: {proved * 1e3:.2f} ms, plain {unproved * 1e3:.2f} ms, ratio {proved / unproved:.2f}, ", end="")
    print(f"memory {memory(ours, out, edit.size())}, plain {memory(plain, out, edit.size())}", flush=True)


def given(folder, size):
    """A file of so many bytes, none of whose units is zeros."""
    path = f"{folder}/given{size}"
    with open(path, "wb") as file:
        file.write(random.Random(size).randbytes(size))
    return path


def disks(folder, system):
    """The five commands on the image of a disk, on which no file is locked but for the one to unlock."""
    name, locked, unlocked = FILES[system], f"{folder}/locked", f"{folder}/unlocked"
    fresh(Edit("lock", system, DISKS[system], [name]).ours(locked), locked)
    fresh(Edit("unlock", system, DISKS[system], [name]).ours(unlocked), unlocked)
    edits = [Edit("lock", system, unlocked, [name]), Edit("unlock", system, locked, [name])]
    edits += [Edit("rename", system, unlocked, [name, "OTHER"]), Edit("delete", system, unlocked, [name])]
    edits += [Edit("save", system, unlocked, ["NEW"], given(folder, DISK_FILE))]
    for edit in edits:
        side_by_side(f"{edit.command} on a disk of {system}", edit, folder, RUNS)


def large(folder):
    """Files of rising size saved to a nearly empty volume, and the last one deleted."""
    image, full = f"{folder}/image", f"{folder}/full"
    with open(image, "wb") as file:
        file.write(Volume(BLOCKS, files=1).image)
    for size in [*LINEAR, LARGE_FILE]:
        save = Edit("save", "prodos", image, ["NEW"], given(folder, size))
        side_by_side(f"save of {size:,} bytes to {BLOCKS} blocks", save, folder, LARGE_RUNS)
    fresh(save.ours(full), full)
    delete = Edit("delete", "prodos", full, ["NEW"])
    side_by_side(f"delete of {LARGE_FILE:,} bytes from {BLOCKS} blocks", delete, folder, LARGE_RUNS)


if __name__ == "__main__":
    os.makedirs("out", exist_ok=True)
    subprocess.run(["rustc", "-O", "--edition", "2024", "-o", PLAIN, "edits/plain.rs"], check=True)
    with tempfile.TemporaryDirectory() as folder:
        for system in DISKS:
            disks(folder, system)
        large(folder)

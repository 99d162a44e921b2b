#!/usr/bin/env python3
"""Peak memory of the commands on hostile ProDOS volumes, beside the bytes of the image. Wanted are at most twice the image
and 16 MB, and three times the image and 16 MB where a command hands out an image; a comparison has two images.

A chain: directories of one block each, every one within the one before, so that the paths together are far longer than the image.
A file at the end of a chain, its blocks in reverse, so that a plan in words has its long path in every line.
Faults: files whose index blocks hold nothing but wild pointers, 256 faults for each block of 512 bytes.
Entries: thirteen in each block of the volume, in its own directory, or in the subdirectory that comes first there. The
files have no blocks, so that the checker accepts the volume.

The listing of the longest chain has 34 GB, and takes some minutes each time that it is told."""

import resource
import subprocess
import tempfile

from whole_commands import PROGRAM

BLOCK, ENTRY, ENTRIES, POINTERS, TOTAL = 512, 0x27, 13, 256, 65_535
FIRST = 6 + -(-TOTAL // (8 * BLOCK))
MOST_MEMORY = 8 << 30
AUTO = ["--fs", "auto", "--order", "auto"]


class Volume:
    """A volume of 65,535 blocks, all of them marked used, with its directory in block 2 and the ones after it."""

    def __init__(self):
        self.image = bytearray(TOTAL * BLOCK)
        self.header(2, 0xF, b"HOSTILE")
        self.word(2 * BLOCK + 0x27, 6)
        self.word(2 * BLOCK + 0x29, TOTAL)

    def word(self, at, value):
        self.image[at : at + 2] = value.to_bytes(2, "little")

    def header(self, block, storage, name):
        at = block * BLOCK
        self.image[at + 4 : at + 5 + len(name)] = bytes([storage << 4 | len(name)]) + name
        self.image[at + 0x22 : at + 0x25] = bytes([0xC3, ENTRY, ENTRIES])

    def entry(self, block, slot, storage, name, key):
        at = block * BLOCK + 4 + ENTRY * slot
        self.image[at : at + 1 + len(name)] = bytes([storage << 4 | len(name)]) + name
        self.image[at + 0x10] = 0x0F if storage == 0xD else 4
        self.word(at + 0x11, key)
        self.word(at + 0x13, 1)
        self.image[at + 0x16 : at + 0x18] = bytes([2, 0])
        self.image[at + 0x1E] = 0xC3
        self.word(at + 0x25, 2)

    def index(self, block, units):
        for number, unit in enumerate(units):
            self.image[block * BLOCK + number] = unit & 0xFF
            self.image[block * BLOCK + POINTERS + number] = unit >> 8

    def link(self, directories):
        """These blocks are those of one directory."""
        for before, after in zip(directories, directories[1:]):
            self.word(before * BLOCK + 2, after)
            self.word(after * BLOCK, before)

    def fill(self, directories, first):
        """Each slot of these blocks from one on in the first of them has the entry of a file without blocks."""
        for block in directories:
            for slot in range(first if block == directories[0] else 0, ENTRIES):
                self.entry(block, slot, 1, b"F", 0)

    def free(self, blocks):
        """The last blocks are marked free."""
        for block in range(TOTAL - blocks, TOTAL):
            self.image[6 * BLOCK + block // 8] |= 0x80 >> block % 8


def chain(depth):
    volume = Volume()
    for level in range(depth):
        above = 2 if level == 0 else FIRST + level - 1
        volume.entry(above, 1, 0xD, b"A" * 15, FIRST + level)
        volume.header(FIRST + level, 0xE, b"A" * 15)
        volume.word((FIRST + level) * BLOCK + 0x27, above)
        volume.image[(FIRST + level) * BLOCK + 0x29 : (FIRST + level) * BLOCK + 0x2B] = bytes([1, ENTRY])
    return volume


def file_in_chain(depth, blocks):
    volume = chain(depth)
    master = FIRST + depth
    indexes = range(master + 1, master + 1 - (-blocks // POINTERS))
    bodies = list(reversed(range(indexes.stop, indexes.stop + blocks)))
    volume.entry(master - 1, 1, 3, b"F", master)
    end = blocks * BLOCK
    at = (master - 1) * BLOCK + 4 + ENTRY + 0x15
    volume.image[at : at + 3] = end.to_bytes(3, "little")
    volume.index(master, indexes)
    for number, index in enumerate(indexes):
        volume.index(index, bodies[number * POINTERS : (number + 1) * POINTERS])
    return volume


def faults(files):
    volume = Volume()
    directories = [2, 3, 4, 5, *range(FIRST, FIRST + -(-files // ENTRIES))]
    volume.link(directories)
    slots = ((block, slot) for block in directories for slot in range(block == 2, ENTRIES))
    for number, (block, slot) in zip(range(files), slots):
        key = directories[-1] + 1 + number
        volume.entry(block, slot, 2, b"F%d" % number, key)
        volume.image[key * BLOCK : (key + 1) * BLOCK] = b"\xff" * BLOCK
    return volume


def entries(kept_free):
    """As many entries as there is room for in the volume's directory, where so many blocks stay free."""
    volume = Volume()
    directories = [2, 3, 4, 5, *range(FIRST, TOTAL - kept_free)]
    volume.link(directories)
    volume.fill(directories, 1)
    volume.free(kept_free)
    return volume


def entries_within(kept_free):
    """The same in a subdirectory, the first entry of the volume's directory, of which the last slot has no entry."""
    volume = chain(1)
    directories = range(FIRST, TOTAL - kept_free)
    volume.link(directories)
    volume.fill(directories, 1)
    volume.fill([2], 2)
    volume.entry(2, ENTRIES - 1, 0, b"", 0)
    volume.free(kept_free)
    return volume


def peak(words):
    """The status of a command and its peak memory in kilobytes, by `time`; it has 8 GB at most."""
    limit = lambda: resource.setrlimit(resource.RLIMIT_AS, (MOST_MEMORY, MOST_MEMORY))
    timed = ["time", "-f", "%x %M", PROGRAM, *words]
    ran = subprocess.run(timed, stdin=subprocess.DEVNULL, stdout=subprocess.DEVNULL, stderr=subprocess.PIPE, text=True, preexec_fn=limit, check=False)
    return map(int, ran.stderr.split()[-2:])


def wanted(image, images):
    """At most so many times the image and 16 MB."""
    return (images * len(image) + (16 << 20)) >> 20


def edits(path, file, folder, words):
    """The commands that change a volume, on one of its files; a file is saved beside it."""
    with open(f"{folder}/new.bin", "wb") as given:
        given.write(b"a new file")
    asked = [["lock", path, file], ["rename", path, file, "OLD"], ["delete", path, file]]
    asked.append(["save", path, "NEW", "--from", f"{folder}/new.bin"])
    return [[*command, *words, "--out", f"{folder}/out.po"] for command in asked]


def measure(command):
    status, memory = peak(command)
    said = [word for word in command if word == command[0] or word in ("--explain", "--words", "--digests", "--places", "--bodies", "auto")]
    print(f"  {' '.join(said):17} status {status}, peak {memory >> 10:,} MB")


def main():
    with tempfile.TemporaryDirectory() as folder:
        volumes = {
            "a chain of 16,384 directories": (chain(16_384), None),
            "a chain of 65,513 directories": (chain(65_513), None),
            "60,000 files of wild pointers": (faults(60_000), None),
            "a file of 8,000 blocks within 8,192 directories": (file_in_chain(8_192, 8_000), None),
            "851,694 entries in one directory": (entries(2), "F"),
            "851,653 entries, most of them in a subdirectory": (entries_within(2), f"{'A' * 15}/F"),
        }
        for name, (volume, file) in volumes.items():
            image = volume.image
            path = f"{folder}/image.po"
            with open(path, "wb") as written:
                written.write(image)
            print(f"{name}, {len(image):,} bytes; wanted are at most {wanted(image, 2)} MB,"
                  f" and {wanted(image, 3)} MB where an image is handed out")
            words = ["--fs", "prodos", "--order", "prodos"]
            for command in (["catalog", path, *words], ["catalog", path, *words, "--explain"], ["check", path, *words],
                            ["read", path, "NONE", *words], ["plan", path, *words, "--reclaim"],
                            ["plan", path, *words, "--reclaim", "--words"],
                            ["optimize", path, *words, "--reclaim", "--out", f"{folder}/out.po"], ["identify", path]):
                measure(command)
            for command in (["list", path, *words], ["list", path, *words, "--format", "json", "--digests"], ["map", path, *words],
                            ["list", path, *words, "--format", "json", "--places"], ["check", path, *words, "--bodies"],
                            ["compare", path, path, *words]):
                measure(command)
            for command in (["check", path, *AUTO], ["check", path, *AUTO, "--explain"]):
                measure(command)
            if file is not None:
                for command in [*edits(path, file, folder, words), *edits(path, file, folder, [*AUTO, "--explain"])]:
                    measure(command)


if __name__ == "__main__":
    main()

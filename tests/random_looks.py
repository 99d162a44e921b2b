#!/usr/bin/env python3
"""Looks at random volumes by the program and by the model of looks.py, and compares text and status.

random_looks.py PROGRAM COUNT SEED [SWITCH ..]

The volumes are of both file systems and in every order: plain ones, ones with hostile names, damaged ones. Which command lines are
tried is the table COMMANDS below: those of `standing` with every volume, and of each other switch among the words one, drawn anew for
each volume; `all` stands for every switch, and `every` tries all lines of a switch with every volume. Where PROGRAM is `-` the model
is tried alone. The first images that are looked at otherwise are kept in the folder from which this is run. The last line tells how
many volumes were made, how many texts were compared and how many of them differ.
"""

import csv
import io
import json
import operator
import os
import random
import shutil
import subprocess
import sys
import tempfile

import looks
import make_samples

# The command lines by their switch. IMAGE and OTHER are the two images, WAY is the file system and the order, NAME the name of a file
# and STORED the digits of its stored bytes; RESERVE is a list of places, DATA the flag of a data disk and WHOLE that of a whole text,
# each of which may be left out.
COMMANDS = {
    "standing": [
        "identify IMAGE", "catalog IMAGE WAY", "check IMAGE WAY DATA RESERVE", "list IMAGE FREE_WAY DATA", "read IMAGE NAME WAY WHOLE"],
    "formats": [
        "list IMAGE FREE_WAY --format json", "list IMAGE FREE_WAY --format csv DATA", "list IMAGE FREE_WAY --format names",
        "list IMAGE FREE_WAY --format json --most FEW"],
    "digests": [
        "list IMAGE FREE_WAY --digests DATA", "list IMAGE FREE_WAY --digests --format json", "list IMAGE FREE_WAY --digests --format csv",
        "list IMAGE FREE_WAY --digests --most FEW"],
    "places": ["list IMAGE FREE_WAY --places --format json", "list IMAGE FREE_WAY --places --format json --digests DATA",
               "list IMAGE FREE_WAY --places --format json --most FEW", "list IMAGE FREE_WAY --places --format FORM"],
    "compare": [
        "compare IMAGE OTHER FREE_WAY OTHER_WAY DATA", "compare IMAGE OTHER FREE_WAY OTHER_WAY --all",
        "compare IMAGE IMAGE FREE_WAY --all", "compare OTHER IMAGE FREE_WAY OTHER_WAY --most FEW"],
    "map": ["map IMAGE FREE_WAY DATA", "map IMAGE FREE_WAY RESERVE DATA"],
    "stored": ["read IMAGE STORED WAY WHOLE --stored"],
    "bodies": ["check IMAGE WAY DATA RESERVE --bodies"],
}

SECTOR, BLOCK, PLACES, VTOC = looks.SECTOR, looks.BLOCK, looks.PLACES, looks.VTOC
TRACK = looks.TRACK


# ---- what stands in files ----
POOL = random.Random(7)
CONTENTS = [bytes(BLOCK), bytes([0xFF]) * BLOCK, *(POOL.randbytes(BLOCK) for _ in range(40))]
CONTENTS += [bytes(0x80 | 0x20 + byte % 0x5F for byte in POOL.randbytes(BLOCK)) for _ in range(20)]
# Stale bytes of a whole disk: units from the pool.
STALE = [b"".join(POOL.choice(CONTENTS) for _ in range(280)) for _ in range(4)]
QUEER = b"\"\\,/=+-@'?*:\x00\x0a\x0d\x1b\x7f\xa0\xa2\xdc\xac\xaf\xff\x80\x8a"


def body_unit(chance, size):
    return chance.choice(CONTENTS)[:size]


def hostile_bytes(chance, count):
    """The bytes of a name: queer, of one value, of both cases, inverse or flashing, of neighbouring values, or any."""
    kind = chance.randrange(7)
    if kind == 0:
        return bytes(chance.choice(QUEER) for _ in range(count))
    if kind == 1:
        return bytes([chance.choice([0x00, 0x20, 0xA0, 0xFF, chance.randrange(256)])]) * count
    if kind == 2:
        return bytes(chance.choice(b"abcxyzABC.019") for _ in range(count))
    if kind == 3:
        return bytes(chance.choice(b"ABC.019") & 0x3F | chance.choice([0, 0x40, 0x80, 0xC0]) for _ in range(count))
    if kind == 4:
        first = chance.randrange(256)
        return bytes((first + i) % 256 for i in range(count))
    return chance.randbytes(count)


# ---- DOS 3.3 ----
class DosMaker:
    """Makes a DOS 3.3 volume as an image in DOS order."""

    file_system = "dos"
    SECTORS = 1

    def __init__(self, chance, hostile):
        self.chance, self.hostile = chance, hostile
        self.image = bytearray(chance.choice(STALE)) if chance.random() < 0.4 else bytearray(SECTOR * PLACES)
        self.data_disk = chance.random() < 0.12
        system = (0, 17) if self.data_disk else (0, 1, 2, 17)
        self.places = [16 * track + sector for track in range(35) if track not in system for sector in range(15, -1, -1)]
        self.free = set(self.places)
        if chance.random() < 0.5:
            chance.shuffle(self.places)
        self.places.reverse()
        self.make_chain()
        self.lists, self.bodies, self.holders, self.entries = [], [], [], []
        for _ in range(self.count_of_files()):
            self.add()
        self.delete_some()
        self.write_map()

    def count_of_files(self):
        chance = self.chance
        return chance.choice([chance.randrange(4), chance.randrange(10), chance.randrange(10), chance.randrange(45), 105])

    def make_chain(self):
        """The sectors of the catalog, usually all fifteen downward."""
        chance = self.chance
        self.chain = list(range(15, 0, -1))
        if chance.random() < 0.3:
            if chance.random() < 0.5:
                chance.shuffle(self.chain)
            self.chain = self.chain[:chance.choice([1, 2, 3, 14])]
        for sector in self.chain:
            at = SECTOR * (VTOC + sector)
            self.image[at:at + SECTOR] = bytes(SECTOR)
        for sector, after in zip(self.chain, self.chain[1:]):
            self.put(VTOC + sector, 1, [17, after])
        self.put(VTOC + self.chain[-1], 1, [0, chance.choice([0, 0, chance.randrange(256)])])
        self.slots = [SECTOR * (VTOC + sector) + 0x0B + 35 * slot for sector in self.chain for slot in range(7)]
        if chance.random() < 0.3:
            self.slots = [at for at in self.slots if chance.random() < 0.6]
        self.slots.reverse()

    def put(self, place, at, data):
        self.image[SECTOR * place + at:SECTOR * place + at + len(data)] = bytes(data)

    def take(self):
        """The next place for a part, or None."""
        if not self.places:
            return None
        place = self.places.pop()
        self.free.discard(place)
        return place

    def name(self):
        chance = self.chance
        if not self.hostile or chance.random() < 0.3:
            text = f"FILE {chance.randrange(40)}".encode() if chance.random() < 0.9 else b"A"
            return bytes(byte | 0x80 for byte in text.ljust(30))
        length = chance.choice([0, 1, 29, 30, 30, 30, chance.randrange(31)])
        return hostile_bytes(chance, length) + bytes([chance.choice([0xA0, 0xA0, 0x00, 0x20])]) * (30 - length)

    def kind(self):
        chance = self.chance
        kind = chance.choice([0, 1, 2, 4, 4, 4, 8, 0x10, 0x20, 0x40, chance.randrange(128)])
        return kind | chance.choice([0, 0, 0x80])

    def size(self):
        """How many units a body has, and whether some of them are holes."""
        chance = self.chance
        return chance.choice([0, 1, 1, 1, 2, 3, chance.randrange(8), chance.choice([121, 122, 123, 245, chance.randrange(260)])
                              if chance.random() < 0.15 else 1])

    def add(self):
        """A file, as far as there are slots and places for it."""
        chance = self.chance
        if not self.slots:
            return
        slot, size, kind = self.slots.pop(), self.size(), self.kind()
        sparse = chance.random() < 0.2
        lists = max(1, (size + 121) // 122) + (chance.random() < 0.05)
        first, before, used = None, None, 0
        for number in range(lists):
            here = self.take()
            if here is None:
                break
            self.image[SECTOR * here:SECTOR * here + SECTOR] = bytes(SECTOR)
            self.lists.append(here)
            self.put(here, 5, (122 * number).to_bytes(2, "little"))
            if before is None:
                first = here
            else:
                self.put(before, 1, divmod(here, 16))
            before, used = here, used + 1
            for i in range(min(122, size - 122 * number)):
                used += self.add_unit(here, i, kind if number == i == 0 else None, sparse)
        if first is None:
            first = chance.choice([0x23, 0xFE, 3]) * 16
        length = used if chance.random() < 0.8 else chance.choice([0, 9, 99, 999, 1000, 65_535])
        entry = bytes([first // 16, first % 16, kind]) + self.name() + length.to_bytes(2, "little")
        self.image[slot:slot + 35] = entry
        self.entries.append(slot)

    def add_unit(self, here, i, kind, sparse):
        """A unit of a body, or a hole; `kind` is that of the file where the unit is the first one."""
        chance = self.chance
        body = None if sparse and chance.random() < 0.5 else self.take()
        if body is None:
            if chance.random() < 0.2:
                self.put(here, 0x0D + 2 * i, [chance.randrange(256)])
            return 0
        self.bodies.append(body)
        self.put(here, 0x0C + 2 * i, divmod(body, 16))
        self.put(body, 0, body_unit(chance, SECTOR))
        if kind is not None and chance.random() < 0.8:
            length = chance.choice([0, 1, 3, 252, 253, 254, 255, 256, 1000, 30_000, 65_535, chance.randrange(600)])
            head = length.to_bytes(2, "little")
            self.put(body, 0, chance.randbytes(2) + head if kind & 0x7F == 4 else head if kind & 0x7F in (1, 2) else b"")
        return 1

    def delete_some(self):
        """Deleted entries."""
        for slot in self.entries:
            if self.chance.random() < 0.06:
                self.image[slot + 32], self.image[slot] = self.image[slot], 0xFF

    def write_map(self):
        chance = self.chance
        vtoc = bytearray(SECTOR) if chance.random() < 0.8 else bytearray(chance.randbytes(SECTOR))
        vtoc[1:4] = [17, self.chain[0], 3]
        if chance.random() < 0.02:
            vtoc[1] = 0
        vtoc[6] = chance.choice([254, 254, 0, 1, 10, 99, 255, chance.randrange(256)])
        vtoc[0x27], vtoc[0x34:0x38] = 122, [35, 16, 0, 1]
        vtoc[0x38:0xC4] = bytes(140)
        lost = set(chance.sample(sorted(self.free), min(len(self.free), chance.randrange(1, 9)))) if chance.random() < 0.3 else set()
        if chance.random() < 0.03:
            lost = self.free
        for place in self.free - lost:
            vtoc[0x38 + 4 * (place // 16) + 1 - place % 16 // 8] |= 1 << place % 8
        if chance.random() < 0.1:
            vtoc[0x38 + 4 * chance.choice([0, 1, 2, 17])] = chance.randrange(256)
        self.put(VTOC, 0, vtoc)

    def pair_at(self):
        """Where a random pointer of a list stands, the next one among them."""
        chance = self.chance
        at = SECTOR * chance.choice(self.lists)
        return at + (1 if chance.random() < 0.2 else 0x0C + 2 * chance.choice([0, 0, 1, chance.randrange(122)]))

    def damage(self):
        """One thing that is wrong."""
        chance, image = self.chance, self.image
        kind = chance.randrange(16)
        stand = [*self.lists, *self.bodies]
        if kind < 10 and self.lists:
            wild = chance.choice([[chance.randint(35, 255), chance.randrange(256)], [chance.randrange(1, 35), chance.randint(16, 255)]])
            somewhere = divmod(chance.choice(stand), 16)
            pairs = [wild, somewhere, somewhere, divmod(chance.choice(self.lists), 16), [17, chance.randrange(16)],
                     [chance.randrange(3), chance.randrange(16)], divmod(chance.randrange(PLACES), 16)]
            at = self.pair_at()
            image[at:at + 2] = bytes(chance.choice(pairs))
        elif kind == 10 and self.lists:
            place = chance.choice(stand)
            image[SECTOR * VTOC + 0x38 + 4 * (place // 16) + 1 - place % 16 // 8] |= 1 << place % 8
        elif kind == 11 and self.entries:
            slot = chance.choice(self.entries)
            somewhere = divmod(chance.choice([5, *stand]), 16)
            image[slot:slot + 2] = bytes(chance.choice([[0x23, 0], [0xFE, 1], [3, 16], [17, 4], [0, 0], somewhere]))
        elif kind == 12 and self.entries:
            image[chance.choice(self.entries) + chance.randrange(35)] = chance.randrange(256)
        elif kind == 13:
            holder = VTOC + chance.choice([0, *self.chain])
            self.put(holder, 1, chance.choice([[17, 0], [17, 16], [18, 1], [16, 15], [17, chance.choice(self.chain)], [0xFF, 0], [0, 99]]))
        elif kind == 14 and chance.random() < 0.4:
            self.put(VTOC, 0x34 + chance.randrange(4), [chance.choice([0, 1, 13, 16, 34, 35, 36, 40])])
        else:
            image[chance.randrange(len(image))] ^= 1 << chance.randrange(8)

    def change(self):
        """One thing that makes another volume of it, for a comparison."""
        chance, image = self.chance, self.image
        kind = chance.randrange(7)
        if kind == 0 and self.bodies:
            image[SECTOR * chance.choice(self.bodies) + chance.choice([0, 1, 2, 3, 5, 255])] ^= 1 << chance.randrange(8)
        elif kind == 1 and self.entries:
            image[chance.choice(self.entries) + 2] ^= chance.choice([0x80, 0x80, 0x04, 0x02])
        elif kind == 2 and self.entries:
            image[chance.choice(self.entries) + 3 + chance.randrange(30)] ^= 1 << chance.randrange(8)
        elif kind == 3 and self.entries:
            image[chance.choice(self.entries)] = 0xFF
        elif kind == 4 and self.entries:
            one, other = chance.choice(self.entries), chance.choice(self.entries)
            image[one:one + 35], image[other:other + 35] = image[other:other + 35], image[one:one + 35]
        elif kind == 5 and self.entries:
            one, other = chance.choice(self.entries), chance.choice(self.entries)
            image[one + 3:one + 33] = image[other + 3:other + 33]
        else:
            self.damage()

    def tables(self):
        return self.lists

    def directory(self):
        return [VTOC, *(VTOC + sector for sector in self.chain)]

    def reserve_item(self):
        place = self.chance.choice([*(self.chance.randrange(PLACES) for _ in range(6)), *self.lists[:1], *self.bodies[:1]])
        return f"{place // 16}/{place % 16}"


# ---- ProDOS ----
class ProMaker:
    """Makes a ProDOS volume as an image in ProDOS order."""

    file_system = "prodos"
    SECTORS = 2

    def __init__(self, chance, hostile):
        self.chance, self.hostile = chance, hostile
        self.total = chance.choice([280] * 12 + [16, 17, chance.randint(16, 100), chance.randint(16, 2000), 800, 1600])
        if chance.random() < 0.004:
            self.total = chance.choice([4096, 4097, 4200, 8192])
        stale = chance.random() < 0.4 and self.total == 280
        self.image = bytearray(chance.choice(STALE)) if stale else bytearray(BLOCK * self.total)
        self.free = set(range(3, self.total))
        self.first_map = chance.choice([6, 6, 6, chance.randrange(3, self.total - 2)])
        self.maps = range(self.first_map, self.first_map + (self.total + 4095) // 4096)
        self.free.difference_update(self.maps)
        self.places = sorted(self.free)
        if chance.random() < 0.5:
            chance.shuffle(self.places)
        self.places.reverse()
        self.blocks, self.indexes, self.bodies, self.entries, self.keys, self.masters = [], [], [], [], [2], []
        self.make_volume()
        self.write_map()

    def put(self, block, at, data):
        self.image[BLOCK * block + at:BLOCK * block + at + len(data)] = bytes(data)

    def take(self):
        """The next place for a part or a directory, or None."""
        if not self.places:
            return None
        place = self.places.pop()
        self.free.discard(place)
        return place

    def header(self, block, storage, name):
        chance = self.chance
        self.image[BLOCK * block:BLOCK * block + BLOCK] = bytes(BLOCK)
        self.put(block, 4, bytes([storage << 4 | len(name)]) + name.ljust(15, b"\0"))
        self.put(block, 0x22, [0xC3, 39, 13])
        if chance.random() < 0.3:
            self.put(block, 0x14, chance.randbytes(14))

    def link(self, blocks):
        for before, after in zip(blocks, blocks[1:]):
            self.image[BLOCK * after:BLOCK * after + BLOCK] = bytes(BLOCK)
            self.put(after, 0, before.to_bytes(2, "little"))
            self.put(before, 2, after.to_bytes(2, "little"))
        self.blocks += blocks
        return [(block, slot) for block in blocks for slot in range(1 if block == blocks[0] else 0, 13)]

    def more_blocks(self, key, most):
        """A directory's block and some behind it."""
        extra = (self.take() for _ in range(self.chance.randrange(most)))
        return self.link([key, *(block for block in extra if block is not None)])

    def make_volume(self):
        chance = self.chance
        self.header(2, 0xF, self.name())
        self.put(2, 0x27, self.first_map.to_bytes(2, "little") + self.total.to_bytes(2, "little"))
        slots = self.more_blocks(2, chance.choice([1, 2, 4, 6]))
        self.fill(2, slots, chance.choice([chance.randrange(4), chance.randrange(14), chance.randrange(60)]), 0)

    def fill(self, key, slots, count, depth):
        """Fills the slots of a directory."""
        chance = self.chance
        for block, slot in slots:
            if count == 0:
                return
            if chance.random() < 0.15:
                self.put(block, 4 + 39 * slot, [chance.choice([0, 1, 15])])
                continue
            count -= 1
            if chance.random() < (0.12 if depth < 4 else 0.5 if depth < 12 else 0.0):
                self.add_directory(key, block, slot, depth)
            else:
                self.add_file(key, block, slot)

    def name(self):
        chance = self.chance
        if not self.hostile or chance.random() < 0.3:
            return f"FILE.{chance.randrange(30)}".encode() if chance.random() < 0.9 else b"A"
        return hostile_bytes(chance, chance.choice([0, 1, 15, chance.randrange(16)]))

    def date(self):
        chance = self.chance
        if chance.random() < 0.3:
            return chance.choice([bytes(4), bytes(make_samples.DATE), chance.randbytes(4)])
        year = chance.choice([0, 24, 39, 40, 86, 99, 100, 127, chance.randrange(128)])
        month, day = chance.choice([1, 2, 2, 12, chance.randrange(16)]), chance.choice([1, 28, 29, 30, 31, chance.randrange(32)])
        minute, hour = chance.choice([0, 59, 60, 30, 128]), chance.choice([0, 23, 24, 12, 76])
        return (year << 9 | month << 5 | day).to_bytes(2, "little") + bytes([minute, hour])

    def enter(self, key, block, slot, storage, place, used, eof):
        chance = self.chance
        name = self.name()
        kind = 0x0F if storage == 0xD and chance.random() < 0.9 else chance.choice([4, 6, 0xFC, 0xFF, 0, chance.randrange(256)])
        access = chance.choice([0xE3, 0xC3, 0x21, 0x01, 0, chance.randrange(256)])
        date = self.date()
        self.put(block, 4 + 39 * slot, (
            bytes([storage << 4 | len(name)]) + name.ljust(15, chance.choice([b"\0", b"X"])) + bytes([kind])
            + place.to_bytes(2, "little") + used.to_bytes(2, "little") + eof.to_bytes(3, "little") + date + chance.randbytes(2)
            + bytes([access]) + chance.choice([bytes(2), chance.randbytes(2)]) + chance.choice([date, self.date()])
            + key.to_bytes(2, "little")))
        self.entries.append(BLOCK * block + 4 + 39 * slot)

    def add_directory(self, key, block, slot, depth):
        chance, here = self.chance, self.take()
        if here is None:
            return
        self.enter(key, block, slot, 0xD, here, 1, chance.choice([512, 0, 1024, 16_777_215]))
        self.header(here, 0xE, self.name())
        self.keys.append(here)
        slots = self.more_blocks(here, chance.choice([1, 1, 1, 3]))
        self.fill(here, slots, chance.choice([0, 1, 2, chance.randrange(15)]), depth + 1)

    def add_file(self, key, block, slot):
        """A seedling, a sapling or a tree."""
        chance = self.chance
        size = chance.choice([0, 1, 1, 1, 2, 3, chance.randrange(9), chance.choice([40, 255, 256, 257]) if chance.random() < 0.1 else 1])
        numbers = list(range(size))
        if chance.random() < 0.2:
            most = chance.choice([1, 256, 256, 600]) if chance.random() < 0.97 else 32_768
            numbers = sorted({chance.randrange(most) for _ in range(size)})
        storage = 1 if not numbers or numbers == [0] else 2 if numbers[-1] < 256 else 3
        storage = min(3, storage + (chance.random() < 0.1))
        before = len(self.places)
        place = self.tree(storage, numbers)
        end = BLOCK * (numbers[-1] + 1 if numbers else 0)
        eof = max(0, end - chance.choice([0, 1, 100, 511, 512]))
        if chance.random() < 0.15:
            eof = chance.choice([0, 1, 511, 512, 513, end + 1, end + 700, chance.randrange(100_000)])
        if chance.random() < 0.003:
            eof = chance.choice([16_777_215, chance.randrange(1 << 24)])
        self.enter(key, block, slot, storage, place, before - len(self.places), min(eof, 16_777_215))

    def unit(self):
        place = self.take()
        if place is None:
            return 0
        self.bodies.append(place)
        self.put(place, 0, body_unit(self.chance, BLOCK))
        return place

    def index(self, pointers, list_of_indexes):
        """An index that has these pointers by number."""
        place = self.take()
        if place is None:
            return 0
        self.image[BLOCK * place:BLOCK * place + BLOCK] = bytes(BLOCK)
        list_of_indexes.append(place)
        for number, pointer in pointers.items():
            self.image[BLOCK * place + number] = pointer & 0xFF
            self.image[BLOCK * place + 256 + number] = pointer >> 8
        return place

    def tree(self, storage, numbers):
        """The place to which the entry of a file with units of these numbers points."""
        chance = self.chance
        if storage == 1:
            return self.unit() if numbers or chance.random() < 0.8 else 0
        if storage == 2:
            return self.index({number: self.unit() for number in numbers}, self.indexes)
        groups = {}
        for number in numbers:
            groups.setdefault(number // 256, {})[number % 256] = self.unit()
        pointers = {group: self.index(units, self.indexes) for group, units in groups.items()}
        if chance.random() < 0.2:
            pointers[chance.randint(128, 255)] = chance.randrange(65_536)
        return self.index(pointers, self.masters)

    def write_map(self):
        chance = self.chance
        bits = bytearray(BLOCK * len(self.maps))
        lost = set(chance.sample(sorted(self.free), min(len(self.free), chance.randrange(1, 9)))) if chance.random() < 0.3 else set()
        if chance.random() < 0.03:
            lost = self.free
        for place in self.free - lost:
            bits[place // 8] |= 0x80 >> place % 8
        if chance.random() < 0.2:
            bits[(self.total + 7) // 8:] = b"\xFF" * (len(bits) - (self.total + 7) // 8)
        self.put(self.first_map, 0, bits)

    def some_block(self):
        """The number of a block that a pointer should not name, or may."""
        chance = self.chance
        stand = [*self.blocks, *self.bodies, *self.indexes, *self.masters, *self.maps]
        return chance.choice([0, 1, 2, self.total, self.total - 1, 65_535, chance.randrange(65_536), chance.randrange(self.total),
                              *(chance.choice(stand) for _ in range(6))])

    def damage(self):
        """One thing that is wrong."""
        chance, image = self.chance, self.image
        kind = chance.randrange(16)
        if kind < 6 and self.indexes + self.masters:
            at = BLOCK * chance.choice(self.indexes + self.masters) + chance.choice([0, 0, 1, 127, 128, chance.randrange(256)])
            image[at], image[at + 256] = divmod(self.some_block(), 256)[::-1]
        elif kind < 8 and self.entries:
            at = chance.choice(self.entries)
            image[at + 0x11:at + 0x13] = self.some_block().to_bytes(2, "little")
        elif kind == 8 and self.entries:
            at = chance.choice(self.entries)
            image[at] = image[at] % 16 | chance.choice([1, 2, 3, 4, 5, 12, 0xD, 0xE, 0xF]) << 4
        elif kind == 9 and self.entries:
            image[chance.choice(self.entries) + chance.randrange(1, 39)] = chance.randrange(256)
        elif kind == 10 and self.bodies:
            place = chance.choice(self.bodies + self.indexes)
            image[BLOCK * self.first_map + place // 8] |= 0x80 >> place % 8
        elif kind == 11:
            self.put(chance.choice(self.blocks), 2, self.some_block().to_bytes(2, "little"))
        elif kind == 12:
            key = chance.choice(self.keys)
            if key != 2 or chance.random() < 0.3:
                self.put(key, *chance.choice([(4, [chance.randrange(256)]), (0x23, [38]), (0x24, [12]), (0x24, [0])]))
        elif kind == 13 and chance.random() < 0.6:
            self.put(2, *chance.choice([(0x27, self.some_block().to_bytes(2, "little")), (0x29, chance.randbytes(2)), (0x2A, [2])]))
        else:
            image[chance.randrange(len(image))] ^= 1 << chance.randrange(8)

    def change(self):
        """One thing that makes another volume of it, for a comparison."""
        chance, image = self.chance, self.image
        kind = chance.randrange(7)
        if kind == 0 and self.bodies:
            image[BLOCK * chance.choice(self.bodies) + chance.choice([0, 1, 2, 255, 511])] ^= 1 << chance.randrange(8)
        elif kind in (1, 2) and self.entries:
            at = chance.choice([0, 1, 2, 15, 0x10, 0x13, 0x15, 0x18, 0x1B, 0x1C, 0x1D, 0x1E, 0x1F, 0x20, 0x21, 0x24, 0x25])
            image[chance.choice(self.entries) + at] ^= 1 << chance.randrange(8 if at else 4)
        elif kind == 3 and self.entries:
            image[chance.choice(self.entries)] = 0
        elif kind == 4 and self.entries:
            one, other = chance.choice(self.entries), chance.choice(self.entries)
            image[one:one + 39], image[other:other + 39] = image[other:other + 39], image[one:one + 39]
        elif kind == 5 and self.entries:
            one, other = chance.choice(self.entries), chance.choice(self.entries)
            image[one + 1:one + 16] = image[other + 1:other + 16]
            image[one] = image[one] & 0xF0 | image[other] % 16
        else:
            self.damage()

    def tables(self):
        return self.indexes + self.masters

    def directory(self):
        return [*self.blocks, *self.maps]

    def reserve_item(self):
        somewhere = (self.chance.randrange(self.total) for _ in range(6))
        return str(self.chance.choice([*somewhere, self.total, 65_535, *self.indexes[:1], *self.bodies[:1]]))


# ---- images ----
def reordered(image, file_system, order):
    """An image in the file system's own order as one in another."""
    places = range(PLACES)
    offsets = looks.OFFSETS[file_system, order]
    other = bytearray(len(image))
    for place in places:
        other[offsets[place]:offsets[place] + SECTOR] = image[SECTOR * place:SECTOR * place + SECTOR]
    return other


GAPS = b"\xFF" * 6, b"\xFF" * 27
DATA_OF = {}
ADDRESSES = {}


def data_of(sector):
    """The data field of a sector, and what stands around it."""
    if sector not in DATA_OF:
        if len(DATA_OF) > 20_000:
            DATA_OF.clear()
        DATA_OF[sector] = GAPS[0] + b"\xD5\xAA\xAD" + six_and_two(sector) + b"\xDE\xAA\xEB" + GAPS[1]
    return DATA_OF[sector]


TURNED = [bytes(((byte & 1) << 1 | byte >> 1 & 1) << at for byte in range(256)) for at in (0, 2, 4)]
HIGH_SIX = bytes(byte >> 2 for byte in range(256))
TABLE = bytes(make_samples.DISK_BYTES).ljust(256, b"\0")


def six_and_two(sector):
    """What `make_samples.six_and_two` gives, by tables of bytes."""
    pairs = (sector[86 * group:86 * group + 86].ljust(86, b"\0").translate(turned) for group, turned in enumerate(TURNED))
    values = bytes(map(operator.or_, map(operator.or_, next(pairs), next(pairs)), next(pairs))) + sector.translate(HIGH_SIX)
    return bytes(map(operator.xor, values + b"\0", b"\0" + values)).translate(TABLE)


def address_of(volume, track, sector):
    key = volume, track, sector
    if key not in ADDRESSES:
        ADDRESSES[key] = b"\xD5\xAA\x96" + make_samples.four_and_four(*key, volume ^ track ^ sector) + b"\xDE\xAA\xEB"
    return ADDRESSES[key]


def tracks_of(maker, chance):
    """A volume as made tracks, of which some are turned, and some sectors can't be read or stand there twice."""
    offsets = {number: SECTOR * index for index, number in enumerate(looks.PHYSICAL[maker.file_system])}
    spoiled = spoiled_sectors(maker, chance)
    tracks = []
    for track in range(35):
        fields = [b"\xFF" * 48]
        for sector in range(16):
            at = offsets[16 * track + sector]
            field = address_of(254, track, sector) + data_of(bytes(maker.image[at:at + SECTOR]))
            fields.append(spoiled_field(field, chance) if 16 * track + sector in spoiled else field)
        if spoiled and chance.random() < 0.04:
            twice = address_of(chance.randrange(256), track, chance.randrange(16)) + data_of(body_unit(chance, SECTOR))
            fields.insert(chance.choice([1, 17, chance.randrange(1, 18)]), twice)
        made = b"".join(fields)[:TRACK].ljust(TRACK, b"\xFF")
        if chance.random() < 0.05:
            turn = chance.choice([1, 47, 48, 50, 60, 70, 80, 100, chance.randrange(TRACK)])
            made = made[turn:] + made[:turn]
        tracks.append(made)
    return b"".join(tracks)


def spoiled_sectors(maker, chance):
    """The physical numbers of the sectors that are to be spoiled: those of bodies above all, now and then of a table or a directory."""
    if chance.random() < 0.4:
        return set()
    kinds = [maker.bodies] * 5 + [maker.tables(), maker.directory(), range(35 * 16 // maker.SECTORS)]
    places = [chance.choice(kind) for kind in (chance.choice(kinds) for _ in range(chance.choice([1, 1, 2, 5]))) if kind]
    return {looks.PHYSICAL[maker.file_system][maker.SECTORS * place + chance.randrange(maker.SECTORS)] for place in places}


def spoiled_field(field, chance):
    """The fields of a sector with a bit or two turned, which may be one that does not count."""
    field = bytearray(field)
    for _ in range(chance.choice([1, 1, 2])):
        field[chance.choice([chance.randrange(14), chance.randrange(14, len(field) - 27), 24])] ^= 1 << chance.randrange(8)
    return bytes(field)


def image_of(maker, chance):
    """A volume as an image of an order, now and then of a wrong length, and the order."""
    image = maker.image
    orders = ["dos", "prodos", "nibble"] if len(image) == SECTOR * PLACES else ["prodos"]
    order = chance.choice(orders)
    own = "dos" if maker.file_system == "dos" else "prodos"
    if order == "nibble":
        image = tracks_of(maker, chance)
    elif order != own:
        image = reordered(image, maker.file_system, order)
    if chance.random() < 0.02:
        by = chance.choice([1, 256, 512, 8192])
        image = image[:-by] if chance.random() < 0.5 else image + bytes(by)
    return bytes(image), order


# ---- trials ----
def made_volume(chance):
    """A volume of a kind: plain, with hostile names, or damaged."""
    kind = chance.choice(["plain", "hostile", "damaged", "damaged", "both"])
    maker = (DosMaker if chance.random() < 0.5 else ProMaker)(chance, kind in ("hostile", "both"))
    if kind in ("damaged", "both"):
        for _ in range(chance.choice([1, 1, 1, 2, 3, 6])):
            maker.damage()
    return maker


class Words:
    """The words of the command lines for one volume."""

    def __init__(self, chance, maker, order, other_order, model):
        self.chance, self.maker, self.order, self.other_order, self.model = chance, maker, order, other_order, model

    def name(self):
        """The name of one of the files, if it can be said, or of none."""
        image, way, names = self.model.image("image"), (self.maker.file_system, self.order), ["NONE"]
        volume = image.volume(*way) if looks.allows(len(image.data), *way) else None
        if isinstance(volume, looks.Volume):
            names += [name for name in map(volume.path, volume.entries) if not name.startswith("-")]
        name = self.chance.choice(names) if self.chance.random() < 0.9 else names[-1]
        return name.lower() if self.chance.random() < 0.05 else name

    def stored(self):
        """The digits of the stored bytes of one of the files, or of others; sometimes no digits of bytes at all."""
        chance, image = self.chance, self.model.image("image")
        volume = image.volume(self.maker.file_system, self.order) if looks.allows(len(image.data), self.maker.file_system, self.order) else None
        entries = volume.entries if isinstance(volume, looks.Volume) else []
        name = chance.choice(entries).stored if entries and chance.random() < 0.9 else hostile_bytes(chance, chance.choice([1, 5, 30, 31]))
        if chance.random() < 0.3:
            name = name.rstrip(b"\xa0") or name
        digits = name.hex()
        digits = digits.upper() if chance.random() < 0.5 else digits
        return digits if digits and chance.random() < 0.97 else digits[:-1] + chance.choice(["", "g", "x0"]) or "0"

    def way(self, may_lack):
        """Words for the file system and the order: usually the right ones."""
        chance = self.chance
        file_system, order = self.maker.file_system, self.order
        if chance.random() < 0.05:
            file_system = "prodos" if file_system == "dos" else "dos"
        if chance.random() < 0.08:
            order = chance.choice(["dos", "prodos", "nibble"])
        if chance.random() < 0.06:
            return ["--auto"] if not may_lack else []
        file_system = "auto" if chance.random() < 0.03 else file_system
        order = "auto" if chance.random() < 0.05 else order
        words = ["--fs", file_system, "--order", order]
        return words if not may_lack or chance.random() < 0.94 else chance.choice([words[:2], words[2:]])

    def reserve(self):
        """A list of places, or none; sometimes no list at all."""
        chance = self.chance
        if chance.random() < 0.6:
            return []
        if chance.random() < 0.06:
            return ["--reserve", chance.choice(["3/16", "35/0", "65536", "03", "1,", "x", "3/1,,3/2", "", "1/2/3", "3/1 ", "0", "3/0"])]
        return ["--reserve", ",".join(self.maker.reserve_item() for _ in range(chance.randrange(1, 5)))]

    def meaning(self, word):
        """The words that stand for a word of the table of command lines."""
        chance, maker = self.chance, self.maker
        if word == "WAY":
            return self.way(False)
        if word == "FREE_WAY":
            return self.way(True)
        if word == "DATA":
            likely = 0.9 if getattr(maker, "data_disk", False) else 0.1
            return ["--data-disk"] if chance.random() < likely else []
        if word == "RESERVE":
            return self.reserve()
        if word == "WHOLE":
            return ["--whole"] if chance.random() < 0.3 else []
        if word == "NAME":
            return [self.name()]
        if word == "STORED":
            return [self.stored()]
        if word == "FEW":
            return [str(chance.choice([0, 1, 256, 3000, 100_000, looks.MOST, looks.MOST_NUMBER]))]
        if word == "FORM":
            return [chance.choice(["names", "csv", "json"])]
        if word == "OTHER_WAY":
            return ["--other-order", self.other_order] if chance.random() < 0.85 else []
        if word in ("IMAGE", "OTHER"):
            return [word.lower() if chance.random() < 0.99 else chance.choice(["missing", "."])]
        return [word]

    def of(self, line):
        return [word for item in line.split() for word in self.meaning(item)]


def image_at(images, path):
    """The bytes of an image; other files are not there."""
    if path not in images:
        raise FileNotFoundError(path)
    return images[path]


class Trial:
    """The program, the model, and what was counted."""

    def __init__(self, program, chance, groups, every):
        self.program, self.chance, self.groups, self.every = program, chance, groups, every
        self.texts, self.differences = 0, 0
        self.kept, self.by_jq = [], 0

    def volume(self, number):
        """Makes a volume and looks at it by each command line."""
        chance = self.chance
        maker = made_volume(chance)
        image, order = image_of(maker, chance)
        images = {"image": image}
        other_order = order
        lines = self.lines()
        if any("OTHER" in line.split() for line in lines):
            images["other"], other_order = self.other(maker)
        for path, data in images.items():
            with open(path, "wb") as file:
                file.write(data)
        model = looks.Looks(lambda path: image_at(images, path))
        words = Words(chance, maker, order, other_order, model)
        for line in lines:
            self.look(number, model, words.of(line))

    def lines(self):
        """The command lines for a volume."""
        standing, *others = self.groups
        return standing + (sum(others, []) if self.every else [self.chance.choice(group) for group in others])

    def other(self, maker):
        """The same volume in another order and changed, or quite another one."""
        chance = self.chance
        if chance.random() < 0.05:
            maker = made_volume(chance)
        for _ in range(chance.choice([0, 0, 1, 1, 2, 5])):
            maker.change()
        return image_of(maker, chance)

    def look(self, number, model, words):
        self.texts += 1
        status, text = model.told(words)
        if self.program is not None:
            told = self.told(words)
            if told[0] != status or text is not None and told[1] != text or told[2]:
                self.differ(number, words, (status, text), told)
                return
            text = told[1]
        wrong = wrong_reading(words, status, text)
        if wrong:
            self.differ(number, words, wrong, (status, text))
        elif status in (0, 1) and "json" in words:
            self.read_by_jq(text)

    def read_by_jq(self, text, last=False):
        """Keeps a text for `jq`, which reads a few hundred lines at once and must give them back."""
        self.kept.append(text)
        if JQ is None or len(self.kept) < 100 and not last:
            return
        lines = b"".join(self.kept)
        done = subprocess.run([JQ, "-c", "."], input=lines, stdout=subprocess.PIPE, check=False)
        if done.returncode != 0 or done.stdout != lines:
            self.differ("with a text that jq reads otherwise", [], short(lines), short(done.stdout))
        self.by_jq += len(self.kept)
        self.kept.clear()

    def told(self, words):
        """What the program tells: its status, its text, and how many bytes it wrote to standard error."""
        with open("errors", "wb") as errors:
            done = subprocess.run([self.program, *words], stdin=subprocess.DEVNULL, stdout=subprocess.PIPE, stderr=errors, check=False)
        return done.returncode, done.stdout, os.path.getsize("errors")

    def differ(self, number, words, wanted, told):
        """Tells a difference, and keeps the images of the first few."""
        self.differences += 1
        if self.differences > 20:
            return
        print(f"volume {number}: {' '.join(words)}\n  wanted {short(wanted)}\n  told   {short(told)}", flush=True)
        for path in ("image", "other"):
            if os.path.exists(path):
                shutil.copy(path, os.path.join(KEPT, f"{path}.{number}"))


def short(answer):
    """The first part of an answer in which it may be seen what is wrong."""
    text = repr(answer)
    return text if len(text) <= 1200 else text[:1200] + " .."


def wrong_reading(words, status, text):
    """What is wrong with a text as Python's own readers of JSON and CSV read it, or None."""
    if words[0] != "list" or status not in (0, 1) or text is None:
        return None
    if "json" in words:
        return wrong_json(text.decode("ascii"), words)
    if "csv" in words:
        return wrong_csv(text.decode("ascii"), words)
    return None


def members(words):
    """The members of a row that the words ask for."""
    return {*looks.COLUMNS, "stored", *(("bytes", "sha256") if "--digests" in words else ()), *(("parts",) if "--places" in words else ())}


def wrong_json(text, words):
    if not text.endswith("\n"):
        return "no newline at the end"
    head, *rows = map(json.loads, text[:-1].split("\n"))
    if set(head) != {"entries", "free", "fs", "places", "volume"} or head["entries"] != len(rows):
        return "another head"
    if any(set(row) != members(words) or list(row) != sorted(row) for row in rows):
        return "a row has other members"
    return None if all(same_path(row, head["fs"]) for row in rows) else "a path is not the stored one"


def same_path(row, file_system):
    """Whether a path is what is shown of the stored one."""
    path = bytes.fromhex(row["stored"]).translate(looks.SHOWN).decode("ascii")
    return row["path"] == (path.rstrip(" ") if file_system == "dos" else path)


def wrong_csv(text, words):
    head, *rows = csv.reader(io.StringIO(text, newline=""))
    if len(rows) != text.count("\n") - 1:
        return "other lines"
    wanted = looks.COLUMNS + (["bytes", "sha256"] if "--digests" in words else [])
    return None if head == wanted and all(len(row) == len(wanted) for row in rows) else "other columns"


def main():
    program, count, seed, *switches = sys.argv[1:]
    tried = COMMANDS if "all" in switches else {"standing", *switches}
    groups = [lines for switch, lines in COMMANDS.items() if switch in tried]
    program = os.path.abspath(program) if program != "-" else None
    trial = Trial(program, random.Random(f"{seed} looks"), groups, "every" in switches)
    with tempfile.TemporaryDirectory() as folder:
        os.chdir(folder)
        for number in range(int(count)):
            trial.volume(number)
        trial.read_by_jq(b"", True)
    print("jq was skipped: it is not there" if JQ is None else f"jq gave back the lines of {trial.by_jq - 1} texts")
    print(f"{count} volumes, {trial.texts} texts, {trial.differences} differences")
    sys.exit(trial.differences != 0)


KEPT, JQ = os.getcwd(), shutil.which("jq")

if __name__ == "__main__":
    main()

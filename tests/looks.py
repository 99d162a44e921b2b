#!/usr/bin/env python3
"""What the commands that look at a volume must tell: their text and their status, worked out from docs/formats.md alone.

looks.py WORDS ..

The words are those of the program: `identify`, `catalog`, `check`, `read`, `list`, `compare` and `map`, with their options. The text
goes to standard output, and the status is the one that the program must have. Of words that are refused (status 2) no text is told.
"""

import datetime
import functools
import hashlib
import itertools
import json
import operator
import os
import re
import sys
from typing import NamedTuple, Optional

HERE = os.path.dirname(os.path.abspath(__file__))
sys.path[1:1] = [os.path.join(HERE, "..", folder) for folder in ("bench", "samples")]
import make_samples
import random_edits
import readings

SECTOR, BLOCK, TRACKS, PLACES = 256, 512, 35, 560
TRACK = 6656
DISK_LENGTH, TRACKS_LENGTH = SECTOR * PLACES, TRACK * TRACKS
VTOC = 17 * 16
MOST = 1_073_741_824
MOST_NUMBER = (1 << 64) - 1
LETTERS = random_edits.DosVolume.KINDS
# Each byte of a name as it is shown, and the marks of eight places by a byte of a map, from its low bit and from its high one.
SHOWN = bytes(byte & 0x7F if 0x20 <= byte & 0x7F <= 0x7E else 0x3F for byte in range(256))
LOW_FIRST = [bytes(byte >> bit & 1 for bit in range(8)) for byte in range(256)]
HIGH_FIRST = [marks[::-1] for marks in LOW_FIRST]
COLUMNS = ["path", "directory", "type", "kind", "aux", "access", "locked", "size", "eof", "created", "modified"]


class Refused(Exception):
    """A command that is refused, with the word that is told."""


class Words(Exception):
    """Words that are no command."""


class Faulty(Exception):
    """A directory that has a fault: its name, its place as it is told, and whether the header of the volume has it."""

    def __init__(self, name, place, of_header=False):
        super().__init__(name, place)
        self.name, self.place, self.of_header = name, place, of_header


class Unreadable(Exception):
    """A unit that can't be read."""


class InputFailed(Exception):
    """A file that can't be read."""


def word(unit, at):
    return unit[at] + 256 * unit[at + 1]


def low_first(data):
    return int.from_bytes(data, "little")


# ---- tracks ----
DISK_BYTES = bytes(make_samples.DISK_BYTES)
VALUES = bytes(DISK_BYTES.index(byte) if byte in DISK_BYTES else 0 for byte in range(256))
# The low two bits of a byte by a group's value, for the three bytes that a group has; and the high six bits by theirs.
PAIRS = [bytes((value >> at & 1) << 1 | value >> at + 1 & 1 for value in range(256)) for at in (0, 2, 4)]
HIGH_SIX = bytes(value << 2 & 0xFF for value in range(256))


@functools.lru_cache(maxsize=20_000)
def decoded(field):
    """The sector that 343 disk bytes give, or None."""
    if field.translate(None, DISK_BYTES):
        return None
    values = bytes(itertools.accumulate(field.translate(VALUES), operator.xor))
    if values[342] != 0:
        return None
    groups = values[:86]
    low = groups.translate(PAIRS[0]) + groups.translate(PAIRS[1]) + groups.translate(PAIRS[2])[:84]
    return bytes(map(operator.or_, low, values[86:342].translate(HIGH_SIX)))


def address(ring, at, track):
    """The sector that the eight bytes of an address field name on a track, or None."""
    eight = ring[at:at + 8]
    if any(byte & 0xAA != 0xAA for byte in eight):
        return None
    volume, named, sector, check = ((eight[i] << 1 | 1) & eight[i + 1] for i in (0, 2, 4, 6))
    return sector if volume ^ named ^ sector == check and named == track and sector < 16 else None


def data_field(ring, at):
    """The sector that stands behind an address field's eight bytes, or None."""
    mark = ring.find(b"\xD5", at, at + 64)
    if mark < 0 or ring[mark:mark + 3] != b"\xD5\xAA\xAD":
        return None
    return decoded(ring[mark + 3:mark + 346])


@functools.lru_cache(maxsize=4000)
def track_sectors(track, number):
    """The sectors of a track by their physical numbers, None for each that can't be read."""
    ring = track + track[:512]
    sectors = [None] * 16
    at = ring.find(b"\xD5\xAA\x96")
    while 0 <= at < TRACK:
        sector = address(ring, at + 3, number)
        if sector is not None and sectors[sector] is None:
            sectors[sector] = data_field(ring, at + 11)
        at = ring.find(b"\xD5\xAA\x96", at + 1)
    return sectors


# ---- stores ----
PHYSICAL = {"dos": readings.SECTOR_ORDERS["dos"], "prodos": readings.SECTOR_ORDERS["prodos"]}
STAND_AT = {order: {number: SECTOR * index for index, number in enumerate(numbers)} for order, numbers in PHYSICAL.items()}
# Where the sectors of a file system's places stand in an image of an order, in bytes.
OFFSETS = {(wanted, order): [STAND_AT[order][number] for number in PHYSICAL[wanted]] for wanted in PHYSICAL for order in PHYSICAL}


def allows(length, file_system, order):
    """Whether an image of a length may hold a volume of a file system in an order."""
    if order == "nibble":
        return length == TRACKS_LENGTH
    if (file_system, order) == ("prodos", "prodos"):
        return length % BLOCK == 0 and 16 <= length // BLOCK <= 65_535
    return length == DISK_LENGTH


class Store:
    """The units of a volume, by place."""

    def __init__(self, image, file_system, order):
        self.image, self.file_system, self.order = image, file_system, order
        self.places = PLACES if file_system == "dos" else PLACES // 2 if order == "nibble" else len(image) // BLOCK

    def half(self, index):
        """The sector of a number in the file system's own order, or None."""
        if self.order == "nibble":
            track, sector = divmod(PHYSICAL[self.file_system][index], 16)
            return track_sectors(bytes(self.image[TRACK * track:TRACK * track + TRACK]), track)[sector]
        at = OFFSETS[self.file_system, self.order][index]
        return self.image[at:at + SECTOR]

    def get(self, place):
        """The unit at a place, or None."""
        if self.file_system == "dos":
            return self.half(place)
        if self.order == "prodos":
            return self.image[BLOCK * place:BLOCK * place + BLOCK]
        halves = self.half(2 * place), self.half(2 * place + 1)
        return None if None in halves else b"".join(halves)

    def read(self, place):
        """The unit at a place, which the answer needs."""
        unit = self.get(place)
        if unit is None:
            raise Unreadable
        return unit


# ---- walks ----
class Part(NamedTuple):
    """A part of a file: the file's number among the entries, what it is, its number in the file, and its place."""

    entry: int
    kind: str
    number: int
    place: int


class Walk:
    """The parts and the faults that are met, over places of which some are the system's and some are marked free."""

    def __init__(self, system, free):
        self.system, self.free = system, free
        self.met = bytearray(len(system))
        self.parts, self.faults = [], {}

    def fault(self, name, place):
        self.faults[name, place] = True

    def takes(self, part):
        """Takes up a part, unless its place is the system's or was met before."""
        place = part.place
        if self.system[place]:
            self.fault("InSystem", place)
            return False
        if self.met[place]:
            self.fault("Shared", place)
            return False
        if self.free[place]:
            self.fault("MarkedFree", place)
        self.met[place] = True
        self.parts.append(part)
        return True


class Entry(NamedTuple):
    """An entry in use: its number, the place of the unit that holds it, its bytes, and its stored path."""

    number: int
    holder: int
    raw: bytes
    stored: bytes


class Text(NamedTuple):
    """What `read` gives of a file: how many bytes, their digest, and of a binary file its address."""

    count: int
    digest: str
    address: Optional[int]


class Volume:
    """A volume whose header, directory and map can be read."""

    def text(self, entry):
        """What is told of the body of a file; None of a directory and of a file that can't be read."""
        if entry.number not in self.texts:
            self.texts[entry.number] = None if self.is_directory(entry) else self.text_of(entry)
        return self.texts[entry.number]

    def text_of(self, entry):
        try:
            units = self.units_of(entry)
        except (Refused, Unreadable):
            return None
        body = self.body(entry, units)
        return Text(len(body), hashlib.sha256(body).hexdigest(), self.address(entry, units))

    def own_parts(self, entry):
        """The parts of a file that has no fault of its own and whose lists and indexes can be read, or None."""
        if entry.number not in self.parts:
            try:
                self.parts[entry.number] = None if self.is_directory(entry) else self.parts_of(entry)
            except (Refused, Unreadable):
                self.parts[entry.number] = None
        return self.parts[entry.number]

    def parts_of(self, entry):
        """The parts of a file; one with a fault of its own is refused."""
        nothing = bytes(self.store.places)
        walk = Walk(nothing, nothing)
        self.follow(entry, walk)
        if walk.faults:
            raise Refused("Check")
        return walk.parts

    def units_of(self, entry):
        """The units of a file's body by their numbers."""
        return {part.number: self.store.read(part.place) for part in self.parts_of(entry) if part.kind == "body"}

    def whole(self, units):
        """Units up to the greatest number."""
        return joined(units, self.UNIT, self.UNIT * (max(units, default=-1) + 1))

    def find(self, stored):
        """The first file that has a stored path."""
        for entry in self.files():
            if entry.stored == stored:
                return entry
        raise Refused("NotFound")

    def listed(self, entry):
        """The path of an entry with a slash behind a directory's."""
        return self.path(entry) + ("/" if self.is_directory(entry) else "")

    def files(self):
        return [entry for entry in self.entries if not self.is_directory(entry)]

    def checked(self, reserved=(), data_disk=False):
        """What the checker says of the volume, where some places are reserved."""
        way = tuple(reserved), data_disk
        if way not in self.checks:
            self.checks[way] = Checked(self, reserved, data_disk)
        return self.checks[way]


def joined(units, size, count):
    """Units by their numbers in so many bytes, zeros for those that are not there."""
    text = bytearray(count)
    for number, unit in units.items():
        at = size * number
        if at < count:
            text[at:at + size] = unit[:count - at]
    return text


class DosVolume(Volume):
    """A volume of DOS 3.3."""

    file_system, UNIT = "dos", SECTOR

    def __init__(self, store):
        self.store, self.texts, self.parts, self.checks = store, {}, {}, {}
        vtoc = store.read(VTOC)
        if bytes(vtoc[0x34:0x38]) != bytes([35, 16, 0, 1]):
            raise Faulty("Geometry", self.place_text(VTOC), True)
        self.name = str(vtoc[6])
        marks = [LOW_FIRST[vtoc[0x39 + 4 * track]] + LOW_FIRST[vtoc[0x38 + 4 * track]] for track in range(TRACKS)]
        self.free = b"".join(marks)
        self.read_catalog(vtoc)

    def read_catalog(self, vtoc):
        self.entries, met = [], []
        unit, holder = vtoc, VTOC
        while unit[1] != 0:
            if unit[1] != 17 or not 1 <= unit[2] <= 15 or unit[2] in met:
                raise Faulty("CatalogLink", self.place_text(holder))
            met.append(unit[2])
            holder = VTOC + unit[2]
            unit = self.store.read(holder)
            for at in range(0x0B, 256, 35):
                if unit[at] not in (0x00, 0xFF):
                    raw = bytes(unit[at:at + 35])
                    self.entries.append(Entry(len(self.entries), holder, raw, raw[3:33]))
        self.units = len(met)

    def system(self, data_disk):
        """The places that are never those of a file, but for the reserved ones among them."""
        tracks = (0, 17) if data_disk else (0, 1, 2, 17)
        return bytearray(track in tracks for track in range(TRACKS) for _ in range(16))

    def order_of_places(self):
        return [16 * track + sector for track in range(TRACKS) for sector in range(15, -1, -1)]

    def is_directory(self, entry):
        return False

    def named(self, pair, holder, walk):
        """The place that a track and a sector name, or None."""
        if pair[0] == 0:
            return None
        if pair[0] > 34 or pair[1] > 15:
            walk.fault("OutOfRange", holder)
            return None
        return 16 * pair[0] + pair[1]

    def follow(self, entry, walk):
        """Walks over the lists and bodies of a file."""
        place, number = self.named(entry.raw[:2], entry.holder, walk), 0
        while place is not None and walk.takes(Part(entry.number, "list", number, place)):
            unit = self.store.read(place)
            for i, track in enumerate(bytes(unit[0x0C::2]).rstrip(b"\0")):
                if track != 0:
                    body = self.named(unit[0x0C + 2 * i:0x0E + 2 * i], place, walk)
                    if body is not None:
                        walk.takes(Part(entry.number, "body", 122 * number + i, body))
            place, number = self.named(unit[1:3], place, walk), number + 1

    def body(self, entry, units):
        """The bytes that `read` gives."""
        whole, kind = self.whole(units), entry.raw[2] & 0x7F
        if kind in (0x01, 0x02):
            return whole[2:2 + low_first(whole[:2])]
        return whole[4:4 + low_first(whole[2:4])] if kind == 0x04 else whole

    def address(self, entry, units):
        """The address of a binary file, or None of another; what the text lacks of it counts as zeros."""
        return low_first(self.whole(units)[:2]) if entry.raw[2] & 0x7F == 0x04 else None

    def stored_name(self, name):
        """The stored bytes that a name stands for; one that is too long stands for none."""
        return bytes(ord(letter) | 0x80 for letter in name.ljust(30)) if name.isascii() and len(name) <= 30 else None

    def filled(self, stored):
        """Bytes of a stored name, filled with spaces; none or too many are no name."""
        return stored.ljust(30, b"\xa0") if 1 <= len(stored) <= 30 else None

    def attributes(self, entry):
        """What is compared of an entry beside its text."""
        return entry.raw[2]

    def path(self, entry):
        return entry.stored.translate(SHOWN).decode("ascii").rstrip(" ")

    def place_text(self, place):
        return f"{place // 16}/{place % 16}"

    def row(self, entry, with_text):
        kind = entry.raw[2]
        text = self.text(entry) if with_text and kind & 0x7F == 0x04 else None
        return {
            "access": None, "aux": text.address if text else None, "created": None, "directory": False, "eof": None, "kind": kind & 0x7F,
            "locked": kind >= 0x80, "modified": None, "path": self.path(entry), "size": word(entry.raw, 33),
            "stored": entry.stored.hex().upper(), "type": LETTERS.get(kind & 0x7F, "?")}

    def catalog(self):
        lines = [f"DISK VOLUME {self.name}"]
        for entry in self.entries:
            row = self.row(entry, False)
            lines.append(f"{'*' if row['locked'] else ' '}{row['type']} {row['size']:03} {row['path']}")
        return lines


class ProVolume(Volume):
    """A volume of ProDOS."""

    file_system, UNIT = "prodos", BLOCK

    def __init__(self, store):
        self.store, self.texts, self.parts, self.checks = store, {}, {}, {}
        key = store.read(2)
        if key[4] >> 4 != 0xF or (key[0x23], key[0x24]) != (39, 13) or word(key, 0x29) != store.places:
            raise Faulty("Geometry", self.place_text(2), True)
        self.name = shown(key[5:5 + key[4] % 16])
        self.entries, self.blocks = [], set()
        self.read_tree()
        self.units = len(self.blocks)
        first = word(key, 0x27)
        self.maps = range(first, first + (store.places + 4095) // 4096)
        if any(not 2 <= block < store.places or block in self.blocks for block in self.maps):
            raise Faulty("MapPointer", self.place_text(2))
        bits = b"".join(store.read(block) for block in self.maps)
        self.free = b"".join(HIGH_FIRST[byte] for byte in bits[:(store.places + 7) // 8])[:store.places]

    def read_directory(self, key):
        """The entries in use of a directory, each with its block."""
        entries, block, unit = [], key, None
        while block != 0 or unit is None:
            self.blocks.add(block)
            unit = self.store.read(block)
            for slot in range(1 if block == key else 0, 13):
                raw = bytes(unit[4 + 39 * slot:43 + 39 * slot])
                if raw[0] >> 4 != 0:
                    entries.append((block, raw))
            after = word(unit, 2)
            if after != 0:
                self.may_be_directory(after, block)
            block = after
        return entries

    def may_be_directory(self, block, holder):
        if not 2 <= block < self.store.places or block in self.blocks:
            raise Faulty("DirLink", self.place_text(holder))

    def read_tree(self):
        """The entries in directory order, a directory's own behind it, and of each the number of its directory's entry or None."""
        waiting, self.above = [(b"", None, iter(self.read_directory(2)))], []
        while waiting:
            above, number, entries = waiting[-1]
            item = next(entries, None)
            if item is None:
                waiting.pop()
                continue
            holder, raw = item
            path = above + raw[1:1 + raw[0] % 16]
            self.entries.append(Entry(len(self.entries), holder, raw, path))
            self.above.append(number)
            if raw[0] >> 4 == 0xD:
                key = word(raw, 0x11)
                self.check_header(key, holder)
                waiting.append((path + b"/", len(self.entries) - 1, iter(self.read_directory(key))))

    def check_header(self, key, holder):
        self.may_be_directory(key, holder)
        header = self.store.read(key)
        if header[4] >> 4 != 0xE:
            raise Faulty("DirLink", self.place_text(holder))
        if (header[0x23], header[0x24]) != (39, 13):
            raise Faulty("Geometry", self.place_text(key))

    def system(self, data_disk):
        """The blocks that are never those of a file, but for the reserved ones among them."""
        system = bytearray(self.store.places)
        for block in (0, 1, *self.blocks, *self.maps):
            system[block] = True
        return system

    def order_of_places(self):
        return range(self.store.places)

    def is_directory(self, entry):
        return entry.raw[0] >> 4 == 0xD

    def follow(self, entry, walk):
        """Walks over the indexes and bodies of a file."""
        storage = entry.raw[0] >> 4
        if storage in (1, 2, 3):
            self.visit(entry, walk, ["body", "index", "master"][storage - 1], 0, word(entry.raw, 0x11), entry.holder)
        elif storage != 0xD:
            walk.fault("StorageType", entry.holder)

    def visit(self, entry, walk, kind, number, place, holder):
        """Walks over what a pointer names."""
        if place == 0:
            return
        if place >= self.store.places:
            walk.fault("OutOfRange", holder)
            return
        if not walk.takes(Part(entry.number, kind, number, place)) or kind == "body":
            return
        unit = self.store.read(place)
        below, count = ("index", 128) if kind == "master" else ("body", 256)
        low, high = bytes(unit[:count]), bytes(unit[256:256 + count])
        for i in range(max(len(low.rstrip(b"\0")), len(high.rstrip(b"\0")))):
            if low[i] or high[i]:
                self.visit(entry, walk, below, 256 * number + i, low[i] + 256 * high[i], place)

    def body(self, entry, units):
        """The bytes that `read` gives."""
        return joined(units, BLOCK, low_first(entry.raw[0x15:0x18]))

    def address(self, entry, units):
        return None

    def stored_name(self, path):
        """The stored bytes that a path stands for."""
        return path.upper().encode("ascii") if path.isascii() else None

    def filled(self, stored):
        """Bytes of a stored path; none are no path."""
        return stored or None

    def attributes(self, entry):
        """What is compared of an entry beside its text: type, EOF, creation, access, aux type and modification."""
        raw = entry.raw
        return raw[0x10], raw[0x15:0x18], raw[0x18:0x1C], raw[0x1E], raw[0x1F:0x21], raw[0x21:0x25]

    def path(self, entry):
        return shown(entry.stored)

    def place_text(self, place):
        return f"block {place}"

    def row(self, entry, with_text):
        raw = entry.raw
        return {
            "access": raw[0x1E], "aux": word(raw, 0x1F), "created": moment(raw[0x18:0x1C]), "directory": self.is_directory(entry),
            "eof": low_first(raw[0x15:0x18]), "kind": raw[0x10], "locked": raw[0x1E] & 0xC2 != 0xC2, "modified": moment(raw[0x21:0x25]),
            "path": self.path(entry), "size": word(raw, 0x13), "stored": entry.stored.hex().upper(), "type": f"${raw[0x10]:02x}"}

    def catalog(self):
        lines = [f"VOLUME /{self.name}"]
        for entry in self.entries:
            row = self.row(entry, False)
            date = row["modified"].replace("T", " ") if row["modified"] else "<NO DATE>"
            mark = "*" if row["locked"] else " "
            lines.append(f"{mark}{row['type']} {row['size']:5} {row['eof']:8} {date:16} {self.listed(entry)}")
        return lines


def shown(stored):
    """The bytes of a ProDOS name or path as they are shown."""
    return bytes(stored).translate(SHOWN).decode("ascii")


def moment(data):
    """The date and time of four bytes, or None."""
    day, minute, hour = word(data, 0), data[2], data[3]
    year = day >> 9
    if year > 99:
        return None
    try:
        return datetime.datetime(year + (1900 if year >= 40 else 2000), day >> 5 & 15, day & 31, hour, minute).strftime("%Y-%m-%dT%H:%M")
    except ValueError:
        return None


def opened(store):
    """The volume of a store."""
    return (DosVolume if store.file_system == "dos" else ProVolume)(store)


# ---- the checker ----
class Checked:
    """What the checker says of a volume."""

    def __init__(self, volume, reserved, data_disk):
        self.volume = volume
        self.own_system = volume.system(data_disk)
        self.system = bytearray(self.own_system)
        for place in reserved:
            if place < len(self.system):
                self.system[place] = True
        walk = Walk(self.system, volume.free)
        for entry in volume.entries:
            volume.follow(entry, walk)
        self.faults, self.parts, self.met = list(walk.faults), walk.parts, walk.met
        self.available = [place for place in volume.order_of_places() if not self.system[place]]
        self.lost = {place for place in self.available if not volume.free[place] and not self.met[place]}

    def accepted_line(self):
        counts = len(self.volume.files()), len(self.parts), len(self.available), len(self.lost)
        return "ACCEPTED files {} parts {} available {} lost {}".format(*counts)

    def character(self, place, standing):
        """What stands for a place in a picture; `standing` has for each part's place whether it is the part's target."""
        if self.own_system[place]:
            return "S"
        if self.system[place]:
            return "R"
        if place in standing:
            return "o" if standing[place] else "x"
        return "?" if place in self.lost else "."

    def picture(self):
        """The lines of a map."""
        targets = zip(self.parts, self.available)
        standing = {part.place: part.place == target for part, target in targets}
        characters = "".join(self.character(place, standing) for place in range(len(self.system)))
        if self.volume.file_system == "dos":
            lines = [f"{sector:2} {characters[sector::16]}" for sector in range(15, -1, -1)]
        else:
            lines = [f"{at:5} {characters[at:at + 64]}" for at in range(0, len(characters), 64)]
        counts = len(self.parts), characters.count("o"), characters.count("x"), characters.count("?"), characters.count(".")
        return [*lines, "PARTS {} IN ORDER {} ELSEWHERE {} LOST {} FREE {}".format(*counts)]


def reserved_places(text, file_system):
    """The places that a list reserves."""
    places = []
    for item in text.split(",") if text is not None else []:
        pieces = item.split("/")
        limits = [34, 15] if file_system == "dos" else [65_535]
        if len(pieces) != len(limits) or not all(map(random_edits.is_number, pieces, limits)):
            raise Refused("Reserve")
        places.append(16 * int(pieces[0]) + int(pieces[1]) if file_system == "dos" else int(item))
    return places


# ---- the ways to read an image ----
WAYS = [(file_system, order) for file_system in ("dos", "prodos") for order in ("dos", "prodos", "nibble")]


def found(volume):
    """What `identify` finds of a volume that can be read."""
    try:
        checked = volume.checked()
    except Unreadable:
        return readings.Found(len(volume.entries), volume.units, None, None)
    if checked.faults:
        return readings.Found(len(volume.entries), volume.units, None, None)
    return readings.Found(len(volume.entries), volume.units, len(volume.files()), len(checked.lost))


def told_reading(reading):
    """What `identify` tells of a reading."""
    if not isinstance(reading, readings.Found):
        return reading
    counts = f"entries {reading.entries} chain {reading.units}"
    return f"REFUSED {counts}" if reading.files is None else f"ACCEPTED files {reading.files} {counts} lost {reading.lost}"


class Image:
    """An image, and what was found of it in each way to read it."""

    def __init__(self, data):
        self.data = bytes(data)
        self.volumes, self.found = {}, {}

    def volume(self, file_system, order):
        """The volume that is read in a way, or the exception that says why there is none."""
        way = file_system, order
        if way not in self.volumes:
            try:
                self.volumes[way] = opened(Store(self.data, *way))
            except (Faulty, Unreadable) as reason:
                self.volumes[way] = reason
        return self.volumes[way]

    def open(self, file_system, order):
        volume = self.volume(file_system, order)
        if isinstance(volume, Exception):
            raise volume
        return volume

    def reading(self, way):
        """What `identify` finds in one way to read the image."""
        if way not in self.found:
            volume = self.volume(*way)
            if isinstance(volume, Volume):
                self.found[way] = found(volume)
            else:
                has_header = isinstance(volume, Faulty) and not volume.of_header
                self.found[way] = readings.BROKEN if has_header else readings.UNREADABLE
        return self.found[way]

    def readings(self, file_system="auto", order="auto"):
        """What is found in each way that the words and the image's length allow."""
        wanted = [way for way in WAYS if file_system in ("auto", way[0]) and order in ("auto", way[1])]
        return {way: self.reading(way) for way in wanted if allows(len(self.data), *way)}

    def best(self, file_system, order):
        """The best way to read the image among those that the words allow."""
        best = readings.verdict(self.readings(file_system, order))
        if isinstance(best, str):
            raise Refused("Ambiguous" if best == "AMBIGUOUS" else "Unknown")
        return best


# ---- words ----
FILE_SYSTEMS, ORDERS = ["dos", "prodos", "auto"], ["dos", "prodos", "nibble", "auto"]
VALUES_OF = {"--fs": FILE_SYSTEMS, "--order": ORDERS, "--other-order": ORDERS, "--format": ["names", "json", "csv"]}
# How many positional words each command has, its options and its flags.
COMMANDS = {
    "identify": (1, set(), set()),
    "catalog": (1, {"--fs", "--order"}, {"--data-disk"}),
    "read": (2, {"--fs", "--order"}, {"--data-disk", "--whole", "--stored"}),
    "check": (1, {"--fs", "--order", "--reserve"}, {"--data-disk", "--bodies"}),
    "list": (1, {"--fs", "--order", "--format", "--most"}, {"--data-disk", "--digests", "--places"}),
    "compare": (2, {"--fs", "--order", "--other-order", "--most"}, {"--data-disk", "--all"}),
    "map": (1, {"--fs", "--order", "--reserve"}, {"--data-disk"}),
}
LEFT_OUT = {"list", "compare", "map"}


def option_value(name, value):
    """The value of an option; a wrong one is no command."""
    if name in VALUES_OF and value not in VALUES_OF[name]:
        raise Words
    if name == "--most":
        if not random_edits.is_number(value, MOST_NUMBER):
            raise Words
        return int(value)
    return value


def parsed(words):
    """The command, its positional words, and its options with their values."""
    command, *rest = words or [""]
    if command not in COMMANDS:
        raise Words
    count, options, flags = COMMANDS[command]
    positional, said, rest = [], {}, iter(word for word in rest if word != "--auto")
    for item in rest:
        if item in options and item not in said:
            said[item] = option_value(item, next(rest, None))
        elif item in flags and item not in said:
            said[item] = True
        elif item.startswith("--") or len(positional) == count:
            raise Words
        else:
            positional.append(item)
    if command in LEFT_OUT or "--auto" in words:
        said = {"--fs": "auto", "--order": "auto", **said}
    if len(positional) != count or options >= {"--fs", "--order"} and not {"--fs", "--order"} <= said.keys():
        raise Words
    if "--stored" in said and re.fullmatch("([0-9A-Fa-f]{2})*", positional[1]) is None:
        raise Words
    if "--places" in said and said.get("--format") != "json" or command == "compare" and positional == ["-", "-"]:
        raise Words
    return command, positional, said


# ---- the commands ----
def text_of_lines(lines):
    return "".join(line + "\n" for line in lines).encode("ascii")


def in_csv(value):
    """A field of a row in CSV."""
    return "" if value is None else json.dumps(value) if isinstance(value, bool) else str(value)


def csv_line(row, columns):
    quoted = '"' + row["path"].replace('"', '""') + '"'
    return ",".join([quoted, *(in_csv(row[column]) for column in columns[1:])])


def json_line(value):
    return json.dumps(value, sort_keys=True, separators=(",", ":"))


def bounded(texts, most):
    """Refuses where all texts together have more bytes than the bound."""
    if sum(text.count for text in texts if text is not None) > most:
        raise Refused("TooLarge")


class numbered:
    """Puts the number of an image behind what is refused or has failed of it."""

    def __init__(self, number):
        self.number = number

    def __enter__(self):
        return self

    def __exit__(self, kind, reason, trace):
        words = {Refused: f"REFUSED {reason}", Faulty: "REFUSED Check", InputFailed: "FAILED Input", Unreadable: "FAILED Device"}
        if kind in words:
            raise Numbered(3 if kind in (Refused, Faulty) else 4, f"{words[kind]} {self.number}") from None


class Numbered(Exception):
    """What is refused or has failed of one of two images: the status and the line."""


class Looks:
    """The commands over images, which are read by `content` from their paths."""

    def __init__(self, content):
        self.content, self.images = content, {}

    def image(self, path):
        if path not in self.images:
            try:
                self.images[path] = Image(self.content(path))
            except OSError:
                raise InputFailed from None
        return self.images[path]

    def told(self, words):
        """The status and the text of a command; of refused words no text."""
        try:
            command, positional, said = parsed(words)
        except Words:
            return 2, None
        try:
            return getattr(self, command)(*positional, said)
        except Refused as reason:
            return 3, text_of_lines([f"REFUSED {reason}"])
        except Faulty:
            return 3, b"REFUSED Check\n"
        except InputFailed:
            return 4, b"FAILED Input\n"
        except Unreadable:
            return 4, b"FAILED Device\n"
        except Numbered as reason:
            return reason.args[0], text_of_lines(reason.args[1:])

    def way(self, image, file_system, order):
        """The way in which an image is read; `auto` stands for the best one."""
        return image.best(file_system, order) if "auto" in (file_system, order) else (file_system, order)

    def opened(self, path, said):
        """The volume of an image and the places that the words reserve in it."""
        image = self.image(path)
        way = self.way(image, said["--fs"], said["--order"])
        reserved = reserved_places(said.get("--reserve"), way[0])
        if not allows(len(image.data), *way):
            raise Refused("Length")
        return image.open(*way), reserved

    def identify(self, path, said):
        ways = self.image(path).readings()
        if not ways:
            raise Refused("Length")
        best = readings.verdict(ways)
        lines = [f"{' '.join(way)} {told_reading(reading)}" for way, reading in ways.items()]
        if isinstance(best, str):
            return 1, text_of_lines([*lines, best])
        return 0, text_of_lines([*lines, f"BEST {' '.join(best)}"])

    def read(self, path, name, said):
        volume, _ = self.opened(path, said)
        entry = volume.find(volume.filled(bytes.fromhex(name)) if "--stored" in said else volume.stored_name(name))
        units = volume.units_of(entry)
        return 0, bytes(volume.whole(units) if "--whole" in said else volume.body(entry, units))

    def catalog(self, path, said):
        volume, _ = self.opened(path, said)
        return 0, text_of_lines([*volume.catalog(), f"FREE {sum(volume.free)}"])

    def check(self, path, said):
        try:
            volume, reserved = self.opened(path, said)
        except Faulty as reason:
            return 1, text_of_lines([f"FAULT {reason.name} {reason.place}"])
        checked = volume.checked(reserved, "--data-disk" in said)
        if checked.faults:
            return 1, text_of_lines(f"FAULT {name} {volume.place_text(place)}" for name, place in checked.faults)
        lines = self.unreadable_lines(checked) if "--bodies" in said else []
        return (1, text_of_lines(lines)) if lines else (0, text_of_lines([checked.accepted_line()]))

    def unreadable_lines(self, checked):
        """A line for each part whose unit can't be read."""
        volume = checked.volume
        return [
            f"UNREADABLE {volume.place_text(part.place)} {volume.path(volume.entries[part.entry])}"
            for part in checked.parts if volume.store.get(part.place) is None]

    def map(self, path, said):
        volume, reserved = self.opened(path, said)
        checked = volume.checked(reserved, "--data-disk" in said)
        if checked.faults:
            raise Refused("Check")
        return 0, text_of_lines(checked.picture())

    def list(self, path, said):
        volume, _ = self.opened(path, said)
        form, digests = said.get("--format", "names"), "--digests" in said
        rows = form != "names"
        self.bound(volume, digests, "--places" in said, said.get("--most", MOST))
        lines = self.row_lines(volume, form, digests, "--places" in said) if rows else self.name_lines(volume, digests)
        without = digests and any(volume.text(entry) is None for entry in volume.files())
        return int(without), text_of_lines(lines)

    def bound(self, volume, digests, places, most):
        """Refuses where the texts that are read for digests and the units of the parts that are told have too many bytes."""
        texts = [volume.text(entry) for entry in volume.files()] if digests else []
        parts = sum(len(volume.own_parts(entry) or ()) for entry in volume.entries) if places else 0
        if sum(text.count for text in texts if text is not None) + volume.UNIT * parts > most:
            raise Refused("TooLarge")

    def name_lines(self, volume, digests):
        if not digests:
            return [volume.listed(entry) for entry in volume.entries]
        texts = ((volume.path(entry), volume.text(entry)) for entry in volume.files())
        return [f"{text.digest if text else '-' * 64}  {path}" for path, text in texts]

    def rows(self, volume, digests, places):
        """The values that are told of each entry."""
        for entry in volume.entries:
            row = volume.row(entry, True)
            if digests:
                text = volume.text(entry)
                row["bytes"], row["sha256"] = (text.count, text.digest) if text else (None, None)
            if places:
                parts = volume.own_parts(entry)
                row["parts"] = parts and [f"{part.kind} {part.number} {volume.place_text(part.place)}" for part in parts]
            yield row

    def row_lines(self, volume, form, digests, places):
        rows = self.rows(volume, digests, places)
        if form == "csv":
            columns = COLUMNS + (["bytes", "sha256"] if digests else [])
            return [",".join(columns), *(csv_line(row, columns) for row in rows)]
        head = {
            "entries": len(volume.entries), "free": sum(volume.free), "fs": volume.file_system, "places": volume.store.places,
            "volume": volume.name}
        return [json_line(head), *map(json_line, rows)]

    def compare(self, one, other, said):
        with numbered(1):
            first = self.image(one)
            way = self.way(first, said["--fs"], said["--order"])
        with numbered(2):
            second = self.image(other)
            order = said.get("--other-order", said["--order"])
            other_way = self.way(second, way[0], order)
        both = [(1, first, way), (2, second, other_way)]
        for number, image, of_image in both:
            with numbered(number):
                if not allows(len(image.data), *of_image):
                    raise Refused("Length")
        volumes = []
        for number, image, of_image in both:
            with numbered(number):
                volumes.append(image.open(*of_image))
        for number, texts in enumerate(read_texts(*volumes), 1):
            with numbered(number):
                bounded(texts, said.get("--most", MOST))
        return compared(*volumes, "--all" in said)


def pairs_of(one, other):
    """The files of two volumes in pairs: the k-th of a stored path with the k-th of that path; None where there is no partner."""
    partners = {}
    for entry in other.files():
        partners.setdefault(entry.stored, []).append(entry)
    pairs = []
    for entry in one.files():
        same_path = partners.get(entry.stored)
        pairs.append((entry, same_path.pop(0) if same_path else None))
    alone = {entry.number for same_path in partners.values() for entry in same_path}
    return pairs + [(None, entry) for entry in other.files() if entry.number in alone]


def read_texts(one, other):
    """The texts that are read of each volume: the partner of a file that can't be read is not read."""
    seconds = [second for first, second in pairs_of(one, other) if second is not None and (first is None or one.text(first) is not None)]
    return map(one.text, one.files()), map(other.text, seconds)


def outcome(one, other, pair):
    """The first word that holds of a pair."""
    texts = [entry and volume.text(entry) for volume, entry in zip((one, other), pair)]
    for number, (entry, text) in enumerate(zip(pair, texts), 1):
        if entry is not None and text is None:
            return f"UNREADABLE {number}"
    for number, entry in enumerate(pair, 1):
        if pair[2 - number] is None:
            return f"ONLY {number}"
    if texts[0][:2] != texts[1][:2]:
        return "BODY"
    if (one.attributes(pair[0]), texts[0].address) != (other.attributes(pair[1]), texts[1].address):
        return "ENTRY"
    return "SAME"


def compared(one, other, all_pairs):
    """The status and the text of a comparison of two volumes."""
    lines, counts = [], dict.fromkeys(["SAME", "BODY", "ENTRY", "ONLY 1", "ONLY 2", "UNREADABLE"], 0)
    for pair in pairs_of(one, other):
        said = outcome(one, other, pair)
        counts["UNREADABLE" if said.startswith("UNREADABLE") else said] += 1
        if said != "SAME" or all_pairs:
            lines.append(f"{said} {one.path(pair[0] or pair[1])}")
    if sum(counts.values()) == counts["SAME"]:
        return 0, text_of_lines([*lines, f"EQUAL files {counts['SAME']}"])
    last = "DIFFERENT same {} body {} entry {} only1 {} only2 {} unreadable {}".format(*counts.values())
    return 1, text_of_lines([*lines, last])


def content(path):
    """The bytes of a file, or of standard input."""
    if path == "-":
        return sys.stdin.buffer.read()
    with open(path, "rb") as file:
        return file.read()


def main():
    status, text = Looks(content).told(sys.argv[1:])
    sys.stdout.buffer.write(text or b"")
    sys.exit(status)


if __name__ == "__main__":
    main()

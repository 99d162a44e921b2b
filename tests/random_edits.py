#!/usr/bin/env python3
"""Edits the files of a volume at random, one edit after another, and weighs the image after each of them.

random_edits.py PROGRAM COUNT SEED FILE_SYSTEM ORDER [crowded|large]

The volume is the shelf of samples/; `crowded` with three free slots in its directory, or for ProDOS with 4,300 blocks, so that its map has two of
them, where it is `large`. What an edit does to the image, and what the program tells of it, is worked out here from docs/formats.md alone.
After each edit the image is that to the byte; `check` and `catalog` tell what is in it, and each file reads back as it was.
"""

import datetime
import os
import random
import subprocess
import sys
import tempfile
from typing import NamedTuple, Optional, Union

sys.path.insert(0, os.path.join(os.path.dirname(os.path.abspath(__file__)), "..", "samples"))
import make_samples

# The DOS sector that each half of a track's eight blocks has.
HALVES = [0, 14, 13, 12, 11, 10, 9, 8, 7, 6, 5, 4, 3, 2, 1, 15]


class Refused(Exception):
    """An edit that is not done, with the word that is told."""


class Saved(NamedTuple):
    """A file to be saved, with the words of its options; its bytes come from a seed, those of seed 0 are zeros."""

    path: str
    size: int
    seed: int
    kind: Union[None, int, str]
    aux: Optional[int]
    date: Optional[str]
    reserve: Optional[str]

    def content(self):
        return random.Random(self.seed).randbytes(self.size) if self.seed else bytes(self.size)

    def words(self):
        options = {"--type": self.kind, "--aux": self.aux, "--date": self.date, "--reserve": self.reserve}
        return [word for name, value in options.items() if value is not None for word in (name, str(value))]


def date_bytes(word):
    """A date and time in four bytes; none said is no date."""
    if word is None:
        return bytes(4)
    try:
        moment = datetime.datetime.strptime(word, "%Y-%m-%dT%H:%M:%S")
    except ValueError:
        raise Refused("Date") from None
    if not 1940 <= moment.year <= 2039:
        raise Refused("Date")
    day = moment.year % 100 << 9 | moment.month << 5 | moment.day
    return make_samples.low_first(day, 2) + bytes([moment.minute, moment.hour])


def units_of(content, size):
    """Bytes in units of a size, of which the last is filled with zeros."""
    return [content[at:at + size].ljust(size, b"\0") for at in range(0, len(content), size)]


def is_number(text, most):
    """Whether a text is a decimal number without leading zeros, up to the greatest."""
    return text.isascii() and text.isdigit() and text == str(int(text)) and int(text) <= most


def shown(text):
    """Bytes of a name as a listing shows them."""
    return "".join(chr(byte & 0x7F) if 0x20 <= byte & 0x7F <= 0x7E else "?" for byte in text)


class DosVolume:
    """A DOS 3.3 volume in DOS order."""

    UNIT = 256
    KINDS = {0x00: "T", 0x01: "I", 0x02: "A", 0x04: "B", 0x08: "S", 0x10: "R", 0x20: "a", 0x40: "b"}
    GOOD = ["A", "ZZ", "NEW FILE", "X" * 30, "FILE 3", "FILE 4", "Q~{}", "MIXED case"]
    BAD = ["", "1A", "a", "A,B", "A ", " A", "X" * 31, "TILDE\u00e9"]
    LETTERS = {"T": 0x00, "I": 0x01, "A": 0x02, "B": 0x04, "S": 0x08, "R": 0x10}
    TEXT = 0x00
    WRONG_KINDS = ["Q", "t", "TT", "06", "a"]
    SIZES = [3_000, 6_000, 45_000, 80_000, 144_000]
    EDGES = [31_228, 31_229, 31_232, 31_233, 62_465, 65_535, 65_536, 143_360, 143_361]

    def __init__(self, size):
        self.image = make_samples.shelf_dsk()
        if size == "crowded":
            for number in range(105 - 30 - 3):
                self.save(Saved(f"LIST {number}", 0, 0, "T", None, None, None))

    def unit(self, place):
        return self.image[256 * place:256 * (place + 1)]

    def entries(self):
        """Where each entry in use stands, in catalog order."""
        track, sector = self.unit(17 * 16)[1:3]
        while track:
            place = 16 * track + sector
            for slot in range(7):
                at = 256 * place + 0x0B + 35 * slot
                if self.image[at] not in (0x00, 0xFF):
                    yield at
            track, sector = self.unit(place)[1:3]

    files = entries

    def paths(self):
        return [shown(self.image[at + 3:at + 33]).rstrip(" ") for at in self.files()]

    def parts(self, at):
        """The places of an entry's file, and its units by number."""
        places, body, number = [], {}, 0
        track, sector = self.image[at:at + 2]
        while track:
            places.append(16 * track + sector)
            unit = self.unit(places[-1])
            for i in range(122):
                pair = unit[0x0C + 2 * i:0x0E + 2 * i]
                if pair[0]:
                    places.append(16 * pair[0] + pair[1])
                    body[number + i] = bytes(self.unit(places[-1]))
            track, sector = unit[1:3]
            number += 122
        return places, body

    def stored(self, name):
        return bytes(ord(letter) | 0x80 for letter in name.ljust(30))

    def find(self, name):
        for at in self.entries():
            if len(name) <= 30 and name.isascii() and self.image[at + 3:at + 33] == self.stored(name):
                return at
        raise Refused("NotFound")

    def is_locked(self, at):
        return self.image[at + 2] >= 0x80

    def lock(self, at, on):
        self.image[at + 2] = self.image[at + 2] | 0x80 if on else self.image[at + 2] & 0x7F

    def may_have(self, name):
        return (1 <= len(name) <= 30 and "A" <= name[0] <= "Z" and name[-1] != " "
                and all(" " <= letter <= "~" and letter != "," for letter in name))

    def rename(self, at, new):
        if not self.may_have(new):
            raise Refused("Name")
        if any(self.image[other + 3:other + 33] == self.stored(new) for other in self.entries()):
            raise Refused("Exists")
        if self.is_locked(at):
            raise Refused("Locked")
        self.image[at + 3:at + 33] = self.stored(new)

    def delete(self, at):
        if self.is_locked(at):
            raise Refused("Locked")
        places, _ = self.parts(at)
        self.image[at + 32] = self.image[at]
        self.image[at] = 0xFF
        for place in places:
            track, sector = divmod(place, 16)
            self.image[256 * 17 * 16 + 0x38 + 4 * track + (sector < 8)] |= 1 << sector % 8

    def free(self):
        return [16 * track + sector for track in range(35) for sector in range(16)
                if self.image[256 * 17 * 16 + 0x38 + 4 * track + (sector < 8)] >> sector % 8 & 1]

    def all_slots(self):
        """Where each slot of the catalog stands."""
        track, sector = self.unit(17 * 16)[1:3]
        while track:
            place = 16 * track + sector
            yield from range(256 * place + 0x0B, 256 * place + 256, 35)
            track, sector = self.unit(place)[1:3]

    def reserved(self, text):
        """The places that a list reserves."""
        places = set()
        for item in text.split(",") if text is not None else []:
            track, slash, sector = item.partition("/")
            if not slash or not is_number(track, 34) or not is_number(sector, 15):
                raise Refused("Reserve")
            places.add(16 * int(track) + int(sector))
        return places

    def taken_over(self, at):
        """The type and the address of a file."""
        kind = self.image[at + 2] & 0x7F
        _, body = self.parts(at)
        return kind, int.from_bytes(body.get(0, bytes(2))[:2], "little") if kind == 0x04 else 0

    def kind_of(self, word):
        if isinstance(word, int):
            return word
        if word is None:
            return 0x00
        if word not in self.LETTERS:
            raise Refused("Type")
        return self.LETTERS[word]

    def held(self, kind, saved):
        """What the units of a file hold: a program has its length before its bytes, and a binary file its address before that."""
        content = saved.content()
        if kind not in (0x01, 0x02, 0x04):
            return content
        if len(content) > 65_535:
            raise Refused("TooLong")
        address = make_samples.low_first(saved.aux or 0, 2) if kind == 0x04 else b""
        return address + make_samples.low_first(len(content), 2) + content

    def free_places(self, reserved):
        """The places that a new file may take, tracks upward and sectors downward."""
        free = set(self.free())
        order = [16 * track + sector for track in range(3, 35) if track != 17 for sector in range(15, -1, -1)]
        return [place for place in order if place in free and place not in reserved]

    def save(self, saved):
        kind = self.kind_of(saved.kind)
        date_bytes(saved.date)
        reserved = self.reserved(saved.reserve)
        units = units_of(self.held(kind, saved), 256)
        if any(place in reserved for at in self.files() for place in self.parts(at)[0]):
            raise Refused("Check")
        if not self.may_have(saved.path):
            raise Refused("Name")
        if any(self.image[at + 3:at + 33] == self.stored(saved.path) for at in self.entries()):
            raise Refused("Exists")
        if len(units) > 560:
            raise Refused("TooLong")
        slot = next((at for at in self.all_slots() if self.image[at] in (0x00, 0xFF)), None)
        if slot is None:
            raise Refused("DirFull")
        lists = [units[at:at + 122] for at in range(0, len(units), 122)] or [[]]
        places = self.free_places(reserved)[:len(lists) + len(units)]
        if len(places) < len(lists) + len(units):
            raise Refused("VolumeFull")
        self.put_lists(lists, places)
        length = make_samples.low_first(len(places), 2)
        self.image[slot:slot + 35] = bytes([*divmod(places[0], 16), kind]) + self.stored(saved.path) + length

    def put_lists(self, lists, places):
        """The lists of a new file, each before the units that it names, and their places in the map."""
        at = 0
        for number, units in enumerate(lists):
            here, bodies = places[at], places[at + 1:at + 1 + len(units)]
            at += 1 + len(units)
            table = bytearray(256)
            if at < len(places):
                table[1:3] = divmod(places[at], 16)
            table[5:7] = make_samples.low_first(122 * number, 2)
            for i, (place, unit) in enumerate(zip(bodies, units)):
                table[0x0C + 2 * i:0x0E + 2 * i] = divmod(place, 16)
                self.image[256 * place:256 * place + 256] = unit
            self.image[256 * here:256 * here + 256] = table
        for place in places:
            track, sector = divmod(place, 16)
            self.image[256 * 17 * 16 + 0x38 + 4 * track + (sector < 8)] &= ~(1 << sector % 8)

    def item(self, place):
        """A place as a list of reserved places names it."""
        return f"{place // 16}/{place % 16}"

    def places(self):
        return 560

    def body(self, saved):
        """What is read of a new file: its bytes alone where it has its length before them, else its units whole."""
        content = saved.content()
        return content if saved.kind in ("I", "A", "B", 0x01, 0x02, 0x04) else b"".join(units_of(content, 256))

    def listing(self):
        lines = [f"DISK VOLUME {self.unit(17 * 16)[6]:03}"]
        for at in self.entries():
            kind = self.image[at + 2]
            length = int.from_bytes(self.image[at + 33:at + 35], "little")
            name = shown(self.image[at + 3:at + 33]).rstrip(" ")
            lines.append(f"{'*' if kind >= 0x80 else ' '}{self.KINDS.get(kind & 0x7F, '?')} {length:03} {name}")
        return "\n".join([*lines, f"FREE {len(self.free())}", ""])

    def available(self):
        return 31 * 16


class ProVolume:
    """A ProDOS volume in ProDOS order."""

    UNIT = 512
    GOOD = ["A", "zz", "NEW.FILE", "X" * 15, "FILE.3", "file.4", "INNER", "Q9.9"]
    BAD = ["", "9A", ".A", "A B", "A_", "X" * 16, "A/B", "TILDE\u00e9"]
    TEXT = 0x04
    WRONG_KINDS = ["T", "6", "006", "G0", "$6", "0x"]
    SIZES = [3_000, 6_000, 45_000, 80_000, 145_000, 300_000]
    EDGES = [131_071, 131_072, 131_073]

    def __init__(self, size):
        self.image = make_samples.shelf_po()
        if size == "large":
            self.enlarge(4300)
        if size == "crowded":
            for number in range(51 - 21 - 3):
                self.save(Saved(f"LIST.{number}", 0, 0, "06", None, None, None))

    def enlarge(self, total):
        """Makes the volume larger; its map of two blocks stands behind the old blocks, and the old map's block is free."""
        old, maps = len(self.image) // 512, total // 4096 + 1
        bits = bytearray(self.unit(6)[:old // 8])
        bits[0] |= 0x80 >> 6
        self.image += bytes(512 * (total - old))
        self.image[512 * 6:512 * 7] = bytes(512)
        self.image[512 * 2 + 0x27:512 * 2 + 0x29] = make_samples.low_first(old, 2)
        self.image[512 * 2 + 0x29:512 * 2 + 0x2B] = make_samples.low_first(total, 2)
        self.image[512 * old:512 * old + len(bits)] = bits
        for block in range(old + maps, total):
            self.image[self.map() + block // 8] |= 0x80 >> block % 8

    def map(self):
        """Where the map stands."""
        return 512 * self.word(512 * 2 + 0x27)

    def places(self):
        return self.word(512 * 2 + 0x29)

    def unit(self, place):
        return self.image[512 * place:512 * (place + 1)]

    def word(self, at):
        return int.from_bytes(self.image[at:at + 2], "little")

    def slots(self, key):
        """Where the entries in use of a directory stand."""
        block, slot = key, 1
        while block:
            for number in range(slot, 13):
                at = 512 * block + 4 + 39 * number
                if self.image[at] & 0xF0:
                    yield at
            block, slot = self.word(512 * block + 2), 0

    def tree(self, key=2, above=""):
        """Each entry with its directory's key block and its path, in directory order."""
        for at in self.slots(key):
            path = above + self.name(at)
            yield at, key, path
            if self.image[at] >> 4 == 0xD:
                yield from self.tree(self.word(at + 0x11), path + "/")

    def name(self, at):
        return self.image[at + 1:at + 1 + self.image[at] % 16].decode("ascii")

    def files(self):
        return [at for at, _, _ in self.tree() if self.image[at] >> 4 != 0xD]

    def paths(self):
        return [path for at, _, path in self.tree() if self.image[at] >> 4 != 0xD]

    def parts(self, at):
        places, body = [], {}

        def pointers(block, count):
            unit = self.unit(block)
            for i in range(count):
                pointer = unit[i] + 256 * unit[256 + i]
                if pointer:
                    yield i, pointer

        def index(block, first):
            places.append(block)
            for i, pointer in pointers(block, 256):
                places.append(pointer)
                body[first + i] = bytes(self.unit(pointer))

        key = self.word(at + 0x11)
        storage = self.image[at] >> 4
        if not key:
            return places, body
        if storage == 1:
            places.append(key)
            body[0] = bytes(self.unit(key))
        elif storage == 2:
            index(key, 0)
        else:
            places.append(key)
            for i, pointer in pointers(key, 128):
                index(pointer, 256 * i)
        return places, body

    def find(self, path):
        for at, _, other in self.tree():
            if self.image[at] >> 4 != 0xD and path.isascii() and path.upper() == other:
                return at
        raise Refused("NotFound")

    def lock(self, at, on):
        self.image[at + 0x1E] = self.image[at + 0x1E] & ~0xC2 if on else self.image[at + 0x1E] | 0xC3

    def may_have(self, name):
        return (1 <= len(name) <= 15 and name.isascii() and name[0].isalpha()
                and all(letter.isalnum() or letter == "." for letter in name))

    def directory_of(self, at):
        return next(key for other, key, _ in self.tree() if other == at)

    def rename(self, at, new):
        if not self.may_have(new):
            raise Refused("Name")
        if new.upper() in map(self.name, self.slots(self.directory_of(at))):
            raise Refused("Exists")
        if not self.image[at + 0x1E] & 0x40:
            raise Refused("Locked")
        self.image[at] = self.image[at] & 0xF0 | len(new)
        self.image[at + 1:at + 16] = new.upper().encode("ascii").ljust(15, b"\0")

    def delete(self, at):
        if not self.image[at + 0x1E] & 0x80:
            raise Refused("Locked")
        places, _ = self.parts(at)
        count = 512 * self.directory_of(at) + 0x25
        self.image[count:count + 2] = max(self.word(count) - 1, 0).to_bytes(2, "little")
        self.image[at] = 0
        for place in places:
            self.image[self.map() + place // 8] |= 0x80 >> place % 8

    def free(self):
        bits = self.map()
        return [block for block in range(self.places()) if self.image[bits + block // 8] & 0x80 >> block % 8]

    def all_slots(self, key):
        """Where the slots of a directory stand."""
        block, slot = key, 1
        while block:
            yield from (512 * block + 4 + 39 * number for number in range(slot, 13))
            block, slot = self.word(512 * block + 2), 0

    def reserved(self, text):
        """The places that a list reserves."""
        items = text.split(",") if text is not None else []
        if not all(is_number(item, 65_535) for item in items):
            raise Refused("Reserve")
        return set(map(int, items))

    def taken_over(self, at):
        """The type and the auxiliary type of a file."""
        return self.image[at + 0x10], self.word(at + 0x1F)

    def kind_of(self, word):
        if isinstance(word, int):
            return word
        if word is None:
            return 0x06
        if len(word) != 2 or any(digit not in "0123456789abcdefABCDEF" for digit in word):
            raise Refused("Type")
        return int(word, 16)

    def system(self):
        """The blocks that are never those of a file."""
        first = self.map() // 512
        directories = self.directory_blocks()
        return {0, 1, *range(first, first + (self.places() + 4095) // 4096), *directories}

    def free_places(self, reserved):
        """The places that a new file may take, in their order."""
        system = self.system()
        return [block for block in self.free() if block not in reserved and block not in system]

    def directory_blocks(self):
        keys = [2] + [self.word(at + 0x11) for at, _, _ in self.tree() if self.image[at] >> 4 == 0xD]
        for block in keys:
            while block:
                yield block
                block = self.word(512 * block + 2)

    def directory(self, above):
        """The key block of the first directory of a path."""
        for at, _, path in self.tree():
            if self.image[at] >> 4 == 0xD and path == above.upper():
                return self.word(at + 0x11)
        raise Refused("NotFound")

    def save(self, saved):
        kind = self.kind_of(saved.kind)
        date = date_bytes(saved.date)
        reserved = self.reserved(saved.reserve)
        content = saved.content()
        units = units_of(content, 512) or [bytes(512)]
        if any(place in reserved for at in self.files() for place in self.parts(at)[0]):
            raise Refused("Check")
        above, slash, name = saved.path.rpartition("/")
        key = self.directory(above) if slash else 2
        if not self.may_have(name):
            raise Refused("Name")
        if name.upper() in map(self.name, self.slots(key)):
            raise Refused("Exists")
        if len(units) > 32_768 or len(content) > 16_777_215:
            raise Refused("TooLong")
        slot = next((at for at in self.all_slots(key) if not self.image[at] & 0xF0), None)
        if slot is None:
            raise Refused("DirFull")
        places = self.free_places(reserved)
        storage = 1 if len(units) == 1 else 2 if len(units) <= 256 else 3
        tables = [0, 1, 1 + (len(units) + 255) // 256][storage - 1]
        if len(places) < len(units) + tables:
            raise Refused("VolumeFull")
        places = places[:len(units) + tables]
        self.put_parts(storage, units, places)
        self.image[slot:slot + 39] = (
            bytes([storage << 4 | len(name)]) + name.upper().encode("ascii").ljust(15, b"\0") + bytes([kind])
            + make_samples.low_first(places[0], 2) + make_samples.low_first(len(places), 2) + make_samples.low_first(len(content), 3)
            + date + bytes([0, 0, 0xE3]) + make_samples.low_first(saved.aux or 0, 2) + date + make_samples.low_first(key, 2))
        count = 512 * key + 0x25
        self.image[count:count + 2] = make_samples.low_first(min(self.word(count) + 1, 65_535), 2)

    def put_parts(self, storage, units, places):
        """The blocks of a new file, each index before the units that it names, and their places in the map."""
        stand = iter(places)
        for block in places:
            self.image[512 * block:512 * block + 512] = bytes(512)
            self.image[self.map() + block // 8] &= ~(0x80 >> block % 8)
        master = next(stand) if storage == 3 else None
        for number, unit in enumerate(units):
            if number % 256 == 0 and storage > 1:
                index = next(stand)
                if master is not None:
                    make_samples.put_pointer(self.image, master, number // 256, index)
            block = next(stand)
            if storage > 1:
                make_samples.put_pointer(self.image, index, number % 256, block)
            self.image[512 * block:512 * block + 512] = unit

    def item(self, place):
        """A place as a list of reserved places names it."""
        return str(place)

    def held(self, _, saved):
        """What the units of a file hold."""
        return saved.content()

    def body(self, saved):
        """What is read of a new file."""
        return saved.content()

    def moment(self, at):
        day, minute = self.word(at), self.word(at + 2)
        if not day:
            return "<NO DATE>"
        year = day >> 9
        return f"{year + (1900 if year >= 40 else 2000)}-{day >> 5 & 15:02}-{day & 31:02} {minute >> 8:02}:{minute & 255:02}"

    def listing(self):
        lines = [f"VOLUME /{self.name(512 * 2 + 4)}"]
        for at, _, path in self.tree():
            mark = " " if self.image[at + 0x1E] & 0xC2 == 0xC2 else "*"
            length = int.from_bytes(self.image[at + 0x15:at + 0x18], "little")
            slash = "/" if self.image[at] >> 4 == 0xD else ""
            lines.append(f"{mark}${self.image[at + 0x10]:02x} {self.word(at + 0x13):5} {length:8} {self.moment(at + 0x21):16} {path}{slash}")
        return "\n".join([*lines, f"FREE {len(self.free())}", ""])

    def available(self):
        return self.places() - len(self.system())


def blocks_of(image, back):
    """A disk's image in DOS order as one in ProDOS order, or back."""
    other = bytearray(len(image))
    for track in range(35):
        for half, sector in enumerate(HALVES):
            ours, theirs = 4096 * track + 256 * sector, 4096 * track + 256 * half
            if back:
                ours, theirs = theirs, ours
            other[theirs:theirs + 256] = image[ours:ours + 256]
    return bytes(other)


class Trial:
    """A volume, the program, and the image on which it works."""

    def __init__(self, program, file_system, order, size):
        self.program = program
        self.volume = DosVolume(size) if file_system == "dos" else ProVolume(size)
        self.own_order = "dos" if file_system == "dos" else "prodos"
        self.order = order
        self.words = ["--fs", file_system, "--order", order]

    def told(self, *words):
        done = subprocess.run([self.program, *words], capture_output=True, check=False)
        return done.returncode, done.stdout

    def in_order(self):
        """The volume's image in the order of the trial; of tracks, as the program makes them."""
        if self.order == self.own_order:
            return bytes(self.volume.image)
        if self.order != "nibble":
            return blocks_of(self.volume.image, self.own_order == "prodos")
        with open("made", "wb") as file:
            file.write(self.volume.image)
        self.told("convert", "made", "--order", self.own_order, "--to", "nibble", "--out", "made")
        with open("made", "rb") as file:
            return file.read()

    def sectors(self):
        """The image on which the program works, in the volume's own order."""
        if self.order != "nibble":
            with open("image", "rb") as file:
                image = file.read()
            return image if self.order == self.own_order else blocks_of(image, self.own_order == "dos")
        self.told("convert", "image", "--order", "nibble", "--to", self.own_order, "--out", "made")
        with open("made", "rb") as file:
            return file.read()

    def begin(self):
        with open("image", "wb") as file:
            file.write(self.in_order())

    def take_over(self, saved):
        """A file to be saved with what it takes over of the one that it replaces, which is deleted."""
        try:
            at = self.volume.find(saved.path)
        except Refused:
            return saved
        old_kind, aux = self.volume.taken_over(at)
        kind = old_kind if saved.kind is None else saved.kind
        # An address is no length of records.
        if self.volume.kind_of(kind) == self.volume.TEXT != old_kind:
            aux = 0
        self.volume.delete(at)
        return saved._replace(kind=kind, aux=aux if saved.aux is None else saved.aux)

    def replace(self, saved):
        """Saves a file in the place of the one that has its path, and answers it; a refusal leaves the volume as it was."""
        volume = self.volume
        kind = volume.kind_of(saved.kind)
        date_bytes(saved.date)
        reserved = volume.reserved(saved.reserve)
        if saved.kind is not None:
            volume.held(kind, saved)
        if any(place in reserved for at in volume.files() for place in volume.parts(at)[0]):
            raise Refused("Check")
        before = bytes(volume.image)
        try:
            taken = self.take_over(saved)
            volume.save(taken)
        except Refused:
            volume.image[:] = before
            raise
        return taken

    def edit_volume(self, edit, path, new):
        """Makes an edit of the volume, and answers what is saved, if something is."""
        if edit == "save":
            self.volume.save(new)
            return new
        if edit == "replace":
            return self.replace(new)
        at = self.volume.find(path)
        if edit == "rename":
            self.volume.rename(at, new)
        elif edit == "delete":
            self.volume.delete(at)
        else:
            self.volume.lock(at, edit == "lock")
        return None

    def wanted(self, edit, path, new):
        """Makes an edit of the volume; what is told of it, and what is saved."""
        try:
            saved = self.edit_volume(edit, path, new)
        except Refused as refused:
            return (3, f"REFUSED {refused}\n".encode()), None
        return (0, b"OK\n"), saved

    def more_words(self, edit, new):
        """What is said of an edit behind the path of its file."""
        if edit in ("save", "replace"):
            with open("from", "wb") as file:
                file.write(new.content())
            return [*self.words, "--from", "from", *new.words(), *["--replace"] * (edit == "replace")]
        return [new, *self.words] if edit == "rename" else self.words

    def make(self, edit, path, new):
        """Makes an edit, by the program too, and tells what is wrong then."""
        wanted, saved = self.wanted(edit, path, new)
        told = self.told("save" if edit == "replace" else edit, "image", path, *self.more_words(edit, new), "--out", "image")
        if told != wanted:
            return f"told {told}, not {wanted}"
        if self.sectors() != self.volume.image:
            return "another image"
        if saved and self.told("read", "image", path, *self.words) != (0, self.volume.body(saved)):
            return "the new file is read otherwise"
        return self.weigh()

    def weigh(self):
        parts = [self.volume.parts(at) for at in self.volume.files()]
        count = sum(len(places) for places, _ in parts)
        accepted = f"ACCEPTED files {len(parts)} parts {count} available {self.volume.available()} lost 0\n"
        if self.told("check", "image", *self.words) != (0, accepted.encode()):
            return "another answer of check"
        if self.told("catalog", "image", *self.words) != (0, self.volume.listing().encode()):
            return "another listing"
        for path, (_, body) in zip(self.volume.paths(), parts):
            whole = b"".join(body.get(number, bytes(self.volume.UNIT)) for number in range(max(body, default=-1) + 1))
            if self.told("read", "image", path, *self.words, "--whole") != (0, whole):
                return f"another file {path}"
        return None


def a_path(chance, volume):
    """The path of a new file, sometimes of one that can not be."""
    number = f"N{chance.randrange(1000)}"
    name = chance.choice([number] * 12 + volume.GOOD[:4] + [chance.choice(volume.BAD), chance.choice(volume.paths() or [number])])
    if isinstance(volume, ProVolume) and chance.random() < 0.4:
        name = chance.choice(["INNER/"] * 4 + ["inner/", "NONE/", "FILE.3/", "/", "INNER/INNER/"]) + name
    return name.lower() if chance.random() < 0.1 else name


def a_kind(chance, volume):
    """The type of a new file, as it is said."""
    if chance.random() < 0.05:
        return chance.choice(volume.WRONG_KINDS)
    kinds = ["T", "I", "A", "B", "S", "R"] if isinstance(volume, DosVolume) else ["04", "06", "fc", "FF", "aB", "00"]
    return chance.choice([None, *kinds])


def a_list(chance, volume):
    """Places to reserve: some of those that would be taken first, or any, which a file may have; sometimes no list at all."""
    if chance.random() < 0.1:
        return chance.choice(["3/16", "35/0", "65536", "03", "1,", "x", "3/1,,3/2"])
    places = volume.free_places(set())
    taken = places[:chance.randrange(1, 6)] + [place for place in places if chance.random() < 0.02]
    if chance.random() < 0.2 or not taken:
        taken.append(chance.randrange(volume.places()))
    chance.shuffle(taken)
    return ",".join(map(volume.item, taken))


def a_saved(chance, volume):
    """A file to be saved, some of whose words are wrong."""
    edge = chance.choice([0, 1, 251, 252, 253, 254, 255, 256, 257, 511, 512, 513, 1024, chance.choice(volume.EDGES)])
    size = edge if chance.random() < 0.6 else chance.randrange(chance.choice(volume.SIZES))
    dates = ["1986-05-01T12:30:00", "1940-01-01T00:00:00", "2039-12-31T23:59:59", "2000-02-29T07:08:09"]
    wrong = ["1939-12-31T23:59:59", "2040-01-01T00:00:00", "1986-02-30T00:00:00", "1986-13-01T00:00:00", "1986-05-01T24:00:00", "today"]
    return Saved(
        a_path(chance, volume), size, chance.choice([0, *[chance.randrange(1, 1 << 30)] * 4]), a_kind(chance, volume),
        chance.choice([None, 0, 768, 65_535, chance.randrange(65_536)]),
        chance.choice([None, None, None, *dates]) if chance.random() < 0.95 else chance.choice(wrong),
        a_list(chance, volume) if chance.random() < 0.25 else None)


def an_edit(chance, volume):
    """An edit, the path of its file, and a new name or what is saved, some of them wrong."""
    if chance.random() < 0.35:
        saved = a_saved(chance, volume)
        return "save", saved.path, saved
    paths = volume.paths()
    if chance.random() < 0.25:
        saved = a_saved(chance, volume)
        if paths and chance.random() < 0.8:
            saved = saved._replace(path=chance.choice(paths))
        return "replace", saved.path, saved
    path = chance.choice(paths) if paths and chance.random() < 0.9 else chance.choice(["NONE", "INNER", "", "FILE 3 "])
    if chance.random() < 0.2:
        path = path.lower()
    last = path.split("/")[-1]
    new = chance.choice([chance.choice(volume.GOOD), chance.choice(volume.BAD), f"N{chance.randrange(1000)}", last or "SAME"])
    return chance.choices(["lock", "unlock", "rename", "delete"], [3, 3, 5, 4])[0], path, new


def wrong_edit(trial, chance, count):
    """The first thing that is wrong, of so many edits in a row, or None."""
    wrong = trial.weigh()
    if wrong:
        return f"before the first edit: {wrong}"
    for number in range(count):
        edit = an_edit(chance, trial.volume)
        wrong = trial.make(*edit)
        if wrong:
            return f"edit {number} {edit}: {wrong}"
    return None


def main():
    program, count, seed, file_system, order, *size = sys.argv[1:]
    trial = Trial(os.path.abspath(program), file_system, order, *(size or ["shelf"]))
    with tempfile.TemporaryDirectory() as folder:
        os.chdir(folder)
        trial.begin()
        wrong = wrong_edit(trial, random.Random(" ".join([seed, file_system, order, *size])), int(count))
    if wrong:
        print(f"seed {seed}, {wrong}")


if __name__ == "__main__":
    main()

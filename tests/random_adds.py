#!/usr/bin/env python3
"""Adds random folders to random volumes, and compares the text, the status and the image with what is worked out here from docs/formats.md.

random_adds.py PROGRAM SEED COUNT

Of every two folders one is made here, with names of every kind, and the other is what `extract` makes of a random volume: that one is
added to an empty volume, and where no file is refused, `compare` must find the same files on both, but for what is not carried: locks,
access and dates. Volumes are those of `random_looks.py`, in every order and in containers. The last lines count what was told, and then
the folders and the differences.
"""

import collections
import os
import random
import shutil
import subprocess
import sys
import tempfile
import unicodedata
from typing import NamedTuple, Optional

import extracts
import looks
import random_edits
import random_looks
import random_texts
import texts

READABLE = ".utf8.txt"
MOST_INPUT = 16_777_216
# The kind of DOS 3.3 for each type that can be saved.
KINDS = {0x04: 0x00, 0xFA: 0x01, 0xFC: 0x02, 0x06: 0x04, 0xF2: 0x08, 0xFE: 0x10}
FORMS = {0x04: "text", 0xFC: "applesoft"}
# The type of directories.
DIRECTORY = 0x0F
HEXADECIMAL, DIGITS = set("0123456789abcdefABCDEF"), set("0123456789")
LETTERS = set("abcdefghijklmnopqrstuvwxyzABCDEFGHIJKLMNOPQRSTUVWXYZ0123456789")


# ---- what names say ----
class Said(NamedTuple):
    """What the name of a file says: the stored name, the type, the aux type, and whether its bytes are a readable form."""

    name: bytes
    type: int
    aux: int
    readable: bool


def hexadecimal(digits, count):
    """The number that so many hexadecimal digits write, or None."""
    return int(digits, 16) if len(digits) == count and set(digits) <= HEXADECIMAL else None


def dos_escape(number, text):
    """The byte that an escape of this number says in DOS 3.3, and how many characters behind it are part of it; or None."""
    if number == 0x7F:
        low = hexadecimal(text[1:3], 2) if text[:1] == "%" else None
        return (low, 3) if low is not None and 0x20 <= low < 0x80 else None
    if 0xA0 <= number < 0xFF:
        return None
    return number + 0x80 if 0x20 <= number < 0x7F else number, 0


def escaped_byte(file_system, text):
    """The byte that stands behind a percent sign, and how many characters say it; or None."""
    if text[:1] == "%":
        return ord("%") | (0x80 if file_system == "dos" else 0), 1
    number = hexadecimal(text[:2], 2)
    if number is None or file_system == "prodos":
        return None if number is None else (number, 2)
    found = dos_escape(number, text[2:])
    return found and (found[0], 2 + found[1])


def stem_bytes(file_system, text):
    """The stored name that a stem says, or None."""
    stored, at = bytearray(), 0
    while at < len(text):
        if text[at] == "%":
            found = escaped_byte(file_system, text[at + 1:])
            if found is None:
                return None
            stored.append(found[0])
            at += 1 + found[1]
        elif ord(text[at]) in extracts.PLAIN:
            stored.append(ord(text[at]) | (0x80 if file_system == "dos" else 0))
            at += 1
        else:
            return None
    return bytes(stored) or None


def folder_says(file_system, text):
    """The stored name that the name of a folder says, or None."""
    front, mark, number = text.partition("~")
    if mark and (not number or not set(number) <= DIGITS):
        return None
    return b"" if front == "%" else stem_bytes(file_system, front)


def is_extension(text):
    return text[:1] == "." and 1 <= len(text) - 1 <= 3 and set(text[1:]) <= LETTERS


def file_says(file_system, text):
    """What the name of a file says, or None."""
    front, mark, tail = text.rpartition("#")
    kind, aux, end = hexadecimal(tail[:2], 2), hexadecimal(tail[2:6], 4), tail[6:]
    name = folder_says(file_system, front) if mark else None
    if name is None or kind is None or aux is None:
        return None
    readable = end == READABLE and kind in FORMS
    return Said(name, kind, aux, readable) if readable or not end or is_extension(end) else None


# ---- folders ----
class Entry(NamedTuple):
    """An entry of a folder: its path in it, what it is, and where it stands."""

    host: str
    kind: str
    path: bytes


def kind_of(item):
    """What an entry is; links are not followed."""
    if item.is_symlink():
        return "other"
    return "file" if item.is_file() else "folder" if item.is_dir() else "other"


def entries_below(place, above):
    """The entries below a folder, whose path stands before each of them."""
    for item in os.scandir(place):
        if item.name.startswith(b"."):
            continue
        try:
            host = above + item.name.decode("utf-8")
        except UnicodeDecodeError:
            yield Entry(above[:-1] or ".", "other", item.path)
            continue
        yield Entry(host, kind_of(item), item.path)
        if kind_of(item) == "folder":
            yield from entries_below(item.path, host + "/")


def entries_of(folder):
    """The entries of a folder, in rising order of the bytes of their paths."""
    return sorted(entries_below(os.fsencode(folder), ""), key=lambda entry: entry.host.encode("utf-8"))


# ---- volumes ----
class DosTarget(random_edits.DosVolume):
    """A DOS 3.3 volume that is accepted, in DOS order."""

    def __init__(self, image, data_disk):
        self.image, self.data_disk = bytearray(image), data_disk

    def files(self):
        """None that a reserved place could hold: the checker was asked."""
        return []

    def free_places(self, reserved):
        free, system = set(self.free()), (0, 17) if self.data_disk else (0, 1, 2, 17)
        order = [16 * track + sector for track in range(35) if track not in system for sector in range(15, -1, -1)]
        return [place for place in order if place in free and place not in reserved]

    def shown(self, path):
        return path


class ProTarget(random_edits.ProVolume):
    """A ProDOS volume that is accepted, in ProDOS order."""

    def __init__(self, image):
        self.image = bytearray(image)

    def files(self):
        return []

    def name(self, at):
        return self.image[at + 1:at + 1 + self.image[at] % 16].decode("latin-1")

    def has_directory(self, path):
        return any(self.image[at] >> 4 == 0xD and other == path.upper() for at, _, other in self.tree())

    def make_directory(self, path, date, reserve):
        """An empty directory of one block under a path."""
        above, _, name = path.rpartition("/")
        key = self.directory(above) if "/" in path else 2
        if not self.may_have(name):
            raise random_edits.Refused("Name")
        if name.upper() in map(self.name, self.slots(key)):
            raise random_edits.Refused("Exists")
        slot = next((at for at in self.all_slots(key) if not self.image[at] & 0xF0), None)
        if slot is None:
            raise random_edits.Refused("DirFull")
        free = self.free_places(self.reserved(reserve))
        if not free:
            raise random_edits.Refused("VolumeFull")
        self.put_directory(free[0], key, slot, name.upper().encode("ascii"), random_edits.date_bytes(date))

    def put_directory(self, block, key, slot, name, date):
        """The block of a new directory, its mark, its entry, and the count of files of its parent."""
        holder, number = slot // 512, (slot % 512 - 4) // 39 + 1
        padded = name.ljust(15, b"\0")
        self.image[512 * block:512 * (block + 1)] = (
            bytes(4) + bytes([0xE0 + len(name)]) + padded + b"\x75" + bytes(7) + date + b"\0\0\xC3\x27\x0D\0\0"
            + holder.to_bytes(2, "little") + bytes([number, 0x27])).ljust(512, b"\0")
        self.image[self.map() + block // 8] &= ~(0x80 >> block % 8)
        self.image[slot:slot + 39] = (
            bytes([0xD0 + len(name)]) + padded + b"\x0F" + block.to_bytes(2, "little") + b"\1\0\0\2\0" + date + b"\0\0\xE3\0\0" + date
            + key.to_bytes(2, "little"))
        count = 512 * key + 0x25
        self.image[count:count + 2] = (self.word(count) + 1).to_bytes(2, "little")

    def shown(self, path):
        return looks.shown(path.upper().encode("latin-1"))


# ---- images ----
def own_order(file_system):
    return "dos" if file_system == "dos" else "prodos"


def sectors_of(data, file_system, order):
    """The units of an image, one behind the other."""
    if order == own_order(file_system):
        return bytes(data)
    store = looks.Store(data, file_system, order)
    return b"".join(store.read(place) for place in range(store.places))


def made_tracks(units, file_system):
    """The units of a disk as made tracks."""
    offsets = {number: looks.SECTOR * index for index, number in enumerate(looks.PHYSICAL[file_system])}
    tracks = []
    for track in range(35):
        fields = [b"\xFF" * 48]
        for sector in range(16):
            at = offsets[16 * track + sector]
            fields.append(random_looks.address_of(254, track, sector) + random_looks.data_of(bytes(units[at:at + looks.SECTOR])))
        tracks.append(b"".join(fields).ljust(looks.TRACK, b"\xFF"))
    return b"".join(tracks)


def image_in(units, file_system, order):
    """The units of a volume as an image of an order."""
    if order == own_order(file_system):
        return bytes(units)
    return made_tracks(units, file_system) if order == "nibble" else bytes(random_looks.reordered(units, file_system, order))


class Shell(NamedTuple):
    """What stands around the payload of a container, in which order that is, and whether it may not be written."""

    head: bytes
    tail: bytes
    order: str
    protected: bool


def shell_around(chance, payload, order):
    """A container for a payload."""
    protected, tail = chance.random() < 0.1, chance.choice([b"", b"Side A", chance.randbytes(9)])
    number, length = ["dos", "prodos", "nibble"].index(order), chance.choice([64, 64, 52])
    fields = [number, chance.choice([0, 0x1FE]) | protected << 31, len(payload) // 512 if number == 1 else 0, length, len(payload)]
    head = b"2IMGTEST" + length.to_bytes(2, "little") + b"\x01\0" + b"".join(field.to_bytes(4, "little") for field in fields)
    return Shell(head.ljust(length, b"\0"), tail, order, protected)


# ---- the model ----
class Refused(Exception):
    """A job that is not done: its status, and the line that is told."""


class Item(NamedTuple):
    """A file that is to be saved: its path, its type, which of DOS 3.3 is its kind too, its aux type, and what its bytes are."""

    entry: Entry
    path: str
    type: int
    kind: int
    aux: int
    readable: bool


class New(NamedTuple):
    """A new file with its bytes."""

    path: str
    data: bytes
    kind: int
    aux: int
    date: Optional[str]
    reserve: Optional[str]

    def content(self):
        return self.data


class Request(NamedTuple):
    """What is asked: the image, how it is to be read, the folder, and what else is said."""

    image: Optional[bytes]
    shell: Optional[Shell]
    file_system: str
    order: str
    folder: str
    into: Optional[str]
    date: Optional[str]
    reserve: Optional[str]
    data_disk: bool


def refuse(*words):
    raise Refused(3, " ".join(["REFUSED", *words]))


def fail_input():
    raise Refused(4, "FAILED Input")


def told_character(character):
    """A character of a path as it is told: control and format characters by their numbers."""
    code, category = ord(character), unicodedata.category(character)
    if category == "Cc":
        return f"\\x{code:02X}"
    return f"\\u{{{code:06X}}}" if category in ("Cf", "Zl", "Zp") else character


def told_host(host):
    """A path of the host as it is told."""
    return "".join(map(told_character, host))


class Adding:
    """What `add` tells and makes."""

    def __init__(self, request):
        self.request = request
        self.passed, self.items, self.directories = [], [], []

    def told(self):
        """The status, the text and the image, or None where none is handed out."""
        try:
            image = self.run()
        except Refused as reason:
            status, line = reason.args
            return status, f"{line}\n".encode("utf-8"), None
        return 0, self.text().encode("utf-8"), image

    def text(self):
        lines = [f"ADDED {self.volume.shown(item.path)}" for item in self.items]
        lines += [f"PASSED {told_host(entry.host)}" for entry in self.passed]
        return "".join(f"{line}\n" for line in [*lines, f"ADDED files {len(self.items)}"])

    def run(self):
        request, way = self.request, self.way()
        self.file_system = way[0]
        entries = self.entries()
        reserved = self.words()
        if not looks.allows(len(request.image), *way):
            refuse("Length")
        self.files = {entry.host for entry in entries if entry.kind == "file"}
        for entry in entries:
            self.weigh(entry)
        self.check(way, reserved)
        units = sectors_of(request.image, *way)
        self.volume = DosTarget(units, request.data_disk) if self.file_system == "dos" else ProTarget(units)
        for entry, path in self.directories:
            self.make(entry, path)
        for item in self.items:
            self.save(item)
        return image_file(request._replace(image=image_in(self.volume.image, *way)))

    def way(self):
        """The file system and the order in which the image is read."""
        request = self.request
        if request.image is None:
            fail_input()
        if request.shell is not None and request.shell.protected:
            refuse("Protected")
        order = request.shell.order if request.shell is not None else request.order
        file_system = "prodos" if request.file_system == "auto" and request.into is not None else request.file_system
        if "auto" not in (file_system, order):
            return file_system, order
        try:
            return looks.Image(request.image).best(file_system, order)
        except looks.Refused as reason:
            return refuse(str(reason))

    def entries(self):
        if not os.path.isdir(self.request.folder):
            refuse("Folder")
        return entries_of(self.request.folder)

    def words(self):
        """The places that are reserved; wrong words are refused."""
        try:
            random_edits.date_bytes(self.request.date)
            return looks.reserved_places(self.request.reserve, self.file_system)
        except (random_edits.Refused, looks.Refused) as reason:
            return refuse(str(reason))

    def check(self, way, reserved):
        try:
            checked = looks.Image(self.request.image).open(*way).checked(reserved, self.request.data_disk)
        except looks.Faulty:
            refuse("Check")
        if checked.faults:
            refuse("Check")

    # -- what an entry says
    def weigh(self, entry):
        """Takes up what an entry says: an item, a directory, or one that is passed over."""
        *above, last = entry.host.split("/")
        if entry.kind == "other" or self.file_system == "dos" and (entry.kind != "file" or above):
            refuse("Host", told_host(entry.host))
        if entry.kind == "file":
            self.weigh_file(entry, above, last)
            return
        names = [folder_says(self.file_system, part) for part in [*above, last]]
        self.weigh_names(entry, names)
        self.directories.append((entry, self.pro_path(names)))

    def weigh_file(self, entry, above, last):
        said, names = file_says(self.file_system, last), [folder_says(self.file_system, part) for part in above]
        if said is None or None in names or said.type == DIRECTORY:
            refuse("Host", told_host(entry.host))
        if said.readable and entry.host[:-len(READABLE)] in self.files:
            self.passed.append(entry)
            return
        if self.file_system == "dos" and said.type not in KINDS:
            refuse("Type", told_host(entry.host))
        self.weigh_names(entry, [*names, said.name])
        self.items.append(self.item(entry, said, [*names, said.name]))

    def weigh_names(self, entry, names):
        """Refuses names that say nothing, and those that no file may have."""
        if None in names:
            refuse("Host", told_host(entry.host))
        if not all(map(self.may_have, names)):
            refuse("Name", told_host(entry.host))

    def may_have(self, name):
        """Whether a file may have a stored name."""
        if self.file_system == "prodos":
            return ProTarget(b"").may_have(name.decode("latin-1"))
        return all(0xA0 <= byte <= 0xFE for byte in name) and DosTarget(b"", False).may_have(low_letters(name))

    def item(self, entry, said, names):
        """What is saved of a file, as `random_edits.py` saves it."""
        if self.file_system == "dos":
            return Item(entry, low_letters(said.name), said.type, KINDS[said.type], said.aux, said.readable)
        return Item(entry, self.pro_path(names), said.type, said.type, said.aux, said.readable)

    def pro_path(self, names):
        above = [] if self.request.into is None else [self.request.into]
        return "/".join(above + [name.decode("latin-1") for name in names])

    # -- directories
    def make(self, entry, path):
        if self.volume.has_directory(path):
            return
        try:
            self.volume.make_directory(path, self.request.date, self.request.reserve)
        except random_edits.Refused as reason:
            refuse(str(reason), told_host(entry.host))

    # -- its bytes
    def read(self, entry):
        """The bytes of the file of an entry."""
        try:
            with open(entry.path, "rb") as file:
                data = file.read(MOST_INPUT + 1)
        except OSError:
            fail_input()
        if len(data) > MOST_INPUT:
            refuse("InputTooLong", told_host(entry.host))
        return data

    def weigh_beside(self, item, data):
        """Refuses the readable form that stands beside a file and does not give its bytes."""
        for beside in self.passed:
            if beside.host == item.entry.host + READABLE:
                if not gives_back(self.file_system, FORMS[item.type], self.read(beside), data):
                    refuse("Differs", told_host(beside.host))

    def save(self, item):
        data, host = self.read(item.entry), told_host(item.entry.host)
        self.weigh_beside(item, data)
        if item.readable:
            data = self.taken(item, data, host)
        try:
            self.volume.save(New(item.path, data, item.kind, item.aux, self.request.date, self.request.reserve))
        except random_edits.Refused as reason:
            refuse(str(reason), host)

    def taken(self, item, data, host):
        """The bytes that a readable form is saved as."""
        if FORMS[item.type] == "applesoft":
            taken = texts.applesoft_tokens(data)
        else:
            taken = texts.taken_text(data, self.file_system == "dos", True)
        if isinstance(taken, int):
            refuse("Text", str(taken), host)
        return taken


def gives_back(file_system, form, text, data):
    """Whether just the bytes of a file are taken from a readable form of it."""
    if form == "applesoft":
        return texts.applesoft_tokens(text) == data
    front = data.partition(b"\0")[0] if file_system == "dos" else data
    return texts.taken_text(text, front[:1] >= b"\x80", True) == front and not any(data[len(front):])


def low_letters(name):
    """A name of DOS 3.3 with the high bits off."""
    return "".join(chr(byte & 0x7F) for byte in name)


# ---- random names ----
DOS_NAMES = ["A", "HELLO", "A B", "A%2fB", "P50%25", "X" * 30, "Q%7e", "A.B", "A%%B", "Z#9", "%43ON", "A%20B", "IT's", "FILE 3", "A#B", "Mixed"]
PRO_NAMES = ["A", "HELLO", "hello", "A.B", "X" * 15, "%43ON", "Q9.", "INNER", "FILE.3", "Z%2e", "%41", "A~2", "A~10"]
# Names that one of the file systems does not take, and those that say nothing.
BAD_NAMES = [
    "%", "1A", "%20A", "A ", "A%20", "X" * 31, "A%2cB", "A,B", "%%", "A%08", "A%88", "%7f%41", "%7f%7F", "%ff", "a", "A%2fB", "A_B", "X" * 16, "9%41"]
NO_NAMES = [
    "", "~2", "A~", "A~x", "A~2~3", "A%", "A%4", "A%4g", "%a0", "%fe", "%7f", "%7f%1f", "%7f%80", "A*", "A:B", 'A"B', "A|", "A<B", "A?", "A\\B",
    "A\x1bB", "A\nB", "\u00e9", "A\u202eB", "\u00ad", "A\x7f", "A\x85"]
GOOD_TAILS = [
    "#060300", "#040000", "#fc0801", "#FC0801", "#fa0000", "#f20000", "#FE0000", "#06AbCd", "#04ffff", "#040000.txt", "#060000.b", "#04000A.BIN"]
TYPE_TAILS = ["#000000", "#f30000", "#ff2000", "#0f0000", "#b30000.gs"]
NO_TAILS = [
    "", "#", "#06", "#06030", "#0603000", "#06030g", ".txt", "#040000.", "#040000.text", "#040000.t-t", "#060300.utf8.txt", "#040000.UTF8.txt",
    "#040000.utf8.TXT", "#040000.utf8", "#040000~2", "#040000.\u00e9", "@060300", "#040000.utf8.txt.utf8.txt"]
READABLE_TAILS = ["#040000" + READABLE, "#fc0801" + READABLE, "#FC1000" + READABLE, "#04FFFF" + READABLE]
HIDDEN = [".DS_Store", ".A#060300", "._HELLO#060300", ".\u00e9", ".\x1b"]


class Maker:
    """Makes a folder of random entries."""

    def __init__(self, chance, file_system, spoiled, places):
        self.chance, self.file_system, self.spoiled = chance, file_system, spoiled
        self.places = places
        # How many of the readable forms that stand beside their files were changed.
        self.changed = chance.choice([0, 0, 0.2, 1])

    def stem(self):
        chance = self.chance
        if chance.random() < self.spoiled:
            return chance.choice(chance.choice([BAD_NAMES, NO_NAMES]))
        names = DOS_NAMES if self.file_system == "dos" else PRO_NAMES
        return chance.choice(names) if chance.random() < 0.4 else f"N{chance.randrange(100)}"

    def tail(self):
        chance = self.chance
        if chance.random() < self.spoiled:
            return chance.choice(chance.choice([TYPE_TAILS, NO_TAILS]))
        if self.file_system == "prodos" and chance.random() < 0.3:
            return chance.choice(TYPE_TAILS)
        return chance.choice(READABLE_TAILS) if chance.random() < 0.3 else chance.choice(GOOD_TAILS)

    def data(self, name):
        """The bytes of a file, those of a readable form mostly such a text."""
        chance = self.chance
        if name.endswith(READABLE) and chance.random() < 0.9:
            text = random_texts.a_program_text(chance) if is_listing(name) else random_texts.a_text(chance)
            return text if chance.random() < self.spoiled else good_front(name, text)
        size = chance.choice([0, 1, 255, 256, 257, 511, 512, 513, chance.randrange(2000), chance.randrange(2000)])
        size = chance.choice([30_000, 65_535, 65_536, 131_073]) if chance.random() < 0.02 else size
        return chance.randbytes(size)

    def put_file(self, folder, name):
        path = os.path.join(os.fsencode(folder), name if isinstance(name, bytes) else os.fsencode(name))
        try:
            with open(path, "xb") as file:
                file.write(self.data(os.fsdecode(name)))
        except (FileExistsError, IsADirectoryError, FileNotFoundError):
            pass

    def put_odd(self, folder):
        """An entry that is neither a file nor a folder, or whose name is no UTF-8."""
        chance = self.chance
        name = self.stem() + chance.choice(["#060300", "#040000", ""])
        path = os.path.join(folder, name or "A")
        if os.path.lexists(path) or "\0" in path:
            return
        kind = chance.randrange(3)
        if kind == 0:
            os.symlink(chance.choice(["nowhere", "..", "A#060300"]), path)
        elif kind == 1:
            os.mkfifo(path)
        else:
            self.put_file(folder, b"A\xff#060300")

    def fill(self, folder, depth):
        """Makes some entries in a folder."""
        chance = self.chance
        for _ in range(chance.choice([0, 1, 2, 3, 3, 4, 7]) if depth else chance.choice([0, 1, 2, 3, 4, 5, 6, 12])):
            kind = chance.random()
            if kind < 0.06:
                self.put_file(folder, chance.choice(HIDDEN))
            elif kind < 0.06 + self.spoiled / 6:
                self.put_odd(folder)
            elif kind < 0.3 + self.spoiled / 6:
                self.put_pair(folder)
            elif kind > 1 - (0.2 if self.file_system == "prodos" else self.spoiled / 8) / (depth + 1):
                self.put_folder(folder, depth)
            else:
                self.put_named(folder)

    def put_named(self, folder):
        """A file, and now and then its readable form beside it."""
        name = self.stem() + self.tail()
        if "/" in name or name in ("", ".", ".."):
            return
        self.put_file(folder, name)
        if self.chance.random() < 0.05:
            self.put_file(folder, name[:-len(READABLE)] if name.endswith(READABLE) else name + READABLE)

    def put_pair(self, folder):
        """A file with its readable form beside it, which now and then was changed."""
        chance = self.chance
        name = self.stem() + chance.choice(["#040000", "#04FFFF", "#fc0801", "#FC1000"])
        path = os.path.join(folder, name)
        if "/" in name or "\0" in name or os.path.lexists(path) or os.path.lexists(path + READABLE):
            return
        text = self.data(name + READABLE)
        taken = texts.applesoft_tokens(text) if is_listing(name) else texts.taken_text(text, chance.random() < 0.5, True)
        data = chance.randbytes(9) if isinstance(taken, int) else taken
        put(path, data + bytes(chance.choice([0, 0, 1, 200])) if self.file_system == "dos" else data)
        put(path + READABLE, changed_text(chance, text) if chance.random() < self.changed else text)

    def put_folder(self, folder, depth):
        chance = self.chance
        name = chance.choice(self.places) if self.places and chance.random() < 0.7 else self.stem()
        path = os.path.join(folder, chance.choice([name, name.lower(), name + "~2"]) if name in self.places else name)
        if not name or os.path.lexists(path):
            return
        os.mkdir(path)
        if chance.random() < 0.75:
            self.fill(path, depth + 1)


def changed_text(chance, text):
    """A readable form as somebody has changed it: edited, cut, emptied, or that of another file."""
    at = chance.randrange(len(text) + 1)
    return chance.choice([
        text[:at] + b"A" + text[at:], text[:at] + b"A" + text[at + 1:], text + b"\n", text[:at], text[at:], b"",
        random_texts.a_text(chance), random_texts.a_program_text(chance), text.replace(b"\n", b"\r\n"), text.lower()])


def is_listing(name):
    """Whether a readable form is the listing of a program."""
    return "#fc" in name.lower()


def bad_line(name, text):
    """The first line of a readable form that can't be taken, or None."""
    taken = texts.applesoft_tokens(text) if is_listing(name) else texts.taken_text(text, True, True)
    return taken if isinstance(taken, int) else None


def good_front(name, text):
    """The lines of a readable form that come before the first one that can't be taken."""
    bad = bad_line(name, text)
    front = text if bad is None else b"".join(line + b"\n" for line in text.split(b"\n")[:bad - 1])
    return front if bad_line(name, front) is None else b""


# ---- random requests ----
def directories_of(maker):
    """The paths of the directories of a volume that has no fault, as they are shown."""
    volume = looks.Image(maker.image).volume(maker.file_system, own_order(maker.file_system))
    if not isinstance(volume, looks.Volume):
        return []
    return [volume.path(entry) for entry in volume.entries if volume.is_directory(entry)]


def target_maker(chance):
    """A volume to which files are added."""
    maker = (random_looks.DosMaker if chance.random() < 0.5 else random_looks.ProMaker)(chance, False)
    if chance.random() < 0.06:
        maker.damage()
    return maker


def date_and_places(chance, file_system):
    """A date and a list of places, some of them wrong."""
    date = chance.choice(["1986-05-01T12:30:00", "2039-12-31T23:59:59"]) if chance.random() < 0.3 else None
    date = chance.choice(["today", "1939-12-31T23:59:59", "1986-02-30T00:00:00"]) if chance.random() < 0.02 else date
    places = [f"{chance.randrange(3, 35)}/{chance.randrange(16)}" if file_system == "dos" else str(chance.randrange(300)) for _ in range(9)]
    reserve = ",".join(chance.sample(places, chance.randrange(1, 9))) if chance.random() < 0.15 else None
    reserve = chance.choice(["3/16", "x", "70000"]) if chance.random() < 0.02 else reserve
    return date, reserve


def directory_to_fill(chance, file_system, places):
    """What is said behind --into, or None."""
    if file_system == "dos" or chance.random() > 0.3:
        return None
    if places and chance.random() < 0.8:
        return chance.choice([chance.choice(places)] * 3 + [places[0].lower()])
    return chance.choice(["NONE", "", "/", "A", "FILE.1", "FILE.2/"])


def request_for(chance, image, file_system, order, into, data_disk, folder="from"):
    """A request to add a folder to an image."""
    date, reserve = date_and_places(chance, file_system)
    shell = shell_around(chance, image, order) if chance.random() < 0.06 else None
    if shell is None and chance.random() < 0.01:
        image = chance.choice([None, image[:-1], image + bytes(512), b""])
    said = "auto" if shell is None and chance.random() < 0.05 else order
    return Request(
        image, shell, chance.choice([file_system] * 19 + ["auto"]) if shell is None else file_system, said, folder, into, date, reserve,
        data_disk if chance.random() < 0.9 else not data_disk)


def words_of(request, chance):
    """The words of a request."""
    words = ["add", "image", "--from", request.folder, "--out", "out"]
    order = "2img" if request.shell is not None else request.order
    for name, value in (("--fs", request.file_system), ("--order", order)):
        if value != "auto" or chance.random() < 0.5:
            words += [name, value]
    for name, value in (("--into", request.into), ("--date", request.date), ("--reserve", request.reserve)):
        words += [] if value is None else [f"{name}={value}"] if value.startswith("-") or not value else [name, value]
    return words + ["--data-disk"] * request.data_disk


# ---- trials ----
def put(path, data):
    with open(path, "wb") as file:
        file.write(data)


def content(path):
    with open(path, "rb") as file:
        return file.read()


def image_file(request):
    """The bytes of the file of an image."""
    shell = request.shell
    return request.image if shell is None else shell.head + request.image + shell.tail


class Trial:
    """The program, and what came of the folders."""

    def __init__(self, program):
        self.program, self.counts, self.files = program, collections.Counter(), 0

    def run(self, *words):
        done = subprocess.run([self.program, *words], stdin=subprocess.DEVNULL, capture_output=True, check=False)
        return done.returncode, done.stdout, done.stderr

    def count(self, text):
        """Counts what was told: an addition, or a refusal by its first words."""
        words = text.decode("utf-8").split("\n")[0].split(" ")
        self.counts[" ".join(words[:2]) if words[0] in ("REFUSED", "FAILED") else "ADDED"] += 1

    def add(self, chance, request):
        """Adds a folder, and tells what is wrong then, or None, and whether an image was handed out."""
        if request.image is not None:
            put("image", image_file(request))
        stands = b"what stood there" if chance.random() < 0.2 else None
        if stands is not None:
            put("out", stands)
        words, before, model = words_of(request, chance), set(os.listdir(".")), Adding(request)
        status, text, image = model.told()
        told = self.run(*words)
        self.count(text)
        self.files += 0 if image is None else len(model.items)
        if told != (status, text, b""):
            return (words, (status, text), told), False
        wanted = stands if image is None else image
        left = content("out") if os.path.exists("out") else None
        if left != wanted or set(os.listdir(".")) - before - {"out"}:
            return (words, "another image", left and len(left), os.listdir(".")), False
        return None, image is not None

    # -- folders that are made here
    def made_folder(self, chance):
        maker = target_maker(chance)
        image, order = maker.image, own_order(maker.file_system)
        if len(image) == looks.DISK_LENGTH:
            order = chance.choice([order, order, "dos", "prodos", "nibble"])
        places = directories_of(maker) if maker.file_system == "prodos" else []
        into = directory_to_fill(chance, maker.file_system, places)
        above = into.upper() + "/" if into else ""
        below = [place[len(above):] for place in places if place.startswith(above) and "/" not in place[len(above):]]
        os.mkdir("from")
        Maker(chance, maker.file_system, chance.choice([0, 0, 0, 0.05, 0.1, 0.4]), [place for place in below if place.isprintable()]).fill("from", 0)
        folder = "from" if chance.random() < 0.98 else chance.choice(["none", "image", "from/none", ""])
        request = request_for(
            chance, image_in(image, maker.file_system, order), maker.file_system, order, into, getattr(maker, "data_disk", False), folder)
        return self.add(chance, request)[0]

    # -- folders that were extracted
    def extracted_folder(self, chance):
        maker = source_maker(chance)
        order = own_order(maker.file_system)
        if len(maker.image) == looks.DISK_LENGTH:
            order = chance.choice([order, "dos", "prodos", "nibble"])
        put("source", image_in(maker.image, maker.file_system, order))
        way = ["--fs", maker.file_system, "--order", order]
        forms = chance.choice([[], [], ["--texts"]])
        extracted = self.run("extract", "source", *way, "--into", "from", *forms)[0]
        if extracted not in (0, 1):
            self.counts["not extracted"] += 1
            return None
        alone = forms and chance.random() < 0.3
        if alone:
            leave_readable()
        elif forms and chance.random() < 0.3:
            change_one(chance)
        sound = self.run("check", "source", *way)[0] == 0
        request = self.empty_target(chance, maker, order, sound)
        wrong, is_added = self.add(chance, request)
        if wrong or not is_added or extracted or alone or request.shell:
            return wrong
        put("carried", image_in(carried(maker, request.date), maker.file_system, order))
        same = self.run("compare", "carried", "out", *way)
        self.counts["EQUAL"] += 1
        return None if same[0] == 0 and same[1].startswith(b"EQUAL") else (request.date, "other files", same)

    def empty_target(self, chance, maker, order, sound):
        """A request for a volume without a file: one that `create` makes, or of ProDOS mostly the old one without its files."""
        if maker.file_system == "prodos" and sound and chance.random() < 0.7:
            image = image_in(emptied(maker), "prodos", order)
        else:
            kind = ["--blocks", str(max(280, min(2 * maker.total, 4000)) if order == "prodos" else 280)] if maker.file_system == "prodos" else []
            self.run("create", "--fs", maker.file_system, "--order", order, "--out", "empty", *kind)
            image = content("empty")
        request = request_for(chance, image, maker.file_system, order, None, False)
        return request._replace(file_system=maker.file_system, order=order, reserve=None)


def leave_readable():
    """Removes the files whose readable forms stand beside them."""
    for above, _, files in os.walk("from"):
        for name in files:
            if name + READABLE in files:
                os.remove(os.path.join(above, name))


def change_one(chance):
    """Changes one of the readable forms of a folder."""
    paths = sorted(os.path.join(above, name) for above, _, files in os.walk("from") for name in files if name.endswith(READABLE))
    if paths:
        path = chance.choice(paths)
        put(path, changed_text(chance, content(path)))


def source_maker(chance):
    """A volume whose files are extracted: mostly one of whose entries each can be carried."""
    maker = (random_looks.DosMaker if chance.random() < 0.5 else random_looks.ProMaker)(chance, chance.random() < 0.2)
    rename = chance.choice([1.0, 1.0, 0.9])
    for number, at in enumerate(places_of_entries(maker)):
        if chance.random() > rename:
            continue
        if maker.file_system == "dos":
            maker.image[at + 2] = chance.choice([0, 1, 2, 4, 8, 0x10]) | chance.choice([0, 0x80])
            name = chance.choice(["N{}", "A/{}", "FILE {}", "LONG NAME OF A FILE {}", "C:{}", "Q%{}"]).format(number)
            maker.image[at + 3:at + 33] = bytes(ord(letter) | 0x80 for letter in name.ljust(30))
        else:
            name = chance.choice(["N{}", "A.{}", "LONG.NAME.{}", "CON.{}"]).format(number).encode("ascii")
            maker.image[at:at + 16] = bytes([maker.image[at] & 0xF0 | len(name)]) + name.ljust(15, b"\0")
    return maker


def places_of_entries(maker):
    """Where the entries in use stand in an image."""
    volume = looks.Image(maker.image).volume(maker.file_system, own_order(maker.file_system))
    if not isinstance(volume, looks.Volume):
        return []
    unit = volume.UNIT
    places = []
    for entry in volume.entries:
        at = bytes(maker.image).find(entry.raw, unit * entry.holder, unit * (entry.holder + 1))
        while at in places:
            at = bytes(maker.image).find(entry.raw, at + 1, unit * (entry.holder + 1))
        places.append(at)
    return places


def carried(maker, date):
    """A volume with each entry as a new file of it has it: not locked, and with the date that is said."""
    image = bytearray(maker.image)
    for at in places_of_entries(maker):
        if maker.file_system == "dos":
            image[at + 2] &= 0x7F
        elif image[at] >> 4 != 0xD:
            name = bytes(image[at + 1:at + 16]).upper()
            image[at + 1:at + 16] = name
            image[at + 0x18:at + 0x1C] = image[at + 0x21:at + 0x25] = random_edits.date_bytes(date)
            image[at + 0x1E] = 0xE3
    return image


def emptied(maker):
    """A ProDOS volume without its files; its directories stay."""
    volume = ProTarget(maker.image)
    for at, _, _ in list(volume.tree()):
        if volume.image[at] >> 4 != 0xD:
            volume.image[at + 0x1E] |= 0x80
            volume.delete(at)
    return volume.image


def main():
    program, seed, count = os.path.abspath(sys.argv[1]), sys.argv[2], int(sys.argv[3])
    chance, kept = random.Random(f"{seed} adds"), os.getcwd()
    trial, differences = Trial(program), 0
    for number in range(count):
        with tempfile.TemporaryDirectory() as folder:
            os.chdir(folder)
            wrong = (trial.extracted_folder if number % 2 else trial.made_folder)(chance)
            if wrong:
                differences += 1
                if differences <= 20:
                    print(f"folder {number}: {random_looks.short(wrong)}", flush=True)
                    shutil.make_archive(os.path.join(kept, f"folder.{number}"), "tar", folder)
            os.chdir(kept)
    print(", ".join(f"{word} {times}" for word, times in trial.counts.most_common()))
    print(f"{count} folders, {trial.files} files, {differences} differences")
    sys.exit(differences != 0)


if __name__ == "__main__":
    main()

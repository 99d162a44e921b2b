#!/usr/bin/env python3
"""Reads random files in each readable form, saves random texts, programs and AppleSingle files, and compares what the program tells and
makes with what `texts.py` works out.

random_texts.py PROGRAM COUNT SEED

Many files stand on one volume, of DOS 3.3 or ProDOS, which is made by `random_edits.py`; `extract --texts` is tried on each. The lines at
the end count the inputs of each kind by what came of them; the last one counts all inputs, and the differences.
"""

import collections
import copy
import functools
import os
import random
import shutil
import subprocess
import sys
import tempfile
from typing import NamedTuple, Optional

import extracts
import looks
import random_edits
import random_extracts
import random_looks
import texts

FILES = 24
FORMS = ["text", "applesoft", "integer", "single"]
# The type of DOS 3.3 and that of ProDOS that a file of a form has.
OWN_TYPES = {"text": ("T", "04"), "applesoft": ("A", "fc"), "integer": ("I", "fa"), "single": ("B", "06")}
LETTERS = {0x04: "T", 0xFA: "I", 0xFC: "A", 0x06: "B", 0xF2: "S", 0xFE: "R"}
SHOWN = {0x04: "text", 0xFC: "applesoft", 0xFA: "integer"}


class Given(NamedTuple):
    """A file to be saved as `random_edits.py` saves it, but with bytes of its own."""

    path: str
    data: bytes
    kind: Optional[str]
    aux: Optional[int]
    date: Optional[str] = None
    reserve: Optional[str] = None

    def content(self):
        return self.data


# ---- random texts ----
PICTURES = [chr(0x2400 + code) for code in range(0x20)] + ["\u2421"]
GOOD_PICTURES = [picture for picture in PICTURES if picture not in "\u2400\u2409\u240d"]
STRANGE = [*"\u00e9\u00a0\u0085\u2420\u2422\u2426\u23ff\ufeff\ufffd\u20ac\U0001f34e\x7f\x1b\0\x0b"]
# Cut short, overlong, of surrogates, beyond Unicode, and a byte that stands alone.
BROKEN = [
    b"\xe2\x90", b"\xe2", b"\xf0\x9f\x8d", b"\xc3", b"\xc0\x80", b"\xc1\xa0", b"\xe0\x90\x84", b"\xf0\x82\x90\x84", b"\xed\xa0\x80",
    b"\xed\xbf\xbf", b"\xf4\x90\x80\x80", b"\xf8\x88\x80\x80\x80", b"\x90", b"\xff", b"\xe2\x90\n", b"\xe2\x90\r\n\x84"]
PLAIN = [chr(code) for code in range(0x20, 0x7F)]


def some(chance, items, most):
    """Up to so many of some items, as they come."""
    return [chance.choice(items) for _ in range(chance.randrange(most + 1))]


def an_end(chance):
    """What ends a line."""
    return chance.choice(["\n", "\n", "\n", "\r\n"])


def a_text(chance):
    """A text, as its bytes; half of them can be taken."""
    good = [[chance.choice(PLAIN)], ["\t"], GOOD_PICTURES, PLAIN]
    pieces = [chance.choice(chance.choice(good)) if chance.random() < 0.85 else an_end(chance) for _ in range(chance.randrange(50))]
    text = "".join(pieces).encode("utf-8")
    for _ in range(chance.choice([0, 0, 0, 1, 1, 2])):
        at = chance.randrange(len(text) + 1)
        piece = chance.choice([chance.choice(BROKEN), b"\r", *(chance.choice(items).encode("utf-8") for items in (STRANGE, PICTURES))])
        text = text[:at] + piece + text[at:]
    return text[:-1] if chance.random() < 0.05 else text


def text_data(chance):
    """The bytes of a text of the Apple II: high bits on, off or both, controls among them."""
    count = chance.choice([0, 1, chance.randrange(40), chance.randrange(40), chance.randrange(700)])
    if chance.random() < 0.15:
        return bytes(range(256)) if chance.random() < 0.3 else chance.randbytes(count)
    low = chance.choice([range(0x20, 0x7F), [*range(0x20, 0x7F), 0x0D, 0x0D, 0x0D], range(1, 0x80), range(0x80)])
    high = chance.choice([[0x80], [0x80], [0], [0], [0, 0x80]])
    data = bytes(chance.choice(low) | chance.choice(high) for _ in range(count))
    return data + bytes(chance.choice([0, 0, 0, 1, 300])) + chance.choice([b"", b"", b"", b"\x01", b"\x8d"])


# ---- random programs in Applesoft ----
WORDS = texts.APPLESOFT_WORDS
LIKELY = "A AT TO ATN THEN REM DATA PRINT IF FOR ON OR NOT N O T HGR2 HGR GOTO COLOR= =".split()


def a_word(chance):
    """A word or a part of one, at both ends, perhaps in small letters or with spaces in it."""
    word = chance.choice(chance.choice([WORDS, LIKELY]))
    if chance.random() < 0.3:
        word = word[chance.randrange(len(word)):] if chance.random() < 0.5 else word[:chance.randrange(len(word) + 1)]
    if chance.random() < 0.15:
        word = word.lower()
    return word if chance.random() < 0.8 else "".join(letter + " " * chance.choice([0, 0, 1, 2]) for letter in word)


def a_piece(chance):
    """A piece of a line of a program."""
    kind = chance.randrange(20)
    if kind < 11:
        return a_word(chance)
    if kind == 11:
        return chance.choice(['"', '"' + "".join(some(chance, [*PLAIN, *GOOD_PICTURES, "?", ":"], 6)) + '"'])
    if kind == 12:
        return chance.choice([":?", ": ? ", "THEN?", '"', ";?", ":", "AT N", "AT o", "A TO", "A TN", "atn", "AT  OR"])
    if kind == 13:
        return chance.choice(GOOD_PICTURES + ["\u2409", "\u240d"])
    return chance.choice([" ", "  ", "1", "23", ",", ";", ":", "(", ")", "$", "%", "#", "X", "n", "o", "@", "~", "`", "_", "{"])


def program_row(chance, number):
    """A line of the text of a program."""
    digits = "0" * chance.choice([0, 0, 0, 0, 2]) + str(number)
    front = " " * chance.choice([0, 0, 0, 1, 3]) + digits + " " * chance.choice([0, 1, 1, 1, 2])
    if chance.random() < 0.02:
        return front + chance.choice(["X", "\u2401", "PRINT", "A "]) * chance.choice([124, 125, 126, 248, 249, 250, 251, 252])
    pieces = [a_piece(chance) for _ in range(chance.choice([1, 2, 3, 5, 9]))]
    return front + chance.choice(["", "", "", "?", "REM", "DATA"]) + "".join(pieces)


def longest_program(chance):
    """The text of a program whose last link is near the greatest."""
    rows = [*[249] * 248, chance.randrange(234, 243)]
    return "".join(f"{number} REM{'X' * letters}\n" for number, letters in enumerate(rows)).encode("utf-8")


def a_program_text(chance):
    """The text of a program, as its bytes."""
    if chance.random() < 0.01:
        return longest_program(chance)
    number, rows = -1, []
    for _ in range(chance.choice([0, 1, 1, 2, 3, 6])):
        number += chance.choice([1, 1, 10, 10, 100, 60_000 if chance.random() < 0.1 else 5])
        if chance.random() < 0.03:
            number = chance.choice([number - 1, number - 20, 65_535, 65_536, 10**30])
        rows.append(program_row(chance, max(number, 0)) + an_end(chance))
        if chance.random() < 0.1:
            rows.append(" " * chance.choice([0, 0, 1, 4]) + an_end(chance))
    text = "".join(rows).encode("utf-8")
    if chance.random() < 0.06:
        at = chance.randrange(len(text) + 1)
        text = text[:at] + chance.choice([*BROKEN, b"\r", b"\t", b"\xc3\xa9", b"\0", b"\xe2\x90\x80", b"?"]) + text[at:]
    return text.rstrip(b"\n") if chance.random() < 0.2 else text


def program_data(chance):
    """The bytes of a program, some of which are none."""
    if chance.random() < 0.05:
        return chance.randbytes(chance.randrange(60))
    data, at = b"", texts.PROGRAM
    pool = chance.choice([range(1, 0xEB), [*range(0x20, 0x7F), *range(0x80, 0xEB)], range(1, 0x100)])
    for _ in range(chance.choice([0, 1, 2, 4])):
        code = bytes(some(chance, pool, chance.choice([1, 10, 260])))
        at += 5 + len(code)
        link = at.to_bytes(2, "little") if chance.random() < 0.7 else chance.choice([b"\0\x08", b"\x01\0", chance.randbytes(2)])
        data += link + chance.randbytes(2) + code + b"\0"
    data += b"\0\0" + chance.choice([b"", b"", b"\0", chance.randbytes(4)])
    return data[:chance.randrange(len(data) + 1)] if chance.random() < 0.2 else data


# ---- random programs in Integer BASIC ----
def integer_code(chance):
    """The code of a line in Integer BASIC."""
    items = []
    for _ in range(chance.choice([0, 1, 2, 5])):
        kind = chance.randrange(9)
        if kind == 0:
            inside = [byte for byte in range(256) if byte != texts.CLOSING or chance.random() < 0.1]
            items.append(b"\x28" + bytes(some(chance, inside, 6)) + (b"\x29" if chance.random() < 0.9 else b""))
        elif kind == 1:
            items.append(bytes([chance.choice(texts.DIGITS)]) + chance.randbytes(2 if chance.random() < 0.9 else 1))
        elif kind < 4:
            items.append(bytes(some(chance, [*texts.LETTERS, *texts.DIGITS], 4)))
        elif kind == 4 and chance.random() < 0.5:
            items.append(b"\x5d" + bytes(some(chance, range(256), 8)))
        elif kind == 5 and chance.random() < 0.15:
            items.append(chance.randbytes(1))
        else:
            words = [token for token, word in enumerate(texts.INTEGER_WORDS) if word and token not in (0x28, 0x5D)]
            items.append(bytes([chance.choice(words)]))
    return b"".join(items)[:251]


def integer_data(chance):
    """The bytes of a program in Integer BASIC, some of which are none."""
    data = b""
    for _ in range(chance.choice([0, 1, 1, 2, 4])):
        code = integer_code(chance)
        length = len(code) + 4
        if chance.random() < 0.05:
            length = chance.choice([1, 2, 3, 4, length - 1, length + 1, 255])
        data += bytes([length]) + chance.randbytes(2) + code + (b"\x01" if chance.random() < 0.97 else chance.randbytes(1))
    data += chance.choice([b"", b"\0", b"\0\x07\x01", b""])
    return data[:chance.randrange(len(data) + 1)] if chance.random() < 0.1 else data


# ---- random AppleSingle files ----
def single_entry(chance, identity):
    """The bytes of an entry by its ID."""
    if identity == texts.PRODOS_INFO:
        kind = chance.choice([*LETTERS, *LETTERS, *LETTERS, chance.randrange(256)]) if chance.random() < 0.97 else 0x106
        aux = chance.choice([0, 0x0801, 0x2000, chance.randrange(1 << 16), 0xFFFF]) if chance.random() < 0.97 else 0x10000
        access = chance.choice([0xC3, 0x01, 0xE3, 0xFFFF])
        info = access.to_bytes(2, "big") + kind.to_bytes(2, "big") + aux.to_bytes(4, "big")
        return info + bytes(chance.choice([0, 0, 0, 5])) if chance.random() < 0.95 else info[:chance.randrange(8)]
    if identity == texts.RESOURCE_FORK:
        return b"" if chance.random() < 0.7 else b"x"
    return chance.randbytes(chance.choice([0, 1, 5, chance.randrange(300)]))


def single_data(chance):
    """An AppleSingle file, a third of which are broken."""
    likely = {1: 0.97, 11: 0.8, 3: 0.3, 2: 0.2, 9: 0.3, 0: 0.2, 0xFFFFFFFF: 0.2}
    identities = [identity for identity in likely if chance.random() < likely[identity]]
    if chance.random() < 0.04 and identities:
        identities.append(chance.choice(identities))
    if chance.random() < 0.02:
        identities += range(100, 100 + chance.choice([62, 63, 64, 65]) - len(identities))
    chance.shuffle(identities)
    entries = [(identity, single_entry(chance, identity)) for identity in identities]
    at, rows, body = texts.HEADER + texts.ROW * len(entries), b"", b""
    for identity, content in chance.sample(entries, len(entries)):
        place = at + len(body)
        body += content + bytes(chance.choice([0, 0, 0, 3]))
        if chance.random() < 0.04:  # an entry that overlaps others, or leads past the end
            place = chance.choice([0, 8, at, at + len(body) - 1, 0xFFFFFFFF, at + len(body)])
        rows += b"".join(number.to_bytes(4, "big") for number in (identity, place, len(content)))
    count = len(entries) if chance.random() < 0.96 else chance.choice([0, len(entries) + 1, 0x0100, 0xFFFF])
    file = texts.SINGLE + bytes(16) + count.to_bytes(2, "big") + rows + body
    if chance.random() < 0.1:
        at = chance.randrange(len(file))
        file = file[:at] + chance.randbytes(1) + file[at + 1:] if chance.random() < 0.5 else file[:at]
    return file


GIVEN = {"text": a_text, "applesoft": a_program_text, "single": single_data}
STORED = {"text": text_data, "applesoft": program_data, "integer": integer_data}


# ---- what is wanted ----
def single_of(volume, entry, body):
    """The AppleSingle file of a file, with the name of its entry."""
    kind, aux = extracts.type_and_aux(volume, entry, bytes(volume.whole(volume.units_of(entry))))
    name = extracts.own_name(volume, entry)
    if volume.file_system == "prodos":
        return texts.single_print(name, entry.raw[0x1E], kind, aux, body)
    access = 0x01 if entry.raw[2] & 0x80 else 0xC3
    return texts.single_print(bytes(byte & 0x7F for byte in name.rstrip(b"\xa0")), access, kind, aux, body)


def form_of(volume, entry, form):
    """What `read --as` writes of a file, or None where the file has no such form."""
    units = volume.units_of(entry)
    whole, body = bytes(volume.whole(units)), bytes(volume.body(entry, units))
    if form == "shown":
        form = SHOWN.get(extracts.type_and_aux(volume, entry, whole)[0])
    if form == "text":
        return texts.shown_text(texts.text_bytes(volume.file_system, whole, body))
    if form == "applesoft":
        return texts.applesoft_listing(body)
    if form == "integer":
        return texts.integer_listing(body)
    return single_of(volume, entry, body) if form == "single" else None


def taken_single(file_system, given):
    """The file that is saved of an AppleSingle file, which says the type and the aux type that the words leave out."""
    read = texts.single_read(given.data)
    if read is None:
        raise random_edits.Refused("Single")
    info, data = read
    kind, aux = (info.type, info.aux) if info else (0x06, 0)
    word = given.kind or (f"{kind:02x}" if file_system == "prodos" else LETTERS.get(kind))
    if word is None:
        raise random_edits.Refused("Type")
    return given._replace(data=data, kind=word, aux=aux if given.aux is None else given.aux)


def taken_bytes(file_system, form, high, text):
    """The bytes that a text or the text of a program is saved as."""
    if form == "applesoft":
        return texts.applesoft_tokens(text)
    pro = file_system == "prodos"
    is_high = not pro if high is None else high == "on"
    return texts.taken_text(text, is_high, is_high or pro)


def taken(file_system, form, high, given):
    """The file that is saved of a readable form."""
    if form == "single":
        return taken_single(file_system, given)
    data = taken_bytes(file_system, form, high, given.data)
    if isinstance(data, int):
        raise random_edits.Refused(f"Text {data}")
    kind = given.kind or OWN_TYPES[form][file_system == "prodos"]
    return given._replace(data=data, kind=kind, aux=texts.PROGRAM if form == "applesoft" else given.aux)


# ---- what is wanted of all files of a volume ----
class Names:
    """The names of the entries of one folder, whose tails may differ."""

    def __init__(self):
        self.taken, self.numbers = set(), {}

    def next(self, bare, tail):
        """The name of the next entry with a stem and a tail: the first that no entry has, letters of either case taken as one."""
        key = bare.lower(), tail.lower()
        while True:
            number = self.numbers[key] = self.numbers.get(key, 0) + 1
            name = extracts.safe(bare + ("" if number == 1 else f"~{number}") + tail)
            if name.lower() not in self.taken:
                self.taken.add(name.lower())
                return name


class TextExtraction(extracts.Extraction):
    """What `extract --texts` makes of the entries of a volume, which has no directory that is too deep."""

    def run(self):
        self.counts["texts"] = 0
        for entry, above in zip(self.volume.entries, extracts.folders_above(self.volume)):
            self.take(entry, above)
        line = "EXTRACTED files {files} folders {folders} texts {texts} unreadable {unreadable} bytes {bytes}"
        lines = [*self.lines, line.format(bytes=self.bytes, **self.counts)]
        return int(self.counts["unreadable"] > 0), looks.text_of_lines(lines), self.tree

    def take(self, entry, above):
        units = None if self.volume.is_directory(entry) else self.units(entry)
        kind, aux, form = self.type_and_form(entry, units)
        tail = "" if self.volume.is_directory(entry) else f"#{kind:02x}{aux:04x}"
        if self.plain:
            tail = "" if form is None else ".txt"
        names = self.names.setdefault(above, Names())
        name = names.next(extracts.stem(self.volume.file_system, extracts.own_name(self.volume, entry)), tail)
        host = name if above is None else f"{self.hosts[above]}/{name}"
        self.hosts.append(host)
        if form is None or not self.plain:
            self.make(entry, host, self.volume.is_directory(entry), units)
        if form is not None:
            self.make_text(host if self.plain else f"{host}.utf8.txt", form)

    def type_and_form(self, entry, units):
        """The type and the aux type of an entry, and its readable form or None."""
        if units is None:
            return *extracts.type_and_aux(self.volume, entry, None), None
        whole, body = bytes(self.volume.whole(units)), bytes(self.volume.body(entry, units))
        kind, aux = extracts.type_and_aux(self.volume, entry, whole)
        return kind, aux, texts.readable_form(self.volume.file_system, kind, self.plain, whole, body)

    def make_text(self, host, form):
        self.bytes += len(form)
        if self.bytes > self.most:
            raise looks.Refused("TooLarge")
        self.tree[host] = form
        self.lines.append(f"TEXT {len(form)} {host}")
        self.counts["texts"] += 1


# ---- trials ----
def content_of(path):
    """The bytes of a file, or None where there is none."""
    try:
        return looks.content(path)
    except FileNotFoundError:
        return None


def narrowed(wanted, found):
    """Two values that differ; of folders the files that do, and of long bytes those where they begin to."""
    if isinstance(wanted, dict) and isinstance(found, dict):
        names = [name for name in sorted({*wanted, *found}) if name not in wanted or name not in found or wanted[name] != found[name]]
        return [{name: files.get(name, "none") for name in names[:3]} for files in (wanted, found)]
    if isinstance(wanted, bytes) and isinstance(found, bytes) and len(wanted) > 400:
        at = next((at for at, pair in enumerate(zip(wanted, found)) if pair[0] != pair[1]), min(len(wanted), len(found)))
        return [f"from {at} on {data[at:at + 40].hex(' ')}" for data in (wanted, found)]
    return wanted, found


def volume_of(file_system, image):
    """The volume of an image in its own order."""
    return looks.opened(looks.Store(bytes(image), file_system, file_system))


@functools.lru_cache
def empty_volume(pro):
    """A volume of ProDOS, or of DOS 3.3, without files."""
    volume = (random_edits.ProVolume if pro else random_edits.DosVolume)("shelf")
    for at in list(volume.files()):
        volume.lock(at, False)
        volume.delete(at)
    return volume


class Program:
    """The program, how often it was run, what came of the inputs, and what was wrong."""

    def __init__(self, path):
        self.path, self.kept = path, os.getcwd()
        self.runs, self.differences, self.counts = 0, 0, collections.Counter()

    def told(self, words):
        """What the program tells: its status and its text, and on standard error nothing."""
        self.runs += 1
        done = subprocess.run([self.path, *words], stdin=subprocess.DEVNULL, capture_output=True, check=False, close_fds=False)
        self.compare(["standard error", *words], b"", done.stderr)
        return done.returncode, done.stdout

    def compare(self, what, wanted, found):
        """Counts a difference, tells the first ones and keeps their image and what was to be saved."""
        if wanted == found:
            return
        self.differences += 1
        if self.differences <= 20:
            number = self.differences
            told = "wanted {}, found {}".format(*map(random_looks.short, narrowed(wanted, found)))
            print(f"difference {number}: {' '.join(what)}: {told}", flush=True)
            for name in filter(os.path.exists, ("image", "from")):
                shutil.copy(name, os.path.join(self.kept, f"{name}.{number}"))

    def told_counts(self):
        """A line for each form and what came of it."""
        return [f"{form} {outcome}: {count}" for (form, outcome), count in sorted(self.counts.items())]


class Trial:
    """A volume with many files, and what the program makes of it."""

    def __init__(self, program, chance):
        self.program, self.chance = program, chance
        self.file_system = chance.choice(["dos", "prodos"])
        self.pro = self.file_system == "prodos"
        self.volume = copy.deepcopy(empty_volume(self.pro))
        self.words = ["--fs", self.file_system, "--order", self.file_system]

    def run(self, first, count):
        """So many inputs, which are numbered from the first: files that are read, then some that are saved, then all of them."""
        reads = self.chance.randrange(count + 1)
        stored = [self.store(number) for number in range(first, first + reads)]
        self.put_image()
        for form, name in stored:
            self.read(form, name)
        for number in range(first + reads, first + count):
            self.save(number)
        self.extract()

    def put_image(self):
        with open("image", "wb") as file:
            file.write(self.volume.image)

    def looked(self):
        return volume_of(self.file_system, self.volume.image)

    def store(self, number):
        """A new file of random bytes on the volume; some have a lock, and of DOS 3.3 a name of any bytes. Its form and its stored name."""
        chance, form = self.chance, self.chance.choice([*STORED, "single"])
        data = STORED[form](chance) if form in STORED else chance.randbytes(chance.choice([0, 1, 20, 600]))
        other = f"{chance.randrange(256):02x}" if self.pro else chance.choice("TIABSR")
        kind = OWN_TYPES[form][self.pro] if chance.random() < 0.7 else other
        path = f"N{number}"
        self.volume.save(Given(path, data, kind, chance.randrange(1 << 16)))
        at = self.volume.find(path)
        if chance.random() < 0.3:
            self.volume.lock(at, True)
        if self.pro:
            return form, path.encode("ascii")
        if chance.random() < 0.3:
            name = random_looks.hostile_bytes(chance, chance.randrange(1, 31))
            self.volume.image[at + 3:at + 33] = name.ljust(30, b"\xa0")
        return form, bytes(self.volume.image[at + 3:at + 33])

    def read(self, form, stored):
        """A file is read in a form, on standard output or into a file."""
        form = self.chance.choice([form, form, form, "shown", "shown", *FORMS])
        looked = self.looked()
        shown = form_of(looked, looked.find(stored), form)
        refused = 3, b"REFUSED Form\n"
        words = ["read", "image", stored.hex(), "--stored", *self.words, "--as", form]
        if self.chance.random() < 0.1:
            words += ["--out", "shown"]
            self.program.compare(words, refused if shown is None else (0, b"OK\n"), self.program.told(words))
            self.program.compare(["the file", *words], shown, content_of("shown"))
            if os.path.exists("shown"):
                os.remove("shown")
        else:
            self.program.compare(words, refused if shown is None else (0, shown), self.program.told(words))
        self.program.counts[form, "Form, read" if shown is None else "read"] += 1

    def save(self, number):
        """A readable form is saved, into another image, over the image or in place, and read back."""
        chance = self.chance
        form = chance.choice(["text", "applesoft", "applesoft", "single"])
        high = chance.choice([None, None, "on", "off"]) if form == "text" else None
        given = Given(f"S{number}", GIVEN[form](chance), *self.said(form))
        self.put_image()
        with open("from", "wb") as file:
            file.write(given.data)
        before = bytes(self.volume.image)
        try:
            file = taken(self.file_system, form, high, given)
            self.volume.save(file)
            outcome, wanted = "saved", (0, b"OK\n")
        except random_edits.Refused as refused:
            file, outcome, wanted = None, f"{str(refused).split()[0]}, saved", (3, f"REFUSED {refused}\n".encode())
        words = ["save", "image", given.path, *self.words, "--from", "from", "--as", form, *self.options(given, high)]
        words += chance.choice([["--in-place"], ["--out", "image"], ["--out", "made"]])
        self.program.compare(words, wanted, self.program.told(words))
        self.weigh_images(words, before, bytes(self.volume.image) if file else None)
        self.program.counts[form, outcome] += 1
        if file:
            self.put_image()
            self.read_back(form, file)

    def said(self, form):
        """The type and the aux type of the words, which mostly leave them out."""
        chance = self.chance
        kind = chance.choice(["06", "04", "fc", "FF"] if self.pro else ["B", "T", "A", "S"]) if chance.random() < 0.15 else None
        aux = chance.choice([0, 768, 2049, 65_535]) if chance.random() < 0.15 else None
        return kind, texts.PROGRAM if form == "applesoft" and aux is not None else aux

    def options(self, given, high):
        """The words that may be left out; an aux type in decimal or in hexadecimal."""
        aux = given.aux if given.aux is None else self.chance.choice([str(given.aux), f"0x{given.aux:x}", f"${given.aux:04X}"])
        said = {"--high": high, "--type": given.kind, "--aux": aux}
        return [word for name, value in said.items() if value is not None for word in (name, value)]

    def weigh_images(self, words, before, after):
        """The image that was to be made, `after`, or none; the image that stood there is it too, or as it was before."""
        made = content_of("made")
        if made is not None:
            os.remove("made")
        if words[-1] == "made":
            self.program.compare(["the new image", *words], after, made)
            after = before
        self.program.compare(["the image", *words], before if after is None else after, content_of("image"))

    def read_back(self, form, file):
        """What was saved is read, as it is and in its form; the listing of a program is that very program again."""
        looked = self.looked()
        entry = looked.find(looked.stored_name(file.path))
        words = ["read", "image", file.path, *self.words]
        body = bytes(looked.body(entry, looked.units_of(entry)))
        self.program.compare(words, (0, body), self.program.told(words))
        if form == "applesoft":
            again = texts.applesoft_tokens(texts.applesoft_listing(file.data))
            self.program.compare(["the program of a listing"], file.data, again)
        shown = form_of(looked, entry, form)
        wanted = (3, b"REFUSED Form\n") if shown is None else (0, shown)
        words += ["--as", form]
        self.program.compare(words, wanted, self.program.told(words))

    def extract(self):
        """All files of the volume with their readable forms."""
        plain = self.chance.random() < 0.5
        self.put_image()
        status, text, tree = TextExtraction(self.looked(), plain, looks.MOST).run()
        words = ["extract", "image", *self.words, "--into", "out", "--texts", *(["--names", "plain"] if plain else [])]
        self.program.compare(words, (status, text), self.program.told(words))
        self.program.compare(["the folder", *words], tree, random_extracts.tree_of("out"))
        shutil.rmtree("out", ignore_errors=True)
        self.program.counts["volumes", "extracted"] += 1


def main():
    program, seed, count = Program(os.path.abspath(sys.argv[1])), sys.argv[3], int(sys.argv[2])
    chance = random.Random(f"{seed} texts")
    with tempfile.TemporaryDirectory() as folder:
        os.chdir(folder)
        for first in range(0, count, FILES):
            Trial(program, chance).run(first, min(FILES, count - first))
        os.chdir(program.kept)
    print(*program.told_counts(), sep="\n")
    print(f"{count} inputs, {program.runs} runs, {program.differences} differences")
    sys.exit(program.differences != 0)


if __name__ == "__main__":
    main()

#!/usr/bin/env python3
"""Containers around images, 2IMG files, worked out from docs/formats.md alone: what one is, and why bytes are none.

containers.py

Without words it weighs the worked examples, as they are printed, and tells how many of them held.
"""

import hashlib
import struct
import sys
from typing import NamedTuple, Optional

import looks
import make_samples

MAGIC, BLOCK = b"2IMG", looks.BLOCK
# The formats of a header, by their numbers.
ORDERS = ["dos", "prodos", "nibble"]
# The length of an image of a format, in bytes; that of format 1 is one of many blocks.
LENGTHS = {0: looks.DISK_LENGTH, 2: looks.TRACKS_LENGTH}
FEWEST_BLOCKS, MOST_BLOCKS = 16, 65_535
MOST_COMMENT = 65_472
# How many bytes a file may have: the longest image, and a shell of 65,536 bytes.
MOST = BLOCK * MOST_BLOCKS + 65_536
PROTECTED, HAS_VOLUME = 1 << 31, 1 << 8


class NoContainer(Exception):
    """Bytes that are no container, with the word that is told."""


class Fields(NamedTuple):
    """The fields of a header that are looked at, and those that are carried; numbers have their low byte first."""

    magic: bytes = MAGIC
    creator: bytes = b"A2SH"
    size: int = 64
    version: int = 1
    format: int = 0
    flags: int = 0
    blocks: int = 0
    offset: int = 64
    length: int = 0
    comment: int = 0
    comment_length: int = 0
    own: int = 0
    own_length: int = 0
    reserved: bytes = bytes(16)

    def header(self):
        """The 64 bytes of the header; an old one ends behind the first 52."""
        return struct.pack("<4s4sHH9I16s", *self)


class Container(NamedTuple):
    """A container: what stands before its payload, the payload, what stands behind it, and what its header says."""

    front: bytes
    payload: bytes
    back: bytes
    order: str
    protected: bool

    def around(self, payload):
        """The container with another payload of the same length."""
        return self.front + payload + self.back


def number(data, at, count=4):
    return int.from_bytes(data[at:at + count], "little")


def length_of(data):
    """How many bytes the data have."""
    said, kind = number(data, 0x1C), number(data, 0x0C)
    return said or LENGTHS.get(kind, BLOCK * number(data, 0x14))


def allows(order, length):
    """Whether an image of an order may have so many bytes."""
    if order == "prodos":
        return length % BLOCK == 0 and FEWEST_BLOCKS <= length // BLOCK <= MOST_BLOCKS
    return length == LENGTHS[ORDERS.index(order)]


def fault(data):
    """The first thing that is wrong with bytes that are no container, or None."""
    if data[:4] != MAGIC:
        return "Magic"
    if len(data) > MOST:
        return "Length"
    size = number(data, 0x08, 2)
    if len(data) < 0x0A or size not in (52, 64) or len(data) < size:
        return "Header"
    if number(data, 0x0C) >= len(ORDERS):
        return "Format"
    offset, length = number(data, 0x18), length_of(data)
    if offset < size or offset + length > len(data):
        return "Data"
    return None if allows(ORDERS[number(data, 0x0C)], length) else "Length"


def container_of(data):
    """The container that bytes are."""
    word = fault(data)
    if word is not None:
        raise NoContainer(word)
    start = number(data, 0x18)
    end = start + length_of(data)
    protected = number(data, 0x10) & PROTECTED != 0
    return Container(data[:start], data[start:end], data[end:], ORDERS[number(data, 0x0C)], protected)


def wrapped(order, image, comment=b"", volume: Optional[int] = None, protect=False):
    """The container that `wrap` makes of an image."""
    flags = (PROTECTED if protect else 0) | (0 if volume is None else HAS_VOLUME | volume)
    fields = Fields(
        format=ORDERS.index(order), flags=flags, blocks=len(image) // BLOCK if order == "prodos" else 0,
        length=len(image), comment=64 + len(image) if comment else 0, comment_length=len(comment))
    return fields.header() + image + comment


# ---- worked examples ----
BIG_HEADER = bytes.fromhex("""
32 49 4D 47 41 32 53 48 40 00 01 00 01 00 00 00 00 00 00 00 18 01 00 00 40 00 00 00 00 30 02 00
00 00 00 00 00 00 00 00 00 00 00 00 00 00 00 00 00 00 00 00 00 00 00 00 00 00 00 00 00 00 00 00""")
BIG_DIGEST = "2d3c660c99842be995045a674d2a336d7e0a0b0e90825fad40228e7cd029b52e"
HELLO_HEADER = bytes.fromhex("""
32 49 4D 47 41 32 53 48 40 00 01 00 00 00 00 00 FE 01 00 80 00 00 00 00 40 00 00 00 00 30 02 00
40 30 02 00 06 00 00 00 00 00 00 00 00 00 00 00 00 00 00 00 00 00 00 00 00 00 00 00 00 00 00 00""")
HELLO_DIGEST = "989142d2cff8db4b72570abc16837edbab8ef53798966ea6bf93ef8e6d63aad5"


def big():
    """A ProDOS volume whose one file is a tree of which the last three bytes alone are stored."""
    image = make_samples.pro_volume("WORK")
    make_samples.put_pro_entry(image, 2, 1, 3, "BIG", 0x06, 7, 3, 131_075, make_samples.DATE)
    make_samples.put_pointer(image, 7, 1, 9)
    make_samples.put_pointer(image, 9, 0, 8)
    make_samples.put_block(image, 8, 0, b"abc")
    for block in (7, 8, 9):
        make_samples.take_block(image, block)
    return bytes(image)


def digest(data):
    return hashlib.sha256(data).hexdigest()


def worked_examples():
    """Each worked example: its name, what is worked out, and what is wanted."""
    hello = bytes(make_samples.hello())
    plain = wrapped("prodos", big())
    said = wrapped("dos", hello, b"Side A", 254, True)
    yield "a header", plain[:64], BIG_HEADER
    yield "a container", (len(plain), digest(plain)), (143_424, BIG_DIGEST)
    yield "a container that is read", container_of(plain), Container(BIG_HEADER, big(), b"", "prodos", False)
    yield "a header with all that may be said", said[:64], HELLO_HEADER
    yield "a container with all that may be said", (len(said), digest(said)), (143_430, HELLO_DIGEST)
    yield "a container that is protected", container_of(said), Container(HELLO_HEADER, hello, b"Side A", "dos", True)
    yield "a plain image", fault(hello), "Magic"
    yield "a header that is cut short", fault(said[:63]), "Header"
    yield "a header of 65 bytes", fault(Fields(size=65, length=143_360).header() + hello), "Header"
    yield "an old header", fault(Fields(size=52, offset=52, length=143_360).header()[:52] + hello), None
    yield "a format that is none", fault(Fields(format=3, length=143_360).header() + hello), "Format"
    yield "data that overlap the header", fault(Fields(offset=63, length=143_360).header() + hello), "Data"
    yield "data that end behind the file", fault(Fields(offset=65, length=143_360).header() + hello), "Data"
    yield "a length that is left out", fault(Fields().header() + hello), None
    yield "blocks that are left out", fault(Fields(format=1).header() + hello), "Length"
    yield "the longest file", MOST, 33_619_456


def main():
    examples = list(worked_examples())
    broken = [(name, found, wanted) for name, found, wanted in examples if found != wanted]
    for name, found, wanted in broken:
        print(f"{name}: {found!r:.400}, wanted {wanted!r:.400}")
    print(f"{len(examples) - len(broken)} of {len(examples)} worked examples held")
    sys.exit(bool(broken))


if __name__ == "__main__":
    main()

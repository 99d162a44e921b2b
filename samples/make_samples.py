#!/usr/bin/env python3
"""Makes the sample images from the formats that docs/formats.md states. Run it in this folder."""

SECTOR = 256
PLACES = 560
VTOC = 17 * 16


def put(image, place, offset, data):
    at = SECTOR * place + offset
    image[at:at + len(data)] = bytes(data)


def dos_volume(track_3_map):
    """A formatted DOS 3.3 volume, number 254, with an empty catalog of 15 sectors."""
    image = bytearray(SECTOR * PLACES)
    put(image, VTOC, 0x01, [17, 15, 3])
    put(image, VTOC, 0x06, [254])
    put(image, VTOC, 0x27, [122])
    put(image, VTOC, 0x30, [18, 1])
    put(image, VTOC, 0x34, [35, 16, 0, 1])
    for track in range(35):
        if track not in (0, 1, 2, 17):
            put(image, VTOC, 0x38 + 4 * track, [0xFF, 0xFF])
    put(image, VTOC, 0x38 + 4 * 3, track_3_map)
    for sector in range(2, 16):
        put(image, VTOC + sector, 0x01, [17, sector - 1])
    return image


def put_entry(image, slot, track, sector, kind, name, sectors):
    """An entry in the first catalog sector."""
    text = bytes(byte | 0x80 for byte in name.ljust(30).encode("ascii"))
    put(image, VTOC + 15, 0x0B + 35 * slot, [track, sector, kind])
    put(image, VTOC + 15, 0x0B + 35 * slot + 3, text)
    put(image, VTOC + 15, 0x0B + 35 * slot + 33, [sectors & 255, sectors >> 8])


def hello():
    """One locked binary file of three bytes."""
    image = dos_volume([0x3F, 0xFF])
    put_entry(image, 0, 3, 14, 0x84, "HELLO", 2)
    put(image, 3 * 16 + 14, 0x0C, [3, 15])
    put(image, 3 * 16 + 15, 0x00, [0x00, 0x03, 0x03, 0x00, 0xA9, 0x00, 0x60])
    return image


def put_file(image, slot, kind, name, places, lists):
    """A file whose part k stands at place `places[k]`: each list's place, then those of its body; `lists` has for each list its pairs.

    A pair is None, or the bytes of a sector.
    """
    stand = iter(places)
    before = None
    for number, pairs in enumerate(lists):
        at = next(stand)
        if before is None:
            first = at
        else:
            put(image, before, 0x01, divmod(at, 16))
        before = at
        put(image, at, 0x05, [122 * number & 255, 122 * number >> 8])
        for i, unit in enumerate(pairs):
            if unit is not None:
                body = next(stand)
                put(image, at, 0x0C + 2 * i, divmod(body, 16))
                put(image, body, 0, unit)
    sector = VTOC + 15 - slot // 7
    text = bytes(byte | 0x80 for byte in name.ljust(30).encode("ascii"))
    length = len(places)
    put(image, sector, 0x0B + 35 * (slot % 7), [*divmod(first, 16), kind, *text, length & 255, length >> 8])
    for place in places:
        track, number = divmod(place, 16)
        image[SECTOR * VTOC + 0x38 + 4 * track + (number < 8)] &= ~(1 << number % 8)


def shuffled(count, spread):
    """The numbers of `count` places among the first `count + spread`, out of order; the same each time."""
    return sorted(range(count + spread), key=lambda number: (number + 3) ** 5 % 10007)[:count]


def unit_of(number, length):
    """The bytes of a body's unit, unlike those of every other."""
    return bytes([number, *((number * 59 + i * 31 + i * i // 7) % 256 for i in range(1, length))])


def sizes(count):
    """How many units the body of each file has."""
    return [number * 7 % 4 for number in range(count)]


def shelf_dsk():
    """Thirty files of all kinds, their sectors out of order: holes, an empty file, and a file of two lists among them."""
    image = dos_volume([0xFF, 0xFF])
    kinds = [0x00, 0x01, 0x82, 0x04, 0x08, 0x90, 0x20, 0xC0]
    files = []
    number = 0
    for file, size in enumerate(sizes(30)):
        pairs = []
        for _ in range(size):
            pairs.append(unit_of(number, SECTOR))
            number += 1
        if file == 11:
            files.append([[None, *pairs], [None] * 5 + [unit_of(200, SECTOR)]])
        else:
            files.append([pairs])
    lengths = [sum(1 + sum(unit is not None for unit in pairs) for pairs in lists) for lists in files]
    available = [16 * track + sector for track in range(3, 35) if track != 17 for sector in range(15, -1, -1)]
    at = iter([available[index] for index in shuffled(sum(lengths), 3)])
    for file, lists in enumerate(files):
        put_file(image, file, kinds[file % 8], f"FILE {file}", [next(at) for _ in range(lengths[file])], lists)
    return image


BLOCK = 512
BLOCKS = 280


def put_block(image, block, offset, data):
    at = BLOCK * block + offset
    image[at:at + len(data)] = bytes(data)


def low_first(number, count):
    return number.to_bytes(count, "little")


DATE = [0xA1, 0xAC, 0x1E, 0x0C]


def pro_volume(name):
    """A formatted ProDOS volume of 280 blocks: four directory blocks from 2 on, and the bitmap in block 6."""
    image = bytearray(BLOCK * BLOCKS)
    for block in range(2, 6):
        put_block(image, block, 0x00, low_first(block - 1 if block > 2 else 0, 2) + low_first(block + 1 if block < 5 else 0, 2))
    put_block(image, 2, 0x04, bytes([0xF0 + len(name)]) + name.encode("ascii"))
    put_block(image, 2, 0x22, [0xC3, 0x27, 0x0D, 0, 0, 6, 0, *low_first(BLOCKS, 2)])
    put_block(image, 6, 0x00, [0x01] + [0xFF] * (BLOCKS // 8 - 1))
    return image


def take_block(image, block):
    image[BLOCK * 6 + block // 8] &= ~(0x80 >> block % 8)


def put_pro_entry(image, directory, slot, storage, name, kind, key, blocks, eof, date):
    """An entry in a block of the directory whose key block is `directory`; slot 0 of a key block is its header."""
    block = directory + slot // 13
    fields = bytes([kind]) + low_first(key, 2) + low_first(blocks, 2) + low_first(eof, 3) + bytes(date)
    put_block(image, block, 0x04 + 39 * (slot % 13), bytes([storage * 16 + len(name)]) + name.encode("ascii"))
    put_block(image, block, 0x04 + 39 * (slot % 13) + 0x10, fields)
    put_block(image, block, 0x04 + 39 * (slot % 13) + 0x1E, [0xE3, 0, 0, *date, *low_first(directory, 2)])
    count = BLOCK * directory + 0x25
    image[count:count + 2] = low_first(int.from_bytes(image[count:count + 2], "little") + 1, 2)


def put_subdirectory(image, slot, name, block):
    """A subdirectory of one block, in the volume directory."""
    put_pro_entry(image, 2, slot, 0xD, name, 0x0F, block, 1, BLOCK, DATE)
    put_block(image, block, 0x04, bytes([0xE0 + len(name)]) + name.encode("ascii"))
    put_block(image, block, 0x23, [0x27, 0x0D])
    take_block(image, block)


def put_pointer(image, index, number, block):
    put_block(image, index, number, [block & 255])
    put_block(image, index, 0x100 + number, [block >> 8])


def work():
    """A tree file with a hole of 256 blocks, and a subdirectory with a seedling."""
    image = pro_volume("WORK")
    put_pro_entry(image, 2, 1, 3, "BIG", 0x06, 7, 3, 131075, DATE)
    put_subdirectory(image, 2, "SUB", 10)
    put_pro_entry(image, 10, 1, 1, "A", 0x04, 11, 1, 2, [0, 0, 0, 0])
    put_pointer(image, 7, 1, 9)
    put_pointer(image, 9, 0, 8)
    put_block(image, 8, 0, b"abc")
    put_block(image, 11, 0, b"hi")
    for block in (7, 8, 9, 11):
        take_block(image, block)
    return image


def shelf_po():
    """Thirty files, their blocks out of order: ten of them in a subdirectory, seedlings, saplings and two trees, with holes."""
    image = pro_volume("SHELF")
    subdirectory = 40
    put_subdirectory(image, 5, "INNER", subdirectory)
    slots = [(2, slot) for slot in range(1, 5)] + [(subdirectory, slot) for slot in range(1, 11)] + [(2, slot) for slot in range(6, 22)]
    files = []
    unit = 0
    for file, size in enumerate(sizes(30)):
        numbers = [3 * i for i in range(size)] or [0]
        if file in (9, 20):
            numbers = [1, 255, 600 + file]
        files.append({number: unit_of(unit + i, BLOCK) for i, number in enumerate(numbers)})
        unit += len(numbers)
    lengths = [len(body) + (0 if max(body) == 0 else 1 if max(body) < 256 else 3) for body in files]
    available = [block for block in range(7, BLOCKS) if block != subdirectory]
    at = iter([available[index] for index in shuffled(sum(lengths), 3)])
    for file, body in enumerate(files):
        places = [next(at) for _ in range(lengths[file])]
        for block in places:
            take_block(image, block)
        stand = iter(places)
        key = master = index = next(stand)
        last = max(body)
        held = None
        for number, data in body.items():
            if last > 255 and number // 256 != held:
                held = number // 256
                index = next(stand)
                put_pointer(image, master, held, index)
            block = next(stand) if last > 0 else key
            if last > 0:
                put_pointer(image, index, number % 256, block)
            put_block(image, block, 0, data)
        storage = 3 if last > 255 else 2 if last > 0 else 1
        put_pro_entry(image, *slots[file], storage, f"FILE.{file}", file * 5, key, len(places), BLOCK * last + 100, DATE)
    return image


# The physical sector of each logical sector of DOS, and of each block of a track its two physical sectors.
DOS_SKEW = [0x0, 0xD, 0xB, 0x9, 0x7, 0x5, 0x3, 0x1, 0xE, 0xC, 0xA, 0x8, 0x6, 0x4, 0x2, 0xF]
BLOCK_SECTORS = [(0x0, 0x2), (0x4, 0x6), (0x8, 0xA), (0xC, 0xE), (0x1, 0x3), (0x5, 0x7), (0x9, 0xB), (0xD, 0xF)]


def tracks_of_dos_order(image):
    """The sectors of each track of an image in DOS order, by their physical numbers."""
    tracks = [[bytes(SECTOR)] * 16 for _ in range(35)]
    for place in range(PLACES):
        tracks[place // 16][DOS_SKEW[place % 16]] = bytes(image[SECTOR * place:SECTOR * (place + 1)])
    return tracks


def tracks_of_prodos_order(image):
    """The sectors of each track of an image in ProDOS order, by their physical numbers."""
    tracks = [[bytes(SECTOR)] * 16 for _ in range(35)]
    for block in range(BLOCKS):
        for half, sector in enumerate(BLOCK_SECTORS[block % 8]):
            at = BLOCK * block + SECTOR * half
            tracks[block // 8][sector] = bytes(image[at:at + SECTOR])
    return tracks


def dos_order(tracks):
    return b"".join(sectors[DOS_SKEW[sector]] for sectors in tracks for sector in range(16))


def prodos_order(tracks):
    return b"".join(sectors[sector] for sectors in tracks for pair in BLOCK_SECTORS for sector in pair)


# The disk bytes of the values 0 to 63: from 96 on those with the high bit set, two neighbouring bits set in the low seven, and one
# pair of neighbouring zeros at most; AA and D5 are kept for marks.
def is_disk_byte(byte):
    bits = f"{byte:08b}"
    zeros = sum(bits[at:at + 2] == "00" for at in range(7))
    return byte >= 0x96 and byte not in (0xAA, 0xD5) and "11" in bits[1:] and zeros <= 1


DISK_BYTES = [byte for byte in range(256) if is_disk_byte(byte)]


def four_and_four(*values):
    return bytes(half for value in values for half in (value >> 1 | 0xAA, value | 0xAA))


def six_and_two(sector):
    """The 343 disk bytes of a sector's data: 86 groups of pairs of low bits, each pair turned, the 256 high parts, and the checksum."""
    def turned(index):
        low = sector[index] & 3 if index < SECTOR else 0
        return low >> 1 | (low & 1) << 1

    values = [turned(group) | turned(group + 86) << 2 | turned(group + 172) << 4 for group in range(86)]
    values += [byte >> 2 for byte in sector]
    return bytes(DISK_BYTES[value ^ before] for value, before in zip([*values, 0], [0, *values]))


def nibble_order(tracks, volume=254):
    """Made tracks: 48 bytes FF, then of each physical sector its address, 6 bytes FF, its data and 27 bytes FF, and FF to the end."""
    image = b""
    for track, sectors in enumerate(tracks):
        made = b"\xFF" * 48
        for number, sector in enumerate(sectors):
            made += b"\xD5\xAA\x96" + four_and_four(volume, track, number, volume ^ track ^ number) + b"\xDE\xAA\xEB" + b"\xFF" * 6
            made += b"\xD5\xAA\xAD" + six_and_two(sector) + b"\xDE\xAA\xEB" + b"\xFF" * 27
        image += made.ljust(6656, b"\xFF")
    return image


def samples():
    """Each sample, by the name of its file."""
    hello_tracks, work_tracks = tracks_of_dos_order(hello()), tracks_of_prodos_order(work())
    return {
        "hello.dsk": dos_order(hello_tracks),
        "hello.po": prodos_order(hello_tracks),
        "hello.nib": nibble_order(hello_tracks),
        "shelf.dsk": shelf_dsk(),
        "work.po": prodos_order(work_tracks),
        "work.dsk": dos_order(work_tracks),
        "work.nib": nibble_order(work_tracks),
        "shelf.po": shelf_po(),
    }


if __name__ == "__main__":
    for name, image in samples().items():
        with open(name, "wb") as file:
            file.write(image)

#!/usr/bin/env python3
"""Measures the rule by which `identify` ranks the readings of an image.

It makes volumes from the formats that docs/formats.md states, puts each into an image of one order, reads the image in
every way that its length allows by a small model of the checker, and compares the verdict of the rule with the file
system and the order that the volume was made with. An image in nibble order is the physical sectors themselves: what
the tracks hold is the same. `readings.py [COUNT [SEED]]`; the last line but one must say `wrong 0`.
"""
import random
import sys
from collections import Counter, namedtuple

SECTOR = 256
BLOCK = 512
PLACES = 560
BLOCKS = 280
VTOC = 17 * 16
DOS_TO_PHYSICAL = [0x0, 0xD, 0xB, 0x9, 0x7, 0x5, 0x3, 0x1, 0xE, 0xC, 0xA, 0x8, 0x6, 0x4, 0x2, 0xF]
HALVES = [0x0, 0x2, 0x4, 0x6, 0x8, 0xA, 0xC, 0xE, 0x1, 0x3, 0x5, 0x7, 0x9, 0xB, 0xD, 0xF]

# What is found of a volume that can be read: how many entries and directory units it has; of an accepted one how many
# files and lost places, else None and None.
Found = namedtuple("Found", "entries units files lost")
# A volume that can't be read: no header of its file system, or a header over a directory with a fault.
UNREADABLE, BROKEN = "UNREADABLE", "BROKEN"


# ---- images ----
def physical(place_of_sector):
    return [16 * track + sector for track in range(35) for sector in place_of_sector]


SECTOR_ORDERS = {"dos": physical(DOS_TO_PHYSICAL), "prodos": physical(HALVES), "nibble": list(range(PLACES))}


def in_order(sectors, order):
    """Physical sectors in the order of an image."""
    return [sectors[number] for number in SECTOR_ORDERS[order]]


def out_of_order(stored, order):
    """The sectors of an image by their physical number."""
    sectors = [None] * PLACES
    for sector, number in zip(stored, SECTOR_ORDERS[order]):
        sectors[number] = sector
    return sectors


def dos_units(sectors):
    return in_order(sectors, "dos")


def pro_units(sectors):
    halves = in_order(sectors, "prodos")
    return [halves[2 * block] + halves[2 * block + 1] for block in range(BLOCKS)]


def word(unit, at, high=None):
    return unit[at] + 256 * unit[at + 1 if high is None else high]


# ---- the checker ----
class Walk:
    """The places that the parts of files stand at, and whether a fault was met."""

    def __init__(self, system, free):
        self.system, self.free = system, free
        self.met = set()
        self.sound = True

    def takes(self, place):
        """Takes up a part at a place, unless it is the system's or was met before."""
        if place in self.system or place in self.met:
            self.sound = False
            return False
        if place in self.free:
            self.sound = False
        self.met.add(place)
        return True

    def found(self, places, entries, units, files):
        if not self.sound:
            return Found(entries, units, None, None)
        used = [place for place in range(places) if place not in self.system and place not in self.free]
        return Found(entries, units, files, len(used) - len(self.met))


def dos_entries(store):
    """The entries in use and the number of catalog sectors, or why they can't be read."""
    vtoc = store[VTOC]
    if list(vtoc[0x34:0x38]) != [35, 16, 0, 1]:
        return UNREADABLE
    entries, met, unit = [], set(), vtoc
    while unit[1] != 0:
        sector = unit[2]
        if unit[1] != 17 or not 1 <= sector <= 15 or sector in met:
            return BROKEN
        met.add(sector)
        unit = store[VTOC + sector]
        for slot in range(7):
            entry = unit[0x0B + 35 * slot:0x0B + 35 * slot + 35]
            if entry[0] not in (0, 0xFF):
                entries.append(entry)
    return entries, len(met)


def dos_found(store):
    read = dos_entries(store)
    if read in (UNREADABLE, BROKEN):
        return read
    entries, units = read
    vtoc = store[VTOC]
    free = {place for place in range(PLACES) if vtoc[0x38 + 4 * (place // 16) + 1 - place % 16 // 8] >> place % 8 & 1}
    walk = Walk(set(range(48)) | set(range(VTOC, VTOC + 16)), free)

    def named(unit, at):
        """The place that a track and a sector name; None for none or a wild one."""
        if unit[at] == 0:
            return None
        if unit[at] > 34 or unit[at + 1] > 15:
            walk.sound = False
            return None
        return 16 * unit[at] + unit[at + 1]

    for entry in entries:
        at = named(entry, 0)
        while at is not None and walk.takes(at):
            unit = store[at]
            for i in range(122):
                body = named(unit, 0x0C + 2 * i)
                if body is not None:
                    walk.takes(body)
            at = named(unit, 1)
    return walk.found(PLACES, len(entries), units, len(entries))


def pro_tree(store):
    """The entries, the directory blocks and those of the map, or why they can't be read."""
    key = store[2]
    if key[4] >> 4 != 0xF or (key[0x23], key[0x24]) != (39, 13) or word(key, 0x29) != len(store):
        return UNREADABLE
    blocks, entries = [], []

    def run(key):
        slots, block = [], key
        while True:
            if not 2 <= block < len(store) or block in blocks:
                return None
            blocks.append(block)
            unit = store[block]
            slots += [unit[4 + 39 * slot:43 + 39 * slot] for slot in range(13) if (block, slot) != (key, 0)]
            block = word(unit, 2)
            if block == 0:
                return [slot for slot in slots if slot[0] >> 4]

    waiting = [run(2)]
    while waiting:
        slots = waiting.pop()
        if slots is None:
            return BROKEN
        if not slots:
            continue
        entry, *rest = slots
        waiting.append(rest)
        entries.append(entry)
        if entry[0] >> 4 == 0xD:
            key = word(entry, 0x11)
            if not 2 <= key < len(store) or key in blocks or store[key][4] >> 4 != 0xE:
                return BROKEN
            if (store[key][0x23], store[key][0x24]) != (39, 13):
                return UNREADABLE
            waiting.append(run(key))
    first = word(store[2], 0x27)
    units = range(first, first + (len(store) + 4095) // 4096)
    if any(not 2 <= block < len(store) or block in blocks for block in units):
        return BROKEN
    return entries, blocks, units


def pro_found(store):
    read = pro_tree(store)
    if read in (UNREADABLE, BROKEN):
        return read
    entries, blocks, units = read
    free = {place for place in range(len(store)) if store[units[place // 4096]][place % 4096 // 8] << place % 8 & 0x80}
    walk = Walk({0, 1, *blocks, *units}, free)

    def visit(place, depth):
        if place == 0:
            return
        if place >= len(store):
            walk.sound = False
            return
        if walk.takes(place) and depth:
            for i in range(128 if depth == 2 else 256):
                visit(word(store[place], i, 256 + i), depth - 1)

    for entry in entries:
        storage = entry[0] >> 4
        if storage in (1, 2, 3):
            visit(word(entry, 0x11), storage - 1)
        elif storage != 0xD:
            walk.sound = False
    files = sum(entry[0] >> 4 != 0xD for entry in entries)
    return walk.found(len(store), len(entries), len(blocks), files)


def readings(stored, order):
    """Each way to read an image, and what is found. `stored` is its sectors in its order, or the blocks of a larger one."""
    if order == "blocks":
        return {("prodos", "prodos"): pro_found(stored)}
    ways = {}
    for read_as in ["nibble"] if order == "nibble" else ["dos", "prodos"]:
        sectors = out_of_order(stored, read_as)
        ways["dos", read_as] = dos_found(dos_units(sectors))
        ways["prodos", read_as] = pro_found(pro_units(sectors))
    return ways


# ---- the rule ----
def outranks(one, other):
    """More entries; of as many, more directory units; of as many, accepted with fewer lost places, or with none where
    the other is refused."""
    if (one.entries, one.units) != (other.entries, other.units):
        return (one.entries, one.units) > (other.entries, other.units)
    if one.lost is None:
        return False
    return one.lost == 0 if other.lost is None else one.lost < other.lost


def contests(one, other):
    """Accepted with files, where the other is refused or has more lost places."""
    return bool(one.files) and (other.lost is None or one.lost < other.lost)


def yields(other, best):
    """Where there is no volume the best one is not in question; a volume with a broken directory may be the right one."""
    if isinstance(other, Found):
        return outranks(best, other) and not contests(other, best)
    return other == UNREADABLE


def verdict(ways):
    """The one reading to which every other yields; else AMBIGUOUS, or NONE where no volume can be read."""
    found = {way: reading for way, reading in ways.items() if isinstance(reading, Found)}
    for way, reading in found.items():
        if all(yields(other, reading) for key, other in ways.items() if key != way):
            return way
    return "AMBIGUOUS" if found else "NONE"


# ---- volumes ----
def content(rng, size):
    """The bytes of a body's unit: of code, of text or of zeros."""
    kind = rng.random()
    if kind < 0.6:
        return rng.randbytes(size)
    if kind < 0.9:
        return bytes(0x80 | 0x20 + byte % 0x5F for byte in rng.randbytes(size))
    return bytes(size)


class DosVolume:
    def __init__(self, rng, data_disk):
        self.rng = rng
        stale = rng.random() < 0.5
        self.store = [bytearray(content(rng, SECTOR) if stale else SECTOR) for _ in range(PLACES)]
        self.store[VTOC] = bytearray(SECTOR)
        system = {0, 17} if data_disk else {0, 1, 2, 17}
        self.free = {place for place in range(PLACES) if place // 16 not in system}
        self.places = sorted(self.free, key=lambda place: (place < 48 and not data_disk, place // 16, -place))
        if data_disk:
            self.places.sort(key=lambda place: place // 16 not in (1, 2))
        if rng.random() < 0.5:
            rng.shuffle(self.places)
            if data_disk:
                self.places.sort(key=lambda place: place // 16 not in (1, 2))
        self.chain = list(range(15, 0, -1))
        if rng.random() < 0.1:
            self.chain = self.chain[:rng.randint(1, 14)]
        for sector in self.chain if rng.random() < 0.2 else range(1, 16):
            self.store[VTOC + sector] = bytearray(SECTOR)
        self.lists = []
        self.bodies = []

    def take(self):
        place = self.places.pop(0)
        self.free.discard(place)
        return place

    def write_vtoc(self):
        vtoc = self.store[VTOC]
        vtoc[1:4] = bytes([17, self.chain[0], 3])
        vtoc[6] = 254
        vtoc[0x27] = 122
        vtoc[0x34:0x38] = bytes([35, 16, 0, 1])
        for place in self.free:
            vtoc[0x38 + 4 * (place // 16) + 1 - place % 16 // 8] |= 1 << place % 8
        for sector, after in zip(self.chain, self.chain[1:]):
            self.store[VTOC + sector][1:3] = bytes([17, after])

    def add(self, slot, size):
        rng = self.rng
        pairs = [rng.random() >= 0.05 or size < 3 for _ in range(size)]
        lists = [pairs[i:i + 122] for i in range(0, size, 122)] or [[]]
        before = None
        length = 0
        for number, units in enumerate(lists):
            at = self.take()
            self.lists.append(at)
            unit = self.store[at] = bytearray(SECTOR)
            unit[5:7] = (122 * number).to_bytes(2, "little")
            if before is None:
                first = at
            else:
                self.store[before][1:3] = bytes(divmod(at, 16))
            before = at
            for i, there in enumerate(units):
                if there:
                    body = self.take()
                    self.bodies.append(body)
                    self.store[body] = bytearray(content(rng, SECTOR))
                    unit[0x0C + 2 * i:0x0E + 2 * i] = bytes(divmod(body, 16))
                    length += 1
        self.enter(slot, [*divmod(first, 16), rng.choice([0, 1, 2, 4, 0x82, 0x84])], length + len(lists))

    def enter(self, slot, head, length):
        name = bytes(byte | 0x80 for byte in f"FILE {slot}".ljust(30).encode())
        at = 0x0B + 35 * (slot % 7)
        self.store[VTOC + self.chain[slot // 7]][at:at + 35] = bytes([*head, *name, length & 255, length >> 8])

    def spoil(self):
        """A bad pointer, a shared sector or a wrong mark."""
        rng = self.rng
        at = self.store[rng.choice(self.lists)]
        kind = rng.randrange(4)
        if kind == 0:
            at[0x0C:0x0E] = bytes([rng.randint(35, 255), rng.randrange(256)])
        elif kind == 1:
            at[0x0C + 2 * 121:0x0E + 2 * 121] = bytes(divmod(rng.choice(self.bodies or self.lists), 16))
        elif kind == 2:
            self.free.add(rng.choice(self.lists + self.bodies))
        else:
            at[0x0C:0x0E] = bytes([17, rng.randrange(16)])

    def sectors(self):
        sectors = [None] * PLACES
        for place, unit in enumerate(self.store):
            sectors[16 * (place // 16) + DOS_TO_PHYSICAL[place % 16]] = bytes(unit)
        return sectors


def sizes(rng, files, room):
    """How many units the bodies of so many files have: with an index each they fit into the room."""
    most = max(1, min(130 if files < 4 else 30, (room - 2 * files) // max(1, files)))
    return [rng.randint(0, most) for _ in range(files)]


def dos_volume(rng, kind):
    data_disk = kind == "data disk"
    volume = DosVolume(rng, data_disk)
    files = rng.choice([rng.randint(0, 3), rng.randint(0, 7), rng.randint(0, 40)])
    if kind != "sound":
        files = max(files, 1)
    slots = 7 * len(volume.chain)
    files = min(files, slots)
    taken = list(range(slots))[:min(slots, files + rng.choice([0, 0, 3]))]
    used = set(sorted(rng.sample(taken, files)))
    bodies = iter(sizes(rng, files, 440))
    for slot in taken:
        if slot in used:
            volume.add(slot, next(bodies))
        else:
            volume.enter(slot, [0xFF, 15, 4], 2)
    if rng.random() < 0.3:
        volume.free.difference_update(rng.sample(sorted(volume.free), min(rng.randint(1, 5), len(volume.free))))
    if kind == "faults":
        for _ in range(rng.randint(1, 3)):
            volume.spoil()
    volume.write_vtoc()
    if kind == "bad link":
        volume.store[VTOC + rng.choice(volume.chain)][1:3] = bytes([rng.choice([17, 99]), 0])
    return volume.sectors()


class ProVolume:
    def __init__(self, rng, blocks):
        self.rng = rng
        stale = rng.random() < 0.5
        self.store = [bytearray(content(rng, BLOCK) if stale else BLOCK) for _ in range(blocks)]
        for block in range(2, 6):
            unit = self.store[block] = bytearray(BLOCK)
            unit[0:2] = (block - 1 if block > 2 else 0).to_bytes(2, "little")
            unit[2:4] = (block + 1 if block < 5 else 0).to_bytes(2, "little")
        self.store[2][4:8] = b"\xF3VOL"
        self.store[2][0x22:0x25] = bytes([0xC3, 39, 13])
        self.store[2][0x27:0x2B] = bytes([6, 0]) + blocks.to_bytes(2, "little")
        self.maps = range(6, 6 + (blocks + 4095) // 4096)
        self.free = set(range(self.maps[-1] + 1, blocks))
        self.places = sorted(self.free)
        if rng.random() < 0.5:
            rng.shuffle(self.places)
        self.slots = [(block, slot) for block in range(2, 6) for slot in range(13)][1:]
        self.used = []
        self.indexes = []
        self.entries = []

    def take(self):
        place = self.places.pop(0)
        self.free.discard(place)
        self.used.append(place)
        return place

    def enter(self, storage, key):
        block, slot = self.slots.pop(0)
        at = 4 + 39 * slot
        self.entries.append((block, at))
        self.store[block][at:at + 2] = bytes([storage << 4 | 1, 0x41])
        self.store[block][at + 0x11:at + 0x13] = key.to_bytes(2, "little")

    def add(self, size):
        """A seedling of no or one unit, else a sapling or a tree."""
        units = [self.take() for _ in range(max(1, size))]
        for unit in units:
            self.store[unit] = bytearray(content(self.rng, BLOCK))
        storage = 1
        if size > 1 or self.rng.random() < 0.1:
            storage, units = 2, [self.index(units)]
        if storage == 2 and self.rng.random() < 0.1:
            storage, units = 3, [self.index(units)]
        self.enter(storage, units[0])

    def index(self, units):
        at = self.take()
        self.indexes.append(at)
        self.store[at] = bytearray(BLOCK)
        for number, unit in enumerate(units):
            self.store[at][number], self.store[at][256 + number] = unit & 255, unit >> 8
        return at

    def directory(self):
        key = self.take()
        self.used.remove(key)
        self.enter(0xD, key)
        unit = self.store[key] = bytearray(BLOCK)
        unit[4:6] = bytes([0xE1, 0x41])
        unit[0x23:0x25] = bytes([39, 13])
        self.slots[:0] = [(key, slot) for slot in range(1, 13)]

    def spoil(self):
        rng = self.rng
        kind = rng.randrange(4)
        at = self.store[rng.choice(self.indexes)] if self.indexes else None
        if kind == 0 and at:
            at[100], at[356] = 0xFF, 0xFF
        elif kind == 1 and at:
            shared = rng.choice(self.used)
            at[101], at[357] = shared & 255, shared >> 8
        elif kind == 2:
            block, entry = self.entries[-1]
            self.store[block][entry] = 0x51
        else:
            self.free.add(rng.choice(self.used))

    def blocks(self):
        for number, block in enumerate(self.maps):
            unit = self.store[block] = bytearray(BLOCK)
            for place in self.free:
                if place // 4096 == number:
                    unit[place % 4096 // 8] |= 0x80 >> place % 8
        return [bytes(unit) for unit in self.store]


def pro_volume(rng, kind, blocks):
    volume = ProVolume(rng, blocks)
    files = min(rng.choice([rng.randint(0, 3), rng.randint(0, 40)]), (blocks - 10) // 4)
    if kind == "faults":
        files = max(files, 1)
    for size in sizes(rng, files, (blocks - 12) // 2):
        if rng.random() < 0.1 and len(volume.places) > 60:
            volume.directory()
        volume.add(size)
    if kind == "faults":
        for _ in range(rng.randint(1, 3)):
            volume.spoil()
    return volume.blocks()


def sectors_of(blocks):
    """The physical sectors of a disk's blocks."""
    stored = [half for block in blocks for half in (block[:SECTOR], block[SECTOR:])]
    return out_of_order(stored, "prodos")


def made(rng):
    """An image: what it was made as, its kind, its sectors or blocks, and its order."""
    kind = rng.choices(["sound", "faults", "data disk", "bad link"], [68, 15, 12, 5])[0]
    if kind in ("data disk", "bad link") or rng.random() < 0.75:
        order = rng.choice(["dos", "prodos", "nibble"])
        return ("dos", order), kind, in_order(dos_volume(rng, kind), order), order
    if rng.random() < 0.2:
        return ("prodos", "prodos"), kind, pro_volume(rng, kind, rng.choice([16, 279, 281, 800, 1600])), "blocks"
    order = rng.choice(["dos", "prodos", "nibble"])
    return ("prodos", order), kind, in_order(sectors_of(pro_volume(rng, kind, BLOCKS)), order), order


def main(count, seed):
    rng = random.Random(seed)
    told = Counter()
    for number in range(count):
        right, kind, stored, order = made(rng)
        ways = readings(stored, order)
        answer = verdict(ways)
        # Of a volume whose own catalog is broken, no reading is the right one to name.
        none = answer == "NONE" and kind == "bad link"
        outcome = "right" if answer == right or none else "ambiguous" if answer == "AMBIGUOUS" else "wrong"
        told[right[0], right[1], kind, outcome] += 1
        if outcome == "wrong":
            print("WRONG", number, right, kind, answer, ways)
        elif outcome == "ambiguous" and "-v" in sys.argv:
            print("ambiguous", number, right, kind, ways)
    print(f"{'made as':16} {'kind':10} {'right':>6} {'ambiguous':>10} {'wrong':>6}")
    for file_system, order, kind in sorted({key[:3] for key in told}):
        row = [told[file_system, order, kind, outcome] for outcome in ("right", "ambiguous", "wrong")]
        print(f"{file_system + ' ' + order:16} {kind:10} {row[0]:6} {row[1]:10} {row[2]:6}")
    total = {outcome: sum(n for key, n in told.items() if key[3] == outcome) for outcome in ("right", "ambiguous", "wrong")}
    print(f"volumes {count} right {total['right']} wrong {total['wrong']}")
    print(f"ambiguous {total['ambiguous']}, at most one in ten: {10 * total['ambiguous'] <= count}")
    return total["wrong"] == 0 and 10 * total["ambiguous"] <= count


if __name__ == "__main__":
    words = [word for word in sys.argv[1:] if word.isdigit()]
    sys.exit(0 if main(int(words[0]) if words else 2000, int(words[1]) if len(words) > 1 else 1) else 1)

#!/usr/bin/env python3
"""What `extract` must tell and make: its status, its text and the tree of its folder, worked out from docs/formats.md alone.

extracts.py WORDS ..

The words are those of the program. The text goes to standard output, and behind it, a line each, the paths of what stands in the folder
with the bytes of each file in hexadecimal; the status is the one that the program must have.
"""

import os
import sys

import looks

PLAIN = set(range(0x20, 0x7F)) - set(b'"%*/:<>?\\|~')
DEVICES = {"CON", "PRN", "AUX", "NUL", "CONIN$", "CONOUT$", *(f"{port}{number}" for port in ("COM", "LPT") for number in range(1, 10))}
# The type of ProDOS for each kind of DOS 3.3.
DOS_TYPES = {0x00: 0x04, 0x01: 0xFA, 0x02: 0xFC, 0x04: 0x06, 0x08: 0xF2, 0x10: 0xFE, 0x20: 0xF3, 0x40: 0xF4}
MOST_DEPTH, MOST_PATH = 64, 1024


# ---- names ----
def dos_piece(byte):
    """What stands in a stem for a byte of a name of DOS 3.3."""
    if byte < 0x20:
        return f"%{byte:02x}"
    if byte < 0x80:
        return f"%7f%{byte:02x}"
    low = byte - 0x80
    if low in PLAIN:
        return chr(low)
    return f"%{low:02x}" if 0x20 <= low <= 0x7E else f"%{byte:02x}"


def pro_piece(byte):
    """What stands in a stem for a byte of a name of ProDOS."""
    return chr(byte) if byte in PLAIN else f"%{byte:02x}"


def stem(file_system, name):
    if file_system == "dos":
        text = "".join(map(dos_piece, name.rstrip(b"\xa0")))
    else:
        text = "".join(map(pro_piece, name))
    return text or "%"


def is_device(name):
    return name.split(".")[0].rstrip(" ").upper() in DEVICES


def escaped(character):
    return f"%{ord(character):02x}"


def safe(name):
    """A name with its first and its last character escaped where no name may have them there, and the first of a device's."""
    if name[0] in ".- ":
        name = escaped(name[0]) + name[1:]
    if name[-1] in ". ":
        name = name[:-1] + escaped(name[-1])
    return escaped(name[0]) + name[1:] if is_device(name) else name


class Names:
    """The names of the entries of one folder, in their order."""

    def __init__(self):
        self.counts = {}

    def next(self, bare, tail):
        """The name of the next entry with a stem and a tail: the second of one name, letters of either case taken as one, has ~2."""
        key = (bare + tail).lower()
        number = self.counts[key] = self.counts.get(key, 0) + 1
        return safe(bare + ("" if number == 1 else f"~{number}") + tail)


# ---- volumes ----
def own_name(volume, entry):
    return entry.raw[3:33] if volume.file_system == "dos" else entry.raw[1:1 + entry.raw[0] % 16]


def folders_above(volume):
    """For each entry the number of the directory's entry in which it stands, or None."""
    return volume.above if volume.file_system == "prodos" else [None] * len(volume.entries)


def type_and_aux(volume, entry, whole):
    """The type and the aux type that the name of a file tells; `whole` is its whole text, or None."""
    if volume.file_system == "prodos":
        return entry.raw[0x10], looks.word(entry.raw, 0x1F)
    kind = entry.raw[2] & 0x7F
    aux = {0x02: 0x0801, 0x04: looks.low_first(whole[:2]) if whole is not None and len(whole) >= 2 else 0}.get(kind, 0)
    return DOS_TYPES.get(kind, 0), aux if kind in DOS_TYPES else kind


class Extraction:
    """What is made of the entries of a volume."""

    def __init__(self, volume, plain, most):
        self.volume, self.plain, self.most = volume, plain, most
        self.tree, self.lines, self.bytes = {}, [], 0
        self.hosts, self.depths, self.names = [], [], {}
        self.counts = {"files": 0, "folders": 0, "unreadable": 0}

    def run(self):
        for entry, above in zip(self.volume.entries, folders_above(self.volume)):
            self.take(entry, above)
        counts = self.counts
        self.lines.append(
            f"EXTRACTED files {counts['files']} folders {counts['folders']} texts 0 unreadable {counts['unreadable']} bytes {self.bytes}")
        return int(counts["unreadable"] > 0), looks.text_of_lines(self.lines), self.tree

    def take(self, entry, above):
        volume = self.volume
        depth = 0 if above is None else self.depths[above] + 1
        if depth > MOST_DEPTH:
            raise looks.Refused("TooDeep")
        directory = volume.is_directory(entry)
        units = None if directory else self.units(entry)
        whole = None if units is None else volume.whole(units)
        tail = "" if directory or self.plain else "#{:02x}{:04x}".format(*type_and_aux(volume, entry, whole))
        name = self.names.setdefault(above, Names()).next(stem(volume.file_system, own_name(volume, entry)), tail)
        host = name if above is None else f"{self.hosts[above]}/{name}"
        if len(host) > MOST_PATH:
            raise looks.Refused("TooDeep")
        self.hosts.append(host)
        self.depths.append(depth)
        self.make(entry, host, directory, units)

    def units(self, entry):
        """The units of a file, or None of one that can't be read."""
        try:
            return self.volume.units_of(entry)
        except (looks.Refused, looks.Unreadable):
            return None

    def make(self, entry, host, directory, units):
        if directory:
            self.tree[host] = None
            self.lines.append(f"FOLDER {host}/")
            self.counts["folders"] += 1
        elif units is None:
            self.lines.append(f"UNREADABLE {host}")
            self.counts["unreadable"] += 1
        else:
            body = bytes(self.volume.body(entry, units))
            self.bytes += len(body)
            if self.bytes > self.most:
                raise looks.Refused("TooLarge")
            self.tree[host] = body
            self.lines.append(f"FILE {len(body)} {host}")
            self.counts["files"] += 1


looks.COMMANDS["extract"] = (1, {"--fs", "--order", "--into", "--names", "--most"}, {"--data-disk"})
looks.VALUES_OF["--names"] = ["naps", "plain"]
looks.LEFT_OUT.add("extract")


class Extracts(looks.Looks):
    """`extract` beside the commands that look at a volume, over images and paths of which it is known what stands there."""

    def __init__(self, content, is_free):
        super().__init__(content)
        self.is_free, self.tree = is_free, None

    def extract(self, path, said):
        if "--into" not in said:
            return 2, None
        image = self.image(path)
        way = self.way(image, said["--fs"], said["--order"])
        if not self.is_free(said["--into"]):
            raise looks.Refused("Folder")
        if not looks.allows(len(image.data), *way):
            raise looks.Refused("Length")
        extraction = Extraction(image.open(*way), said.get("--names") == "plain", said.get("--most", looks.MOST))
        status, text, self.tree = extraction.run()
        return status, text


def is_free(path):
    """Whether a new folder may stand at a path."""
    path = path.rstrip("/")
    if path in ("", ".", "..") or path.endswith(("/.", "/..")) or os.path.islink(path):
        return False
    return not os.path.exists(path) or os.path.isdir(path) and not os.listdir(path)


def main():
    model = Extracts(looks.content, is_free)
    status, text = model.told(sys.argv[1:])
    sys.stdout.buffer.write(text or b"")
    for host, data in (model.tree or {}).items():
        print(f"{host}/" if data is None else f"{host} {data.hex()}")
    sys.exit(status)


if __name__ == "__main__":
    main()

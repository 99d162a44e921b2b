#!/usr/bin/env python3
"""Runs commands on containers and on their payloads, and compares what is told and what is made.

random_containers.py PROGRAM COUNT SEED

The volumes are those of random_looks.py and random_edits.py, in every order. Each stands in a container with a random
shell, whose header now and then names another order than the volume's. What is told of a container is what is told of
its payload, and an image that is handed out, or changed in place, stands in the same shell; docs/formats.md says what
is told where the header or the words forbid that. Random headers, most of them broken, and random wrappings are weighed
against containers.py. Where PROGRAM is `-` the containers are made and read by that alone. The first files of which
something else is told are kept in the folder from which this is run. The last line counts the commands, the headers,
the wrappings and the differences.
"""

import copy
import functools
import os
import random
import shutil
import subprocess
import sys
import tempfile
from typing import NamedTuple

import containers
import looks
import random_edits
import random_extracts
import random_looks

# The command lines. IMAGE is the container or its payload; WAY stands for the words of the file system and the order,
# ORDER for those of the order alone, FREE for those that may be left out; TARGET is a new file, the image or
# `--in-place`. The others are those of random_looks.py, or such as may be left out.
LOOKS = [
    "catalog IMAGE WAY DATA", "check IMAGE WAY DATA RESERVE", "check IMAGE WAY --bodies", "list IMAGE FREE DATA",
    "list IMAGE FREE --format FORM --digests", "map IMAGE FREE RESERVE DATA", "plan IMAGE WAY DATA RESERVE RECLAIM",
    "plan IMAGE WAY --words RECLAIM", "read IMAGE NAME WAY WHOLE", "read IMAGE STORED WAY --stored --out new",
    "read IMAGE NAME WAY --as shown", "verify IMAGE WAY --from from RECLAIM", "identify IMAGE",
    "extract IMAGE FREE --into out --most 3000000", "convert IMAGE ORDER --to TO --out new",
    "convert IMAGE ORDER --to TO --out image"]
CHANGES = [
    "optimize IMAGE WAY DATA RECLAIM TARGET", "optimize IMAGE WAY RECLAIM RESERVE --stop-after FEW TARGET",
    "lock IMAGE NAME WAY TARGET", "unlock IMAGE STORED WAY --stored TARGET", "rename IMAGE NAME NEW WAY TARGET",
    "delete IMAGE NAME WAY DATA TARGET", "save IMAGE NEW WAY --from from TARGET"]
CHANGING = {line.split()[0] for line in CHANGES}
# The words of a line for which something is put once the header is known.
LATER = ("IMAGE", "WAY", "FREE", "ORDER", "TARGET", "NEW", "TO", "RECLAIM", "FEW")


# ---- shells ----
def a_comment(chance):
    """A comment, now and then a long one, or one of other letters than ASCII has."""
    if chance.random() < 0.05:
        letter = chance.choice("A\u00e9\U0001f34e")
        return letter * (chance.choice([65_472, 65_473, 65_476]) // len(letter.encode("utf-8")))
    letters = chance.choice(["Side A", "\u00e9\u20ac\U0001f34e\t\n x"])
    return "".join(chance.choice(letters) for _ in range(chance.choice([0, 1, 6, chance.randrange(200)])))


def a_container(chance, order, payload):
    """A container of a payload with a random shell; the length of the data is left out where it may be."""
    size = chance.choice([64, 64, 64, 52])
    gap = chance.choice([0, 0, 0, 1, 12, 448, chance.randrange(3000)])
    behind = [chance.randbytes(chance.choice([0, 0, 1, 30, chance.randrange(1000)])) for _ in range(3)]
    end = size + gap + len(payload)
    kind = containers.ORDERS.index(order)
    flags = chance.choice([0, 0, containers.HAS_VOLUME | chance.randrange(256), chance.randrange(1 << 31)])
    anywhere = chance.randrange(1 << 32)
    fields = containers.Fields(
        creator=chance.choice([b"A2SH", b"XGS!", b"CdrP", chance.randbytes(4)]), size=size,
        version=chance.choice([1, 1, 0, 65_535]), format=kind,
        flags=flags | (containers.PROTECTED if chance.random() < 0.12 else 0),
        blocks=len(payload) // looks.BLOCK if kind == 1 else chance.choice([0, 0, 280]), offset=size + gap,
        length=chance.choice([len(payload), len(payload), 0]), comment=chance.choice([end, 0, anywhere]),
        comment_length=len(behind[0]), own=chance.choice([end + len(behind[0]), 0, anywhere]),
        own_length=chance.choice([len(behind[1]), anywhere]), reserved=chance.choice([bytes(16), chance.randbytes(16)]))
    return fields.header()[:size] + chance.randbytes(gap) + payload + b"".join(behind)


def payload_of(data, image):
    """The payload of what was made around an image; the image itself where that is no container."""
    return image if containers.fault(data) is not None else containers.container_of(data).payload


# ---- random headers ----
BYTES = random.Random(5).randbytes(looks.TRACKS_LENGTH + 2000)
EDGES = [(1 << 31) - 1, 1 << 31, (1 << 32) - 1]
SIZES = [0, 51, 52, 53, 63, 64, 65, 128, 320, 0x3400, 0x4000, 0x4040, 65_535]
FORMATS = [0, 1, 2, 3, 255, 256, 257, 65_536, 1 << 24, *EDGES]
BLOCKS = [0, 1, 15, 16, 17, 279, 280, 455, 65_535, 65_536, 1 << 23, (1 << 23) + 16, (1 << 23) + 280, *EDGES]
LENGTHS = [0, 1, 512, 8191, 8192, 8193, looks.DISK_LENGTH - 1, looks.DISK_LENGTH, looks.TRACKS_LENGTH, *EDGES]
MAGICS = [b"2IMg", b"2img", b"GMI2", b"2IM\0", b"\0IMG"]


def spoiled(chance, fields, total):
    """A header of which a field has another value; `total` is how many bytes the file has."""
    if chance.random() < 0.05:
        return fields._replace(magic=chance.choice(MAGICS))
    # Where the data reach just to the end of the file, and where the end of the data wraps around.
    last, around = total - fields.length, (1 << 32) - fields.length
    offsets = [*SIZES[:7], fields.size, total, last, last + 1, around, around + 64, (1 << 32) - 64, *EDGES]
    last, around = total - fields.offset, (1 << 32) - fields.offset
    lengths = [*LENGTHS, last, last + 1, last - 1, around, around + 64]
    values = {"size": SIZES, "format": FORMATS, "blocks": BLOCKS, "offset": offsets, "length": lengths}
    name = chance.choice(["size", "format", "blocks", "offset", "offset", "length", "length"])
    return fields._replace(**{name: max(0, chance.choice(values[name])) % (1 << 32)})


def a_file(chance):
    """A file that begins as a container does, or nearly; most have something that is wrong with them."""
    kind = chance.choice([0, 1, 1, 1, 1, 2])
    blocks = chance.choice([16, 16, 16, 17, 15, 280, 455])
    length = containers.LENGTHS.get(kind, looks.BLOCK * blocks)
    size, gap, behind = chance.choice([64, 52]), chance.choice([0, 0, 1, 12, 500]), chance.choice([0, 0, 1, 100, 512])
    fields = containers.Fields(
        creator=chance.randbytes(4), size=size, version=chance.choice([0, 1]), format=kind,
        flags=chance.randrange(1 << 32), blocks=blocks if kind == 1 else 0, offset=size + gap,
        length=chance.choice([length, length, 0]))
    for _ in range(chance.choice([0, 1, 1, 1, 2, 3])):
        fields = spoiled(chance, fields, size + gap + length + behind)
    data = fields.header()[:size] + BYTES[:gap + length + behind]
    if chance.random() < 0.15:
        ends = [0, 3, 4, 8, 9, 10, 51, 52, 53, 63, 64, 65, len(data) - 1, len(data) - behind - 1]
        return data[:chance.choice(ends)]
    return data


# ---- volumes ----
@functools.lru_cache
def shelf(file_system, size):
    """A volume of random_edits.py, before its first edit."""
    return (random_edits.DosVolume if file_system == "dos" else random_edits.ProVolume)(size)


def tracks_of(image, file_system):
    """An image in the order of its file system as made tracks."""
    offsets = {number: looks.SECTOR * index for index, number in enumerate(looks.PHYSICAL[file_system])}
    fields = []
    for number in range(looks.PLACES):
        sector = bytes(image[offsets[number]:offsets[number] + looks.SECTOR])
        fields.append(random_looks.address_of(254, *divmod(number, 16)) + random_looks.data_of(sector))
    tracks = (b"\xFF" * 48 + b"".join(fields[at:at + 16]) for at in range(0, looks.PLACES, 16))
    return b"".join(track[:looks.TRACK].ljust(looks.TRACK, b"\xFF") for track in tracks)


def in_order(image, file_system, order):
    """An image in the order of its file system as one in another order."""
    if order == file_system:
        return bytes(image)
    if order == "nibble":
        return tracks_of(image, file_system)
    return bytes(random_looks.reordered(image, file_system, order))


class Edited:
    """A volume of random_edits.py after some edits, and the next one."""

    def __init__(self, chance):
        self.chance = chance
        self.file_system = chance.choice(["dos", "prodos"])
        size = chance.choice(["shelf", "shelf", "crowded"])
        if self.file_system == "prodos" and chance.random() < 0.05:
            size = "large"
        edits = random_edits.Trial("", self.file_system, self.file_system, "shelf")
        self.volume = edits.volume = copy.deepcopy(shelf(self.file_system, size))
        for _ in range(chance.randrange(4)):
            edits.wanted(*random_edits.an_edit(chance, self.volume))
        orders = ["dos", "prodos", "nibble"] if len(self.volume.image) == looks.DISK_LENGTH else ["prodos"]
        self.order = chance.choice([self.file_system, self.file_system, *orders])
        self.image = in_order(self.volume.image, self.file_system, self.order)

    def words(self):
        """The words of the next edit, and the bytes of the file that is saved."""
        edit, path, new = random_edits.an_edit(self.chance, self.volume)
        if edit == "save":
            return [edit, "IMAGE", path, "WAY", "--from", "from", *new.words(), "TARGET"], new.content()
        return [edit, "IMAGE", path, *([new] if edit == "rename" else []), "WAY", "TARGET"], b""


class Looked:
    """A volume of random_looks.py, and a line of those of the tables."""

    def __init__(self, chance):
        self.chance = chance
        self.maker = random_looks.made_volume(chance)
        self.file_system = self.maker.file_system
        self.image, self.order = random_looks.image_of(self.maker, chance)

    def words(self):
        """The words of a line, of which those that wait for the header stay; and the bytes of a file to save."""
        model = looks.Looks(lambda path: random_looks.image_at({"image": self.image}, path))
        words = random_looks.Words(self.chance, self.maker, self.order, self.order, model)
        line = self.chance.choice(self.chance.choice([LOOKS, CHANGES]))
        meanings = [[item] if item in LATER else words.meaning(item) for item in line.split()]
        return [word for meaning in meanings for word in meaning], BYTES[:self.chance.choice([0, 3, 700, 9000])]


# ---- commands ----
class Way(NamedTuple):
    """Words for a file system and an order: those for the payload and those for the container, and what is found."""

    plain: list
    held: list
    file_system: str
    auto: bool


def a_way(chance, file_system, order, kind):
    """A random way of a kind: WAY, FREE or ORDER; `order` is that of the header."""
    other = "prodos" if file_system == "dos" else "dos"
    said = "auto" if kind == "ORDER" else chance.choice([file_system] * 18 + [other, "auto"])
    front = [] if kind == "ORDER" else ["--fs", said]
    if chance.random() < 0.05:
        return Way(["--auto", "--order", order], ["--auto", "--order", "2img"], "auto", False)
    if chance.random() < 0.65:
        held = chance.choice([["--order", "2img"], ["--order=2img"]])
        return Way([*front, "--order", order], [*front, *held], said, False)
    ways = [["--auto"], [*front, "--auto"], [*front, "--order", "auto"], [*front, "--order", "auto"]]
    words = chance.choice(ways if kind != "FREE" else [*ways, [], [], front])
    return Way(words, words, said if "--fs" in words else "auto", True)


class Command(NamedTuple):
    """A command: its words with WAY for the file system and the order, the way, and the files beside the image."""

    words: list
    way: Way
    files: dict

    def of(self, way):
        """The words in a way."""
        return [word for item in self.words for word in (way if item == "WAY" else [item])]

    def is_over_image(self):
        """Whether it is a conversion whose new image takes the place of the old one."""
        return self.words[0] == "convert" and self.words[-1] == "image"

    def changes(self):
        """Whether the command would change the payload."""
        return self.words[0] in CHANGING or self.is_over_image()


def a_command(chance, volume, order):
    """A command on a volume in a container whose header names an order."""
    items, data = volume.words()
    kinds = [item for item in items if item in ("WAY", "FREE", "ORDER")]
    way = a_way(chance, volume.file_system, order, kinds[0]) if kinds else Way([], [], "auto", False)
    meanings = {
        "IMAGE": ["image"], "FREE": ["WAY"], "ORDER": ["WAY"], "NEW": [chance.choice(["NEW", "N" * 15, "A", ""])],
        "TO": [chance.choice(["dos", "prodos", "nibble"])],
        "RECLAIM": chance.choice([[], ["--reclaim"], ["--reclaim"]]),
        "TARGET": chance.choice([["--out", "new"], ["--out", "image"], ["--in-place"], ["--in-place"]]),
        "FEW": [str(chance.randrange(12))]}
    words = [word for item in items for word in meanings.get(item, [item])]
    return Command(words, way, {"from": data} if "from" in words else {})


# ---- answers ----
class Answer(NamedTuple):
    """What a command told, and what stood in its folder then."""

    status: int
    text: bytes
    errors: bytes
    files: dict


def refused(word, files):
    return Answer(3, f"REFUSED {word}\n".encode("ascii"), b"", files)


def has_other_order(container, file_system):
    """Whether the best reading of the payload has another order than the header says."""
    try:
        return looks.Image(container.payload).best(file_system, "auto")[1] != container.order
    except looks.Refused:
        return False


def made_of(container, command, plain):
    """The files that the command makes, or leaves, with the container in the place of its payload."""
    files = dict(plain.files)
    if plain.status != 0 or not command.is_over_image():
        files["image"] = container.around(files["image"])
    if command.changes() and "new" in files:
        files["new"] = container.around(files["new"])
    return files


def wanted(data, command, plain):
    """What is to be told of a file and made of it, by what was told of its payload and made of that."""
    before = {**command.files, "image": data}
    if plain.status == 2:
        return plain._replace(files=before)
    word = containers.fault(data)
    if word is not None:
        return refused(f"Container {word}", before)
    container = containers.container_of(data)
    if command.changes() and container.protected:
        return refused("Protected", before)
    if command.way.auto and has_other_order(container, command.way.file_system):
        return refused("Ambiguous", before)
    text = plain.text
    if command.words[0] == "identify":
        said = "yes" if container.protected else "no"
        line = f"2IMG order {container.order} bytes {len(container.payload)} protected {said}\n"
        text = line.encode("ascii") + text
    return Answer(plain.status, text, plain.errors, made_of(container, command, plain))


# ---- comparisons ----
class Pair(NamedTuple):
    """Two images of a comparison: each without and with its shell, and the order that it has or its header names."""

    plain: list
    held: list
    orders: list


def a_pair(chance, maker, in_shells):
    """A volume and another that is mostly like it; each stands in a shell or not."""
    images = [random_looks.image_of(maker, chance)]
    for _ in range(chance.choice([0, 0, 1, 2])):
        maker.change()
    images.append(random_looks.image_of(maker, chance))
    held = [
        a_container(chance, order, image) if in_shell else image
        for (image, order), in_shell in zip(images, in_shells)]
    plain = [
        payload_of(data, image) if in_shell else image
        for data, (image, _), in_shell in zip(held, images, in_shells)]
    return Pair(plain, held, [order for _, order in images])


def wrong_by_auto(pair, number, file_system):
    """What is refused of an image of a pair whose order is found, before its volume is looked at, or None."""
    if not pair.held[number].startswith(containers.MAGIC):
        return None
    word = containers.fault(pair.held[number])
    if word is not None:
        return f"Container {word}"
    return "Ambiguous" if has_other_order(containers.container_of(pair.held[number]), file_system) else None


def wanted_by_auto(pair, file_system, plain, files):
    """What is to be told of a pair whose orders are found."""
    wrong = wrong_by_auto(pair, 0, file_system)
    if wrong is not None:
        return refused(f"{wrong} 1", files)
    if plain.text in (b"REFUSED Ambiguous 1\n", b"REFUSED Unknown 1\n"):
        return plain._replace(files=files)
    way = looks.Image(pair.plain[0]).best(file_system, "auto")
    wrong = wrong_by_auto(pair, 1, way[0])
    return plain._replace(files=files) if wrong is None else refused(f"{wrong} 2", files)


def wanted_by_headers(pair, plain, files):
    """What is to be told of a pair of which the first is a container, and the other where its order is not said."""
    for number, (image, held) in enumerate(zip(pair.plain, pair.held), 1):
        word = containers.fault(held) if number == 1 or image != held else None
        if word is not None:
            return refused(f"Container {word} {number}", files)
    return plain._replace(files=files)


# ---- wrappings ----
def wanted_of_wrap(image, order, comment, volume, protect):
    """What is to be told of a wrapping, and made by it; of words that are refused no text."""
    files = {"image": image}
    if len(comment) > containers.MOST_COMMENT or volume == 256:
        return Answer(2, b"", b"", files)
    if order == "auto":
        if image.startswith(containers.MAGIC):
            return refused("Length", files)
        try:
            order = looks.Image(image).best("auto", "auto")[1]
        except looks.Refused as word:
            return refused(word, files)
    if not containers.allows(order, len(image)):
        return refused("Length", files)
    return Answer(0, b"OK\n", b"", {**files, "new": containers.wrapped(order, image, comment, volume, protect)})


def check_wrapped(asked, order, image, protect):
    """What is wrapped is a container, whose payload is the image."""
    if asked.status != 0:
        return
    container = containers.container_of(asked.files["new"])
    assert (container.payload, container.protected) == (image, protect) and order in ("auto", container.order)


# ---- trials ----
def put(path, data):
    with open(path, "wb") as file:
        file.write(data)


class Trial:
    """The program, and what was counted."""

    def __init__(self, program, chance):
        self.program, self.chance = program, chance
        self.commands = self.headers = self.wraps = self.differences = 0

    def told(self, words, files):
        """What the program tells in a folder with these files, and what stands there then."""
        shutil.rmtree("room", ignore_errors=True)
        os.mkdir("room")
        for name, data in files.items():
            put(os.path.join("room", name), data)
        done = subprocess.run(
            [self.program, *words], cwd="room", stdin=subprocess.DEVNULL, capture_output=True, check=False,
            close_fds=False)
        return Answer(done.returncode, done.stdout, done.stderr, random_extracts.tree_of("room"))

    def differ(self, words, asked, found, data):
        """Counts a difference, tells the first ones, and keeps their files."""
        if asked == found:
            return
        self.differences += 1
        if self.differences > 20:
            return
        number = self.differences
        told = [random_looks.short(answer[:3]) for answer in (asked, found)]
        names = sorted({*asked.files, *found.files})
        others = [name for name in names if asked.files.get(name) != found.files.get(name)]
        print(f"difference {number}: {' '.join(words):.300}\n  wanted {told[0]}\n  told   {told[1]}", flush=True)
        print(f"  other files: {' '.join(others)}", flush=True)
        put(os.path.join(KEPT, f"container.{number}"), data)

    def command(self):
        """A command on a container."""
        chance = self.chance
        volume = (Looked if chance.random() < 0.65 else Edited)(chance)
        orders = [order for order in containers.ORDERS if containers.allows(order, len(volume.image))]
        order = volume.order if chance.random() < 0.85 or not orders else chance.choice(orders)
        data = a_container(chance, order, volume.image)
        command = a_command(chance, volume, order)
        self.commands += 1
        if self.program is not None:
            self.weigh(command, data, payload_of(data, volume.image))

    def weigh(self, command, data, payload):
        """Compares a command on a container and on its payload."""
        if command.words[0] == "verify":
            words = [word for word in command.of(command.way.plain)[1:] if word not in ("--from", "from")]
            command.files["from"] = self.told(["plan", *words], {"image": payload}).text
        plain = self.told(command.of(command.way.plain), {**command.files, "image": payload})
        words = command.of(command.way.held)
        found = self.told(words, {**command.files, "image": data})
        self.differ(words, wanted(data, command, plain), found, data)

    def compare(self):
        """A comparison of two images, of which one is a container or both are."""
        chance = self.chance
        maker, auto = random_looks.made_volume(chance), chance.random() < 0.4
        pair = a_pair(chance, maker, [not auto or chance.random() < 0.7, chance.random() < 0.6])
        said = ["--fs", maker.file_system]
        if auto:
            said = chance.choice([said, []])
            plain_words = words = [*said, *chance.choice([[], ["--order", "auto"], ["--auto"]])]
        else:
            other = ["--other-order", pair.orders[1]]
            plain_words = [*said, "--order", pair.orders[0], *other]
            words = [*said, "--order", "2img", *(other if pair.held[1] == pair.plain[1] else [])]
        self.commands += 1
        if self.program is None:
            return
        files = dict(zip(["image", "other"], pair.held))
        plain = self.told(["compare", "image", "other", *plain_words], dict(zip(["image", "other"], pair.plain)))
        file_system = maker.file_system if said else "auto"
        asked = wanted_by_auto(pair, file_system, plain, files) if auto else wanted_by_headers(pair, plain, files)
        words = ["compare", "image", "other", *words]
        self.differ(words, asked, self.told(words, files), pair.held[0])

    def header(self):
        """A random header: what is in it, or the fault that is told of it."""
        data = a_file(self.chance)
        self.headers += 1
        word = containers.fault(data)
        if word is None:
            container = containers.container_of(data)
            assert container.around(container.payload) == data
            asked = Answer(0, b"OK\n", b"", {"image": data, "new": container.payload})
        else:
            asked = refused(f"Container {word}", {"image": data})
        words = ["unwrap", "image", "--out", "new"]
        if word is not None and self.chance.random() < 0.4:
            words = self.chance.choice(BY_HEADER if word == "Magic" else BY_HEADER + BY_AUTO).split()
        if self.program is not None:
            self.differ(words, asked, self.told(words, {"image": data}), data)

    def wrap(self):
        """An image that is put into a container."""
        chance, looked = self.chance, Looked(self.chance)
        image = looked.image if chance.random() < 0.95 else a_container(chance, looked.order, looked.image)
        order = chance.choice([looked.order, looked.order, *containers.ORDERS, "auto"])
        words = ["--order", order] if order != "auto" else chance.choice([[], ["--order", "auto"], ["--auto"]])
        comment, volume = a_comment(chance), chance.choice([None, None, 0, 1, 254, 255, 256])
        protect = chance.random() < 0.3
        words += [f"--comment={comment}"] if comment or chance.random() < 0.1 else []
        words += ([] if volume is None else ["--volume", str(volume)]) + (["--protect"] if protect else [])
        self.wraps += 1
        asked = wanted_of_wrap(image, order, comment.encode("utf-8"), volume, protect)
        if self.program is None:
            check_wrapped(asked, order, image, protect)
            return
        words = ["wrap", "image", *words, "--out", "new"]
        found = self.told(words, {"image": image})
        self.differ(words, asked, found._replace(text=b"") if asked.status == found.status == 2 else found, image)


# Command lines that look at a header: by the word that says so, and by what the file begins with.
BY_HEADER = ["check image --fs dos --order 2img", "lock image A --auto --order=2img --in-place"]
BY_AUTO = ["identify image", "list image", "convert image --auto --to dos --out new"]


def main():
    program, count, seed = sys.argv[1:]
    program = None if program == "-" else os.path.abspath(program)
    trial = Trial(program, random.Random(f"{seed} containers"))
    kinds = [trial.command] * 8 + [trial.compare, trial.wrap]
    with tempfile.TemporaryDirectory() as folder:
        os.chdir(folder)
        for _ in range(int(count)):
            trial.chance.choice(kinds)()
            trial.header()
        os.chdir(KEPT)
    counts = f"{trial.commands} commands, {trial.headers} headers, {trial.wraps} wrappings"
    print(f"{counts}, {trial.differences} differences")
    sys.exit(trial.differences != 0)


KEPT = os.getcwd()

if __name__ == "__main__":
    main()

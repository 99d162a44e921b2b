#!/usr/bin/env python3
"""Extracts the files of random volumes, and compares the text, the status and the folder with what `extracts.py` works out.

random_extracts.py PROGRAM COUNT SEED

Volumes are those of `random_looks.py`: of both file systems, in every order, damaged and hostile ones; names of their entries are written
over so that they meet in one folder. The last line counts the volumes and the differences.
"""

import os
import random
import shutil
import subprocess
import sys
import tempfile

import extracts
import looks
import random_looks

WORDS = [
    b"CON", b"con.x", b"Aux", b"LPT1.TXT", b"COM9", b"NUL ", b".", b"..", b"../UP", b"/ETC", b"A/B", b"A", b"a", b"A#060300", b"-RF", b" A", b"A ",
    b"A.", b"A~2", b"CONIN$", b"%41", b"~", b"", b"A:B", b"HELLO", b"hello", b"HELLO~2"]


def write_names(maker, chance):
    """Writes over the names of some entries by words of which many meet."""
    words = chance.sample(WORDS, chance.randrange(1, 5))
    for at, most in places_of_names(maker):
        if chance.random() < 0.5:
            continue
        name = chance.choice(words)[:most]
        if maker.file_system == "dos":
            high = chance.choice([0x80, 0x80, 0x80, 0x00])
            maker.image[at:at + 30] = bytes(byte | high for byte in name).ljust(30, b"\xa0")
        elif name:
            maker.image[at] = maker.image[at] & 0xF0 | len(name)
            maker.image[at + 1:at + 1 + len(name)] = name


def places_of_names(maker):
    """Where the names of the entries in use stand in the image, and how long they may be."""
    image = maker.image
    if maker.file_system == "dos":
        units = [looks.SECTOR * (looks.VTOC + sector) for sector in range(1, 16)]
        return [(at + 3, 30) for unit in units for at in range(unit + 0x0B, unit + 256, 35) if image[at] not in (0x00, 0xFF)]
    volume = looks.Image(image).volume("prodos", "prodos")
    if not isinstance(volume, looks.Volume):
        return []
    slots = [looks.BLOCK * block + 4 + 39 * slot for block in volume.blocks for slot in range(13)]
    return [(at, 15) for at in slots if 1 <= image[at] >> 4 <= 0xD]


def tree_of(folder):
    """What stands in a folder: the bytes of each file by its path, None of a folder."""
    tree = {}
    for above, folders, files in os.walk(folder):
        for name in folders:
            tree[os.path.relpath(os.path.join(above, name), folder)] = None
        for name in files:
            path = os.path.join(above, name)
            with open(path, "rb") as file:
                tree[os.path.relpath(path, folder)] = file.read()
    return tree


def words_of(maker, order, chance):
    """The words of a command line for a volume."""
    if chance.random() < 0.06:
        way = []
    else:
        way = ["--fs", maker.file_system if chance.random() < 0.96 else "auto", "--order", order if chance.random() < 0.92 else chance.choice(looks.ORDERS)]
    names = chance.choice([[], [], ["--names", "naps"], ["--names", "plain"]])
    few = ["--most", str(chance.choice([0, 1, 3000, 100_000, looks.MOST_NUMBER]))] if chance.random() < 0.15 else []
    likely = 0.9 if getattr(maker, "data_disk", False) else 0.1
    data = ["--data-disk"] if chance.random() < likely else []
    return ["extract", "image", *way, "--into", chance.choice(["out", "out", "out/"]), *names, *few, *data]


def standing(chance):
    """Lets something stand at the folder's path, or nothing."""
    kind = chance.random()
    if kind < 0.1:
        os.mkdir("out")
    elif kind < 0.13:
        os.mkdir("out")
        open("out/kept", "wb").close()
    elif kind < 0.15:
        open("out", "wb").close()
    elif kind < 0.17:
        os.symlink("elsewhere", "out")


def listed(folder):
    return sorted((name, os.path.islink(os.path.join(folder, name))) for name in os.listdir(folder))


def trial(program, chance):
    """One volume: None, or what is wrong."""
    maker = random_looks.made_volume(chance)
    if chance.random() < 0.7:
        write_names(maker, chance)
    image, order = random_looks.image_of(maker, chance)
    with open("image", "wb") as file:
        file.write(image)
    standing(chance)
    words = words_of(maker, order, chance)
    before, kept = listed("."), tree_of("out") if os.path.isdir("out") and not os.path.islink("out") else None
    model = extracts.Extracts(looks.content, extracts.is_free)
    wanted = model.told(words)
    done = subprocess.run([program, *words], stdin=subprocess.DEVNULL, capture_output=True, check=False)
    told = done.returncode, done.stdout
    if done.stderr or told[0] != wanted[0] or wanted[1] is not None and told[1] != wanted[1]:
        return words, wanted, told, done.stderr
    if model.tree is None:
        left = tree_of("out") if kept is not None else None
        return None if listed(".") == before and left == kept else (words, "something was left", listed("."))
    if set(listed(".")) != {*before, ("out", False)}:
        return words, "something else was left", listed(".")
    tree = tree_of("out")
    if tree != model.tree:
        return words, "another tree", sorted(tree.keys() ^ model.tree.keys())[:5]
    names = [name.lower() for name in tree]
    return None if len(set(names)) == len(names) else (words, "two names are alike", names)


def main():
    program, count, seed = os.path.abspath(sys.argv[1]), int(sys.argv[2]), sys.argv[3]
    chance = random.Random(f"{seed} extracts")
    kept = os.getcwd()
    differences = files = 0
    for number in range(count):
        with tempfile.TemporaryDirectory() as folder:
            os.chdir(folder)
            wrong = trial(program, chance)
            files += len(tree_of("out")) if os.path.isdir("out") else 0
            if wrong:
                differences += 1
                if differences <= 20:
                    print(f"volume {number}: {random_looks.short(wrong)}", flush=True)
                    shutil.copy("image", os.path.join(kept, f"image.{number}"))
            os.chdir(kept)
    print(f"{count} volumes, {files} files and folders, {differences} differences")
    sys.exit(differences != 0)


if __name__ == "__main__":
    main()

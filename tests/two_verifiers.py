#!/usr/bin/env python3
"""Weighs certificates of a volume, true and spoilt, by `a2shop verify` and by tools/verify_certificate.py: both say the same.

two_verifiers.py PROGRAM COUNT SEED IMAGE WORDS..
"""

import os
import random
import subprocess
import sys

sys.path.insert(0, os.path.join(os.path.dirname(os.path.abspath(__file__)), "..", "tools"))
import verify_certificate

NUMBERS = ["0", "1", "2", "3", "00", "01", "7", "495", "496", "497", "560", "4294967295", "4294967296", "99999999999", "-1", "x", ""]
LINES = ["A2CERT 1", "PARTS 2 PLACES 496", "AT 0", "OFF 0", "RING 0 1", "RING 1", "RING", "BOUND 0", "MOVE 0 0", "MOVE 1", "END", "", "end", "OFF  1"]


def other_number(random, line):
    words = line.split(" ")
    at = random.randrange(len(words))
    words[at] = random.choice(NUMBERS + words)
    return " ".join(words)


def spoilt(random, text):
    """The text with one to three changes to its lines."""
    lines = text.split("\n")
    for _ in range(random.randint(1, 3)):
        at = random.randrange(len(lines))
        lines[at:at + 1] = random.choice([
            [],
            [lines[at], lines[at]],
            [other_number(random, lines[at])],
            [other_number(random, lines[at])],
            [random.choice(LINES), lines[at]],
            [lines[at] + random.choice([" ", "\r", " 0"])],
            [random.choice(lines)],
        ])
        other = random.randrange(len(lines)) if lines else 0
        if lines and random.random() < 0.2:
            at = random.randrange(len(lines))
            lines[at], lines[other] = lines[other], lines[at]
    return "\n".join(lines)[:random.choice([None, None, None, -1])]


def main(program, count, seed, image, *words):
    chance = random.Random(int(seed))
    true = subprocess.run([program, "plan", image, *words], capture_output=True, text=True, check=True).stdout
    differ, yes = 0, 0
    for number in range(int(count)):
        text = true if number % 10 == 0 else spoilt(chance, true)
        with open("certificate", "w", encoding="latin-1", newline="") as file:
            file.write(text)
        ran = subprocess.run([program, "verify", image, *words, "--from", "certificate"], capture_output=True, text=True)
        wanted = verify_certificate.answer(text, true)
        yes += wanted[1] == 0
        if (ran.stdout, ran.returncode) != wanted:
            differ += 1
            print(f"number {number} of seed {seed}: {ran.stdout!r} and {wanted[0]!r}")
    if not yes or yes == int(count):
        print("the certificates were not both true and spoilt")
        differ += 1
    sys.exit(1 if differ else 0)


if __name__ == "__main__":
    main(*sys.argv[1:])

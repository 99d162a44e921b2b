#!/usr/bin/env python3
"""Runs the examples of the README, in a folder with the program and the samples, and compares what they print.

readme.py README FOLDER
"""

import re
import subprocess
import sys


def examples(text):
    """Each command of a block that begins with `$ `, and what the README says that it prints."""
    for block in re.findall(r"^```\n(\$ .*?)^```$", text, re.M | re.S):
        for example in re.split(r"^\$ ", block, flags=re.M)[1:]:
            command, _, printed = example.partition("\n")
            yield command, printed


def main(readme, folder):
    with open(readme, encoding="utf-8") as file:
        found = list(examples(file.read()))
    for command, wanted in found:
        ran = subprocess.run(["bash", "-c", command], cwd=folder, capture_output=True, text=True)
        if (ran.stdout, ran.stderr, ran.returncode) != (wanted, "", 0):
            print(f"{command}: status {ran.returncode}, {ran.stdout!r} {ran.stderr!r}")
    if len(found) < 5:
        print(f"{len(found)} examples")


if __name__ == "__main__":
    main(*sys.argv[1:])

#!/usr/bin/env python3
"""Shows the program at work on the samples without its proof: the toolchain's trial run compiles it once, with checks at run time, and
keeps no program. Each command line is printed as a user would type it, and behind it what the program answered, as soon as it has.

The status is 0 where each command line ended with its status, those that the README shows printed what stands there, and the listing
from standard input is the one that `rt ci` wants.
"""

import os
import re
import shutil
import subprocess
import sys
import tempfile

from readme import examples

TOP = os.path.dirname(os.path.dirname(os.path.abspath(__file__)))
CRATE = f"{TOP}/crates/shop_program"
# The status that is wanted, and the command line. Each program has a folder of its own, with the samples and the copy as they are here,
# so none finds what another wrote.
LINES = (
    (0, "./a2shop catalog - --auto < samples/hello.dsk"),
    (0, "./a2shop identify samples/work.po"),
    (0, "./a2shop catalog samples/work.po --auto"),
    (0, "./a2shop check samples/work.po --auto"),
    (0, "./a2shop plan samples/hello.dsk --auto --words"),
    (0, "./a2shop optimize copy.dsk --auto --out copy.dsk"),
    (3, "./a2shop check samples/letter.txt --auto"),
)
COPY, COPIED = "copy.dsk", "samples/hello.dsk"
# The README is to show at least so many of them.
IN_README = 3
BEFORE = """a2shop on samples, compiled with checks at run time and NOT proved; to prove it and build it: make
The first answer takes a minute or two."""
BEHIND = """
That was a2shop compiled with checks at run time and NOT proved, and it is not kept; to prove it and build it: make"""


def text_of(path):
    with open(path, encoding="utf-8", errors="replace") as file:
        return file.read()


def write_case(folder, number, line):
    """Writes a command line as a case of the trial run: a file that is its standard input, and one of its words."""
    words, _, given = line.partition(" < ")
    shutil.copyfile(f"{TOP}/{given}" if given else os.devnull, f"{folder}/{number:02}")
    with open(f"{folder}/{number:02}.args", "w", encoding="utf-8") as file:
        file.write("".join(f"{word}\n" for word in words.split()[1:]))


def trial(cases):
    """The command of a trial run of these cases. The interpreter gets one step, since it can't run what reads arguments."""
    samples = [f"samples/{name}" for name in sorted(os.listdir(f"{TOP}/samples"))]
    data = [f"{name}={TOP}/{name}" for name in samples] + [f"{COPY}={TOP}/{COPIED}"]
    return ["rt", "try", "--steps", "1", "--cases", cases, *[word for it in data for word in ("--data", it)]]


def answer_of(number, printed):
    """What the program printed for a case, in all that the trial run has printed."""
    found = re.search(rf"^== {number:02}\n(.*?)(?=^== \d\d$|\Z)", printed, re.M | re.S)
    return found[1] if found else ""


def show(line, answer):
    if COPY in line:
        print(f"\n$ cp {COPIED} {COPY}", end="")
    print(f"\n$ {line}\n{answer}", end="", flush=True)


def wrong_of(number, ended, answer, wanted):
    """What is wrong with how a case ended, and with its answer."""
    status, line = LINES[number]
    if not ended.startswith(f"run=ended status={status} "):
        yield f"{line}: status {status} is wanted, and not {ended.strip()}"
    if answer != wanted.get(line, answer):
        yield f"{line}: this was to be printed:\n{wanted[line]}"


def follow(errors, printed, wanted):
    """Shows each command line once its case has ended, and returns what is wrong with them."""
    count, wrong, said = 0, [], ""
    for told in errors:
        found = re.match(r"case=(\d\d) (.*)", told)
        if found:
            number = int(found[1])
            answer = answer_of(number, text_of(printed))
            show(LINES[number][1], answer)
            wrong += wrong_of(number, found[2], answer, wanted)
            count += 1
        else:
            said += told
    if count != len(LINES):
        wrong.append(f"{count} of {len(LINES)} command lines were run; the trial run says:\n{said}")
    return wrong


def run(folder):
    """Runs all command lines, and returns what is wrong."""
    cases, printed = f"{folder}/cases", f"{folder}/printed"
    os.mkdir(cases)
    for number, (_, line) in enumerate(LINES):
        write_case(cases, number, line)
    readme = dict(examples(text_of(f"{TOP}/README.md")))
    wanted = {**readme, LINES[0][1]: text_of(f"{CRATE}/stdout")}
    how = {"cwd": CRATE, "stdin": subprocess.DEVNULL, "stderr": subprocess.PIPE, "text": True, "errors": "replace"}
    with open(printed, "wb") as out, subprocess.Popen(trial(cases), stdout=out, **how) as started:
        wrong = follow(started.stderr, printed, wanted)
    if started.returncode and not wrong:
        wrong.append(f"the trial run ended with status {started.returncode}")
    in_readme = sum(line in readme for _, line in LINES)
    if in_readme < IN_README:
        wrong.append(f"the README shows {in_readme} of the command lines")
    return wrong


def main():
    if not shutil.which("rt"):
        sys.exit("there is no command rt: see README.md, \"What you need\"")
    print(BEFORE, flush=True)
    with tempfile.TemporaryDirectory(prefix="a2shop-demo-") as folder:
        wrong = run(folder)
    print(BEHIND)
    for it in wrong:
        print(f"FAILED {it}")
    return 1 if wrong else 0


if __name__ == "__main__":
    try:
        sys.exit(main())
    except KeyboardInterrupt:
        sys.exit(130)

#!/usr/bin/env python3
"""Runs a command that proves the program, writes what it says to a log, and prints how far it is, a line for each crate.

progress.py LOG COMMAND..

How long is left is told by tests/crate-seconds, lines 'cpu proofs CRATE SECONDS' of an earlier run, and by how fast this run has been.
The status is that of the command.
"""

import glob
import math
import os
import re
import subprocess
import sys
import time

TOP = os.path.dirname(os.path.dirname(os.path.abspath(__file__)))
PROGRAM = "shop_program"


def lines_of(name):
    with open(f"{TOP}/{name}", encoding="utf-8") as file:
        return file.read().splitlines()


def crates_below():
    """The crates that each crate of crates.txt names, without the libraries of the toolchain."""
    listed = [line.partition(":") for line in lines_of("crates.txt") if line and not line.startswith("#")]
    named = {name: below.split() for name, _, below in listed}
    return {name: [it for it in below if it in named] for name, below in named.items()}


def add_from_below(name, below, found):
    """Adds what a crate stands on to those that were found, each behind what it stands on itself, and then the crate."""
    for it in below[name]:
        if it not in found:
            add_from_below(it, below, found)
    found.append(name)


def seconds_of(crates):
    """The processor seconds that the proof of each crate took in an earlier run; a crate that is new since counts as most do."""
    found = [re.fullmatch(r"cpu proofs (\w+) (\d+)", line) for line in lines_of("tests/crate-seconds")]
    taken = {match[1]: int(match[2]) for match in found if match}
    middle = sorted(taken.values())[len(taken) // 2] if taken else 100
    return {name: max(taken.get(name, middle), 1) for name in crates}


def jobs():
    """How many crates the prover works at, as tests/gate has it."""
    number = os.environ.get("RT_JOBS", "")
    return int(number) if number.isdigit() and int(number) else len(os.sched_getaffinity(0))


def order_of(below, crates):
    """The crates as `rt ci` begins them where it has the choice: first those with the most lines of source in the longest chain from
    them up."""
    chain = {}
    for name in crates:
        sources = glob.glob(f"{TOP}/crates/{name}/**/*.rt", recursive=True)
        chain[name] = sum(len(lines_of(os.path.relpath(path, TOP))) for path in sources)
    lines = dict(chain)
    for name in reversed(crates):
        for it in below[name]:
            chain[it] = max(chain[it], lines[it] + chain[name])
    return sorted(crates, key=lambda it: -chain[it])


class Run:
    """What is known of a run that proves crates: who is proved, who is at work since when, and how fast it has been."""

    def __init__(self, below, seconds, order, jobs):
        self.below, self.seconds, self.order, self.jobs = below, seconds, order, jobs
        self.proved, self.began = set(), {}
        self.planned = self.took = 0.0
        self.begin(0.0)

    def next_of(self, began, proved):
        """The crates that idle processors begin with next."""
        ready = [it for it in self.order if it not in began and proved.issuperset(self.below[it])]
        return ready[: max(self.jobs - len(began) + len(proved), 0)]

    def begin(self, now):
        self.began.update(dict.fromkeys(self.next_of(self.began, self.proved), now))

    def end(self, name, now):
        """Notes that a crate is proved."""
        self.planned += self.seconds[name]
        self.took += now - self.began.setdefault(name, now)
        self.proved.add(name)
        self.begin(now)

    def left(self, now):
        """The seconds that are left, where the others go as fast as those that are proved, and each begins as soon as it can."""
        speed = self.planned / self.took if self.took > 0 else 1.0
        began, proved, at = set(self.began), set(self.proved), 0.0
        ends = [(max(self.seconds[it] / speed - now + self.began[it], 0.0), it) for it in began - proved]
        while ends:
            at, name = min(ends)
            ends.remove((at, name))
            proved.add(name)
            following = self.next_of(began, proved)
            began.update(following)
            ends += [(at + self.seconds[it] / speed, it) for it in following]
        return at


def told(run, now):
    """How far a run is, as a line."""
    count, of = len(run.proved), len(run.seconds)
    since = "" if count == 0 else ", less than a minute" if now < 60 else f", {now // 60:.0f} min"
    if count == of:
        return f"{count} of {of} crates proved and the program compiled{since}; running it"
    left = run.left(now)
    time_left = "less than a minute left" if left < 60 else f"about {math.ceil(left / 60)} min left"
    of_what = ": the program's own crate, and its two compilers" if count == of - 1 and PROGRAM not in run.proved else ""
    return f"{count} of {of} crates proved{since}; {time_left}{of_what}"


def follow(output, log, run):
    """Writes what the command says to the log, and prints a line where that tells of a crate."""
    started = time.monotonic()
    print(told(run, 0.0), flush=True)
    for line in output:
        log.write(line)
        log.flush()
        found = re.fullmatch(rb"rt: (\w+) (NOT )?PROVED\n", line, re.I)
        name = found and found[1].decode()
        if found and found[2]:
            print(f"{name} is not proved", flush=True)
        elif name in run.seconds and name not in run.proved:
            now = time.monotonic() - started
            run.end(name, now)
            print(told(run, now), flush=True)


def main(log, *command):
    below, crates = crates_below(), []
    add_from_below(PROGRAM, below, crates)
    run = Run(below, seconds_of(crates), order_of(below, crates), jobs())
    said = {"stdin": subprocess.DEVNULL, "stdout": subprocess.PIPE, "stderr": subprocess.STDOUT}
    with open(log, "wb") as file, subprocess.Popen(command, **said) as started:
        try:
            follow(started.stdout, file, run)
        except KeyboardInterrupt:
            # The command has the interrupt too, and its end is waited for.
            file.write(started.stdout.read())
            print("interrupted", flush=True)
    return started.returncode if started.returncode >= 0 else 128 - started.returncode


if __name__ == "__main__":
    if len(sys.argv) < 3:
        sys.exit(__doc__)
    sys.exit(main(*sys.argv[1:]))

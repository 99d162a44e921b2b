#!/usr/bin/env python3
"""Lists what the last check of a crate spent its time on, by function, the dearest first.

dearest.py CRATE    reads crates/CRATE/out/incremental, in which the check has left a file for each thing that it proved, at the time
                    when that was done; so the time between two files is what the second one took.

The check is to be one of a single job, from nothing:

    cd crates/CRATE && rm -rf out/incremental && rt check --jobs 1

The columns are seconds by the clock: in all; of types, borrows and what a function owns at its exits (`Lts`); of the goals that the
tactics proved (`Proof`); of the answers that a person wrote (`Answers`). Answers to dear goals make `Proof` cheaper, and nothing but
other code makes `Lts` cheaper.
"""

import collections
import os
import re
import sys

TOP = os.path.dirname(os.path.dirname(os.path.abspath(__file__)))
KINDS = ("Lts", "Proof", "Answers")
LEAST = 1.0


def files_of(folder):
    """The files that a check has left, by the time when each was done."""
    paths = [f"{at}/{name}" for at, _, names in os.walk(folder) for name in names if name.endswith(".oantt")]
    return sorted((os.stat(path).st_mtime_ns / 1e9, path) for path in paths)


def module_of(crate, path):
    """The function, or the file of definitions or of lemmas, that a file of the check is of, and its kind."""
    name = os.path.basename(path)[: -len(".oantt")]
    name = re.sub(r"\.decls$", "", re.sub(rf"^Rattle[-.]{crate}[-.](proofs\.|specs\.contracts\.)?", "", name))
    of_what, _, kind = name.rpartition(".")
    return (of_what, kind) if kind in KINDS else (name, "")


def seconds_of(crate):
    """The seconds that each function took, by kind."""
    taken = collections.defaultdict(collections.Counter)
    files = files_of(f"{TOP}/crates/{crate}/out/incremental")
    for (before, _), (at, path) in zip(files, files[1:]):
        of_what, kind = module_of(crate, path)
        taken[of_what][kind] += at - before
    return taken


def line_of(kinds, of_what):
    return f"{sum(kinds.values()):7.1f}  {'  '.join(f'{kinds[kind]:7.1f}' for kind in KINDS)}  {of_what}"


def main(crate):
    taken = seconds_of(crate)
    if not taken:
        sys.exit(f"no check has left anything in crates/{crate}/out/incremental")
    print(f"    all  {'  '.join(f'{kind:>7}' for kind in KINDS)}")
    print(line_of(sum(taken.values(), collections.Counter()), "the whole crate"))
    for of_what, kinds in sorted(taken.items(), key=lambda it: -sum(it[1].values())):
        if sum(kinds.values()) >= LEAST:
            print(line_of(kinds, of_what))


if __name__ == "__main__":
    if len(sys.argv) != 2:
        sys.exit(__doc__)
    main(sys.argv[1])

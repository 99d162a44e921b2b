#!/usr/bin/env python3
"""Looks whether each public call that takes an allocator has its row in docs/failures.md, and whether the tests that the rows name are
there. Prints what is missing, and fails where something is."""

import pathlib
import re
import sys

TOP = pathlib.Path(__file__).resolve().parent.parent
FOR_TESTS = ("library_tests", "memory_host", "test_volumes")
TESTS = TOP / "crates/library_tests/src"
IMPL_OR_FUNCTION = re.compile(r"^(impl[^\n{]*)|^( *)(pub )?fn (\w+)(?:<[^(]*>)?\(([^{;]*?)\)(?: ->|\n| \{)", re.M)


def exports(crate):
    """The names that a crate hands out."""
    library = crate / "src/lib.rt"
    uses = re.findall(r"pub use ([^;]+);", library.read_text()) if library.exists() else []
    return {name for use in uses for name in re.findall(r"\w+", use.split("::", 1)[-1])}


def calls(crate):
    """The public calls of a crate that take an allocator."""
    names = exports(crate)
    for file in sorted((crate / "src").glob("*.rt")):
        holder = None
        for impl, indent, public, name, parameters in IMPL_OR_FUNCTION.findall(file.read_text()):
            if impl:
                holder = re.findall(r"\b[A-Z]\w+", re.sub(r"<[^<>]*(?:<[^<>]*>[^<>]*)*>", "", impl))[-1:]
            elif public and re.search(r"\balloc:", parameters):
                if not indent and (name in names or file.name == "lib.rt"):
                    yield name
                elif indent and holder and holder[0] in names:
                    yield f"{holder[0]}::{name}"


def rows():
    """The rows of the table, each as its calls and the rest."""
    for line in (TOP / "docs/failures.md").read_text().splitlines():
        if line.startswith("| `"):
            yield line[2:].split(" | ", 1)


def missing_calls():
    """The calls of the program's crates that no row names."""
    named = set()
    for told, _ in rows():
        for group in told.split("; "):
            crate, *its = re.findall(r"`([^`]+)`", group)
            named |= {(crate, call) for call in its}
    for line in (TOP / "crates.txt").read_text().splitlines():
        crate = line.partition(":")[0]
        if crate and not crate.startswith(("#", *FOR_TESTS)):
            for call in calls(TOP / "crates" / crate):
                if (crate, call) not in named:
                    yield f"no row for {call} of {crate}"


def missing_tests():
    """The tests that a row names and that are not there: each is named by its layer, its file and its function."""
    layers = re.findall(r"^mod (\w+);$", (TESTS / "lib.rt").read_text(), re.M)
    cases = "".join(file.read_text() for file in [TOP / "tests/end_to_end", *sorted((TOP / "tests/cases").iterdir())])
    for _, tests in rows():
        for layer, file, test in re.findall(r"`(\w+)` `(\w+)` `(\w+)`", tests):
            source = TESTS / layer / f"{file}.rt"
            if layer not in layers or not source.exists() or not re.search(rf"#\[test\]\s*fn {test}\(", source.read_text()):
                yield f"no test {test} in {file} of {layer}"
        for case in re.findall(r"'([^']+)'", tests):
            if f"'{case}'" not in cases:
                yield f"no case '{case}'"


if __name__ == "__main__":
    missing = [*missing_calls(), *missing_tests()]
    print(*missing, sep="\n", end="\n" if missing else "")
    sys.exit(bool(missing))

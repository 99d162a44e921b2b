#!/usr/bin/env python3
"""Looks in how many files what is asked is told apart by its command (`Ask::`), outside of the crate that has the type and of the tests:
where words become it, and where it is done. Prints them, and fails where there are more than MOST."""

import pathlib
import sys

TOP = pathlib.Path(__file__).resolve().parent.parent
MOST = 4
APART = ("shop_jobs", "library_tests")


def files_that_match():
    """The files of the sources that name a variant of `Ask`."""
    for file in sorted((TOP / "crates").glob("*/src/**/*.rt")):
        if file.relative_to(TOP).parts[1] not in APART and "Ask::" in file.read_text().replace("VolumeAsk::", ""):
            yield str(file.relative_to(TOP))


def main():
    files = list(files_that_match())
    if len(files) > MOST:
        print(f"what is asked is told apart in {len(files)} files, and {MOST} are enough: {', '.join(files)}")
    return len(files) > MOST


if __name__ == "__main__":
    sys.exit(main())
